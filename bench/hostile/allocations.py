#!/usr/bin/env python3
"""Refuses each allocation of a run of the built program in turn, and prints what was tried and what stood. Outside the gate.

Use: bench/hostile/allocations.py, after ./tensors was built. It needs a C compiler `cc` and the C library of GNU, under whose
malloc and realloc it puts a library of a few lines. (`rt try --fail-alloc N` does the same to a program that it compiles anew.)
With a refused allocation a run ends with status 5, having written whole answers of some of its first lines, and nothing in a
generated run; or as if nothing had happened. It ends with status 1 where something else stood.
"""
import os
import pathlib
import subprocess
import sys
import tempfile

TOP = pathlib.Path(__file__).resolve().parent.parent.parent
PROGRAM = TOP / "crates" / "tensors" / "out" / "tensors"
NO_MEMORY = 5
SHIM = r"""
#include <stddef.h>
#include <stdlib.h>
#include <unistd.h>
extern void *__libc_malloc(size_t), *__libc_realloc(void *, size_t);
static long left = -1;
static int refused(void) {
    const char *nth = getenv("REFUSE");
    if (left < 0) left = nth ? atol(nth) : 0;
    if (left == 0 || --left > 0) return 0;
    (void)!write(atoi(getenv("TELL")), "x", 1);
    return 1;
}
void *malloc(size_t n) { return refused() ? NULL : __libc_malloc(n); }
void *realloc(void *p, size_t n) { return refused() ? NULL : __libc_realloc(p, n); }
"""
# The stored run; states told apart; tables of both kinds of axes; groups, states and classes; refusals of every sort.
RUNS = (
    ("the stored run", ["form 2 V", "form 2@z V"], []),
    ("differ", ["differ 6/mmm mmm [V2]"], []),
    ("tables", ["form m-3m V6", "form 32 V[V2]", "voigt 6mm [[V2]2] s", "same 6mm 4mm [V2]"], []),
    ("groups, states and classes", ["group m-3m1'", "states m-3m 4mm", "pairs m-3m 3m@p"], []),
    ("refusals", ["x", "form 3' V", "form 1 V6V", "voigt 1 V3 c", "states 4/mmm 6", "form 1 1"], []),
    ("a generated run", [], ["--generate", "30", "--seed", "1"]),
    ("words that aren't accepted", [], ["--frob"]),
)


def run(shim, lines, words, nth):
    """The status and the output of a run with its nth allocation refused, and whether there was such a one."""
    told, tell = os.pipe()
    with tempfile.TemporaryFile() as given:
        given.write("".join(line + "\n" for line in lines).encode())
        given.seek(0)
        ran = subprocess.run(
            [PROGRAM, *words], stdin=given, capture_output=True, check=False, pass_fds=[tell],
            env={"LD_PRELOAD": shim, "REFUSE": str(nth), "TELL": str(tell)},
        )
    os.close(tell)
    was_refused = os.read(told, 1) != b""
    os.close(told)
    return ran.returncode, ran.stdout, was_refused


def fronts(shim, lines, words):
    """What may be written where memory runs out: nothing, or the answers of so many of the first lines."""
    return [b""] if words else [run(shim, lines[:count], [], 0)[1] for count in range(len(lines))]


def sweep(shim, name, lines, words):
    """Refuses each allocation of a run. Whether each run ended as it should."""
    status, whole, _ = run(shim, lines, words, 0)
    allowed = fronts(shim, lines, words)
    short = other = wrong = 0
    nth = 0
    while True:
        nth += 1
        got, out, was_refused = run(shim, lines, words, nth)
        if got == NO_MEMORY and out in allowed and was_refused:
            short += 1
        elif got == status and out == whole:
            other += was_refused
        else:
            wrong += 1
            print(f"WRONG {name}, allocation {nth}: status {got}, {len(out)} bytes")
        if not was_refused:
            break
    print(f"{'WRONG' if wrong else 'ok   '} {name}: status {status}, {len(whole)} bytes; of {nth - 1} refused allocations "
          f"{short} ended with status 5, {other} changed nothing", flush=True)
    return wrong == 0


def main():
    if not os.access(PROGRAM, os.X_OK):
        sys.exit("build it first: echo 'form 2 V' | ./tensors")
    with tempfile.TemporaryDirectory() as room:
        source, shim = os.path.join(room, "shim.c"), os.path.join(room, "shim.so")
        pathlib.Path(source).write_text(SHIM)
        subprocess.run(["cc", "-shared", "-fPIC", "-O1", "-fno-builtin", "-o", shim, source], check=True)
        stood = [sweep(shim, *one) for one in RUNS]
    sys.exit(not all(stood))


main()
