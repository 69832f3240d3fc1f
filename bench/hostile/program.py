#!/usr/bin/env python3
"""Runs the built program where input, output or words are hostile, and prints what was tried and what stood. Outside the gate.

Use: bench/hostile/program.py [quick], after ./tensors was built. `quick` leaves out the inputs of 4 GiB.
It ends with status 1 where something else stood than should.
"""
import os
import pathlib
import signal
import subprocess
import sys
import tempfile

TOP = pathlib.Path(__file__).resolve().parent.parent.parent
PROGRAM = str(TOP / "crates" / "tensors" / "out" / "tensors")
LIMIT = 1 << 32
ONE = b"form 1 1\n"
ONE_ANSWER = b"form 1 1 free 1 of 1\nT free\n"
VECTOR = b"form 1 V\n"
VECTOR_ANSWER = b"form 1 V free 3 of 3\nT1 free\nT2 free\nT3 free\n"
SUMMARY = (
    b"lines 3\nform 1\ngroup 1\nvoigt 0\nstates 0\npairs 0\ndiffer 0\nsame 1\nlong 0\nsyntax 0\nprimes 0\nrank 0\n"
    b"shape 0\nnotsub 0\ntoolarge 0\nfree 1\nend 3\n"
)
wrong = 0


def stands(tried, holds, stood):
    """Prints what was tried and what stood."""
    global wrong
    wrong += not holds
    print(f"{'ok   ' if holds else 'WRONG'} {tried}: {stood}", flush=True)


def shown(data):
    """The first bytes of an output."""
    return repr(data) if len(data) < 60 else f"{data[:40]!r} .. ({len(data)} bytes)"


def run(lines, words=(), **given):
    """The status and the outputs of a run over these bytes."""
    ran = subprocess.run([PROGRAM, *words], input=lines, capture_output=True, check=False, **given)
    return ran.returncode, ran.stdout, ran.stderr


def expect(tried, got, status, out):
    """A run ended with this status and wrote these bytes."""
    stands(tried, got[0] == status and got[1] == out, f"status {got[0]}, {shown(got[1])}")


def words():
    for given in ["--frob"], ["--help"], ["--seed", "1"], ["--generate", "3", "--seed", "0"], ["x"], [b"\xff"]:
        got = run(ONE, given)
        holds = got[0] == 2 and got[1] == b"" and got[2] == b"usage: tensors [--generate N --seed S]\n"
        stands(f"words {given}", holds, f"status {got[0]}, {shown(got[1])}, on standard error {shown(got[2])}")
    expect("words --generate 3 --seed 1", run(ONE, ["--generate", "3", "--seed", "1"]), 0, SUMMARY)
    first = run(b"", ["--generate", "300", "--seed", "7"])
    again = run(b"", ["--generate", "300", "--seed", "7"])
    stands("300 lines from seed 7, twice", first == again and first[0] in (0, 1), f"status {first[0]}, {shown(first[1])}")
    with open("/dev/full", "wb") as full:
        status = subprocess.run([PROGRAM, "--generate", "3", "--seed", "1"], stdout=full, check=False).returncode
    stands("a generated run on a full disk", status == 4, f"status {status}")


def outputs():
    closed = subprocess.run(["sh", "-c", 'exec "$0" >&-', PROGRAM], input=ONE, check=False).returncode
    stands("standard output closed", closed == 4, f"status {closed}")
    with open("/dev/full", "wb") as full:
        status = subprocess.run([PROGRAM], input=ONE, stdout=full, check=False).returncode
    stands("a full disk", status == 4, f"status {status}")
    for name, action in ("ends the process", signal.SIG_DFL), ("is ignored", signal.SIG_IGN):
        status, out = leave_early(action)
        holds = status in (4, -signal.SIGPIPE) and (ONE_ANSWER * 50).startswith(out)
        stands(f"a reader that leaves, where SIGPIPE {name}", holds, f"status {status}, {shown(out)}")


def leave_early(action):
    """Takes 30 bytes of the answers to many lines, and leaves."""
    with tempfile.TemporaryFile() as lines:
        lines.write(ONE * 100000)
        lines.seek(0)
        ran = subprocess.Popen(
            [PROGRAM], stdin=lines, stdout=subprocess.PIPE, restore_signals=False,
            preexec_fn=lambda: signal.signal(signal.SIGPIPE, action),
        )
        out = os.read(ran.stdout.fileno(), 30)
        ran.stdout.close()
        return ran.wait(), out


def inputs():
    here = os.open(".", os.O_RDONLY)
    ran = subprocess.run([PROGRAM], stdin=here, capture_output=True, check=False)
    os.close(here)
    expect("a directory as standard input", (ran.returncode, ran.stdout), 3, b"")
    ran = subprocess.run(["sh", "-c", 'exec "$0" <&-', PROGRAM], capture_output=True, check=False)
    expect("standard input closed", (ran.returncode, ran.stdout), 3, b"")
    expect("nothing", run(b""), 0, b"")
    expect("a line of 50 MB, and another", run(b"x" * 50000000 + b"\n" + ONE), 1, b"error 1 1001 long\n" + ONE_ANSWER)
    expect("a line of 50 MB without its end", run(ONE + b"V" * 50000000), 1, ONE_ANSWER + b"error 2 1001 long\n")
    expect("a line with CR LF", run(b"form 1 1\r\n"), 1, b"error 1 9 syntax\n")
    expect("900 times V", run(b"form 1 " + b"V" * 900), 1, b"error 1 8 rank\n")
    expect("500 times [", run(b"form 1 " + b"[" * 500), 1, b"error 1 508 syntax\n")


def all_bytes():
    got = run(bytes(range(256)))
    expect("the bytes 0 to 255", got, 1, b"error 1 1 syntax\nerror 2 1 syntax\n")
    others = [byte for byte in range(256) if byte != 10]
    begins = {byte: 2 for byte in b"fgvspd"}
    want = b"".join(b"error %d %d syntax\n" % (k + 1, begins.get(byte, 1)) for k, byte in enumerate(others))
    expect("each byte but LF as a line", run(b"".join(bytes([byte]) + b"\n" for byte in others)), 1, want)
    for front, back in (b"form ", b" V"), (b"form 1", b" V"), (b"form 1 ", b""), (b"form 1 V", b""), (b"form", b"1 V"):
        each_byte(front, back, others)


def each_byte(front, back, others):
    """Each byte between the two: as many answers as lines, each alone the same as among the others."""
    lines = [front + bytes([byte]) + back + b"\n" for byte in others]
    status, out, _ = run(b"".join(lines))
    alone = [run(line)[1] for line in lines]
    numbered = b"".join(answer.replace(b"error 1 ", b"error %d " % (k + 1), 1) for k, answer in enumerate(alone))
    holds = status == 1 and out == numbered and all(answer.count(b"\n") for answer in alone)
    refused = sum(answer.startswith(b"error ") for answer in alone)
    stands(f"each byte in {front!r} _ {back!r}", holds, f"status {status}, {refused} of {len(lines)} refused")


def past_the_limit():
    """Inputs of 2^32 bytes and of one more: a line that is answered, then one that is too long."""
    for tried, size, status, out in (
        ("2^32 bytes", LIMIT, 1, ONE_ANSWER + b"error 2 1001 long\n"),
        ("2^32 + 1 bytes", LIMIT + 1, 6, ONE_ANSWER),
        ("5 GiB", 5 << 30, 6, ONE_ANSWER),
    ):
        ran = subprocess.Popen([PROGRAM], stdin=subprocess.PIPE, stdout=subprocess.PIPE)
        feed(ran.stdin, size)
        got = ran.stdout.read()
        expect(tried, (ran.wait(), got), status, out)


def feed(pipe, size):
    """Writes a line and then so many bytes in all, as far as they are read."""
    piece = b"x" * (1 << 20)
    left = size - len(ONE)
    try:
        pipe.write(ONE)
        while left:
            left -= pipe.write(piece[:left]) or 0
        pipe.close()
    except BrokenPipeError:
        pass


def side_by_side():
    """A thousand runs at once: each waits for its input until all have begun."""
    runs = [subprocess.Popen([PROGRAM], stdin=subprocess.PIPE, stdout=subprocess.PIPE) for _ in range(1000)]
    for ran in runs:
        ran.stdin.write(VECTOR)
        ran.stdin.close()
    same = sum(ran.stdout.read() == VECTOR_ANSWER and ran.wait() == 0 for ran in runs)
    for ran in runs:
        ran.wait()
        ran.stdout.close()
    stands("a thousand runs side by side", same == 1000, f"{same} gave the answer and status 0")


def little_memory():
    """With less and less address space: the answer, or a status that says that memory is short."""
    want = run(b"form m-3m V6\n")[1]
    seen = {}
    for kib in 100000, 20000, 8000, 6000, 5000, 4500, 4000, 3500, 3000, 2500, 2000:
        ran = subprocess.run(
            ["sh", "-c", f'ulimit -v {kib}; exec "$0"', PROGRAM], input=b"form m-3m V6\n", capture_output=True, check=False
        )
        seen[kib] = ran.returncode
        # Below what the program itself needs, it isn't started at all.
        whole = ran.returncode == 0 and ran.stdout == want
        if not whole and (ran.returncode == 0 or ran.stdout):
            stands(f"{kib} KiB of memory", False, f"status {ran.returncode}, {shown(ran.stdout)}")
    stands("less and less memory: whole answers or none", True, " ".join(f"{k}K:{v}" for k, v in seen.items()))


def main():
    if not os.access(PROGRAM, os.X_OK):
        sys.exit("build it first: echo 'form 2 V' | ./tensors")
    words()
    outputs()
    inputs()
    all_bytes()
    side_by_side()
    little_memory()
    if "quick" not in sys.argv[1:]:
        past_the_limit()
    print(f"{wrong} wrong")
    sys.exit(wrong > 0)


main()
