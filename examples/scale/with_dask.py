#!/usr/bin/env python3
"""Answers a large input by the workers of Dask, the answers in the order of the requests.

usage: examples/scale/with_dask.py PROGRAM WORKERS <requests >answers
       examples/scale/with_dask.py PROGRAM tcp://HOST:PORT <requests >answers

With a number it starts that many workers here; with an address it uses the workers of a running scheduler, which find the
program at the same path. A worker that is lost costs the pieces that it held: the scheduler gives them to another one.
"""
import contextlib
import itertools
import os
import subprocess
import sys
import tempfile

from distributed import Client, LocalCluster

LINES = int(os.environ.get("LINES_OF_A_PIECE", "20000"))


def answers(program, first, head, piece):
    """The answers to a piece behind the head (nothing, or the line of format 2), refusals numbered as in the whole input."""
    ran = subprocess.run([program], input=head + piece, capture_output=True, check=False)
    if ran.returncode not in (0, 1):
        raise RuntimeError(f"the piece from line {first} on ended with status {ran.returncode}")
    if ran.returncode == 0:
        return ran.stdout
    lines = ran.stdout.split(b"\n")
    for at, line in enumerate(lines):
        if line.startswith(b"error "):
            words = line.split(b" ")
            words[1] = b"%d" % (int(words[1]) + first - 1 - head.count(b"\n"))
            lines[at] = b" ".join(words)
    return b"\n".join(lines)


def main(program, where):
    with contextlib.ExitStack() as open_things:
        cluster = where
        if where.isdigit():
            room = open_things.enter_context(tempfile.TemporaryDirectory())
            here = {"threads_per_worker": 1, "dashboard_address": None, "local_directory": room}
            cluster = open_things.enter_context(LocalCluster(n_workers=int(where), **here))
        client = open_things.enter_context(Client(cluster))
        at_once = 3 * max(len(client.scheduler_info()["workers"]), 1)
        lines = iter(sys.stdin.buffer)
        begin = next(lines, b"")
        head, lines = (begin, lines) if begin == b"format 2\n" else (b"", itertools.chain([begin], lines))
        firsts = itertools.count(2 if head else 1, LINES)
        waiting = []
        while True:
            piece = b"".join(itertools.islice(lines, LINES))
            if piece:
                waiting.append(client.submit(answers, program, next(firsts), head, piece, pure=False, retries=3))
            if not waiting:
                break
            if len(waiting) >= at_once or not piece:
                sys.stdout.buffer.write(waiting.pop(0).result())


if __name__ == "__main__":
    main(*sys.argv[1:])
