#!/usr/bin/env python3
"""Writes N requests of a catalogue, the same for the same N: forms, Voigt tables, groups and transitions of the 122 types, and now
and then a line that is refused.

usage: examples/scale/requests.py N
"""
import itertools
import pathlib
import sys

TYPES = (pathlib.Path(__file__).resolve().parent.parent.parent / "evidence" / "types.txt").read_text().split()
TENSORS = "V [V2] aeV aeV2 V[V2] {V2} [[V2]2] e[V2] [V3] aeV[V2]".split()


def lines():
    for turn in itertools.count():
        for at, symbol in enumerate(TYPES):
            other, tensor = TYPES[(at * 7 + turn) % 122], TENSORS[(at + turn) % 10]
            yield f"form {symbol} {tensor}"
            yield f"same {symbol} {other} {tensor}"
            yield f"group {symbol}"
            yield f"pairs {symbol} {other}"
        yield "form m3m V"


sys.stdout.writelines(f"{it}\n" for it in itertools.islice(lines(), int(sys.argv[1])))
