#!/usr/bin/env python3
"""Fits the free stiffnesses of a class to numbers, and prints the 6 x 6 matrix.

usage: echo 'voigt 6mm [[V2]2] c' | ./tensors | examples/fit_stiffness.py NUMBERS     each line of NUMBERS: row column value
"""
import sys

import numpy as np
from to_numpy import read

((header, free, stiffness),) = read(sys.stdin.read().splitlines())
data = np.loadtxt(sys.argv[1], ndmin=2)
rows, columns = data[:, 0].astype(int) - 1, data[:, 1].astype(int) - 1
values, _, rank, _ = np.linalg.lstsq(stiffness[rows, columns], data[:, 2], rcond=None)
if rank < len(free):
    sys.exit(f"the numbers fix {rank} of {len(free)} constants")
print(header)
print("  ".join(f"{name} = {value:.2f}" for name, value in zip(free, values)))
print("\n".join(" ".join(f"{entry:8.2f}" for entry in row) for row in stiffness @ values))
