#!/usr/bin/env python3
"""The elements of the pair groups of a transition, for a class whose pair group has no name (`none`).

usage: printf 'group G\ngroup F\nstates G F\npairs G F\n' | ./tensors | examples/pair_elements.py

The pair group of a class is the elements h of F with g⁻¹hg in F, g the representative of the class's least state.
"""
import itertools
import math
import sys

VALUES = {"1": 1, "1/2*r3": math.sqrt(3) / 2, "1/2": 1 / 2, "0": 0, "-1/2": -1 / 2, "-1/2*r3": -math.sqrt(3) / 2, "-1": -1}


def operation(words):
    """Nine entries and the mark."""
    return [VALUES[it] for it in words[:9]], words[-1] == "primed"


def key(it):
    return tuple(round(100 * entry) for entry in it[0]), it[1]


def product(x, y):
    return [sum(x[0][3 * i + k] * y[0][3 * k + j] for k in range(3)) for i, j in itertools.product(range(3), repeat=2)], x[1] != y[1]


def inverse(x):
    return [x[0][3 * j + i] for i, j in itertools.product(range(3), repeat=2)], x[1]


groups, states, words = [], {}, {}
for line in sys.stdin.read().splitlines():
    parts = line.split()
    if parts[0] == "group":
        groups.append([])
    elif parts[0] == "element":
        groups[-1].append(operation(parts[2:]))
        words[key(groups[-1][-1])] = " ".join(parts[2:])
    elif parts[0] == "state":
        states[int(parts[1])] = operation(parts[2:])
    elif parts[0] == "class":
        sub, g = groups[1], states[int(parts[3])]
        members = {key(it) for it in sub}
        kept = [h for h in sub if key(product(product(inverse(g), h), g)) in members]
        name, order = parts[parts.index("group") + 1], int(parts[parts.index("group") + 3])
        assert len(kept) == order, line
        print(f"class {parts[1]}: {name}, order {order}")
        if name == "none":
            print("\n".join(f"    {words[key(h)]}" for h in kept))
