"""The magnetic point groups of all 1651 magnetic space groups in spglib's database, each set of operations once.

command: /usr/bin/python3 evidence/groups.py >evidence/groups.txt

A line: the number of the first magnetic space group with these operations (UNI), its number in the list of Belov, Neronova and
Smirnova, the class that spglib names where no operation is primed (else -), and the operations, each as nine Cartesian
entries row by row and `primed`. Axes: z along c, x along a, y normal to both; c as it stands in the database's settings.
"""
import math

import numpy as np
import spglib

NAMES = {1.0: "1", math.sqrt(0.75): "1/2*r3", 0.5: "1/2", 0.0: "0", -0.5: "-1/2", -math.sqrt(0.75): "-1/2*r3", -1.0: "-1"}
HEXAGONAL = np.array([[1, -0.5, 0], [0, math.sqrt(0.75), 0], [0, 0, 1]])


def text(rotation, reverses, number):
    matrix = HEXAGONAL @ rotation @ np.linalg.inv(HEXAGONAL) if 143 <= number <= 194 else rotation
    entries = [next(name for value, name in NAMES.items() if abs(value - entry) < 1e-9) for entry in matrix.ravel()]
    return " ".join(entries) + (" primed" if reverses else "")


def class_of(number):
    """The class of the space group type with this number."""
    types = (spglib.get_spacegroup_type(hall) for hall in range(1, 531))
    return next(it["pointgroup_international"] for it in types if it["number"] == number)


seen = set()
for uni in range(1, 1652):
    kind, found = spglib.get_magnetic_spacegroup_type(uni), spglib.get_magnetic_symmetry_from_database(uni)
    operations = frozenset(text(r, t, kind["number"]) for r, t in zip(found["rotations"], found["time_reversals"]))
    if operations not in seen:
        seen.add(operations)
        name = class_of(kind["number"]) if kind["type"] == 1 else "-"
        print(uni, kind["bns_number"], name, "; ".join(sorted(operations)), sep="\t")
