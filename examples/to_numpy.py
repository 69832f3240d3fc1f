"""Answers of `form` and `voigt` as linear maps of the free components: read(lines) gives for each answer its header, the names
of its free components, and an array of shape (.., number of free) whose product with their values is the tensor."""
import re
import sys

import numpy as np


def read(lines):
    answers, rows = [], {}
    for line in [*lines, "same"]:
        words = line.split()
        if words and words[0] in ("form", "voigt", "group", "states", "pairs", "differ", "same", "error"):
            if rows:
                answers.append((header, *as_array(rows)))
            header, rows = line, {}
        elif re.match(r"[Tcs]\d* (free|=)", line):
            rows[words[0]] = words[0] if words[1] == "free" else words[2]
    return answers


def as_array(rows):
    free = [name for name, value in rows.items() if value == name]
    places = [tuple(int(digit) - 1 for digit in name[1:]) for name in rows]
    array = np.zeros([1 + max(place[k] for place in places) for k in range(len(places[0]))] + [len(free)])
    for place, value in zip(places, rows.values()):
        for sign, over, under, name in re.findall(r"([+-]?)(?:(\d+)(?:/(\d+))?\*)?([Tcs]\d*)", value):
            array[place + (free.index(name),)] += float(sign + (over or "1")) / float(under or 1)
    return free, array


if __name__ == "__main__":
    for header, free, array in read(sys.stdin):
        print(header, free, array.shape)
