#!/usr/bin/env python3
"""Compares the built program with the same things computed apart, in floating point. Outside the gate.

Use: bench/cross_check.py, after ./tensors was built. It reads the elements of the groups from the program, and computes
- the number of free components of 14 symbols with each mark under the 122 types of magnetic point group, as the mean of
  the characters of the elements;
- for one in seven of the tables up to rank 3: whether a choice of numbers for the free components gives a tensor that every
  element leaves unchanged;
- for each two of the types and of 20 symbols in other settings: the element that isn't in the first group, or the states
  as left cosets and the pair classes as double cosets, by trying all elements; the group of each name;
- for the Voigt tables of the six symbols that have one, with two choices of marks and both letters, under the types: the
  free entries, and each entry at each basis tensor, from the invariant tensors as the range of the mean over all
  elements;
- for one in eleven of the pairs of a type and a subgroup: the components that tell the states apart with their values, from
  the table of the subgroup and the matrix of each state.
It ends with status 1 where an answer differs.
"""
import math
import pathlib
import re
import subprocess
import sys

TOP = pathlib.Path(__file__).resolve().parent.parent
PROGRAM = TOP / "crates" / "tensors" / "out" / "tensors"
SETTINGS = (
    "2@x 2@z 2@xy m@x m@z m@xy 2/m@x 222@d mm2@d m2m -4m2 3@p -3@p 32@p 3m@p -3m@p 312 31m -31m -62m"
).split()


def answers(lines):
    """The lines that the program writes."""
    ran = subprocess.run([PROGRAM], input="\n".join(lines).encode(), capture_output=True, check=False)
    return ran.stdout.decode().split("\n")


def types():
    """The 122 types."""
    return (TOP / "evidence" / "types.txt").read_text().split()


def number(text):
    """The value of a + b√3."""
    value = 0.0
    for term in text.replace("-", "+-").split("+"):
        if term.endswith("r3"):
            factor = {"": "1", "-": "-1"}.get(term[:-2].rstrip("*"), term[:-2].rstrip("*"))
            value += fraction(factor) * math.sqrt(3)
        elif term:
            value += fraction(term)
    return value


def fraction(text):
    over, _, under = text.partition("/")
    return int(over) / int(under or 1)


def operation(words):
    """An operation as its entries in thousandths with the greater first, and its mark: this rises in the order of operations."""
    entries = tuple(-round(1000 * number(word)) for word in words[:9])
    return entries, int(words[-1] == "primed")


def elements(symbol):
    return [operation(line.split()[2:]) for line in answers(["group " + symbol])[1:] if line]


def matrix(element):
    entries = [-entry / 1000 for entry in element[0]]
    half = math.sqrt(3) / 2
    exact = [math.copysign(half, entry) if abs(abs(entry) - half) < 0.01 else round(2 * entry) / 2 for entry in entries]
    return [exact[0:3], exact[3:6], exact[6:9]]


def times(a, b):
    return [[sum(a[i][k] * b[k][j] for k in range(3)) for j in range(3)] for i in range(3)]


def determinant(m):
    return sum(m[0][i] * (m[1][(i + 1) % 3] * m[2][(i + 2) % 3] - m[1][(i + 2) % 3] * m[2][(i + 1) % 3]) for i in range(3))


PRODUCTS = {}


def product(a, b):
    if (a, b) not in PRODUCTS:
        entries = tuple(-round(1000 * entry) for row in times(matrix(a), matrix(b)) for entry in row)
        PRODUCTS[a, b] = entries, a[1] ^ b[1]
    return PRODUCTS[a, b]


def sym(p, n=1):
    return (p(n) ** 2 + p(2 * n)) / 2


def anti(p, n=1):
    return (p(n) ** 2 - p(2 * n)) / 2


CHARACTERS = {
    "V": lambda p: p(1),
    "V2": lambda p: p(1) ** 2,
    "V3": lambda p: p(1) ** 3,
    "[V2]": sym,
    "{V2}": anti,
    "V[V2]": lambda p: p(1) * sym(p),
    "[V3]": lambda p: (p(1) ** 3 + 3 * p(1) * p(2) + 2 * p(3)) / 6,
    "[V4]": lambda p: (p(1) ** 4 + 6 * p(1) ** 2 * p(2) + 3 * p(2) ** 2 + 8 * p(1) * p(3) + 6 * p(4)) / 24,
    "[V2][V2]": lambda p: sym(p) ** 2,
    "[V2]{V2}": lambda p: sym(p) * anti(p),
    "[[V2]2]": lambda p: (sym(p) ** 2 + sym(p, 2)) / 2,
    "{[V2]2}": lambda p: (sym(p) ** 2 - sym(p, 2)) / 2,
    "[{V2}2]": lambda p: (anti(p) ** 2 + anti(p, 2)) / 2,
    "[[V2]3]": lambda p: (sym(p) ** 3 + 3 * sym(p) * sym(p, 2) + 2 * sym(p, 3)) / 6,
}


def traces(m):
    """The traces of the powers."""
    power, found = m, [3.0]
    for _ in range(6):
        found.append(sum(power[i][i] for i in range(3)))
        power = times(power, m)
    return found


def counts(groups):
    """The requests for tables that have another number of free components than the characters say."""
    lines, wanted = [], []
    for symbol, group in groups.items():
        members = [(traces(matrix(g)), determinant(matrix(g)), -1 if g[1] else 1) for g in group]
        for marks in ("", "e", "a", "ae"):
            for word, character in CHARACTERS.items():
                total = sum(
                    character(lambda n, t=t: t[n]) * (det if "e" in marks else 1) * (time if "a" in marks else 1)
                    for t, det, time in members
                )
                lines.append(f"form {symbol} {marks}{word}")
                wanted.append(round(total / len(group)))
    heads = [line.split() for line in answers(lines) if line.startswith("form ")]
    assert len(heads) == len(lines)
    return len(lines), [line for line, head, count in zip(lines, heads, wanted) if int(head[4]) != count]


def row(text, free):
    """What a sum of free components comes to."""
    value = 0.0
    for term in text.replace("-", "+-").split("+"):
        factor, found, name = term.rpartition("T")
        if found:
            value += fraction({"": "1", "-": "-1"}.get(factor, factor.rstrip("*"))) * free["T" + name]
    return value


def tensor(lines, rank):
    """The components at a choice of numbers for the free ones."""
    free = {line.split()[0]: math.sin(7 * place + 1) for place, line in enumerate(lines) if line.endswith(" free")}
    values = {}
    for line in lines:
        name, _, rest = line.partition(" ")
        values[name[1:]] = free[name] if rest == "free" else row(rest.removeprefix("= "), free)
    assert len(values) == 3 ** rank
    return values


def carried(values, index, m, done=""):
    """The component of an index in the tensor that a matrix carries."""
    if not index:
        return values[done]
    entries = m[int(index[0]) - 1]
    return sum(entry * carried(values, index[1:], m, done + str(axis)) for axis, entry in enumerate(entries, 1) if entry)


def invariance(groups):
    """The requests, one in seven, whose tables hold a tensor that some element changes."""
    words = ("V", "V2", "[V2]", "{V2}", "V3", "V[V2]", "[V3]")
    lines = [f"form {symbol} {marks}{word}" for symbol in groups for marks in ("", "e", "a", "ae") for word in words][::7]
    written, wrong = iter(answers(lines)), []
    for line in lines:
        _, symbol, jahn = line.split()
        count = int(next(written).split()[-1])
        values = tensor([next(written) for _ in range(count)], round(math.log(count, 3)))
        for g in groups[symbol]:
            m = matrix(g)
            sign = (determinant(m) if "e" in jahn else 1) * (-1 if "a" in jahn and g[1] else 1)
            if any(abs(sign * carried(values, index, m) - value) > 1e-9 for index, value in values.items()):
                wrong.append(line)
                break
    return len(lines), wrong


def closure(generators, identity):
    found, left = {identity}, [identity]
    while left:
        element = left.pop()
        for generator in generators:
            new = product(element, generator)
            if new not in found:
                found.add(new)
                left.append(new)
    return sorted(found)


def classes(whole, sub):
    """The states, and for each class its states, whether they can be exchanged, the pair group and the twinning group."""
    state, least = {}, []
    for element in whole:
        if element not in state:
            least.append(element)
            for other in sub:
                state[product(element, other)] = len(least)
    found, done = [], set()
    for number_of_state, first in enumerate(least, 1):
        if number_of_state in done:
            continue
        members = sorted({state[product(other, first)] for other in sub})
        done.update(members)
        inverse = next(element for element in whole if product(element, first) == whole[0])
        swaps = any(state[product(h, first)] == 1 and state[h] == number_of_state for h in whole)
        pair = [h for h in sub if product(product(inverse, h), first) in set(sub)]
        found.append((members, swaps, pair, closure(sub + [first], whole[0])))
    return least, found


def expected(number_of_line, first, second, groups):
    """What is compared with the answers to states and pairs: refusals as lines, else parts."""
    whole, sub = groups[first], groups[second]
    outside = next((place for place, element in enumerate(sub, 1) if element not in set(whole)), None)
    if outside is not None:
        column = len(first) + 2
        return None, [
            f"error {number_of_line} {column + len('states ')} notsub {outside}",
            f"error {number_of_line + 1} {column + len('pairs ')} notsub {outside}",
        ]
    return classes(whole, sub), None


def same_class(line, group_class, groups):
    words = line.split()
    at = words.index("swappable")
    members, swaps, pair, twin = group_class
    named = [(words[at + 3], int(words[at + 5]), pair), (words[at + 7], int(words[at + 9]), twin)]
    for name, order, group in named:
        if name != "none" and name not in groups:
            groups[name] = elements(name)
        if order != len(group) or (name != "none" and groups[name] != group):
            return False
    return [int(word) for word in words[3:at]] == members and (words[at + 1] == "yes") == swaps


def transitions(groups):
    """The pairs of groups whose states or pair classes are others than found by trying all elements."""
    pairs = [(first, second) for first in list(groups) for second in list(groups)]
    written = iter(answers([f"{kind} {first} {second}" for first, second in pairs for kind in ("states", "pairs")]))
    wrong, subgroups = [], 0
    for place, (first, second) in enumerate(pairs):
        found, refusals = expected(2 * place + 1, first, second, groups)
        if refusals:
            right = [next(written), next(written)] == refusals
        else:
            subgroups += 1
            least, group_classes = found
            right = next(written) == f"states {first} {second} count {len(least)}"
            right &= [operation(next(written).split()[2:]) for _ in least] == least
            right &= next(written) == f"pairs {first} {second} states {len(least)} classes {len(group_classes)}"
            right &= all([same_class(next(written), group_class, groups) for group_class in group_classes])
        if not right:
            wrong.append(f"{first} {second}")
    return len(pairs), subgroups, wrong


VOIGT = {"[V2]": (2,), "V[V2]": (1, 2), "[V2]V": (2, 1), "[V2][V2]": (2, 2), "[V2]2": (2, 2), "[[V2]2]": (2, 2)}
PAIRS = [(0, 0), (1, 1), (2, 2), (1, 2), (0, 2), (0, 1)]


def entry_matrix(m, blocks):
    """What an operation does to entries, each a component: entries by entries."""
    parts = []
    for block in blocks:
        if block == 1:
            parts.append(m)
        else:
            parts.append(
                [[m[i][k] * m[j][l] + (m[i][l] * m[j][k] if k != l else 0) for k, l in PAIRS] for i, j in PAIRS]
            )
    whole = [[1.0]]
    for part in parts:
        whole = [[x * y for x in row for y in other] for row in whole for other in part]
    return whole


def mean_of_elements(group, word, marks):
    """The mean over a group of what its elements do to entries, and for [[V2]2] over both orders of the two pairs."""
    blocks = VOIGT[word]
    size = math.prod(3 if block == 1 else 6 for block in blocks)
    total = [[0.0] * size for _ in range(size)]
    for element in group:
        m = matrix(element)
        sign = (determinant(m) if "e" in marks else 1) * (-1 if "a" in marks and element[1] else 1)
        for into, row_of in zip(total, entry_matrix(m, blocks)):
            for place, value in enumerate(row_of):
                into[place] += sign * value / len(group)
    if word == "[[V2]2]":
        turned = [6 * (place % 6) + place // 6 for place in range(36)]
        total = [[(row_of[place] + row_of[turned[place]]) / 2 for place in range(36)] for row_of in total]
        total = [[(a + b) / 2 for a, b in zip(total[place], total[turned[place]])] for place in range(36)]
    return total


def columns_reduced(space):
    """A basis of the range: each vector is 1 at its first entry, where the others are 0. So first entries are the free ones."""
    basis, rest = [], [list(column) for column in zip(*space)]
    for place in range(len(space)):
        best = max(rest, key=lambda v: abs(v[place]), default=None)
        if best is None or abs(best[place]) < 1e-9:
            continue
        rest.remove(best)
        best = [x / best[place] for x in best]
        rest = [[x - v[place] * y for x, y in zip(v, best)] for v in rest]
        basis = [(p, [x - v[place] * y for x, y in zip(v, best)]) for p, v in basis] + [(place, best)]
    return basis


def voigt_lines(basis, word, letter):
    """The names of the entries, those that are free, and for each entry its factors, weighted."""
    blocks = VOIGT[word]
    sizes = [3 if block == 1 else 6 for block in blocks]
    every = [()]
    for size in sizes:
        every = [numbers + (n,) for numbers in every for n in range(1, size + 1)]
    weight = [2 ** sum(n > 3 for n in numbers) if letter == "s" else 1 for numbers in every]
    names = [letter + "".join(map(str, numbers)) for numbers in every]
    factors = {
        names[place]: {names[free]: weight[place] * v[place] / weight[free] for free, v in basis if abs(v[place]) > 1e-9}
        for place in range(len(every))
    }
    return names, [names[free] for free, _ in basis], factors


def voigt_row(text):
    """The factors of a sum by names."""
    found = {}
    for term in text.replace("-", "+-").split("+"):
        factor, name = re.fullmatch(r"(-?[0-9/]*\*?)([cs]\d+)", term).groups() if term not in ("", "0") else ("", "")
        if name:
            found[name] = fraction({"": "1", "-": "-1"}.get(factor, factor.rstrip("*")))
    return found


def same_voigt(lines, expected_table):
    """Whether the lines of a table are those that were counted."""
    names, free, factors = expected_table
    if [line.split()[0] for line in lines] != names or [line.split()[0] for line in lines if line.endswith(" free")] != free:
        return False
    for line in lines:
        name, _, rest = line.partition(" ")
        found = {name: 1.0} if rest == "free" else voigt_row(rest.removeprefix("= "))
        if set(found) != set(factors[name]) or any(abs(found[f] - factors[name][f]) > 1e-9 for f in found):
            return False
    return True


def voigt_tables(groups):
    """The Voigt tables that are others than counted apart."""
    requests = [
        (symbol, marks, word, letter)
        for symbol in groups
        for word in VOIGT
        for marks in ("", "ae")
        for letter in "cs"
    ]
    written, wrong = iter(answers([f"voigt {s} {marks}{word} {letter}" for s, marks, word, letter in requests])), []
    for symbol, marks, word, letter in requests:
        if letter == "c":
            basis = columns_reduced(mean_of_elements(groups[symbol], word, marks))
        table = voigt_lines(basis, word, letter)
        right = next(written) == f"voigt {symbol} {marks}{word} {letter} free {len(table[1])}"
        right &= same_voigt([next(written) for _ in table[0]], table)
        if not right:
            wrong.append(f"{symbol} {marks}{word} {letter}")
    return len(requests), wrong
def coefficient(m, index, other):
    value = 1.0
    for one, two in zip(index, other):
        value *= m[int(one) - 1][int(two) - 1]
    return value


def sums(lines):
    """The free components of a table, and each component as factors of them."""
    free = [line.split()[0] for line in lines if line.endswith(" free")]
    found = {}
    for line in lines:
        name, _, rest = line.partition(" ")
        units = [{other: float(other == place) for other in free} for place in free]
        found[name[1:]] = [1.0 if name == place else row(rest.removeprefix("= "), unit) if rest != "free" else 0.0
                           for place, unit in zip(free, units)]
    return free, found


def root_row(text, free):
    """The factors a + b√3 of a sum of free components."""
    factors = [0.0] * len(free)
    if text == "0":
        return factors
    for factor, name in re.findall(r"((?:-|\+)?(?:\([^)]*\)\*|[0-9/r*]+\*)?-?)(T[0-9]*)", text):
        sign = -1.0 if factor.startswith("-") and "(" in factor else 1.0
        bare = factor.lstrip("+").rstrip("*")
        if "(" in bare:
            value = sign * number(bare.lstrip("-").strip("()"))
        else:
            value = number({"": "1", "-": "-1"}.get(bare, bare))
        factors[free.index(name)] += value
    return factors


def told_apart(first, second, jahn, groups, table, written):
    """Whether the answer to a request for distinguishing components is the one found here."""
    whole, sub = groups[first], groups[second]
    least, _ = classes(whole, sub)
    free, found = sums(table)
    rank = len(next(iter(found)))
    names = " ".join(free) or "none"
    if next(written) != f"differ {first} {second} {jahn} states {len(least)} free {names}":
        return False
    for place, state in enumerate(least[1:], 2):
        m = matrix(state)
        sign = (determinant(m) if "e" in jahn else 1) * (-1 if "a" in jahn and state[1] else 1)
        rows = {}
        for index in found:
            value = [0.0] * len(free)
            for other, factors in found.items():
                share = sign * coefficient(m, index, other)
                if share:
                    value = [before + share * factor for before, factor in zip(value, factors)]
            if any(abs(one - two) > 1e-9 for one, two in zip(value, found[index])):
                rows[index] = value
        if next(written) != f"state {place} differs {len(rows)} of {3 ** rank}":
            return False
        for index, value in rows.items():
            name, _, text = next(written).partition(" = ")
            if name != "T" + index or any(abs(one - two) > 1e-9 for one, two in zip(root_row(text, free), value)):
                return False
    return True


def distinctions(groups):
    """The requests for distinguishing components that are answered otherwise than found here."""
    words = ("V", "eV", "aeV", "[V2]", "a{V2}", "V2", "eV[V2]", "V3")
    pairs = [(first, second) for first in groups for second in groups if set(groups[second]) <= set(groups[first])]
    asked = [(first, second, words[place % len(words)]) for place, (first, second) in enumerate(pairs[::11])]
    tables, wrong = iter(answers([f"form {second} {jahn}" for _, second, jahn in asked])), []
    for first, second, jahn in asked:
        count = int(next(tables).split()[-1])
        table = [next(tables) for _ in range(count)]
        written = iter(answers([f"differ {first} {second} {jahn}"]))
        if not told_apart(first, second, jahn, groups, table, written) or next(written) != "":
            wrong.append(f"differ {first} {second} {jahn}")
    return len(asked), wrong


def main():
    named = {symbol: elements(symbol) for symbol in types()}
    assert len(named) == 122 and all(group == sorted(group) for group in named.values())
    tables, wrong_tables = counts(named)
    print(f"{tables} tables, {len(wrong_tables)} with another number of free components", *wrong_tables[:5])
    looked, changed = invariance(named)
    print(f"{looked} tables, {len(changed)} with a tensor that an element changes", *changed[:5])
    voigts, wrong_voigts = voigt_tables(named)
    print(f"{voigts} Voigt tables, {len(wrong_voigts)} counted otherwise", *wrong_voigts[:5])
    named.update({symbol: elements(symbol) for symbol in SETTINGS})
    pairs, subgroups, wrong_pairs = transitions(named)
    print(f"{pairs} pairs of groups, {subgroups} with a subgroup, {len(wrong_pairs)} answered otherwise", *wrong_pairs[:5])
    asked, wrong_rows = distinctions(named)
    print(f"{asked} requests for distinguishing components, {len(wrong_rows)} answered otherwise", *wrong_rows[:5])
    return 1 if wrong_tables or changed or wrong_voigts or wrong_pairs or wrong_rows else 0


if __name__ == "__main__":
    sys.exit(main())
