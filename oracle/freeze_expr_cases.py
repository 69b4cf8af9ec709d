#!/usr/bin/env python3
"""Freezes lists of expressions with what the Rust's looks make of them, for the crate cases.

    oracle/freeze_expr_cases.py

It writes the folder lists of crates/cases/data, and its block of crates/cases/stdout. Each sheet has one step with expressions, and a
case is the first list that the Rust looks at in its run, so that the records before it are those of the sheet.

Sheets in which no list is looked at, as with a removed Sort, are left out, and those to which a GroupBy's Implodes are appended.
The oracle has to be built first (README, 'Comparing with the Rust').
"""
import collections
import pathlib
import random
import subprocess
import sys

sys.dont_write_bytecode = True
from frame import freeze, two

ORACLE = pathlib.Path(__file__).resolve().parent / "target" / "release" / "oracle"
MARK = b"---\n"
SEED = 20261116
RANDOM_LISTS = 260
# least and most children, and the largest option, of each kind
ROWS = [
    (0, 0, 0), (0, 0, 0), (0, 0, 0), (0, 0, 0), (0, 0, 0), (2, 2, 0), (3, 3, 0), (1, 1, 0), (1, 1, 0), (1, 1, 0), (1, 8, 1), (2, 2, 0), (2, 2, 1),
    (3, 3, 0), (2, 2, 1), (1, 8, 0), (1, 8, 1), (2, 2, 0), (2, 2, 0), (0, 8, 63), (0, 8, 0), (1, 1, 0), (1, 1, 0), (1, 1, 1), (1, 1, 0),
]
COLUMN, LITERAL, ELEMENT, FIELD, LEN, BINARY, TERNARY, SORT, SORT_BY = 0, 1, 2, 3, 4, 5, 6, 9, 10
STRUCT_EVAL, OVER, FUNCTION, FIRST, MIN, IMPLODE = 15, 16, 19, 21, 22, 23


class Tree(collections.namedtuple("Tree", "kind s l a children")):
    """A record over its children."""


def tree(kind, *children, s=0, l=0, a=0):
    return Tree(kind, s, l, a, children)


COL = tree(COLUMN, l=1)
ONE = tree(LITERAL, s=1)
SORTED = tree(SORT, COL, l=1)


def add(lines, t):
    numbers = [add(lines, c) for c in t.children]
    lines.append("E," + ",".join(map(str, [t.kind, t.s, t.l, t.a, *numbers])))
    return len(lines) - 1


def sheet(trees, step="3,0,0,0", ordered=0):
    """A Scan, one step over the trees, and a Sink."""
    lines = []
    roots = [add(lines, t) for t in trees]
    lines += ["P,0,0,0,0,0,0,0", "P," + ",".join([step, "1", str(len(roots)), "0", "0", *map(str, roots)]), f"P,2,{ordered},0,0,1,0,0,1"]
    return "".join(line + "\n" for line in lines).encode()


def both(trees):
    return [sheet(trees), sheet(trees, ordered=1)]


def over_leaves(kind, a, leaf):
    """The kind over the least children that it may have, or over one more than none."""
    least = max(ROWS[kind][0], min(1, ROWS[kind][1]))
    if kind == OVER and a == 1:
        least = 2
    return tree(kind, *[leaf] + [COL] * (least - 1), a=a, l=1) if least else tree(kind, s=int(kind == LITERAL))


def each_kind():
    """Every kind and option over a Column, a sorted Column and a scalar, alone and under a Min."""
    for kind, (_, most, option) in enumerate(ROWS):
        for a in range(min(option, 1) + 1) if kind != FUNCTION else (0, 1, 2, 3, 4, 7, 16, 20, 32, 63):
            for leaf in (COL, SORTED, ONE) if most else (COL,):
                t = over_leaves(kind, a, leaf)
                if kind == FIELD:
                    t = tree(STRUCT_EVAL, SORTED, t, l=1)
                yield from both([t])
                if leaf is SORTED:
                    yield sheet([tree(MIN, t, s=1)])


def by_hand():
    yield from both([])
    yield from both([tree(MIN, tree(SORT, tree(IMPLODE, ONE, s=1, a=1), s=1), s=1)])
    yield from both([tree(IMPLODE, ONE, s=1, a=1)])
    yield from both([tree(IMPLODE, tree(FIRST, SORTED, s=1), s=1, a=1)] * 2)
    for other in (ONE, COL, tree(LEN, s=1), SORTED):
        yield from both([tree(BINARY, SORTED, other, l=1)])
        yield from both([tree(BINARY, tree(BINARY, SORTED, ONE, l=1), other, l=1)])
    for k in range(3):
        yield from both([tree(TERNARY, *[SORTED if i == k else ONE for i in range(3)], l=1)])
    yield from both([tree(STRUCT_EVAL, SORTED, tree(FIRST, tree(FIELD, l=1), s=1), tree(FUNCTION, tree(FIELD, l=1), l=1, a=4), l=1)])
    yield from both([tree(OVER, tree(FIRST, SORTED, s=1), COL, tree(SORT_BY, COL, COL, l=1, a=1), l=1, a=1)])
    yield from both([COL] * 8)
    yield from both([SORTED] + [ONE] * 7)
    yield from both([ONE] * 7 + [SORTED])
    yield from both([SORTED, tree(IMPLODE, COL, s=1), *[COL] * 6])
    for step in ("4,1,0,0", "4,0,0,0", "5,1,0,0", "5,0,0,0", "6,0,0,0", "7,0,0,0", "7,1,0,0"):
        for ordered in (0, 1):
            yield sheet([tree(BINARY, tree(SORT_BY, COL, COL, l=1), ONE, l=1)], step=step, ordered=ordered)


def random_tree(rng, size, field=False):
    kinds = [k for k, row in enumerate(ROWS) if row[0] < size and (row[1] > 0) == (size > 1) and (k != FIELD or field)]
    kind = rng.choice(kinds)
    least, most, option = ROWS[kind]
    a = rng.randint(0, option)
    if kind == OVER and a == 1:
        if size < 3:
            a = 0
        least = 1 + a
    count = min(size - 1, rng.choice([max(least, 1), max(least, min(most, 2)), rng.randint(max(least, 1), max(most, 1))])) if size > 1 else 0
    sizes = [1] * count
    for _ in range(size - 1 - count if count else 0):
        sizes[rng.randrange(count)] += 1
    children = [random_tree(rng, n, field or (kind == STRUCT_EVAL and i > 0)) for i, n in enumerate(sizes)]
    return tree(kind, *children, s=rng.randint(0, 1), l=int(rng.random() < 0.7), a=a)


def random_lists():
    rng = random.Random(SEED)
    for _ in range(RANDOM_LISTS):
        count = rng.choice([1, 1, 1, 2, 2, 3, 8])
        trees = [random_tree(rng, rng.randint(1, 10 if count < 3 else 3)) for _ in range(count)]
        yield sheet(trees, ordered=rng.choice([0, 0, 1]))


def chain(kind, length, end, **facts):
    for _ in range(length):
        end = tree(kind, end, **facts)
    return end


def chains():
    for length in (1, 2, 3, 7, 20, 63, 126, 127):
        yield sheet([chain(FUNCTION, length, COL, l=1, a=4)])
    yield sheet([chain(FUNCTION, 126, SORTED, l=1, a=4)])
    yield sheet([chain(FUNCTION, 126, SORTED, l=1, a=4)], ordered=1)
    yield sheet([chain(FUNCTION, 63, COL, l=1, a=1), chain(FUNCTION, 63, ONE, l=1, a=4)])
    yield sheet([chain(SORT, 127, COL, l=1)])
    yield sheet([chain(MIN, 64, chain(SORT, 63, COL, l=1), s=1)])
    t = COL
    for _ in range(63):
        t = tree(BINARY, t, ONE, l=1)
    yield from both([t])
    yield from both([chain(IMPLODE, 60, ONE, s=1, a=1), chain(IMPLODE, 60, COL, s=1, a=1)])
    yield from both([chain(FUNCTION, 15, SORTED, l=1, a=k) for k in (0, 1, 2, 4, 6, 20, 32)])


def numbers(line):
    return [int(x) for x in line.split(",")[1:]]


def case(given, answer):
    lines = answer.decode().splitlines()
    if not lines or not lines[0].startswith("L,"):
        return None
    _, _, allow, answer, observed, looks, *entries = numbers(lines[0])
    after = []
    for line in lines[1:]:
        if not line.startswith("E,"):
            break
        after.append(numbers(line))
    if len(after) != given.count(b"E,"):
        return None
    records = b"".join(bytes([len(r), *r]) for r in after)
    return given, bytes([allow, *entries]), two(looks) + bytes([answer, observed]) + records


def frozen(name, sheets):
    """The cases of these sheets, each sheet once."""
    sheets = list(dict.fromkeys(sheets))
    given = b"".join(s + MARK for s in sheets)
    answers = subprocess.run([ORACLE, "--batch", "--list"], input=given, stdout=subprocess.PIPE, check=True).stdout.split(MARK)
    kept = [c for c in map(case, sheets, answers) if c]
    print(f"{name}: {len(kept)} of {len(sheets)} sheets", file=sys.stderr)
    return kept


def main():
    by_kind = frozen("kinds", [*by_hand(), *each_kind()])
    freeze("lists", by_kind + frozen("trees", random_lists()) + frozen("chains", chains()))


main()
