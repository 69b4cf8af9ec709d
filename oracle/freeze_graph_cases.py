#!/usr/bin/env python3
"""Freezes plans with the Rust's visiting lists and edges, for the crate cases.

    oracle/freeze_graph_cases.py

It writes the folder graph of crates/cases/data, and its block of crates/cases/stdout. Sheets that the oracle refuses are left out.
The oracle has to be built first (README, 'Comparing with the Rust').
"""
import pathlib
import subprocess
import sys

sys.dont_write_bytecode = True
from frame import freeze, two

BIN = pathlib.Path(__file__).resolve().parent / "target" / "release"
MARK = b"---\n"
BATCHES = [("small", 1, 40), ("valid", 2, 60), ("limit", 3, 4)]
# what no family is sure to have: a Cache named up to eight times by one step, by several sinks, and Caches over Caches
CACHES = [
    "P,0,0,0,0,0,0,0\nP,18,7,0,0,1,0,0,0\n" + f"P,11,0,0,0,{n},0,0" + ",1" * n + "\nP,2,0,0,0,1,0,0,2\n" for n in range(2, 9)
] + [
    "P,0,0,0,0,0,0,0\nP,18,7,0,0,1,0,0,0\n" + "P,2,0,0,0,1,0,0,1\n" * n for n in range(1, 9)
] + [
    "P,0,0,0,0,0,0,0\nP,18,1,0,0,1,0,0,0\nP,18,2,0,0,1,0,0,1\nP,11,0,0,0,8,0,0,1,2,1,2,1,2,1,2\n" + "P,2,0,0,0,1,0,0,2\n" * n + "P,2,0,0,0,1,0,0,3\n" for n in range(4)
] + [
    # near the most edges that there can be: 29 Unions in a chain, each with the Cache in its other seven inputs
    "P,0,0,0,0,0,0,0\nP,18,7,0,0,1,0,0,0\n" + "".join(f"P,11,0,0,0,8,0,0,{n - 1}" + ",1" * 7 + "\n" for n in range(2, 31)) + "P,2,0,0,0,1,0,0,30\n"
]


def run(name, *words, given=b""):
    return subprocess.run([BIN / name, *words], input=given, stdout=subprocess.PIPE, check=True).stdout


def case(sheet, answer):
    lines = answer.decode().splitlines()
    places = bytes(map(int, lines[0].split(",")[1:]))
    edges = [line.split(",") for line in lines[1:] if line.startswith("G,")]
    pairs = bytes(int(x) for e in edges for x in e[1:3])
    return sheet, b"", two(len(places)) + places + pairs


def main():
    sheets = [s.encode() for s in CACHES]
    for family, seed, count in BATCHES:
        sheets += run("gen", family, str(seed), str(count)).split(MARK)[:-1]
    answers = run("oracle", "--batch", "--graph", given=b"".join(s + MARK for s in sheets)).split(MARK)
    kept = [case(s, a) for s, a in zip(sheets, answers) if a.startswith(b"V,")]
    print(f"{len(kept)} of {len(sheets)} sheets are accepted", file=sys.stderr)
    freeze("graph", kept)


main()
