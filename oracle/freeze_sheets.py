#!/usr/bin/env python3
"""Freezes sheets with the Rust's answers, for the crate cases.

    oracle/freeze_sheets.py

It writes the folder sheets of crates/cases/data, and its block of crates/cases/stdout. The program lends outputs of up to 20,000 bytes.

The sheets of hand_made_sheets.py come first, in the order they stand in; then those of the generator. Of each sheet made by
hand it is checked here that the oracle's answer holds the text it is to show, and of a 10 or 11 at which visit it comes; and
that no finished sheet of the sample is longer than the one made to be the longest. A generated sheet on which the Rust
panics other than by the assertions of 10 and 11 is left out, and told.
The oracle has to be built first (README, 'Comparing with the Rust').
"""
import collections
import pathlib
import subprocess
import sys

sys.dont_write_bytecode = True
from frame import freeze, two
from hand_made_sheets import ALL, LONGEST

BIN = pathlib.Path(__file__).resolve().parent / "target" / "release"
MARK = b"---\n"
BATCHES = [("valid", 41, 150), ("small", 42, 200), ("limit", 43, 50), ("deep", 44, 60), ("near", 45, 120), ("noise", 46, 60), ("uses", 47, 120)]


def run(name, *words, given=b""):
    return subprocess.run([BIN / name, *words], input=given, stdout=subprocess.PIPE).stdout


def answers(sheets, lent):
    """The oracle's answers; an empty one where the Rust panicked."""
    batch = b"".join(sheet + MARK for sheet in sheets)
    return run("oracle", "--batch", "--out-len", str(lent), given=batch).split(MARK)[:-1]


def refusal_visit(sheet):
    """The visit whose list of expressions was looked at last."""
    lists = [line for line in run("oracle", "--list", given=sheet).splitlines() if line.startswith(b"L,")]
    return int(lists[-1].split(b",")[1])


def hand_made():
    for name, case in ALL.items():
        sheet = case.sheet.encode()
        (answer,) = answers([sheet], case.lent)
        assert case.says.encode() in answer, f"{name}: {answer.decode()[-200:]}"
        if case.visit:
            assert refusal_visit(sheet) == case.visit, name
        yield sheet, case.lent, answer


def lent(number):
    """Each third output is longer than need be, each fortieth too short."""
    if number % 40 == 39:
        return 16383
    return 16400 if number % 3 == 2 else 16384


def generated(family, seed, count):
    sheets = run("gen", family, str(seed), str(count)).split(MARK)[:-1]
    assert len(sheets) == count
    by_length = {n: answers(sheets, n) for n in (16383, 16384, 16400)}
    for number, sheet in enumerate(sheets):
        n = lent(number)
        if by_length[n][number]:
            yield sheet, n, by_length[n][number]
        else:
            print(f"left out: {family} {seed}, sheet {number}", file=sys.stderr)


def number(answer):
    """The refusal's number; 0 for a finished sheet."""
    return int(answer[2:]) if answer.startswith(b"R,") else 0


def case_parts(sheet, n, answer):
    assert n <= 20000
    finished = b"" if number(answer) else answer
    return sheet, two(n), bytes([number(answer)]) + finished


def counts(cases):
    """How many are finished, and how many refused by each number."""
    found = collections.Counter(number(answer) for _, _, answer in cases)
    assert sorted(found) == list(range(14))
    return f"finished: {found[0]}\n" + "".join(f"refused by {n}: {found[n]}\n" for n in range(1, 14))


def main():
    cases = list(hand_made())
    for batch in BATCHES:
        cases += generated(*batch)
    assert max(len(answer) for _, _, answer in cases) == LONGEST
    freeze("sheets", [case_parts(*case) for case in cases], counts(cases))


main()
