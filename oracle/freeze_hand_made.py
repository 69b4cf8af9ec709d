#!/usr/bin/env python3
"""Freezes the sheets of hand_made_readings.py, the papers of hand_made_papers.py and the formulas of hand_made_formulas.py, for the crate
cases.

    oracle/freeze_hand_made.py

It writes the folders reading, papers and formulas of crates/cases/data, and their blocks of crates/cases/stdout. The answers are those
written by hand, and of formulas also what the rules of their script give; the oracle is not asked.
"""
import sys

sys.dont_write_bytecode = True
import hand_made_formulas
import hand_made_papers
import hand_made_readings
from frame import freeze, two


def reading(answer, sheet):
    """What is told is the refusal's number, or the counts of E and P lines."""
    return sheet, b"", bytes(answer if isinstance(answer, tuple) else [answer])


def paper(case):
    count, line = case.says.split()
    return case.sheet, two(case.lent) + case.paper, two(int(count)) + line.encode() + b"\n"


def formula(case):
    """What is told is the refusal's number, or 0 and the lines."""
    told = bytes([case.says]) if isinstance(case.says, int) else b"\x00" + case.says
    return case.formula, two(case.lent), told


def main():
    freeze("reading", [reading(*case) for case in hand_made_readings.ALL])
    freeze("papers", [paper(case) for case in hand_made_papers.ALL])
    freeze("formulas", [formula(case) for case in hand_made_formulas.ALL])


main()
