#!/usr/bin/env python3
"""Compares the definition itself, as the checker computes it, with the oracle.

    oracle/compare_definition.py FAMILY SEED COUNT      generated sheets
    oracle/compare_definition.py hand-made              those of hand_made_sheets.py, but for the few of 16 KB and for refusal 1

Copies the crate plan to a temporary folder, adds a module of proofs/ with a row for each sheet (the sheet, and the oracle's
answer), and has it proved: a row is proved by computing. Prints the count of rows, or the first that is refused.
The oracle has to be built first (README, 'Comparing with the Rust').
"""
import pathlib
import re
import shutil
import subprocess
import sys
import tempfile

sys.dont_write_bytecode = True
from hand_made_sheets import ALL

ROOT = pathlib.Path(__file__).resolve().parent.parent
BIN = ROOT / "oracle" / "target" / "release"
MARK = b"---\n"
HEAD = """use lib.Dec.{T}
use Rattle.plan.specs.Sheet.{refused, done}
use Rattle.plan.proofs.Cases.{bytes, right, written, agree}
use Rattle.plan.proofs.Computing.{computing}
"""


def text(b):
    """The bytes as a text of antt's: a character for each."""
    return '"' + "".join(chr(c) if 32 <= c < 127 and c not in (34, 92) else "\\u{%x}" % c for c in b) + '"'


def row(i, sheet, answer):
    refusal = re.fullmatch(rb"R,(\d+)\n", answer)
    back = "refused " + refusal[1].decode() if refusal else "done " + text(answer)
    return f"\nrow{i} : T (right ({text(sheet)}, {back}))\nunfolding computing bytes right written agree\nrow{i} = tt\n"


def sheets_of(words):
    if words == ["hand-made"]:
        return [case.sheet.encode() for case in ALL.values() if case.lent >= 16384 and len(case.sheet) < 10000]
    batch = subprocess.run([BIN / "gen", *words], stdout=subprocess.PIPE, check=True).stdout
    return batch.split(MARK)[:-1]


def main():
    words = sys.argv[1:]
    sheets = sheets_of(words)
    batch = b"".join(sheet + MARK for sheet in sheets)
    answers = subprocess.run([BIN / "oracle", "--batch"], input=batch, stdout=subprocess.PIPE, check=True).stdout
    answers = answers.split(MARK)[:-1]
    assert len(sheets) == len(answers)
    with tempfile.TemporaryDirectory() as folder:
        plan = pathlib.Path(folder) / "crates" / "plan"
        shutil.copytree(ROOT / "crates" / "plan", plan, ignore=shutil.ignore_patterns("must-fail", "out"))
        (pathlib.Path(folder) / "crates.txt").write_text("plan:\n")
        (plan / "proofs" / "Rows.antt").write_text(HEAD + "".join(map(row, range(len(sheets)), sheets, answers)))
        with open(plan / "proofs" / "Lib.antt", "a") as lib:
            lib.write("pub mod Rows\n")
        run = subprocess.run(["rt", "check"], cwd=plan, stdout=subprocess.PIPE, stderr=subprocess.STDOUT, text=True)
    bad = re.search(r"`row(\d+)`", run.stdout)
    if run.returncode != 0:
        print(run.stdout[-2000:] if not bad else f"row {bad[1]} differs")
        if bad:
            sys.stdout.write(sheets[int(bad[1])].decode("latin-1"))
        sys.exit(1)
    taken = sum(not a.startswith(b"R,") for a in answers)
    print(f"{' '.join(words)}: {len(sheets)} sheets agree, {taken} of them finished")


main()
