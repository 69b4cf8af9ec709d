#!/usr/bin/env python3
"""Compares the finishing program with the oracle on generated sheets.

    oracle/compare_finish.py FAMILY SEED COUNT

Prints how many sheets agree, or the first that does not with both answers. Both programs have to be built first: the oracle
(README, 'Comparing with the Rust') and target/bin/finish (`./finish < examples/sheet`).
"""
import pathlib
import subprocess
import sys

ROOT = pathlib.Path(__file__).resolve().parent.parent
BIN = ROOT / "oracle" / "target" / "release"
MARK = b"---\n"


def run(program, *words, given=b""):
    return subprocess.run([program, *words], input=given, stdout=subprocess.PIPE, check=True).stdout


def main():
    family, seed, count = sys.argv[1:4]
    batch = run(BIN / "gen", family, seed, count)
    answers = run(BIN / "oracle", "--batch", given=batch).split(MARK)[:-1]
    for number, (sheet, expected) in enumerate(zip(batch.split(MARK), answers)):
        answer = run(ROOT / "target" / "bin" / "finish", given=sheet)
        if answer != expected:
            print(f"{family} {seed}: sheet {number} differs")
            sys.stdout.flush()
            sys.stdout.buffer.write(sheet + b"expected\n" + expected + b"answered\n" + answer)
            sys.exit(1)
    taken = sum(not a.startswith(b"R,") for a in answers)
    print(f"{family} {seed}: {len(answers)} sheets agree, {taken} of them finished")


main()
