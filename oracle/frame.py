"""The form of a case of crates/cases, for the scripts freeze_*.py.

A case is the lengths of three parts in two bytes each, the high one first, and then the parts: the sheet or the formula, what else is
asked, and what is told. The modules of crates/cases say what these are in each folder. The program takes parts of 65,536 bytes together.
"""
import pathlib

CRATE = pathlib.Path(__file__).resolve().parent.parent / "crates" / "cases"
FOLDERS = ["reading", "graph", "lists", "sheets", "papers", "formulas"]


def two(n):
    return bytes(divmod(n, 256))


def framed(sheet, asked, told):
    assert len(sheet) + len(asked) + len(told) <= 65536
    return two(len(sheet)) + two(len(asked)) + two(len(told)) + sheet + asked + told


def blocks(text):
    """What the program has to print, by folder."""
    found, folder = {}, None
    for line in text.splitlines(keepends=True):
        name = line.split(":")[0]
        folder = name if name in FOLDERS else folder
        found[folder] = found.get(folder, "") + line
    return found


def freeze(folder, cases, counts=""):
    """Writes the cases of a folder, and the folder's block of the expected output: how many agree, and then the counts."""
    data = b"".join(framed(*case) for case in cases)
    assert len(data) < 1_500_000
    (CRATE / "data" / folder / "cases").write_bytes(data)
    stdout = CRATE / "stdout"
    shown = blocks(stdout.read_text())
    shown[folder] = f"{folder}: {len(cases)} of {len(cases)} agree\n{counts}"
    stdout.write_text("".join(shown.get(name, "") for name in FOLDERS))
