"""Sheets made by hand for freeze_sheets.py: their names, what the oracle's answer has to hold, and the output lent.

Each name says what the sheet is for. `says` is text that the answer holds; a sheet that shows a rule stands beside one
without the feature, whose `says` differs. `visit` is the visit that gives 10 or 11, counted from 1.
"""
from collections import namedtuple

Case = namedtuple("Case", "sheet says lent visit", defaults=(16384, None))

COLUMN = "E,0,0,1,0\n"
LITERAL = "E,1,1,0,0\n"
SCAN = "P,0,0,0,0,0,0,0\n"
SINK = "P,2,0,0,0,1,0,0,"
KEPT = "P,2,1,0,0,1,0,0,"


def select(exprs, sink):
    """The last of these expressions in a Select over a Scan, under a Sink."""
    return f"{exprs}{SCAN}P,3,0,0,0,1,1,0,0,{exprs.count(chr(10)) - 1}\n{sink}1\n"


def names(numbers):
    return "".join(f",{n}" for n in numbers)


# -- document 01's cases ------------------------------------------------------------------------------------------------

A = f"{COLUMN}{SCAN}P,5,1,0,0,1,1,0,0,0\n{SINK}1\n"
DISTINCT = f"{SCAN}P,8,1,0,0,1,0,0,0\n{SINK}1\n"
PAPER = {
    "A": Case(A, f"{COLUMN}{SCAN}P,5,1,0,0,1,1,0,0,0\n{SINK}0\nG,2,0,0\nG,1,0,0\nT,1,5,0\n"),
    "B": Case(A.replace("P,5,1,0,", "P,5,1,1,"), "G,2,0,0\nG,1,0,1\nT,0,6,2\n"),
    "C": Case(A.replace("P,5,1,0,", "P,5,0,1,"), "G,2,0,0\nG,1,0,0\nT,0,6,2\n"),
    "D": Case(f"P,14,0,0,0,0,0,0\n{KEPT}0\n", f"{SINK}0\nG,1,0,0\nT,0,4,0\n"),
    "E": Case(f"{SCAN}{SCAN}P,9,1,3,0,2,0,0,0,1\n{KEPT}2\n", f"P,9,1,1,0,2,0,0,0,1\n{KEPT}2\nG,3,0,1\nG,2,0,1\nG,2,1,0\n"),
    "F": Case(DISTINCT, "P,8,0,0,0,1,0,0,0\n"),
    "G": Case(select(COLUMN + "E,7,0,1,0,0\n", SINK), "T,0,6,8\n"),
    "H": Case(select(COLUMN + "E,9,0,1,0,0\n", SINK), f"{COLUMN}{COLUMN}{SCAN}"),
    "I": Case("", "R,6\n"),
    "J": Case(f"{COLUMN}E,8,0,0,0,0\n{COLUMN}{SCAN}{SCAN}P,9,0,0,0,2,1,1,0,1,1,2\n{SINK}2\n", "R,10\n", visit=2),
}


# -- the limits -----------------------------------------------------------------------------------------------------------


def selects(columns):
    """A Scan, one Select for each eight of so many columns, a Sink."""
    sheet, step = COLUMN * columns + SCAN, 0
    for first in range(0, columns, 8):
        entries = range(first, min(columns, first + 8))
        sheet += f"P,3,0,0,0,1,{len(entries)},0,{step}{names(entries)}\n"
        step += 1
    return sheet + f"{SINK}{step}\n"


def aggs(columns):
    """The same over all but the last eight columns; those are the aggs of a GroupBy under the Sink."""
    lines = selects(columns - 8).splitlines()
    step = sum(line[0] == "P" for line in lines) - 1
    lines[-1] = f"P,7,0,0,0,1,0,8,{step - 1}{names(range(columns - 8, columns))}"
    return COLUMN * 8 + "\n".join(lines) + f"\n{SINK}{step}\n"


def chain(steps):
    """A Scan, SimpleProjections, a Sink: so many steps in all."""
    return SCAN + "".join(f"P,17,0,0,0,1,0,0,{n}\n" for n in range(steps - 2)) + f"{SINK}{steps - 2}\n"


def long(length):
    """128 good E lines, then one P line with too many numbers: 4, whatever its length."""
    sheet = COLUMN * 128 + "P,0,0,0,0,0,0,0"
    left = length - len(sheet) - 1
    return sheet + (",10" if left % 2 else "") + ",0" * (left // 2 - left % 2) + "\n"


def unions(second):
    """Near the most edges: Unions in a chain, with a Cache in their other inputs; the second Cache, if any, is line 10."""
    lines, cache, last = [SCAN, "P,18,200,0,0,1,0,0,0\n"], 1, None
    while len(lines) < 31:
        if second and len(lines) == 10:
            lines.append(f"P,18,201,0,0,1,0,0,{last}\n")
            cache, last = 10, None
        else:
            inputs = [cache] * 8 if last is None else [last] + [cache] * 7
            lines.append(f"P,11,1,1,0,8,0,0{names(inputs)}\n")
            last = len(lines) - 1
    return "".join(lines)


# the bytes of the longest finished sheet that was found; its sheet has 3025
LONGEST = 6578


def longest():
    """The sheet with the longest finished sheet that was found.

    A Function with 8 children lies under 71 SortBys, these under a Sort and that under 36 Functions, the lowest of which
    observes order and so keeps the Sort. Each of the 36 looks at the chain again, each such look copies the Function over
    one more SortBy, and there are two visits. The first ten lines are spare, so that the children's numbers have two digits.
    """
    leaf = "E,19,1,1,63\n"
    exprs = [leaf] * 10 + ["E,19,1,1,23\n"] + [leaf] * 7 + [f"E,19,1,1,39{names([*range(11, 18), 10])}\n"]
    exprs += [f"E,10,1,0,0,{n}\n" for n in range(18, 89)]
    exprs += ["E,9,1,1,0,89\n", "E,19,1,1,34,90\n", f"E,19,1,1,39{names(range(3, 10))},91\n", "E,19,1,1,39,2,1,0,92\n"]
    exprs += [f"E,19,1,1,39,{n}\n" for n in range(93, 126)]
    return "".join(exprs) + "E,22,1,1,0,126\n" + unions(True) + "P,2,1,1,0,1,1,0,30,127\n"


LOOKS = select(COLUMN + "".join(f"E,19,0,1,3,{n}\n" for n in range(127)), SINK)
LIMITS = {
    "128 E lines": Case(selects(128), "T,0,36,256\n"),
    "129 E lines": Case(selects(129), "R,5\n"),
    "E lines and agg entries, 128": Case(aggs(120), "\nE,23,1,0,1,119\nP,"),
    "E lines and agg entries, 129": Case(aggs(121), "R,5\n"),
    "32 P lines": Case(chain(32), "T,0,64,0\n"),
    "33 P lines": Case(chain(33), "R,5\n"),
    "a sheet of 16384 bytes": Case(long(16384), "R,4\n"),
    "a sheet of 16385 bytes": Case(long(16385), "R,2\n"),
    "noise of 16384 bytes": Case("x" * 16384, "R,3\n"),
    "noise of 16385 bytes": Case("x" * 16385, "R,2\n"),
    "an output of 16384 bytes": Case(A, "T,1,5,0\n", 16384),
    "an output of 16383 bytes": Case(A, "R,1\n", 16383),
    "an output of 16400 bytes": Case(A, "T,1,5,0\n", 16400),
    "an output of no bytes": Case(A, "R,1\n", 0),
    "an output too short for a sheet too long": Case(long(16385), "R,1\n", 16383),
    "an output too short for the empty sheet": Case("", "R,1\n", 16383),
    "234 edges": Case(unions(False) + f"{SINK}30\n", "T,0,470,0\n"),
    "16768 looks": Case(LOOKS, "T,0,6,16768\n"),
    "the longest finished sheet": Case(longest(), "E,19,1,1,39,11,12,13,14,15,16,17,10\nE,9,1,1,0,89\n"),
}


# -- readings that tempt, each beside a sheet without the feature --------------------------------------------------------

HSTACK = f"{LITERAL}{SCAN}P,4,1,0,0,1,1,0,0,0\n{KEPT}1\n"
BINARY = COLUMN + "E,9,0,1,0,0\n" + LITERAL + "E,5,0,1,0,1,2\n"
CACHED = f"{SCAN}P,5,1,0,0,1,0,0,0\nP,18,7,0,0,1,0,0,1\n{SINK}2\n{SINK}2\n"
SORTS = f"{SCAN}P,5,0,0,0,1,0,0,0\nP,5,0,0,0,1,0,0,1\n"
GROUP_BY = f"{COLUMN}{COLUMN}{SCAN}P,7,1,0,0,1,0,2,0,0,1\n{KEPT}1\n"
MERGE = f"{SCAN}{SCAN}P,12,1,0,0,2,0,0,0,1\n"
AS_OF = f"{SCAN}{SCAN}P,9,3,1,0,2,0,0,0,1\n{SINK}2\n"
IMPLODE = LITERAL + "E,23,0,1,1,0\n"
# Min(StructEval(Sort(Column), First(StructField))), a key that is elementwise at its first visit only
KEY = f"{COLUMN}E,9,0,1,0,0\nE,3,0,1,0\nE,21,1,0,0,2\nE,15,0,1,0,1,3\nE,22,1,0,0,4\n"
TEMPTING = {
    "HStack, every column replaced": Case(HSTACK, "G,2,0,0\nG,1,0,0\n"),
    "HStack, one column kept": Case(HSTACK.replace("P,4,1", "P,4,2"), "G,2,0,1\nG,1,0,1\n"),
    "Distinct keeps First under an unordered edge": Case(DISTINCT, "P,8,0,0,0,1,0,0,0\n" + f"{SINK}1\nG,2,0,0\nG,1,0,1\n"),
    "Distinct keeps Any": Case(DISTINCT.replace("P,8,1,0,0", "P,8,1,0,2"), "G,2,0,0\nG,1,0,0\n"),
    "BinaryExpr looked at twice loses its Sort": Case(select(BINARY, SINK), COLUMN * 2 + LITERAL),
    "BinaryExpr looked at once keeps its Sort": Case(select(BINARY, KEPT), COLUMN + "E,9,0,1,0,0\n" + LITERAL),
    "a Cache named three times": Case(f"{SCAN}P,18,7,0,0,1,0,0,0\n" + f"{SINK}1\n" * 3, "G,2,0,0\nG,3,0,0\nG,4,0,0\nG,1,0,0\nT,0,14,0\n"),
    "a Cache named three times by one step": Case(f"{SCAN}P,18,7,0,0,1,0,0,0\nP,11,0,0,0,3,0,0,1,1,1\n{SINK}2\n", "G,1,0,0\nT,0,12,0\n"),
    "a Cache named three times, once in order": Case(f"{SCAN}P,18,7,0,0,1,0,0,0\n{SINK}1\n{SINK}1\n{KEPT}1\n", "G,4,0,1\nG,1,0,1\n"),
    "a sort removed under a Cache": Case(CACHED, "P,18,7,0,0,1,0,0,0\n" + f"{SINK}2\n{SINK}2\nG,3,0,0\nG,4,0,0\nG,2,0,0\nG,1,0,0\nT,1,11,0\n"),
    "a sort kept under a Cache": Case(CACHED.replace(SINK, KEPT, 1), "P,18,7,0,0,1,0,0,1\n"),
    "a sort removed under a sort that stays": Case(f"{SORTS}{KEPT}2\n", "P,5,0,0,0,1,0,0,0\nP,5,0,0,0,1,0,0,0\n"),
    "a sort removed under a sort that goes": Case(f"{SORTS}{SINK}2\n", "P,5,0,0,0,1,0,0,1\n" + f"{SINK}0\nG,3,0,0\nG,2,0,0\nG,1,0,0\nT,2,6,0\n"),
    "a sort kept under a stable sort": Case(f"{SORTS}{KEPT}2\n".replace("P,5,0,0,0,1,0,0,1", "P,5,1,0,0,1,0,0,1"), "P,5,1,0,0,1,0,0,1\n"),
    "GroupBy with two Implodes": Case(GROUP_BY, "E,23,1,0,1,0\nE,23,1,0,1,1\n" + f"{SCAN}P,7,1,0,0,1,0,2,0,2,3\n"),
    "GroupBy with scalar aggs": Case(GROUP_BY.replace("E,0,0", "E,0,1"), f"{SCAN}P,7,0,0,0,1,0,2,0,0,1\n"),
    "MergeSorted turned Union": Case(f"{MERGE}{SINK}2\n", "P,11,0,0,0,2,0,0,0,1\n"),
    "MergeSorted that stays": Case(f"{MERGE}{KEPT}2\n", "P,12,1,0,0,2,0,0,0,1\n"),
    "AsOf join": Case(AS_OF, "P,9,3,1,0,2,0,0,0,1\n" + f"{SINK}2\nG,3,0,0\nG,2,0,1\nG,2,1,1\n"),
    "the same join, not AsOf": Case(AS_OF.replace("P,9,3", "P,9,0"), "P,9,0,0,0,2,0,0,0,1\n" + f"{SINK}2\nG,3,0,0\nG,2,0,0\nG,2,1,0\n"),
    "an Implode switched off with S 0": Case(select(IMPLODE, KEPT), LITERAL + "E,23,0,1,0,0\n"),
    "an Implode of a Column": Case(select(IMPLODE.replace(LITERAL, COLUMN), KEPT), COLUMN + "E,23,0,1,1,0\n"),
    "Min(Sort(Implode(scalar Literal)))": Case(
        select(LITERAL + "E,23,1,0,1,0\nE,9,0,1,0,1\nE,22,1,0,0,2\n", KEPT), LITERAL + "E,23,1,0,1,0\nE,23,1,0,0,0\nE,22,1,0,0,2\n"
    ),
    "Min(Sort(Implode(Column)))": Case(
        select(COLUMN + "E,23,1,0,1,0\nE,9,0,1,0,1\nE,22,1,0,0,2\n", KEPT), COLUMN + "E,23,1,0,1,0\nE,23,1,0,1,0\nE,22,1,0,0,2\n"
    ),
    # the downward walks have four visits and two
    "10 on the way up": Case(f"{KEY}{SCAN}{SCAN}P,9,0,0,0,2,1,0,0,1,5\n{KEPT}2\n", "R,10\n", visit=7),
    "11 on the way up": Case(f"{KEY}{SCAN}P,2,1,1,0,1,1,0,0,5\n", "R,11\n", visit=4),
    "11 on the way down": Case(f"{COLUMN}E,8,0,0,0,0\n{SCAN}P,2,1,1,0,1,1,0,0,1\n", "R,11\n", visit=1),
    "the same key in a Select": Case(select(KEY, KEPT), "T,0,6,"),
}


# -- what docs/DIFFERENCES.md tells ----------------------------------------------------------------------------------------

FINDINGS = {
    "7: a step names a later one": Case(f"{SINK}1\n{SCAN}", "R,7\n"),
    "7: an expression names a later one": Case(f"E,7,0,1,0,1\n{COLUMN}{SCAN}P,3,0,0,0,1,1,0,0,0\n{SINK}1\n", "R,7\n"),
    "7: a line that is not there": Case(f"{SCAN}{SINK}2\n", "R,7\n"),
    "7: a Sink as input": Case(f"{SCAN}{SINK}0\n{SINK}1\n", "R,7\n"),
    "8: an expression named by none": Case(f"{COLUMN}{SCAN}{SINK}0\n", "R,8\n"),
    "8: a step named by none": Case(f"{SCAN}{SCAN}{SINK}1\n", "R,8\n"),
    "12: a Scan named twice": Case(f"{SCAN}{SINK}0\n{SINK}0\n", "R,12\n"),
    "12: an expression named twice": Case(f"{COLUMN}{SCAN}P,3,0,0,0,1,2,0,0,0,0\n{SINK}1\n", "R,12\n"),
    "12: two Cache lines with one id over one Scan": Case(f"{SCAN}P,18,5,0,0,1,0,0,0\nP,18,5,0,0,1,0,0,0\n{SINK}1\n{SINK}2\n", "R,12\n"),
    "13: two Cache lines with one id, one over the other": Case(f"{SCAN}P,18,5,0,0,1,0,0,0\nP,18,5,0,0,1,0,0,1\n{SINK}2\n", "R,13\n"),
    "13: two Cache lines with one id over two Scans": Case(
        f"{SCAN}{SCAN}P,18,5,0,0,1,0,0,0\nP,18,5,0,0,1,0,0,1\n{SINK}2\n{SINK}3\n", "R,13\n"
    ),
    "13: two Cache lines with one id over a Cache": Case(
        f"{SCAN}P,18,6,0,0,1,0,0,0\nP,18,5,0,0,1,0,0,1\nP,18,5,0,0,1,0,0,1\n{SINK}2\n{SINK}3\n", "R,13\n"
    ),
    "9: a StructField that is never looked at": Case(A.replace(COLUMN, "E,3,0,1,0\n"), "R,9\n"),
    "First goes on without its order": Case(select(KEY.replace("E,22,1,0,0,4\n", ""), SINK), f"{COLUMN}{COLUMN}E,3,"),
    "a SortBy goes on the second visit": Case(select(f"{COLUMN}E,9,0,0,0,0\nE,10,0,1,0,1\n", SINK), f"{COLUMN * 3}{SCAN}"),
    "a MapFunction never loosens its input": Case(f"{SCAN}P,13,2,0,0,1,0,0,0\n{SINK}1\n", "G,2,0,0\nG,1,0,1\n"),
    "a copied record's child is named twice": Case(select(f"{COLUMN}E,7,0,1,0,0\nE,9,0,1,0,1\n", SINK), "E,7,0,1,0,0\nE,7,0,1,0,0\n"),
}


# -- the form and the tables ------------------------------------------------------------------------------------------------

FORMS = {
    "no byte 10 at the end": Case(A[:-1], "R,3\n"),
    "an empty line": Case(A + "\n", "R,3\n"),
    "a carriage return": Case(A.replace("\n", "\r\n"), "R,3\n"),
    "a leading zero": Case(A.replace("E,0", "E,00"), "R,3\n"),
    "a number of 256": Case(A.replace("E,0", "E,256"), "R,3\n"),
    "an E line after a P line": Case(A + COLUMN, "R,3\n"),
    "three numbers": Case("E,0,0,1\n" + A, "R,3\n"),
    "a kind past the table": Case(A.replace("E,0", "E,25"), "R,4\n"),
    "nine children": Case(COLUMN * 9 + "E,19,0,1,0,0,1,2,3,4,5,6,7,8\n" + A, "R,4\n"),
    "numbers left over": Case(A.replace("1,0,0,1\n", "1,0,0,1,1\n"), "R,4\n"),
    "only E lines": Case(COLUMN, "R,6\n"),
    # within a line 3 comes before 4 and 4 before 5, and a line before the next
    "a faulty 33rd P line": Case(chain(33).replace(f"{SINK}31", "P,2,2,0,0,1,0,0,31"), "R,4\n"),
    "a 33rd P line without its end": Case(chain(33)[:-1], "R,3\n"),
    "a 129th E line, then noise": Case(COLUMN * 129 + "x\n", "R,5\n"),
}

ALL = {**PAPER, **LIMITS, **TEMPTING, **FINDINGS, **FORMS}
