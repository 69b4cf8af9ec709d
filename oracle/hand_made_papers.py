"""Papers made by hand for freeze_hand_made.py: to which sheet, what is said of them, and the output lent.

`says` is how many bytes the output then holds, and the line that is printed for the mark.
"""
from collections import namedtuple

Case = namedtuple("Case", "sheet paper says lent", defaults=(16384,))

# case A, a Sort under a Sink that keeps no order, so that it goes, and the edge into it is not examined; its finished sheet has 88 bytes
EXPRS = b"E,0,0,1,0\n"
LOOSE = EXPRS + b"P,0,0,0,0,0,0,0\nP,5,1,0,0,1,1,0,0,0\nP,2,0,0,0,1,0,0,1\n"
STEPS = b"P,0,0,0,0,0,0,0\nP,5,1,0,0,1,1,0,0,0\nP,2,0,0,0,1,0,0,0\n"
EDGES = b"G,2,0,0\n"
REMOVED = b"G,1,0,0\n"
TALLY = b"T,1,5,0\n"
RIGHT = STEPS + EDGES

# the Sort under a Sink that keeps the order: no step changes
KEPT_STEPS = b"P,0,0,0,0,0,0,0\nP,5,1,0,0,1,1,0,0,0\nP,2,1,0,0,1,0,0,1\n"
KEPT_EDGES = b"G,2,0,1\nG,1,0,1\n"
KEPT = EXPRS + KEPT_STEPS
KEPT_RIGHT = KEPT_STEPS + KEPT_EDGES

# a Distinct, First, over a Union that keeps no order: it becomes Any; over a Scan it stays First
UNION_FIRST = b"P,0,0,0,0,0,0,0\nP,11,0,0,0,1,0,0,0\nP,8,0,0,0,1,0,0,1\nP,2,0,0,0,1,0,0,2\n"
UNION_ANY = b"P,0,0,0,0,0,0,0\nP,11,0,0,0,1,0,0,0\nP,8,0,0,2,1,0,0,1\nP,2,0,0,0,1,0,0,2\n"
UNION_EDGES = b"G,3,0,0\nG,2,0,0\nG,1,0,0\n"
SCAN_FIRST = b"P,0,0,0,0,0,0,0\nP,8,0,0,0,1,0,0,0\nP,2,0,0,0,1,0,0,1\n"
SCAN_ANY = b"P,0,0,0,0,0,0,0\nP,8,0,0,2,1,0,0,0\nP,2,0,0,0,1,0,0,1\n"
SCAN_EDGES = b"G,2,0,0\nG,1,0,1\n"

# other steps that change: a MergeSorted, a Semi Join that is to keep both sides, a GroupBy whose aggregate is gathered first
MERGE = b"P,0,0,0,0,0,0,0\nP,0,0,0,0,0,0,0\nP,12,1,0,0,2,0,0,0,1\nP,2,0,0,0,1,0,0,2\n"
MERGE_EDGES = b"G,3,0,0\nG,2,0,0\nG,2,1,0\n"
JOIN = b"P,0,0,0,0,0,0,0\nP,0,0,0,0,0,0,0\nP,9,1,3,0,2,0,0,0,1\nP,2,1,0,0,1,0,0,2\n"
JOIN_EDGES = b"G,3,0,1\nG,2,0,1\nG,2,1,0\n"
GROUP = b"P,0,0,0,0,0,0,0\nP,7,0,0,0,1,1,1,0,0,1\nP,2,0,0,0,1,0,0,1\n"
GROUP_EDGES = b"G,2,0,0\nG,1,0,1\n"

# two Sorts, one above the other, that both go: the upper one's line still names the lower
TWO = EXPRS * 2 + b"P,0,0,0,0,0,0,0\nP,5,0,0,0,1,1,0,0,0\nP,5,0,0,0,1,1,0,1,1\nP,2,0,0,0,1,0,0,2\n"
TWO_STEPS = b"P,0,0,0,0,0,0,0\nP,5,0,0,0,1,1,0,0,0\nP,5,0,0,0,1,1,0,1,1\nP,2,0,0,0,1,0,0,0\n"

# Sorts that stay, so that their unordered in-edges are examined: under an UnoptimizedDispatch, and with a slice
DISPATCHED = b"P,0,0,0,0,0,0,0\nP,5,0,0,0,1,1,0,0,0\nP,1,0,0,0,1,0,0,1\nP,2,0,0,0,1,0,0,2\n"
SLICED = b"P,0,0,0,0,0,0,0\nP,5,0,1,0,1,1,0,0,0\nP,2,0,0,0,1,0,0,1\n"

# a Sort that goes from under a Cache, and one that goes from above it
CACHED = EXPRS + b"P,0,0,0,0,0,0,0\nP,5,0,0,0,1,1,0,0,0\nP,18,7,0,0,1,0,0,1\nP,11,0,0,0,2,0,0,2,2\nP,2,0,0,0,1,0,0,3\n"
CACHED_STEPS = b"P,0,0,0,0,0,0,0\nP,5,0,0,0,1,1,0,0,0\nP,18,7,0,0,1,0,0,0\nP,11,0,0,0,2,0,0,2,2\nP,2,0,0,0,1,0,0,3\n"
ABOVE = EXPRS + b"P,0,0,0,0,0,0,0\nP,18,7,0,0,1,0,0,0\nP,5,0,0,0,1,1,0,1,0\nP,2,0,0,0,1,0,0,2\nP,2,1,0,0,1,0,0,1\n"
ABOVE_STEPS = b"P,0,0,0,0,0,0,0\nP,18,7,0,0,1,0,0,0\nP,5,0,0,0,1,1,0,1,0\nP,2,0,0,0,1,0,0,1\nP,2,1,0,0,1,0,0,1\n"

SHORT = b"P,0,0,0,0,0,0,0\nP,2,0,0,0,1,0,0,0\n"


def one_byte_off(paper):
    """The paper once for each of its bytes, with that byte altered."""
    return [paper[:k] + bytes([paper[k] ^ 1]) + paper[k + 1:] for k in range(len(paper))]


ALL = [
    # each sheet's own paper, and the other's
    Case(LOOSE, RIGHT, "88 right"),
    Case(KEPT, KEPT_RIGHT, "88 right"),
    Case(LOOSE, KEPT_RIGHT, "88 wrong"),
    Case(KEPT, RIGHT, "88 wrong"),
    # one block right: the other's edges, the other's steps
    Case(LOOSE, STEPS + KEPT_EDGES, "88 wrong"),
    Case(LOOSE, KEPT_STEPS + EDGES, "88 wrong"),
    Case(KEPT, KEPT_STEPS + EDGES, "88 wrong"),
    Case(KEPT, STEPS + KEPT_EDGES, "88 wrong"),
    # the edge into the removed sort: behind the others, before them, alone, ordered; its order given, its slot another
    Case(LOOSE, RIGHT + REMOVED, "88 wrong"),
    Case(LOOSE, STEPS + REMOVED + EDGES, "88 wrong"),
    Case(LOOSE, STEPS + REMOVED, "88 wrong"),
    Case(LOOSE, RIGHT + b"G,1,0,1\n", "88 wrong"),
    Case(LOOSE, RIGHT + b"G,1,1,0\n", "88 wrong"),
    # the removed sort's own line left out, and the edge into it besides
    Case(LOOSE, b"P,0,0,0,0,0,0,0\nP,2,0,0,0,1,0,0,0\n" + EDGES, "88 wrong"),
    Case(LOOSE, b"P,0,0,0,0,0,0,0\nP,2,0,0,0,1,0,0,0\n" + EDGES + REMOVED, "88 wrong"),
    # nothing removed: all G lines
    Case(KEPT, KEPT_STEPS + b"G,2,0,1\n", "88 wrong"),
    # two sorts removed: of the three G lines the first stays
    Case(TWO, TWO_STEPS + b"G,3,0,0\n", "126 right"),
    Case(TWO, TWO_STEPS + b"G,3,0,0\nG,2,0,0\n", "126 wrong"),
    Case(TWO, TWO_STEPS + b"G,3,0,0\nG,1,0,0\n", "126 wrong"),
    Case(TWO, TWO_STEPS + b"G,3,0,0\nG,2,0,0\nG,1,0,0\n", "126 wrong"),
    Case(TWO, TWO_STEPS + b"G,2,0,0\nG,1,0,0\n", "126 wrong"),
    # a sort that stays under an UnoptimizedDispatch, and one with a slice: their unordered edges too
    Case(EXPRS + DISPATCHED, DISPATCHED + b"G,3,0,0\nG,2,0,1\nG,1,0,0\n", "114 right"),
    Case(EXPRS + DISPATCHED, DISPATCHED + b"G,3,0,0\nG,2,0,1\n", "114 wrong"),
    Case(EXPRS + SLICED, SLICED + b"G,2,0,0\nG,1,0,0\n", "88 right"),
    Case(EXPRS + SLICED, SLICED + b"G,2,0,0\n", "88 wrong"),
    Case(EXPRS + SLICED, SLICED + b"G,1,0,0\n", "88 wrong"),
    # a sort under a Cache: the edge into the Cache, which leaves the sort, stays; a sort above one: the edge into the Cache stays
    Case(CACHED, CACHED_STEPS + b"G,4,0,0\nG,3,0,0\nG,3,1,0\nG,2,0,0\n", "153 right"),
    Case(CACHED, CACHED_STEPS + b"G,4,0,0\nG,3,0,0\nG,3,1,0\nG,2,0,0\nG,1,0,0\n", "153 wrong"),
    Case(CACHED, CACHED_STEPS + b"G,4,0,0\nG,3,0,0\nG,3,1,0\n", "153 wrong"),
    Case(CACHED, CACHED_STEPS + b"G,4,0,0\nG,3,0,0\nG,3,1,0\nG,1,0,0\n", "153 wrong"),
    Case(ABOVE, ABOVE_STEPS + b"G,3,0,0\nG,4,0,1\nG,1,0,1\n", "142 right"),
    Case(ABOVE, ABOVE_STEPS + b"G,3,0,0\nG,4,0,1\nG,2,0,0\nG,1,0,1\n", "142 wrong"),
    Case(ABOVE, ABOVE_STEPS + b"G,4,0,1\nG,1,0,1\n", "142 wrong"),
    # the steps as sent, where a sort went: the Sink's line has to name the Sort's input
    Case(LOOSE, LOOSE[len(EXPRS):] + EDGES, "88 wrong"),
    # the same edges with another keep strategy
    Case(UNION_FIRST, UNION_ANY + UNION_EDGES, "103 right"),
    Case(UNION_FIRST, UNION_FIRST + UNION_EDGES, "103 wrong"),
    Case(SCAN_FIRST, SCAN_FIRST + SCAN_EDGES, "76 right"),
    Case(SCAN_FIRST, SCAN_ANY + SCAN_EDGES, "76 wrong"),
    # the same edges with another kind, another option, another entry of a list; each as it has to be, and as it was sent
    Case(MERGE, MERGE.replace(b"P,12,1", b"P,11,0") + MERGE_EDGES, "103 right"),
    Case(MERGE, MERGE + MERGE_EDGES, "103 wrong"),
    Case(JOIN, JOIN.replace(b"P,9,1,3", b"P,9,1,1") + JOIN_EDGES, "102 right"),
    Case(JOIN, JOIN + JOIN_EDGES, "102 wrong"),
    Case(EXPRS * 2 + GROUP, GROUP.replace(b"1,1,1,0,0,1", b"1,1,1,0,0,2") + GROUP_EDGES, "113 right"),
    Case(EXPRS * 2 + GROUP, GROUP + GROUP_EDGES, "113 wrong"),
    # one block alone, both in the wrong order, a block twice; nothing
    Case(LOOSE, EDGES, "88 wrong"),
    Case(LOOSE, STEPS, "88 wrong"),
    Case(LOOSE, EDGES + STEPS, "88 wrong"),
    Case(LOOSE, STEPS + RIGHT, "88 wrong"),
    Case(LOOSE, RIGHT + EDGES, "88 wrong"),
    Case(LOOSE, b"", "88 wrong"),
    # the E lines before, the T line behind, both, the sheet itself
    Case(LOOSE, EXPRS + RIGHT, "88 wrong"),
    Case(LOOSE, RIGHT + TALLY, "88 wrong"),
    Case(LOOSE, EXPRS + RIGHT + TALLY, "88 wrong"),
    Case(LOOSE, LOOSE, "88 wrong"),
    # one byte altered, at every place of every line
    *[Case(LOOSE, paper, "88 wrong") for paper in one_byte_off(RIGHT)],
    # the lines of a block in another order, a G line among the P lines
    Case(KEPT, KEPT_STEPS + b"G,1,0,1\nG,2,0,1\n", "88 wrong"),
    Case(LOOSE, b"P,5,1,0,0,1,1,0,0,0\nP,0,0,0,0,0,0,0\nP,2,0,0,0,1,0,0,0\n" + EDGES, "88 wrong"),
    Case(LOOSE, b"P,0,0,0,0,0,0,0\nP,5,1,0,0,1,1,0,0,0\nG,2,0,0\nP,2,0,0,0,1,0,0,0\n", "88 wrong"),
    # longer, by a byte at either end or between the blocks; longer than any sheet
    Case(LOOSE, RIGHT + b"\n", "88 wrong"),
    Case(LOOSE, RIGHT + b"\x00", "88 wrong"),
    Case(LOOSE, b"\n" + RIGHT, "88 wrong"),
    Case(LOOSE, STEPS + b"\n" + EDGES, "88 wrong"),
    Case(LOOSE, RIGHT * 300, "88 wrong"),
    # shorter, by a byte or a line at either end, or between the blocks
    Case(LOOSE, RIGHT[:-1], "88 wrong"),
    Case(LOOSE, RIGHT[1:], "88 wrong"),
    Case(LOOSE, STEPS[:-1] + EDGES, "88 wrong"),
    Case(LOOSE, STEPS + EDGES[1:], "88 wrong"),
    Case(KEPT, KEPT_STEPS + b"G,1,0,1\n", "88 wrong"),
    Case(LOOSE, b"P,5,1,0,0,1,1,0,0,0\nP,2,0,0,0,1,0,0,0\n" + EDGES, "88 wrong"),
    # other line ends
    Case(LOOSE, RIGHT.replace(b"\n", b"\r\n"), "88 wrong"),
    Case(LOOSE, RIGHT.replace(b"\n", b"\r"), "88 wrong"),
    Case(LOOSE, RIGHT.replace(b"\n", b"\n\r"), "88 wrong"),
    # the output one byte too short (1), the sheet one byte too long (2), 33 P lines (5)
    Case(SHORT, SHORT + b"G,1,0,0\n", "0 R,1", 16383),
    Case(SHORT, SHORT + b"G,1,0,0\n", "50 right"),
    Case(b"\n" * 16385, b"", "0 R,2"),
    Case(b"P,0,0,0,0,0,0,0\n" * 33, b"", "0 R,5"),
    # 3, 4, 6 to 9, 12 and 13
    Case(b"E,0,0,1,0", b"", "0 R,3"),
    Case(b"E,25,0,1,0\n", b"", "0 R,4"),
    Case(b"", b"", "0 R,6"),
    Case(b"P,15,0,0,0,1,0,0,0\n", b"", "0 R,7"),
    Case(b"P,0,0,0,0,0,0,0\n", b"", "0 R,8"),
    Case(b"P,0,0,0,0,0,0,0\nP,2,0,0,0,1,0,0,0\nP,2,0,0,0,1,0,0,0\n", b"", "0 R,12"),
    Case(b"P,0,0,0,0,0,0,0\nP,18,5,0,0,1,0,0,0\nP,18,5,0,0,1,0,0,1\nP,2,0,0,0,1,0,0,2\n", b"", "0 R,13"),
    Case(b"E,3,0,1,0\nP,0,0,0,0,0,0,0\nP,3,0,0,0,1,1,0,0,0\nP,2,0,0,0,1,0,0,1\n", b"", "0 R,9"),
    # 10 and 11
    Case(b"E,0,0,1,0\nE,8,0,0,0,0\nP,0,0,0,0,0,0,0\nP,0,0,0,0,0,0,0\nP,9,0,0,0,2,1,0,0,1,1\nP,2,0,0,0,1,0,0,2\n", b"", "0 R,10"),
    Case(b"E,0,0,1,0\nE,8,0,0,0,0\nP,0,0,0,0,0,0,0\nP,2,1,1,0,1,1,0,0,1\n", b"", "0 R,11"),
]
