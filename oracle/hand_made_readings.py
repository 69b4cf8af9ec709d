"""Sheets made by hand for freeze_hand_made.py, each after what the reading answers: a refusal's number, or the counts of E and P lines."""


def numbered(line, count):
    """Lines that end with 0, 1, .., count - 1."""
    return b"".join(line + b"%d\n" % n for n in range(count))


COLUMN = b"E,0,0,1,0\n"
SCAN = b"P,0,0,0,0,0,0,0\n"


def select(input, *entries):
    return b"P,3,0,0,0,1,%d,0,%d" % (len(entries), input) + b"".join(b",%d" % entry for entry in entries) + b"\n"


def cache(id, input):
    return b"P,18,%d,0,0,1,0,0,%d\n" % (id, input)


def sink(input):
    return b"P,2,0,0,0,1,0,0,%d\n" % input


# Lines that are named by none (8) or more than once (12), and ids (13).
USES = [
    # an E line in no list; a step's entry twice; two steps; a child and an entry; two children; both lists of a Join
    (8, COLUMN + SCAN + sink(0)),
    (12, COLUMN + SCAN + select(0, 0, 0) + sink(1)),
    (12, COLUMN + SCAN + select(0, 0) + select(1, 0) + sink(2)),
    (12, COLUMN + b"E,7,0,1,0,0\n" + SCAN + select(0, 0, 1) + sink(1)),
    (12, COLUMN + b"E,5,0,1,0,0,0\n" + SCAN + select(0, 1) + sink(1)),
    (12, COLUMN + SCAN * 2 + b"P,9,0,0,0,2,1,1,0,1,0,0\n" + sink(2)),
    # three and eight times
    (12, COLUMN + SCAN + select(0, 0, 0, 0) + sink(1)),
    (12, COLUMN + SCAN + select(0, *[0] * 8) + sink(1)),
    # a sheet without a Sink has 8 at its last line, unless an earlier one is at fault
    (8, SCAN),
    (8, SCAN + b"P,15,0,0,0,1,0,0,0\n"),
    (12, COLUMN + SCAN + select(0, 0, 0)),
    (12, SCAN + b"P,11,0,0,0,2,0,0,0,0\n"),
    # a Sink needs no naming; a Cache does, and may have more
    ((0, 2), SCAN + sink(0)),
    ((0, 4), SCAN * 2 + sink(0) + sink(1)),
    (8, SCAN + cache(1, 0)),
    (8, SCAN * 2 + cache(1, 0) + sink(1)),
    ((0, 3), SCAN + cache(1, 0) + sink(1)),
    ((0, 4), SCAN + cache(1, 0) + sink(1) + sink(1)),
    ((0, 4), SCAN + cache(1, 0) + b"P,11,0,0,0,8,0,0,1,1,1,1,1,1,1,1\n" + sink(2)),
    # a Scan named by two steps, by two slots of one, by three
    (12, SCAN + sink(0) + sink(0)),
    (12, SCAN + b"P,9,0,0,0,2,0,0,0,0\n" + sink(1)),
    (12, SCAN + sink(0) + sink(0) + sink(0)),
    # a sort over a Scan that a Sink reads too
    (12, SCAN + b"P,5,0,0,0,1,0,0,0\n" + sink(1) + sink(0)),
    # of two E lines the first decides: the one used twice, the one unused
    (12, COLUMN * 2 + SCAN + select(0, 0, 0) + sink(1)),
    (8, COLUMN * 2 + SCAN + select(0, 1, 1) + sink(1)),
    (12, COLUMN * 3 + SCAN + select(0, 0, 1, 1) + sink(1)),
    (8, COLUMN * 3 + SCAN + select(0, 0, 2, 2) + sink(1)),
    # of two P lines the first decides
    (12, SCAN * 2 + sink(0) + sink(0)),
    (8, SCAN * 2 + sink(1) + sink(1)),
    (12, SCAN * 3 + sink(0) + sink(1) + sink(1)),
    (8, SCAN * 3 + sink(0) + sink(2) + sink(2)),
    # an E line before any P line: the last E line against the first P line, each number against each
    (12, COLUMN * 2 + SCAN * 2 + select(1, 0, 1, 1) + sink(2)),
    (8, COLUMN * 2 + SCAN + select(0, 0) + sink(1) + sink(0)),
    (8, COLUMN * 2 + SCAN * 2 + select(1, 0) + sink(2)),
    (12, COLUMN * 2 + SCAN + select(0, 0, 1, 1) + sink(1) + sink(0)),
    # 7 before both
    (7, COLUMN + SCAN + sink(0) + sink(9)),
    (7, COLUMN + SCAN + select(0, 0, 0) + sink(1) + sink(2)),
    # two Cache lines with one id: one over the other; over two Scans; over a common Cache; over a common Scan (12)
    (13, SCAN + cache(1, 0) + cache(1, 1) + sink(2)),
    (13, SCAN * 2 + cache(1, 0) + cache(1, 1) + sink(2) + sink(3)),
    (13, SCAN + cache(2, 0) + cache(1, 1) + cache(1, 1) + sink(2) + sink(3)),
    (12, SCAN + cache(1, 0) + cache(1, 0) + sink(1) + sink(2)),
    # the common Cache has a third reader, or the same id
    (13, SCAN + cache(2, 0) + cache(1, 1) + cache(1, 1) + sink(2) + sink(3) + sink(1)),
    (13, SCAN + cache(1, 0) + cache(1, 1) + cache(1, 1) + sink(2) + sink(3)),
    # ids 0 and 255; ids that differ; an id that is another step's option
    (13, SCAN + cache(0, 0) + cache(0, 1) + sink(2)),
    (13, SCAN + cache(255, 0) + cache(255, 1) + sink(2)),
    ((0, 4), SCAN + cache(0, 0) + cache(255, 1) + sink(2)),
    ((0, 4), SCAN + cache(1, 0) + b"P,4,1,0,0,1,0,0,1\n" + sink(2)),
    # three of one id; the last two of three
    (13, SCAN + cache(1, 0) + cache(1, 1) + cache(1, 2) + sink(3)),
    (13, SCAN + cache(1, 0) + cache(2, 1) + cache(2, 2) + sink(3)),
    # 8 and 12 before 13, wherever they stand: behind both Caches, a Cache itself, an E line
    (8, SCAN + cache(1, 0) + cache(1, 1) + sink(2) + SCAN),
    (12, SCAN + cache(1, 0) + cache(1, 1) + SCAN + sink(2) + sink(3) + sink(3)),
    (8, SCAN + cache(1, 0) + cache(1, 1) + sink(1)),
    (8, COLUMN + SCAN + cache(1, 0) + cache(1, 1) + sink(2)),
    (12, COLUMN + SCAN + cache(1, 0) + cache(1, 1) + select(2, 0, 0) + sink(3)),
    # 13 before 9, 12 before 9, 8 before 9
    (13, b"E,3,0,1,0\n" + SCAN + cache(1, 0) + cache(1, 1) + select(2, 0) + sink(3)),
    (12, b"E,3,0,1,0\n" + SCAN + select(0, 0, 0) + sink(1)),
    (8, b"E,3,0,1,0\n" + SCAN + sink(0)),
    # the last of 128 E lines and the last of 32 P lines
    (8, COLUMN * 128 + SCAN + b"".join(select(n, *range(8 * n, min(127, 8 * n + 8))) for n in range(16)) + sink(16)),
    (12, SCAN + b"".join(b"P,17,0,0,0,1,0,0,%d\n" % n for n in range(29)) + sink(29) + sink(29)),
]


ALL = [
    # line form (3), and no line at all (6)
    (6, b""),
    (3, b"\n"),
    (3, b"\n\n"),
    (3, b"X,0,0,1,0\n"),
    (3, b"E,0,0,1\n"),
    (3, b"P,0,0,0,0,0,0\n"),
    (3, b"E,0,0,1,0"),
    (3, b"E,0,0,1,0\r\n"),
    (3, b"E,0,0,1,00\n"),
    (3, b"E,0,0,1,256\n"),
    # the same: numbers, single bytes, an E line after a P line
    (3, b"E,0,0,1,0,\n"),
    (3, b"E,,0,1,0\n"),
    (3, b"E,0,0,1,-1\n"),
    (3, b"E,0,0,1,1000\n"),
    (3, b"\x00\n"),
    (3, b"E,0,\x00,1,0\n"),
    (3, b"E,\xff,0,1,0\n"),
    (3, b"EE,0,0,1,0\n"),
    (3, b"E 0,0,1,0\n"),
    (3, b"P,0,0,0,0,0,0,0\nE,0,0,1,0\n"),
    # the tables (4)
    (4, b"E,25,0,1,0\n"),
    (4, b"E,0,2,1,0\n"),
    (4, b"E,0,0,2,0\n"),
    (4, b"E,0,0,1,1\n"),
    (4, b"E,0,0,1,0,0\n"),
    (4, b"E,19,0,1,64\n"),
    (4, b"E,16,0,1,1,0\n"),
    (4, b"E,20,0,1,0,0,0,0,0,0,0,0,0,0\n"),
    (4, b"P,19,0,0,0,0,0,0\n"),
    (4, b"P,2,0,0,0,1,1,0,0,0\n"),
    # P lines against the tables; no P line (6); a plan
    (4, b"P,0,0,0,0,0,0,0,0\n"),
    (4, b"P,3,0,0,0,1,1,0,0\n"),
    (4, b"P,1,0,0,0,9,0,0,0,0,0,0,0,0,0,0,0\n"),
    (4, b"P,3,0,0,0,1,255,0,0\n"),
    (4, b"P,8,1,0,4,1,0,0,0\n"),
    (4, b"P,9,4,0,0,2,0,0,0,0\n"),
    (4, b"P,16,0,0,0,0,0,0\n"),
    (6, b"E,0,0,1,0\n"),
    ((1, 3), b"E,0,0,1,0\nP,0,0,0,0,0,0,0\nP,5,1,0,0,1,1,0,0,0\nP,2,0,0,0,1,0,0,1\n"),
    # references (7)
    (7, b"E,7,0,1,0,0\nP,0,0,0,0,0,0,0\n"),
    (7, b"E,7,0,1,0,5\nP,0,0,0,0,0,0,0\n"),
    (7, b"P,15,0,0,0,1,0,0,0\n"),
    (7, b"P,0,0,0,0,0,0,0\nP,2,0,0,0,1,0,0,0\nP,2,0,0,0,1,0,0,1\n"),
    (7, b"P,0,0,0,0,0,0,0\nP,3,0,0,0,1,1,0,0,0\n"),
    (7, b"P,0,0,0,0,0,0,0\nP,15,0,0,0,1,0,0,200\n"),
    (7, b"P,0,0,0,0,0,0,0\nP,7,0,0,0,1,0,1,0,0\n"),
    *USES,
    ((0, 4), b"P,0,0,0,0,0,0,0\nP,18,1,0,0,1,0,0,0\nP,18,2,0,0,1,0,0,1\nP,2,0,0,0,1,0,0,2\n"),
    # struct fields (9)
    (9, b"E,3,0,1,0\nP,0,0,0,0,0,0,0\nP,3,0,0,0,1,1,0,0,0\nP,2,0,0,0,1,0,0,1\n"),
    ((3, 3), b"E,0,0,1,0\nE,3,0,1,0\nE,15,0,1,0,0,1\nP,0,0,0,0,0,0,0\nP,3,0,0,0,1,1,0,0,2\nP,2,0,0,0,1,0,0,1\n"),
    (9, b"E,3,0,1,0\nE,3,0,1,0\nE,15,0,1,0,0,1\nP,0,0,0,0,0,0,0\nP,3,0,0,0,1,1,0,0,2\nP,2,0,0,0,1,0,0,1\n"),
    ((4, 3), b"E,0,0,1,0\nE,3,0,1,0\nE,7,0,1,0,1\nE,15,0,1,0,0,2\nP,0,0,0,0,0,0,0\nP,3,0,0,0,1,1,0,0,3\nP,2,0,0,0,1,0,0,1\n"),
    ((4, 3), b"E,0,0,1,0\nE,3,0,1,0\nE,15,0,1,0,1\nE,15,0,1,0,0,2\nP,0,0,0,0,0,0,0\nP,3,0,0,0,1,1,0,0,3\nP,2,0,0,0,1,0,0,1\n"),
    (9, b"E,3,0,1,0\nE,0,0,1,0\nE,15,0,1,0,0,1\nP,0,0,0,0,0,0,0\nP,3,0,0,0,1,1,0,0,2\nP,2,0,0,0,1,0,0,1\n"),
    # lengths and limits (2, 5): 16,384 and 16,385 bytes, 128 and 129 E lines, agg entries with them, 32 and 33 P lines
    (4, b"E,0,0,1,0" + b",0" * 8187 + b"\n"),
    (2, b"E,0,0,1,0" + b",0" * 8187 + b",\n"),
    (6, b"E,0,0,1,0\n" * 128),
    (5, b"E,0,0,1,0\n" * 129),
    (3, b"E,0,0,1,0\n" * 128 + b"E,9\n"),
    (4, b"E,0,0,1,0\n" * 128 + b"E,0,0,1,9\n"),
    (8, b"P,0,0,0,0,0,0,0\n" * 32),
    (5, b"P,0,0,0,0,0,0,0\n" * 33),
    (7, b"E,0,0,1,0\n" * 120 + b"P,7,0,0,0,1,0,8,0,0,0,0,0,0,0,0,0\n"),
    (5, b"E,0,0,1,0\n" * 121 + b"P,7,0,0,0,1,0,8,0,0,0,0,0,0,0,0,0\n"),
    (7, b"E,0,0,1,0\n" * 121 + b"P,9,0,0,0,2,0,8,0,0,0,0,0,0,0,0,0,0\n"),
    # chains as long as they may be, and one longer
    ((128, 3), b"E,0,0,1,0\n" + numbered(b"E,7,0,1,0,", 127) + b"P,0,0,0,0,0,0,0\nP,3,0,0,0,1,1,0,0,127\nP,2,0,0,0,1,0,0,1\n"),
    (5, b"E,0,0,1,0\n" + numbered(b"E,7,0,1,0,", 128) + b"P,0,0,0,0,0,0,0\nP,3,0,0,0,1,1,0,0,128\nP,2,0,0,0,1,0,0,1\n"),
    ((0, 32), b"P,0,0,0,0,0,0,0\n" + numbered(b"P,17,0,0,0,1,0,0,", 30) + b"P,2,0,0,0,1,0,0,30\n"),
    (5, b"P,0,0,0,0,0,0,0\n" + numbered(b"P,17,0,0,0,1,0,0,", 31) + b"P,2,0,0,0,1,0,0,31\n"),
]
