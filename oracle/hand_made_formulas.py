"""Formulas made by hand for freeze_hand_made.py: what is answered, and the output lent.

`says` is the number of a refusal, or the E lines. Those with a name of their own have their lines by hand; the others have them by the
rules that stand here, which take nothing from the converter.
"""
import re
from collections import namedtuple
from itertools import permutations, product

Case = namedtuple("Case", "formula says lent", defaults=(16384,))

# a letter's line and a number's; an operator's, where a letter stands under it and where numbers alone do
A = b"E,0,0,1,0\n"
N = b"E,1,1,0,0\n"


def op(left, right):
    return b"E,5,0,1,0,%d,%d\n" % (left, right)


def num(left, right):
    return b"E,5,1,0,0,%d,%d\n" % (left, right)


LEVELS = ["|", "&", "<>=", "+-", "*/"]
SIGNS = "".join(LEVELS)
LOOSEST_FIRST = [signs[0] for signs in LEVELS]
LETTERS = "abcdefghijklmnopqrstuvwxyz"


def level(sign):
    return next(k for k, signs in enumerate(LEVELS) if sign in signs)


def climbed(formula):
    """The lines of what is known to be a formula, by climbing over the levels."""
    tokens = re.findall("[0-9]+|[^ ]", formula)
    lines, at = [], 0

    def taken():
        nonlocal at
        at += 1
        return tokens[at - 1]

    def added(line, numbers_alone):
        lines.append(line)
        return len(lines) - 1, numbers_alone

    def operand():
        token = taken()
        if token != "(":
            return added(N, True) if token.isdigit() else added(A, False)
        inner = climb(0)
        assert taken() == ")"
        return inner

    def climb(least):
        left, left_alone = operand()
        while at < len(tokens) and tokens[at] != ")" and level(tokens[at]) >= least:
            tighter = level(taken()) + 1
            right, right_alone = climb(tighter)
            alone = left_alone and right_alone
            left, left_alone = added((num if alone else op)(left, right), alone)
        return left, left_alone

    climb(0)
    assert at == len(tokens)
    return b"".join(lines)


def by_climbing(formula):
    return Case(formula.encode(), climbed(formula))


def chain(n, sign="+", operand="a"):
    """n operands in a row; all signs have one level, so each operator's left child is the operator before it."""
    return sign.join([operand] * n).encode()


def chain_lines(n):
    return A + b"".join(A + op(2 * k, 2 * k + 1) for k in range(n - 1))


def nested(n):
    """a+(a+(a+..a)): all operands come first, and the last operator that is read is written first."""
    return b"a+(" * (n - 2) + b"a+a" + b")" * (n - 2)


def nested_lines(n):
    return A * n + op(n - 2, n - 1) + b"".join(op(n - 3 - k, n + k) for k in range(n - 2))


def two_signs(first, second):
    """A letter and two numbers: the grouping is seen from the children, and from the S of the operators."""
    left_first = A + N + op(0, 1) + N + op(2, 3)
    right_first = A + N + N + num(1, 2) + op(0, 3)
    grouped = left_first if level(first) >= level(second) else right_first
    return [
        Case(f"a{first}1{second}2".encode(), grouped),
        Case(f"(a{first}1){second}2".encode(), left_first),
        Case(f"a{first}(1{second}2)".encode(), right_first),
    ]


def in_brackets(inner, n, space=b""):
    return b"(" * n + inner + space + b")" * n


# the bytes that are an operand by themselves, that join two letters, that go on with a number
ALONE = LETTERS.encode() + b"0123456789"
JOINS = SIGNS.encode()


def every_byte():
    """Each byte alone; between letters; between digits, where a further digit makes a number; before and behind a letter."""
    for byte in (bytes([b]) for b in range(256)):
        yield Case(byte, (A if byte.isalpha() else N) if byte in ALONE else 14)
        yield Case(b"a" + byte + b"b", A + A + op(0, 1) if byte in JOINS else 14)
        between_digits = N + N + num(0, 1) if byte in JOINS else N if byte.isdigit() else 14
        yield Case(b"1" + byte + b"2", between_digits)
        yield Case(byte + b"a", 14)
        yield Case(b"a" + byte, 14)


def spacings():
    """A space or none in each gap of a formula, which changes nothing; then two in one gap, a space at either end."""
    tokens = ["(", "a", "+", "25", ")", "*", "b"]
    lines = A + N + op(0, 1) + A + op(2, 3)
    for gaps in product(["", " "], repeat=len(tokens) - 1):
        text = "".join(token + gap for token, gap in zip(tokens, (*gaps, "")))
        yield Case(text.encode(), lines)
    for k in range(1, len(tokens)):
        for space in [b"  ", b"   ", b"\t", b"\n", b"\r", b"\x0b", b"\xa0", b"\x00", b" \t"]:
            yield Case("".join(tokens[:k]).encode() + space + "".join(tokens[k:]).encode(), 14)
    whole = "".join(tokens).encode()
    for space in [b" ", b"  ", b"\t", b"\n", b"\r\n", b"\x00", b"\xef\xbb\xbf"]:
        yield Case(space + whole, 14)
        yield Case(whole + space, 14)


NAMED = [
    # the letters and the numbers are not kept, nor is which sign it was
    Case(b"a + b * 3 > c", A + A + N + op(1, 2) + op(0, 3) + A + op(4, 5)),
    Case(b"z / y - 255 = a", A + A + op(0, 1) + N + op(2, 3) + A + op(4, 5)),
    Case(b"a", A),
    Case(b"0", N),
    Case(b"a+b", A + A + op(0, 1)),
    Case(b"a+1", A + N + op(0, 1)),
    Case(b"1+a", N + A + op(0, 1)),
    Case(b"1+2", N + N + num(0, 1)),
    Case(b"a+a", A + A + op(0, 1)),
    # S and L of operators over operators
    Case(b"1+2+a", N + N + num(0, 1) + A + op(2, 3)),
    Case(b"a+1+2", A + N + op(0, 1) + N + op(2, 3)),
    Case(b"a+1*2", A + N + N + num(1, 2) + op(0, 3)),
    Case(b"1*2+3*4", N + N + num(0, 1) + N + N + num(3, 4) + num(2, 5)),
    Case(b"1*2+3*a", N + N + num(0, 1) + N + A + op(3, 4) + op(2, 5)),
    Case(b"a*2+3*4", A + N + op(0, 1) + N + N + num(3, 4) + op(2, 5)),
    # one level groups to the left
    Case(b"a-b-c", A + A + op(0, 1) + A + op(2, 3)),
    Case(b"a-b+c", A + A + op(0, 1) + A + op(2, 3)),
    Case(b"a/b*c", A + A + op(0, 1) + A + op(2, 3)),
    Case(b"a<b<c", A + A + op(0, 1) + A + op(2, 3)),
    Case(b"a=b>c", A + A + op(0, 1) + A + op(2, 3)),
    Case(b"a|b|c", A + A + op(0, 1) + A + op(2, 3)),
    Case(b"a&b&c", A + A + op(0, 1) + A + op(2, 3)),
    # the five levels, from the loosest on and from the tightest on
    Case(b"a|b&c<d+e*f", A * 6 + op(4, 5) + op(3, 6) + op(2, 7) + op(1, 8) + op(0, 9)),
    Case(b"a*b+c<d&e|f", A + A + op(0, 1) + A + op(2, 3) + A + op(4, 5) + A + op(6, 7) + A + op(8, 9)),
    # brackets that change nothing
    Case(b"(a)", A),
    Case(b"( a )", A),
    Case(b"((7))", N),
    Case(b"(a)+(b)", A + A + op(0, 1)),
    Case(b"(a+b)", A + A + op(0, 1)),
    Case(b"(a-b)-c", A + A + op(0, 1) + A + op(2, 3)),
    Case(b"a+(b*c)", A + A + A + op(1, 2) + op(0, 3)),
    Case(b"(((a)-(b)))-((c))", A + A + op(0, 1) + A + op(2, 3)),
    # brackets that do
    Case(b"a-(b-c)", A + A + A + op(1, 2) + op(0, 3)),
    Case(b"(a+b)*c", A + A + op(0, 1) + A + op(2, 3)),
    Case(b"a*(b+c)", A + A + A + op(1, 2) + op(0, 3)),
    Case(b"(a|b)&(c|d)", A + A + op(0, 1) + A + A + op(3, 4) + op(2, 5)),
    Case(b"((a-b)-c)-d", A + A + op(0, 1) + A + op(2, 3) + A + op(4, 5)),
    Case(b"(a-(b-c))-d", A + A + A + op(1, 2) + op(0, 3) + A + op(4, 5)),
    Case(b"(a-b)-(c-d)", A + A + op(0, 1) + A + A + op(3, 4) + op(2, 5)),
    Case(b"a-((b-c)-d)", A + A + A + op(1, 2) + A + op(3, 4) + op(0, 5)),
    Case(b"a-(b-(c-d))", A + A + A + A + op(2, 3) + op(1, 4) + op(0, 5)),
    # what stands before a bracket waits until it is closed, however loose the signs within
    Case(b"a*(b|c)*d", A + A + A + op(1, 2) + op(0, 3) + A + op(4, 5)),
    Case(b"a*(b|(c|d)*e)", A + A + A + A + op(2, 3) + A + op(4, 5) + op(1, 6) + op(0, 7)),
]

NO_FORMULAS = [
    # nothing, a line end alone, one at the end
    b"", b"\n", b" ", b"a\n", b"a\r\n", b"a+b\n", b"\na",
    # capitals, unary signs, a sign that wants an operand
    b"A", b"a+B", b"aA", b"-a", b"+a", b"a+-b", b"a--b", b"a*+b", b"(-a)", b"-1", b"a-", b"a -", b"+", b"a+*b", b"(a+)", b"(+a)", b"*a",
    # two signs in a row, signs of other languages
    b"a<=b", b"a>=b", b"a==b", b"a<>b", b"a< =b", b"<=", b"a&&b", b"a||b", b"a**b", b"a//b", b"!a", b"a!=b", b"a^b", b"a%b", b"~a",
    b"a?b:c", b"a;b", b"a,b", b"1.5", b"'a'", b"a[1]", b"{a}", b"\xe2\x88\x92a", b"a\xc3\x97b", b"\xc3\xa9", b"a\xc2\xa0+b",
    # two operands in a row
    b"ab", b"a b", b"aa", b"1 2", b"1a", b"a1", b"a 1", b"1 a", b"(a)b", b"a(b)", b"(a)(b)", b"(a) (b)", b"2(a)", b"(a)2", b"12 5", b"a+b c",
    # numbers: leading zeros, too great, also where a byte or a word of bytes wraps
    b"00", b"01", b"007", b"0255", b"a+00", b"0a", b"256", b"260", b"300", b"999", b"1000", b"2550", b"511", b"65536", b"65791",
    b"4294967296", b"4294967297", b"18446744073709551616", b"9" * 400, b"a+256", b"(256)", b"0 0", b"1_0", b"0x1", b"1e2",
    # brackets
    b"()", b"( )", b"(", b")", b")(", b"(a", b"a)", b"((a)", b"(a))", b"a+(b", b"a+b)", b")a(", b"a+()", b"()a", b"(a+b", b"(a)+b)", b"((a+b)",
    b"a)+(b", b"(" * 255 + b"a", b"(" * 256 + b"a", b"(" * 257 + b"a" + b")", b"a" + b")" * 256, b"(" * 3 + b"a" + b")" * 259,
]

# 16,384 bytes: brackets 8,191 deep and a space; and one byte more
LONGEST = in_brackets(b"a", 8191, b" ")
TOO_LONG = in_brackets(b"a", 8192)

LIMITS = [
    # 64 operands have 127 lines, 65 have 129
    Case(chain(63), chain_lines(63)),
    Case(chain(64), chain_lines(64)),
    Case(chain(65), 15),
    Case(chain(66), 15),
    Case(chain(64, " & "), chain_lines(64)),
    Case(chain(65, " & "), 15),
    Case(chain(65, "*", "0"), 15),
    Case(chain(128), 15),
    Case(chain(129), 15),
    Case(chain(257), 15),
    Case(chain(8192), 15),
    Case(nested(64), nested_lines(64)),
    Case(nested(65), 15),
    Case(in_brackets(chain(64), 100), chain_lines(64)),
    Case(in_brackets(chain(65), 100), 15),
    Case(chain(32) + b"*" + in_brackets(chain(33), 1), 15),
    # 14 comes before 15, wherever the fault stands
    *[Case(chain(65) + end, 14) for end in [b"+", b" ", b")", b"\n", b"a", b"+007", b"+256", b"+(a", b"&&a", b"+A", b"\xff", b"  +a"]],
    *[Case(start + chain(65), 14) for start in [b" ", b"-", b"(", b")", b"7", b"00+", b"\n"]],
    Case(chain(40) + b"+ab+" + chain(40), 14),
    Case(chain(8191) + b"+ ", 14),
    Case(chain(64) + b"+", 14),
    # brackets as deep as they go, with and without an operator in them; one too few, one too many
    Case(in_brackets(b"a", 8191), A),
    Case(LONGEST, A),
    Case(in_brackets(b"7", 8191, b" "), N),
    Case(in_brackets(b"1+2", 8190), N + N + num(0, 1)),
    Case(b"a*" + in_brackets(b"1+2", 8189), A + N + N + num(1, 2) + op(0, 3)),
    Case(in_brackets(b"a", 255), A),
    Case(in_brackets(b"a+b", 256) + b"*c", A + A + op(0, 1) + A + op(2, 3)),
    Case(b"a*" + in_brackets(b"b|" + in_brackets(b"c|d", 300), 300) + b"*e", A * 4 + op(2, 3) + op(1, 4) + op(0, 5) + A + op(6, 7)),
    Case(b"(" * 8191 + b"a" + b")" * 8190, 14),
    Case(b"(" * 8191 + b"a" + b")" * 8192, 14),
    Case(b"(" * 16384, 14),
    Case(b")" * 16384, 14),
    Case(b"(" * 8191 + b"a+" + b")" * 8191, 14),
    # 16,384 bytes and more, formulas and not
    Case(b"a" * 16384, 14),
    Case(b" " * 16384, 14),
    Case(in_brackets(b"a", 8191) + b"\n", 14),
    Case(chain(8192) + b"+", 14),
    Case(in_brackets(chain(65), 8127, b" "), 15),
    Case(TOO_LONG, 2),
    Case(LONGEST + b"\n", 2),
    Case(LONGEST + b" ", 2),
    Case(b"a" * 16385, 2),
    Case(b"\n" * 16385, 2),
    Case(chain(8193), 2),
    Case(b"a" * 20000, 2),
    Case(in_brackets(b"a", 16000), 2),
]

# 1 comes first of all; an output that is longer than it has to be keeps what stands behind the lines
OUTPUTS = [
    *[Case(formula, 1, lent) for formula in [b"a", b"a + b * 3 > c", b"", b"A", chain(65), LONGEST, TOO_LONG] for lent in [0, 1, 10, 16383]],
    *[Case(b"a+1", A + N + op(0, 1), lent) for lent in [16384, 16385, 20000]],
    *[Case(chain(64), chain_lines(64), lent) for lent in [16384, 16385, 20000]],
    Case(LONGEST, A, 20000),
    Case(b"a b", 14, 20000),
    Case(chain(65), 15, 20000),
    Case(TOO_LONG, 2, 20000),
]

# each once, where first it stands
ALL = list(dict.fromkeys([
    *NAMED,
    # every sign beside every sign, with brackets and without
    *[case for first, second in product(SIGNS, repeat=2) for case in two_signs(first, second)],
    # every row of three signs, and the five levels in every order
    *[by_climbing("a{}1{}b{}2".format(*signs)) for signs in product(LOOSEST_FIRST, repeat=3)],
    *[by_climbing("a{}1{}2{}b{}3{}4".format(*signs)) for signs in permutations(LOOSEST_FIRST)],
    # the same in brackets that change the grouping
    *[by_climbing("(a{}1{}2){}(b{}3){}4".format(*signs)) for signs in permutations("|>=-/", 5)],
    # each letter and each number, as far as 300
    *[Case(b"%d" % n, N if n < 256 else 14) for n in range(301)],
    *[Case(f"{letter}*9".encode(), A + N + op(0, 1)) for letter in LETTERS],
    *every_byte(),
    *spacings(),
    *[Case(formula, 14) for formula in NO_FORMULAS],
    *LIMITS,
    *OUTPUTS,
]))
