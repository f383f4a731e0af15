"""Makes the stored vectors for reading.

A case is a line: `r`, features (2 hex digits, bit i the i-th flag of notation.FLAGS), length of the lent buffer (6 hex digits), then the
text's segments. The answer's value is the count of bytes used, and its bytes the tree.
"""
import itertools
import random

import notation as n
from lines import ROOM, refused, spelled, value

MAX, WCA, MIN = 0x7F, 0x60, 0x00


def answer(bits, text, room):
    try:
        tree = n.pack(n.read(text, n.features_of(bits)))
    except n.Refused as r:
        return refused(r.number), 0 if room is None else room
    room = len(tree) + 3 if room is None else room
    if len(tree) > room:
        return refused(5), room
    return value(len(tree), tree), room


def texts():
    s = lambda t: t.encode()
    # every rule, every kind
    for t in ("", " ", "R", "R U", " R  U ", "R\nU\tF", "R2", "R'", "R2'", "R0", "R007'", "R2147483647", "R2147483647'", ".", ". .", "/", "/ /",
              "R++", "R--", "D++", "D--", "R++ D-- R", "@", "@U", "@2", "@'", "@U{A}", "@{}", "@{A}2'", "@{A->B}", "@Ω3'", "()", "(R)", "( R U )2'", "!(R)",
              "&(R U)", "^(R)0", "((R))", "!(&(^()))", "(R)(U)", "[R, U]", "[R: U]'", "[,]", "[:]", "[ R U , F ]2", "[[R, U]: [F: D]]'", "(1,0)", "(-1,-2)",
              "( 1 , -0 )", "(\n1\n,\n2\n)", "(2147483647,-2147483648)", "3R", "3-5R", "5-3R", "3-3R", "~R", "~3R", "~1-2R", "{}R", "{1}R", "{ 1 , 2 }R",
              "{-1}R", "{1..3}R", "{-3..-1,2}R", "{1-3}R", "{1-3, 5}R", "~{1..3,5}R", "00007R", "{00001}R", "32767R", "1-32767R", "{-32767..32767}R",
              "R{}", "R{ }", "R{A}", "R{A,B}", "R{A->B}", "R{A<>B}", "R{ A -> B , C <> D , E }2'", "~{1..2}Ωω_a{β->γ}3'", "~{1..2}Ωω_a{β->δ}3'",
              "_", "a", "Z", "β", "Γ", "Ω", "ω", "Rw", "x", "IR2", "BLAH_blah", "ΓΔΘΛΞΠΣΦΨΩβδζθλξεηκμπτφψω"):
        yield t
    # refused 4
    for t in ("..", "(1,0)/(3,3)", "#(R)", "$(R)", "%(R)", "?(R)", "`(R)", "R {A}", "{1 .. 3}R", "{,}R", "{1,}R", "{1,,2}R", "R++2", "R++'", "R+", "R-",
              "R+++", "0R", "40000R", "32768R", "{0}R", "{-0}R", "{-32768}R", "{40000}R", "{32768}R", "1-40000R", "0-1R", "{1..40000}R", "R99999999999",
              "R2147483648", "R2147483648'", "(2147483648,0)", "(0,-2147483649)", "(1)", "(1,)", "(,1)", "(1 2,0)", "(+1,0)", "(1,0)2", "(1,0)'", "α", "σ", "R)",
              "(R", ")", "]", "[", "[R]", "[R,U", "[R,U,F]", "[R;U]", "(R,U)", "R''", "R'2", "R 2", "R '", "2", "'", "~", "~~R", "~ R", "~(R)", "2(R)", "! (R)",
              "!!(R)", "R(U)", "(R)U", "{1}", "{1} R", "3-R", "3-1-2R", "3 R", "{1 -3}R", "{1- 3}R", "{-1-3}R", "{1--3}R", "{1..}R", "{..1}R", "{1...3}R", "{- 1}R",
              "R{A->}", "R{->B}", "R{A->B->C}", "R{A- >B}", "R{A<B}", "R{A,}", "R{,A}", "R{1}", "R{A}{B}", "R{A", "@@", "@(R)", "@ U", ".'", ".2", "/2", "/'", "\x00",
              "R\x00", "R\u200bU", "R\u2019", "R\u2032", "é", "日", "𝄞"):
        yield t
    # Unicode White_Space between and around nodes
    for c in sorted(n.WHITE):
        yield "R" + chr(c) + "U"
    yield "".join(map(chr, sorted(n.WHITE)))
    for c in (0x8, 0xE, 0x1F, 0x21, 0x84, 0x86, 0x9F, 0xA1, 0x167F, 0x180E, 0x1FFF, 0x200B, 0x2027, 0x202A, 0x2030, 0x205E, 0x2060, 0x3001, 0xFEFF):
        yield "R" + chr(c) + "U"


def damaged():
    for t in (b"\xff", b"R\xff", b"\x80", b"\xbf", b"\xc0\x80", b"\xc1\xbf", b"\xc2", b"\xc2\x41", b"\xe0\x80\x80", b"\xe0\x9f\xbf", b"\xe2\x80", b"\xe2\x28\xa1",
              b"\xed\xa0\x80", b"\xed\xbf\xbf", b"\xf0\x80\x80\x80", b"\xf0\x8f\xbf\xbf", b"\xf0\x90\x80", b"\xf4\x90\x80\x80", b"\xf5\x80\x80\x80", b"\xf8", b"\xce",
              b"R \xce", b"\xb2", b"(" * 65 + b"\xff", b"\xff" + b"(" * 65):
        yield t


def nested(k, inner=b"", opening=b"(", closing=b")"):
    return opening * k + inner + closing * k


def cases():
    for t in texts():
        yield MAX, t.encode(), ROOM
    for t in damaged():
        yield MAX, t, 40
    # each flag alone, each flag off, and the named settings, on texts that turn on them
    probes = ("~R", "{1}R", "{1-2}R", "{1..2}R", "@", "@U{}", "R{}", "R{A->B}", "R--", "R", "/", "(1,2)", "1-2R", "~{1-3}R{A}2 @{} D++ (1,-1)", "[R, U]' .")
    settings = [1 << i for i in range(7)] + [MAX ^ 1 << i for i in range(7)] + [WCA, MIN]
    for bits, t in itertools.product(settings, probes):
        yield bits, t.encode(), ROOM
    # nesting
    for t in (nested(64), nested(65), nested(64, b"(1,0)"), nested(63, b"(1,0)"), b"(" * 64, b"(" * 65, b"[" * 65, b")" * 10 + b"(" * 75, b"))((", nested(32, nested(32, b",", b"[", b"]")),
              b"[:" * 64 + b"]" * 64, b"[" * 64 + b":]" * 64, b"{" * 100):
        yield MAX, t, ROOM
    # limits: lengths and buffers
    for t in (b" " * 65535, b" " * 65536, b"R " * 32767 + b"U", b"R " * 32768, b"R" * 65535, b"R0 " * 21845, b". " * 32767, b"( " * 60 + b"R " * 32000 + b") " * 60,
              b"{" + b"1," * 20000 + b"1}R", b"R{" + b"A->B," * 10000 + b"A}", b"()" * 30000, b"[,] " * 16383, b"0" * 65530 + b"1R", b"(" + b"0" * 60000 + b"1,2)"):
        yield MAX, t, ROOM
    for t in (b"R", b"R U", b"(R U)2 [F, .]"):
        size = len(n.pack(n.read(t, n.MAXIMAL)))
        for room in (0, 1, n.RECORD - 1, n.RECORD, size - 1, size, size + 1, size + n.RECORD):
            yield MAX, t, room
    yield MAX, b"R)", 10
    yield MAX, b"", 0
    # made-up texts: pieces put together at random, most of them read
    random.seed(7)
    pieces = ["R", "U2'", "3Rw", "1-3F", "~{1..-1,2}L", "@", "@U{A}", ".", "/", "(1,-3)", "R++", "D--", "(", ")", "[", ",", ":", "]", "!(", "&(", "^(", ")2'", "]0", ")'", " ", "  ",
              "R{A->B}", "{", "}", "'", "7", "\n", "β", "Ω2"]
    for _ in range(150):
        yield random.choice((MAX, MAX, WCA)), "".join(random.choice(pieces) + random.choice(("", " ")) for _ in range(random.randrange(1, 14))).encode(), ROOM
    for _ in range(60):
        yield MAX, well_made(3).encode(), ROOM


def well_made(depth):
    def node(d):
        k = random.randrange(9 if d else 6)
        m = random.choice(("", "'", "2", "3'", "0"))
        if k < 2:
            return random.choice(("", "~", "3", "2-5", "{1,-2}")) + random.choice(("R", "Uw", "β")) + random.choice(("", "{A}")) + m
        if k < 6:
            return random.choice((".", "/", "(1, -2)", "R++", "@U" + m))
        if k < 8:
            return random.choice(("", "!", "&", "^")) + "(" + nodes(d - 1) + ")" + m
        return "[" + nodes(d - 1) + random.choice((", ", ": ", ":")) + nodes(d - 1) + "]" + m

    def nodes(d):
        return " ".join(node(d) for _ in range(random.randrange(4)))

    return nodes(depth)


def lines():
    """Each case with its answer."""
    for bits, text, room in cases():
        line, room = answer(bits, text, room)
        yield f"r{bits:02x}{room:06x}{spelled(text)}", line
