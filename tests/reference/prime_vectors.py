"""Makes the stored vectors for curly primes (document 02, request 6): U+2019 and U+2032 where a multiplier takes them and where nothing does, cut and look-alike signs, every
setting of the eight flags, offsets behind signs, long and deep texts; what the other entries make of trees over such texts, parts that hold a sign (refused 6),
and `agree`.

The lines are those of reading_vectors.py, entry_vectors.py and agree_vectors.py. Every reading with the flag on is also made by the request's own sentence
(straight.py), and both must be the same.
"""
import random

import agree_vectors
import notation as n
import trees
from entry_vectors import COUNT, DEEP, FLATTEN, INV, LAYERS, NAME, PRINT, SEEK, line_of
from lines import ROOM, spelled
from reading_vectors import MAX, MIN, WCA, answer, nested, well_made
from straight import read_both

FLAG = 128
ON = MAX | FLAG
RIGHT, PRIME = n.CURLY
ENTRIES = (PRINT, INV, DEEP, COUNT, FLATTEN, SEEK, LAYERS, NAME)


def read(bits, text, room=ROOM):
    """Gives a call of reading with its answer. With the flag on, both ways of reading are compared with each other first."""
    data = text.encode() if isinstance(text, str) else text
    if bits & FLAG:
        read_both(data, n.features_of(bits))
    said, room = answer(bits, data, room)
    return f"r{bits:02x}{room:06x}{spelled(data)}", said


def accepted(bits, text):
    line, said = read(bits, text)
    assert said.startswith("read "), text[:80]
    return line, said


def rejected(bits, text, number=4):
    line, said = read(bits, text)
    assert said == f"refused {number}", (text[:80], said)
    return line, said


def each_way(text):
    """Gives the text with its apostrophes as one sign, as the other, and as both in turns with some apostrophes kept."""
    ways = {text.replace("'", RIGHT), text.replace("'", PRIME)}
    for start in (0, 1) if text.count("'") > 1 else ():
        parts = text.split("'")
        ways.add(parts[0] + "".join((RIGHT + PRIME + "'")[(i + start) % 3] + part for i, part in enumerate(parts[1:])))
    return sorted(ways)


ADMITTED = (
    "R'", "R1'", "R2'", "R0'", "R007'", "R2147483647'", "Rw'", "_'", "β'", "Ωω3'", "~R'", "3R2'", "1-3R'", "{1}R'", "~{1..3,-2}R0'", "R{}'", "R{A}2'", "{1-2}R{A->B, β<>Γ}'", "@'", "@2'", "@U'", "@Ω10'", "@{}'", "@U{A}3'",
    "()'", "(R)'", "!(R)2'", "&(R U)'", "^(R)0'", "^()'", "[R, U]'", "[R: U]2'", "[,]'", "[:]0'", "[R', U']'", "[R2' F' : U' ]3'", "((R')2' U')'", "!(&(^()')')'",
    "R' U' F2'", " R' ", "R'\u3000U'", "R'\u2028U'\u2029F'", "R'\u00a0U", "R'\u2003\u1680\u205f.", "R'\n(1,-2) U'\t/", "R++ R' D-- D'", "( R' )'", "[ R' , U' ]", "R' . / (1,-2) @' (U')' [F', D']'",
)
NOT_ADMITTED = (
    "'", " '", "' ", "'R", "R '", "R' '", "''", "R''", "R2''", "@''", "(R)''", "[R, U]''", "(1,0)'", "( 1 , 0 )2'", "/'", ".'", "R++'", "R--'", "D++'", "D--2'", "R'++", "D'--", "'(R)", "'[R, U]", "!'(R)", "'!(R)", "^'()", "R'U", "Rw'w",
    "R'w", "β'Γ", "R'2", "R2'2", "R'0", "@'U", "@'2", "(R)'2", "R'{A}", "R{A}'{B}", "@'{}", "R{'}", "R{A'}", "R{'A}", "R{A,'}", "R{A'->B}", "R{A-'>B}", "R{A->'B}", "R{A->B'}", "R{A<'>B}", "R{A'", "{'}R", "{1'}R", "{'1}R", "{1,'}R", "{1'..3}R", "{1.'.3}R",
    "{1..3'}R", "{1'-3}R", "{1-3'}R", "{-'1}R", "{1}'R", "3'R", "'3R", "1'-3R", "1-'3R", "1-3'R", "~'R", "'~R", "('1,2)", "(1',2)", "(1,2')", "(-'1,2)", "(')", "(R ')", "[', U]", "[R,']", "[R' U]", "[R'; U]", "[:']", "R'.", "R'/", "R'(U)", "R'[U, F]", "R'@", "R'~U", "R')",
    "R2147483648'", "R99999999999'", "@2147483648'", "(R)2147483648'", "0R'", "R-'", "R+'", "α'", "R'\u200bU", "R\u200b'", "R\u00ad'",
)


def signs():
    for text in ADMITTED:
        for way in each_way(text):
            yield accepted(ON, way)
        yield rejected(MAX, text.replace("'", random.choice(n.CURLY)))
    for k, text in enumerate(NOT_ADMITTED):
        yield rejected(ON, text.replace("'", n.CURLY[k % 2]))
        if k % 4 == 0:
            yield rejected(MAX, text.replace("'", n.CURLY[k // 4 % 2]))
    # what takes no multiplier takes no sign
    for leaf in ("(1,0)", "/", ".", "R++", "R--", "D++", "D--"):
        for sign in n.CURLY:
            yield rejected(ON, leaf + sign + " U")
    # of two primes the second is never read
    for a in "'" + n.CURLY:
        for b in "'" + n.CURLY:
            yield rejected(ON, "R" + a + b)
            yield rejected(ON, "(U)2" + a + b + " F")


def cut():
    """Texts that are not UTF-8: some bytes of a sign without the others, and a sign in a longer form."""
    for sign in (b"\xe2\x80\x99", b"\xe2\x80\xb2"):
        for part in (sign[:1], sign[:2], sign[1:], sign[2:], sign[1:2], sign[::2], sign[:2] + b"'", sign[:1] + b"'", sign[:1] + b" " + sign[1:], sign[:2] + b"\x19", sign + sign[2:], sign + sign[:2], b"\xf0\x82" + sign[1:], sign[:2] + sign[:1]):
            yield rejected(ON, b"R" + part, 2)
        yield rejected(MAX, b"R" + sign[:2], 2)
        yield rejected(ON, b"(" * 65 + sign[:2], 2)
        yield rejected(ON, sign + b"(" * 65, 3)


LOOK_ALIKE = (0x60, 0xB4, 0x2B9, 0x2BB, 0x2BC, 0x2C8, 0x5F3, 0x2018, 0x201A, 0x201B, 0x201D, 0x2031, 0x2033, 0x2034, 0x2035, 0x2059, 0x2072, 0x2099, 0x20B2, 0x2119, 0x2132, 0x301E, 0x6019, 0x6032, 0xFF07, 0x12019, 0x12032, 0x22019, 0x19, 0x27F, 0x1FBD)


def look_alikes():
    for c in LOOK_ALIKE:
        yield rejected(ON, "R" + chr(c))
        yield rejected(ON, "(R)2" + chr(c) + " U" + PRIME)


# Pieces of text: number i is read only where bit i of the setting is on, but for the last two, which every setting reads.
PROBES = ("~R'", "{1,-2}R2'", "{1-2}R' {3}U", "@U' @'", "R{A->B}'", "R++ R'", "(1,2) R' /", "(R')' [2-3U', F]'", "3Rw0'")


def probe(bits):
    """Gives a text of all pieces that the flags of a setting admit."""
    admitted = [text for i, text in enumerate(PROBES) if i > 6 or bits >> i & 1]
    if not bits & 2:
        admitted = [text for text in admitted if not text.startswith("{")]
    return " ".join(admitted)


def settings():
    """Takes all 256 settings: with signs, a text that the setting admits but for the signs, and one piece that may need a flag that is off."""
    for bits in range(256):
        text = probe(bits)
        curly = "".join(n.CURLY[(bits + i) % 2] + part if i else part for i, part in enumerate(text.split("'")))
        yield accepted(bits, curly) if bits & FLAG else rejected(bits, curly)
        if bits & FLAG or bits % 4 == 3:
            yield read(bits, PROBES[bits % 7].replace("'", n.CURLY[bits // 7 % 2]))


def unchanged():
    """Reads texts without such signs, on which the flag changes nothing."""
    texts = (*PROBES[:7], "R''", "R'2", "(1,0)'", "'", "R\u2018", "α'", "R2147483648'")
    for bits in range(128):
        text = texts[bits // 2 % len(texts)] if bits % 2 else probe(bits)
        line, said = read(bits | FLAG, text)
        assert said == read(bits, text)[1], (bits, text)
        yield line, said


FAR = (
    "R' {1,2}U", "R' {3..4}Fw{A->B}2' @Ω{C}' 2-3L{D}", "(R' U2')2' [~{5}L': 2-3D{E}']' (Γ' β)2 {1,-1}F", "[R', @U{A}']' [{1}F': @{B<>C}2' ω]' _{D}", "^(R')' !({1-2}U')' &(@β{A}')' x",
    "(1,-2) R' / {9}U' . R++ D' @{A}", "R'\u3000{1}U{β}'\u2028@Ωω{ A -> B }' {2}F", "R0' {1}U0' F{A}", "R2147483647' {1}U2147483647' @F{A}",
)


def offsets():
    """Families, constraints and layer sets that stand behind signs."""
    for text in FAR:
        for way in each_way(text):
            yield accepted(ON, way)


def deep():
    s = RIGHT.encode()
    for t in (nested(64, b"R" + s, closing=b")" + s), nested(65, b"R" + s, closing=b")" + s), nested(64, b",U" + s, b"[R" + s, b"]2" + s), b"R" + s + b" " + nested(64, b"U" + s), b"R" + s + b" " + nested(65, b"U" + s),
              (b"[R" + s + b":") * 64 + b"U" + s + (b"]" + s) * 64, (b"[R" + s + b":") * 65 + b"U" + (b"]" + s) * 65, (b"[") * 64 + b"R" + s + (b",]" + s) * 64, b"[" * 65 + b"R" + s + (b",]" + s) * 65,
              b"(R" + s + b")" + s + b" " + nested(63, b"(1,0)"), b"(R" + s + b")" + s + b" " + nested(64, b"(1,0)"), b"(R" + s + b")2" + s + b" " + b"(U)" * 70, (b"(R" + s + b")2" + s + b" ") * 70,
              s * 70 + b"(" * 64, s * 70 + b"(" * 65, b")" * 5 + s + b"(" * 69, b")" * 5 + s + b"(" * 70):
        yield read(ON, t)


def rooms():
    for text in ("R'", "R2' U'", "(R' U)2' [F', .]'", "{1}R{A}' @'"):
        curly = text.replace("'", PRIME).encode()
        size = len(n.pack(n.read(curly, n.features_of(ON))))
        for room in (0, 1, n.RECORD - 1, size - 1, size, size + 1, size + n.RECORD):
            yield read(ON, curly, room)
    yield read(ON, "R" + RIGHT + ")", 10)
    yield read(MAX, "R" + RIGHT, 0)


def long_texts():
    """Signs and what stands behind them at offsets over 65,535, up to 140,000 bytes. In the straight text some of these offsets would fit 16 bits."""
    tail = "~{1,-2..3}Rw{A->B}2' @U{C}' (F 2-3L')2' [{5}D', R++]' β".replace("'", RIGHT).encode()
    nodes = 5  # of the tail; the entries are asked of these alone, since a tree of all records would make a long line
    for start in (("R" + RIGHT + " ").encode() * 13108, ("R" + PRIME + " ").encode() * 20000, ("(Rw2" + PRIME + ")" + RIGHT + " ").encode() * 7000, b" " * 65520 + ("U" + RIGHT + " ").encode() * 5, ("U" + RIGHT + " ").encode() * 13105 + b"Ux "):
        yield accepted(ON, start + tail)
        yield rejected(MAX, start + tail)
        tree = n.pack(n.read(start + tail, n.features_of(ON))[-nodes:])
        for number in range(len(tree) // n.RECORD):
            yield line_of(NAME, start + tail, tree, number=number)
        yield line_of(LAYERS, start + tail, tree, layers=5, negatives=True)
        yield line_of(PRINT, start + tail, tree)
    for text in ("[" + "R' " * 14000 + ", U']'", "R' " * 28000, "R{" + "A," * 33000 + "A}' U{B}'", "{" + "1," * 33000 + "1}R' {2}U'", "R" * 66000 + "' U{A}'"):
        for sign in n.CURLY:
            yield accepted(ON, text.replace("'", sign))
    yield rejected(ON, "R' ".replace("'", RIGHT) * 28000 + PRIME)
    yield rejected(ON, ("R" + RIGHT) * 2)


def curled(text):
    """Gives the text with each apostrophe replaced by a sign or kept, at random."""
    return "".join(random.choice(n.CURLY + "'") if c == "'" else c for c in text)


def by_chance():
    pieces = ["R'", "U2'", "3Rw'", "1-3F0'", "~{1..-1,2}L'", "@'", "@U{A}'", ".", "/", "(1,-3)", "R++", "D--", "(", ")", "[", ",", ":", "]", "!(", "&(", "^(", ")2'", "]0'", ")'", "]'", " ", "  ", "R{A->B}'", "{", "}", "'", "7'", "\n", "β'", "Ω2'", "U", "F"]
    for _ in range(130):
        text = "".join(random.choice(pieces) + random.choice(("", " ", " ")) for _ in range(random.randrange(1, 10)))
        yield read(random.choice((ON, ON, ON, WCA | FLAG, MIN | FLAG, random.randrange(256))), curled(text))
    for _ in range(90):
        yield accepted(ON, curled(well_made(3)))


TREES = (
    "R' U2' F0'", "(R U')2'", "[R: U2 F]'", "[R', U2']2'", "((R U')2' F')3'", "~{1,-2..3}Rw{A->B}2' (@U{C}' 2-3L')2' [{5}D', R++ (1,-2)]' β'", "^(R')' U'", "((-2147483648,0) R')'", "([R': {2..9}U'] . /)'",
)


def entries():
    """Asks the other entries with trees that were read from texts with signs."""
    for text in TREES:
        curly = curled(text.replace("'", RIGHT, 1)).encode()
        tree = n.pack(n.read(curly, n.features_of(ON)))
        for entry in (INV, DEEP, PRINT, COUNT, FLATTEN):
            yield line_of(entry, curly, tree)
        shown = n.display(curly, tree)
        assert shown == n.display(text.encode(), n.pack(n.read(text.encode(), n.MAXIMAL))) and not any(c in shown.decode() for c in n.CURLY)
        for room in (0, len(shown) - 1, len(shown), len(shown) + 60):
            yield line_of(PRINT, curly, tree, room=room)
        steps = n.count(n.read(curly, n.features_of(ON)))
        for place in sorted({0, 1, steps // 2, steps - 1, steps}):
            yield line_of(SEEK, curly, tree, number=place)
        for number in range(len(tree) // n.RECORD + 1):
            yield line_of(NAME, curly, tree, number=number)
            yield line_of(LAYERS, curly, tree, number=number, layers=5, negatives=True)


def wrong():
    """Trees that are not well formed, because a part covers a prime of any kind or ends inside one. The entries that take a tree take no flags."""
    move, rotation = trees.move, lambda **fields: trees.rec(n.ROTATION, number=1, **fields)
    for text, make in (("R' U", move), ("@R'", rotation)):
        at = text.index("R")
        for sign in "'" + n.CURLY:
            curly = text.replace("'", sign)
            for size in range(2, 2 + len(sign.encode())):
                yield curly, make(family=at, family_size=size)
            for skipped in range(1, 1 + len(sign.encode())):
                yield curly, make(family=at + skipped, family_size=1 + len(sign.encode()) - skipped)
    for sign in "'" + n.CURLY:
        size = len(sign.encode())
        yield "R{A" + sign + "}", move(constrained=1, constraints=1, constraints_size=3 + size)
        yield "R{A}" + sign, move(constrained=1, constraints=1, constraints_size=3 + size)
        yield "R{" + sign + "A}", move(constrained=1, constraints=1, constraints_size=3 + size)
        yield "{1" + sign + "}R", move(family=3 + size, form=3, set_size=3 + size)
        yield "{1}" + sign + "R", move(family=3 + size, form=3, set_size=3 + size)
        yield "{" + sign + "}R", move(family=2 + size, form=3, set_size=2 + size)
    yield "R{A}" + RIGHT, move(constrained=1, constraints=1, constraints_size=5)
    yield "{1}" + PRIME + "R", move(family=6, form=3, set_size=4)


def parts():
    for k, (text, tree) in enumerate(wrong()):
        for entry in ENTRIES if k % 4 == 0 else (ENTRIES[k % 8], NAME, PRINT):
            line, said = line_of(entry, text, tree, layers=5)
            assert said == "refused 6", (text, said)
            yield line, said
    # signs beside the parts do no harm, wherever they stand
    text = "\u2019R\u2032{A}\u2019{1}\u2032"
    tree = trees.move(family=3, constrained=1, constraints=7, constraints_size=3, form=3, set=13, set_size=3, number=-2) + trees.rec(n.ROTATION, number=-1, constrained=1, constraints=7, constraints_size=3)
    assert n.well_formed(text.encode(), tree)
    for entry in ENTRIES:
        yield line_of(entry, text, tree, layers=5)


def agreed():
    """Asks `agree` with the flag on: the printed inverse has apostrophes, and is read back under the same setting."""
    held = 0
    for text in (*TREES, *FAR, *(curled(well_made(3)) for _ in range(30))):
        curly = curled(text)
        total = agree_vectors.total_of(curly, ON)
        for place in sorted({0, max(total - 1, 0), random.randrange(total + 2)}):
            line, said, spoken_of = agree_vectors.line_of(agree_vectors.case(curly, place, ON))
            held += spoken_of
            yield line, said
    for text in ("R' U", "R''", "(R')2' U{A}"):
        for bits in (MAX, WCA | FLAG, MIN | FLAG, FLAG | 16):
            yield agree_vectors.line_of(agree_vectors.case(text.replace("'", PRIME), 0, bits, room=200))[:2]
    assert held > 90, held


def lines():
    """Each case with its answer."""
    random.seed(17)
    for group in (signs, cut, look_alikes, settings, unchanged, offsets, deep, rooms, long_texts, by_chance, entries, parts, agreed):
        yield from group()
