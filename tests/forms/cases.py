#!/usr/bin/env python3
"""Makes calls of the two forms after the core (`Reader` and `ranges::simplify`) and the lines that they are to write, for run.sh.

cases.py FOLDER writes pieces there, Rattle statements to calls.000 and so on and the expected output to lines.000 and so on. What is expected comes from
tests/reference/notation.py."""
import os
import random
import sys

sys.path.insert(0, os.path.join(os.path.dirname(os.path.abspath(__file__)), "..", "reference"))
import notation as n

ROOM = 3
KEPT = "7 77 "
LAYERS = ["", "2", "7", "3-5", "9-2", "{1,3..5,-2}", "{-1..4}", "{2,-4..-2,8}", "{1-3,7}", "{1,3,5,7}", "{}", "{ 4 , 4 }", "{-9..-7,9}", "32767", "{32767,-32767}"]
# with a tilde: the request's examples, the ends of the axis, as many ranges as are lent or one more, the borders of the tables, other records
TILDES = [("~2R", 0, 5, False), ("~R", 0, 1, False), ("~{5..9}R", 0, 3, False), ("~{2,4}R", 0, 5, True), ("~{2,4,6}R", 0, 7, True), ("~{2,4,6}R", 0, 6, True), ("~{1,3,5,7}R", 0, 7, True), ("~{1,3,5,7}R", 0, 8, True),
          ("~1-3R", 0, 3, True), ("~1-3R", 0, 4, True), ("~{-1}R", 0, 5, True), ("~{-1}R", 0, 5, False), ("~{}R", 0, 9, True), ("~9R", 0, 5, True), ("~{1,127}R", 0, 127, True), ("~{1,127}R", 0, 128, True), ("~{1,-1}R", 0, 129, True),
          ("~{2}R", 0, 32767, True), ("~R", 0, 32767, True), ("(~U)2 ~2-4R 2R", 1, 3, True), ("(~U)2 ~2-4R 2R", 2, 5, True), ("(~U)2 ~2-4R 2R", 3, 5, True), ("~R", 0, 0, True), ("~R", 0, 32768, True), ("~R", 1, 5, True)]
FAMILIES = ["R", "U", "Rw", "\u03a9\u03c9", "x_y", "IR"]
SETS = ["", "", "{}", "{a->b}", "{ R<>U , F }", "{R->}", "{a,b", "{R -> F,L<>B}"]
TIMES = ["", "2", "'", "3'", "0", "007", "2147483647'", "2147483648", "\u2019", "2\u2032", "\u2032'", "0\u2019", "\u2018"]
CURLY = n.MAXIMAL | {"curly_primes"}
# the last two have every bit of a number, or all but that of the curly primes: those above it say nothing
SETTINGS = [(n.MAXIMAL, "maximal()"), (n.WCA, "wca()"), (CURLY, "from_bits(255)"), (CURLY, "from_bits(4294967295)"), (n.MAXIMAL, "from_bits(4294967167)")]
LEAVES = [".", "/", "(1, -2)", "( -2147483648 , 0 )", "(1,2", "R++", "D--", "@", "@R", "(R U)", "[R, U]", ")", "-", "^(R)"]
SPACES = ["", " ", "\n\t", "\u00a0", "\u3000 "]


def literal(text):
    return 'b"' + "".join(chr(b) if 0x20 <= b < 0x7F and chr(b) not in '"\\' else f"\\x{b:02x}" for b in text) + '"'


def ranges_of(text, record, max_layer, negatives):
    """Gives a call of `ranges::simplify` and its line. Three entries are lent, each filled with 7 and 77."""
    tree = n.pack(n.read(text, n.MAXIMAL))
    call = f"ranges_of(&rt, {literal(text)}, {record}, {max_layer}, {str(negatives).lower()})?;"
    try:
        found = n.lend(n.simplify(text, tree, record, max_layer, negatives), 4 * ROOM, 4)
    except n.Refused as e:
        return call, f"refused {e.number} " + KEPT * ROOM
    ends = [int.from_bytes(found[i:i + 2], "big") for i in range(0, len(found), 2)]
    return call, f"{len(ends) // 2} " + "".join(f"{i} " for i in ends) + KEPT * (ROOM - len(ends) // 2)


def leaf(r):
    """Reads a leaf at the cursor, which stays where there is none, and gives what is written of it."""
    start = r.i
    found = r.node()
    if found is None or found.kind < n.ROTATION:
        r.i = start
        return "nothing "
    b = n.record(found)
    return f"{b[0]} {n.unpack(b)['number'] % 2**32} {found.family[0]} {found.family[1]} {r.offset[r.i]} "


def walked(text, setting):
    """Gives a call that reads white space, a leaf, a constraint set and a multiplier and says whether that was all; and its line."""
    features, name = setting
    r = n.Reader(text, features)
    r.spaces()
    line = leaf(r)
    found = r.braces(r.constraint)
    line += "none " if found is None else f"{r.offset[r.i]} "
    line += f"{r.multiplier() % 2**32} " + ("end" if r.i == len(r.s) else "")
    return f"walked(&rt, {literal(text)}, features::{name})?;", line


def first(text):
    """Gives a call for the leaf that a text begins with, after white space, and its line."""
    r = n.Reader(text, n.MAXIMAL)
    r.spaces()
    return f"first(&rt, {literal(text)})?;", leaf(r)


def first_of_pauses(size):
    """Does the same for a text of so many pauses. (A text past the limit would not fit the stack.)"""
    return f"first(&rt, &[{ord('.')}u8; {size}])?;", leaf(n.Reader(b"." * size, n.MAXIMAL))


def cases(r):
    for text in ["\n(1, -2)x", ")", "", " ~3-1R{a}2' U", "\u3000@"]:
        yield first(text.encode())
    for size in [65535, 65536]:
        yield first_of_pauses(size)
    for text, record, max_layer, negatives in [("{1,3..5,-2}R2'", 0, 9, True), ("{1,3..5,-2}R2'", 0, 9, False), ("{1,3,5,7}R", 0, 9, True), ("U R", 1, 0, True),
                                               ("(U)2 R", 0, 9, True), ("(U)2 2-4R", 2, 3, True), ("R", 0, 32768, True), ("R", 1, 9, True), *TILDES]:
        yield ranges_of(text.encode(), record, max_layer, negatives)
    for _ in range(250):
        moves = [r.choice(["", "~"]) + r.choice(LAYERS) + r.choice(FAMILIES) for _ in range(r.randint(1, 3))] + r.choice([[], ["(R)2"], ["@"]])
        r.shuffle(moves)
        yield ranges_of(" ".join(moves).encode(), r.randint(0, 4), r.choice([0, 1, 2, 5, 9, 9, 9, 32767, 32768]), r.random() < 0.6)
    for text in ["  Rw2'", " ({a->b, c}3'", "@ ", "", "Rw2\u2019", " {a->b, c}3\u2032", "R\u2032{a}\u2019", "R\u2019\u2032"]:
        for setting in SETTINGS:
            yield walked(text.encode(), setting)
    for _ in range(250):
        start = r.choice(LEAVES) if r.random() < 0.4 else r.choice(["", "~", "@"]) + r.choice(LAYERS) + r.choice(FAMILIES) + r.choice(SETS)
        text = r.choice(SPACES) + start + r.choice(TIMES) + r.choice(["", "", " "]) + r.choice(SETS) + r.choice(TIMES) + r.choice(["", "", " "])
        yield walked(text.encode(), r.choice(SETTINGS))


# The interpreter takes at most 20 million steps. A layer set with a tilde on the longest axis takes 3.7 million of them, most other calls some ten thousand.
STEPS, HEAVY, LIGHT = 18000000, 4000000, 80000


def pieces(found):
    """The cases in parts, none of which takes too many steps."""
    piece, left = [], STEPS
    for call, line in found:
        steps = HEAVY if ", 32767," in call and "{" in call else LIGHT
        if steps > left:
            yield piece
            piece, left = [], STEPS
        piece.append((call, line))
        left -= steps
    yield piece


def main():
    for k, piece in enumerate(pieces(cases(random.Random(7)))):
        for name, column, form in (("calls", 0, "    {}\n"), ("lines", 1, "{}\n")):
            with open(os.path.join(sys.argv[1], f"{name}.{k:03}"), "w") as f:
                f.write("".join(form.format(case[column]) for case in piece))


main()
