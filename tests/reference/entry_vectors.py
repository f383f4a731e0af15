"""Makes the stored vectors for the entries that take a text and a tree.

A case is a line: a letter for the entry (below), length of the lent buffer (6 hex digits), place or record (16 hex digits), `max_layer` (8
hex digits), whether negatives are allowed (0 or 1), the text's segments, `|`, the tree's segments. The answer's value is the count of bytes
written, of steps (which writes none), or of layer ranges (4 bytes each); for a family it is its length and the bytes its text.
"""
import random

import notation as n
from lines import ROOM, refused, spelled, value
from reading_vectors import well_made
from trees import move, rec, with_counts

INV, DEEP, PRINT, COUNT, FLATTEN, SEEK, LAYERS, NAME = "idpcfsln"
WRITERS = (INV, DEEP, PRINT, FLATTEN)
LEAST = n.LEAST
TOP = n.MOST_STEPS


def tree_of(text):
    return n.pack(n.read(text, n.MAXIMAL))


def call(entry, text, tree, number, layers, negatives, room):
    """Gives what an entry counts and what it writes. It raises Refused, with 5 too where the room is given."""
    if entry == COUNT:
        return n.count_steps(text, tree), b""
    if entry == NAME:
        found = n.family(text, tree, number)
        return len(found), found
    if entry == LAYERS:
        found = n.simplify(text, tree, number, layers, negatives)
        return len(found) // 4, found if room is None else n.lend(found, room, 4)
    if entry == FLATTEN:
        found = n.flatten(text, tree, room)
    elif entry == SEEK:
        found = n.seek_step(text, tree, number)
    else:
        found = {INV: n.inv, DEEP: n.inv_deep, PRINT: n.display}[entry](text, tree)
    return len(found), found if room is None else n.lend(found, room)


def line_of(entry, text, tree=None, number=0, layers=0, negatives=False, room=ROOM):
    text = text.encode() if isinstance(text, str) else text
    tree = tree_of(text) if tree is None else tree
    try:
        count, found = call(entry, text, tree, number, layers, negatives, room)
        room = len(found) + 3 if room is None else room
        answer = value(count, found)
    except n.Refused as r:
        room = 40 if room is None else room
        answer = refused(r.number)
    return f"{entry}{room:06x}{number:016x}{layers:08x}{negatives:d}{spelled(text)}|{spelled(tree)}", answer


def layers(form, low, high, **fields):
    return move(form=form, d=low << 16 | high, **fields)


# Texts with every kind of node, sign patterns, nesting, multiplier 0, NISS groups and pair numbers that cannot be negated.
TEXTS = (
    "", " ", "R", "R U", "R' U2' F0", "R2147483647'", "R U F2' . / (1,-2) R++ R-- D++ D-- @ @U{A}3 3Rw ~2-4F {1,-2..3}L{A->B}'", ".", "/", "(1,-2)", "(0,0)",
    "(2147483647,-2147483647)", "R++", "R--", "D++", "D--", "@", "@2'", "@{}", "@β{ A , B -> C }'", "(R U)", "(R U')2'", "!(R U)'", "&(R U)0", "()", "()7'",
    "(R)0", "(R)'", "((R)')'", "((R U)2' F)3'", "((((R))))", "[R, U]", "[R, U]'", "[R, U]2", "[R, U]2'", "[R, U]0", "[R U, F D]'", "[R: U2 F]", "[R: U2 F]'",
    "[R: U]2'", "[R: U]0", "[,]", "[:]'", "[, R]", "[R:]", "[: R]'", "[[R, U]: [F: D]]'", "[[R: U], [F, D]']3'", "[(R)2: (U F)2']'", "([R, U] . /)'",
    "~R", "3R", "32767R", "1-3R", "3-3R", "5-2R", "{}R", "{1}R", "{ 1 , -2..3 }R", "{1-3, 5}R", "~{-3..-1,2}Rw{}", "R{A,B->C,D<>E}2'", "R{ A -> B , C }", "Ωω_a",
    "ΓΔΘΛΞΠΣΦΨΩβδζθλξεηκμπτφψω", "R\u3000U\u2028F", "007R007'",
)
NISS = (
    "^(R)", "^(R)0", "^(R)'", "^()", "(^(R))0", "(^(R))", "(^(R)0)0", "((^(R))0)2", "!(^(R))'", "[^(R), U]", "[U, ^(R)]'", "[^(R), U]0", "[^(R): U]", "[U: ^(R)]",
    "[U: ^(R)]0", "[(^(R))0: U]", "[U: (^(R))0]", "[[^(R): U], F]", "R ^(U) F", "(R (U (F ^(D))))0", "([^(R), ^(U)])", "[[R, ^(U)]: F]", "[F: [R, ^(U)]]", "[F: [^(U): R]]",
)
PAIRS = (
    "(-2147483648,0)", "(0,-2147483648)", "(-2147483648,-2147483648)", "((-2147483648,0))", "((-2147483648,0))'", "(((-2147483648,0))')'", "((-2147483648,0))0", "((0,-2147483648))0'",
    "[(-2147483648,0), R]", "[R, (-2147483648,0)]'", "[(-2147483648,0): R]", "[R: (-2147483648,0)]", "[R: (-2147483648,0)]'", "[(-2147483648,0): R]0",
    "^(R) (-2147483648,0)", "(-2147483648,0) ^(R)", "((-2147483648,0) ^(R))'", "(^(R) (-2147483648,0))'", "(-2147483648,0) (^(R))0", "[(-2147483648,0), ^(R)]", "[^(R), (-2147483648,0)]",
    "[^(R), (-2147483648,0)]'", "[(-2147483648,0), ^(R)]'", "[R: ^(U) (-2147483648,0)]'", "[R: (-2147483648,0) ^(U)]'", "[(-2147483648,0): ^(R)]", "[[(-2147483648,0): R], ^(U)]", "(2147483647,0) (-2147483647,5)",
    "((-2147483648,0) (1,2))2 (^(R))0",
)
# n at and about 4294967295
LARGE = (
    "((R)65535)65537", "((R)65535)65537'", "((R)65536)65536", "((R)65535)65537 R", "R ((R)65535)65537", "(R)2147483647 (R)2147483647 R", "(R)2147483647 (R)2147483647 R R", "[R, U]1073741823 R R R",
    "[R, U]1073741823 R R R R", "[R, U]1073741824", "[(R)2147483647: ]", "[(R)2147483647: R]'", "[(R)2147483647: R R]", "[: (R U)2147483647 R]", "[: (R U)2147483647 R R]'", "[(R)1073741823 (U)2, ]",
    "[(R)1073741823, (U)1073741823]", "[(R)1073741824, (U)1073741824]", "(((R)2147483647)2147483647)0", "(((R)2147483647)2147483647)0 R", "((((R)2147483647)2147483647)2147483647)2147483647",
    "((R)65536)65536 ^(R)", "((R)65536)65536 (^(R))0", "(((R)65536)65536 (-2147483648,0))'", "((-2147483648,0) ((R)65536)65536)'", "(()2147483647)2147483647", "((R)0)2147483647", "((R)1)4294967" , "((R U F)3)477218588", "((R U F)3)477218588 R R R",
    "((R U F)3)477218588 R R R R", "(R)2147483647'",
)


def towers():
    """Texts with groups nested up to 64 deep."""
    yield "(" * 64 + "R" + ")" * 64
    yield "(" * 64 + "R" + ")'" * 64
    yield "(" * 63 + "R" + ")'" * 63
    yield "[R:" * 64 + "U" + "]'" * 64
    yield "[" * 12 + "R" + ", U]'" * 12
    yield "(" * 64 + "R" + ")2147483647" * 64
    yield "[" * 64 + "R" + ", U]" * 64
    yield "[" * 63 + "(-2147483648,0)" + ", U]" * 63
    yield "[" * 63 + "^(R)" + ", U]0" * 63


def broken():
    """Trees that break one rule of well-formedness each: text and tree. Counts are put in by `with_counts`; wrong ones are count_vectors.py's."""
    r = move()
    # length
    for tree in (r[:-1], r + b"\0", r[:1], r + r[:-1], bytes(n.RECORD - 1), r * 3 + b"\x70"):
        yield "R", tree
    # records of other sizes: one, and so many that the length is a multiple of a record's
    for size in (25, 30):
        yield "R", r[:size]
        yield "R", r[:size] * n.RECORD
    # kind
    yield "R", rec(15)
    yield "R", r + rec(15, number=1)
    yield "R", rec(n.SIMPLE, number=1, first=1) + rec(15)
    # unused fields
    yield "R", rec(n.SIMPLE, number=1, second=1) + r
    yield "R", rec(n.NISS, number=1, tilde=1)
    yield "R", rec(n.MACRO, number=1, d=1)
    yield "R", rec(n.COMMUTATOR, number=1, form=1)
    yield "R", rec(n.CONJUGATE, number=1, family_size=1)
    yield "R", rec(n.ROTATION, number=1, tilde=1)
    yield "R", rec(n.ROTATION, number=1, family=1)
    yield "R", rec(n.ROTATION, number=1, form=1, d=0x10001)
    yield "R", rec(n.PAUSE, number=1)
    yield "R", rec(n.SLASH, first=1) + r
    yield "R", rec(n.PAIR, number=1, d=2, tilde=1)
    yield "R", rec(n.RPP, number=1)
    yield "R", rec(n.DMM, d=1)
    yield "R", move(first=1) + r
    yield "R", move(d=0x10001)
    yield "R{}", move(constraints=1, constraints_size=2)
    yield "{1}R", move(family=3, set=0, set_size=3)
    yield "{1}R", move(family=3, form=3, set=0, set_size=3, d=0x10001)
    # parts outside the text
    yield "R", move(family_size=2)
    yield "R", move(family=1)
    yield "", move()
    yield "R", move(family=65535, family_size=65535)
    yield "R{}", move(constrained=1, constraints=1, constraints_size=3)
    yield "R{}", move(constrained=1, constraints=3, constraints_size=2)
    yield "{1}R", move(family=3, form=3, set=2, set_size=3)
    # parts that end or start inside a character
    yield "βγ", move(family_size=1)
    yield "ββ", move(family_size=3)
    yield "β", move(family=1, family_size=1)
    yield "R{β}", move(constrained=1, constraints=1, constraints_size=2)
    # lists that end outside the list that holds them
    yield "R", rec(n.SIMPLE, number=1, first=1)
    yield "R", rec(n.SIMPLE, number=1, first=2) + r
    yield "R", rec(n.SIMPLE, number=1, first=65535) + r * 2
    yield "R", rec(n.SIMPLE, number=1, first=1) + rec(n.SIMPLE, number=1, first=1) + r
    yield "R", rec(n.COMMUTATOR, number=1, first=1, second=1) + r
    yield "R", rec(n.COMMUTATOR, number=1, first=1, second=2) + rec(n.SIMPLE, number=1, first=1) + r * 2
    yield "R", rec(n.CONJUGATE, number=1, first=0, second=2) + r
    # nesting
    yield "R", b"".join(rec(n.SIMPLE, number=1, first=65 - i) for i in range(65)) + r
    yield "R", b"".join(rec(n.CONJUGATE, number=0, second=64 - i) for i in range(65))
    # layers
    for form, low, high in ((1, 0, 0), (1, 32768, 32768), (1, 65535, 65535), (1, 1, 2), (1, 2, 1), (2, 0, 1), (2, 1, 32768), (2, 3, 2), (2, 0, 0), (2, 32768, 32769)):
        yield "R", layers(form, low, high)
    # multipliers
    yield "R", move(number=LEAST)
    yield "R", rec(n.ROTATION, number=LEAST)
    yield "R", rec(n.SIMPLE, number=LEAST, first=1) + r
    yield "R", rec(n.COMMUTATOR, number=LEAST)
    # families
    for text in ("1", " ", "R2", "α", "R ", "-", "é", "ς"):
        yield text, move(family_size=len(text.encode()))
    yield "R", move(family_size=0)
    yield "1", rec(n.ROTATION, number=1, family_size=1)
    # sets and constraints that the grammar does not read, or not to their end
    for text in ("", "{", "{1", "1}", "{1,}", "{,1}", "{0}", "{-0}", "{32768}", "{-32768}", "{1}}", "{1} ", " {1}", "{-1-2}", "{1--2}", "{1 ..2}", "{1 2}", "{A}", "{1..}", "{1}{2}"):
        yield "R" + text, move(form=3, set=1, set_size=len(text))
    for text in ("", "{A", "A", "A}", "{A->}", "{->A}", "{A,}", "{α}", "{A}2", "{A} ", " {A}", "{A B}", "{1}", "{A- >B}", "{A<B}", "{A}{B}"):
        yield "R" + text, move(constrained=1, constraints=1, constraints_size=len(text.encode()))
    yield "R{A", rec(n.ROTATION, number=1, constrained=1, constraints=1, constraints_size=2)


def unused():
    """Sets each field that a kind does not use, alone: to its last bit, and to its first."""
    for kind in range(15):
        fields = {"number": 1} if kind in (*range(8), n.PAIR) else {}
        fields.update({"family_size": 1} if kind == n.MOVE else {})
        base = n.unpack(rec(kind, **fields))
        for name, size in n.FIELDS:
            if name not in n.used_fields(base):
                for value in {1, 1 << size - 1}:
                    yield "R{}", rec(kind, **{**fields, name: value}) + move() * (name in ("first", "second"))


def odd():
    """Well-formed trees that reading does not give for their text."""
    r = move()
    yield "R", r * 3
    yield "RU", move() + move(family=1) + move(family_size=2)
    yield "(R", r
    yield ")) R {1-2} {A -> B} β", move(family=3, form=3, set=5, set_size=5, constrained=1, constraints=11, constraints_size=8) + move(family=20, family_size=2, number=-3)
    yield "R{1..2}", move(form=3, set=1, set_size=6)
    yield "R{ 1-2 , -3 }", move(form=3, set=1, set_size=12)
    yield "{}", rec(n.ROTATION, number=1, constrained=1, constraints_size=2) + rec(n.ROTATION, number=0)
    yield "{}R", move(family=2, form=3, set_size=2, constrained=1, constraints_size=2)
    yield "R", layers(2, 7, 7) + layers(1, 32767, 32767) + layers(2, 1, 32767)
    yield "R", rec(n.PAIR, number=LEAST, d=5) + rec(n.PAIR, number=7, d=2147483647)
    yield "R", rec(n.SIMPLE, number=-2147483647)
    yield "R", b"".join(rec(n.SIMPLE, number=1, first=64 - i) for i in range(64)) + r
    yield "R", b"".join(rec(n.CONJUGATE, number=-1, first=63 - i) for i in range(64))
    yield "R", rec(n.COMMUTATOR, number=1, first=1, second=2) + r + rec(n.SIMPLE, number=2, first=1) + r
    yield "", b""
    yield "β" * 3, move(family=2, family_size=4)


def shared(entry, **more):
    """Texts and trees that every entry is asked: refusal 6 by each rule of a well-formed tree, refusal 2, 2 before 6, well-formed trees that reading does not
    give, and texts, parts and lists about and past 65,535. (Refusal 1 is met in tests/host/long.c: such a text does not fit the program's stack.)"""
    for text, tree in (*broken(), *odd()):
        yield line_of(entry, text, with_counts(tree), **more)
    r = move()
    for text, tree in ((b" " * 65536, b""), (b"R" * 65536, r), (b"\xff" * 65536, r), (b" " * 65536, rec(15)), (b"\xff", b""), (b"R\xff", r), (b"\xff", rec(15)),
                       (b"R\xce", r), (b"R\xed\xa0\x80", r[:-1]),
                       (b"\xf4\x90\x80\x80", r), (b" " * 65535, b""), (b" " * 65534 + b"R", move(family=65534)), (b"R" * 65535, move(family_size=65535)),
                       (b" " * 65533 + "β".encode(), move(family=65533, family_size=2)), (b" " * 65534 + b"R", move(family=65534, family_size=2)),
                       (b"R", move(set_size=1)), (b"R", r * 20000 + rec(15)), (b"R", r * 20001 + r[:5])):
        yield line_of(entry, text, tree, **more)


def rooms(entry, text, number=0, layers=0):
    """Lends buffers of no bytes, one byte short, exact and larger."""
    size = len(call(entry, text.encode(), tree_of(text.encode()), number, layers, False, None)[1])
    for room in sorted({0, 1, size - 1, size, size + 1, size + 60} - {-1}):
        yield line_of(entry, text, number=number, layers=layers, room=room)


def numbers(text):
    """Gives numbers of records to ask for: each of a text, some past the end, and those whose offset in bytes does not fit 64 bits."""
    size = len(tree_of(text.encode())) // n.RECORD
    return (*range(size + 2), (1 << 16) + 1, 1 << 32, (1 << 64) // n.RECORD + 1, 1 << 63, (1 << 64) - 1)


def random_texts(count):
    for _ in range(count):
        text = well_made(3)
        yield text.replace("(1, -2)", random.choice(("(1, -2)", "(5,-2147483648)"))).replace("^", random.choice(("^", "", "!", "&")))


def whole_trees(entry):
    high = list(towers())
    for text in (*TEXTS, *NISS, *PAIRS, *(high if entry in (COUNT, FLATTEN) else high[:4])):
        if entry == FLATTEN and n.count(n.read(text.encode(), n.MAXIMAL)) > 20000:
            yield line_of(entry, text, room=100)
        else:
            yield line_of(entry, text)
    for text in random_texts(30):
        yield line_of(entry, text)
    yield from shared(entry)


def writers(entry):
    yield from whole_trees(entry)
    for text in ("", "R", "R U F", "(R U)2 [F, .]'", "@β{A}3' ~{1-3}R", "[R: U2 F]'"):
        yield from rooms(entry, text)
    # refusals before 5, and 5 with nothing written
    for text in ("^(R)", "(-2147483648,0)", "(R ^(U))'", "R (0,-2147483648)"):
        yield line_of(entry, text, room=0)
    yield line_of(entry, "R", rec(15), room=0)
    many = 30000
    yield line_of(entry, "R", move() * many, room=many * n.RECORD)
    yield line_of(entry, "R", move() * many, room=many - 1)
    yield line_of(entry, "R", with_counts(rec(n.SIMPLE, number=-1, first=many) + move() * many), room=(many + 400) * n.RECORD)
    if entry == FLATTEN:
        yield from flattened()


def flattened():
    for text in ("(R U F)100", "((R)100 [U2, F (1,-2) R++]50)'", "[[[R, U]2', F]3, [D: L]']2'", "((R U)3' F)7'", "(R)1000'", "[(R U)20: (F . D--)30]'"):
        yield line_of(FLATTEN, text)
        yield line_of(FLATTEN, text, room=n.RECORD * n.count(n.read(text.encode(), n.MAXIMAL)) - 1)
    for text in LARGE:
        yield line_of(FLATTEN, text, room=2 * n.RECORD)


def counted():
    yield from whole_trees(COUNT)
    for text in LARGE:
        yield line_of(COUNT, text)
    for text, tree in unused():
        yield line_of(COUNT, text, with_counts(tree))
    yield line_of(COUNT, "R", move() * 60000)
    yield line_of(COUNT, "R", with_counts(rec(n.COMMUTATOR, number=9, first=20000, second=10000) + move() * 30001))
    yield line_of(COUNT, "R", with_counts(rec(n.SIMPLE, number=2147483647, first=3) + move() * 4))
    yield line_of(COUNT, "R", room=7)
    yield line_of(COUNT, "R", rec(15), room=7)


def seeking():
    for text in ("", "R", "R U F", "(R U')2'", "[R, U]", "[R, U]'", "[R: U2 F]", "[R: U2 F]'", "(R)0 U (F)0", "((R U)2' F)3'", "[[R, U]': F . /]2'", "(-2147483648,0) R++ @β'", "((1,-2) D--)'", "(^(R))0 U", "[R:]2'"):
        total = n.count(n.read(text.encode(), n.MAXIMAL))
        for place in sorted({*range(min(total, 8)), max(total - 1, 0), total, total + 1, 1 << 63}):
            yield line_of(SEEK, text, number=place)
    for text in towers():
        yield line_of(SEEK, text, number=1)
    for text in LARGE + ("[(R U)1000000, F2 D]500'", "((R U)3' F)100000000'", "[(R)1000: [U, (F D)77]']12345'"):
        total = n.count(n.read(text.encode(), n.MAXIMAL))
        for place in sorted({0, total // 2 + 1, total - 1, total, TOP - 1, TOP} - {-1}):
            if place < 1 << 64:
                yield line_of(SEEK, text, number=place)
    for text in random_texts(40):
        try:
            total = n.count_steps(text.encode(), tree_of(text.encode()))
        except n.Refused:
            total = 1
        yield line_of(SEEK, text, number=random.randrange(total + 1))
    for text in NISS + PAIRS:
        yield line_of(SEEK, text)
    for place in ((1 << 64) - 1, 1 << 32, (1 << 63) - 1, (1 << 63) + 1):
        yield line_of(SEEK, "R U", number=place)
    for place in (0, 1):
        yield from rooms(SEEK, "R U2'", number=place)
    yield line_of(SEEK, "R", number=1, room=0)
    yield line_of(SEEK, "R", number=0, room=n.RECORD - 1)
    yield line_of(SEEK, "^(R)", number=9, room=0)
    yield line_of(SEEK, "((R)65536)65536", number=1 << 63, room=0)
    yield line_of(SEEK, "R", move() * 30000, number=29999)
    yield from shared(SEEK)


def simplified():
    plain = ("R", "~R", "3R", "~3R", "2-5R", "3-3R", "32767R", "1-32767R", "4-5R", "~2-9R")
    sets = ("{}R", "{1}R", "{-1}R", "{1,3,2,-1}R", "~{1,3,2,-1}R", "{2..9}R", "{5..9}R", "{9..2}R", "{-1..1}R", "{1..-1}R", "{-9..2}R", "{-2..9}R", "{-9..-4}R", "{-9..-2}R", "{1..2,4..5}R", "{4,1..2}R",
            "{1..2,3..4}R", "{5,5,5,4}R", "{1,3,5,-1,-3}R", "{32767}R", "{-32767..32767}R", "{-32767}R", "{1-3, 5}R", "{ 2-1 , 4 }R", "{3..3}R", "{-3..-3}R", "{4}R", "{-4}R", "{3..4}R", "{-4..-3}R", "{2,-2,6..7}R")
    for text in plain + sets:
        for layers_, negatives in ((3, True), (3, False), (5, True), (1, True), (32767, False), (32767, True)):
            yield line_of(LAYERS, text, layers=layers_, negatives=negatives)
    for text in ("R", "{1,-1}R", "2R"):
        for layers_ in (0, 1, 2, 32766, 32767, 32768, 65535, 65536, 65536 + 3, (1 << 31) + 3, (1 << 32) - 1):
            yield line_of(LAYERS, text, layers=layers_, negatives=True)
    # records
    text = "(R {1,-1}U) . @F (1,2) [2-3L, ^(5D)]' / R++ {2..-2}B"
    for number in numbers(text):
        yield line_of(LAYERS, text, number=number, layers=5, negatives=True)
    yield line_of(LAYERS, "", layers=5)
    # order: 6, 11, 12, 5
    yield line_of(LAYERS, "R", rec(15), layers=0, number=9, room=0)
    yield line_of(LAYERS, ".", layers=0, number=0, room=0)
    yield line_of(LAYERS, ".", layers=3, number=0, room=0)
    yield line_of(LAYERS, "R", layers=3, number=1, room=0)
    for text in ("R", "{1,3,5}R", "{9}R", "{1..3,5,7..8}R"):
        yield from rooms(LAYERS, text, layers=8)
    for room in (2, 3, 5, 6, 7, 10):
        yield line_of(LAYERS, "{1,3}R", layers=8, room=room)
    # many: every second layer, and random sets
    many = "{" + ",".join(str(i) for i in range(1, 400, 2)) + "}R"
    for layers_ in (5, 127, 128, 129, 399, 32767):
        yield line_of(LAYERS, many, layers=layers_)
    yield from rooms(LAYERS, many, layers=300)
    random.seed(11)
    for _ in range(60):
        some = lambda: random.choice((1, 1, -1)) * random.choice((random.randrange(1, 12), random.randrange(1, 140), 32767))
        text = "{" + ",".join(random.choice((f"{some()}", f"{some()}..{some()}", f"{abs(some())}-{abs(some())}")) for _ in range(random.randrange(8))) + "}R"
        yield line_of(LAYERS, text, layers=random.choice((1, 2, 5, 9, 11, 100, 127, 128, 139, 32767)), negatives=random.random() < 0.7)
    yield from shared(LAYERS, layers=5, negatives=True)


def named():
    for text in TEXTS + NISS[:6] + PAIRS[:3]:
        yield line_of(NAME, text)
    text = "(Rw {1,-1}U) . @F @ (1,2) [2-3βΩ{A}, ^(5D)]' / R++ _ @ω2 ΓΔΘΛΞΠΣΦΨΩβδζθλξεηκμπτφψω"
    for number in numbers(text):
        yield line_of(NAME, text, number=number)
    yield line_of(NAME, "R" * 300)
    yield line_of(NAME, "R" * 700)
    yield line_of(NAME, "β" * 32767)
    yield line_of(NAME, "R U", move() * 30000, number=29999)
    yield line_of(NAME, "R U", move() * 30000, number=30000)
    for letter in "ΓΔΘΛΞΠΣΦΨΩβδζθλξεηκμπτφψω":
        yield line_of(NAME, letter)
    yield from shared(NAME)


def lines():
    """Each case with its answer."""
    random.seed(5)
    for entry in WRITERS:
        yield from writers(entry)
    for group in (counted, seeking, simplified, named):
        yield from group()
