"""Makes the stored vectors for long texts and long lists (document 02, request 10): what fields of 16 bits would lose, in every part and every entry. They have offsets and
lengths over 65,535 of family, constraints and layer set; lists of over 65,535 records, flat, in a group and in each list of a commutator or a conjugate; and trees
that are wrong only in the third byte of a field.

The lines are those of reading_vectors.py and entry_vectors.py. Texts at the limit itself do not fit the program's stack; tests/host/long.c has them.
"""
import functools

import notation as n
import trees
from entry_vectors import COUNT, DEEP, FLATTEN, INV, LAYERS, NAME, PRINT, SEEK, line_of
from lines import spelled
from reading_vectors import MAX, answer

PAST = 65536  # the first number that 16 bits do not hold
MANY = PAST + 464
ENTRIES = (PRINT, INV, DEEP, COUNT, FLATTEN, SEEK, LAYERS, NAME)
ROOM = 72000 * n.RECORD  # what the program can lend

far = "~{1,-2..3}R{A->B}2' @U{C} Ωω (F 2-3L)2' [{5}D, R++ (1,-2)]' 3Rw"
FAR = (b" " * 70000 + far.encode(), ("(" + far + ")2").encode() + b" " * 66000 + "[R: U{A}]' {1-2}β".encode())
WIDE = (b"R" * 70000, b"@" + "β".encode() * 35000, b"R{" + b"A," * 35000 + b"A}2 U", b"@{" + b"A -> B , " * 8000 + b"C}' U", b"{" + b"1," * 35000 + b"2}R U", b"~{" + b"1..3, -2 ," * 7000 + b"5}Rw{A}'")
LISTS = (b"R " * 70000, b"(" + b"R " * MANY + b")2'", b"[" + b"R " * MANY + b", U]", b"[U: " + b"R " * MANY + b"]'", b"[" + b". " * 40000 + b": (" + b"/ " * 30000 + b")2]", b"((U " + b"R " * MANY + b")0)2 F")


@functools.cache
def tree_of(text):
    return n.pack(n.read(text, n.MAXIMAL))


def read(text):
    said, room = answer(MAX, text, None)
    assert said.startswith("read "), text[:40]
    yield f"r{MAX:02x}{room:06x}{spelled(text)}", said


def asked(entry, text, tree, **more):
    """Asks an entry; unrolling gets as much room as the program can lend."""
    if entry == FLATTEN:
        return line_of(entry, text, tree, room=ROOM, **more)
    return line_of(entry, text, tree, layers=9, negatives=True, **more)


def about(total):
    """Gives places or records about the border of 16 bits and about the end."""
    return sorted({k for k in (0, PAST - 1, PAST, PAST + 1, total - 1, total) if 0 <= k})


def every_entry(text, tree):
    """Asks every entry; seeking for places, and layer ranges and families of records, about the borders."""
    for entry in (PRINT, INV, DEEP, COUNT, FLATTEN):
        yield asked(entry, text, tree)
    counts = trees.true_counts(tree)
    for place in about(sum(counts[i] for i in outer(tree))):
        yield asked(SEEK, text, tree, number=place)
    for number in about(len(tree) // n.RECORD):
        yield asked(LAYERS, text, tree, number=number)
        yield asked(NAME, text, tree, number=number)


def outer(tree):
    """Gives the numbers of the records of the outermost list."""
    at, found = 0, []
    records = trees.records(tree)
    while at < len(records):
        found.append(at)
        f = n.unpack(records[at])
        at += 1 + f["first"] + f["second"]
    return found


def texts():
    for text in (*FAR, *WIDE):
        yield from read(text)
        tree = tree_of(text)
        for entry in (PRINT, INV, DEEP, COUNT, FLATTEN):
            yield asked(entry, text, tree)
        for number in range(len(tree) // n.RECORD + 1):
            for entry in (SEEK, LAYERS, NAME):
                yield asked(entry, text, tree, number=number)
    for text in LISTS:
        yield from read(text)


def lists():
    """Asks every entry with trees of many records over a short text."""
    r = trees.move()
    group = functools.partial(trees.rec, n.SIMPLE)
    for tree in (r * 70000, group(number=-1, first=MANY) + r * (MANY + 1), trees.rec(n.COMMUTATOR, number=1, first=MANY, second=2) + r * (MANY + 3),
                 trees.rec(n.CONJUGATE, number=-1, first=2, second=MANY) + r * (MANY + 2),
                 trees.rec(n.COMMUTATOR, number=0, first=1, second=MANY + 1) + r + group(number=2, first=MANY) + r * (MANY + 2)):
        yield from every_entry("R", trees.with_counts(tree))


def wrong():
    """Asks every entry with trees that it must refuse 6, each of which would be well formed without the third byte of one field."""
    r, group = trees.move(), trees.rec(n.SIMPLE, number=1, first=1)
    binary = trees.rec(n.COMMUTATOR, number=1, first=1, second=1)
    found = (
        ("R", r, "family"), ("R", r, "family_size"), ("R{}", trees.move(constrained=1, constraints=1, constraints_size=2), "constraints"),
        ("R{}", trees.move(constrained=1, constraints=1, constraints_size=2), "constraints_size"), ("{1}R", trees.move(family=3, form=3, set_size=3), "set"),
        ("{1}R", trees.move(family=3, form=3, set_size=3), "set_size"), ("R", group + r * 2, "first"), ("R", binary + r * 3, "first"), ("R", binary + r * 3, "second"),
        ("R", trees.rec(n.PAUSE), "first"), ("R", trees.rec(n.PAUSE), "second"), ("R", group + r, "second"), ("R", group + r, "family"), ("R", r, "constraints"), ("R", r, "set_size"),
        ("R", trees.rec(n.ROTATION, number=1), "family"),
    )
    for text, tree, name in found:
        tree = trees.with_counts(tree)
        assert n.well_formed(text.encode(), tree), (text, name)
        right = n.unpack(tree[:n.RECORD])[name]
        for third in (1, 128, 255):
            for entry in ENTRIES:
                line, said = asked(entry, text, trees.set_in(tree, 0, name, right + third * PAST))
                assert said == "refused 6", (text, name)
                yield line, said
    # the list of a group that ends before, at and past the end of a long tree
    many = trees.move() * MANY
    for first in (MANY - PAST, MANY - 1, MANY, MANY + 1, MANY + PAST, (1 << 24) - 1):
        yield asked(COUNT, "R", trees.with_counts(trees.rec(n.SIMPLE, number=3, first=first) + many))


def lines():
    """Each case with its answer."""
    for group in (texts, lists, wrong):
        yield from group()
