"""Makes the stored vectors for `agree`: a text is read, its inverse is printed and read back, both are counted, and the step at a place is sought in both.

A case is a line: `a`, features (2 hex digits), length of each of the four buffers for trees and texts (6 hex digits), place (16 hex digits), length of each
of the two for a step (2 hex digits), then the text's segments. The answer is what each entry answers (reading, inverse, printing, reading back, both
counts, both steps): a value, or a refusal behind a minus; then the two buffers for a step in hex, and the checksums of the other four (tree, inverse,
printed, read back). Of every buffer the whole is shown, filled with aa before the call.

Demand 3 of document 01 says that a text and its printed inverse, read back, have the same number of steps, and that step n - 1 - k of the inverse is step k undone.
Of each case of which it speaks it is asserted here, on the reference's answers.
"""
import random

import notation as n
from entry_vectors import LARGE, NISS, PAIRS, TEXTS, TOP, random_texts
from lines import ROOM, checksum, spelled
from reading_vectors import MAX, MIN, WCA

MOST, MOST_STEP = 4560, 76  # the longest buffers that the program can lend
UNROLLED = 20000  # longer lists are not made
STEP = n.RECORD + 2
MORE_PLACES = (TOP, TOP + 1, 1 << 63, (1 << 64) - 1)


class Entry:
    """What an entry answered, what it wrote, and its buffer afterwards. A refused one wrote nothing."""

    def __init__(self, written, room):
        try:
            self.written = n.lend(written(), room)
            self.answer = len(self.written)
        except n.Refused as r:
            self.written, self.answer = b"", -r.number
        self.buffer = self.written + b"\xaa" * (room - len(self.written))


def counted(text, tree):
    try:
        return n.count_steps(text, tree)
    except n.Refused as r:
        return -r.number


class Agreement:
    """Runs every entry, each on what the one before wrote; after one that refused, on an empty tree or text."""

    def __init__(self, text, features, place, room, step_room):
        self.read = Entry(lambda: n.pack(n.read(text, features)), room)
        tree = self.read.written
        self.inverse = Entry(lambda: n.inv(text, tree), room)
        self.printed = Entry(lambda: n.display(text, self.inverse.written), room)
        shown = self.printed.written
        self.back = Entry(lambda: n.pack(n.read(shown, features)), room)
        self.count = counted(text, tree)
        self.recount = counted(shown, self.back.written)
        self.step = Entry(lambda: n.seek_step(text, tree, place), step_room)
        self.undone = Entry(lambda: n.seek_step(shown, self.back.written, max(self.count - 1 - place, 0)), step_room)

    def line(self):
        entries = (self.read, self.inverse, self.printed, self.back)
        answers = [*(e.answer for e in entries), self.count, self.recount, self.step.answer, self.undone.answer]
        steps = [self.step.buffer.hex(), self.undone.buffer.hex()]
        return " ".join([*map(str, answers), *steps, *(f"{checksum(e.buffer):06x}" for e in entries)])


def meaning(node):
    """Gives what makes two records the same step, wherever their texts stand."""
    layers = ("set", node.layers[2]) if node.layers and node.layers[0] == "set" else node.layers
    return node.kind, node.tilde, node.number, node.d, layers, node.name, node.constraints and node.constraints[1]


def unrollable(text, features):
    """Gives the nodes of a text if demand 3 speaks of it: it is accepted, and its steps can be counted and undone. Else it gives None."""
    try:
        nodes = n.read(text, features)
        n.unroll_check(nodes)
        n.unroll_check(nodes, True)
    except n.Refused:
        return None
    return nodes if n.count(nodes) <= TOP else None


def demand(text, features, place):
    """Asserts demand 3 at a place, in buffers that suffice, and says whether it speaks of the text."""
    nodes = unrollable(text, features)
    if nodes is None:
        return False
    found = Agreement(text, features, place, 1 << 20, n.RECORD)
    total = n.count(nodes)
    unrolled = n.unroll(nodes) if total <= UNROLLED else None
    assert unrolled is None or len(unrolled) == total, text
    assert found.count == found.recount == total, text
    assert min(found.read.answer, found.inverse.answer, found.printed.answer, found.back.answer) >= 0, text
    # without room for a step all the rest holds as well
    short = Agreement(text, features, place, 1 << 20, 0)
    assert (short.count, short.recount, short.read.answer, short.back.answer) == (total, total, found.read.answer, found.back.answer), text
    if place < total:
        step = n.step_at(nodes, place) if unrolled is None else unrolled[place]
        assert found.step.written == n.record(step) and short.step.answer == -5, text
        back = n.read(found.printed.written, features)
        from_end = total - 1 - place
        undone = n.step_at(back, from_end) if unrolled is None else n.unroll(back)[from_end]
        assert found.undone.written == n.record(undone), text
        assert meaning(undone) == meaning(n.undo(step)), text
    else:
        assert found.step.answer == short.step.answer == -10, text
    return True


def needed(text, features):
    """Gives how many bytes each of the four entries writes, as a set."""
    found = Agreement(text, features, 0, 1 << 20, n.RECORD)
    return {len(e.written) for e in (found.read, found.inverse, found.printed, found.back)}


def case(text, place=0, bits=MAX, room=ROOM, step_room=STEP):
    text = text.encode() if isinstance(text, str) else text
    room = max(needed(text, n.features_of(bits))) + 3 if room is None else room
    assert room <= MOST and step_room <= MOST_STEP, text
    return text, place, bits, room, step_room


def total_of(text, bits=MAX):
    nodes = unrollable(text.encode(), n.features_of(bits))
    return 0 if nodes is None else n.count(nodes)


def places():
    """Asks for every place of short lists, and for places about the ends of long ones."""
    for text in ("R U' F2", "[R, U]'", "[R: U2 F]'", "((R U)2' F)3'", "[[R, U]': F . /]2'", "((1,-2) D--)' ~{1-3,-2}R{A->B}"):
        total = total_of(text)
        for place in (*range(min(total, 6)), total - 1, total, total + 1, random.choice(MORE_PLACES)):
            yield case(text, place)
    for text in LARGE:
        total = total_of(text)
        for place in sorted({random.randrange(total + 1), max(total - 1, 0)}):
            yield case(text, place)


def settings():
    """Takes each flag alone, each flag off, and the named settings; most of the texts are refused under some of them."""
    probes = ("~R {1-2,-1}U", "@U{A<>B}' R{}", "R-- D++ R", "(1,-2) / (R)2'", "2-1R [U, F]'")
    for bits in [1 << i for i in range(7)] + [MAX ^ 1 << i for i in range(7)] + [WCA, MIN]:
        for text in random.sample(probes, 2):
            yield case(text, random.randrange(3), bits)


def rooms():
    """Lends buffers of no bytes, one byte short, exact and with bytes to spare. The long name prints to more bytes than its tree has."""
    for text in ("", "R", "(R U)2 [F, .]'", "AVeryLongNameOfAMoveThatIsPrinted"):
        sizes = needed(text.encode(), n.MAXIMAL)
        for room in sorted({0, *sizes, *(size - 1 for size in sizes), max(sizes) + 60} - {-1}):
            yield case(text, 0, room=room)
    for step_room in (0, 1, n.RECORD - 1, n.RECORD, n.RECORD + 1, MOST_STEP):
        for text, place in (("R U2'", 1), ("R", 1), ("^(R)", 0), ("((-2147483648,0))", 0)):
            yield case(text, place, step_room=step_room)
    most = MOST // n.RECORD
    yield case("R " * most, most - 1, room=MOST)
    yield case("R " * (most + 1), most, room=MOST)


def refused():
    """Texts that reading refuses 2, 3 or 4, so that every later entry is asked with an empty tree; and three that it accepts: spaces up to and past 65,535 bytes, and
    nesting of 64. (A text that is refused 1 does not fit the program's stack: tests/host/long.c has those.)"""
    for text in (b" " * 65536, b"\xff", b"R\xce", b"(" * 65, b"R)", b"R2147483648'", b"(1,0)2", b"{0}R", "α".encode()):
        yield case(text, 0, room=40)
    yield case(b"(" * 64 + b"R" + b")'" * 64, 0)
    yield case(b" " * 65535, 0, room=40)


def far_on():
    """Puts texts at offsets, and parts at lengths, that do not fit 16 bits."""
    for text in ("R", "R U'", "~{1-3,-2}R{A->B}' @U{C}2", "[R, U{A}]'", "((R U)2' {1}F)3'", "(^(R))0 U"):
        for before in (65534, 65536, 70000, 131072):
            data = b" " * before + text.encode()
            yield case(data, 0)
            yield case(data, 2)
    yield case(b"R{ A ," + b" " * 70000 + b"B }2 U", 1)
    yield case(b"{1," + b" " * 70000 + b"-2}R' U", 0)


def cases():
    random.seed(13)
    for text in TEXTS:
        total = total_of(text)
        yield case(text, random.choice((0, max(total - 1, 0), random.randrange(total + 2))))
    for text in NISS + PAIRS:
        yield case(text, random.choice((0, 0, 1)))
    for group in (places, settings, rooms, refused, far_on):
        yield from group()
    for text in random_texts(60):
        bits = random.choice((MAX, MAX, random.randrange(128)))
        yield case(text, random.randrange(total_of(text, bits) + 1), bits)


def line_of(call):
    """Gives a call with its answer, and whether demand 3 speaks of it."""
    text, place, bits, room, step_room = call
    features = n.features_of(bits)
    found = Agreement(text, features, place, room, step_room)
    return f"a{bits:02x}{room:06x}{place:016x}{step_room:02x}{spelled(text)}", found.line(), demand(text, features, place)


def lines():
    """Gives each case with its answer. Demand 3 speaks of most of them, which is asserted at the end."""
    held = 0
    for call in cases():
        line, said, spoken_of = line_of(call)
        held += spoken_of
        yield line, said
    assert held > 200, held
