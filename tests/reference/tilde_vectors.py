"""Makes the stored vectors for layer ranges with a tilde (document 02, request 3): the layers from 1 to `max_layer` that the same prefix without the tilde does not give.

The lines are those of entry_vectors.py, letter `l`. Wherever a prefix is asked here, the reference's two answers, with the tilde and without, are compared with each
other: each layer is in exactly one of them, both are sorted with no two ranges touching, and what is left by the one answer, written as a layer set, is the other.
"""
import random

import notation as n
from entry_vectors import LAYERS, line_of, numbers, tree_of
from trees import move, rec, set_in, with_counts

MOST = 32767
# A set has a small table below 128 layers and a large one from there on; other prefixes have none.
AXES = (1, 2, 3, 5, 9, 127, 128, 129, MOST - 1, MOST)


def found(prefix, layers, negatives):
    """Gives the reference's answer for a prefix, as pairs."""
    return n.ranges(n.read((prefix + "R").encode(), n.MAXIMAL)[0], layers, negatives)


def as_set(ranges):
    return "{" + ",".join(f"{low}..{high}" for low, high in ranges) + "}"


def hold(prefix, layers, negatives):
    """Asserts what must hold of the two answers, with a tilde and without, for a prefix that is given without one."""
    plain, other = found(prefix, layers, negatives), found("~" + prefix, layers, negatives)
    lit = [i for low, high in plain + other for i in range(low, high + 1)]
    assert sorted(lit) == list(range(1, layers + 1)), (prefix, layers)
    for ranges in (plain, other):
        assert all(low <= high for low, high in ranges) and all(a[1] + 1 < b[0] for a, b in zip(ranges, ranges[1:])), (prefix, layers)
    assert found("~" + as_set(other), layers, False) == plain and found("~" + as_set(plain), layers, False) == other, (prefix, layers)


def tilde(prefix, layers, negatives=True, room=None):
    hold(prefix, layers, negatives)
    return line_of(LAYERS, "~" + prefix + "R", layers=layers, negatives=negatives, room=room)


def both(prefix, layers, negatives=True, room=None):
    """Asks for a prefix with the tilde and without."""
    yield tilde(prefix, layers, negatives, room)
    yield line_of(LAYERS, prefix + "R", layers=layers, negatives=negatives, room=room)


def examples():
    """The examples of the request, and some more; the answers are put down by hand."""
    for prefix, layers, shown in (("2", 5, [(1, 1), (3, 5)]), ("", 1, []), ("{5..9}", 3, [(1, 3)]), ("", 5, [(2, 5)]), ("{-1}", 5, [(1, 4)]), ("{}", 5, [(1, 5)]), ("6", 5, [(1, 5)]), ("1-5", 5, [])):
        assert found("~" + prefix, layers, True) == shown, prefix
        yield from both(prefix, layers)
    assert found("~{-1}", 5, False) == [(1, 5)]
    yield from both("{-1}", 5, False)


def about(last):
    """Gives prefixes of each form at, below and beyond the last layer, as far as a layer number goes."""
    near = [i for i in (1, 2, last - 1, last, last + 1, last + 2) if 1 <= i <= MOST]
    yield ""
    yield from (f"{i}" for i in near)
    yield from (f"{a}-{b}" for a, b in ((1, last - 1), (1, last), (2, last - 1), (2, last), (2, last + 1), (last, last + 1), (last + 1, last + 2)) if 1 <= a <= b <= MOST)
    yield "{}"
    yield from (f"{{{i}}}" for i in near[-2:])
    yield from (f"{{-{i}}}" for i in near[-2:])
    yield from ("{1,-1}", "{1..-1}", "{2..-1}", "{1..-2}", "{2..-2}")
    yield from (f"{{{a}..{b}}}" for a, b in ((1, last), (last, last + 1), (last + 1, last + 2), (-last, -1), (-last - 1, -last), (-last - 2, -last - 1)) if max(abs(a), abs(b)) <= MOST)


def forms():
    for last in AXES:
        for k, prefix in enumerate(dict.fromkeys(about(last))):
            yield tilde(prefix, last)
            if "-" in prefix and "{" in prefix and k % 2:
                yield tilde(prefix, last, False)


# Layer sets in any order, overlapping, touching, reversed and repeated; of the last ones most elements lie past the end of all but long axes.
SETS = (
    "{3,1,2}", "{5,1}", "{1,3,5}", "{2,4}", "{4,2,4,2}", "{1..2,3..4}", "{3..4,1..2}", "{1..3,2..5}", "{2..5,1..3}", "{5..1}", "{4..2}", "{2-4}", "{4-2}", "{ 2 , 4 }", "{1,2,3,4,5}", "{5,4,3,2,1}", "{1..2,4..5}",
    "{1,2,4,5}", "{3}", "{3..3}", "{1..5,3}", "{-1,-3,-5}", "{-2..2}", "{2..-2}", "{-1..1}", "{-9..2}", "{2..9,-9..-8}", "{1,-1,2,-2}", "{-3..-3}", "{7,9,8}", "{100..120,121..127}", "{127}", "{128}", "{129}", "{126..129}", "{1..126,128}",
    "{64,63,65}", "{128..130,1..127}", "{32767}", "{32766,32767}", "{32767..1}", "{-32767..32767}", "{9..32767,1..7}", "{2..32766}",
)


def sets():
    for k, prefix in enumerate(SETS):
        yield tilde(prefix, (5, MOST)[k % 2], bool(k % 3))
        yield from both(prefix, (9, 127, 128, 129)[k % 4])
        if k % 2:
            yield tilde(prefix, (3, 7, 130)[k % 3])


def listed(first, last):
    """Gives a layer set of every second layer."""
    return "{" + ",".join(map(str, range(first, last + 1, 2))) + "}"


def alternate():
    """Takes every second layer, on axes about the borders of the tables. The answer has one range less, as many or one more than without the tilde."""
    for last in (3, 4, 5, 9, 10, 127, 128, 129, 300):
        for prefix in dict.fromkeys((listed(1, last), listed(2, last), listed(3, last), listed(1, last - 1), listed(2, last + 2))):
            yield tilde(prefix, last)
    yield from both("{" + ",".join(f"-{i}" for i in range(1, 130, 2)) + "}", 129)


def rooms():
    """Lends rooms about the size of the answer, which is less or more than without the tilde, and about the size without it."""
    for prefix, layers in (("2", 5), ("{2,4}", 5), ("{1,3,5}", 5), ("1-5", 5), ("9", 5), ("{}", 3), ("", 1), ("2-3", 9), ("{2,4}", 128), ("{1,3,128}", 128), ("{2..32766}", MOST)):
        counts = [4 * len(found(sign + prefix, layers, True)) for sign in ("~", "")]
        for room in sorted({0, 1, 3, 4, *(c + k for c in counts for k in (-4, -1, 0, 1, 3)), counts[0] + 60} - {-4, -1}):
            yield tilde(prefix, layers, room=room)


def most():
    """As many ranges as there can be, 16,384, with the tilde and without; where the one has as many, the other has one less. On one layer of the same
    sets the answers have one range or none."""
    odd, even = listed(1, MOST), listed(2, MOST)
    whole = 4 * (MOST + 1) // 2
    for prefix, layers, room in ((odd, MOST, whole), (odd, MOST, whole - 4), ("~" + odd, MOST, whole - 4), ("~" + even, MOST, whole), ("~" + even, MOST, whole - 1), (even, MOST, whole - 4), ("~" + odd, 1, 0), ("~" + even, 1, 4)):
        yield line_of(LAYERS, prefix + "R", layers=layers, room=room)
    hold(even, MOST, False)
    for last in (999, 1000):
        for room in (0, 1996, 1999, 2000, 2004):
            yield tilde(listed(2, last), last, room=room)
            yield tilde(listed(1, last), last, room=room)


def order():
    """Refusal 6 comes before 11, 11 before 12 and 12 before 5; a tilde in a record of another kind than a move is refused 6."""
    r = move(tilde=1)
    yield line_of(LAYERS, b"~R\xff", r, layers=0, number=9, room=0)
    yield line_of(LAYERS, "~R", move(tilde=1, family=1, count=2), layers=0, number=9, room=0)
    for tree in (rec(15, tilde=1), r[:-1], rec(n.ROTATION, number=1, tilde=1), rec(n.PAUSE, tilde=1), rec(n.SIMPLE, number=1, tilde=1), move(tilde=1, d=0x10001), move(tilde=1, form=1), move(tilde=1, form=2, d=0x30002), move(tilde=1, form=3)):
        yield line_of(LAYERS, "~R", with_counts(tree), layers=0, number=9, room=0)
        yield line_of(LAYERS, "~R", with_counts(tree), layers=5)
    for layers in (0, 32768, 65535, 65536, 65537, (1 << 31) + 3, (1 << 32) - 1):
        yield line_of(LAYERS, "~2R", layers=layers, number=9, room=0)
        yield line_of(LAYERS, "~{1,3}R", layers=layers, negatives=True)
    for text, number in (("~2R", 1), ("(~2R)", 0), ("~2R .", 1), ("~2R @U", 1), ("", 0), ("[~R, ~U]", 0), ("~R", (1 << 64) - 1), ("~R", 1 << 32)):
        yield line_of(LAYERS, text, number=number, layers=5, room=0)
    for prefix in ("", "2", "1-3", "{}", "{2,4}", "{9}", "1-5"):
        yield tilde(prefix, 5, room=0)


WHOLE = "(~R {1,-1}U) . @F{A} (1,2) [~2-3L{A}', R ^(~5D ~{}x2)]' / R++ ~{2..-2}B 2F{A} ~2F{A} {2}F' ~{2}F' ~R{A,B} ~9-2Rw0"


def among_others():
    """Moves with and without a tilde in groups, behind other records and side by side; the record's own tilde counts, whatever its text and other bits are."""
    size = len(tree_of(WHOLE.encode())) // n.RECORD
    for layers in (5, 128):
        for number in range(size + 1):
            yield line_of(LAYERS, WHOLE, number=number, layers=layers, negatives=layers != 128)
    for number in numbers("~R ~U")[2:]:
        yield line_of(LAYERS, "~R ~U", number=number, layers=5)
    tree = tree_of(WHOLE.encode())
    moves = [i for i, node in enumerate(n.in_order(n.read(WHOLE.encode(), n.MAXIMAL))) if node.kind == n.MOVE]
    for number in moves:
        bit = n.unpack(tree[n.RECORD * number:n.RECORD * (number + 1)])["tilde"]
        yield line_of(LAYERS, WHOLE, set_in(tree, number, "tilde", 1 - bit), number=number, layers=7, negatives=True)
    yield line_of(LAYERS, "~R", move(family=1, tilde=1) * 20000 + move(family=1), number=19999, layers=5)
    yield line_of(LAYERS, "~R", move(family=1, tilde=1) * 20000 + move(family=1), number=20000, layers=5)


def far():
    """Prefixes at offsets and of lengths over 65,535."""
    start = b" " * 65530 + b"~3U "
    for prefix in ("~{2,4}", "~2", "~", "~1-2"):
        yield line_of(LAYERS, start + prefix.encode() + b"R", number=1, layers=5)
    yield line_of(LAYERS, b"~{" + b"2,3," * 17000 + b"3}R", layers=5)
    yield line_of(LAYERS, b"~{" + b"2,3," * 17000 + b"3}R", layers=200)


def by_chance():
    """Prefixes put together at random, each with the tilde and without."""
    r = random.Random(3)
    for _ in range(70):
        layers = r.choice((1, 2, 3, 5, 9, 11, 63, 64, 65, 127, 128, 129, 300, MOST))
        number = lambda: r.choice((r.randrange(1, 12), r.randrange(1, layers + 3), layers, MOST)) % (MOST + 1) or 1
        signed = lambda: r.choice((1, 1, -1)) * number()
        element = lambda: r.choice((f"{signed()}", f"{signed()}..{signed()}", f"{number()}-{number()}"))
        many = r.choice((1, 2, 3, 5, 8, 20))
        prefix = r.choice(("", f"{number()}", f"{number()}-{number()}", *["{" + ",".join(element() for _ in range(r.randrange(many + 1))) + "}"] * 6))
        yield from both(prefix, layers, r.random() < 0.7)


def lines():
    """Each case with its answer."""
    for group in (examples, forms, sets, alternate, rooms, most, order, among_others, far, by_chance):
        yield from group()
