"""Makes the stored vectors for seeking (document 02, request 8), which is a loop that keeps the remaining place and the direction. They have every place of groups in
groups, by every list and in every direction; several groups before the place in a list that is entered; repeats at their borders; and the deepest places.

The lines are those of entry_vectors.py. Where the list is short enough, the reference's seeking is asserted to give the entry of the unrolled list.
"""
import notation as n
from entry_vectors import SEEK, line_of, tree_of

AROUND = (
    "({})2", "({})'", "[{}: F2]", "[F2: {}]", "[{}: F2]'", "[F2: {}]'", "[{}, F2]", "[F2, {}]", "[{}, F2]'", "[F2, {}]'",
)
# Groups and leaves before one another in each list, some of which play nothing.
SIDE_BY_SIDE = (
    "[(R)2 U (F D)3: L (B)2]", "[(R)2 U (F D)3: L (B)2]'", "[(R)2 U (F D)3, L (B)2]2", "[(R)2 U (F D)3, L (B)2]2'", "[() (R)0 U (F)2: (D)0 L ()]2'", "[() (R)0 U (F)2, (D)0 L ()]'", "[:]3 [,]2' [R:]2 [,R]' [:R] [R,]2",
    "([R: U] [F, D]' (L)2)2'", "[[R: U] [F, D]': (L)2 B]'", "[(L)2 B, [R: U]' [F, D]]2'", "&((R)2 U)2 !((F)' D)'", "(R++ D-- (1,-2) / . @U)'", "[R++ (1,-2): D--]'", "[R++, (1,-2) /]'",
)
# Repeats, by places about their borders.
REPEATED = (
    ("(R U F)1431655765", (0, 1, 2, 3, 2147483647, 4294967292, 4294967294, 4294967295)), ("(R U F)1431655765'", (0, 1, 2, 3, 4294967293, 4294967294)), ("((R U)3 F)613566756'", (0, 1, 6, 7, 8, 4294967285, 4294967291)),
    ("[(R)2147483646, U]", (2147483645, 2147483646, 2147483647, 4294967292, 4294967293, 4294967294)), ("[(R)1073741823: U F]'", (1073741822, 1073741823, 1073741824, 1073741825, 2147483647, 2147483648)),
    ("[R: (U F)2147483646]'", (0, 1, 2, 4294967292, 4294967293, 4294967294)), ("((R U)65535 F)32767'", (0, 1, 131070, 131071, 131072, 4294803456, 4294803457)),
)
# Levels, with the places that lie deepest and those beside them.
DEEP = (
    ("({})", 64, (0, 1, 2)), ("({})'", 63, (0, 1, 2)), ("[R U: {}]", 64, (0, 1, 126, 127, 128, 129, 130, 131, 257)), ("[R U: {}]'", 63, (0, 1, 125, 126, 127, 128, 129, 253)), ("[{}: R U]", 29, (0, 1, 2, 1073741822, 2147483645)),
    ("[{}: R U]'", 28, (0, 1, 2, 536870911, 1073741821)), ("[{}, R]", 29, (0, 1, 2, 3, 1879048190)), ("[R, {}]'", 29, (0, 1, 2, 3, 29, 30, 1879048190)), ("(({})' R)2", 15, (0, 1, 30, 31, 32, 65535, 131069)),
)


def every_place(text):
    """Asks for each place and the one after the last, and asserts that the reference's answers are those of the unrolled list."""
    data = text.encode()
    tree = tree_of(data)
    steps = n.flatten(data, tree)
    size = n.RECORD
    for place in range(len(steps) // size + 1):
        line, answer = line_of(SEEK, text, number=place)
        if place < len(steps) // size:
            assert n.seek_step(data, tree, place) == steps[place * size:(place + 1) * size], (text, place)
        yield line, answer


def lines():
    """Each case with its answer."""
    for outer in AROUND:
        for inner in AROUND:
            yield from every_place(outer.format(inner.format("R U'")))
    for text in SIDE_BY_SIDE:
        yield from every_place(text)
    for text, places in REPEATED:
        for place in places:
            yield line_of(SEEK, text, number=place)
    for around, levels, places in DEEP:
        start, end = around.split("{}")
        for place in places:
            yield line_of(SEEK, start * levels + "F D2' L" + end * levels, number=place)
