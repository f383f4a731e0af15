"""Makes the stored vectors for the step count that every record stores (document 02, requests 2 and 5): the counts that reading and both inverses write; and trees
with a wrong count in any record at any depth, which every entry that takes a tree refuses 6, before all other refusals of trees.

The lines are those of reading_vectors.py and entry_vectors.py.
"""
import notation as n
import trees
from entry_vectors import COUNT, DEEP, FLATTEN, INV, LAYERS, NAME, PRINT, SEEK, line_of, tree_of
from lines import spelled
from reading_vectors import MAX, answer

ENTRIES = (PRINT, INV, DEEP, COUNT, FLATTEN, SEEK, LAYERS, NAME)
CAP = n.CAP
WIDTH = 40
DEEP_TEXTS = tuple(
    start * 64 + inner + end * 64
    for start, inner, end in (("(", "R", ")"), ("(", "R", ")'"), ("(", "R", ")2"), ("(", "R U", ")2147483647"), ("(", "R", ")0"), ("^(", "R", ")"), ("[R: ", "U", "]"), ("[", "R", ": U]'"),
                              ("[", "R", ":]"), ("[", "R", ", U]"), ("[, ", "R", "]2'"), ("[:", "", "]"), ("[", "", ",]3"))
)
# Every kind of leaf counts 1, whatever its numbers are.
LEAVES = ("R", "R0", "R2147483647'", "~{1-3}Rw{A->B}5", "@", "@0", "@U{}2'", ".", "/", "(0,0)", "(3,-2)", "(-2147483648,7)", "R++", "R--", "D++", "D--", "R U2 F' . /")
GROUPS = (
    "()", "()5", "(R)", "(R)'", "(R)0", "(R)0'", "(R U)3", "(R U)3'", "!(R U)3'", "&(R U)3", "(R0 U0)2", "[,]", "[,]5'", "[:]", "[:]7", "[R,]", "[, R]", "[R:]", "[: R]", "[R, U F]", "[R, U F]2'",
    "[R: U F]", "[R: U F]'", "[R U: F]3'", "[R U: F]0", "[R, U]0", "((R U)3 F)2", "((R U)3' (F)0 ()9 D)2'", "((R)3)0", "((R)0)3", "([(R)3, U]0 F)2", "[U: (R)3]0", "[(R)3: (U F)2]2", "[(R)3, (U F)2']2'",
    "[[R, U]: [F: D]]'", "(R)3 [U, F]2 ()5 (D)0 (L)2' B", "((-2147483648,0) R)0'",
)
# A NISS group counts 0 and adds 0 to what holds it. What it holds has counts of its own.
NISS = (
    "^()", "^(R)", "^(R)0", "^(R U)3", "^(R U)3'", "^((R)3)", "^((R)0)", "^(^(R))", "^([R, U]2)", "^([R: U F]')", "(^(R))", "(^(R) U)", "(^(R) U)3", "!(^(R U)2 F)3'", "&(^((R)3))", "(^(R))0", "(^((R)3) U)0", "[^(R), U]",
    "[U, ^(R)]2", "[^(R): U]", "[^(R U)2: (F)3]", "[U: ^(R)]", "[(^(R))0: U]", "[^(R), ^(U)]", "R ^(U) F", "^((R (^(U))2)3)",
)
# Sums and products about 4,294,967,296, and those that 32, 40 and 64 bits would lose.
LARGE = (
    "(R)2147483647", "(R)2147483647'", "((R)2147483647)2", "(((R)2147483647)2 R)", "(((R)2147483647)2 R)'", "(((R)2147483647)2 R R)", "((R)2147483647)3", "((R)65535)65537", "((R)65536)65536", "((R)65536)65537'", "((R)65537)65537",
    "((R)2147483647 (R)2147483647 R)", "((R)2147483647 (R)2147483647 (R)2)", "((R)2147483647 (R)2147483647 (R)3)", "(R)2147483647 (R)2147483647 (R)2", "((R)2147483647 (U)2147483647 (F)2147483647)", "((R)2147483647)2147483647",
    "[(R)1073741823, R]", "[(R)2147483647,]", "[(R)2147483647, R]", "[(R)2147483646, R]2", "[, (R)2147483647 (U)2147483647]", "[(R)2147483647: R]", "[(R)2147483647: R R]'", "[R: (U)2147483647 (U)2147483646]", "[R: (U)2147483647 (U)2147483647]",
    "[((R)65536)65536, U]", "[U, ((R)65536)65536]'", "[((R)65536)65536, ((U)65536)65536]2'", "[((R)65536)65536:]", "[: ((R)65536)65536]", "[: ((R)65535)65537]", "[((R)65536)65536: ((U)65536)65536]'",
    "(((R)65536)65536)0", "((((R)65536)65536)0 U)3", "[((R)65536)65536, U]0", "[U: ((R)65536)65536]0'", "^(((R)65536)65536)", "(^(((R)65536)65536) U)2", "^([((R)65536)65536: U])",
    "(((R)65536)65536 ((U)65536)65536)", "(((R)65536)65536)2147483647", "((R)1048576)1048576", "((R)2147483647 ((R)1048576)1048576)", "((((R)65536)65536)65536)65536", "(((((R)65536)65536)65536)65536)65536", "(((R)2097152)2097152)4194304",
    "(((R)65536)65536 ((R)65536)65536 ((R)65536)65536 ((R)65536)65536)1073741824", "[((R)65536)65536, ((R)65536)65536]1073741824'", "[((R)65536)65536 ((R)65536)65536: ((R)65536)65536]1073741824",
    "((((R)2147483647)2147483647)2147483647)2147483647", "(()2147483647)2147483647", "((R)0)2147483647", "[((()2147483647)2147483647)2147483647, (R)0]2147483647",
)
# What a pass over the records from the last to the first could get wrong (request 5): several lists that end with one record, lists side by side and one after
# another, empty ones beside others, capped sums in front of others and behind them, and 64 levels by first lists, by second lists and by both in turns.
PASSED = (
    "(R (U (F (D)2)3)5)7", "R (U (F (D)2)3)5 L", "(((D)2 F)3 U)5 R", "[R: [U: [F: D]]]", "[[[R: U]: F]: D]", "[R, [U, [F, D]2]3]5", "[[[R, U]2, F]3, D]5", "[[R: U F]: [D: L B]]", "[[R U: F]2, [D L: B]3]5",
    "(R)2 (U F)3 (D L B)5", "((R)2 (U F)3) ((D L B)5)", "[(R)2 (U F)3, (D)5 (L B)7]", "[(R)2 (U F)3: (D)5 (L B)7] (R)11", "[[R, U], [F, D]] [[R: U]: [F: D]]", "[() R, U ()2] [()3: R] [R: ()5]", "[[,]2: R] [R, [:]3] ([,] R [:])7",
    "((R)65536)65536 U", "U ((R)65536)65536", "(((R)65536)65536 U)", "(U ((R)65536)65536)", "(((R)65536)65536 ((U)65536)65536 F)0 D", "(D (((R)65536)65536)0 F)2", "[((R)65536)65536 U: F]0 D", "[U: F ((R)65536)65536] D",
    "[(((R)65536)65536)0 U, (((R)65536)65536)0 F]2", "(R)2147483647 (R)2147483647 (R)2147483647", "((R)2147483647 U (R)2147483647)", "(U (R)2147483647 (R)2147483647)",
    "[R: " * 32 + "[" * 32 + "U" + ", F]2" * 32 + "]3" * 32, "[" * 32 + "[R, " * 32 + "U" + "]2" * 32 + ": F]3" * 32, "[R [" * 32 + "U" + ": F] D: L]" * 32, "[" * 63 + "R U" + ": F (D)2]" * 63, "[R (U)2, " * 63 + "F" + "]" * 63,
    "(R " * 64 + ") U" * 64, "(" * 64 + ")" * 64 + " " + "(" * 64 + "R" + ")" * 64, "[" * 64 + ",]" + ":]" * 63, "([" * 32 + "R" + ": U] F)" * 32,
)
# Counts that are wrong in a plausible way: a text, and of some of its records the count stored instead.
CHOSEN = (
    # a leaf
    ("R", {0: 0}), ("R", {0: 2}), ("R", {0: 1 + CAP}), ("R", {0: 1 << 39}), ("R0", {0: 0}), ("R2", {0: 2}), ("R'", {0: -1}), ("(3,2)", {0: 3}), (".", {0: 0}), ("/", {0: 0}), ("@", {0: 0}), ("R++", {0: 2}), ("R U F", {2: 0}), ("R U F", {0: 3}),
    # a group: one off, without its repeats, its multiplier, its records, what its sign would make of it
    ("(R U)3", {0: 5}), ("(R U)3", {0: 7}), ("(R U)3", {0: 2}), ("(R U)3", {0: 3}), ("(R U)3", {0: 0}), ("(R U)3", {0: 1}), ("(R U)3", {0: 6 + CAP}), ("(R U)3'", {0: -6}), ("(R U)3", {0: CAP}), ("()", {0: 1}), ("()5", {0: 5}),
    ("(R)0", {0: 1}), ("(R)0", {1: 0}), ("!(R U)3", {0: 2}), ("&(R U)3", {0: 1}),
    # commutators and conjugates: one list, both once, the other's rule
    ("[R, U F]", {0: 3}), ("[R, U F]", {0: 4}), ("[R, U F]", {0: 5}), ("[R, U F]", {0: 7}), ("[R: U F]", {0: 3}), ("[R: U F]", {0: 5}), ("[R: U F]", {0: 6}), ("[R: U F]2'", {0: 4}), ("[,]", {0: 1}), ("[:]3", {0: 3}), ("[R, U]0", {0: 4}), ("[R: U]0", {2: 0}),
    # an inner record alone, an outer one alone, and both, the outer by what the inner one says
    ("((R U)3 F)2", {1: 5}), ("((R U)3 F)2", {1: 7}), ("((R U)3 F)2", {1: 2}), ("((R U)3 F)2", {3: 0}), ("((R U)3 F)2", {4: 2}), ("((R U)3 F)2", {0: 13}), ("((R U)3 F)2", {0: 15}), ("((R U)3 F)2", {1: 7, 0: 16}), ("(R)2", {1: 2, 0: 4}),
    ("[(R)2, U]", {1: 1, 0: 4}), ("[U: (R)2]", {2: 3, 0: 5}),
    # a NISS group: 1, what it holds, and so what holds it; its contents
    ("^(R)", {0: 1}), ("^(R U)3", {0: 6}), ("^(R U)3", {0: 2}), ("^()", {0: 1}), ("^(R)0", {0: 1}), ("^(R)", {1: 0}), ("^((R)3)", {1: 0}), ("^((R)3)", {1: 2}), ("^((R)3)", {2: 0}), ("^(^(R))", {1: 1}), ("^([R, U]2)", {1: 0}),
    ("(^(R) U)", {0: 2}), ("(^(R) U)", {0: 2, 1: 1}), ("(^(R) U)3", {0: 0}), ("[^(R), U]", {0: 4}), ("[^(R): U]", {0: 3}), ("(^(R))0", {1: 1}), ("(^(R))0", {2: 0}),
    # inside multiplier 0
    ("((R)3)0", {1: 0}), ("((R)3)0", {1: 1}), ("((R)3)0", {1: 4}), ("((R)3)0", {2: 0}), ("((R)3)0", {0: 3}), ("[(R)3, U]0", {1: 0}), ("[U: (R)3]0", {2: 2}), ("((R)0)3", {1: 1}),
    # capped where it should not be, and not capped where it should be
    ("((R)65536)65536", {0: CAP - 1}), ("((R)65536)65536", {0: CAP + 1}), ("((R)65536)65536", {0: 0}), ("((R)65536)65536", {1: CAP}), ("((R)65536)65537", {0: CAP + 65536}), ("((R)65537)65537", {0: 131073}), ("((R)65535)65537", {0: CAP}),
    ("((R)65535)65537", {0: CAP - 2}), ("((R)1048576)1048576", {0: 0}), ("((R)1048576)1048576", {0: (1 << 40) - 1}), ("(((R)65536)65536)2", {0: 2 * CAP}), ("(((R)65536)65536)2", {1: CAP + 1}), ("(((R)65536)65536)2", {1: CAP - 1}),
    ("((R)2147483647 (R)2147483647 R)", {0: CAP}), ("((R)2147483647 (R)2147483647 (R)2)", {0: CAP - 1}), ("((R)2147483647 (R)2147483647 (R)2)", {0: 0}), ("((R)2147483647 (R)2147483647 (R)3)", {0: CAP + 1}),
    ("[(R)2147483647, R]", {0: CAP - 1}), ("[(R)2147483647: R]", {0: CAP}), ("[((R)65536)65536, U]", {0: 2 * CAP + 2}), ("[((R)65536)65536: U]", {0: 2 * CAP + 1}), ("[((R)65536)65536: U]", {1: 2 * CAP}),
    ("(((R)65536)65536)0", {0: CAP}), ("(((R)65536)65536)0", {1: 0}), ("(((R)65536)65536)0", {1: CAP + 1}), ("^(((R)65536)65536)", {0: CAP}), ("^(((R)65536)65536)", {1: CAP - 1}), ("^(((R)65536)65536)", {1: CAP + 1}), ("((((R)65536)65536)0 U)3", {0: CAP}),
    # 64 deep: the innermost group, its leaf, one in the middle, the outermost
    (DEEP_TEXTS[0], {63: 0}), (DEEP_TEXTS[0], {64: 2}), (DEEP_TEXTS[0], {31: 2}), (DEEP_TEXTS[0], {0: 2}), (DEEP_TEXTS[2], {32: CAP + 1}), (DEEP_TEXTS[2], {33: CAP}), (DEEP_TEXTS[4], {63: 1}), (DEEP_TEXTS[5], {63: 1}), (DEEP_TEXTS[11], {63: 1}),
)


def wrong_tree(text, counts):
    """Gives the tree of a text with other counts stored."""
    tree = tree_of(text.encode())
    for number, count in counts.items():
        tree = trees.set_in(tree, number, "count", count)
    return tree


def refused_6(*args, **more):
    line, said = line_of(*args, **more)
    assert said == "refused 6", (line, said)
    return line, said


def written():
    """What reading and both inverses write, and what counting, unrolling and seeking make of it."""
    for text in (*LEAVES, *GROUPS, *NISS, *LARGE, *DEEP_TEXTS):
        data = text.encode()
        said, room = answer(MAX, data, None)
        yield f"r{MAX:02x}{room:06x}{spelled(data)}", said
        for entry in (INV, DEEP, COUNT):
            yield line_of(entry, text)
        total = n.count(n.read(data, n.MAXIMAL))
        yield line_of(FLATTEN, text, room=n.RECORD * min(total, 100))
        for place in sorted({0, max(total - 1, 0), total // 2}):
            if place <= n.MOST_STEPS:
                yield line_of(SEEK, text, number=place)


REPEATS = ("", "2", "3'", "5", "7", "0", "11'", "13")


def lists_of(records, first=0):
    """Gives every list of so many records, those inside groups included. The repeats of groups take turns, so that each sum tells which lists went into it."""
    if records == 0:
        yield ""
        return
    for own in range(1, records + 1):
        for node in nodes_of(own, first):
            for rest in lists_of(records - own, first + own):
                yield f"{node} {rest}".rstrip()


def nodes_of(records, first):
    """Gives every leaf, group, commutator and conjugate of so many records; `first` is the number of its first record."""
    if records == 1:
        yield "RUFDLB"[first % 6]
    times = REPEATS[first % len(REPEATS)]
    for inside in lists_of(records - 1, first + 1):
        yield f"({inside}){times}"
    for left in range(records):
        for a in lists_of(left, first + 1):
            for b in lists_of(records - 1 - left, first + 1 + left):
                yield f"[{a}, {b}]{times}"
                yield f"[{a}: {b}]{times}"


def passed():
    """Asks reading alone, on the texts of PASSED, on all trees of up to three records, and on every 11th of four."""
    small = [text for records in range(4) for text in lists_of(records)]
    for text in (*PASSED, *small, *list(lists_of(4))[::11]):
        data = text.encode()
        said, room = answer(MAX, data, None)
        assert said.startswith("read "), text
        yield f"r{MAX:02x}{room:06x}{spelled(data)}", said


def sought():
    """Asks for every place of texts in which groups are passed over by their counts, some of which are 0, and for places about the borders of large groups."""
    for text in ("(R)3 [U, F]2 ()5 (D)0 (L)2' B", "((()5 R (U)0)3 [(F)2, (L)0])2'", "[(R)2: (U F)2' ()]3'", "(^(R)5)0 U ([^(F), D]0 L)2", "(((R)65536)65536)0 U [(((F)65536)65536)0: D]"):
        for place in range(n.count(n.read(text.encode(), n.MAXIMAL)) + 1):
            yield line_of(SEEK, text, number=place)
    half = 2147483647
    for text in ("(R)2147483647 (U)2147483647 F", "[(R)2147483647: U]", "[(R)2147483647: U]'", "((R)2147483647 U)", "F (R U)2147483647"):
        for place in (half - 1, half, half + 1, 2 * half - 1, 2 * half, 2 * half + 1):
            yield line_of(SEEK, text, number=place)


def chosen():
    """Asks every entry with every tree of CHOSEN, some of them without any buffer."""
    for entry in ENTRIES:
        for i, (text, counts) in enumerate(CHOSEN):
            yield refused_6(entry, text, wrong_tree(text, counts), layers=5, room=0 if i % 3 == 0 else None)


def other_values(true):
    """Gives wrong counts for a group of so many steps: one off, capped or not, wrapped at the cap, 0 and 1."""
    right = min(true, CAP)
    found = {right + 1, right - 1, 0, 1, CAP, CAP - 1, CAP + right, true, true % CAP}
    return sorted({value % (1 << WIDTH) for value in found} - {right})


def every_record():
    """Asks counting with each record of each text wrong in its count, and with single bits of the field changed."""
    for text in (*LEAVES, *GROUPS, *NISS, *LARGE):
        tree = tree_of(text.encode())
        for number, true in enumerate(trees.true_counts(tree)):
            leaf = n.unpack(trees.records(tree)[number])["kind"] >= n.ROTATION
            for value in (0, 2) if leaf else other_values(true):
                yield refused_6(COUNT, text, trees.set_in(tree, number, "count", value))
    for text, number, right in (("R", 0, 1), ("((R U)3 F)2", 1, 6), ("((R)65536)65536", 0, CAP), ("^(R)", 0, 0)):
        for bit in range(WIDTH):
            yield refused_6(COUNT, text, wrong_tree(text, {number: right ^ 1 << bit}))


def order():
    """Refusal 2 comes before a wrong count, and that comes before 7, 8, 9, 10, 11, 12 and 5. A text of 65,536 bytes is accepted, and its tree is refused 6."""
    leaf = trees.move(count=2)
    for entry in ENTRIES:
        for text in (b"R" * 65536, b"R\xff"):
            yield line_of(entry, text, leaf, layers=0, number=9, room=0)
        for text, counts in (("R ^(U)", {0: 2}), ("^(U)0 R", {2: 0}), ("((-2147483648,0))'", {0: 2}), ("(-2147483648,0)", {0: 0}), ("((R)65536)65536 U", {3: 0}), ("((R)65536)65536 ^(U)", {0: CAP + 1})):
            tree = wrong_tree(text, counts)
            for number, layers, room in ((0, 0, 0), (0, 5, None), (99, 5, 0), (1 << 63, 32768, None)):
                yield refused_6(entry, text, tree, number=number, layers=layers, room=room)
        # the wrong one is the last of many
        yield refused_6(entry, "R", trees.move() * 30000 + leaf, layers=5)
        yield refused_6(entry, "R", trees.set_in(trees.with_counts(trees.rec(n.SIMPLE, number=3, first=30000) + trees.move() * 30000), 0, "count", 30000), layers=5)


def lines():
    """Each case with its answer."""
    for group in (written, passed, sought, chosen, every_record, order):
        yield from group()
