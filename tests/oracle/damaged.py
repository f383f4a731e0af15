#!/usr/bin/env python3
"""Compares every C function with the Python reference (tests/reference/notation.py) on damaged trees, odd places and short buffers.

damaged.py [CASES] [SEED]. The archive is loaded as a shared library. A case is a text and a tree over it, damaged or not; every function is
called on it with a buffer of some size between two guards, and its answer and every byte of the buffer must be what the reference says.
Texts and trees over texts with curly primes (document 02, request 6) are among them; where the flag is on, the reference's reading is also compared with the
request's own sentence (straight.py). Nearly every change of a group makes a stored count wrong, so that refusal 6 would hide all others: most damaged trees get right counts again, and of
some a count is changed afterwards, in any record. Moves with a tilde (request 3) are among them; it fails where layer ranges of one, or of a move without, were never given.
Where a deep inverse is accepted, the second one must be the tree again, byte for byte (request 13); it fails where that was never asked of a tree as it was read, or of a damaged one.
Prints how often each refusal was answered."""
import collections
import ctypes
import os
import random
import subprocess
import sys

HERE = os.path.dirname(os.path.abspath(__file__))
ROOT = os.path.join(HERE, "..", "..")
sys.path.insert(0, os.path.join(HERE, "..", "reference"))
import notation as n
import straight
import trees

GUARD = 32
CURLY = n.MAXIMAL | {"curly_primes"}
MOST_STEPS = 3000
TEXTS = ["", "R", "R U'", "[R, U]", "[R, U]'", "[R: U2 F]'", "(R U')2'", "(^(R))0", "^(R)0", "R++ D-- (1,-2) / .", "(-2147483648,0)", "((R)65536)65536",
         "((R)65535)65537", "~{1-3,-2}R{a->b}3' @{}", "{1,3,2,-1}R", "{2..9}R {5..9}U", "@ @R{A<>B, c} @{}2'", "([R, (U)2]' [!(F), &(L)3])2",
         "(((R (1,2))0 U)2' .)", "Ωω_a{β->θ}2", "( )", "[,]", "[:]'", "1-1R 3-2U 7F", "{ }R { 1 , 2 }U",
         "R\u2019", "R2\u2032 {1,-2}U{A}\u2019 @\u2032", "[R\u2019: U2\u2032 F]\u2019 {3..4}Fw{A->B}", "((R U\u2032)2\u2019 @\u03a9{A<>B}\u2032)3' 2-3L{c}", "^(R\u2019)0\u2032 [\u03b2\u2019, (1,-2)]\u2032 /",
         "~R ~2U ~{1-3,-2}F 2-4L", "~1-3R (~{}U)2 ~{9}F ~{2,4,6}B{A}'", "~{2..-2}R ~32767U ~{-32767..32767}F", "[~{5..9}R: ~{1,127..129}U2] ~9-2F",
         "^((-2147483648,0))", "((-2147483648,0))'", "[(-2147483648,0): R]", "(R)4294967 (U)2147483647", "{32767,-32767}R 32767-1U R2147483647'"]


def library():
    archive = os.path.join(ROOT, "target", "staticlib", "libhypuz_notation.a")
    out = os.path.join(ROOT, "target", "damaged")
    os.makedirs(out, exist_ok=True)
    shared = os.path.join(out, "libhypuz_notation.so")
    subprocess.run(["cc", "-shared", "-o", shared, "-Wl,--whole-archive", archive, "-Wl,--no-whole-archive"], check=True)
    return ctypes.CDLL(shared)


PTR, SIZE, U32, U64 = ctypes.c_void_p, ctypes.c_size_t, ctypes.c_uint32, ctypes.c_uint64
LIB = library()
for name, args in {
    "parse_notation": [PTR, SIZE, U32, PTR, SIZE],
    "count_steps": [PTR, SIZE, PTR, SIZE],
    "seek_step": [PTR, SIZE, PTR, SIZE, U64, PTR, SIZE],
    "inv": [PTR, SIZE, PTR, SIZE, PTR, SIZE],
    "inv_deep": [PTR, SIZE, PTR, SIZE, PTR, SIZE],
    "display": [PTR, SIZE, PTR, SIZE, PTR, SIZE],
    "flatten": [PTR, SIZE, PTR, SIZE, PTR, SIZE],
    "simplify": [PTR, SIZE, PTR, SIZE, U64, U32, U32, PTR, SIZE],
    "family": [PTR, SIZE, PTR, SIZE, U64],
}.items():
    f = getattr(LIB, "hypuz_" + name)
    f.argtypes, f.restype = args, U64


def lent(data):
    """Puts bytes into memory of their own, never at a null pointer."""
    return ctypes.create_string_buffer(bytes(data), max(1, len(data)))


class Run:
    def __init__(self):
        self.calls = collections.Counter()
        self.answers = collections.Counter()
        self.tildes = collections.Counter()  # layer ranges of moves with a tilde, and of moves without
        self.twice = collections.Counter()  # second deep inverses of trees as they were read, and of damaged ones
        self.wrong = []

    def call(self, what, front, room, want):
        """Makes one call with `room` bytes lent (None: no buffer) and compares it with `want`, which is (refusal, value, written)."""
        refusal, value, written = want
        args = list(front)
        if room is not None:
            before = random.randbytes(GUARD + room + GUARD)
            space = ctypes.create_string_buffer(before, len(before))
            args += [ctypes.addressof(space) + GUARD, room]
        answer = getattr(LIB, "hypuz_" + what)(*args)
        fine = answer == (refusal << 56) + value
        if room is not None:
            fine = fine and space.raw == before[:GUARD] + written + before[GUARD + len(written):]
        self.calls[what] += 1
        self.answers[refusal] += 1
        return fine


def attempt(f):
    """Gives (0, what f gives), or (refusal, None)."""
    try:
        return 0, f()
    except n.Refused as r:
        return r.number, None


def rooms(size):
    """Picks the size of a buffer: exact, one short, none, more, or any."""
    return random.choice((size, size, max(0, size - 1), 0, size + random.randrange(1, 40), random.randrange(size + 1)))


class Case:
    def __init__(self, run, text, tree, damaged=False):
        self.run, self.text, self.tree, self.damaged = run, text, tree, damaged
        self.t, self.r = lent(text), lent(tree)
        self.front = [ctypes.addressof(self.t), len(text), ctypes.addressof(self.r), len(tree)]

    def check(self, what, extra, room, want):
        if not self.run.call(what, self.front + extra, room, want):
            self.run.wrong.append((len(self.text) + len(self.tree), what, self.text, self.tree.hex(), extra, room, want))

    def written(self, what, extra, f, unit=1):
        """Calls a function that is to write what the reference gives; an entry has `unit` bytes, and the value counts entries."""
        refusal, data = attempt(f)
        size = random.choice((0, n.RECORD, 60)) if data is None else len(data)
        room = rooms(size)
        if data is not None and len(data) // unit > room // unit:
            refusal, data = 5, None
        self.check(what, extra, room, (refusal, 0, b"") if data is None else (0, len(data) // unit, data))

    def flatten(self):
        refusal, steps = attempt(lambda: n.count_steps(self.text, self.tree))
        if steps is None or steps > MOST_STEPS:
            room = random.randrange(100)
            self.check("flatten", [], room, (refusal or 5, 0, b""))
        else:
            self.written("flatten", [], lambda: n.flatten(self.text, self.tree))
        self.check("count_steps", [], None, (refusal, steps or 0, b""))
        places = [0, 1, random.randrange(60), 2**32 - 1, 2**32, 2**64 - 1] + ([steps, max(0, steps - 1), random.randrange(steps + 1)] * 3 if steps is not None else [])
        place = random.choice(places)
        self.written("seek_step", [place], lambda: n.seek_step(self.text, self.tree, place))

    def named(self):
        records = len(self.tree) // n.RECORD
        for _ in range(2):
            record = random.choice((random.randrange(records + 1), random.randrange(records + 1), records, 2**16, 2**32, 2**64 - 1, 2**62))
            refusal, found = attempt(lambda: n.record_at(n.opened(self.text, self.tree), record, (n.MOVE, n.ROTATION)).family)
            self.check("family", [record], None, (refusal, (found[0] << 24) + found[1] if found else 0, b""))
            layers = random.choice((1, 2, 3, 5, 9, 32766, 32767, 1, 2, 3, 4, 9, 127, 128, 129, 0, 32768, 65536, 65537, 2**32 - 1))
            negatives = random.choice((0, 1, 1, 2, 256, 2**31))
            self.written("simplify", [record, layers, negatives], lambda: self.ranges(record, layers, negatives != 0), 4)

    def ranges(self, record, layers, negatives):
        found = n.simplify(self.text, self.tree, record, layers, negatives)
        self.run.tildes[n.record_at(n.opened(self.text, self.tree), record, (n.MOVE,)).tilde] += 1
        return found

    def twice(self):
        """Asks for the deep inverse of the deep inverse, in a buffer that just fits. What is drawn at random here is not drawn from the run's own numbers, so that
        the cases of a seed do not depend on it."""
        state = random.getstate()
        refusal, inverted = attempt(lambda: n.inv_deep(self.text, self.tree))
        if not refusal:
            Case(self.run, self.text, inverted).check("inv_deep", [], len(self.tree), (0, len(self.tree), self.tree))
            self.run.twice[self.damaged] += 1
        random.setstate(state)

    def all(self):
        self.written("display", [], lambda: n.display(self.text, self.tree))
        self.written("inv", [], lambda: n.inv(self.text, self.tree))
        self.written("inv_deep", [], lambda: n.inv_deep(self.text, self.tree))
        self.flatten()
        self.named()
        self.twice()


def reading(run, text):
    bits = random.choice((127, 255, 255, random.randrange(256), random.randrange(256), random.randrange(2**32)))
    features = n.features_of(bits)
    refusal, data = attempt(lambda: n.pack(n.read(text, features)))
    if "curly_primes" in features and len(text) < 100000:
        straight.read_both(text, features)
    room = rooms(n.RECORD if data is None else len(data))
    if data is not None and len(data) > room:
        refusal, data = 5, None
    want = (refusal, 0, b"") if data is None else (0, len(data), data)
    t = lent(text)
    if not run.call("parse_notation", [ctypes.addressof(t), len(text), bits], room, want):
        run.wrong.append((len(text), "parse_notation", text, bits, room, want))


def edge(text, records, old, width):
    top = 1 << width
    return random.choice((0, 1, 2, top - 1, top >> 1, (top >> 1) - 1, (top >> 1) + 1, old + 1, old - 1, -old, len(text), len(text) - 1, records, records - 1, random.randrange(top)))


def damage(text, tree, other):
    """Makes one change to a tree."""
    k = random.randrange(11)
    records = trees.records(tree)
    i = random.randrange(len(records)) if records else 0
    if k == 0 and tree:
        at = random.randrange(len(tree))
        return tree[:at] + bytes([tree[at] ^ 1 << random.randrange(8)]) + tree[at + 1:]
    if k == 1 and tree:
        at = random.randrange(len(tree))
        return tree[:at] + bytes([random.choice((0, 1, 0x7F, 0x80, 0xFF))]) + tree[at + 1:]
    if k in (2, 3, 4) and records and len(records[i]) == n.RECORD:
        name, width = random.choice(n.FIELDS)
        records[i] = trees.set_field(records[i], name, edge(text, len(records), n.unpack(records[i])[name], width))
    elif k == 5 and records:
        del records[i]
    elif k == 6 and records:
        records.insert(random.randrange(len(records) + 1), records[i])
    elif k == 7 and records:
        j = random.randrange(len(records))
        records[i], records[j] = records[j], records[i]
    elif k == 8:
        return tree[:random.randrange(len(tree) + 1)]
    elif k == 9:
        if random.random() < 0.5:
            return tree + random.randbytes(random.choice((1, n.RECORD - 1, n.RECORD, n.RECORD + 1, 2 * n.RECORD)))
        return tree + other[:n.RECORD * random.randrange(1, 5)]
    elif k == 10:
        return nested(tree, random.choice((1, 2, 62, 63, 64, 65)))
    return b"".join(records)


def nested(tree, levels):
    """Puts the tree inside so many groups."""
    for _ in range(levels):
        if len(tree) % n.RECORD or len(tree) // n.RECORD > 100000:
            return tree
        kind = random.choice((0, 1, 2, 4, 5))
        second = kind > 3 and random.random() < 0.5
        fields = {"second" if second else "first": len(tree) // n.RECORD, "number": random.choice((1, 1, 1, -1, -1, 0, 2))}
        tree = trees.rec(kind, **fields) + tree
    return tree


def miscounted(tree):
    """Changes one count: one off, 0, capped, not capped, the sum without repeats, or anything."""
    counts = trees.true_counts(tree)
    if not counts:
        return tree
    i = random.randrange(len(counts))
    right = min(counts[i], n.CAP)
    number = abs(n.unpack(trees.records(tree)[i])["number"])
    value = random.choice((right + 1, right - 1, 0, 1, 2, n.CAP, n.CAP - 1, n.CAP + 1, counts[i], right + n.CAP, counts[i] // max(number, 1), random.randrange(1 << 40)))
    return trees.set_in(tree, i, "count", value)


def damaged_text(text):
    k = random.randrange(6)
    if k == 0 and text:
        at = random.randrange(len(text))
        return text[:at] + bytes([random.choice((random.randrange(256), ord(random.choice("(){}[]'.,:-~@!&^/ RU019"))))]) + text[at + 1:]
    if k == 1 and text:
        at = random.randrange(len(text))
        return text[:at] + text[at + 1:]
    if k == 2:
        return text[:random.randrange(len(text) + 1)]
    if k == 3:
        at = random.randrange(len(text) + 1)
        return text[:at] + random.choice((b" ", b"(", b")", b"'", b"0", b"-", b"{", b"}", "\u2003".encode(), "β".encode(), b"\xff", b"R",
                                          "\u2019".encode(), "\u2032".encode(), "\u2018".encode(), b"\xe2\x80", b"\x80\x99")) + text[at:]
    if k == 4 and random.random() < 0.02:
        return text + b" " * (random.choice((65535, 65536, 70000, 140000, n.MOST_TEXT + 1)) - len(text))
    if k == 5 and random.random() < 0.1:
        return b"(" * random.choice((60, 63, 64, 65)) + text
    return text


def bases():
    with open(os.path.join(HERE, "sample.tsv"), encoding="utf-8", newline="\n") as f:
        sample = [line.split("\t")[0] for line in f.read().split("\n") if line and not line.startswith("#")]
    # a third of the sample with curly primes for its apostrophes
    sample = [text.replace("'", n.CURLY[k // 3 % 2]) if k % 3 == 0 else text for k, text in enumerate(sample)]
    found = []
    for text in TEXTS + sample:
        text = text.encode()
        found.append((text, n.pack(n.read(text, CURLY))))
    return found


def main():
    cases, seed = int(sys.argv[1]) if len(sys.argv) > 1 else 20000, int(sys.argv[2]) if len(sys.argv) > 2 else 1
    random.seed(seed)
    known = bases()
    run = Run()
    sound = by_count = 0
    for _ in range(cases):
        text, tree = was = random.choice(known)
        for _ in range(random.choice((0, 1, 1, 1, 2, 3))):
            tree = damage(text, tree, random.choice(known)[1])
        if random.random() < 0.8:
            tree = trees.with_counts(tree)
        if random.random() < 0.15:
            tree = miscounted(tree)
        if random.random() < 0.15:
            text = damaged_text(text)
        if random.random() < 0.02:
            text = random.choice(known)[0]
        fine = n.well_formed(text, tree)
        sound += fine
        by_count += not fine and n.well_formed(text, trees.with_counts(tree))
        Case(run, text, tree, (text, tree) != was).all()
        for _ in range(random.randrange(3)):
            text = damaged_text(text)
        reading(run, text)
    print(f"{cases} cases, {sound} trees well formed, {by_count} but for a count; seed {seed}")
    print("calls:", ", ".join(f"{k} {v}" for k, v in sorted(run.calls.items())))
    print("answers:", ", ".join(f"{'accepted' if k == 0 else 'refused ' + str(k)} {v}" for k, v in sorted(run.answers.items())))
    print(f"layer ranges: {run.tildes[True]} with a tilde, {run.tildes[False]} without, short buffers among them")
    print(f"second deep inverses: {run.twice[False]} of trees as read, {run.twice[True]} of damaged ones")
    print(f"{sum(run.calls.values())} calls, {len(run.wrong)} differ")
    if run.wrong:
        print("smallest:", min(run.wrong, key=lambda w: w[0]))
    sys.exit(bool(run.wrong) or not run.calls or not all(counted[which] for counted in (run.tildes, run.twice) for which in (True, False)))


if __name__ == "__main__":
    main()
