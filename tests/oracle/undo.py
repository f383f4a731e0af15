#!/usr/bin/env python3
"""Compares the two undo views of a text (document 02, request 13), by the C functions and by the Python reference (tests/reference/notation.py): undo.py [TEXTS] [SEED]

Texts are made at random from what a random setting admits, until TEXTS of them have both views. The shallow view is what the shallow inverse unrolls into, the deep one what the
deep inverse does after it was printed and read back in the same setting. Step by step they must be the same, and so must be what the reference says; count and every place from
the end must be as demand 3 has them. The second deep inverse must be the tree again, byte for byte: of every text, of its inverses, and of trees made by hand over the text, in which
nodes stand elsewhere, more often, or in other groups. It fails where some case was never met. Prints how often each was."""
import collections
import random
import sys

import damaged
import notation as n
import trees

LIB, lent, attempt = damaged.LIB, damaged.lent, damaged.attempt
MOST_STEPS = 400
PRIMES = ("'", "\u2019", "\u2032")
LEAST = "-2147483648"


class Writer:
    """Writes texts that a setting admits."""

    def __init__(self, features):
        self.on = features.__contains__

    def multiplier(self):
        number = random.choice(("", "", "", "", "2", "2", "3", "0", "00", "01", "2147483647"))
        return number + random.choice(("", "", random.choice(PRIMES) if self.on("curly_primes") else "'"))

    def repeats(self):
        """Gives a multiplier that leaves lists short."""
        return self.multiplier().replace("2147483647", "1")

    def space(self):
        return random.choice(("", "", " ", "\n", "\u2003"))

    def braces(self, element):
        return "{" + self.space() + (self.space() + "," + self.space()).join(element() for _ in range(random.randrange(4))) + self.space() + "}"

    def name(self):
        return random.choice(("R", "U", "Fw", "x", "_a", "\u03b2", "\u03a9\u03c9"))

    def layer(self):
        return random.choice(("1", "2", "07", "32767"))

    def constraint(self):
        sign = random.choice(("->", "<>"))
        return random.choice((self.name(), self.name() + self.space() + sign + self.space() + self.name()))

    def element(self):
        signed = lambda: random.choice(("", "-")) + self.layer()
        forms = [signed(), signed() + ".." + signed()] + [self.layer() + "-" + self.layer()] * self.on("hsc1_layer_ranges")
        return random.choice(forms)

    def turn(self):
        """Gives a family with constraints and a multiplier."""
        return self.name() + (self.braces(self.constraint) if self.on("transform_constraints") and random.random() < 0.3 else "") + self.multiplier()

    def leaf(self):
        tilde = "~" if self.on("inverted_layers") and random.random() < 0.3 else ""
        layers = ["", "", self.layer(), self.layer() + "-" + self.layer()] + [self.braces(self.element)] * 2 * self.on("layer_sets")
        forms = [tilde + random.choice(layers) + self.turn()] * 4 + ["."]
        if self.on("generalized_rotations"):
            forms.append("@" + random.choice((self.turn(), self.multiplier())))
        if self.on("megaminx"):
            forms.append(random.choice(("R++", "R--", "D++", "D--")))
        if self.on("sq1"):
            number = lambda: random.choice(("0", "1", "-2", "6", "2147483647", "-2147483647", LEAST if random.random() < 0.3 else "3"))
            forms += ["/", "(" + self.space() + number() + self.space() + "," + number() + ")"]
        return random.choice(forms)

    def node(self, depth):
        if depth == 0 or random.random() < 0.5:
            return self.leaf()
        if random.random() < 0.5:
            prefix = random.choice(("", "", "", "!", "&", "^" if random.random() < 0.2 else ""))
            return prefix + "(" + self.list(depth - 1) + ")" + self.repeats()
        return "[" + self.list(depth - 1) + random.choice(",:") + self.list(depth - 1) + "]" + self.repeats()

    def list(self, depth):
        nodes = [self.node(depth) for _ in range(random.choice((0, 1, 1, 2, 2, 3)))]
        return self.space() + random.choice((" ", "  ", "\n")).join(nodes) + self.space()


def called(what, room, *front):
    """Calls a function with a buffer of some size, or none, and gives (refusal, what it wrote), or without a buffer (refusal, value)."""
    args = []
    for a in front:
        args += [lent(a), len(a)] if isinstance(a, bytes) else [a]
    out = lent(bytes(room or 0))
    answer = getattr(LIB, "hypuz_" + what)(*args, *([] if room is None else [out, room]))
    value = answer & (1 << 56) - 1
    return answer >> 56, value if room is None else out.raw[:value]


class Views:
    def __init__(self):
        self.met = collections.Counter()
        self.wrong = []

    def expect(self, holds, what, *about):
        if not holds:
            self.wrong.append((len(about[0]), what, *about))

    def text(self, bits, text):
        """Compares all that is said of one text; gives whether it has both views."""
        features = n.features_of(bits)
        self.met["texts"] += 1
        tree = n.pack(n.read(text, features))
        self.expect(called("parse_notation", len(tree), text, bits) == (0, tree), "reading", text, bits)
        for inverted in [tree] + [made for refusal, made in (attempt(lambda: rule(text, tree)) for rule in (n.inv, n.inv_deep)) if not refusal]:
            self.twice("twice, of read trees and their inverses", text, inverted)
        for _ in range(2):
            self.twice("twice, of trees made by hand", text, by_hand(tree))
        refusal, count = attempt(lambda: n.count_steps(text, tree))
        deep_refusal, deep = attempt(lambda: n.inv_deep(text, tree))
        self.expect(called("inv_deep", len(tree), text, tree) == (deep_refusal, deep or b""), "deep inverse", text, bits)
        if refusal:
            self.met[f"unrolling refused {refusal}"] += 1
            return False
        if count > MOST_STEPS:
            self.met["too long to compare"] += 1
            return False
        if any(n.LEAST in (step.number, step.d) for step in n.unroll(n.opened(text, tree))):
            self.met["plays a pair that cannot be undone"] += 1
            return False
        if deep_refusal:
            self.met[f"unrolls, and the deep inverse is refused {deep_refusal}"] += 1
            return False
        self.views(bits, text, tree, deep, count)
        return True

    def views(self, bits, text, tree, deep, count):
        features, size = n.features_of(bits), count * n.RECORD
        self.met["views"] += 1
        self.met["steps"] += count
        self.met["views of no steps"] += not count
        shallow = n.inv(text, tree)
        undoing = called("flatten", size, text, shallow)
        self.expect(undoing == called("flatten", size, text, deep), "both inverses unroll into the same records", text, bits)
        played = n.shallow_view(text, tree)
        self.expect((undoing[0], steps(text, undoing[1])) == (0, played), "the shallow view", text, bits)
        self.expect(n.deep_view(text, tree, features) == played, "the deep view of the reference", text, bits)
        for inverted in (shallow, deep):
            self.back(bits, text, tree, inverted, played)

    def back(self, bits, text, tree, inverted, played):
        """Prints an inverse, reads it back and compares every step."""
        count = len(played)
        refusal, shown = called("display", 2 * len(text), text, inverted)
        self.expect((refusal, shown) == (0, n.display(text, inverted)), "printing an inverse", text, bits)
        self.met["printed forms of other lengths than the text"] += len(shown) != len(text)
        refusal, back = called("parse_notation", len(inverted), shown, bits)
        self.expect(not refusal and len(back) == len(inverted), "reading it back", text, bits)
        self.expect(called("count_steps", None, shown, back) == called("count_steps", None, text, tree) == (0, count), "counts", text, bits)
        refusal, listed = called("flatten", count * n.RECORD, shown, back)
        self.expect((refusal, steps(shown, listed)) == (0, played), "the steps of the inverse read back", text, bits)
        for k in range(count):
            _, step = called("seek_step", n.RECORD, text, tree, k)
            undone = n.meaning(n.undo(n.opened(text, step)[0]))
            _, there = called("seek_step", n.RECORD, shown, back, count - 1 - k)
            self.expect(steps(shown, there) == [undone] == [played[count - 1 - k]], "a place from the end", text, bits, k)

    def twice(self, what, text, tree):
        """Inverts deep twice."""
        refusal, inverted = attempt(lambda: n.inv_deep(text, tree))
        self.expect(called("inv_deep", len(tree), text, tree) == (refusal, inverted or b""), "deep inverse", text, tree.hex())
        if refusal:
            self.met[f"{what}: refused {refusal}"] += 1
            return
        self.met[what] += 1
        self.expect(called("inv_deep", len(tree), text, inverted) == (0, tree), what, text, tree.hex())


def steps(text, listed):
    """Gives what the records of a list mean over their text."""
    return [n.meaning(step) for step in n.opened(text, listed)]


def by_hand(tree):
    """Gives another tree over the same text: some of its nodes twice or in another order, in groups of any kind, with right step counts."""
    parts, at = [], 0
    records = trees.records(tree)
    while at < len(records):
        fields = n.unpack(records[at])
        size = 1 + fields["first"] + fields["second"]
        parts.append(b"".join(records[at:at + size]))
        at += size
    chosen = random.choices(parts, k=random.randrange(1, 5)) if parts else []
    out = b""
    for part in chosen:
        kind = random.choice((None, n.SIMPLE, n.MACRO, n.SIMULTANEOUS, n.COMMUTATOR, n.CONJUGATE, n.CONJUGATE, n.NISS if random.random() < 0.1 else n.SIMPLE))
        other = random.choice(parts) if kind in (n.COMMUTATOR, n.CONJUGATE) else b""
        lists = {"first": len(part) // n.RECORD, "second": len(other) // n.RECORD} if other else {"first": len(part) // n.RECORD}
        out += (b"" if kind is None else trees.rec(kind, number=random.choice((1, -1, 0, 2, -3, 2147483647)), **lists)) + part + other
    return trees.with_counts(out)


# what has to be met, beside the number of views that was asked for
TO_MEET = ("steps", "views of no steps", "printed forms of other lengths than the text", "unrolling refused 7", "unrolling refused 8", "unrolls, and the deep inverse is refused 7",
           "unrolls, and the deep inverse is refused 8", "plays a pair that cannot be undone", "twice, of read trees and their inverses", "twice, of trees made by hand", "twice, of trees made by hand: refused 7",
           "twice, of trees made by hand: refused 8")


def main():
    texts, seed = int(sys.argv[1]) if len(sys.argv) > 1 else 10000, int(sys.argv[2]) if len(sys.argv) > 2 else 1
    random.seed(seed)
    views = Views()
    settings = set()
    found = 0
    while found < texts:
        bits = random.randrange(256)
        text = Writer(n.features_of(bits)).list(random.choice((1, 2, 2, 3, 4))).encode()
        if views.text(bits, text):
            found += 1
            settings.add(bits)
    print(f"{views.met.pop('texts')} texts, {found} with both views, in {len(settings)} settings; seed {seed}")
    for what, times in sorted(views.met.items()):
        print(f"{what}: {times}")
    missing = [what for what in TO_MEET if not views.met[what]]
    print(f"{len(views.wrong)} differ" + (f", never met: {missing}" if missing else ""))
    if views.wrong:
        print("smallest:", min(views.wrong, key=lambda w: w[0]))
    sys.exit(bool(views.wrong or missing or not found))


if __name__ == "__main__":
    main()
