#!/usr/bin/env python3
"""Compares the Python reference (tests/reference) with the Rust oracle on generated trees: compare_reference.py ORACLE [TREES] [SEED].

Display, both inverses, unrolled lists and layer ranges must be the same. Layer ranges of a move with a tilde are compared with the layers that the Rust's
`simplify` leaves, and all of them with the layers of its mask. The Rust has no step counts; the reference's count must be the length of the Rust's list."""
import os
import random
import subprocess
import sys

sys.path.insert(0, os.path.join(os.path.dirname(os.path.abspath(__file__)), "..", "reference"))
import notation as n

NAMES = ["R", "U", "Fw", "x", "IR", "_", "β", "Ωω_a", "Lv"]
NUMBERS = [0, 1, -1, 2, -2, 3, 7, -7, 2147483647, -2147483647]
PAIRS = [0, 1, -1, 3, -6, 2147483647, -2147483647, n.LEAST]
LAYERS = [1, 2, 3, 5, 8, 12, 32767]


def multiplier(group):
    return random.choice([0, 1, 1, 1, -1, -1, 2, -2, 3, -3] if group else NUMBERS)


def element():
    signed = lambda: random.choice((1, -1)) * random.choice(LAYERS)
    return (signed(),) if random.random() < 0.6 else (signed(), signed())


def layers():
    k = random.randrange(5)
    if k < 2:
        return None
    if k == 2:
        return ("single", random.choice(LAYERS))
    if k == 3:
        a, b = random.choice(LAYERS), random.choice(LAYERS)
        return ("range", min(a, b), max(a, b))
    return ("set", (0, 0), [element() for _ in range(random.randrange(5))])


def constraints():
    if random.random() < 0.7:
        return None
    name = lambda: random.choice(NAMES)
    return ((0, 0), [random.choice((("", name()), ("->", name(), name()), ("<>", name(), name()))) for _ in range(random.randrange(4))])


def node(depth):
    k = random.randrange(10 if depth else 7)
    if k < 3:
        return n.Node(n.MOVE, tilde=random.random() < 0.2, layers=layers(), name=random.choice(NAMES), constraints=constraints(), number=multiplier(False))
    if k == 3:
        return n.Node(n.ROTATION, name=random.choice(NAMES + [""]), constraints=constraints(), number=multiplier(False))
    if k == 4:
        return n.Node(random.choice((n.PAUSE, n.SLASH)))
    if k == 5:
        return n.Node(n.PAIR, number=random.choice(PAIRS), d=random.choice(PAIRS))
    if k == 6:
        return n.Node(random.choice((n.RPP, n.RMM, n.DPP, n.DMM)))
    if k < 9:
        kind = random.choice((n.SIMPLE, n.SIMPLE, n.MACRO, n.SIMULTANEOUS) + ((n.NISS,) if random.random() < 0.1 else ()))
        return n.Node(kind, lists=[nodes(depth - 1)], number=multiplier(True))
    return n.Node(random.choice((n.COMMUTATOR, n.CONJUGATE)), lists=[nodes(depth - 1), nodes(depth - 1)], number=multiplier(True))


def nodes(depth):
    return [node(depth) for _ in range(random.randrange(4))]


def form(l):
    return "[ " + " ".join(form_node(x) for x in l) + " ]"


def form_transform(x):
    sign = {"": "=", "->": ">", "<>": "<"}
    c = "-" if x.constraints is None else "{ " + " ".join(sign[e[0]] + " " + " ".join('"' + w for w in e[1:]) for e in x.constraints[1]) + " }"
    return f'"{x.name} {c}'


def form_node(x):
    if x.kind == n.PAUSE:
        return "."
    if x.kind == n.SLASH:
        return "/"
    if x.kind == n.PAIR:
        return f"p {x.number} {x.d}"
    if x.kind >= n.RPP:
        return f"x {x.kind - n.RPP}"
    if x.kind < n.COMMUTATOR:
        return f"g {x.kind} {form(x.lists[0])} {x.number}"
    if x.kind < n.ROTATION:
        return f"b {x.kind - n.COMMUTATOR} {form(x.lists[0])} {form(x.lists[1])} {x.number}"
    if x.kind == n.ROTATION:
        return f"@ {form_transform(x)} {x.number}"
    l = x.layers
    shown = "-" if l is None else f"s {l[1]}" if l[0] == "single" else f"r {l[1]} {l[2]}" if l[0] == "range" else (
        "{ " + " ".join(("s " if len(e) == 1 else "r ") + " ".join(map(str, e)) for e in l[2]) + " }")
    return f"m {int(x.tilde)} {shown} {form_transform(x)} {x.number}"


def attempt(f):
    try:
        return f()
    except n.Refused as r:
        return f"refused {r.number}"


def flattened(l):
    return f"{n.count(l)} {n.show_list(n.unroll(l))}"


def expected(l, layers, negatives):
    move = next((x for x in l if x.kind == n.MOVE), None)
    found = "" if move is None else " ".join(f"{a}-{b}" for a, b in n.ranges(move, layers, negatives)) or "none"
    return "\t".join((n.show_list(l), attempt(lambda: n.show_list(n.inverse(l))), attempt(lambda: n.show_list(n.deep_inverse(l))), attempt(lambda: flattened(l)), found, found))


def main():
    oracle, total, seed = sys.argv[1], int(sys.argv[2]) if len(sys.argv) > 2 else 100000, int(sys.argv[3]) if len(sys.argv) > 3 else 1
    random.seed(seed)
    cases, lines = [], []
    while len(cases) < total:
        l = nodes(4)
        if n.count(l) > 3000:
            continue
        info = (random.choice([1, 2, 3, 5, 9, 40, 64, 128, 32767]), random.random() < 0.6)
        cases.append((l, *info))
        lines.append(f"{form(l)} {info[0]} {int(info[1])}")
    got = subprocess.run([oracle], input="\n".join(lines) + "\n", capture_output=True, text=True, check=True).stdout.split("\n")
    wrong = 0
    tally = {"refused 7": 0, "refused 8": 0}
    tildes = {True: 0, False: 0}
    for (l, layers, negatives), line, given in zip(cases, got, lines):
        want = expected(l, layers, negatives)
        for k in tally:
            tally[k] += k in want
        for move in [x for x in l if x.kind == n.MOVE][:1]:
            tildes[move.tilde] += 1
        if want != line:
            wrong += 1
            if wrong <= 3:
                print("differs:", given, "\n rust:", line, "\n here:", want)
    print(f"{total} trees, {wrong} differ; {tally}; layer ranges with a tilde {tildes[True]}, without {tildes[False]}")
    sys.exit(wrong > 0 or not all(tildes.values()))


if __name__ == "__main__":
    main()
