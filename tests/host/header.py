#!/usr/bin/env python3
"""Holds include/hypuz_notation.h to the code and to the Python reference (tests/reference/notation.py): header.py PROGRAM.. [-- ARCHIVE]

Each PROGRAM is tests/host/records.c, compiled some way; what its inline functions give must be what the reference says. Compared are:
- names and numbers: refusals, kinds and limits with the constants of the code, features with the reference's flags;
- the table of texts in the comment on the notation: every row with the reference, in both settings;
- the accessors, on every record of many trees: what they give must be what the reference's nodes say, field by field;
- the rooms: what the reference writes and prints never has more bytes than they allow, and hypuz_display_room_of adds up what its comment says.
With ARCHIVE, it must ask its platform for memcpy and memset alone."""
import os
import random
import re
import subprocess
import sys

HERE = os.path.dirname(os.path.abspath(__file__))
ROOT = os.path.join(HERE, "..", "..")
sys.path.insert(0, os.path.join(HERE, "..", "reference"))
import notation as n
import reading_vectors as made
import trees

HEADER = open(os.path.join(ROOT, "include", "hypuz_notation.h"), encoding="utf-8").read()
SETTINGS = {"w": n.WCA, "m": n.MAXIMAL}
TEXTS = ["", "R", "R U'", "[R, U]", "[R: U2 F]'", "(R U')2' !(R) &(L')0 ^(F)3", "((((R)))')'", "(1,-2) / . (-2147483648,2147483647)", "R++ R-- D++ D--",
         "~R ~2U 3-7F ~{1-3,-2}R{a->b}3' @{} @x{A<>B,c}2' @", "32767R2147483647' 1-32767U0", "{}R {1}U{} { 1 , 2 }F{ A }", "((R)65535)65537 ((R)65536)65536",
         "[[R,U],[R,U]]", "[,]' [:]0 ()", "ΓΩ_aω{β->θ}2", "{1-2,1-2,1-2,1-2}R", "[[[[R,U],F],L]: (B' D)2]'", "(1,1) (2,2)", "!()"]

checks = 0
failures = []


def expect(got, wanted, what):
    global checks
    checks += 1
    if got != wanted and len(failures) < 20:
        failures.append(f"{what}: got {got!r}, wanted {wanted!r}")


def rows():
    """Gives the table of texts in the header: text, and what stands under HYPUZ_WCA and HYPUZ_MAXIMAL."""
    for text, wca, maximal in re.findall(r"^ \*   (.+?) +\| *(\d+|refused \d+) *\| *(\d+|refused \d+) *\|", HEADER, re.M):
        yield text, {"w": wca, "m": maximal}


def numbered(path, pattern):
    """Gives the numbers that a match of the code has for the variants of an enum, by their names in capitals."""
    source = open(os.path.join(ROOT, "crates", path), encoding="utf-8").read()
    found = (m.groupdict() for m in re.finditer(pattern, source))
    return {re.sub(r"(?<=[a-z])(?=[A-Z])|(?<=[A-Z])(?=[A-Z][a-z])", "_", m["name"]).upper(): int(m["number"]) for m in found}


def constants(path):
    """Gives the constants of a file of the code by name."""
    source = open(os.path.join(ROOT, "crates", path), encoding="utf-8").read()
    return {name: int(value) for name, value in re.findall(r"^pub const (\w+): \w+ = (\d+);", source, re.M)}


def enumerators(prefix):
    return {name: int(value) for name, value in re.findall(rf"^    {prefix}(\w+) = (\d+)", HEADER, re.M)}


def names(program):
    """Compares names and numbers."""
    expect(enumerators("HYPUZ_REFUSED_"), numbered("notation/src/refusals.rt", r"Refusal::(?P<name>\w+) => (?P<number>\d+),"), "refusals by name")
    expect(enumerators("HYPUZ_KIND_"), numbered("record/src/kinds.rt", r"(?P<number>\d+) => Kind::(?P<name>\w+),"), "kinds by name")
    flags = {name.lower(): int(value) for name, value in re.findall(r"^#define HYPUZ_(\w+) (\d+)u +/\*", HEADER, re.M)}
    expect(flags, {name: 1 << i for i, name in enumerate(n.FLAGS)}, "features by name")
    lines = subprocess.run([program, "names"], stdout=subprocess.PIPE, check=True, text=True).stdout.splitlines()
    limits = constants("notation/src/limits.rt")
    setting = {name: sum(1 << i for i, flag in enumerate(n.FLAGS) if flag in on) for name, on in (("MINIMAL", ()), ("WCA", n.WCA), ("MAXIMAL", n.MAXIMAL))}
    expect(dict(line.split() for line in lines[:11]),
           {name: str(value) for name, value in {"RECORD": n.RECORD, **limits, "STEP_ROOM": n.RECORD, "RANGES_ROOM": 4 * 16384, **setting}.items()}, "sizes, limits and settings")
    expect(lines[11:14], [f"rooms {k} {(k + 1) // 2 * n.RECORD} {k} {k * n.RECORD} {2 * k}" for k in (0, 1, 1000)], "rooms")
    said = [line.split(" ", 2)[2] for line in lines[14:270]]
    expect([line.split(" ", 2)[:2] for line in lines[14:270]], [["refusal", str(k)] for k in range(256)], "refusals")
    expect((len(set(said[:24])), set(said[24:])), (24, {"There is no such refusal."}), "a sentence for each of 24, and one for all others")
    for sentence in said:
        expect(bool(re.fullmatch(r"[A-Z].*[^.]\.", sentence)), True, sentence)
    expect(lines[270:], ["span abcdef 123456", "range 1 515", "range 32766 32767"], "a part of the text and two ranges taken apart")


def table():
    """Compares the table of texts with the reference."""
    found = list(rows())
    expect(len(found) >= 20, True, "rows of the table")
    for text, answers in found:
        for letter, answer in answers.items():
            try:
                wanted = str(n.count_steps(text.encode(), n.pack(n.read(text.encode(), SETTINGS[letter]))))
            except n.Refused as refused:
                wanted = f"refused {refused.number}"
            expect(answer, wanted, f"the header's answer for {text} in setting {letter}")


def says(node):
    """Gives what the accessors must give of a node, in the order of records.c."""
    group, pair = node.kind < n.ROTATION, node.kind == n.PAIR
    lists = [n.count_records(l) for l in node.lists] + [0, 0]
    form = {None: 0, "single": 1, "range": 2, "set": 3}[node.layers and node.layers[0]]
    low, high = (node.layers[1], node.layers[-1]) if form in (1, 2) else (0, 0)
    constraints = node.constraints[0] if node.constraints else (0, 0)
    return [node.kind, int(group), node.number if node.kind <= n.MOVE else 0, node.number if pair else 0, node.d if pair else 0,
            int(node.tilde), form, low, high, int(node.constraints is not None), lists[0], lists[1], 1 + sum(lists), *node.family, *constraints,
            *(node.layers[1] if form == 3 else (0, 0)), n.stored_count(node)]


def wide():
    """Gives single records of every kind whose fields are filled to their width, as the fields and what the accessors must give of them."""
    for kind in range(15):
        for _ in range(200):
            shape = {"kind": kind, "form": random.randrange(4) if kind == n.MOVE else 0, "constrained": random.randrange(2) if kind in (n.ROTATION, n.MOVE) else 0}
            used = n.used_fields({**shape, "family_size": 1}) - shape.keys()
            values = {name: random.choice((0, 1, (1 << bits) - 1, 1 << bits - 1, random.getrandbits(bits))) for name, bits in n.FIELDS if name in used}
            f = {**dict.fromkeys(dict(n.FIELDS), 0), **shape, **values}
            number, d = ((f[name] ^ 1 << 31) - (1 << 31) for name in ("number", "d"))
            pair = kind == n.PAIR
            yield f, [kind, int(kind < n.ROTATION), number if kind <= n.MOVE else 0, number if pair else 0, d if pair else 0, f["tilde"], f["form"],
                      0 if pair else f["d"] >> 16, 0 if pair else f["d"] & 0xFFFF, f["constrained"], f["first"], f["second"], 1 + f["first"] + f["second"],
                      f["family"], f["family_size"], f["constraints"], f["constraints_size"], f["set"], f["set_size"], f["count"]]


def room(nodes):
    """Gives what hypuz_display_room_of says that it adds up."""
    return sum(n.RECORD + node[14] + node[16] + node[18] + node[18] // 4 for node in map(says, n.in_order(nodes)))


def inverses(nodes):
    """Gives the inverses of a tree that are not refused."""
    for invert in (n.inverse, n.deep_inverse):
        try:
            yield invert(nodes)
        except n.Refused:
            pass


def variants(text, nodes):
    """Gives the tree of a text, its inverses and theirs, some of its steps and its whole list, each with the room by the text or None."""
    level = [nodes]
    for _ in range(3):
        yield from ((tree, 2 * len(text)) for tree in level)
        level = [inverted for tree in level for inverted in inverses(tree)]
    try:
        steps = n.count_steps(text, n.pack(nodes))
    except n.Refused:
        return
    for k in {0, steps // 2, steps - 1}:
        if 0 <= k < steps:
            yield [n.step_at(nodes, k)], 2 * len(text)
    if steps <= 2000:
        yield n.unroll(nodes), None


def by_hand():
    """Gives trees that no reading gives: many records that name the same long parts, and pairs of the longest numbers."""
    text = b"{" + b"A" * 300 + b"} {" + b"1-2," * 90 + b"1-2}"
    long = trees.rec(n.MOVE, number=-2147483647, family=1, family_size=300, constrained=1, constraints=0, constraints_size=302, tilde=1, form=3, set=303, set_size=365)
    pair = trees.rec(n.PAIR, number=n.LEAST, d=n.LEAST)
    for tree in (long, long * 50, pair, pair * 50, (long + pair) * 20):
        yield text, n.opened(text, tree)


def compared():
    """Gives all trees that the programs are handed: text, nodes, and the room by the text or None."""
    for text in TEXTS + [made.well_made(random.randrange(1, 6)) for _ in range(400)]:
        try:
            nodes = n.read(text.encode(), n.MAXIMAL)
        except n.Refused:
            continue
        for tree, most in variants(text.encode(), nodes):
            yield text.encode(), tree, most
    for text, nodes in by_hand():
        yield text, nodes, None


def accessors(programs):
    """Compares the accessors and the rooms."""
    cases = list(compared())
    kinds = {node.kind for _, nodes, _ in cases for node in n.in_order(nodes)}
    expect(kinds, set(range(15)), "kinds that were met")
    hexes = "".join(n.pack(nodes).hex() + "\n" for _, nodes, _ in cases)
    wanted, tight = [], 0
    for text, nodes, most in cases:
        wanted += [" ".join(map(str, says(node))) for node in n.in_order(nodes)] + [f"room {room(nodes)}"]
        shown = len(n.show_list(nodes).encode())
        tight += most == shown > 0
        expect(shown <= room(nodes), True, f"the room by the records for {text[:60]}")
        expect(most is None or shown <= most, True, f"the room by the text for {text[:60]}")
        expect(most is None or len(n.pack(nodes)) <= (len(text) + 1) // 2 * n.RECORD, True, f"the room for the tree of {text[:60]}")
    expect(tight > 0, True, "some text needs all of the room by the text")
    for f, values in wide():
        hexes += n.packed(f).hex() + "\n"
        wanted += [" ".join(map(str, values)), f"room {n.RECORD + f['family_size'] + f['constraints_size'] + f['set_size'] * 5 // 4}"]
    for program in programs:
        got = subprocess.run([program], input=hexes, stdout=subprocess.PIPE, check=True, text=True).stdout.splitlines()
        expect(len(got), len(wanted), f"lines of {program}")
        for line, want in zip(got, wanted):
            expect(line, want, f"accessors of {program}")
    print(f"{len(cases)} trees, {sum(not line.startswith('room') for line in wanted)} records, {len(programs)} programs")


def symbols(archive):
    """Compares what the archive asks of its platform."""
    undefined = subprocess.run(["nm", "-u", archive], stdout=subprocess.PIPE, check=True, text=True).stdout
    expect(set(re.findall(r"\bU (\w+)", undefined)), {"memcpy", "memset"}, "symbols that the archive asks for")


def main():
    random.seed(10)
    words = sys.argv[1:]
    archives = words[words.index("--") + 1:] if "--" in words else []
    programs = words[:words.index("--")] if "--" in words else words
    for program in programs:
        names(program)
    table()
    accessors(programs)
    for archive in archives:
        symbols(archive)
    for failure in failures:
        print("failed:", failure)
    print(f"{checks} checks of the header, {len(failures)} failed")
    sys.exit(bool(failures) or not programs)


if __name__ == "__main__":
    main()
