"""The rules of document 01 in plain Python: a reader, packed trees, inverses, printing, unrolling and layer ranges; and of document 02 request 2, the
counts that records store, request 10, the longer texts, request 6, the curly primes, request 3, the layers of a tilde, and request 13, the undo view.

It is written from the papers, as ordinary recursive descent over decoded characters, to make the expected output of the stored vectors.
Nothing in it is shared with the Rattle code or with the definitions in crates/notation/specs.
"""

import functools

FLAGS = ("inverted_layers", "layer_sets", "hsc1_layer_ranges", "generalized_rotations", "transform_constraints", "megaminx", "sq1", "curly_primes")
WCA = {"megaminx", "sq1"}
MAXIMAL = set(FLAGS) - {"curly_primes"}
SIMPLE, MACRO, SIMULTANEOUS, NISS, COMMUTATOR, CONJUGATE, ROTATION, MOVE, PAUSE, PAIR, SLASH, RPP, RMM, DPP, DMM = range(15)
MEGAMINX = {"R++": RPP, "R--": RMM, "D++": DPP, "D--": DMM}
GREEK = {0x300 + n for n in (0x93, 0x94, 0x98, 0x9B, 0x9E, 0xA0, 0xA3, 0xA6, 0xA8, 0xA9, 0xB2, 0xB4, 0xB5, 0xB6, 0xB7, 0xB8, 0xBA, 0xBB, 0xBC,
                             0xBE, 0xC0, 0xC4, 0xC6, 0xC8, 0xC9)}
CURLY = "\u2019\u2032"  # what word processors write for an apostrophe
WHITE = set([*range(0x9, 0xE), 0x20, 0x85, 0xA0, 0x1680, *range(0x2000, 0x200B), 0x2028, 0x2029, 0x202F, 0x205F, 0x3000])
LEAST = -2147483648
MOST_TEXT = 16777215  # a longer text is refused 1
MOST_STEPS = 4294967295  # a longer list is refused 9
CAP = 4294967296  # what a record stores for every count above MOST_STEPS

# The packed record: its fields in order with their bits, most significant bit first.
FIELDS = (("kind", 4), ("tilde", 1), ("form", 2), ("constrained", 1), ("first", 24), ("second", 24), ("number", 32), ("d", 32),
          ("family", 24), ("family_size", 24), ("constraints", 24), ("constraints_size", 24), ("set", 24), ("set_size", 24), ("count", 40))
RECORD = sum(bits for _, bits in FIELDS) // 8
DEEPEST = 64


class Refused(Exception):
    def __init__(self, number):
        self.number = number


def family_char(c):
    return c.isascii() and (c.isalpha() or c == "_") or ord(c) in GREEK


def features_of(bits):
    return {name for i, name in enumerate(FLAGS) if bits >> i & 1}


class Node:
    """A record: kind, tilde, layers (None, ('single', i), ('range', i, j), ('set', span, elements)), family and constraints as spans with
    their meaning, lists, numbers."""

    def __init__(self, kind, **fields):
        self.kind = kind
        self.tilde = False
        self.layers = None
        self.family = (0, 0)
        self.name = ""
        self.constraints = None  # (offset, size), elements
        self.lists = []
        self.number = 1
        self.d = 0
        self.__dict__.update(fields)

    def copy(self, **fields):
        n = Node(self.kind)
        n.__dict__.update(self.__dict__)
        n.__dict__.update(fields)
        return n


class Reader:
    def __init__(self, text, features):
        self.features = features
        self.s = text.decode("utf-8")
        self.offset = [0]  # byte offset of each character
        for c in self.s:
            self.offset.append(self.offset[-1] + len(c.encode("utf-8")))
        self.i = 0

    def on(self, name):
        return name in self.features

    def look(self, word):
        return self.s.startswith(word, self.i)

    def take(self, word):
        if self.look(word):
            self.i += len(word)
            return True
        return False

    def spaces(self):
        start = self.i
        while self.i < len(self.s) and ord(self.s[self.i]) in WHITE:
            self.i += 1
        return self.i > start

    def span(self, a, b):
        return (self.offset[a], self.offset[b] - self.offset[a]) if b > a else (0, 0)

    def names(self):
        start = self.i
        while self.i < len(self.s) and family_char(self.s[self.i]):
            self.i += 1
        return self.s[start:self.i]

    def digits(self, low, high):
        """A number in bounds, or None with the place unchanged."""
        start = self.i
        while self.i < len(self.s) and self.s[self.i] in "0123456789":
            self.i += 1
        value = self.s[start:self.i].lstrip("0") or "0"
        if self.i > start and len(value) <= 10 and low <= int(value) <= high:
            return int(value)
        self.i = start
        return None

    def signed(self, low, high, least):
        start = self.i
        if self.take("-"):
            n = self.digits(low, least)
            if n is None:
                self.i = start
                return None
            return -n
        return self.digits(low, high)

    def layer(self):
        return self.digits(1, 32767)

    def signed_layer(self):
        return self.signed(1, 32767, 32767)

    def multiplier(self):
        n = self.digits(0, 2147483647)
        n = 1 if n is None else n
        signs = "'" + CURLY if self.on("curly_primes") else "'"
        return -n if any(map(self.take, signs)) else n

    def braces(self, element):
        """The elements between braces, or None with the place unchanged."""
        start = self.i
        if not self.take("{"):
            return None
        self.spaces()
        found = []
        e = element()
        while e is not None:
            found.append(e)
            back = self.i
            self.spaces()
            if not self.take(","):
                self.i = back
                break
            self.spaces()
            e = element()
            if e is None:
                self.i = back
        self.spaces()
        if self.take("}"):
            return found
        self.i = start
        return None

    def constraint(self):
        a = self.names()
        if not a:
            return None
        for sign in ("->", "<>"):
            back = self.i
            self.spaces()
            if self.take(sign):
                self.spaces()
                b = self.names()
                if b:
                    return (sign, a, b)
            self.i = back
        return ("", a)

    def element(self):
        start = self.i
        i = self.signed_layer()
        if i is not None and self.take(".."):
            j = self.signed_layer()
            if j is not None:
                return (i, j)
        self.i = start
        if self.on("hsc1_layer_ranges"):
            i = self.layer()
            if i is not None and self.take("-"):
                j = self.layer()
                if j is not None:
                    return (i, j)
            self.i = start
        i = self.signed_layer()
        return None if i is None else (i,)

    def contents(self):
        start = self.i
        if self.on("layer_sets"):
            elements = self.braces(self.element)
            if elements is not None:
                return ("set", self.span(start, self.i), elements)
        i = self.layer()
        if i is None:
            return None
        back = self.i
        if self.take("-"):
            j = self.layer()
            if j is not None:
                return ("range", min(i, j), max(i, j))
        self.i = back
        return ("single", i)

    def constraints(self):
        start = self.i
        if not self.on("transform_constraints"):
            return None
        found = self.braces(self.constraint)
        return None if found is None else (self.span(start, self.i), found)

    def named(self, kind, **fields):
        start = self.i
        name = self.names()
        family = self.span(start, self.i)
        constraints = self.constraints()
        return Node(kind, family=family, name=name, constraints=constraints, number=self.multiplier(), **fields)

    def node(self):
        start = self.i
        if self.take("."):
            return Node(PAUSE)
        if self.on("megaminx"):
            for word, kind in MEGAMINX.items():
                if self.take(word):
                    return Node(kind)
        if self.on("generalized_rotations") and self.take("@"):
            return self.named(ROTATION)
        for prefix, kind in (("!", MACRO), ("&", SIMULTANEOUS), ("^", NISS), ("", SIMPLE)):
            if self.take(prefix + "("):
                inside = self.list()
                if self.take(")"):
                    return Node(kind, lists=[inside], number=self.multiplier())
                self.i = start
        if self.take("["):
            a = self.list()
            for sign, kind in ((",", COMMUTATOR), (":", CONJUGATE)):
                if self.take(sign):
                    b = self.list()
                    if self.take("]"):
                        return Node(kind, lists=[a, b], number=self.multiplier())
                    break
            self.i = start
        tilde = self.on("inverted_layers") and self.take("~")
        layers = self.contents()
        if self.i < len(self.s) and family_char(self.s[self.i]):
            return self.named(MOVE, tilde=tilde, layers=layers)
        self.i = start
        if self.on("sq1"):
            if self.take("/"):
                return Node(SLASH)
            if self.take("("):
                self.spaces()
                u = self.signed(0, 2147483647, 2147483648)
                self.spaces()
                if u is not None and self.take(","):
                    self.spaces()
                    d = self.signed(0, 2147483647, 2147483648)
                    self.spaces()
                    if d is not None and self.take(")"):
                        return Node(PAIR, number=u, d=d)
        self.i = start
        return None

    def list(self):
        self.spaces()
        nodes = []
        n = self.node()
        while n is not None:
            nodes.append(n)
            back = self.i
            if not self.spaces():
                break
            n = self.node()
            if n is None:
                self.i = back
        self.spaces()
        return nodes


def check_text(text):
    """Raises Refused 1 and 2."""
    if len(text) > MOST_TEXT:
        raise Refused(1)
    try:
        text.decode("utf-8")
    except UnicodeDecodeError:
        raise Refused(2) from None


def check_nesting(text):
    """Raises Refused 3."""
    level = 0
    for b in text:
        level += (b in b"([") - (b in b")]")
        if level > 64:
            raise Refused(3)


def read(text, features):
    """The nodes of a text; raises Refused 1 to 4."""
    check_text(text)
    check_nesting(text)
    r = Reader(text, features)
    nodes = r.list()
    if r.i < len(r.s):
        raise Refused(4)
    return nodes


def count_records(nodes):
    return sum(1 + sum(count_records(l) for l in n.lists) for n in nodes)


def count(nodes):
    """How many steps a list unrolls into. A NISS group counts 0, whatever it holds, and so does a group of multiplier 0; a leaf is one step, with
    multiplier 0 too. Where no NISS group is reached this is the length of the unrolled list."""
    total = 0
    for n in nodes:
        if not n.lists:
            total += 1
        elif n.kind != NISS and n.number:
            c = [count(l) for l in n.lists]
            total += abs(n.number) * {COMMUTATOR: 2 * sum(c), CONJUGATE: 2 * c[0] + c[-1]}.get(n.kind, c[0])
    return total


def stored_count(n):
    """Gives the count field of a record: its own steps, repeats included, capped at 4,294,967,296."""
    return min(count([n]), CAP)


def fields_of(n):
    """The fields of one record; those that it does not use are left out."""
    fields = {"kind": n.kind, "tilde": int(n.tilde), "constrained": int(n.constraints is not None), "count": stored_count(n)}
    for name, nodes in zip(("first", "second"), n.lists):
        fields[name] = count_records(nodes)
    if n.kind not in (PAUSE, SLASH, RPP, RMM, DPP, DMM):
        fields["number"] = n.number
    fields["family"], fields["family_size"] = n.family
    if n.constraints:
        fields["constraints"], fields["constraints_size"] = n.constraints[0]
    if n.kind == PAIR:
        fields["d"] = n.d
    elif n.layers:
        fields["form"] = {"single": 1, "range": 2, "set": 3}[n.layers[0]]
        if n.layers[0] == "set":
            fields["set"], fields["set_size"] = n.layers[1]
        else:
            fields["d"] = n.layers[1] << 16 | n.layers[-1]
    return fields


def packed(fields):
    """The bytes of a record with these fields, whatever they are; all others are 0."""
    assert fields.keys() <= dict(FIELDS).keys(), fields
    bits = 0
    for name, size in FIELDS:
        bits = bits << size | fields.get(name, 0) & (1 << size) - 1
    return bits.to_bytes(RECORD, "big")


def record(n):
    """The bytes of one record."""
    return packed(fields_of(n))


def pack(nodes):
    return b"".join(record(n) + b"".join(pack(l) for l in n.lists) for n in nodes)


def unpack(data):
    """The fields of one record, as a dictionary; `number` and `d` are signed."""
    bits = int.from_bytes(data, "big")
    fields = {}
    for name, size in reversed(FIELDS):
        fields[name] = bits & (1 << size) - 1
        bits >>= size
    for name in ("number", "d"):
        fields[name] -= (fields[name] >> 31) << 32
    return fields


def used_fields(f):
    """The fields that a record of its kind and forms uses; all others are to be 0."""
    kind = f["kind"]
    every = {"kind", "count"}
    if kind < COMMUTATOR:
        return every | {"first", "number"}
    if kind < ROTATION:
        return every | {"first", "second", "number"}
    if kind == PAIR:
        return every | {"number", "d"}
    if kind not in (ROTATION, MOVE):
        return every
    used = every | {"constrained", "number", "family_size"}
    if f["family_size"]:
        used.add("family")
    if f["constrained"]:
        used |= {"constraints", "constraints_size"}
    if kind == MOVE:
        used |= {"tilde", "form"} | {0: set(), 1: {"d"}, 2: {"d"}, 3: {"set", "set_size"}}[f["form"]]
    return used


class Tree:
    """The nodes of a packed tree over a text; raises Refused 6 where it is not well formed."""

    def __init__(self, text, tree):
        self.text = text
        self.tree = tree
        self.need(len(tree) % RECORD == 0)
        self.nodes = self.list(0, len(tree) // RECORD, 0)

    def need(self, fact):
        if not fact:
            raise Refused(6)

    def part(self, f, name):
        a, size = f[name], f[name + "_size"]
        self.need(a + size <= len(self.text))
        return (a, size), self.text[a:a + size]

    def read_part(self, part, rule):
        """A layer set or a constraint set, which takes the whole part under all features."""
        try:
            r = Reader(part, MAXIMAL)
        except UnicodeDecodeError:
            raise Refused(6) from None
        found = r.braces(rule(r))
        self.need(found is not None and r.i == len(r.s))
        return found

    def list(self, at, end, depth):
        nodes = []
        while at < end:
            f = unpack(self.tree[RECORD * at:RECORD * (at + 1)])
            self.need(f["kind"] <= DMM)
            used = used_fields(f)
            self.need(all(not f[name] for name, _ in FIELDS if name not in used))
            if f["kind"] >= ROTATION:
                nodes.append(self.counted(self.leaf(f), f))
                at += 1
                continue
            middle = at + 1 + f["first"]
            last = middle + f["second"]
            self.need(depth < DEEPEST and last <= end and f["number"] != LEAST)
            lists = [self.list(at + 1, middle, depth + 1)]
            if f["kind"] >= COMMUTATOR:
                lists.append(self.list(middle, last, depth + 1))
            nodes.append(self.counted(Node(f["kind"], lists=lists, number=f["number"]), f))
            at = last
        return nodes

    def counted(self, n, f):
        """Gives the node if its record stores its count, which is asked inside NISS groups and groups of multiplier 0 too."""
        self.need(f["count"] == stored_count(n))
        return n

    def leaf(self, f):
        kind = f["kind"]
        if kind == PAIR:
            return Node(kind, number=f["number"], d=f["d"])
        if kind not in (ROTATION, MOVE):
            return Node(kind)
        self.need(f["number"] != LEAST)
        family, name = self.part(f, "family")
        try:
            name = name.decode("utf-8")
        except UnicodeDecodeError:
            raise Refused(6) from None
        self.need(all(map(family_char, name)) and (name or kind == ROTATION))
        constraints = None
        if f["constrained"]:
            span, part = self.part(f, "constraints")
            constraints = (span, self.read_part(part, lambda r: r.constraint))
        return Node(kind, tilde=bool(f["tilde"]), layers=self.layers(f), family=family, name=name, constraints=constraints, number=f["number"])

    def layers(self, f):
        low, high = f["d"] >> 16 & 0xFFFF, f["d"] & 0xFFFF
        if f["form"] == 0:
            return None
        if f["form"] == 3:
            span, part = self.part(f, "set")
            return ("set", span, self.read_part(part, lambda r: r.element))
        self.need(1 <= low <= high <= 32767)
        if f["form"] == 2:
            return ("range", low, high)
        self.need(low == high)
        return ("single", low)


def well_formed(text, tree):
    try:
        Tree(text, tree)
    except Refused:
        return False
    return True


UNDONE = {RPP: RMM, RMM: RPP, DPP: DMM, DMM: DPP}


def undo(n):
    if n.kind == PAIR:
        if LEAST in (n.number, n.d):
            raise Refused(8)
        return n.copy(number=-n.number, d=-n.d)
    if n.kind in UNDONE:
        return n.copy(kind=UNDONE[n.kind])
    return n if n.kind in (PAUSE, SLASH) else n.copy(number=-n.number)


def inverse(nodes):
    return [undo(n) for n in reversed(nodes)]


def deep_inverse(nodes):
    out = []
    for n in reversed(nodes):
        if n.kind == NISS:
            raise Refused(7)
        if n.kind == COMMUTATOR:
            out.append(n.copy(lists=n.lists[::-1]))
        elif n.kind == CONJUGATE:
            out.append(n.copy(lists=[n.lists[0], deep_inverse(n.lists[1])]))
        elif n.lists:
            out.append(n.copy(lists=[deep_inverse(n.lists[0])]))
        else:
            out.append(undo(n))
    return out


def show_multiplier(m):
    return ("" if abs(m) == 1 else str(abs(m))) + ("'" if m < 0 else "")


def show(n):
    if n.kind == PAUSE:
        return "."
    if n.kind == SLASH:
        return "/"
    if n.kind == PAIR:
        return f"({n.number}, {n.d})"
    if n.kind in UNDONE:
        return {v: k for k, v in MEGAMINX.items()}[n.kind]
    end = show_multiplier(n.number)
    if n.kind in (COMMUTATOR, CONJUGATE):
        return "[" + show_list(n.lists[0]) + (", " if n.kind == COMMUTATOR else ": ") + show_list(n.lists[1]) + "]" + end
    if n.lists:
        return {SIMPLE: "", MACRO: "!", SIMULTANEOUS: "&", NISS: "^"}[n.kind] + "(" + show_list(n.lists[0]) + ")" + end
    front = "@" if n.kind == ROTATION else "~" * n.tilde
    if n.layers and n.layers[0] == "single":
        front += str(n.layers[1])
    elif n.layers and n.layers[0] == "range":
        front += f"{n.layers[1]}-{n.layers[2]}"
    elif n.layers:
        front += "{" + ",".join("..".join(map(str, e)) for e in n.layers[2]) + "}"
    braces = "{" + ",".join(e[1] + e[0] + e[2] if e[0] else e[1] for e in n.constraints[1]) + "}" if n.constraints else ""
    return front + n.name + braces + end


def show_list(nodes):
    return " ".join(map(show, nodes))


def repeated(n, inverted):
    """Gives what a group repeats: its lists with their directions, in order."""
    d = inverted != (n.number < 0)
    if n.kind == COMMUTATOR:
        a, b = n.lists[::-1] if d else n.lists
        return [(a, False), (b, False), (a, True), (b, True)]
    if n.kind == CONJUGATE:
        return [(n.lists[0], False), (n.lists[1], d), (n.lists[0], True)]
    return [(n.lists[0], d)]


def unroll(nodes, inverted=False):
    """The unrolled list; raises Refused 7 or 8."""
    unroll_check(nodes, inverted)
    return steps(nodes, inverted)


def steps(nodes, inverted):
    """Gives the unrolled list where nothing is refused. A group that counts 0 is passed over: in 64 conjugates with nothing in them that saves 2^64 visits."""
    out = []
    for n in reversed(nodes) if inverted else nodes:
        if not n.lists:
            out.append(undo(n) if inverted else n)
        elif count([n]):
            out += [step for l, d in repeated(n, inverted) for step in steps(l, d)] * abs(n.number)
    return out


def unroll_check(nodes, inverted=False, known=None):
    """Raises the refusal that unrolling meets first: a list is looked at once in each direction."""
    known = {} if known is None else known
    if (id(nodes), inverted) in known:
        return
    for n in reversed(nodes) if inverted else nodes:
        if n.kind == NISS:
            raise Refused(7)
        if not n.lists:
            undo(n) if inverted else None
        elif n.number:
            for l, d in repeated(n, inverted):
                unroll_check(l, d, known)
    known[id(nodes), inverted] = True


def step_at(nodes, k, inverted=False):
    """Entry k of the unrolled list, found by counts; k is below them."""
    for n in reversed(nodes) if inverted else nodes:
        c = count([n])
        if k >= c:
            k -= c
            continue
        if not n.lists:
            return undo(n) if inverted else n
        k %= c // abs(n.number)
        for l, d in repeated(n, inverted):
            if k < count(l):
                return step_at(l, k, d)
            k -= count(l)
    raise IndexError


def resolve(i, layers, negatives):
    if abs(i) > layers or i < 0 and not negatives:
        return None
    return i if i > 0 else layers + 1 + i


def given_ranges(n, layers, negatives):
    """The simplified layer ranges of a move's prefix without its tilde."""
    found = []
    if n.layers is None or n.layers[0] != "set":
        low, high = (1, 1) if n.layers is None else (n.layers[1], n.layers[-1])
        if low <= layers:
            found.append((low, min(high, layers)))
    else:
        for e in n.layers[2]:
            if len(e) == 1:
                i = resolve(e[0], layers, negatives)
                if i is not None:
                    found.append((i, i))
                continue
            if not negatives and min(e) < 0:
                continue
            if e[0] > layers and e[1] > layers or e[0] < -layers and e[1] < -layers:
                continue
            ends = [resolve(i, layers, negatives) or (layers if i > 0 else 1) for i in e]
            found.append((min(ends), max(ends)))
    out = []
    for low, high in sorted(found):
        if out and low <= out[-1][1] + 1:
            out[-1] = (out[-1][0], max(out[-1][1], high))
        else:
            out.append((low, high))
    return out


def runs(layers):
    """Gives a set of layers as ranges: each begins and ends where the layer next to it is not in the set."""
    first = sorted(i for i in layers if i - 1 not in layers)
    last = sorted(i for i in layers if i + 1 not in layers)
    return list(zip(first, last))


def ranges(n, layers, negatives):
    """The simplified layer ranges of a move. With a tilde: of the layers from 1 to the last that the same prefix without it does not give."""
    found = given_ranges(n, layers, negatives)
    if not n.tilde:
        return found
    given = {i for low, high in found for i in range(low, high + 1)}
    return runs(set(range(1, layers + 1)) - given)


# The entries that take a text and a tree follow. Each gives what it writes (bytes), or raises Refused; the caller calls `lend`.


@functools.lru_cache(4)
def opened(text, tree):
    """The nodes of a tree; raises Refused 1, 2 or 6. Nobody changes them, so those of the last calls are kept."""
    check_text(text)
    return Tree(text, tree).nodes


def lend(written, room, size=1):
    """Gives what an entry writes, or raises Refused 5 where it does not fit: `room` bytes have room for room // size entries."""
    if len(written) // size > room // size:
        raise Refused(5)
    return written


def inv(text, tree):
    return pack(inverse(opened(text, tree)))


def inv_deep(text, tree):
    return pack(deep_inverse(opened(text, tree)))


def display(text, tree):
    return show_list(opened(text, tree)).encode()


def count_steps(text, tree):
    nodes = opened(text, tree)
    unroll_check(nodes)
    n = count(nodes)
    if n > MOST_STEPS:
        raise Refused(9)
    return n


def flatten(text, tree, room=None):
    """Gives the unrolled list as records. Where the room is given, the count decides refusal 5, so that a long list need not be made."""
    n = count_steps(text, tree)
    if room is not None and RECORD * n > room:
        raise Refused(5)
    return pack(unroll(opened(text, tree)))


def seek_step(text, tree, place):
    if place >= count_steps(text, tree):
        raise Refused(10)
    return record(step_at(opened(text, tree), place))


def in_order(nodes):
    """Gives every node in the order of the records' numbers."""
    for n in nodes:
        yield n
        for l in n.lists:
            yield from in_order(l)


def record_at(nodes, number, kinds):
    found = list(in_order(nodes))
    if number >= len(found) or found[number].kind not in kinds:
        raise Refused(12)
    return found[number]


def simplify(text, tree, number, max_layer, negatives):
    """Gives the layer ranges of a move, four bytes for each."""
    nodes = opened(text, tree)
    if not 1 <= max_layer <= 32767:
        raise Refused(11)
    move = record_at(nodes, number, (MOVE,))
    return b"".join(i.to_bytes(2, "big") for r in ranges(move, max_layer, negatives) for i in r)


def family(text, tree, number):
    a, size = record_at(opened(text, tree), number, (MOVE, ROTATION)).family
    return text[a:a + size]


# Request 13: the undo view plays the shallow inverse, or the deep one from its printed form. Both are to play the same steps.


def meaning(n):
    """Gives what two steps are compared by, wherever their texts stand: kind, tilde, numbers, layer form and layers, family text, and the elements of the
    constraints, of which none differs from an empty set."""
    layers = n.layers and (n.layers[0], n.layers[2] if n.layers[0] == "set" else n.layers[1:])
    return n.kind, n.tilde, n.number, n.d, layers, n.name, n.constraints and n.constraints[1]


def shallow_view(text, tree):
    """The steps that the shallow inverse plays."""
    return [meaning(step) for step in unroll(inverse(opened(text, tree)))]


def deep_view(text, tree, features):
    """The steps that the deep inverse plays, printed and read back in the same setting; raises Refused 1 where the printed form is too long."""
    return [meaning(step) for step in unroll(read(display(text, inv_deep(text, tree)), features))]
