"""Reads texts with curly primes by the sentence of request 6 of document 02: with `curly_primes` on, a text is read as, with it off, the text in which an apostrophe replaces each curly sign,
and limits 1 and 3 and all offsets are those of the text as given.

notation.py has the other half, "admits both as `'` in a multiplier", in its rule for multipliers. Here that rule is never asked for a sign: the text is changed
before it is read, and the offsets are mapped afterwards. `read_both` compares the two.
"""
import notation as n


def straight(s):
    """Gives the characters of a text with an apostrophe for each sign."""
    return "".join("'" if c in n.CURLY else c for c in s)


def given_offsets(s):
    """Gives, for each offset of the straight text at which a character begins or the text ends, the offset in the text as given."""
    found, at, straight_at = {}, 0, 0
    for c in s:
        found[straight_at] = at
        at += len(c.encode())
        straight_at += len(straight(c).encode())
    found[straight_at] = at
    return found


def moved(node, given):
    """Gives a node of the straight text with its parts where the text as given has them."""

    def part(span):
        a, size = span
        return given[a], given[a + size] - given[a]

    layers = node.layers
    if layers and layers[0] == "set":
        layers = ("set", part(layers[1]), layers[2])
    constraints = node.constraints and (part(node.constraints[0]), node.constraints[1])
    return node.copy(family=part(node.family), layers=layers, constraints=constraints, lists=[[moved(m, given) for m in l] for l in node.lists])


def read_as_straight(text, features):
    """Gives the nodes by that sentence. It raises Refused 1, 2 and 3 by the text as given, and 4 by the straight text."""
    n.check_text(text)
    n.check_nesting(text)
    s = text.decode()
    given = given_offsets(s)
    return [moved(node, given) for node in n.read(straight(s).encode(), features - {"curly_primes"})]


def told(read, text, features):
    """Gives all that a reading tells: its records and what they print, or the number of its refusal."""
    try:
        nodes = read(text, features)
    except n.Refused as r:
        return r.number
    return n.pack(nodes), n.show_list(nodes)


def read_both(text, features):
    """Asserts that both readings are the same; says whether the text is accepted."""
    assert "curly_primes" in features
    direct, by_sentence = told(n.read, text, features), told(read_as_straight, text, features)
    assert direct == by_sentence, (text[:200], features, direct, by_sentence)
    return not isinstance(direct, int)
