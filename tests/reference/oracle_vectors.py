"""Makes the stored vectors whose answers are the Rust's, from tests/oracle/sample.tsv, which tests/oracle/compare.rs made.

Of each text the cases ask for the listing (printed text, shallow inverse, number of steps, steps), for the deep inverse as text (letter `x`) and for layer
ranges. The reference makes only the tree that a call takes, and with it says which moves have a tilde; it makes no answer. The Rust's `simplify` knows no tilde:
where a move has one, the sample has the ranges of the prefix without it, and the answer is the layers that they leave (document 02, request 3), found by `left`.
"""
import os
import re

import notation as n
from lines import refused, spelled, value

SAMPLE = os.path.join(os.path.dirname(os.path.abspath(__file__)), "..", "oracle", "sample.tsv")
SHOWN = 1000


def rows():
    with open(SAMPLE, encoding="utf-8", newline="\n") as f:
        for line in f.read().split("\n"):
            if line and not line.startswith("# "):
                yield line.split("\t")


def field(answer):
    return int(answer[8:]) if answer.startswith("refused ") else None


def listed(data, printed, inverse, steps):
    """Gives the case of the listing. The steps of the sample are separated by spaces; inside a step only a pair has one, after its comma."""
    out = ["text " + printed, "inverse " + inverse]
    if field(steps) is None:
        count, _, shown = steps.partition(" ")
        found = re.split("(?<!,) ", shown) if shown else []
        assert len(found) == int(count), steps
        out += ["steps " + count] + [f"{k} {step}" for k, step in enumerate(found[:SHOWN])]
    else:
        out.append("steps " + steps)
    written = "".join(line + "\n" for line in out).encode()
    yield f"o{len(written) + 3:06x}{0:016x}{0:08x}0{spelled(b'm' + bytes([10]) + data)}|", value(len(written), written)


def left(pairs, layers):
    """Gives the layers that no range has, as ranges, by a string with one character for each layer and a dot for each of these."""
    axis = ["."] * layers
    for low, high in pairs:
        axis[low - 1:high] = "x" * (high - low + 1)
    return [(dots.start() + 1, dots.end()) for dots in re.finditer(r"\.+", "".join(axis))]


def ranged(data, nodes, case):
    """Gives the case of one move's layer ranges."""
    record, layers, negatives, found = (case + " ").split(" ")[:4]
    pairs = [tuple(map(int, part.split("-"))) for part in found.split(",") if part]
    if list(n.in_order(nodes))[int(record)].tilde:
        pairs = left(pairs, int(layers))
    written = b"".join(end.to_bytes(2, "big") for pair in pairs for end in pair)
    head = f"l{len(written) + 3:06x}{int(record):016x}{int(layers):08x}{negatives}"
    return f"{head}{spelled(data)}|{spelled(n.pack(nodes))}", value(len(pairs), written)


def lines():
    """Each case with the Rust's answer."""
    for text, printed, inverse, deep, steps, ranges in rows():
        data = text.encode()
        nodes = n.read(data, n.MAXIMAL)
        tree = spelled(n.pack(nodes))
        yield from listed(data, printed, inverse, steps)
        number = field(deep)
        answer = value(len(deep.encode()), deep.encode()) if number is None else refused(number)
        yield f"x{len(deep.encode()) + 3:06x}{0:016x}{0:08x}0{spelled(data)}|{tree}", answer
        for case in filter(None, ranges.split("; ")):
            yield ranged(data, nodes, case)
