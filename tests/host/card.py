#!/usr/bin/env python3
"""Compares the example of a host, examples/card.c, with cards made by the Python reference (tests/reference/notation.py): card.py PROGRAM..

The texts are those of the header's table of texts, which are so run over the archive, some that are refused each way that a text given on a
command line can be, and random ones. The card that README.md shows is compared too."""
import os
import random
import re
import subprocess
import sys

import header
import notation as n
import reading_vectors as made

FIRST = 12
TEXTS = ["", "R)", "[R: U2 F]'", "^(R)", "(^(R))0", "(-2147483648,0)", "((-2147483648,0))'", "((R)65536)65536", "((R)65535)65537", "(" * 65, "(R)13 U", "~{1..3,-1}R{A->B}2' {2,4}U",
         "Rw M 3Rw 2-9r x", "R1  (U)02\nF\t.", "[[R,U],[R,U]]", "ΓΩ_aω{β->θ}2", "R’", "R\xff"]


def sentences():
    """Gives the sentences of the header by the number of the refusal."""
    numbers = {"HYPUZ_REFUSED_" + name: value for name, value in header.enumerators("HYPUZ_REFUSED_").items()}
    return {numbers[name]: text for name, text in re.findall(r'case (HYPUZ_REFUSED_\w+): return "(.*)";', header.HEADER)}


SENTENCES = sentences()


def line(label, made):
    """Gives a line of the card: a label and what `made` gives, or the sentence of its refusal."""
    try:
        return f"{label}: {made()}"
    except n.Refused as refused:
        return f"{label}: refused {refused.number}: {SENTENCES[refused.number]}"


def show(text, tree):
    return n.display(text, tree).decode()


def layers(text, tree, number, node, count):
    """Gives the line of a move's layers."""
    try:
        found = n.simplify(text, tree, number, count, True)
    except n.Refused as refused:
        return f"layers: refused {refused.number}: {SENTENCES[refused.number]}"
    ends = [int.from_bytes(found[i:i + 2], "big") for i in range(0, len(found), 2)]
    return f"layers of {node.name}:" + "".join(f" {low}-{high}" for low, high in zip(ends[::2], ends[1::2]))


def card(letter, text, place, count):
    """Gives the card of a text, and the status that the program ends with."""
    try:
        nodes = n.read(text, header.SETTINGS[letter])
    except n.Refused as refused:
        return f"text: refused {refused.number}: {SENTENCES[refused.number]}\n", 1
    tree = n.pack(nodes)
    out = [line("text", lambda: show(text, tree)), line("inverse", lambda: show(text, n.inv(text, tree))), line("deep inverse", lambda: show(text, n.inv_deep(text, tree))),
           line("steps", lambda: n.count_steps(text, tree))]
    steps = int(out[-1].split()[1]) if "refused" not in out[-1] else 0
    out += [line(f"step {k}", lambda: show(text, n.seek_step(text, tree, k))) for k in range(min(steps, FIRST))]
    out.append(line(f"place {place}", lambda: show(text, n.seek_step(text, tree, place))))
    moves = [(number, node) for number, node in enumerate(n.in_order(nodes)) if node.kind == n.MOVE]
    out += [layers(text, tree, number, node, count) for number, node in moves[:FIRST]]
    return "\n".join(out) + "\n", 0


def shown():
    """Gives the call that README.md shows, and the card that it shows for it."""
    readme = open(os.path.join(header.ROOT, "README.md"), encoding="utf-8").read()
    letter, text, place, count, written = re.search(r'^examples/run.sh (\w) "(.*)" (\d+) (\d+)\n```\n```\n(.*?)```', readme, re.M | re.S).groups()
    return (letter, text.encode(), int(place), int(count)), written


def main():
    random.seed(10)
    texts = [text.encode() for text, _ in header.rows()] + [t.encode("latin-1" if "\xff" in t else "utf-8") for t in TEXTS]
    texts += [made.well_made(random.randrange(1, 6)).encode() for _ in range(150)]
    call, written = shown()
    total, differ = 1, int(card(*call)[0] != written)
    for program in sys.argv[1:]:
        for text in texts:
            for letter in "wm":
                place, count = random.choice((0, 1, 3, 4294967294, 4294967295)), random.choice((0, 1, 3, 5, 32767, 32768))
                wanted = card(letter, text, place, count)
                ran = subprocess.run([program, letter, text, str(place), str(count)], stdout=subprocess.PIPE)
                total += 1
                if (ran.stdout.decode(), ran.returncode) != wanted:
                    differ += 1
                    print("differs:", letter, text[:100], place, count, "\n  wrote", ran.stdout[:300], ran.returncode, "\n  for  ", wanted)
    print(total, "cards,", differ, "differ")
    sys.exit(bool(differ) or total == 1)


if __name__ == "__main__":
    main()
