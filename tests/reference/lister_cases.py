#!/usr/bin/env python3
"""Compares the built lister with the one in Python (lister.py): lister_cases.py PROGRAM [SEED]. Prints how many inputs were run and each that differs."""
import random
import subprocess
import sys

import lister
import reading_vectors as made

WORD = b"m\n"


def filled(start, unit, end):
    """Gives a text of as many bytes as the lister takes, or a few less: as many units as fit between a start and an end."""
    return start + unit * ((lister.MOST_TEXT - len(start) - len(end)) // len(unit)) + end


def heavy():
    """Gives inputs over which a lister takes long, with names. The first is the worst one found for a lister that seeks each of 1,000 steps by itself and counts the
    contents of a group again at each level: the lists that are passed over have no step, a commutator is visited twice on the way in, and 31 of them are as many as
    4,294,967,295 steps allow."""
    empty = b"((((((())))))) "
    yield "empty groups, 64 deep", WORD + filled(b"[" * 31 + b"(" * 26, empty, b"R" + b")" * 26 + b",]" * 31)
    yield "empty commutators, 64 deep", WORD + filled(b"(" * 63, b"[,] ", b"R" + b")" * 62 + b")1000")
    yield "moves, 64 deep", WORD + filled(b"(" * 64, b"R ", b"R)1000" + b")" * 63)
    yield "moves, the last one sought", WORD + filled(b"(", b"R0 ", b"[R0, ()]')1000'")
    yield "groups, the last one sought", WORD + filled(b"", b"() ", b"(R U)500")
    yield "a long layer set", WORD + filled(b"({", b"1,", b"1}R)1000")
    yield "a long constraint set", WORD + filled(b"(R{", b"A,", b"A})1000'")


def fixed():
    for t in ("", "w", "m", "w\n", "m\n", "x\n", "W\n", "M\nR", "mm\nR", " m\nR", "m R", "m\r\nR", "\nm\nR", "wm\n", "m\n\n", "w\n[R: U2 F]'", "m\n[R: U2 F]'"):
        yield t.encode()
    # the marked items and the refusals
    for t in ("[R, U]", "[R, U]'", "(R U')2'", "(^(R))0", "^(R)0", "^(R)", "(-2147483648,0)", "((-2147483648,0))'", "(((-2147483648,0))')'", "R2147483647'", "R2147483648'",
              "((R)65535)65537", "((R)65536)65536", "((R)65535)65537 R", "(R)999", "(R)1000", "(R)1001", "(R)1000 U", "(()2147483647)2147483647'", "[(-2147483648,0): R]",
              "[R: (-2147483648,0)]", "[R: (-2147483648,0)]'", "(-2147483648,0) ^(R)", "(^(R) (0,-2147483648))'", "((0,-2147483648) ^(R))'", "~{1..3,-1}R{A->B,C<>D,E}3'",
              "ΓΔΘΛΞΠΣΦΨΩβδζθλξεηκμπτφψω2 Ω{β->γ} Ω{β->δ}", "R++ D-- (R-- D++)'", "@ @U' @{A}2", "{1-3,5}R", "{ 1 , 2 }R{ A -> B }", "00007R007", "R0 (U0)2", "3-3R", "[,] [:]0"):
        yield WORD + t.encode()
        yield b"w\n" + t.encode()
    for t in made.damaged():
        yield WORD + t
    # lengths and nesting
    for t in (b" " * 3072, b" " * 3073, b"R" * 3072, b"R" * 3073, b"R" * 3075, b"R " * 1536, b"R" * 70000, b"[,] " * 768, b"[:]" * 1024, b"R0 " * 1024, b"(" * 65, made.nested(64, b"R"),
              made.nested(65, b"R"), made.nested(64, b"R") * 2, b"(" * 60 + b"R " * 1400 + b")'" * 60, b"[R: " * 64 + b"U" + b"]" * 64,
              b"({" + b"1-3," * 764 + b"1}R)1000", b"(R{" + b"A" * 3050 + b"})1000'", b"(" + b"R2' " * 760 + b")1000"):
        yield WORD + t
    yield b"x\n" + b"R" * 4000
    yield b"w\n" + b"R " * 2000
    for _, data in heavy():
        yield data
    # neither `w` nor `m` has the curly primes (document 02, request 6)
    for t in ("R\u2019", "R\u2032", "[R: U2 F]\u2019", "(R U\u2032)2'", "R'\u2019", "\u2032", "R' U2' F"):
        yield WORD + t.encode()
        yield b"w\n" + t.encode()


def inputs():
    yield from fixed()
    for t in made.texts():
        yield random.choice((b"m\n", b"m\n", b"w\n")) + t.encode()
    for _ in range(150):
        yield random.choice((b"m\n", b"m\n", b"w\n")) + made.well_made(random.randrange(1, 6)).encode()


def main():
    random.seed(int(sys.argv[2]) if len(sys.argv) > 2 else 11)
    total = differ = longest = 0
    for data in inputs():
        expected = lister.lister(data)
        written = subprocess.run([sys.argv[1]], input=data, stdout=subprocess.PIPE, timeout=120).stdout
        total += 1
        longest = max(longest, len(written))
        if written != expected:
            differ += 1
            print("differs:", data[:200], "\n  wrote", written[:300], "\n  for  ", expected[:300])
    print(total, "inputs,", differ, "differ, longest output", longest)
    sys.exit(differ > 0)


if __name__ == "__main__":
    main()
