#!/usr/bin/env python3
"""Times two archives at eight places each in the program's memory: placements.py SRC BEFORE [OPERATION ..], SRC the folder of the published Rust, BEFORE a checkout of
another commit with its archive; the archive after is this checkout's; operations as in calls.c (read alone where none is given).

The same machine code was seen to take 22% longer by where its loops lie, and every change of the code moves all of it. turns.py times one place; the
median of eight tells what a change costs. Prints a table: medians in microseconds before and after, the second divided by the first, and the span of each."""
import os
import statistics
import subprocess
import sys

from turns import ROOT, program, shown

OUT = os.path.join(ROOT, "target", "bench")
KINDS = ("moves", "groups", "sets", "constraints", "square-1", "megaminx")
SIZES = (100, 3000, 64000)
PLACES = range(1, 129, 16)
ROUND = 1_500_000  # bytes of text in a round, about: some ten milliseconds of reading


def driver(checkout, name, pad):
    """calls.c, linked with the archive of a checkout after so many bytes."""
    built = os.path.join(OUT, name)
    archive = os.path.join(checkout, "target", "staticlib", "libhypuz_notation.a")
    source = os.path.join(ROOT, "bench", "calls.c")
    words = ["cc", "-std=c11", "-Wall", "-Wextra", "-Werror", "-O1", f"-DPAD={pad}", "-I", os.path.join(checkout, "include"), source, archive, "-o", built]
    subprocess.run(words, check=True)
    return built


def nanoseconds(driver, operation, text):
    calls = max(1, ROUND // (len(text) + 50))
    run = subprocess.run([driver, operation, str(calls)], input=text, stdout=subprocess.PIPE)
    return float(run.stdout) if run.returncode == 0 else None


def main():
    src, other = sys.argv[1], sys.argv[2]
    operations = sys.argv[3:] or ["read"]
    made = program(src, ROOT)
    texts = {(kind, size): subprocess.run([made, "text", kind, str(size)], check=True, stdout=subprocess.PIPE).stdout for kind in KINDS for size in SIZES}
    found = {}
    for pad in PLACES:
        drivers = [driver(other, "placed_before", pad), driver(ROOT, "placed_after", pad)]
        for operation in operations:
            for key, text in texts.items():
                for side in (0, 1):
                    found.setdefault((operation, *key, side), []).append(nanoseconds(drivers[side], operation, text))
    print("Microseconds of a call, median of eight places (least to most): before, after; x is after divided by before.\n")
    print("| operation | of |" + "".join(f" {size} bytes |" for size in SIZES) + "\n|---|---|" + "---|" * len(SIZES))
    for operation in operations:
        for kind in KINDS:
            cells = []
            for size in SIZES:
                sides = [found[operation, kind, size, side] for side in (0, 1)]
                if None in sides[0] + sides[1]:
                    cells.append("")
                    continue
                middles = [statistics.median(side) for side in sides]
                spans = [f"{shown(middle)} ({shown(min(side))} to {shown(max(side))})" for middle, side in zip(middles, sides)]
                cells.append(f"{spans[0]}, {spans[1]}, **{middles[1] / middles[0]:.2f}**")
            print(f"| {operation} | {kind} | " + " | ".join(cells) + " |", flush=True)


if __name__ == "__main__":
    main()
