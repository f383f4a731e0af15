#!/usr/bin/env python3
"""Times two archives in turns, on the same texts in the same minutes: turns.py SRC BEFORE [ROUNDS], SRC the folder of the published Rust, BEFORE a checkout of
another commit with its archive; the archive after is this checkout's. Of each call the best of all rounds is taken. Prints a table in Markdown, and the calls that
became slower or faster by more than a tenth, which a shared machine may do by itself: run it again before believing one cell."""
import os
import subprocess
import sys

HERE = os.path.dirname(os.path.abspath(__file__))
ROOT = os.path.dirname(HERE)


def program(src, checkout):
    built = subprocess.run([os.path.join(HERE, "build.sh"), src, checkout], check=True, stdout=subprocess.PIPE, text=True)
    return built.stdout.strip().split("\n")[-1]


def times(program):
    """Nanoseconds by operation, kind and size."""
    out = subprocess.run([program, "plain"], check=True, stdout=subprocess.PIPE, text=True).stdout
    rows = [line.split("\t") for line in out.splitlines()]
    return {tuple(row[:3]): float(row[3]) for row in rows}


def shown(ns):
    us = ns / 1000
    return f"{us:.3f}" if us < 1 else f"{us:.1f}" if us < 100 else f"{us:.0f}"


def table(before, after):
    """A row for each operation and kind; the sizes beside each other."""
    found = {}
    for operation, kind, size in before:
        found.setdefault((operation, kind), []).append(size)
    print("Microseconds of a call, best of all rounds; x is after divided by before.\n")
    print("| operation | of | size: before, after, x |\n|---|---|---|")
    for (operation, kind), sizes in found.items():
        cells = []
        for size in sizes:
            a, b = before[operation, kind, size], after[operation, kind, size]
            cells.append(f"{size}: {shown(a)}, {shown(b)}, **{b / a:.2f}**")
        print(f"| {operation} | {kind} | {'; '.join(cells)} |")


def moved(before, after):
    ratios = sorted((after[key] / before[key], " ".join(key)) for key in before)
    slower = [f"{name} {ratio:.2f}" for ratio, name in reversed(ratios) if ratio > 1.1]
    faster = [f"{name} {ratio:.2f}" for ratio, name in ratios if ratio < 0.9]
    print(f"\nSlower by more than a tenth: {', '.join(slower) or 'none'}.\n\nFaster: {', '.join(faster) or 'none'}.")


def main():
    src, other = sys.argv[1], sys.argv[2]
    rounds = int(sys.argv[3]) if len(sys.argv) > 3 else 3
    programs = [program(src, other), program(src, ROOT)]
    best = [{}, {}]
    for k in range(rounds):
        for side in (0, 1) if k % 2 == 0 else (1, 0):
            for key, ns in times(programs[side]).items():
                best[side][key] = min(ns, best[side].get(key, ns))
    table(*best)
    moved(*best)


if __name__ == "__main__":
    main()
