#!/usr/bin/env python3
"""Counts the instructions of each call under callgrind, in two archives: instructions.py SRC BEFORE [SIZE], SRC the folder of the published Rust, BEFORE a checkout of
another commit with its archive; the archive after is this checkout's. A busy machine does not change them, unlike times (turns.py).

Prints a table of all operations on texts of so many bytes (64,000), then seeking the last place by depth, by groups to be passed over, and by what these hold: the whole call; what is left without the check of
text and tree; and what is left of that without counting, so that it is seeking alone (which has no function of its own in the archive: it is put into its caller).
At last seeking alone, the step that lies deepest in groups round groups. instructions.py SRC BEFORE levels prints only that."""
import os
import re
import subprocess
import sys

from turns import ROOT, program

OUT = os.path.join(ROOT, "target", "bench")
OPERATIONS = ("read", "read curly", "check", "display", "inv", "inv_deep", "flatten", "count", "seek", "seek last", "ranges", "ranges with a tilde")
KINDS = ("moves", "groups", "sets", "constraints", "square-1", "megaminx")
PASSED = (
    ("levels round 4,000 moves", (0, 8, 16, 32, 64)),
    ("groups of three records", (500, 1000, 2000, 4000, 8000)),
    ("moves in each of 20 groups", (100, 200, 400, 800, 1500)),
)

# Groups round groups, each in the same list of the one outside it: what opens one, the innermost moves, what closes it, and how many steps stand before in a level.
NESTED = (
    ("plain groups", "(", "R U F", ")", 0),
    ("inverted groups", "(", "R U F", ")'", 0),
    ("first lists of conjugates", "[", "R U F", ": D L]", 0),
    ("second lists of conjugates", "[R U: ", "F D", "]", 2),
    ("second lists of inverted conjugates", "[R U: ", "F D", "]'", 2),
    ("first lists of commutators", "[", "R U F", ", D L]", 0),
    ("second lists of commutators", "[R U, ", "F D", "]", 2),
    ("first lists of inverted commutators", "[", "R U F", ", D L]'", 2),
)
LEVELS = (1, 8, 28, 32, 64)


def driver(checkout, name):
    """calls.c, linked with the archive of a checkout."""
    os.makedirs(OUT, exist_ok=True)
    built = os.path.join(OUT, name)
    archive = os.path.join(checkout, "target", "staticlib", "libhypuz_notation.a")
    source = os.path.join(ROOT, "bench", "calls.c")
    subprocess.run(["cc", "-std=c11", "-Wall", "-Wextra", "-Werror", "-O1", "-g", "-I", os.path.join(checkout, "include"), source, archive, "-o", built], check=True)
    return built


def count(driver, operation, text):
    """The instructions of one call; None where the text has nothing for it."""
    words = ["valgrind", "--tool=callgrind", "--toggle-collect=measured", "--callgrind-out-file=/dev/null", driver, operation]
    run = subprocess.run(words, input=text, stdout=subprocess.PIPE, stderr=subprocess.PIPE)
    if run.returncode:
        return None
    return int(re.search(rb"Collected : (\d+)", run.stderr).group(1))


def seeking_alone(driver, place, text):
    whole, counted = count(driver, f"seek {place}", text), count(driver, "count", text)
    return None if whole is None else whole - counted


def levels(drivers):
    """Seeking alone, by levels. A cell is left out where the count is refused: what is nested in commutators doubles at each level."""
    print("\nSeeking alone, instructions, before and after.\n\n| groups in |" + "".join(f" {n} level{'s' * (n > 1)} |" for n in LEVELS) + "\n|---|" + "---|" * len(LEVELS))
    for what, start, inner, end, before in NESTED:
        cells = []
        for n in LEVELS:
            found = [seeking_alone(d, before * n, (start * n + inner + end * n).encode()) for d in drivers]
            cells.append("" if None in found else f"{found[0]}, {found[1]}, **{found[1] / found[0]:.2f}**")
        print(f"| {what} | " + " | ".join(cells) + " |", flush=True)


def main():
    src, other = sys.argv[1], sys.argv[2]
    drivers = [driver(other, "calls_before"), driver(ROOT, "calls_after")]
    if sys.argv[3:] == ["levels"]:
        return levels(drivers)
    size = int(sys.argv[3]) if len(sys.argv) > 3 else 64000
    texts = program(src, ROOT)
    text = lambda kind, n: subprocess.run([texts, "text", kind, str(n)], check=True, stdout=subprocess.PIPE).stdout
    print(f"Thousands of instructions of a call on texts of {size} bytes, before and after; x is after divided by before.\n")
    print("| operation |" + "".join(f" {kind} |" for kind in KINDS) + "\n|---|" + "---|" * len(KINDS))
    made = {kind: text(kind, size) for kind in KINDS}
    for operation in OPERATIONS:
        cells = []
        for kind in KINDS:
            found = [count(d, operation, made[kind]) for d in drivers]
            cells.append("" if None in found else f"{found[0] / 1000:.0f}, {found[1] / 1000:.0f}, **{found[1] / found[0]:.2f}**")
        print(f"| {operation} | " + " | ".join(cells) + " |", flush=True)
    print("\nSeeking the last place, thousands of instructions, before and after; x is after divided by before.\n")
    print("| of | whole call | without the check | without counting |\n|---|---|---|---|")
    for kind, sizes in PASSED:
        for n in sizes:
            made = text(kind, n)
            whole, check, counted = ([count(d, operation, made) for d in drivers] for operation in ("seek last", "check", "count"))
            cells = [whole, [a - b for a, b in zip(whole, check)], [a - b for a, b in zip(whole, counted)]]
            shown = [f"{a / 1000:.1f}, {b / 1000:.1f}, **{b / a:.2f}**" for a, b in cells]
            print(f"| {n} {kind} | " + " | ".join(shown) + " |", flush=True)
    levels(drivers)


if __name__ == "__main__":
    main()
