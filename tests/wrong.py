#!/usr/bin/env python3
"""Tells which wrong programs the stored vectors tell. Each edit makes the sources of a crate wrong, and the prover refuses them; here the program crates/vectors is compiled
over them without any proof, at -O2, and run on its stored cases. What it writes is held to the stored answers, line by line.

wrong.py [--seconds S] [FOLDER..]    folders of edits, searched through; without one, crates/*/must-fail and tests/wrong

An edit is a file NAME.edit in crates/CRATE/must-fail or tests/wrong/CRATE, in the format of `rt must-fail`. Only what it edits below src/ is in the program, so an edit of
specs/ alone is passed over. A program may run for S seconds, 10 if not said. A program whose index or sum is out of bounds stops.

The exit status is 1 if an edit could not be applied or compiled, if one of tests/wrong is told by none, or if the sources as they stand differ from the stored answers;
otherwise 0."""
import argparse
import collections
import os
import resource
import signal
import subprocess
import sys
import time

from unproved import CRATES, ROOT, TOOLS, VECTORS, Failed, compiled, copied, tools

OUT = os.path.join(ROOT, "target", "wrong")
SOURCES = os.path.join(OUT, "crates")
PROGRAM = os.path.join(OUT, "program")
STACK = 8 << 20  # bytes, the limit of most shells, which rt leaves as it is
SPACE = 8  # how many times what is expected a program may write

TOLD = ("told", "stops", "endless")  # the kinds of verdict by which the cases tell a wrong program

Edit = collections.namedtuple("Edit", "name crate pairs")
Verdict = collections.namedtuple("Verdict", "kind text")


def found(folders):
    """Finds the edits below the folders: the path of each, with its crate."""
    for top in folders:
        for folder, below, files in os.walk(top):
            below.sort()
            parts = os.path.abspath(folder).split(os.sep)
            crate = parts[-2] if parts[-1] == "must-fail" else parts[-1]
            for file in sorted(files):
                if file.endswith(".edit"):
                    yield os.path.join(folder, file), crate


def contents(path):
    """Reads a text file."""
    with open(path, encoding="utf-8", newline="") as f:
        return f.read()


def write(texts):
    """Writes text files, given by path."""
    for path, text in texts.items():
        with open(path, "w", encoding="utf-8", newline="") as f:
            f.write(text)


def lines(path):
    """Reads the whole lines of a file, as bytes."""
    with open(path, "rb") as f:
        return f.read().split(b"\n")[:-1]


def read(path, crate):
    """Reads an edit as rt does: a `file:` line holds for the pairs of `old:` and `new:` lines after it, and any other line is passed over."""
    pairs, file, old = [], "", ""
    for line in contents(path).split("\n"):
        if line.startswith("file: "):
            file = line.removeprefix("file: ")
        elif line.startswith("old: "):
            old = line.removeprefix("old: ")
        elif line.startswith("new:"):
            pairs.append((file, old, line.removeprefix("new:").removeprefix(" ")))
            old = ""
    return Edit(f"{crate}/{os.path.basename(path).removesuffix('.edit')}", crate, pairs)


def edited(edit):
    """Applies an edit: the new texts of the files that it changes below src/, by path in the copy. Each old text is to be in its file once."""
    if not edit.pairs:
        raise Failed("it has no pair of old and new")
    texts = {}
    for file, old, new in edit.pairs:
        path = os.path.join(SOURCES, edit.crate, file)
        if file.startswith("src/"):
            if ".." in file.split("/") or not os.path.isfile(path):
                raise Failed(f"there is no {file} in {edit.crate}")
            text = texts.get(path) or contents(path)
            times = text.count(old) if old else 0
            if times != 1:
                raise Failed(f"an old text is in {file} {times} times, not once")
            texts[path] = text.replace(old, new)
    return texts


def ran(seconds):
    """Runs the program on the stored cases as rt does, under the kit's loader: the lines that it wrote, and its status, or None if it does not end in time or writes too much."""
    most = SPACE * os.path.getsize(os.path.join(VECTORS, "stdout"))

    def limit():
        resource.setrlimit(resource.RLIMIT_STACK, (STACK, resource.getrlimit(resource.RLIMIT_STACK)[1]))
        resource.setrlimit(resource.RLIMIT_FSIZE, (most, most))
        resource.setrlimit(resource.RLIMIT_CORE, (0, 0))

    command = [os.path.join(TOOLS, "lib", "ld-linux-x86-64.so.2"), "--library-path", os.path.join(TOOLS, "lib"), PROGRAM]
    wrote = os.path.join(OUT, "stdout")
    with open(os.path.join(VECTORS, "stdin"), "rb") as given, open(wrote, "wb") as to:
        try:
            status = subprocess.run(command, stdin=given, stdout=to, stderr=subprocess.DEVNULL, preexec_fn=limit, timeout=seconds).returncode
        except subprocess.TimeoutExpired:
            status = None
    return lines(wrote), None if status == -signal.SIGXFSZ else status


def compare(wanted, wrote, status, seconds):
    """Says how the cases tell a program, by the lines that it wrote and its status."""
    wrong = [k for k, (a, b) in enumerate(zip(wanted, wrote)) if a != b]
    after = f"after {len(wrote):,} lines, {len(wrong):,} of them wrong"
    if status is None:
        return Verdict("endless", f"does not end in {seconds:g} seconds, {after}")
    if status:
        how = signal.Signals(-status).name if status < 0 else f"status {status}"
        return Verdict("stops", f"stops on the way with {how}, {after}")
    told = len(wrong) + abs(len(wanted) - len(wrote))
    if not told:
        return Verdict("none", "told by none")
    first = wrong[0] if wrong else min(len(wanted), len(wrote))
    return Verdict("told", f"told by {told:,} of {len(wanted):,} cases, first in line {first + 1:,}")


class Trial:
    """Holds the copy of the sources, in which the edits are made, one at a time, and the program over the sources as they stand."""

    def __init__(self, seconds):
        copied(OUT)
        self.seconds, self.made = seconds, tools(OUT, PROGRAM)
        self.wanted = lines(os.path.join(VECTORS, "stdout"))
        self.sound = None

    def run(self):
        """Compiles and runs the program over the copy. One with the same bytes as the first, which is over the sources as they stand, is not run again."""
        code = compiled(self.made, SOURCES, PROGRAM)
        if code == self.sound:
            return Verdict("same", "told by none: the program stays the same, byte for byte")
        self.sound = self.sound or code
        return compare(self.wanted, *ran(self.seconds), self.seconds)

    def edit(self, edit):
        """Tries one edit; the copy is then as it was."""
        try:
            texts = edited(edit)
        except Failed as why:
            return Verdict("not applied", f"cannot be applied: {why}")
        if not texts:
            return Verdict("passed over", "passed over: it edits nothing below src/")
        before = {path: contents(path) for path in texts}
        write(texts)
        try:
            return self.run()
        except Failed as why:
            return Verdict("not compiled", f"does not compile: {why}")
        finally:
            write(before)


def totals(names):
    """Prints how many edits were told, and the names of those that were not, given the names of each kind."""
    n = collections.Counter({kind: len(of) for kind, of in names.items()})
    print(f"{sum(n.values())} edits: {sum(n[kind] for kind in TOLD)} told ({n['told']} by their answers, {n['stops']} stop on the way, {n['endless']} do not end), "
          f"{n['none'] + n['same']} told by none ({n['same']} of them leave the program the same), {n['passed over']} passed over, "
          f"{n['not applied']} cannot be applied, {n['not compiled']} do not compile")
    print("told by none, in a program that is not the same:", ", ".join(names["none"]) or "-")
    print("told by none, since the program stays the same:", ", ".join(names["same"]) or "-")


def arguments():
    """Reads the command line: the time limit and the folders."""
    words = argparse.ArgumentParser(description=__doc__, formatter_class=argparse.RawDescriptionHelpFormatter, usage=argparse.SUPPRESS)
    words.add_argument("--seconds", type=float, default=10, metavar="S", help="how long a program may run")
    words.add_argument("folders", nargs="*", metavar="FOLDER")
    given = words.parse_args()
    for folder in given.folders:
        if not os.path.isdir(folder):
            words.error(f"{folder} is no folder")
    usual = [os.path.join(CRATES, name, "must-fail") for name in sorted(os.listdir(CRATES))] + [os.path.join(ROOT, "tests", "wrong")]
    return given.seconds, given.folders or usual


def main():
    seconds, folders = arguments()
    trial, began = Trial(seconds), time.monotonic()
    try:
        stands = trial.run()
    except Failed as why:
        sys.exit(f"the sources as they stand do not compile: {why}")
    if stands.kind != "none":
        sys.exit(f"the sources as they stand: {stands.text}")
    names, untold = collections.defaultdict(list), []
    for path, crate in found(folders):
        edit = read(path, crate)
        said = trial.edit(edit)
        names[said.kind].append(edit.name)
        if said.kind not in TOLD and not os.path.dirname(path).endswith("must-fail"):
            untold.append(edit.name)
        print(f"{edit.name}: {said.text}", flush=True)
    totals(names)
    print(f"{time.monotonic() - began:.0f} seconds")
    return 1 if names["not applied"] or names["not compiled"] or untold else 0


if __name__ == "__main__":
    sys.exit(main())
