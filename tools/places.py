#!/usr/bin/env python3
"""Counts the places of docs/DESIGN-PASS.md in the crates of a checkout: places.py [--list] [CHECKOUT]. Without a checkout, this one. With --list it names each place.

What can be found by looking at the text alone is counted here; which of the places are meant is for a reader to say, and stands on the page."""
import collections
import os
import re
import sys

ROOT = os.path.dirname(os.path.dirname(os.path.abspath(__file__)))
KEPT = set("fn let mut if else while loop for in match return break continue as ref self Self true false const impl struct enum pub use".split())
CLAUSE = re.compile(r"\b(requires|ensures|invariant|variant)\b[^{]*\{")


def end_of(text, at):
    """The place after the bracket that closes the one at `at`."""
    depth = 0
    for i in range(at, len(text)):
        depth += {"{": 1, "(": 1, "}": -1, ")": -1}.get(text[i], 0)
        if depth == 0:
            return i + 1
    return len(text)


def without_clauses(text):
    """The code without its comments, its ghost lines and its clauses."""
    text = re.sub(r"//[^\n]*", "", text)
    text = re.sub(r"ghost use[^;]*;", "", text)
    while m := CLAUSE.search(text):
        text = text[: m.start()] + text[end_of(text, m.end() - 1) :]
    return text


def functions(text):
    """Each function with its parameters and its body."""
    for m in re.finditer(r"\bfn (\w+)[^(]*\(", text):
        close = end_of(text, m.end() - 1)
        opening = re.match(r"[^;{]*\{", text[close:])
        if opening:
            start = close + opening.end() - 1
            yield m.group(1), text[m.end() : close - 1], text[start : end_of(text, start)]


def shape(body):
    """The body with every name and number replaced, and how many words it has."""
    words = re.findall(r"\w+|\S", body)
    return tuple(w if w in KEPT or not re.match(r"\w", w) else "n" if w[0].isdigit() else "a" for w in words)


def parameters(text):
    return [p.strip() for p in re.split(r",(?![^<\[]*[>\]])", text) if ":" in p]


def main():
    words = [w for w in sys.argv[1:] if w != "--list"]
    top = os.path.join(words[0] if words else ROOT, "crates")
    found = collections.defaultdict(list)
    clauses = collections.defaultdict(list)
    bodies = collections.defaultdict(list)
    for folder, below, files in os.walk(top):
        below[:] = sorted(b for b in below if b not in ("target", "out"))
        for file in sorted(files):
            path = os.path.join(folder, file)
            name = os.path.relpath(path, top)
            if f"{os.sep}proofs{os.sep}" in path and file.endswith(".antt"):
                found["8 lines of proofs"] += [name] * sum(1 for _ in open(path, encoding="utf-8"))
                found["8 files of proofs"].append(name)
            if not (file.endswith(".rt") and f"{os.sep}src{os.sep}" in path):
                continue
            whole = open(path, encoding="utf-8").read()
            code = without_clauses(whole)
            for m in re.finditer(r"(#\[derive\([^)]*\)\]\s*)?^ *(?:pub )?(struct|enum) (\w+)", code, re.M):
                if m.group(2) == "enum":
                    found["1 enums"].append(f"{name} {m.group(3)}")
                if "PartialEq" not in (m.group(1) or ""):
                    found["4 types without derived equality"].append(f"{name} {m.group(3)}")
            found["1 numbers in place of an enum"] += [f"{name} {m}" for m in re.findall(r"pub const (\w+): u8 = \d+;", code)]
            found["1 flags beside a value"] += [f"{name} {m}" for m in re.findall(r"^ *(?:pub )?((?:ok|found|present|passed|overflows): bool),", code, re.M)]
            found["3 loops by while or loop"] += [f"{name} {m}" for m in re.findall(r"^ *((?:while|loop)\b.*)\{", code, re.M)]
            found["3 counted by hand"] += [f"{name} {m}" for m in re.findall(r"^ *(\w+ [+-]= 1);", code, re.M)]
            for m in re.finditer(r"requires\b[^{]*(\{)", whole):
                clauses[" ".join(whole[m.start(1) : end_of(whole, m.start(1))].split())].append(name)
            for fn, given, body in functions(code):
                here = f"{name} {fn}"
                types = parameters(given)
                if re.match(r"(same|equal|eq|cmp|compare|clone|copy|copied|fmt|from|into|to)(_|$)", fn):
                    found["4 equality, conversion or printing by name"].append(here)
                names = {p.split(":")[0].removeprefix("mut ").strip() for p in types}
                for group in (("out", "at"), ("text", "at", "features"), ("tree", "slot", "tally"), ("reach", "low"), ("line", "at")):
                    if names >= set(group):
                        found["5 parameters (" + ", ".join(group) + ")"].append(here)
                if any(re.search(r": (usize|u32|u64)$", p) and re.match(r"(len|size|count|used|length)$", p.split(":")[0]) for p in types):
                    found["6 a length handed on beside something"].append(here)
                if any(p.endswith(": bool") for p in types):
                    found["7 parameters of type bool"].append(here)
                form = shape(body)
                if len(form) >= 20:
                    bodies[form].append(here)
    found["2 functions of one form, 20 words or longer"] = [f"{len(same)}: " + ", ".join(same) for same in bodies.values() if len(same) > 1]
    found["5 clauses asked by three functions or more"] = [f"{len(at)} times {c}" for c, at in clauses.items() if len(at) >= 3]
    for what in sorted(found):
        print(f"{len(found[what]):6} {what}")
        if "--list" in sys.argv and not what.startswith("8"):
            print("".join(f"           {place}\n" for place in found[what]), end="")


if __name__ == "__main__":
    main()
