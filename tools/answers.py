#!/usr/bin/env python3
"""Turns proofs in the older form, Proof.antt over `Tie`, into today's Invariants.antt and Answers.antt.

usage: answers.py NAMES.json CRATE [FUNCTION..]

NAMES.json is what `rt check --generated DIR --old-names` writes in the crate's folder. CRATE is that folder. For each crates/../proofs/../Proof.antt that is
written over `Tie` it writes the two files beside it, with every goal under its new name and every fact under its new path, and removes Proof.antt. An answer
that is only `search rules` is left out, since the check tries that itself. What it cannot turn it prints.
"""

import json
import os
import re
import sys

DELIM = r"\s(){}\[\],;.:"
NAME = rf"[^{DELIM}]+"
PATH = re.compile(rf"(?<![^\s(\[{{,;])({NAME})((?:\.{NAME})*)")
GARBLED = {"all_IsAscii": "all_ascii", "is_IsLeaf": "is_leaf", "walk_Meets": "walk_meets", "step_Lines": "step_lines"}


def norm(s):
    s = GARBLED.get(s.replace("-", "_"), s)
    return GARBLED.get(s, s).replace("-", "_")


class Entry:
    """What names.json says of one function."""

    def __init__(self, e):
        self.places = {norm(p[0]): p for p in e["places"]}
        self.order = [p[0] for p in e["places"]]
        self.new = dict(zip((norm(p[0]) for p in e["places"]), e["places_by_name"]))
        self.arms = {norm(p[0]): a for p, a in zip(e["places"], e["arms"])}
        self.typed = {norm(p[0]): t for p, t in zip(e["places"], e["typed"])}
        self.params = list(e["params"])
        self.pars = e["params"]
        self.stem = e["stem"]
        self.needs = {norm(a): (b, norm(at[0])) for (a, b), at in zip(e["needs"], e["asked_at"])}
        self.need_list = [(norm(a), b, norm(at[0])) for (a, b), at in zip(e["needs"], e["asked_at"])]
        self.settled = e["settled"]
        self.loops = {norm(l[0][0]): (l[0][1], l[1], ch) for l, ch in zip(e["loops"], e["changed"])}

    def parent(self, place):
        p = self.places[place][1]
        return norm(p) if p else None

    def need(self, name):
        n = norm(name)
        for cut in ("", "overflow_", "slice_bounds_"):
            m = n[len(cut):] if cut and n.startswith(cut) else n if not cut else None
            if m is None:
                continue
            for alt in (m, "part_" + m if cut == "slice_bounds_" else m, "slice_bounds_" + m if cut == "slice_bounds_" else m):
                if alt in self.needs:
                    return self.needs[alt]
        for new, at in self.needs.values():
            if norm(new) == n:
                return new, at
        return None


class File:
    def __init__(self, path, entry, module, said, params, labels, own):
        self.labels, self.own = labels, own
        self.cycle, self.cycle_names, self.cycle_pars, self.in_cycle, self.owner = {}, [], {}, False, own.rsplit("::", 1)[0] + "::"
        self.path, self.entry, self.module, self.said, self.params = path, entry, module, said, params
        with open(path, encoding="utf-8") as f:
            self.text = f.read()
        self.shared, self.alias, self.takes, self.bodies, self.copies, self.goals, self.imports = [], {}, {}, {}, {}, {}, set()

    def say(self, what):
        self.said.append(f"{self.path}: {what}")

    # paths -----------------------------------------------------------------
    def above(self, home):
        """The places on the way to a place, by the old name of the step that leads to each."""
        found, cur = {}, home
        while cur is not None:
            step = norm(self.entry.places[cur][2][0])
            found.setdefault(step, cur)
            cur = self.entry.parent(cur)
        return found

    def walk(self, place, comps, goal, home):
        """The text for a path from a record at a place. Returns (text, place): the place where the path ends at a record, else None. A step is found by its
        name, whatever the number of `before`s: there are not as many places as there were."""
        e, cur, i = self.entry, place, 0
        while i < len(comps) and norm(comps[i]) == "before":
            cur, i = e.parent(cur) or "Start", i + 1
        if i == len(comps):
            return None, cur
        n, rest = norm(comps[i]), comps[i + 1:]
        if n in ("args", "requires", "lifetimes", "ranges", "well_formed"):
            if n == "args" and rest:
                rest = [rest[0].replace("-", "_")] + rest[1:]
            if n == "requires" and self.cycle and rest:
                if rest[0] == "0":
                    return "c.decreases", None
                rest = rest[1:]
            if n == "requires":
                rest = self.labelled(self.own, ["requires"] + rest)[1:]
            return ".".join(["c", n] + rest), None
        cur = self.above(home).get(n)
        if cur is None:
            self.say(f"no step {comps[i]} above {home}: {'.'.join(comps)}")
            return ".".join(["c"] + comps[i:]), None
        old, new = e.places[cur][2]
        arm = e.arms.get(cur)
        if arm:
            for field, step, at in arm[2]:
                if norm(step) == n and [norm(x) for x in at] == [norm(x) for x in rest[:len(at)]] and at:
                    return ".".join(["c", arm[0], field] + rest[len(at):]), None
            own = next((field for field, step, at in arm[2] if norm(step) == n and not at and field.endswith("-own")), None)
            if own and rest[:1] in (["given"], ["rest"], ["true"], ["false"]):
                rest = [own] + rest
            return ".".join(["c", arm[0]] + rest), None
        if n.startswith(("shared_slice_known", "slice_known")) and rest[:1] == ["given"]:
            for var, step in e.typed.get(cur, []):
                if norm(step) == n:
                    return ".".join(["c", "type_inv", var] + rest[1:]), None
        if cur.startswith("Joined") and rest and re.fullmatch(r"if\d+", rest[0]):
            rest = ["value"] + rest[1:]
        callee = e.places[cur][3]
        if callee and len(rest) > 1 and rest[0] in ("auto", "new") and rest[1] in ("0", "1"):
            k = 1
            while k < len(rest) and rest[k] == "1":
                k += 1
            pars = e.pars.get(callee, [])
            if k < len(rest) and rest[k] == "0" and k - 1 < len(pars):
                rest = [rest[0], pars[k - 1]] + rest[k + 1:]
        if callee and rest and rest[0] in ("ensures", "requires"):
            rest = self.labelled(callee, rest)
        return ".".join(["c", new] + rest), None

    def labelled(self, function, rest):
        """A path into clauses that had no names: their names where there are several."""
        labels = self.labels.get(function, {}).get(rest[0], [])
        if len(labels) < 2 or not all(labels):
            return rest
        k, at = 0, 1
        while at < len(rest) and rest[at] == "1" and k < len(labels) - 1:
            k, at = k + 1, at + 1
        if k < len(labels) - 1:
            if at >= len(rest) or rest[at] != "0":
                return rest
            at += 1
        return [rest[0], labels[k]] + rest[at:]

    def items(self, text):
        """The parts of a tuple, or none where it is not one."""
        items, depth, cur = [], 0, ""
        for ch in text:
            if ch in "([{":
                depth += 1
            if ch in ")]}":
                depth -= 1
            if depth < 0:
                return []
            if ch == "," and depth == 0:
                items.append(cur.strip())
                cur = ""
            else:
                cur += ch
        if cur.strip():
            items.append(cur.strip())
        return [] if depth else items

    def as_record(self, function, kind, text):
        """A tuple that proves several clauses, as a record by their names."""
        labels = self.labels.get(function, {}).get(kind, [])
        if len(labels) < 2 or not all(labels) or kind == "requires" and function.split("::")[-1] in [fn for _, fn in self.cycle.values()]:
            return text
        m = re.match(r"(\s*(?:let [^\n]* in\s*)*)\((.*)\)\s*$", text, re.S)
        items = self.items(m.group(2)) if m else []
        while items and len(items) < len(labels):
            last = re.fullmatch(r"\((.*)\)", items[-1], re.S)
            more = self.items(last.group(1)) if last else []
            if len(more) < 2:
                break
            items[-1:] = more
        if (not m or len(items) != len(labels)) and kind == "ensures" and len(labels) == 2:
            k = re.match(r"(\s*(?:let (?:(?! in\b).)* in\s*)*)(.*)$", text, re.S)
            if k.group(2) and not re.match(r"(rw|absurd|search|omega|λ|simp|grind|elim|subst)\b", k.group(2)):
                body = k.group(2).strip().replace("\n", "\n    ")
                return f"{k.group(1).rstrip()}\n    let both = {body} in\n    record {{ {labels[0]} = both.0; {labels[1]} = both.1 }}"
        if not m or len(items) != len(labels):
            self.say(f"no record for {kind} of {function}: {' '.join(text.split())[:150]}")
            return text
        said = "record { " + "; ".join(f"{a} = {b}" for a, b in zip(labels, items)) + " }"
        return m.group(1) + said

    def record(self, cur, goal, home):
        if cur == home:
            return "c"
        if goal is None:
            self.say(f"a helper hands on the place {cur}")
            return f"(?{self.entry.new[cur]})"
        return f"(goal.at.{goal} {'t ' if self.cycle else ''}c).{self.entry.new[cur]}"

    def turn(self, text, env, goal, home):
        out, at, partial = [], 0, {}
        env = dict(env)
        once = None
        while once != text:
            once = text
            for name in self.alias:
                text = re.sub(rf"\(({re.escape(name)}) (c(?:\.before)*)\)", "c", text)
                text = re.sub(rf"(let {NAME} = ){re.escape(name)} (c(?:\.before)*) in", r"\1c in", text)
        let = re.compile(rf"let ({NAME})(?: : tie\.[^=]*?)? = ((?:{NAME})(?:\.{NAME})*) in\s*")
        fn = re.compile(rf"\(({NAME}) ({NAME}(?:\.{NAME})*)\)((?:\.{NAME})*)")
        bare = re.compile(rf"({NAME}) ({NAME}(?:\.{NAME})*)(?![^\s)\],;])")
        while at < len(text):
            prev = text[at - 1] if at else " "
            start = prev in " \n\t([{,;" or at == 0
            if start:
                m = let.match(text, at)
                if m:
                    root, *comps = m.group(2).split(".")
                    if root in env:
                        t, cur = self.walk(env[root], comps, goal, home)
                        if cur is not None:
                            env[m.group(1)] = cur
                            at = m.end()
                            continue
                        if comps[-1] in ("given", "ensures", "requires", "auto", "new") or norm(comps[-1]) in self.above(home or env[root]):
                            partial[m.group(1)] = (env[root], comps)
                            at = m.end()
                            continue
                m = re.compile(rf"let ({NAME}) = ({NAME}) ({NAME}(?:\.{NAME})*) in\s*").match(text, at)
                if m and m.group(2) in self.alias:
                    root, *comps = m.group(3).split(".")
                    if root in env:
                        env[m.group(1)] = self.alias[m.group(2)]
                        at = m.end()
                        continue
                m = fn.match(text, at)
                if m and m.group(1) in self.alias:
                    root, *comps = m.group(2).split(".")
                    if root in env:
                        rest = [x for x in m.group(3).split(".") if x]
                        t, cur = self.walk(self.alias[m.group(1)], rest, goal, home)
                        out.append(t if cur is None else self.record(cur, goal, home))
                        at = m.end()
                        continue
                m = PATH.match(text, at)
                if m and m.group(1) in env and not (not m.group(2) and re.match(r"\s*=(?!=)", text[m.end():])):
                    comps = [x for x in m.group(2).split(".") if x]
                    t, cur = self.walk(env[m.group(1)], comps, goal, home)
                    before = re.search(rf"({NAME})\s+$", "".join(out))
                    if cur is not None and before and before.group(1) in self.takes:
                        cur = self.takes[before.group(1)]
                        if goal is None and cur != home and home is not None:
                            h = before.group(1)
                            said = "".join(out)
                            out = [said[:before.start()] + f"{h}-at-{self.entry.new[home]}" + said[before.start() + len(h):]]
                            self.copies.setdefault((h, home), None)
                            cur = home
                    out.append(t if cur is None else self.record(cur, goal, home))
                    at = m.end()
                    continue
                if m and not m.group(2) and m.group(1) in self.goals:
                    out.append(self.goals[m.group(1)] + (" t" if self.cycle else ""))
                    at = m.end()
                    continue
                if m and m.group(1) in partial:
                    place, prefix = partial[m.group(1)]
                    out.append(self.walk(place, prefix + [x for x in m.group(2).split(".") if x], goal, home)[0])
                    at = m.end()
                    continue
                if m and m.group(1) in self.alias and not m.group(2):
                    m2 = bare.match(text, at)
                    if m2 and m2.group(2).split(".")[0] in env:
                        out.append(self.record(self.alias[m.group(1)], goal, home))
                        at = m2.end()
                        continue
                if m:
                    out.append(m.group(0))
                    at = m.end()
                    continue
            out.append(text[at])
            at += 1
        done = re.sub(r"\.branch(?![\w-])", ".branch-raw", "".join(out))
        done = re.sub(r"\.(type-inv|well-formed|element-fits)(?![\w-])", lambda m: m.group(0).replace("-", "_"), done)
        done = re.sub(rf"not-(?:true|false) _ (c\.if-not-{NAME}\.(?:true|false))", r"\1", done)
        return re.sub(rf"(?<=\.)({NAME})", lambda m: m.group(1).replace("-", "_") if m.group(1).replace("-", "_") in self.params else m.group(1), done)

    # declarations -------------------------------------------------------------
    def parts(self):
        lines = self.text.split("\n")
        blocks, cur = [], []
        for l in lines:
            if not l.strip():
                if cur:
                    blocks.append(cur)
                cur = []
            else:
                cur.append(l)
        if cur:
            blocks.append(cur)
        return blocks

    def copy_helpers(self, answers):
        """Helpers that a later helper uses at its own place: the same text over the record of that place."""
        while any(v is None for v in self.copies.values()):
            name, home = next(k for k, v in self.copies.items() if v is None)
            self.copies[name, home] = True
            mods, segs, places, unf, rest = self.bodies[name]
            first = min(places)
            new = f"{name}-at-{self.entry.new[home]}"
            nm = places[first][0]
            turned = []
            for i, s in enumerate(segs):
                if i == first:
                    turned.append(f"(c : {self.place_new(home)})" if nm else self.place_new(home))
                else:
                    turned.append(self.turn(s, {nm: home} if nm else {}, None, home))
            if self.cycle and self.in_cycle:
                turned[0] = "{t : ℕ} " + turned[0]
            parts = []
            for clause in self.clauses(name, rest):
                lhs, rhs = clause.split(" =", 1)
                if self.cycle and self.in_cycle:
                    new_lhs = new + " {t = t}"
                else:
                    new_lhs = new
                parts.append(f"{new_lhs}{lhs[len(name):]} =" + self.turn(rhs, {"c": home}, None, home))
            at = len(answers)
            text = "\n".join([f"{mods}{new} : {' → '.join(turned)}"] + unf + parts)
            self.copy_helpers(answers)
            answers.append(text)

    def cycle_measure(self, name):
        fn = norm(re.sub("^μ-", "", name))
        return fn

    def place_type(self, t):
        t = t.strip()
        m = re.fullmatch(rf"tie\.({NAME})((?: {NAME})*)", t)
        if m and norm(m.group(1)) in self.entry.places:
            return norm(m.group(1))
        m = re.fullmatch(rf"tie\.({NAME})((?: {NAME})*)", t)
        if m:
            for old, new in self.entry.new.items():
                if norm(new) == norm(m.group(1)):
                    return old
        return None

    def segments(self, sig):
        depth, seg, out = 0, "", []
        for ch in sig:
            if ch in "({[":
                depth += 1
            if ch in ")}]":
                depth -= 1
            if ch == "→" and depth == 0:
                out.append(seg.strip())
                seg = ""
            else:
                seg += ch
        out.append(seg.strip())
        flat = []
        for s in out:
            # binder groups that follow one another without an arrow
            groups, depth, start = [], 0, 0
            for i, ch in enumerate(s):
                if ch in "({[":
                    if depth == 0:
                        start = i
                    depth += 1
                if ch in ")}]":
                    depth -= 1
                    if depth == 0:
                        groups.append(s[start:i + 1])
            if len(groups) > 1 and " ".join(groups) == s and all(re.match(r"[({][^:]* : ", g) for g in groups):
                flat += groups
            else:
                flat.append(s)
        return flat

    def place_new(self, place):
        if self.cycle:
            self.imports.add(self.entry.stem + self.entry.new[place])
            return self.entry.stem + self.entry.new[place] + " t"
        self.imports.add(self.entry.new[place])
        return self.entry.new[place]

    def decl(self, block):
        comments = [l for l in block if l.startswith("--")]
        body = [l for l in block if not l.startswith("--")]
        if not body:
            return ("comment", block)
        if body[0].startswith(("use ", "pub use ")) or body[0].startswith("  ") or body[0].startswith("}"):
            return ("use", block)
        # signature up to the first line that begins with the name again or 'unfolding'
        m = re.match(rf"((?:abbrev |pub |unfoldable )*)({NAME}) : ", body[0])
        if not m:
            return ("other", block)
        name = m.group(2)
        k = 1
        while k < len(body) and not body[k].startswith(name + " ") and not body[k].startswith("unfolding"):
            k += 1
        sig = "\n".join(body[:k])[m.end():]
        unf = []
        while k < len(body) and (body[k].startswith("unfolding") or (unf and body[k].startswith(" ") and not body[k].startswith(name))):
            unf.append(body[k])
            k += 1
        return ("decl", (comments, m.group(1), name, sig, unf, body[k:]))

    def clauses(self, name, lines):
        out = []
        for l in lines:
            if l.startswith(name + " ") or l.startswith(name + "="):
                out.append(l)
            else:
                out[-1] += "\n" + l
        return out

    def outline(self):
        """A cycle whose proofs stand in the call of spec, each with its label behind it: the same as declarations."""
        text, out = self.text, []
        at = text.find("-spec = close")
        if at < 0 or not re.search(r"\)+  -- [\w-]+$", text[at:], re.M):
            return
        body = text[at:]
        alias, pos = None, 0
        while pos < len(body):
            m = re.compile(rf"({NAME})\.spec ").match(body, pos)
            if m and m.group(1) in self.cycle:
                alias, pos = m.group(1), m.end()
                continue
            m = re.compile(r"\(λ c( κs)?\.").match(body, pos)
            if m and alias:
                depth, end = 1, m.end()
                while depth:
                    depth += {"(": 1, ")": -1}.get(body[end], 0)
                    end += 1
                label = re.compile(r"\)*  -- ([\w-]+)").match(body, end)
                if label:
                    prefix = alias[:-len("lts")]
                    need = label.group(1)[len(prefix):]
                    need = re.sub("^loop(.*)-holds", r"loop\1-init", need)
                    need = re.sub("^loop(\\d*)-less", r"loop\1-smaller", need)
                    need = re.sub("^loop(\\d*)-again", r"loop\1-preserved", need)
                    inner = body[m.end():end - 1].strip()
                    sep = "\n    " if inner.startswith("let ") or "\n" in inner else " "
                    out.append(f"{label.group(1)} : {alias}.Need-{need}\n{label.group(1)} c{m.group(1) or ''} ={sep}{inner}")
                    pos = end
                    continue
            pos += 1
        start = text.rfind("\n\n", 0, at)
        self.text = text[:start] + "\n\n" + "\n\n".join(out) + "\n"

    def run(self):
        if self.cycle:
            self.outline()
        uses, answers, invariants, inv_names = [], [], [], {}
        head = []
        for block in self.parts():
            kind, what = self.decl(block)
            if kind == "comment":
                head.append("\n".join(block))
                continue
            if kind == "use":
                for l in block:
                    if l.startswith("--"):
                        head.append(l)
                uses.append("\n".join(l for l in block if not l.startswith("--")))
                continue
            if kind == "other":
                self.say("left: " + block[0])
                answers.append("\n".join(block))
                continue
            comments, mods, name, sig, unf, rest = what
            one = " ".join(sig.split())
            if self.cycle:
                found = re.search(rf"(?<![^\s(])({NAME})\.(?=Need-|invariant-|decreases-|[A-Z])", one)
                alias = next((a for a in self.cycle if re.search(rf"(?<![^\s(]){re.escape(a)}\.(Need-|invariant-|decreases-|After|At|In|Then|Else|Joined|Start)", one)), None)
                if re.search(r"(?<![\w-])(Measures) ", one):
                    fn = self.cycle_measure(name)
                    clause = self.clauses(name, rest)[0].split(" =", 1)[1]
                    pars = self.cycle_pars.get(fn, [])

                    def arg(m):
                        k = 0
                        rest_ = m.group(1)[1:].split(".")
                        while k < len(rest_) and rest_[k] == "1":
                            k += 1
                        return "l." + ".".join([pars[k]] + rest_[k + 1:]) if k < len(pars) else m.group(0)

                    clause = re.sub(rf"(?<![^\s(])a((?:\.{NAME})+)", arg, clause)
                    invariants.append("\n".join(comments + [f"abbrev pub decreases-{fn} : goal.decreases-{fn}"] + unf + [f"decreases-{fn} l ={clause}"]))
                    continue
                if alias is None and (re.search(r"(?<![\w-])In \d", one) or ".Claims" in one or "statement M" in one or "Reads" in one):
                    continue
                if alias is not None:
                    self.entry, fn = self.cycle[alias]
                    self.own = self.owner + fn
                    one = re.sub(rf"(?<![^\s(]){re.escape(alias)}\.({NAME})((?: \((?:[^()]|\([^()]*\))*\)| {NAME}(?:\.{NAME})*)*)", r"tie.\1", one)
                    one = re.sub(r"^\(t : ℕ\) (?:→ )?", "", one)
                    rest = "\n".join(rest).replace(f"{name} t c", f"{name} c")
                    rest = re.sub(rf"(?<![^\s(])({'|'.join(map(re.escape, self.cycle_names)) or '!'}) t (?=[(\w])", r"\1 ", rest).split("\n")
                    self.cycle_names.append(name)
                self.in_cycle = alias is not None
            stem = self.entry.stem if self.cycle else ""
            if one.endswith("→ statement M") or " statement M" in one and "tie." not in one:
                continue
            m = re.fullmatch(r"tie\.(invariant|decreases)-(\S+)", one)
            if m:
                loop = self.entry.loops.get(norm(m.group(2)))
                if loop is None:
                    self.say(f"no loop {m.group(2)}")
                    continue
                inv_names[name] = 1
                new, vars_, changed = loop
                clause = self.clauses(name, rest)
                if len(clause) != 1:
                    self.say(f"{name}: {len(clause)} clauses")
                lhs, rhs = clause[0].split(" =", 1)
                pars = lhs.split()[1:]
                diff = [v for v, c in zip(vars_, changed) if c]
                news = [f"l.initial.{v}" if c else f"l.{v}" for v, c in zip(vars_, changed)] + [f"l.{v}" for v in diff]
                if len(pars) != len(news):
                    self.say(f"{name}: parameters {pars} for {news}")
                table = dict(zip(pars, news))
                rhs = PATH.sub(lambda t: table.get(t.group(1), t.group(1)) + t.group(2), rhs)
                word = f"{m.group(1)}-{stem}{new}"
                invariants.append("\n".join(comments + [f"abbrev pub {word} : goal.{word}"] + unf + [f"{word} l ={rhs}"]))
                continue
            m = re.match(rf"tie\.Need-({NAME})((?: {NAME})*)$", one)
            if m:
                need = self.entry.need(m.group(1))
                body_text = "\n".join(rest)
                trivial = re.fullmatch(rf"{re.escape(name)} c(?: κs)? = search rules", body_text.strip())
                if need is None:
                    if not trivial:
                        self.say(f"no goal for {m.group(1)}: {body_text[:200]}")
                    continue
                new, at = need
                self.goals[name] = stem + new
                if trivial:
                    continue
                parts = []
                for clause in self.clauses(name, rest):
                    lhs, rhs = clause.split(" =", 1)
                    pars = lhs.split()[1:]
                    if pars[:1] != ["c"]:
                        self.say(f"{name}: parameters {pars}")
                    pars = [p for p in pars if p != "κs"]
                    said = self.turn(rhs, {"c": at}, stem + new, at)
                    if new.startswith("returns"):
                        said = self.as_record(self.own, "ensures", said)
                    elif re.search(r"-requires(-|$)", new):
                        callee = re.sub(r"-requires.*", "", new)
                        fits = [f for f in self.entry.params if callee == f.split("::")[-1] or callee.startswith(f.split("::")[-1] + "-")]
                        if len(fits) == 1:
                            said = self.as_record(fits[0], "requires", said)
                        elif fits:
                            fits.sort(key=len)
                            said = self.as_record(fits[-1], "requires", said)
                    if self.cycle:
                        pars = ["t"] + pars
                    parts.append(f"{stem}{new} {' '.join(pars)} =" + said)
                answers.append("\n".join(comments + [f"pub {stem}{new} : goal.{stem}{new}"] + unf + parts))
                continue
            # a helper, perhaps over places
            segs = self.segments(one)
            places = {}
            newsegs = []
            for i, s in enumerate(segs):
                p = re.fullmatch(rf"\(({NAME}) : (tie\.{NAME}(?: {NAME})*)\)", s)
                if p and self.place_type(p.group(2)):
                    places[i] = (p.group(1), self.place_type(p.group(2)))
                elif self.place_type(s):
                    places[i] = (None, self.place_type(s))
            if not places:
                if "tie." in one:
                    self.say(f"helper {name}: {one}")
                answers.append("\n".join(comments + [f"{mods}{name} : {sig}"] + unf + rest))
                continue
            last = len(segs) - 1
            if last in places:
                self.alias[name] = places[last][1]
                continue
            env_sig, home = {}, None
            turned = []
            for i, s in enumerate(segs):
                if i in places:
                    nm, pl = places[i]
                    if home is None:
                        home = pl
                    turned.append(f"(c : {self.place_new(pl)})" if nm else self.place_new(pl))
                    if nm:
                        env_sig[nm] = pl
                else:
                    turned.append(self.turn(s, env_sig, None, home) if env_sig else s)
            explicit = [i for i, s in enumerate(segs) if not s.startswith("{")]
            if explicit[0] in places:
                self.takes[name] = places[explicit[0]][1]
                self.bodies[name] = (mods, segs, places, unf, rest)
            if len(places) > 1:
                self.say(f"helper {name} over {len(places)} places")
            parts = []
            for clause in self.clauses(name, rest):
                lhs, rhs = clause.split(" =", 1)
                pars = lhs.split()[1:]
                env = {}
                explicit = [i for i, s in enumerate(segs) if not s.startswith("{")]
                for i, (nm, pl) in places.items():
                    i = explicit.index(i)
                    if i < len(pars):
                        env[pars[i]] = pl
                        if pars[i] != "c":
                            lhs = re.sub(rf"(?<= ){re.escape(pars[i])}(?= |$)", "c", lhs)
                if self.cycle and self.in_cycle:
                    lhs = lhs.replace(name, name + " {t = t}", 1)
                parts.append(f"{lhs} =" + self.turn(rhs, env, None, home))
            if self.cycle and self.in_cycle:
                turned[0] = "{t : ℕ} " + turned[0]
            self.copy_helpers(answers)
            answers.append("\n".join(comments + [f"{mods}{name} : {' → '.join(turned)}"] + unf + parts))
        uses = [u for u in "\n".join(uses).split("\n")]
        keep = [u for u in uses if not re.match(r"use Rattle\.\S+\.(Statement\.\{statement\}|Tie as tie|Tie\.\{close\}|\{statement\}|Lts-\S+ as \S+|Reads as \S+|Kinds as \S+)$", u) and not re.match(r"use borrow\.Fn\.", u)]
        if invariants:
            shared, text = [], "\n".join(invariants)
            again = True
            while again:
                again = False
                for a in list(answers):
                    m = re.search(rf"^(?:abbrev |unfoldable )*({NAME}) : (?!goal)", a, re.M)
                    if m and re.search(rf"(?<![^\s(\[{{,;]){re.escape(m.group(1))}(?![^\s)\],;.])", text):
                        answers.remove(a)
                        shared.insert(0, re.sub(rf"^((?:abbrev |unfoldable )*)({re.escape(m.group(1))} : )", lambda k: (k.group(1) + "pub " if k.group(1) else "pub ") + k.group(2), a, count=1, flags=re.M))
                        self.shared.append(m.group(1))
                        text += "\n" + a
                        again = True
            invariants[:0] = shared
        return head, keep, invariants, answers

    def write(self):
        head, keep, invariants, answers = self.run()
        folder = os.path.dirname(self.path)
        os.remove(self.path)
        if invariants:
            with open(os.path.join(folder, "Invariants.antt"), "w", encoding="utf-8") as f:
                f.write("\n".join(head + keep + [f"use {self.module}.Given as goal"]) + "\n\n" + "\n\n".join(invariants) + "\n")
        if answers:
            more = [f"use {self.module}.Goals as goal"]
            if self.shared:
                more.append(f"use {self.module}.Invariants.{{{', '.join(self.shared)}}}")
            if self.imports:
                more.append(f"use {self.module}.Goals.{{{', '.join(sorted(self.imports))}}}")
            with open(os.path.join(folder, "Answers.antt"), "w", encoding="utf-8") as f:
                f.write("\n".join(head + keep + more) + "\n\n" + "\n\n".join(answers) + "\n")
        elif not invariants:
            try:
                os.rmdir(folder)
            except OSError:
                pass


def parameters(crate):
    """The names of parameters and fields in the crate's source that have an underscore."""
    found = set()
    for folder, _, files in os.walk(os.path.join(crate, "src")):
        for f in files:
            with open(os.path.join(folder, f), encoding="utf-8") as g:
                found |= set(re.findall(r"\b([a-z]\w*_\w*): ", g.read()))
    return found


CLAUSE = re.compile(r"^\s+(requires|ensures)(\*?)(?: (\w+))? \{", re.M)


def clause_labels(root):
    """The names of the clauses of each function of the crates, by its path: {"requires": [..], "ensures": [..]}."""
    found = {}
    for crate in sorted(os.listdir(root)):
        for folder, _, files in os.walk(os.path.join(root, crate, "src")):
            for f in files:
                if not f.endswith(".rt"):
                    continue
                rel = os.path.relpath(os.path.join(folder, f), os.path.join(root, crate, "src"))[:-3].split(os.sep)
                mod = [crate] + [m for m in rel if m not in ("lib", "main")]
                with open(os.path.join(folder, f), encoding="utf-8") as g:
                    text = g.read()
                owner = None
                for part in re.split(r"(?m)^(?=\s*(?:#\[|pub |const |unsafe |extern |fn |impl ))", text):
                    m = re.match(r"\s*impl(?:<[^>]*>)? (\w+)", part)
                    if m:
                        owner = m.group(1)
                        continue
                    m = re.match(r"(\s*)(?:pub(?:\([a-z]+\))? |const |unsafe |extern \"C\" )*fn (\w+)", part)
                    if not m:
                        continue
                    path = mod + ([owner] if m.group(1) and owner else []) + [m.group(2)]
                    labels = {"requires": [], "ensures": []}
                    for kind, star, label in CLAUSE.findall(part):
                        labels[kind].append(label)
                    found["::".join(path)] = labels
    return found


def main():
    with open(sys.argv[1], encoding="utf-8") as f:
        names = json.load(f)
    crate = sys.argv[2].rstrip("/")
    only = sys.argv[3:]
    cname = os.path.basename(crate)
    said, params, labels = [], parameters(crate), clause_labels(os.path.dirname(crate))
    n = 0
    for folder, dirs, files in os.walk(os.path.join(crate, "proofs")):
        if "Proof.antt" not in files:
            continue
        path = os.path.join(folder, "Proof.antt")
        rel = os.path.relpath(folder, os.path.join(crate, "proofs")).replace("/", ".")
        if only and rel.split(".")[-1] not in only:
            continue
        with open(path, encoding="utf-8") as f:
            text = f.read()
        if rel.split(".")[-1].startswith("+"):
            start = f"Rattle-{cname}-proofs.{rel}.Lts-"
            aliases = re.findall(rf"use Rattle\.\S+\.Lts-(\S+) as (\S+)", text)
            base = f"{cname}::" + "".join(x + "::" for x in rel.split(".")[:-1])
            f = File(path, None, f"Rattle.{cname}.proofs.{rel}", said, params, labels, base + "x")
            for fn, alias in aliases:
                if start + fn not in names:
                    said.append(f"{path}: no entry {fn}")
                    continue
                f.cycle[alias] = (Entry(names[start + fn]), fn)
            for key in names:
                for callee, pars in (names[key].get("params", {}) if isinstance(names[key], dict) else {}).items():
                    f.cycle_pars.setdefault(callee.split("::")[-1], pars)
            f.entry = next(iter(f.cycle.values()))[0]
            f.write()
            n += 1
            continue
        if "Tie as tie" not in text:
            said.append(f"{path}: not over Tie")
            continue
        e = names.get(f"Rattle-{cname}-proofs.{rel}.Lts")
        if e is None:
            said.append(f"{path}: names.json has no entry")
            continue
        File(path, Entry(e), f"Rattle.{cname}.proofs.{rel}", said, params, labels, f"{cname}::" + rel.replace(".", "::")).write()
        n += 1
    print("\n".join(said))
    print(f"{n} turned, {len(said)} remarks")


if __name__ == "__main__":
    main()
