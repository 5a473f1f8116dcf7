#!/usr/bin/env python3
"""Turns proofs that tie each goal by hand, proofs/F/Proof.antt, to Invariants.antt and Answers.antt, in the crates that are named.
usage: python3 tools/port/answers.py [mend] CRATE.., at the top of the repository, where the sources of each crate are accepted; mend, once they
are turned, lets it mend what the check says of tuples for clauses that have names now.

The old and the new name of each goal and step are what rt check --generated DIR --old-names says. An answer that is only `search rules` goes,
since the check tries that itself; a path `c.before.before.f.ensures` becomes `c.f.ensures`. What is not understood is said and left."""

import json
import os
import re
import subprocess
import sys
import tempfile

TRIVIAL = {"search rules", "search needs"}


def norm(name):
    return re.sub(r"-?(\d+)$", r"\1", name.replace("_", "-").replace("overflow-", ""))


def names_of(crate):
    with tempfile.TemporaryDirectory() as to:
        r = subprocess.run(["rt", "check", "--generated", to, "--old-names"], cwd=f"crates/{crate}", capture_output=True, text=True)
        path = os.path.join(to, "names.json")
        if not os.path.exists(path):
            print("\n".join(l for l in (r.stdout + r.stderr).split("\n") if "has a line that is not read" not in l)[:3000])
            return None
        with open(path) as f:
            return json.load(f)


def declarations(text):
    """The head comment, the use lines and the declarations of a file: (name, type, other lines)."""
    head, uses, found, comment = [], [], [], []
    for line in text.split("\n"):
        m = re.match(r"(?:pub )?(abbrev )?(?:pub )?([^\s:{}()]+) : (.*)$", line)
        if line.startswith("use "):
            uses.append(line)
        elif m:
            found.append({"name": m[2], "type": m[3], "body": [], "comment": comment, "abbrev": bool(m[1])})
            comment = []
        elif line.startswith("--"):
            (comment if uses or found else head).append(line)
        elif found and (line.strip() or found[-1]["body"]):
            found[-1]["body"].append(line)
    for d in found:
        while d["body"] and not d["body"][-1].strip():
            d["body"].pop()
    return head, uses, found


def clauses_of(crate):
    """For each function of a crate the names of its clauses, where a kind has two or more."""
    found = {}
    for folder, _, files in os.walk(f"crates/{crate}/src"):
        for f in files:
            if f.endswith(".rt"):
                with open(os.path.join(folder, f), encoding="utf-8") as it:
                    text = it.read()
                for m in re.finditer(r"(?m)^\s*(?:pub )?fn (\w+).*?^\s*\{$", text, re.S):
                    kinds = re.findall(r"(?m)^\s+(requires|ensures)(?: (\w+))? \{", m[0])
                    found[m[1]] = {k: [n for kind, n in kinds if kind == k] for k in ("requires", "ensures")}
    return found


def by_name(path, names):
    """A path into clauses that were a nested pair, by the clauses' names: .0 is the first, .1 the others."""
    if len(names) < 2:
        return path
    left = list(names)
    while path and path[0] in ("0", "1") and len(left) > 1:
        if path[0] == "0":
            return [left[0], *path[1:]]
        left, path = left[1:], path[1:]
    return [left[0], *path] if len(left) == 1 else None


class Folder:
    def __init__(self, crate, path, facts):
        self.crate, self.path, self.facts, self.said = crate, path, facts, []
        inside = os.path.relpath(path, f"crates/{crate}/proofs").split("/")
        self.module = ".".join([f"Rattle.{crate}.proofs", *inside])
        self.places = {p[0]: p for p in facts["places"]}
        self.arms = {p[0]: a for p, a in zip(facts["places"], facts["arms"]) if a}
        self.clauses = {}
        self.needs = {}
        for (old, new), (at, _) in zip(facts["needs"], facts["asked_at"]):
            self.needs.setdefault(norm(old), (new, at))

    def step(self, at, field):
        """The new name of a step that stands at a place."""
        place = self.places.get(at)
        if place and place[2][0] and norm(place[2][0]) == norm(field):
            return place[2][1]
        return None

    def named(self, crate, function, kind):
        if crate not in self.clauses:
            self.clauses[crate] = clauses_of(crate)
        return self.clauses[crate].get(function, {}).get(kind, [])

    def arm(self, here, path):
        """A field of an arm of a match, by the old step and the path behind it: at this place, or else at any."""
        for at in [here, *self.arms]:
            if at in self.arms:
                name, _, fields = self.arms[at]
                for new, old, rest in fields:
                    if rest and norm(old) == norm(path[0]) and path[1:1 + len(rest)] == rest:
                        return ".".join(["c", name, new, *path[1 + len(rest):]])
        return None

    def flat(self, text, at):
        while True:
            m = re.search(r"let (\w+) = (c(?:\.before)*) in\s*", text)
            if not m:
                break
            text = text[:m.start()] + re.sub(rf"(?<![\w'.-]){m[1]}(?=\.)", m[2], text[m.end():])
        def one(m):
            here, path = at, m[1].split(".")[1:]
            while path and path[0] == "before":
                path.pop(0)
                if here is not None and here in self.places:
                    here = self.places[here][1]
            if not path:
                return "c"
            arm = self.arm(here, path)
            if arm:
                return arm
            new = self.step(here, path[0]) if here else None
            if new is None:
                for place in self.places:
                    if self.step(place, path[0]) and path[0] not in ("args", "requires", "ranges"):
                        new = self.step(place, path[0])
                        break
            if new is None and path[0] not in ("args", "requires", "ranges", "invariant"):
                self.said.append(f"step {m[0]}")
            path[0] = new or path[0]
            names, rest = [], None
            if path[0] == "requires":
                names, rest = self.named(self.crate, inside_last(self.path), "requires"), 1
            elif path[1:2] == ["ensures"]:
                callee = next((p[3] for p in self.facts["places"] if p[2][1] == path[0] and p[3]), None)
                if callee:
                    names, rest = self.named(callee.split("::")[0], callee.split("::")[-1], "ensures"), 2
            if names and path[rest:]:
                to = by_name(path[rest:], names)
                if to is None:
                    self.said.append(f"clauses {m[0]}: {names}")
                else:
                    path[rest:] = to
            return ".".join(["c", *path])
        return re.sub(r"(?<![\w'.-])c((?:\.[\w'-]+)+)", one, text)

    def invariants(self, found):
        out = []
        for d in found:
            m = re.match(r"tie\.(invariant|decreases)-(\S+)$", d["type"])
            if not m:
                continue
            for ((old, new), variables), changed in zip(self.facts["loops"], self.facts["changed"]):
                if norm(old) == norm(m[2]):
                    break
            else:
                self.said.append(f"loop {m[2]}")
                continue
            first = d["body"][0]
            left, right = first.split(" =", 1)
            params = left.split()[1:]
            to = {}
            for v, c, p in zip(variables, changed, params):
                to[p] = f"l.initial.{v}" if c else f"l.{v}"
            for v, p in zip([v for v, c in zip(variables, changed) if c], params[len(variables):]):
                to[p] = f"l.{v}"
            body = "\n".join([right.strip(), *d["body"][1:]]).strip()
            body = re.sub(r"(?<![\w'.\-])([A-Za-z_][\w'\-₀-₉]*)", lambda w: to.get(w[1], w[1]), body)
            word = "invariant" if m[1] == "invariant" else "decreases"
            out.append((d["comment"], f"abbrev pub {word}-{new} : goal.{word}-{new}\n{word}-{new} l =" + ("\n    " + body if "\n" in body else " " + body)))
        return out

    def answers(self, found):
        kept, helpers, local = [], [], {}
        for d in found:
            m = re.match(r"tie\.Need-(\S+)(.*)$", d["type"])
            if m:
                hit = self.needs.get(norm(m[1])) or self.needs.get(norm(d["name"]))
                if not hit:
                    self.said.append(f"goal {m[1]}")
                    continue
                local[d["name"]] = (d, *hit)
            elif not re.match(r"tie\.", d["type"]) and not d["name"].endswith("spec"):
                helpers.append(d)
        cited = {n for n in local for d in found if d["name"] != n and not d["name"].endswith("spec") and re.search(rf"(?<![\w'.\-]){re.escape(n)}(?![\w'\-])", "\n".join(d["body"]))}
        for name, (d, new, at) in local.items():
            body = [l for l in d["body"]]
            head = [l for l in body if l.startswith("unfolding")]
            rest = [l for l in body if not l.startswith("unfolding")]
            text = "\n".join(rest)
            left, right = text.split("=", 1)
            right = right.strip("\n").strip() if "\n" not in right.strip() else right.strip()
            if right in TRIVIAL and not head and name not in cited:
                continue
            right = self.flat(right, at)
            for other, (_, o, _) in local.items():
                right = re.sub(rf"(?<![\w'.\-]){re.escape(other)}(?= c)", o, right)
            joint = "\n    " if "\n" in right else " "
            lines = [f"pub {new} : goal.{new}", *head, f"{new} c ={joint}{right}"]
            kept.append((d["comment"], "\n".join(lines)))
        return helpers, kept


def turn(crate):
    names = names_of(crate)
    if names is None:
        return
    for folder, dirs, files in sorted(os.walk(f"crates/{crate}/proofs")):
        if "Proof.antt" not in files:
            continue
        path = os.path.join(folder, "Proof.antt")
        with open(path, encoding="utf-8") as f:
            text = f.read()
        if "tie.close" not in text:
            print(f"left: {path}: no tie")
            continue
        inside = os.path.relpath(folder, f"crates/{crate}/proofs").replace("/", ".")
        facts = names.get(f"Rattle-{crate}-proofs.{inside}.Lts")
        if facts is None:
            print(f"left: {path}: no names ({[k for k in names if inside.split('.')[-1] in k]})")
            continue
        it = Folder(crate, folder, facts)
        head, uses, found = declarations(text)
        uses = [u for u in uses if not re.search(r"\.(Tie|Statement)(\.\{| as )", u)]
        invariants = it.invariants(found)
        helpers, kept = it.answers(found)
        os.remove(path)
        if invariants:
            write(folder, "Invariants", head, uses, f"use {it.module}.Given as goal", invariants)
        if kept:
            items = [(d["comment"], "\n".join([f"{d['name']} : {d['type']}", *d["body"]])) for d in helpers]
            write(folder, "Answers", head, uses, f"use {it.module}.Goals as goal", items + kept)
        if not os.listdir(folder):
            os.rmdir(folder)
        for s in it.said:
            print(f"look: {folder}: {s}")


def write(folder, name, head, uses, goal, items):
    parts = ["\n".join([*head, *uses, goal])] + ["\n".join([*comment, text]) for comment, text in items]
    with open(os.path.join(folder, name + ".antt"), "w", encoding="utf-8") as f:
        f.write("\n\n".join(parts) + "\n")


def inside_last(path):
    return path.rstrip("/").split("/")[-1]


def parts(text):
    """The parts of a tuple, those of a last part that is a tuple too in their row; or None."""
    text = text.strip()
    if not (text.startswith("(") and text.endswith(")")):
        return None
    found, deep, start = [], 0, 1
    for i, ch in enumerate(text):
        deep += (ch in "([{") - (ch in ")]}")
        if deep == 0 and i < len(text) - 1:
            return None
        if (ch == "," and deep == 1) or i == len(text) - 1:
            found.append(text[start:i].strip())
            start = i + 1
    return found


def named(text, fields):
    found = parts(text)
    while found and len(found) < len(fields) and parts(found[-1]):
        found = found[:-1] + parts(found[-1])
    if not found or len(found) != len(fields):
        return None
    return "record { " + "; ".join(f"{f} = {p}" for f, p in zip(fields, found)) + " }"


def mend(crate):
    """Mends what a check says of tuples where clauses have names now, and of the slices that keep their length."""
    r = subprocess.run(["rt", "check"], cwd=f"crates/{crate}", capture_output=True, text=True)
    lines = (r.stdout + r.stderr).split("\n")
    for line, after in zip(lines, lines[1:] + [""]):
        m = re.match(r"\./(proofs/\S+\.antt):(\d+):(\d+): error: `([^`]+)`: (.*)", line)
        if not m:
            continue
        path = f"crates/{crate}/{m[1]}"
        with open(path, encoding="utf-8") as f:
            text = f.read()
        said = m[5] + " " + after
        tuple_ = re.search(r"is built with `record \{ (.*?) \}`", said)
        field = re.search(r"has no field `(\d)` — the fields that can be named here are (`\w+`(?:, `\w+`)*)", said)
        answer = re.search(rf"(?m)^{re.escape(m[4])} ((?:t )?c) =\s*", text)
        if not answer:
            continue
        end = text.find("\n\n", answer.end())
        end = len(text) if end < 0 else end
        body = text[answer.end():end].rstrip("\n")
        new = None
        if tuple_:
            new = named(body, re.findall(r"(\w+) = …", tuple_[1]))
        elif field:
            names = re.findall(r"`(\w+)`", field[2])
            if int(field[1]) < len(names):
                new = re.sub(rf"\.auto\.{field[1]}(?!\w)", f".auto.{names[int(field[1])]}", body)
        if new and new != body:
            with open(path, "w", encoding="utf-8") as f:
                f.write(text[:answer.end()] + new + text[answer.end() + len(body):])
            print(f"mended: {path}: {m[4]}")


if sys.argv[1:2] == ["mend"]:
    for crate in sys.argv[2:]:
        mend(crate)
else:
    for crate in sys.argv[1:]:
        turn(crate)
