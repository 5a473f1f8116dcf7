#!/usr/bin/env python3
"""Spells the repository's own definitions and lemmas as today's Rattle does: functions, fields and lemmas in snake case, with a dash only between
the names of two definitions. usage: python3 tools/port/spell.py [--list], at the top of the repository, once, behind the kit's port.py; --list only prints the names, old and new.

Names of types, of modules and of what the source declares stay. A name whose new spelling is some other word already keeps its dashes. The
names are those declared in specs/ and proofs/*.antt; they are turned in .antt files, in the clauses of .rt files and in the edits. A name that a
file imports from elsewhere is left alone in that file."""

import glob
import os
import re
import sys

WORD = re.compile(r"[A-Za-z_ℕℤ][\w'\-₀-₉ˡˢ]*")
DECLARED = re.compile(r"^( *)(?:pub )?(?:abbrev |unfoldable )?(?:pub )?(record |data |ruleset |unfoldable )?(?:pub )?([A-Za-z_][\w'\-₀-₉ˡˢ]*)(?= :| \()")
CAMEL = re.compile(r"^[a-z][a-z0-9]*(?:[A-Z][a-z0-9]*)+'*$")
# definitions whose snake case is the name of a lemma or a field already
BY_HAND = {
    "allDigits": "only_digits", "byLines": "through_lines", "endLine": "after_line", "fitLine": "fit_of_line", "goesOn": "goes_further",
    "movedOn": "moved_further", "noCall": "without_call", "noPieces": "without_pieces", "oneMore": "one_more_of", "pastBy": "past_within",
    "tooLong": "is_too_long",
}
SOURCE = re.compile(r"\b(?:fn|let|let mut|const|static|struct|enum|mod)\s+(\w+)|\b(\w+)\s*:")


def files():
    antt = sorted(glob.glob("crates/*/specs/**/*.antt", recursive=True) + glob.glob("crates/*/proofs/**/*.antt", recursive=True))
    return antt, sorted(glob.glob("crates/*/src/**/*.rt", recursive=True)), sorted(glob.glob("crates/*/*-edits/*.edit") + glob.glob("crates/*/must-fail/*.edit"))


def is_shared(path):
    """Whether a file declares what other files cite: one of specs/, or one right in proofs/."""
    return "/specs/" in path or os.path.basename(os.path.dirname(path)) == "proofs"


def snake(part):
    return re.sub(r"(?<=[a-z0-9])([A-Z])", r"_\1", part).lower() if CAMEL.match(part) else part


def without_comments(text):
    return re.sub(r"(?m)(^|\s)--(?= ).*$", r"\1", text)


def imported(text):
    """The names that a file takes from modules that are not the repository's own."""
    names = set()
    for path, items in re.findall(r"(?:ghost )?use ([^\s{]+)\.\{([^}]*)\}", text):
        own = re.match(r"Rattle\.(\w+)\.", path)
        if not (own and os.path.isdir(f"crates/{own[1]}")):
            names |= {w.split(" as ")[0].strip() for w in items.split(",")}
    return names


def main(argv):
    antt, source, edits = files()
    read = {p: open(p, encoding="utf-8").read() for p in antt + source + edits}
    declared, defined, words = {}, set(), set()
    for p in antt:
        text = without_comments(read[p])
        words |= set(WORD.findall(text))
        if is_shared(p):
            for line in text.split("\n"):
                m = DECLARED.match(line)
                if m:
                    declared.setdefault(m[3], set()).add(p)
                    if not m[1] and re.match(r"(pub )?(abbrev|unfoldable|record|data)|.*\b(abbrev|unfoldable|record|data) ", line):
                        defined.add(m[3])
        defined |= {w for w in imported(text) if "-" not in w}
    source_words = set()
    for p in source:
        words |= set(WORD.findall(read[p]))
        source_words |= {a or b for a, b in SOURCE.findall(read[p])}
    turned = {}
    for name in sorted(n for n in declared if CAMEL.match(n)):
        new = BY_HAND.get(name, snake(name))
        if new in declared or new in turned.values():
            print(f"falls together: {name} with {new}", file=sys.stderr)
        turned[name] = new
    for name in sorted(n for n in declared if "-" in n):
        parts = name.split("-")
        new = snake(parts[0])
        for before, part in zip(parts, parts[1:]):
            both = before in defined and part in defined and "is" not in (before, part)
            new += ("-" if both else "_") + snake(part)
        dashed = "-".join(snake(p) for p in parts)
        for candidate in (new, dashed):
            if candidate == name or (candidate not in words and candidate not in turned.values()):
                if candidate != name:
                    turned[name] = candidate
                break
        else:
            print(f"keeps its spelling: {name}", file=sys.stderr)
    if "--list" in argv:
        for name, new in turned.items():
            print(f"{name}\t{new}")
        return
    for p in read:
        kept = imported(read[p])
        def one(m):
            w = m[0]
            return w if w in kept else turned.get(w, w)
        if p.endswith(".rt"):
            text = clauses(read[p], one)
        else:
            text = WORD.sub(one, read[p])
        if text != read[p]:
            with open(p, "w", encoding="utf-8") as f:
                f.write(text)


def clauses(text, one):
    """A source file with the words of its ghost uses and clauses turned."""
    text = re.sub(r"(?m)^ghost use [^;]*;", lambda m: WORD.sub(one, m[0]), text)
    out, at = [], 0
    for m in re.finditer(r"\b(?:requires|ensures)\*?(?: \w+)? \{|\bghost \w+: \{", text):
        if m.start() < at:
            continue
        end, deep = m.end(), 1
        while deep:
            deep += {"{": 1, "}": -1}.get(text[end], 0)
            end += 1
        out += [text[at:m.end()], WORD.sub(one, text[m.end():end])]
        at = end
    return "".join(out) + text[at:]


if __name__ == "__main__":
    main(sys.argv[1:])
