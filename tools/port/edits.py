#!/usr/bin/env python3
"""Brings the wrong programs of LANDED to today's text. usage: python3 tools/port/edits.py [--write], at the top of the repository.

Each old: of an edit is a text of one line of a file as it was at LANDED. That line is found by its place there, and today's line at the matching
place. If LANDED's old:, spelled as today (spell.py's names, paths, clauses, projections), stands in that line and nowhere else in the file, it is
today's old:, and LANDED's new:, spelled in the same way, is today's new:. All else is printed, with LANDED's texts and today's line: it is turned by
hand. An edit that fits already, at the matching place, is left as it is. Names are read from target/spell.tsv (spell.py --list)."""
import difflib
import glob
import os
import re
import subprocess
import sys

LANDED = "bf7ae5f"
NAMES = "target/spell.tsv"
WORD = re.compile(r"[A-Za-z_ℕℤ][\w'′\-₀-₉ˡˢ]*")
TURNED = [(r"Rattle·(\w+)·specs\.specs\.", r"Rattle.\1.specs."), (r"Rattle·(\w+)\.specs\.", r"Rattle.\1.specs."), (r"mir\.Syntax\.", "Rattle.std.specs.Int."),
          ("′", "'"), (r"\bgetD\b", "get_or"), (r"\bneg_?ℤ", "neg_ℤ"), (r"\{ λ r\. ⌜ (.*) ⌝ \}", lambda m: "{ %s }" % re.sub(r"\br\b", "result", m[1])),
          (r" ?⌝", ""), (r"⌜ ?", ""),
          (r"\bnow \((\w+) \.entry\)", r"\1.now"), (r"\bnow \((\w+) \.exit\)", r"\1.new"), (r"\bnow (\w+)\b", r"\1.now"), (r"(?<=[\w)]) \.(?=\w)", "."),
          (r"\(([\w']+(?:\.\w+)+)\)", r"\1"), (r"(?<=\w)-(?=\w)", "_")]


def names():
    return dict(line.rstrip("\n").split("\t") for line in open(NAMES) if "\t" in line)


def spelled(text, turned):
    """A text of LANDED in today's spelling, as far as rules go."""
    text = WORD.sub(lambda word: turned.get(word[0], word[0]), text)
    for rule, by in TURNED:
        text = re.sub(rule, by, text)
    return text


def landed(path):
    ran = subprocess.run(["git", "show", f"{LANDED}:{path}"], capture_output=True, text=True)
    return ran.stdout if ran.returncode == 0 else None


def pairs(text):
    """Each file, old and new of an edit, with the lines where old and new stand."""
    file = old = None
    for at, line in enumerate(text.strip().split("\n")):
        key, _, value = line.partition(":")
        value = value.removeprefix(" ")
        if key == "file":
            file = value
        elif key == "old":
            old = at, value
        elif key == "new":
            yield file, old, (at, value)


def matching(before, after, turned):
    """For each line before the one that stands for it after, or None."""
    old, new = ([" ".join(spelled(line, turned).split()) for line in lines] for lines in (before, after))
    found = [None] * len(old)
    for kind, a, b, c, d in difflib.SequenceMatcher(None, old, new, autojunk=False).get_opcodes():
        for i in range(a, b):
            if kind == "equal":
                found[i] = c + i - a
            elif c < d:
                found[i] = max(range(c, d), key=lambda j: difflib.SequenceMatcher(None, old[i], new[j]).ratio())
    return found


def line_at(text, part):
    return text[:text.index(part)].count("\n")


def turn(path, turned, write):
    """Whether all pairs of an edit fit today, after what can be turned was."""
    then, lines, right = landed(path), open(path).read().strip().split("\n"), True
    if then is None:
        return True
    files = {}
    if len(list(pairs(then))) != len(list(pairs("\n".join(lines)))):
        print(f"{path}: its pairs are others than LANDED's, so it is read by hand")
        return True
    for (file, (_, old), (_, new)), (_, (old_at, today), (new_at, today_new)) in zip(pairs(then), pairs("\n".join(lines))):
        place = f"crates/{path.split('/')[1]}/{file}"
        if file not in files:
            text = open(place).read() if os.path.exists(place) else ""
            files[file] = landed(place), text, matching(landed(place).split("\n"), text.split("\n"), turned)
        before, after, match = files[file]
        at = match[line_at(before, old)]
        line = after.split("\n")[at] if at is not None else ""
        if not (after.count(today) == 1 and line_at(after, today) == at):
            today, today_new = spelled(old, turned), spelled(new, turned)
            if line and after.count(today) == 1 and line_at(after, today) == at:
                lines[old_at], lines[new_at] = f"old: {today}", f"new: {today_new}"
                print(f"{path}: turned\n  old: {old}\n  new: {new}\n  now: {today}\n   by: {today_new}")
            else:
                right = False
                print(f"{path}: BY HAND\n  old: {old}\n  new: {new}\n line: {line}")
        files[file] = before.replace(old, new), after.replace(today, today_new), match
    if write:
        with open(path, "w") as file:
            file.write("\n".join(lines) + "\n")
    return right


def main(words):
    turned = names()
    results = [turn(path, turned, "--write" in words) for path in sorted(glob.glob("crates/*/*-edits/*.edit") + glob.glob("crates/*/must-fail/*.edit"))]
    print(f"{sum(results)} edits fit, {len(results) - sum(results)} are left")


if __name__ == "__main__":
    main(sys.argv[1:])
