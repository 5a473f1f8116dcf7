"""An edit: a wrong program or a wrong definition, in a file NAME.edit of a crate's folder of edits.

The first line says what would be wrong. The others are
  file: PATH, old: TEXT, new: TEXT     TEXT stands once in the crate's file, and is replaced; a file: line holds for all pairs after it
and lines of the kind of edits, as fact: .., each at most once, or more often where its key is among `many`. An edit changes src or specs. Beside
that it may change proofs, so that a proof speaks of the wrong code by its names, and fails for what the code does."""
import os
import re

from fault import Fault, ask


class Edit:
    def __init__(self, path, keys, many=()):
        self.path, self.crate, self.name = path, path.split("/")[-3], os.path.basename(path)[:-len(".edit")]
        self.replaced, self.said = [], {key: [] for key in (*keys, *many)}
        lines = open(path).read().strip().split("\n")
        ask(not re.match(r"\w+:", lines[0]), f"{path}:1: what would be wrong is to stand here")
        file = old = None
        for number, line in enumerate(lines[1:], 2):
            key, _, value = line.partition(":")
            value = value.removeprefix(" ")
            if key == "file":
                file = value
            elif key == "old":
                old = value
            elif key == "new" and file and old:
                self.replaced.append((file, old, value))
                old = None
            elif key in self.said and (key in many or not self.said[key]):
                self.said[key].append((f"{path}:{number}", value))
            else:
                raise Fault(f"{path}:{number}: no line of an edit")
        ask(self.replaced and old is None, f"{path}: an edit has texts that it replaces, each with a new one")

    def says(self, key):
        """The text of the edit's line with a key, or None."""
        return self.said[key][0][1] if self.said[key] else None

    def apply(self, root):
        """Changes the copy of the edit's crate in a repository; a wrong program is never a change of proofs alone."""
        ask(any(file.startswith(("src/", "specs/")) for file, _, _ in self.replaced), f"{self.path}: an edit changes src or specs")
        for file, old, new in self.replaced:
            path = f"{root}/crates/{self.crate}/{file}"
            inside = file.startswith(("src/", "specs/", "proofs/")) and ".." not in file
            ask(inside and os.path.isfile(path), f"{self.path}: the crate has no {file} in its src, specs or proofs")
            before = open(path).read()
            ask(before.count(old) == 1, f"{self.path}: not once in {file}: {old}")
            with open(path, "w") as changed:
                changed.write(before.replace(old, new))
