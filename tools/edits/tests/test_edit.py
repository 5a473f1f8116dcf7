"""How an edit is read, applied and given its fact; and the repository that it is tried in."""
import os
import tempfile
import unittest

import must_fail
import repository
from edit import Edit
from fault import Fault

PLAIN = "Wrong.\nfile: src/lib.rt\nold:     a\nnew:     c\n"


def put(path, text):
    os.makedirs(os.path.dirname(os.path.abspath(path)), exist_ok=True)
    with open(path, "w") as file:
        file.write(text)


class Reads(unittest.TestCase):
    def setUp(self):
        self.folder = tempfile.TemporaryDirectory()
        self.root = self.folder.name
        put(f"{self.root}/crates/c/src/lib.rt", "    a\n    b\n    b\n")

    def tearDown(self):
        self.folder.cleanup()

    def edit(self, lines):
        path = f"{self.root}/crates/c/must-fail/e.edit"
        put(path, lines)
        return Edit(path, ("fact",), ("answer",))

    def applied(self, lines):
        self.edit(lines).apply(self.root)
        return open(f"{self.root}/crates/c/src/lib.rt").read()

    def test_replaces(self):
        self.assertEqual(self.applied(PLAIN), "    c\n    b\n    b\n")
        self.assertEqual(self.applied("Wrong.\nfile: src/lib.rt\nold: c\nnew: de\nold: d\nnew:\n"), "    e\n    b\n    b\n")

    def test_says(self):
        edit = self.edit(PLAIN + "fact: F.antt a\nanswer: x: y\nanswer: z\n")
        self.assertEqual((edit.crate, edit.name, edit.says("fact"), [text for _, text in edit.said["answer"]]), ("c", "e", "F.antt a", ["x: y", "z"]))

    def test_faults(self):
        for lines, fault in (("file: src/lib.rt\n", ":1: what would be wrong"), ("Wrong.\nfiel: src/lib.rt\n", ":2: no line of an edit"),
                             ("Wrong.\nold: a\nnew: b\n", ":3: no line of an edit"), ("Wrong.\nfile: src/lib.rt\nold: a\n", "each with a new one"),
                             (PLAIN + "fact: a\nfact: b\n", ":6: no line of an edit"), (PLAIN.replace("a", "b"), "not once in src/lib.rt"),
                             (PLAIN.replace("    a", "z"), "not once in src/lib.rt: z"), (PLAIN.replace("src/lib.rt", "proofs/f"), "changes src or specs"),
                             (PLAIN + "file: proofs/f\nold: a\nnew: b\n", "no proofs/f in its src"),
                             (PLAIN.replace("src/", "src/../src/"), "in its src, specs or proofs")):
            with self.subTest(fault), self.assertRaisesRegex(Fault, fault):
                self.applied(lines)

    def test_its_fact_is_put(self):
        for lines in (PLAIN, PLAIN + "fact: F.antt a\n"):
            edit = self.edit(lines)
            must_fail.put_fact(edit, "G.antt b")
            self.assertEqual(open(edit.path).read(), PLAIN + "fact: G.antt b\n")


class Makes(unittest.TestCase):
    def test_copies_what_the_crate_needs(self):
        here = os.getcwd()
        with tempfile.TemporaryDirectory() as folder:
            os.chdir(folder)
            try:
                self.make()
            finally:
                os.chdir(here)

    def make(self):
        put("crates.txt", "# first\na:\nb staticlib: a  # second\nc: b std\nd: a\n\ne: c\n")
        put("HANDLES", "Handles allowed: none.\n")
        for crate in "abcde":
            put(f"crates/{crate}/src/lib.rt", crate)
            put(f"crates/{crate}/out/rlib/stamp", crate)
        put("crates/b/must-fail/e.edit", "Wrong.")
        put("crates/c/data/in", "c")
        self.assertEqual(repository.listed("."), {"a": [], "b": ["a"], "c": ["b", "std"], "d": ["a"], "e": ["c"]})
        root = repository.make("target/edits/b/e", "b", ("c",))
        self.assertEqual(sorted(os.listdir(f"{root}/crates")), ["a", "b", "c"])
        self.assertEqual(open(f"{root}/crates.txt").read(), "a:\nb staticlib: a\nc: b std\n")
        self.assertEqual(open(f"{root}/HANDLES").read(), "Handles allowed: none.\n")
        self.assertEqual((os.listdir(f"{root}/crates/b/must-fail"), os.listdir(f"{root}/crates/c/data")), ([], ["in"]))
        self.assertFalse(os.path.exists(f"{root}/crates/a/out"))
        put(f"{root}/crates/b/src/lib.rt", "changed")
        self.assertEqual(open("crates/b/src/lib.rt").read(), "b")
