"""Which edits a log of `rt ci` says to be refused at their fact."""
import os
import tempfile
import unittest

import told
from edit import Edit

SAID = "rt: must-fail c/e.edit: refused, as it must be: "
PROOF, SOURCE = "fact: proofs/f/Answers.antt returns", "fact: src/lib.rt g.returns-2"
DIFFERS = "./proofs/f/Answers.antt:7:13: error: `returns`: `search`: no proof of `x ≡ y"


class Tells(unittest.TestCase):
    def setUp(self):
        folder = tempfile.TemporaryDirectory()
        self.addCleanup(folder.cleanup)
        self.addCleanup(os.chdir, os.getcwd())
        os.chdir(folder.name)
        os.makedirs("crates/c/src")
        os.makedirs("crates/c/must-fail")
        with open("crates/c/src/lib.rt", "w") as file:
            file.write("fn f() {\n}\n\nfn g() {\n    f()\n}\n")

    def tells(self, fact, log):
        with open("crates/c/must-fail/e.edit", "w") as file:
            file.write(f"Wrong.\nfile: src/lib.rt\nold: f()\nnew: g()\n{fact}\n")
        edit = Edit("crates/c/must-fail/e.edit", ("fact",))
        return told.at_their_fact([edit], f"== c\nlogic=proved\n{log}\n2 passed, 0 failed\n") == [edit]

    def test_its_fact(self):
        self.assertTrue(self.tells(PROOF, SAID + DIFFERS))
        self.assertTrue(self.tells(SOURCE, f"{SAID}note: src/lib.rt:5:5: it is not proved that what the function ensures holds (`returns-2`); wh"))

    def test_another_fact(self):
        self.assertFalse(self.tells(SOURCE, SAID + DIFFERS))
        self.assertFalse(self.tells("fact: proofs/f/Answers.antt returns-2", SAID + DIFFERS))
        self.assertFalse(self.tells(PROOF, SAID.replace("/e.edit", "/d.edit") + DIFFERS))
        self.assertFalse(self.tells(PROOF, SAID.replace(" c/", " d/") + DIFFERS))

    def test_no_fact(self):
        self.assertFalse(self.tells(PROOF, f"{SAID}./proofs/f/Answers.antt:7:13: error: `returns`: `e5` is not in scope"))
        self.assertFalse(self.tells(PROOF, f"{SAID}./proofs/f/Answers.antt:7:13: error: `returns`: `rw` found nothing to rewr"))

    def test_a_message_that_is_cut(self):
        self.assertTrue(self.tells(PROOF, f"{SAID}./proofs/f/Answers.antt:7:13: error: `returns`: expected type `x ≡ y` but thi"))
        self.assertFalse(self.tells(SOURCE, f"{SAID}note: src/lib.rt:5:5: it is not proved that what the function ensures holds (`retu"))

    def test_not_refused_for_the_edit(self):
        for log in ("", "rt: must-fail c/e.edit: BAD EDIT: it changes nothing", "rt: must-fail c/e.edit: NOT REFUSED: the crate is still proved",
                    SAID.replace(": ./", "") + "(only because a proof file names what the edit took away): " + DIFFERS):
            with self.subTest(log):
                self.assertFalse(self.tells(PROOF, log))
