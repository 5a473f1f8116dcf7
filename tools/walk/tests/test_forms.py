"""The walk of each form is the one that was proved, and the tool refuses a crate that it cannot write walks for."""
import os
import tempfile
import unittest

import harness
import source
import walks
from fault import Fault
from proof import Program


@unittest.skipUnless(harness.prints_code(), harness.NO_CODE)
class Forms(unittest.TestCase):
    @classmethod
    def setUpClass(cls):
        cls.folder = tempfile.TemporaryDirectory()
        cls.root = cls.folder.name
        harness.make_repository(cls.root)

    @classmethod
    def tearDownClass(cls):
        cls.folder.cleanup()

    def change(self, path, text):
        """Has a file of the repository say something else for one test."""
        before = open(f"{self.root}/{path}").read()
        self.addCleanup(walks.put, self.root, {path: before})
        walks.put(self.root, {path: text(before)})

    def test_each_walk_is_the_one_that_was_proved(self):
        written = walks.write_all(self.root, harness.FORMS)
        for form in harness.FORMS:
            with self.subTest(form):
                of_form = {path.split("/")[3]: text for path, text in written.items() if path.split("/")[1] == form}
                self.assertEqual(of_form, harness.expected(form))

    def test_nothing_is_written_into_the_tree(self):
        written = walks.write_all(self.root, ["a_loop"])
        self.assertFalse(os.path.exists(f"{self.root}/crates/a_loop/proofs"))
        path = "crates/a_loop/proofs/count/Proof.antt"
        self.assertEqual(list(walks.others(self.root, written, ["a_loop"])), [f"{path} is missing"])
        self.assertFalse(os.path.exists(f"{self.root}/crates/a_loop/proofs"))

    def test_another_proof_is_told(self):
        written = walks.write_all(self.root, ["a_loop"])
        with tempfile.TemporaryDirectory() as root:
            walks.put(root, written)
            self.assertEqual(list(walks.others(root, written, ["a_loop"])), [])
            self.assertEqual(list(walks.others(root, {}, ["a_loop"])), ["crates/a_loop/proofs/count/Proof.antt is of no walk in the answers"])
            walks.put(root, {path: text + "-- more\n" for path, text in written.items()})
            faults = list(walks.others(root, written, ["a_loop"]))
            self.assertEqual(faults, ["crates/a_loop/proofs/count/Proof.antt is not what its answers give"])

    def test_a_fact_without_an_answer_is_a_hole(self):
        self.change("tools/walk/answers/a_loop", lambda text: text.replace("count.ret1", "# count.ret1"))
        self.assertIn("(?)", "".join(walks.write_all(self.root, ["a_loop"]).values()))

    def test_other_walks_of_a_cycle_are_left_out(self):
        answers = walks.read_answers(self.root, "a_cycle")
        answers.only = "tell"
        (written,) = walks.write(Program(self.root, "a_cycle", source.Source(self.root)), answers).values()
        self.assertRegex(written, r"\n    walk-wait [^=]*=\n *\?\n")
        self.assertRegex(written, r"\n    walk-tell [^=]*=\n *Kit.qed")

    def test_an_answer_of_no_fact(self):
        self.change("tools/walk/answers/a_loop", lambda text: text + "count.ret2: refl\n")
        with self.assertRaisesRegex(Fault, "tools/walk/answers/a_loop:11: count.ret2 answers no fact"):
            walks.write_all(self.root, ["a_loop"])

    def test_a_walk_of_no_function(self):
        self.change("tools/walk/answers/a_loop", lambda text: text.replace("walk count:", "walk cuont:"))
        with self.assertRaisesRegex(Fault, "tools/walk/answers/a_loop:1: the code has no cuont"):
            walks.write_all(self.root, ["a_loop"])

    def test_a_crate_without_the_laws(self):
        self.change("crates.txt", lambda text: text.replace("a_loop: walk_laws", "a_loop:"))
        with self.assertRaisesRegex(Fault, "crates.txt: a_loop has walks, and not walk_laws among its dependencies"):
            walks.write_all(self.root, ["a_loop"])

    def test_a_crate_without_answers(self):
        with self.assertRaisesRegex(Fault, "tools/walk/answers/walk_laws is not there"):
            walks.write_all(self.root, ["walk_laws"])

    def test_a_form_that_has_no_steps(self):
        self.change("crates/a_loop/src/lib.rt", lambda text: text.replace("i += 1;", "i = (i << 1) + 1;"))
        with self.assertRaisesRegex(Fault, "answers/a_loop:1: a_loop::count has a form that tools/walk has no steps for: the operation shl"):
            walks.write_all(self.root, ["a_loop"])

    def test_a_match_on_a_number(self):
        self.change("crates/a_loop/src/lib.rt", lambda text: text.replace("i += 1;", "match i {\n            0 => i += 1,\n            _ => i += 1,\n        }"))
        with self.assertRaisesRegex(Fault, "a_loop::count has a form that tools/walk has no steps for: a match on a number"):
            walks.write_all(self.root, ["a_loop"])
