"""When a walked edit counts as refused: at its fact, for a term that does not have the fact's type."""
import tempfile
import unittest

import edits
import text
from fault import Fault

PATH = "crates/c/proofs/f/Proof.antt"
DIFFERS = "the two types first differ where one has `2`\n  expected type `x ≡ 1`\n  but this has type `x ≡ 2`"
WALK = "-- Shows.\nf = step (" + text.marked("f.ret1", "law (" + text.marked("f.call(g)", "e1") + ")") + ") end\n"


def judged(place, message, fact="f.ret1", status=1, laid=text.unmarked(WALK)):
    return edits.judge(fact, status, f"library c: loaded\n/r/{PATH}:{place}: error: {message}\n", "/r", {PATH: (WALK, laid)})


class Judges(unittest.TestCase):
    def test_refused_for_its_fact(self):
        self.assertEqual(judged("2:11", DIFFERS)[0], True)
        self.assertEqual(judged("2:11", "expected type `x ≡ 1`, but this has type `x ≡ 2`")[0], True)
        self.assertEqual(judged("2:11", "`walk-f`: `omega`: the goal does not follow from what it read")[0], True)
        self.assertEqual(judged("2:16", DIFFERS, "f.call(g)")[0], True)

    def test_another_layout(self):
        laid = "-- Shows.\nf =\n    step\n    (law\n    (e1)) end\n"
        self.assertEqual(judged("4:6", DIFFERS, laid=laid)[0], True)
        self.assertEqual(judged("5:6", DIFFERS, "f.call(g)", laid=laid)[0], True)
        with self.assertRaisesRegex(Fault, "more than its layout"):
            judged("4:6", DIFFERS, laid=laid.replace("e1", "e2"))

    def test_another_fact(self):
        self.assertRegex(judged("2:16", DIFFERS)[1], "ANOTHER FACT, f.call.g.")

    def test_the_shape(self):
        for place, message in (("2:11", "`e5` is not in scope"), ("2:11", "this is a hole"), ("2:11", "`law` was not admitted"),
                               ("2:2", DIFFERS), ("2:21", DIFFERS)):
            with self.subTest(place + message):
                self.assertRegex(judged(place, message)[1], "SHAPE")

    def test_another_file(self):
        said = "/r/crates/c/specs/S.antt:1:1: error: expected type `x`, but this has type `y`\n"
        self.assertRegex(edits.judge("f.ret1", 1, said, "/r", {PATH: (WALK, text.unmarked(WALK))})[1], "SHAPE")

    def test_proved_or_not_tried(self):
        self.assertEqual(edits.judge("f.ret1", 0, "", "/r", {}), (False, "PROVED"))
        self.assertEqual(edits.judge("f.ret1", 2, "a type error", "/r", {}), (False, "NOT TRIED (status 2): a type error"))


class Reads(unittest.TestCase):
    def test_its_lines(self):
        with tempfile.TemporaryDirectory() as folder:
            path = f"{folder}/e.edit"
            for lines, fault in (("Wrong.\nfile: src/lib.rt\nold: a\nnew: c\nanswer: f.ret1: x: y\nfact: f.ret1\n", None),
                                 ("Wrong.\nfile: src/lib.rt\nold: a\nnew: c\n", "has a fact")):
                with open(path, "w") as file:
                    file.write(lines)
                if fault:
                    self.assertRaisesRegex(Fault, fault, edits.read, path)
                else:
                    self.assertEqual((edits.read(path).says("fact"), edits.read(path).said["answer"][0][1]), ("f.ret1", "f.ret1: x: y"))
