"""Answers, and the faults that they can have: each names its file and line."""
import unittest

from answers import Answers
from fault import Fault

GOOD = """# a comment
walk f g: They end.
use a.B.{law, other}

@t: (t1, x)
f.call1: law @t
f.less(g 2): other
f.ret*: pre
"""


def faults(text, instead=()):
    try:
        answers = Answers("a", text, instead)
        answers.refuse_unused([])
    except Fault as fault:
        return str(fault).split("\n")
    return []


class Reads(unittest.TestCase):
    def test_lines(self):
        answers = Answers("a", GOOD)
        self.assertEqual(answers.walks, [("a:2", ["f", "g"], "They end.")])
        self.assertEqual(answers.of("f", "call1"), "law (t1, x)")
        self.assertEqual(answers.of("f", "less3", "less(g 2)", "less*"), "other")
        self.assertEqual(answers.of("f", "ret7", "ret*"), "pre")
        self.assertIsNone(answers.of("f", "call2", "call*"))

    def test_all_used(self):
        answers = Answers("a", GOOD)
        for key in ("call1", "less(g 2)", "ret*"):
            answers.of("f", key)
        answers.refuse_unused(["use a.B.{law}\n", "use a.B.{other, more}\n"])

    def test_an_edit_goes_before(self):
        answers = Answers("a", GOOD, [("e:5", "f.call(h): mine @t"), ("e:6", "@t: yours")])
        self.assertEqual(answers.of("f", "call1", "call(h)"), "mine yours")
        answers = Answers("a", GOOD, [("e:5", "f.call(h): mine")])
        with self.assertRaisesRegex(Fault, "e:5: f.call.h. answers no fact"):
            answers.refuse_unused_instead()
        self.assertIn("e:5: a has no @u", faults(GOOD, [("e:5", "@u: x")]))


class Faults(unittest.TestCase):
    def test_a_misspelt_key(self):
        for line in ("f.cal1: x", "f.call: x", "f.call(): x", "f.add(g): x", "f.measure1: x", "f: x", "words", "f.call1 x"):
            with self.subTest(line):
                self.assertRegex(faults(GOOD + line)[0], r"a:9: .* is no key of a fact, nor another line of answers")

    def test_a_text_that_is_not_defined(self):
        self.assertIn("a:9: @u is not defined above", faults(GOOD + "f.call2: @u"))

    def test_texts_in_a_cycle(self):
        self.assertEqual(faults("@u: @v\n@v: @u")[0], "a:1: @v is not defined above")
        self.assertEqual(faults("@u: @u")[0], "a:1: @u is not defined above")

    def test_a_key_twice(self):
        self.assertIn("a:9: f.call1 has a line above, too", faults(GOOD + "f.call1: x"))

    def test_what_is_not_used(self):
        self.assertEqual(faults(GOOD), ["a:6: f.call1 answers no fact", "a:7: f.less(g 2) answers no fact", "a:8: f.ret* answers no fact",
                                        "a:3: no walk uses law", "a:3: no walk uses other"])
        self.assertIn("a:9: @u is in no line below", faults(GOOD + "@u: x"))

    def test_a_function_that_is_not_walked(self):
        self.assertIn("a:9: h is not walked", faults(GOOD + "h.call1: x"))
