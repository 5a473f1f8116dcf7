"""How a proof is laid out, what of its imports is used, and where its facts stand."""
import unittest

import text


class Layout(unittest.TestCase):
    def test_steps_share_a_line(self):
        self.assertEqual(text.layout("        a (\n        b (\n        c))"), "        a (b (c))")

    def test_a_let_begins_a_line(self):
        self.assertEqual(text.layout("        a (\n        let x = y in"), "        a (\n        let x = y in")

    def test_no_step_joins_past_the_width(self):
        step = "        " + "x" * 100 + " ("
        self.assertEqual(text.layout(step + "\n" + step), step + "\n" + step)

    def test_a_long_list_is_cut_at_its_parts(self):
        line = "  f (" + " ∷ ".join(["element"] * 30) + ")"
        parts = text.wrap(line)
        self.assertGreater(len(parts), 1)
        self.assertTrue(all(len(part) <= text.WIDTH for part in parts))
        self.assertEqual(" ".join(" ".join(parts).split()), " ".join(line.split()))

    def test_no_tuple_is_cut(self):
        line = "  f (" + ", ".join(["(a) (b)"] * 40) + ")"
        self.assertEqual(text.places(line), [])
        self.assertEqual(text.wrap(line), [line])

    def test_a_comment_is_not_cut(self):
        line = "-- " + "a ∷ " * 60
        self.assertEqual(text.wrap(line), [line])


class Imports(unittest.TestCase):
    def test_only_names_that_the_body_has(self):
        self.assertEqual(text.used(["use a.B.{one, two}", "use c.D.{three}"], "f one"), ["use a.B.{one}"])

    def test_a_module_by_its_name(self):
        self.assertEqual(text.used(["use a.B as B", "use a.C as C"], "f (B.law x)"), ["use a.B as B"])

    def test_an_operator_by_its_marks(self):
        self.assertEqual(text.used(["use a.B.{_≤_, _<_}"], "x ≤ y"), ["use a.B.{_≤_}"])

    def test_under_another_name(self):
        self.assertEqual(text.used(["use a.B.{x as y}"], "x"), [])

    def test_a_cited_name_is_imported_once(self):
        lines = text.standard(["use lib.ListN.{length, take}", "use lib.Dec.{eqb}"])
        self.assertEqual([line for line in lines if "lib.ListN" in line], ["use lib.ListN.{length, replicate, length-replicate, getD, take}"])
        self.assertEqual(sum("eqb" in line.replace("eqb-", "") for line in lines), 1)


class Marks(unittest.TestCase):
    def test_facts_have_their_places(self):
        proof = "f (" + text.marked("g.ret1", "law (" + text.marked("g.call1", "x") + ")") + ")"
        self.assertEqual(text.unmarked(proof), "f (law (x))")
        self.assertEqual(sorted(text.facts(proof)), [(3, 10, "g.ret1"), (8, 9, "g.call1")])

    def test_marks_are_no_part_of_a_name(self):
        self.assertIn("use a.B.{law}", text.file("Shows.", ["use a.B.{law}"], text.marked("g.ret1", "law")))
