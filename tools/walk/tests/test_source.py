"""What is read of the sources, and that what is not read is a fault and not a guess."""
import unittest

import source
from fault import Fault

CODE = """
// A row; fn commented(x: u8) is none.
pub struct Row {
    pub first: usize, // where it starts
    bytes: [u8; 9],
}

pub enum Step {
    Ended,
    On(usize, u8),
    Bad { at: usize },
}

pub fn plain(mut a: usize, rows: &[Row]) -> usize {
    a
}

fn told(
    a: usize,
    rows: &mut [Row],
) -> usize
    requires { ⌜ (a < 3) × Good a ⌝ }
    ensures { λ r. ⌜ r ≡ a ⌝ }
    ensures { λ r. ⌜ r < 3 ⌝ }
{
    a
}

fn tuple(a: (u8, u8)) -> u8 {
    0
}

fn of_any<'a>(a: &'a [u8]) -> usize {
    0
}

struct Pairs {
    all: [(u8, u8); 2],
}
"""


class Reads(unittest.TestCase):
    def setUp(self):
        self.source = source.Source.__new__(source.Source)
        self.source.functions, self.source.fields, self.source.variants = {}, {}, {}
        self.source.read("c", CODE)

    def test_a_function(self):
        told = self.source.function("c::told")
        self.assertEqual((told.params, told.requires, told.ensures), (["a", "rows"], [" (a < 3) × Good a "], 2))

    def test_a_function_without_clauses(self):
        plain = self.source.function("c::plain")
        self.assertEqual((plain.params, plain.requires, plain.ensures), (["a", "rows"], [], 0))

    def test_fields_and_variants(self):
        self.assertEqual(self.source.fields_of("c::Row"), ["first", "bytes"])
        self.assertEqual(self.source.variants_of("c::Step"), ["Ended", "On", "Bad"])

    def test_other_forms_are_faults(self):
        for ask, name in ((self.source.function, "tuple"), (self.source.function, "of_any"), (self.source.fields_of, "Pairs"),
                          (self.source.function, "commented"), (self.source.variants_of, "Row")):
            with self.subTest(name), self.assertRaisesRegex(Fault, f"crates/c/src: the .* {name} "):
                ask(f"c::{name}")

    def test_a_name_in_two_modules_is_a_fault(self):
        self.source.read("c", "fn plain(a: u8) -> u8 {\n    a\n}\n")
        with self.assertRaisesRegex(Fault, "plain"):
            self.source.function("c::inner::plain")
