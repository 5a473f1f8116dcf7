"""Which edits are tried together: those of bodies of different functions, each with its fact in its own function's proof."""
import os
import tempfile
import unittest

import must_fail
import together

CODE = """// Code.
const MOST: usize = 1;

pub fn opens(x: usize) -> usize {
    x + 1
}

fn closes(
    x: usize,
) -> usize
    requires { x ≤ 2 }
{
    if x == 3 {
        return 4;
    }
    5
}

#[cycle(turns)]
fn turns(x: usize) -> usize
    ensures { result ≡ 6 }
{
    6
}
"""


class Places(unittest.TestCase):
    def test_bodies(self):
        for old, function in (("x + 1", "opens"), ("x == 3", "closes"), ("    5", "closes"), ("6 }\n{\n    6", None), ("    6", "turns"), ("≤ 2", None),
                              ("≡ 6", None), ("= 1;", None), ("Code", None), ("x: usize,", None), ("5\n}\n\n#", None)):
            with self.subTest(old):
                self.assertEqual(together.function_of(CODE, old), function)


class Groups(unittest.TestCase):
    def groups(self, *edits):
        """The names of the edits in each group; an edit is a text that it replaces, and its fact."""
        here = os.getcwd()
        with tempfile.TemporaryDirectory() as folder:
            os.chdir(folder)
            try:
                os.makedirs("crates/c/must-fail")
                os.makedirs("crates/c/src")
                for name, text in (("lib", CODE), ("part", CODE)):
                    with open(f"crates/c/src/{name}.rt", "w") as file:
                        file.write(text)
                for number, (source, old, fact) in enumerate(edits):
                    with open(f"crates/c/must-fail/{number}.edit", "w") as file:
                        file.write(f"Wrong.\nfile: src/{source}.rt\nold: {old}\nnew: 0\nfact: {fact}\n")
                read = [must_fail.read(f"crates/c/must-fail/{number}.edit") for number in range(len(edits))]
                return [[int(edit.name) for edit, _ in group] for group in together.groups(read)]
            finally:
                os.chdir(here)

    def test_different_functions(self):
        opens, closes = ("lib", "x + 1", "proofs/opens/Answers.antt returns"), ("lib", "x == 3", "src/lib.rt closes.returns")
        part = ("part", "x + 1", "proofs/part/opens/Answers.antt returns")
        self.assertEqual(self.groups(opens, closes, part), [[0, 1, 2]])
        self.assertEqual(self.groups(opens, opens, closes, closes), [[0, 2], [1, 3]])

    def test_alone(self):
        opens = ("lib", "x + 1", "proofs/opens/Answers.antt returns")
        for other in (("lib", "≤ 2", "proofs/closes/Answers.antt returns"), ("lib", "= 1;", "proofs/closes/Answers.antt returns"),
                      ("lib", "x == 3", "proofs/turns/Answers.antt returns"), ("lib", "x == 3", "proofs/Laws.antt law"),
                      ("lib", "x == 3", "src/lib.rt turns.returns"), ("lib", "x == 3", "proofs/part/closes/Answers.antt returns"),
                      ("lib", "    6", "proofs/+turns/Answers.antt returns")):
            with self.subTest(other):
                self.assertEqual(self.groups(opens, other), [[0], [1]])
