"""What is read of the code that `rt mir` prints."""
import os
import tempfile
import unittest

import harness
import mir
from fault import Fault

PRINTED = """program (lcons (fn-def "c::f" (fnItem 1 lnil 1
  (lcons (local (tyInt 64) valueLocal) (lcons (local (tyNamed (pair "c::T" lnil)) valueLocal) lnil))
  (seq (loop (seq (call (fn (pair "d::g" lnil)) lnil (place 1 lnil)) (assign (place 0 lnil) (rvOpd unit)))) return))
  (lcons (pair "c::T" (struct (tcons (tyInt 8) tnil))) lnil)) lnil)"""


class Reads(unittest.TestCase):
    def test_functions_and_types(self):
        functions, types = mir.tables(PRINTED)
        f = functions["c::f"]
        self.assertEqual((f.short, f.lifetimes, f.params, len(f.locals)), ("f", 1, 1, 2))
        self.assertEqual(list(types), ["c::T"])
        self.assertEqual((mir.called(f.body), mir.assigned(f.body), mir.has_loop(f.body)), ({"d::g"}, {0, 1}, True))
        self.assertEqual(mir.types(f.locals, set()), {"c::T"})

    def test_a_cut_text_is_a_fault(self):
        for printed in (PRINTED[:-3], PRINTED + ")"):
            with self.assertRaises(Fault):
                mir.tables(printed)

    @unittest.skipUnless(harness.prints_code(), harness.NO_CODE)
    def test_code_that_does_not_compile_is_a_fault(self):
        with tempfile.TemporaryDirectory() as root:
            os.makedirs(f"{root}/crates/c/src")
            for path, text in (("crates.txt", "c:\n"), ("crates/c/src/lib.rt", "fn f() -> usize {\n    true\n}\n")):
                with open(f"{root}/{path}", "w") as file:
                    file.write(text)
            with self.assertRaisesRegex(Fault, r"rt mir c ended with status \d(.|\n)*usize"):
                mir.load(root, "c")
