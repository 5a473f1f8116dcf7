"""When an edit counts as refused: first at its fact, for something that does not hold there; and when a run tells."""
import os
import tempfile
import unittest

import must_fail
import run

LAST = "crate c: modules loaded=3 checked=1\nlogic=not-proved\nrt: rt lemma WORD.. finds a lemma\n"
CODE = "// Code.\npub fn opens(x: usize) -> usize {\n    x\n}\n#[cycle(closes)]\nfn closes(x: usize) -> usize\n    ensures { result ≡ x }\n{\n    x\n}\n"


def judged(*lines, status=1, last=LAST, fact=None):
    with tempfile.TemporaryDirectory() as root:
        os.makedirs(f"{root}/crates/c/src")
        with open(f"{root}/crates/c/src/lib.rt", "w") as file:
            file.write(CODE)
        told = "rt: chose --jobs 2 for c\n" + "".join(f"{line}\n" for line in lines) + last
        return must_fail.judge(status, told, f"{root}/crates/c", fact)


class Judges(unittest.TestCase):
    def test_an_error_names_its_declaration(self):
        for message in ("`search`: no proof of `x`", "`omega`: the goal does not follow from what it read", "`grind`: the goal does not follow",
                        "as printed, the two types differ only where one has `1`\n  expected type `x ≡ 1`\n  but this has type `x ≡ 2`",
                        "computed as far as they go, the two types are `x` and `y`", "as printed, the two values first differ where one has `1`",
                        "`f x` ≟ `g x`\n  does not hold (this comparison had to wait)"):
            with self.subTest(message):
                self.assertEqual(judged(f"./proofs/f/Answers.antt:3:9: error: `returns-then`: {message}")[0], "proofs/f/Answers.antt returns-then")

    def test_a_note_names_its_function(self):
        note = "note: src/lib.rt:9:1: it is not proved that what the function ensures holds when it returns (`returns`); the facts (`x`) allow it"
        self.assertEqual(judged(note)[0], "src/lib.rt closes.returns")
        self.assertEqual(judged(note.replace(":9:", ":3:"))[0], "src/lib.rt opens.returns")
        self.assertEqual(judged(note.replace(":9:", ":5:"))[0], "src/lib.rt closes.returns")

    def test_the_first_counts(self):
        first, second = "./proofs/F.antt:3:9: error: `a`: `search`: no proof of `x`", "./proofs/F.antt:8:9: error: `b`: `search`: no proof of `y`"
        note = "note: src/lib.rt:9:1: it is not proved that it holds (`returns`)"
        self.assertEqual(judged(first, second)[0], "proofs/F.antt a")
        self.assertEqual(judged(note, first)[0], "src/lib.rt closes.returns")
        self.assertEqual(judged("note: src/lib.rt:9:1: a remark", second, note)[0], "proofs/F.antt b")

    def test_a_later_fact(self):
        first, second = "./proofs/F.antt:3:9: error: `a`: `search`: no proof of `x`", "./proofs/F.antt:8:9: error: `b`: `search`: no proof of `y`"
        place, message = judged(first, second, fact="proofs/F.antt b")
        self.assertEqual((place, message.split(":")[0]), ("proofs/F.antt b", "behind proofs/F.antt a"))
        self.assertEqual(judged(first, second, fact="proofs/F.antt c")[0], "proofs/F.antt a")
        self.assertEqual(judged(first.replace("`search`: no proof of `x`", "this is a hole"), second, fact="proofs/F.antt b")[0], "proofs/F.antt b")
        self.assertEqual(judged(first, second.replace("`search`: no proof of `y`", "this is a hole"), fact="proofs/F.antt b")[0], "proofs/F.antt a")

    def test_what_follows_is_passed_over(self):
        note = "note: src/lib.rt:9:1: it is not proved that it holds (`returns`)"
        for message in ("`a`: `b` was not admitted (it was rejected), so this cannot be checked",
                        "1 declaration that depends on `b`, which was rejected, was not checked: a"):
            follows = f"./proofs/F.antt:3:9: error: {message}"
            with self.subTest(message):
                self.assertEqual(judged(follows, note)[0], "src/lib.rt closes.returns")
                self.assertRegex(judged(follows)[1], "SHAPE")

    def test_the_shape(self):
        for message in ("`a`: `rw`: no occurrence of `x`", "`a`: `e5` is not in scope", "`a`: `b` was not admitted", "no module `A`",
                        "expected type `x`, but this has type `y`"):
            with self.subTest(message):
                self.assertRegex(judged(f"./proofs/F.antt:3:9: error: {message}")[1], "SHAPE at proofs/F.antt:3")

    def test_another_crate(self):
        self.assertRegex(judged("../other/F.antt:3:9: error: `a`: `search`: no proof of `x`")[1], "SHAPE")

    def test_proved_or_not_tried(self):
        error = "./proofs/F.antt:3:9: error: `a`: `search`: no proof of `x`"
        self.assertEqual(judged(status=0, last="logic=proved\n"), (None, "PROVED"))
        self.assertRegex(judged(error, status=2)[1], "NOT TRIED .status 2.")
        self.assertRegex(judged(error, last="")[1], "NOT TRIED")
        self.assertRegex(judged("a type error")[1], "NOT TRIED")
        self.assertRegex(judged(error, last=LAST + "rt: the library b did not build, so nothing above it was checked\n")[1], "NOT TRIED")


class Runs(unittest.TestCase):
    def test_told(self):
        self.assertEqual(run.judge("p", "logic=proved", b"other", b"right")[0], True)

    def test_not_told(self):
        for wrote, said in ((b"right", "DOES NOT TELL"), (None, "NOT PROVED")):
            with self.subTest(said):
                right, message = run.judge("p", "logic=not-proved", wrote, b"right")
                self.assertEqual((right, said in message), (False, True))

    def test_what_is_written(self):
        with tempfile.TemporaryDirectory() as folder:
            self.assertEqual(run.written(folder, "p"), (None, b""))
            os.makedirs(f"{folder}/out")
            os.makedirs(f"{folder}/data")
            for name, text in (("out/p", "#!/bin/sh\ncat; echo \"$@\" $(ls)\n"), ("args", "a\nb\n"), ("stdin", "in "), ("stdout", "out\n"), ("data/file", "")):
                with open(f"{folder}/{name}", "w") as file:
                    file.write(text)
            os.chmod(f"{folder}/out/p", 0o755)
            self.assertEqual(run.written(folder, "p"), (b"in a b file\n", b"out\n"))
