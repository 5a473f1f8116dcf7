"""The commands of the package, on a machine without the kit: in its folder and in others, on every example."""
import glob
import os
import shutil

from package import ENVIRONMENT, ROOT, Unpacked, below, made, read

COMMANDS = ("expand", "check", "why")
ALONE = (*COMMANDS, "README.md", "VERSION", "bin/check_text", "bin/expand", "bin/fit_line", "docs/NUMBERS.md", "docs/TEMPLATES.md",
         "include/stage2.h", "lib/libstage2.a")
SESSION = "examples/session.text"
OPTIONS = (("-4", "second"), ("--report", "report"))


class Contents(Unpacked):
    def test_the_kit_is_not_there(self):
        self.assertIsNone(shutil.which("rt", path=ENVIRONMENT["PATH"]))
        self.assertFalse(os.path.exists(f"{self.home}/crates.txt"))

    def test_the_archive_has_its_version(self):
        version = read(f"{ROOT}/VERSION").decode().strip()
        self.assertEqual((self.name, os.path.basename(made())), (f"tumbayog-{version}", f"tumbayog-{version}-linux-x86_64.tar.gz"))

    def test_its_files(self):
        whole = [name for folder in ("commands", "examples") for name in below(ROOT, folder)]
        session = ["examples/session.text", "examples/session.out"]
        self.assertEqual(below(self.home, "."), sorted([*ALONE, *whole, *session]))
        for name in whole:
            self.assertEqual(read(f"{self.home}/{name}"), read(f"{ROOT}/{name}"))
        for name in session:
            self.assertEqual(read(f"{self.home}/{name}"), read(f"{ROOT}/{name.replace('examples', 'vectors/run')}"))


class Session(Unpacked):
    def test_in_the_package(self):
        expected = 0, read(f"{self.home}/examples/session.out"), b""
        self.assertEqual(self.ran(["./expand", SESSION]), expected)

    def test_in_another_folder(self):
        expected = 0, read(f"{self.home}/examples/session.out"), b""
        self.assertEqual(self.ran([f"{self.home}/expand", f"{self.home}/{SESSION}"], self.other), expected)

    def test_by_links(self):
        """Each command by a link on the PATH, and by a link to that link."""
        os.mkdir(f"{self.other}/bin")
        for command in COMMANDS:
            os.symlink(f"{self.home}/{command}", f"{self.other}/bin/{command}")
            os.symlink(f"bin/{command}", f"{self.other}/{command}")
        on_path = {"PATH": f"{self.other}/bin:{ENVIRONMENT['PATH']}"}
        for words in (["expand", f"{self.home}/{SESSION}"], ["check", f"{self.home}/{SESSION}"], ["why", f"{self.home}/{SESSION}", "NAME x"]):
            expected = self.ran([f"{self.home}/{words[0]}", *words[1:]])
            self.assertEqual(expected[0], 0)
            self.assertEqual(self.ran(["sh", "-c", '"$@"', "sh", *words], self.other, on_path), expected)
            self.assertEqual(self.ran([f"./{words[0]}", *words[1:]], self.other), expected)

    def test_with_the_output_in_a_file(self):
        output, end = read(f"{self.home}/examples/session.out").splitlines(True)[:-1], b"END 0 9 5\n"
        self.assertEqual(self.ran(["./expand", SESSION, "-o", f"{self.other}/out"]), (0, end, b""))
        self.assertEqual(read(f"{self.other}/out"), b"".join(output))

    def test_check_and_why(self):
        self.assertEqual(self.ran(["./check", SESSION]), (0, b"examples/session.text 0 7\n", b""))
        for line in (["NAME Kern &amp; Co"], ["-n", "8"]):
            status, printed, said = self.ran(["./why", SESSION, *line])
            self.assertEqual((status, said), (0, b""))
            for part in (b"NAME !&amp;!", b'"Kern "', b'" Co"'):
                self.assertIn(part, printed)

    def test_versions_and_help(self):
        for command in COMMANDS:
            status, printed, said = self.ran([f"./{command}", "--version"])
            self.assertEqual((status, said, len(printed.splitlines())), (0, b"", 1))
            self.assertIn(self.name.removeprefix("tumbayog-").encode(), printed.split())
            status, printed, said = self.ran([f"./{command}", "--help"])
            self.assertEqual((status, said), (0, b""))
            self.assertIn(f"./{command} ".encode(), printed)

    def test_a_program_that_is_missing(self):
        for command, program in zip(COMMANDS, ("expand", "check_text", "fit_line")):
            os.remove(f"{self.home}/bin/{program}")
            status, printed, said = self.ran([f"./{command}", SESSION, *(["x"] if command == "why" else [])])
            self.assertEqual((status, printed, len(said.splitlines())), (101, b"", 1))


class Examples(Unpacked):
    def expand(self, text):
        """Expands an example with a file for each of its results; the number of its END line is the status."""
        beside = [(option, text.removesuffix("text") + ending) for option, ending in OPTIONS]
        written = [(option, file, f"{self.other}/{option}") for option, file in beside if os.path.isfile(f"{self.home}/{file}")]
        status, printed, said = self.ran(["./expand", text, *(word for option, _, path in written for word in (option, path))])
        self.assertEqual(printed, read(f"{self.home}/{text.removesuffix('text')}out"))
        for _, file, path in written:
            self.assertEqual(read(path), read(f"{self.home}/{file}"))
        number = printed.splitlines()[-1].split()[1]
        self.assertEqual(status, int(number))
        self.assertEqual(len(said.splitlines()), 0 if status == 0 else 1)
        self.assertTrue(status == 0 or said.startswith(b"expand: " + number + b": "), said)
        return status, len(written)

    def test_each(self):
        texts = sorted(glob.glob("examples/**/*.text", root_dir=self.home, recursive=True))
        results = []
        for text in texts:
            with self.subTest(text):
                results.append(self.expand(text))
        self.assertGreaterEqual(len(texts), 40)
        self.assertGreaterEqual(len({status for status, _ in results}), 20)
        self.assertGreaterEqual(sum(files for _, files in results), 4)
