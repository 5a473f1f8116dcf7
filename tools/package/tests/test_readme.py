"""The package's README: what it names is there, what it says is printed is printed, and what it asks of the machine is enough."""
import os
import re
import shutil

from package import ENVIRONMENT, Unpacked, read


class Readme(Unpacked):
    def setUp(self):
        super().setUp()
        self.text = read(f"{self.home}/README.md").decode()
        self.blocks = [re.sub("^    ", "", block, flags=re.M) for block in re.findall(r"(?:^    .*\n)+", self.text, re.M)]
        self.code = re.findall(r"`([^`]+)`", self.text) + self.blocks

    def test_what_it_names_is_there(self):
        words = {word.removeprefix("-I") for code in self.code for word in code.split()}
        paths = {word for word in words if "/" in word and not word.startswith(("/", "~", '"'))}
        self.assertGreaterEqual(len(paths), 15)
        for path in paths:
            self.assertTrue(os.path.exists(f"{self.home}/{path}"), path)

    def test_what_the_guides_name_is_there(self):
        for guide in ("TEMPLATES", "NUMBERS"):
            paths = set(re.findall(r"(?:\./|examples/|docs/|vectors/|target/)[\w./-]+", read(f"{self.home}/docs/{guide}.md").decode()))
            self.assertTrue(paths)
            for path in paths:
                self.assertTrue(os.path.exists(f"{self.home}/{path}"), f"{guide}: {path}")

    def test_it_names_what_is_there(self):
        for name in set(os.listdir(self.home)) - {"README.md"}:
            folder = os.path.isdir(f"{self.home}/{name}")
            self.assertTrue(any(word.startswith(f"{name}/") if folder else word == name for code in self.code for word in code.split()), name)

    def test_what_is_printed(self):
        """Each call that stands alone is followed by all that it prints; the first is the session."""
        calls = [(block, after.encode()) for block, after in zip(self.blocks, self.blocks[1:]) if block.startswith("./")]
        self.assertEqual(calls[0], ("./expand examples/session.text\n", read(f"{self.home}/examples/session.out")))
        self.assertGreaterEqual(len(calls), 4)
        for call, printed in calls:
            with self.subTest(call):
                self.assertEqual(self.ran(["sh", "-c", call]), (0, printed, b""))

    def test_each_status(self):
        rows = [int(number) for number in re.findall(r"^\| (\d+) \|", self.text, re.M)]
        self.assertEqual(rows, list(range(100, 107)))

    def test_the_linking_lines(self):
        [lines] = [block for block in self.blocks if block.startswith("cc ")]
        for line in lines.splitlines():
            words = line.split()
            if not shutil.which(words[0]):
                continue
            self.assertEqual(self.ran(words, environment=os.environ)[0], 0, line)
            self.assertEqual(self.ran([f"./{words[-1]}"]), (0, read(f"{self.home}/examples/link/expected"), b""))

    def test_the_lines_for_the_path(self):
        [lines] = [block for block in self.blocks if block.startswith("ln ")]
        os.makedirs(f"{self.other}/.local/bin")
        self.assertEqual(self.ran(["sh", "-c", lines], environment=ENVIRONMENT | {"HOME": self.other}), (0, b"", b""))
        self.assertEqual(sorted(os.listdir(f"{self.other}/.local/bin")), ["stage2-check", "stage2-expand", "stage2-why"])
        self.assertEqual(self.ran([".local/bin/stage2-expand", f"{self.home}/examples/session.text"], self.other),
                         (0, read(f"{self.home}/examples/session.out"), b""))

    def test_what_the_machine_needs(self):
        """The commands run with the shell and the programs that it names, and nothing else."""
        [line] = re.findall(r"POSIX shell with (.*),", self.text)
        os.mkdir(f"{self.other}/bin")
        for program in re.findall(r"`(\w+)`", line):
            os.symlink(shutil.which(program, path=ENVIRONMENT["PATH"]), f"{self.other}/bin/{program}")
        alone = {"PATH": f"{self.other}/bin"}
        for words, status in ((["./expand", "examples/webfonts.text", "-o", "out", "-4", "second", "--report", "report"], 0),
                              (["./expand", "examples/session.text"], 0), (["./expand", "examples/numbers/15.text"], 15),
                              (["./check", "examples/numbers/06.text"], 6), (["./why", "examples/session.text", "-n", "8"], 0),
                              (["./why", "examples/session.text", "NAME x"], 0), (["./why", "--version"], 0), (["./check", "--help"], 0)):
            with self.subTest(words):
                ended = self.ran(words, environment=alone)
                self.assertEqual(ended, self.ran(words))
                self.assertEqual(ended[0], status)
