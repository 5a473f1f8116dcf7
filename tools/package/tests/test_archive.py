"""Which names the archive has, that the same files give the same bytes, and when it is refused; on a small tree."""
import io
import os
import tarfile
import tempfile
import unittest

import archive
from fault import Fault

SOURCES = ("crates/c/src/lib.rt", "crates/c/specs/S.antt", "crates/c/proofs/f/Proof.antt")
CRATES = "c:\nother: c\n" + "".join(f"{crate}: c kit\n" for crate in archive.BUILT.values())
OTHERS = ("expand", "check", "why", "commands/common.sh", "include/stage2.h", "docs/NUMBERS.md", "docs/TEMPLATES.md", "docs/CHANGES.md",
          "examples/a.text", "examples/link/expand.c", "vectors/run/session.text", "vectors/run/session.out", "vectors/run/session.report",
          "tools/package/README.md", "README.md", "target/bin/value_examples", "crates/c/must-fail/e.edit", "crates/other/src/lib.rt")
EXPECTED = ["README.md", "VERSION", "bin/check_text", "bin/expand", "bin/fit_line", "check", "commands/common.sh", "docs/NUMBERS.md",
            "docs/TEMPLATES.md", "examples/a.text", "examples/link/expand.c", "examples/session.out", "examples/session.text", "expand",
            "include/stage2.h", "lib/libstage2.a", "why"]
PROGRAMS = {"bin/check_text", "bin/expand", "bin/fit_line", "check", "expand", "why"}
EARLY, LATE = 1000000000, 1000000001


class Small(unittest.TestCase):
    """A small tree, in which each file holds its own name and what is built is as old as the sources."""

    def setUp(self):
        kept = tempfile.TemporaryDirectory()
        self.addCleanup(kept.cleanup)
        self.root = kept.name
        for file in (*SOURCES, *OTHERS, *archive.BUILT):
            self.put(file, file)
        self.put("crates.txt", CRATES)
        self.put("VERSION", "1.2.3\n")

    def put(self, file, text, time=EARLY):
        path = f"{self.root}/{file}"
        os.makedirs(os.path.dirname(path), exist_ok=True)
        with open(path, "w") as opened:
            opened.write(text)
        os.utime(path, (time, time))

    def members(self):
        with tarfile.open(fileobj=io.BytesIO(archive.packed(self.root))) as tar:
            return [(member, tar.extractfile(member).read().decode()) for member in tar]


class Packs(Small):
    def test_names(self):
        self.assertEqual([member.name for member, _ in self.members()], [f"tumbayog-1.2.3/{name}" for name in EXPECTED])

    def test_what_each_holds(self):
        held = {member.name.split("/", 1)[1]: text for member, text in self.members()}
        for name, file in (("bin/expand", "target/bin/expand"), ("expand", "expand"), ("lib/libstage2.a", "target/staticlib/libapi.a"),
                           ("examples/session.out", "vectors/run/session.out"), ("README.md", "tools/package/README.md"), ("VERSION", "1.2.3\n")):
            with self.subTest(name):
                self.assertEqual(held[name], file)

    def test_modes_times_and_owners(self):
        for member, _ in self.members():
            mode = 0o755 if member.name.split("/", 1)[1] in PROGRAMS else 0o644
            self.assertEqual((member.mode, member.mtime, member.uid, member.gid, member.uname, member.gname), (mode, archive.TIME, 0, 0, "", ""))

    def test_the_same_bytes(self):
        first = archive.packed(self.root)
        for file in archive.BUILT:
            os.chmod(f"{self.root}/{file}", 0o700)
            self.put(file, file, LATE)
        self.assertEqual(archive.packed(self.root), first)
        self.put("examples/a.text", "other")
        self.assertNotEqual(archive.packed(self.root), first)

    def test_where_it_is_written(self):
        path = archive.write(self.root)
        self.assertEqual(path, "target/package/tumbayog-1.2.3-linux-x86_64.tar.gz")
        with open(f"{self.root}/{path}", "rb") as file:
            self.assertEqual(file.read(), archive.packed(self.root))


class Refuses(Small):
    def refused(self, fault):
        with self.assertRaisesRegex(Fault, fault):
            archive.write(self.root)
        self.assertFalse(os.path.exists(f"{self.root}/target/package"))

    def test_what_is_not_built(self):
        for file in archive.BUILT:
            with self.subTest(file):
                os.remove(f"{self.root}/{file}")
                self.refused(f"^{file} is missing: run `tools/build` first$")
                self.put(file, file)

    def test_what_is_older_than_a_source(self):
        for source in SOURCES:
            self.put(source, source, LATE)
            for old in archive.BUILT:
                for file in archive.BUILT:
                    self.put(file, file, EARLY if file == old else LATE)
                with self.subTest((source, old)):
                    self.refused(f"^{old} is older than {source}: run `tools/build` first")
            self.put(source, source)

    def test_another_file_may_be_newer(self):
        for file in OTHERS:
            self.put(file, file, LATE)
        archive.packed(self.root)

    def test_another_file_that_is_missing(self):
        for file in ("expand", "why", "docs/NUMBERS.md", "vectors/run/session.out", "tools/package/README.md", "VERSION"):
            with self.subTest(file):
                os.rename(f"{self.root}/{file}", f"{self.root}/away")
                self.refused(f"^{file} is missing$")
                os.rename(f"{self.root}/away", f"{self.root}/{file}")

    def test_a_version_that_is_none(self):
        for text in ("", "1.2\n", "1.2.3", "1.2.3\n\n", "../1.2.3\n"):
            with self.subTest(text):
                self.put("VERSION", text)
                self.refused("VERSION is to be one line")
