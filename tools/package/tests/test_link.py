"""What the programs need of a machine, and the library linked to the example programs."""
import os
import re
import shutil

from package import ENVIRONMENT, Unpacked, read

PROGRAMS = ("expand", "check_text", "fit_line")
PATHS = ("rpath", "runpath")


class Needs(Unpacked):
    def shown(self, option, program):
        status, printed, _ = self.ran(["readelf", "--wide", option, f"bin/{program}"], environment=ENVIRONMENT | {"LC_ALL": "C"})
        self.assertEqual(status, 0)
        return printed.decode()

    def test_the_c_library_alone(self):
        for program in PROGRAMS:
            shown = self.shown("--dynamic", program)
            self.assertEqual(re.findall(r"\(NEEDED\).*\[(.*)\]", shown), ["libc.so.6"])
            for path in PATHS:
                self.assertNotIn(path, shown.lower())
            self.assertIn("[Requesting program interpreter: /lib64/ld-linux-x86-64.so.2]", self.shown("--program-headers", program))

    def test_what_the_library_asks_for(self):
        """A program without a C library can link it: two names are asked for from outside, and no other."""
        status, printed, _ = self.ran(["nm", "-u", "lib/libstage2.a"])
        self.assertEqual(status, 0)
        self.assertEqual(sorted(re.findall(r"^ +U (\S+)$", printed.decode(), re.MULTILINE)), ["memcpy", "memset"])

    def test_the_readme_names_its_version(self):
        """The newest version of the C library that a program asks for is the one that the README says."""
        asked = [version for program in PROGRAMS for version in re.findall(r"GLIBC_([\d.]+)", self.shown("--version-info", program))]
        [said] = re.findall(r"C library ([\d.]+) or newer", read(f"{self.home}/README.md").decode())
        self.assertEqual(max(asked, key=lambda version: [int(part) for part in version.split(".")]), said)


class Links(Unpacked):
    def test_from_c(self):
        built = self.ran(["cc", "-Wall", "-Werror", "-Iinclude", "examples/link/expand.c", "lib/libstage2.a", "-o", f"{self.other}/expand_c"])
        self.assertEqual(built, (0, b"", b""))
        self.assertEqual(self.ran([f"{self.other}/expand_c"]), (0, read(f"{self.home}/examples/link/expected"), b""))

    def test_from_rust(self):
        compiler = shutil.which("rustc")
        if not compiler:
            self.skipTest("there is no rustc")
        words = [compiler, "-O", "-L", "lib", "-l", "static=stage2", "examples/link/expand.rs", "-o", f"{self.other}/expand_rust"]
        status, _, said = self.ran(words, environment=os.environ)
        self.assertEqual(status, 0, said)
        self.assertEqual(self.ran([f"{self.other}/expand_rust"]), (0, read(f"{self.home}/examples/link/expected"), b""))
