"""The archive of this repository, made and unpacked as its users do, and commands run as on a machine without the kit."""
import functools
import os
import subprocess
import sys
import tempfile
import unittest

ROOT = os.path.dirname(os.path.dirname(os.path.dirname(os.path.dirname(os.path.abspath(__file__)))))
ENVIRONMENT = {"PATH": "/usr/bin:/bin"}


@functools.cache
def made():
    """The path of the archive, as the tool prints it."""
    ran = subprocess.run([sys.executable, "tools/package"], cwd=ROOT, stdout=subprocess.PIPE, stderr=subprocess.PIPE, text=True)
    assert ran.returncode == 0, ran.stderr
    return os.path.join(ROOT, ran.stdout.removesuffix("\n"))


def run(words, folder, environment=ENVIRONMENT, **more):
    return subprocess.run(words, cwd=folder, env=environment, stdin=subprocess.DEVNULL, stdout=subprocess.PIPE, stderr=subprocess.PIPE, **more)


def read(path):
    with open(path, "rb") as file:
        return file.read()


def below(root, folder):
    """The files below a folder, in order, each by its path from root."""
    return sorted(os.path.relpath(f"{place}/{file}", root) for place, _, files in os.walk(f"{root}/{folder}") for file in files)


class Unpacked(unittest.TestCase):
    """A test with the package in an empty folder of its own (`home`), and another folder, for what it writes (`other`)."""

    def setUp(self):
        kept = tempfile.TemporaryDirectory(prefix="a package ")  # the blanks are a part of the test
        self.addCleanup(kept.cleanup)
        self.other = f"{kept.name}/other"
        os.mkdir(self.other)
        run(["tar", "-xzf", made()], kept.name, check=True)
        [name] = set(os.listdir(kept.name)) - {"other"}
        self.name, self.home = name, f"{kept.name}/{name}"

    def ran(self, words, folder=None, environment=ENVIRONMENT):
        """The status of a call in the package's folder or another one, with what it writes to standard output and to standard error."""
        ended = run(words, folder or self.home, environment)
        return ended.returncode, ended.stdout, ended.stderr
