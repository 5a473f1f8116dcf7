"""The tests of tools/walk.

    python3 tools/walk/tests [--write | --prove]

runs them. With --write the forms' walks are written again, where the tool is to write something else than it did; with --prove the
checker reads each form with the walks that are expected of it, which takes a minute or two."""
import os
import shutil
import subprocess
import sys
import unittest

HERE = os.path.dirname(os.path.abspath(__file__))
sys.path[:0] = [HERE, os.path.dirname(HERE), os.path.join(HERE, "..", "..", "common")]

import harness
import walks

FOLDER = f"{harness.ROOT}/target/walk-forms"


def make_forms():
    shutil.rmtree(FOLDER, ignore_errors=True)
    os.makedirs(FOLDER)
    harness.make_repository(FOLDER)


def write():
    make_forms()
    for path, text in walks.write_all(FOLDER, harness.FORMS).items():
        _, form, _, folder, _ = path.split("/")
        walks.put(f"{HERE}/forms/{form}", {f"proofs/{folder}": text})
    return 0


def prove():
    make_forms()
    for form in harness.FORMS:
        walks.put(FOLDER, {f"crates/{form}/proofs/{folder}/Proof.antt": text for folder, text in harness.expected(form).items()})
    return subprocess.run(["rt", "check"] + harness.FORMS, cwd=FOLDER).returncode


if __name__ == "__main__":
    options = {"--write": write, "--prove": prove}
    if sys.argv[1:2] and sys.argv[1] in options:
        sys.exit(options[sys.argv[1]]())
    tests = unittest.defaultTestLoader.discover(HERE, "test_*.py")
    sys.exit(0 if unittest.TextTestRunner(stream=sys.stdout).run(tests).wasSuccessful() else 1)
