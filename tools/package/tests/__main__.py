"""The tests of tools/package, and of the archive that it makes of this repository:

    python3 tools/package/tests

The programs and the library must be built (`tools/build`)."""
import os
import sys
import unittest

HERE = os.path.dirname(os.path.abspath(__file__))
sys.path[:0] = [HERE, os.path.dirname(HERE), os.path.join(HERE, "..", "..", "common")]

if __name__ == "__main__":
    tests = unittest.defaultTestLoader.discover(HERE, "test_*.py")
    sys.exit(0 if unittest.TextTestRunner(stream=sys.stdout).run(tests).wasSuccessful() else 1)
