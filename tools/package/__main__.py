"""Makes the archive for machines without the kit: commands, proved programs, library, examples and guides.

    python3 tools/package

writes target/package/tumbayog-VERSION-linux-x86_64.tar.gz and prints its path. `tools/build` comes before it: where a program
or the library is missing, or a source is newer, it writes nothing and says so. README.md beside this file is the archive's own."""
import os
import sys

HERE = os.path.dirname(os.path.abspath(__file__))
sys.path.append(os.path.join(HERE, "..", "common"))

import archive
from fault import Fault, ask


def main(words):
    os.chdir(os.path.join(HERE, "..", ".."))
    ask(not words, "usage: python3 tools/package")
    print(archive.write("."))
    return 0


if __name__ == "__main__":
    try:
        sys.exit(main(sys.argv[1:]))
    except Fault as fault:
        sys.exit(str(fault))
