"""The archive: which files it has, whether they are what the sources give, and its bytes.

Name, mode and bytes of its files are all that goes into it, sorted by name, so that the same files give the same archive. The functions take
the folder of the repository."""
import glob
import gzip
import io
import os
import re
import tarfile

import repository
from fault import ask

COMMANDS = ("expand", "check", "why")
PROGRAMS = ("expand", "check_text", "fit_line")
LIBRARY = "target/staticlib/libapi.a"
BUILT = {f"target/bin/{program}": program for program in PROGRAMS} | {LIBRARY: "api"}  # what is built, and the crate that it is built of
TIME = 315532800  # the first second of 1980, for all files: unpackers warn of times about 1970


def version(root):
    said = read(root, "VERSION").decode()
    ask(re.fullmatch(r"\d+\.\d+\.\d+\n", said), "VERSION is to be one line with three numbers, as 1.2.3")
    return said.strip()


def files(root):
    """The names in the archive, each with the file of the repository that it is made from."""
    same = [*COMMANDS, "VERSION", "include/stage2.h", "docs/NUMBERS.md", "docs/TEMPLATES.md", *below(root, "commands"), *below(root, "examples")]
    moved = {f"bin/{program}": f"target/bin/{program}" for program in PROGRAMS}
    moved |= {f"examples/session.{ending}": f"vectors/run/session.{ending}" for ending in ("text", "out")}
    return dict(zip(same, same)) | moved | {"lib/libstage2.a": LIBRARY, "README.md": "tools/package/README.md"}


def below(root, folder):
    paths = glob.glob(f"{folder}/**", root_dir=root, recursive=True)
    return [path for path in paths if os.path.isfile(f"{root}/{path}")]


def mode(name):
    return 0o755 if name in COMMANDS or name.startswith("bin/") else 0o644


def read(root, file):
    ask(os.path.isfile(f"{root}/{file}"), f"{file} is missing")
    with open(f"{root}/{file}", "rb") as opened:
        return opened.read()


def changed(root, file):
    return os.stat(f"{root}/{file}").st_mtime_ns


def rests_on(crate, listed):
    """A crate and all that it is built over. The list has each crate behind those that it rests on, and none of the kit's."""
    found = {crate}
    for name in reversed(listed):
        found.update(listed[name] if name in found else ())
    return found.intersection(listed)


def newest_source(root, crate):
    crates = rests_on(crate, repository.listed(root))
    sources = [file for name in crates for part in ("src", "specs", "proofs") for file in below(root, f"crates/{name}/{part}")]
    return max(sources, key=lambda file: changed(root, file))


def ask_built(root):
    """The programs and the library are there, and no source of theirs is newer. They are proved where they are built, so nothing is built
    here."""
    for file, crate in BUILT.items():
        ask(os.path.isfile(f"{root}/{file}"), f"{file} is missing: run `tools/build` first")
        newest = newest_source(root, crate)
        ask(changed(root, file) >= changed(root, newest), f"{file} is older than {newest}: run `tools/build` first")


def packed(root):
    """The bytes of the archive."""
    ask_built(root)
    folder, rolled = f"tumbayog-{version(root)}", io.BytesIO()
    with tarfile.open(fileobj=rolled, mode="w", format=tarfile.USTAR_FORMAT) as tar:
        for name, file in sorted(files(root).items()):
            data = read(root, file)
            entry = tarfile.TarInfo(f"{folder}/{name}")
            entry.size, entry.mode, entry.mtime = len(data), mode(name), TIME
            tar.addfile(entry, io.BytesIO(data))
    return gzip.compress(rolled.getvalue(), mtime=0)


def write(root):
    """Writes the archive below target/, and answers its path from the repository's folder."""
    data, path = packed(root), f"target/package/tumbayog-{version(root)}-linux-x86_64.tar.gz"
    os.makedirs(f"{root}/target/package", exist_ok=True)
    with open(f"{root}/{path}", "wb") as file:
        file.write(data)
    return path
