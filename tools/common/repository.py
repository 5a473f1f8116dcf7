"""A repository for a changed copy of one crate, below target/: the crate, those that it depends on, and those to be built over it. rt takes
what other checkouts of this machine proved and built of the same text, so a check costs what the change touches, and the loading of the rest."""
import os
import shutil
import subprocess

import temporary
from fault import ask

LEFT_OUT = shutil.ignore_patterns("out", "*.edit")


def lines(root):
    """The lines of crates.txt that name crates, by these names, in its order."""
    kept = [line.split("#")[0].strip() for line in open(f"{root}/crates.txt")]
    return {line.split(":")[0].split()[0]: line for line in kept if ":" in line}


def listed(root):
    """The crates of crates.txt, in its order, each with what it depends on."""
    return {name: line.split(":")[1].split() for name, line in lines(root).items()}


def below(crates, root="."):
    """These crates and all that they depend on, directly or not, in the order of crates.txt."""
    depends, found, todo = listed(root), set(), list(crates)
    while todo:
        crate = todo.pop()
        if crate in depends and crate not in found:
            found.add(crate)
            todo += depends[crate]
    return [crate for crate in depends if crate in found]


def make(root, crate, built=()):
    """A repository at root, with a copy of the crate, of those below it, and of those to be built over it."""
    shutil.rmtree(root, ignore_errors=True)
    os.makedirs(f"{root}/crates")
    crates, named = below([crate, *built]), lines(".")
    for copied in crates:
        shutil.copytree(f"crates/{copied}", f"{root}/crates/{copied}", ignore=LEFT_OUT)
    with open(f"{root}/crates.txt", "w") as file:
        file.write("".join(f"{named[copied]}\n" for copied in crates))
    if os.path.isfile("HANDLES"):
        shutil.copy("HANDLES", root)
    return root


def check(root, crate):
    """The status of the crate's check in a repository, and what was said."""
    ran = run(["rt", "check"], f"{root}/crates/{crate}")
    return ran.returncode, ran.stdout


def run(command, folder, stdin=subprocess.DEVNULL):
    environment = dict(os.environ, TMPDIR=temporary.folder())
    return subprocess.run(command, cwd=folder, env=environment, stdin=stdin, stdout=subprocess.PIPE, stderr=subprocess.STDOUT, text=True)


def jobs():
    """How many checks go on at a time."""
    return int(os.environ.get("RT_JOBS", 2))


def ask_proved(crates):
    """The crates are proved as they stand, or nothing can be said of a change."""
    for crate in crates:
        status, said = check(".", crate)
        ask(status == 0, f"the crate {crate} is to be proved without the edits:\n{said}")
