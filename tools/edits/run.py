"""Run edits: each crates/CRATE/run-edits/NAME.edit is a wrong program that is proved all the same, so that its run must tell.

No contract can say which bytes a read takes from a file or what a write gives to it, so the proof of a program can't say that it reads at all, or
writes. The edit's line
  run: PROGRAM
names a program over the crate. Crate and program are proved and built with the edit, in a repository of their own below target/run-edits, and
the program is run on its files args, stdin and data: what it writes must differ from its file stdout. A line
  without: PATH
names a proof file that fits the right program alone; the checker makes the wrong one's proof by itself."""
import os
import shutil
import subprocess

import repository
import said
from edit import Edit
from fault import Fault, ask

FOLDER = "target/run-edits"
SECONDS = 120


def read(path):
    return Edit(path, ("run",), ("without",))


def over(crate):
    """The crates that depend on a crate, directly or not."""
    return {name for name in repository.listed(".") if crate in repository.below([name])} - {crate}


def try_group(group):
    """Whether the run of an edited program tells, what is said of it, and no place; a group here is of one."""
    return [(*try_edit(edit), None) for edit, _ in group]


def try_edit(edit):
    program, root = edit.says("run"), f"{FOLDER}/{edit.crate}/{edit.name}"
    try:
        ask(program in over(edit.crate) | {edit.crate}, f"{edit.path}: no program over {edit.crate} is named to be run")
        repository.make(root, edit.crate, [program])
        edit.apply(root)
        for where, path in edit.said["without"]:
            ask(path.startswith("proofs/") and os.path.isfile(f"{root}/crates/{edit.crate}/{path}"), f"{where}: the crate has no {path}")
            os.remove(f"{root}/crates/{edit.crate}/{path}")
    except Fault as fault:
        return False, str(fault)
    # a run on nothing, for what it builds
    built = repository.run(["rt", "run"], f"{root}/crates/{program}")
    with open(f"{root}.log", "w") as log:
        log.write(built.stdout)
    told = judge(program, built.stdout, *written(f"{root}/crates/{program}", program))
    shutil.rmtree(root)
    return told


def written(folder, program):
    """What a program writes, run on its crate's files, and what it is to write; None for a program that was not built or does not end."""
    binary, files = os.path.abspath(f"{folder}/out/{program}"), {}
    for name in ("args", "stdin", "stdout"):
        path = f"{folder}/{name}"
        files[name] = open(path, "rb").read() if os.path.isfile(path) else b""
    if not os.path.isfile(binary):
        return None, files["stdout"]
    data = f"{folder}/data"
    os.makedirs(data, exist_ok=True)
    try:
        ran = subprocess.run([binary, *files["args"].decode().splitlines()], cwd=data, input=files["stdin"], capture_output=True, timeout=SECONDS)
    except subprocess.TimeoutExpired:
        return None, files["stdout"]
    return ran.stdout, files["stdout"]


def judge(program, text, wrote, wanted):
    if wrote is None:
        return False, f"NOT PROVED, or not ended, so nothing was told: {text.strip()[-said.CUT:]}"
    if wrote == wanted:
        return False, f"PROVED, AND THE RUN OF {program} DOES NOT TELL"
    return True, f"proved, and {program} writes something else"
