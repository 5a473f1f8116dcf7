"""Tries wrong programs and wrong definitions: the prover must refuse each at the fact that it denies, or its run must tell.

    python3 tools/edits [--write | --show | --told=LOG] [CRATE [LABEL]]
    python3 tools/edits --run [CRATE [LABEL]]

The first tries crates/CRATE/must-fail/LABEL.edit (must_fail.py), those of a crate or all; with --write it puts into each edit that is refused
elsewhere the place where it fails first, for its author to read; with --show it tries each alone and says where it fails, with the message; with
--told it takes from a log of `rt ci` which edits are refused at their fact, and tries the others (told.py). The second tries the wrong programs in
crates/CRATE/run-edits (run.py), which are proved and whose run must tell. RT_JOBS checks go on at a time, or two."""
import glob
import os
import sys
from concurrent.futures import ThreadPoolExecutor

HERE = os.path.dirname(os.path.abspath(__file__))
sys.path.append(os.path.join(HERE, "..", "common"))

import must_fail
import repository
import run
import together
import told
from fault import Fault, ask

USAGE = "usage: python3 tools/edits [--write | --show | --told=LOG | --run] [CRATE [LABEL]]"


def found(folder, crate="*", label="*"):
    """The paths of edits, those of the crates that cost most first, so that the jobs end together: these stand late in crates.txt."""
    paths = sorted(glob.glob(f"crates/{crate}/{folder}/{label}.edit"))
    ask(paths, f"there is no crates/{crate}/{folder}/{label}.edit")
    order = list(repository.listed("."))
    for path in paths:
        ask(path.split("/")[1] in order, f"{path}: crates.txt has no such crate")
    return sorted(paths, key=lambda path: -order.index(path.split("/")[1]))


def try_all(groups, attempt, write=False):
    """How many edits are as they must be, and how many are not; says of each what came of it."""
    right = other = 0
    repository.ask_proved(sorted({edit.crate for group in groups for edit, _ in group}, key=list(repository.listed(".")).index))
    with ThreadPoolExecutor(repository.jobs()) as pool:
        for group, results in zip(groups, pool.map(attempt, groups)):
            for (edit, _), (as_it_must, message, place) in zip(group, results):
                print(f"{edit.crate}/{edit.name}: {message}", flush=True)
                right, other = right + as_it_must, other + (not as_it_must)
                if write and place and not as_it_must:
                    must_fail.put_fact(edit, place)
    return right, other


def main(words):
    os.chdir(os.path.join(HERE, "..", ".."))
    names = [word for word in words if not word.startswith("--")]
    options = [word for word in words if word.startswith("--")]
    ask(len(names) <= 2, USAGE)
    log = options[0].removeprefix("--told=") if options and options[0].startswith("--told=") else None
    ask(options in ([], ["--write"], ["--show"], ["--run"]) or log and len(options) == 1, USAGE)
    if options == ["--run"]:
        seen, other = try_all([[(run.read(path), None)] for path in found("run-edits", *names)], run.try_group)
        print(f"{seen} wrong programs told by their run, {other} not")
        return 1 if other else 0
    edits = [must_fail.read(path) for path in found("must-fail", *names)]
    known = told.at_their_fact(edits, open(log).read()) if log else []
    if log:
        print(f"{len(known)} edits refused at their fact as {log} says, {len(edits) - len(known)} to be tried", flush=True)
    groups = together.groups([edit for edit in edits if edit not in known])
    refused, other = try_all(groups, must_fail.show if options == ["--show"] else must_fail.try_group, options == ["--write"])
    if options != ["--show"]:
        print(f"{len(known) + refused} edits refused at their fact, {other} not")
    return 1 if other else 0


if __name__ == "__main__":
    try:
        sys.exit(main(sys.argv[1:]))
    except Fault as fault:
        sys.exit(str(fault))
