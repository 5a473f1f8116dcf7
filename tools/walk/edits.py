"""Wrong programs under walks: each crates/CRATE/walked-edits/NAME.edit must be refused, and for a fact.

A walk fits its code alone, so an edit of walked code is refused whatever it means, unless its walk is written anew. That is done here: the
crate is copied into a repository of its own below target/walked-edits (tools/common/repository.py); the edit is applied, the crate's walks
are written from the answers, and the crate is checked. In a cycle of calls the walk of the fact's function alone is written out: each rests
on the contracts of all. The first error must stand at the fact that the edit names, and say that what the answers give for it does not
hold. A hole, an unknown name or a walk that no longer fits shows nothing. Where the wrong code has other tests or calls, the edit has the
answers that would fit them, so that it fails for what it does and not for how it is counted; the tool can't tell these apart, its author can.

Beside what every edit has (tools/common/edit.py), the lines are
  answer: FN.KEY: TERM                 an answer for this edit, where the answers do not fit the wrong code; also @NAME: TEXT
  fact: FN.KEY                         the fact that is not had; that of a call has its callee's name, as in offer.call(body)"""
import glob
import os
import shutil
from concurrent.futures import ThreadPoolExecutor

import repository
import said
import source
import text
import walks
from edit import Edit
from fault import Fault, ask
from proof import Program

FOLDER = "target/walked-edits"


def read(path):
    edit = Edit(path, ("fact",), ("answer",))
    ask(edit.says("fact"), f"{path}: an edit has a fact")
    return edit


# ---- one edit
def try_edit(edit):
    """Whether it is refused as it must be, and what is said of it."""
    try:
        return attempt(edit)
    except Fault as fault:
        return False, str(fault)


def attempt(edit):
    root = repository.make(f"{FOLDER}/{edit.crate}/{edit.name}", edit.crate)
    edit.apply(root)
    program = Program(root, edit.crate, source.Source(root))
    marked, laid = write(program, edit, True), walks.lay_out(root, write(program, edit, False))
    walks.put(root, laid)
    status, told = repository.check(root, edit.crate)
    with open(f"{root}.log", "w") as log:
        log.write(told)
    judged = judge(edit.says("fact"), status, told, root, {path: (marked[path], laid[path]) for path in laid})
    shutil.rmtree(root)
    return judged


def write(program, edit, marks):
    """The walks of the wrong code, with a mark at each fact or, as they would stand in the tree, without."""
    answers = walks.read_answers(".", edit.crate, edit.said["answer"])
    answers.marks, answers.only = marks, function_of(edit)
    written = walks.write(program, answers)
    answers.refuse_unused_instead()
    return written


def function_of(edit):
    return edit.says("fact").split(".")[0]


def judge(fact, status, told, root, written):
    """Whether an edit is refused for its fact, and what is said of it; written are the walks, each with marks and as it is laid out."""
    if status == 0:
        return False, "PROVED"
    failures = [failure for failure in said.failures(told, root) ]
    if status != 1 or not failures:
        return False, f"NOT TRIED (status {status}): {told.strip()[-said.CUT:]}"
    failure = failures[0]
    at = fact_at(*written[failure.file], failure.line, failure.column) if failure.file in written else None
    if at is None or not said.NOT_HAD.search(failure.message):
        return False, f"REFUSED FOR THE WALK'S SHAPE at {failure.file}:{failure.line}: {failure.cut()}"
    if at != fact:
        return False, f"REFUSED FOR ANOTHER FACT, {at}: {failure.cut()}"
    return True, f"refused at {at}: {failure.cut()}"


def fact_at(marked, laid, line, column):
    """The key of the smallest fact that stands at a place of a walk as it is laid out. A layout has its own blanks and line ends, and no more."""
    rows, plain = laid.split("\n"), text.unmarked(marked)
    ask(solid(laid) == solid(plain), "a walk differs from its marked form in more than its layout")
    before = solid("".join(rows[:line - 1]) + rows[line - 1][:column - 1])
    at = [place for place, char in enumerate(plain) if not char.isspace()][len(before)]
    around = [(end - start, key) for start, end, key in text.facts(marked) if start <= at < end]
    return min(around)[1] if around else None


def solid(text):
    return "".join(text.split())


# ---- all of them
def main(names):
    crates = names or [path.split("/")[1] for path in sorted(glob.glob("crates/*/walked-edits"))]
    of_crate = {crate: sorted(glob.glob(f"crates/{crate}/walked-edits/*.edit")) for crate in crates}
    for crate, paths in of_crate.items():
        ask(paths, f"crates/{crate}/walked-edits has no edit")
    edits = [read(path) for paths in of_crate.values() for path in paths]
    repository.ask_proved(crates)
    repository.incremental()
    refused = 0
    with ThreadPoolExecutor(repository.jobs()) as pool:
        for edit, (right, message) in zip(edits, pool.map(try_edit, edits)):
            print(f"{edit.crate}/{edit.name}: {message}", flush=True)
            refused += right
    print(f"{refused} walked edits refused, {len(edits) - refused} not")
    return 0 if refused == len(edits) else 1
