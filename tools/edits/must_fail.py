"""Must-fail edits: each crates/CRATE/must-fail/NAME.edit must be refused, at the fact that it denies. The edit's line
  fact: FILE NAME
says where the check must fail: in FILE of the crate, at the goal or lemma NAME; for a goal that the checker proves by itself, FILE is the
source, and NAME is FUNCTION.GOAL. As a rule that is the first failure. It may be a later one that is no consequence of another, where what
fails before it is not what the edit is about, as that there is room for the bytes that are wrong. A failure there for the shape of a proof, as
a rewriting that finds nothing, shows nothing.

A crate is tried in a repository of its own, below target/edits/CRATE (tools/common/repository.py), with edits together where that shows the same
(together.py). One that does not come out as it must is tried alone. What the checker said of an edit stays in target/edits/CRATE/NAME.log.
`rt must-fail` tries the same edits, and asks for no more than that each is refused."""
import shutil

import repository
import said
from edit import Edit
from fault import Fault

FOLDER = "target/edits"
NOT_BUILT = "did not build, so nothing above it was checked"  # of a crate below


def read(path):
    return Edit(path, ("fact",))


def attempt(group):
    """Of edits that are tried together, each with the proof that it can make fail, or None for all: its fact, or where it fails first, or None;
    and what the checker says."""
    crate, edits = group[0][0].crate, [edit for edit, _ in group]
    root = f"{FOLDER}/{crate}/{edits[0].name}"
    try:
        repository.make(root, crate)
        for edit in edits:
            edit.apply(root)
        status, text = repository.check(root, crate)
        for edit in edits:
            with open(f"{FOLDER}/{crate}/{edit.name}.log", "w") as log:
                log.write(text)
        return [judge(status, text, f"{root}/crates/{crate}", edit.says("fact"), own) for edit, own in group]
    except Fault as fault:
        return [(None, str(fault)) for _ in group]
    finally:
        shutil.rmtree(root, ignore_errors=True)


def judge(status, text, crate, fact, own=None):
    """The same, of what was said of a crate's files."""
    if status == 0:
        return None, "PROVED"
    failures = [failure for failure in said.failures(text, crate) if own is None or failure.stands_in(*own)]
    if status != 1 or "\nlogic=not-proved" not in f"\n{text}" or NOT_BUILT in text or not failures:
        return None, f"NOT TRIED (status {status}): {text.strip()[-said.CUT:]}"
    first = failures[0]
    if any(failure.place() == fact and shows(failure) for failure in failures):
        return fact, first.cut() if first.place() == fact else f"behind {first.place()}: {first.cut()}"
    if shows(first):
        return first.place(), first.cut()
    return None, f"REFUSED FOR ITS SHAPE at {first.file}:{first.line}: {first.cut()}"


def shows(failure):
    return failure.is_fact() and not failure.file.startswith("..")


def verdict(edit, place, message):
    """Whether an edit is refused at its fact, what is said of it, and where it fails."""
    if place is None:
        return False, message, None
    if place != edit.says("fact"):
        return False, f"REFUSED ELSEWHERE, at {place}: {message}", place
    return True, f"refused at {place}: {message}", place


def try_group(group):
    """The verdict on each edit of a group."""
    results = [verdict(edit, *judged) for (edit, _), judged in zip(group, attempt(group))]
    alone = [len(group) > 1 and not right for right, _, _ in results]
    return [verdict(edit, *attempt([(edit, None)])[0]) if again else result for (edit, _), result, again in zip(group, results, alone)]


def show(group):
    """Where each edit of a group fails, tried alone."""
    judged = [attempt([(edit, None)])[0] for edit, _ in group]
    return [(True, f"fact: {place}: {message}" if place else message, place) for place, message in judged]


def put_fact(edit, place):
    """Writes the line that says where an edit fails."""
    lines = [line for line in open(edit.path).read().strip().split("\n") if not line.startswith("fact:")]
    with open(edit.path, "w") as file:
        file.write("\n".join([*lines, f"fact: {place}"]) + "\n")
