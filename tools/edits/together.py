"""Which edits of a crate are tried together: those of the bodies of different functions.

A function is proved by itself, against its own contract and those of the functions that it calls. So where an edit changes one function's body
alone, what fails in that function's own proof is this edit's doing, whatever is changed in other bodies, and fails in the same way when the edit is
tried alone. What a contract, a definition or a constant says reaches further: such an edit is tried alone, and so is each whose fact stands
elsewhere, and each of a function in a cycle of calls: these functions have one proof."""
import re

from said import FUNCTION

BODY = re.compile(r"^(?:\{|(?:pub |extern |fn |\)).*\{)$", re.M)
CYCLE = re.compile(r"^#\[cycle\(\w+\)\]\s*\Z", re.M)


def function_of(code, old):
    """The name of the function whose body has a text, or None."""
    at = code.index(old)
    heads = [head for head in FUNCTION.finditer(code) if head.start() <= at]
    if not heads:
        return None
    body = BODY.search(code, heads[-1].start())
    end = re.compile(r"^\}$", re.M).search(code, heads[-1].start())
    return heads[-1].group(1) if body and end and body.end() <= at and at + len(old) <= end.start() else None


def is_in_cycle(code, function):
    head = next(head for head in FUNCTION.finditer(code) if head.group(1) == function)
    return bool(CYCLE.search(code, 0, head.start()))


def unit(edit):
    """The proof that alone can fail for an edit, as its folder and the beginning of its names in the source; None for an edit that is tried alone."""
    codes = {file: open(f"crates/{edit.crate}/{file}").read() for file, _, _ in edit.replaced}
    places = {(file, function_of(codes[file], old)) for file, old, _ in edit.replaced}
    if len(places) != 1:
        return None
    (source, function), (file, _, name) = places.pop(), edit.says("fact").partition(" ")
    if not source.startswith("src/") or function is None or is_in_cycle(codes[source], function):
        return None
    module = source.removeprefix("src/").removesuffix(".rt").removesuffix("lib").removesuffix("main")
    own = "/".join(["proofs", *([module] if module else []), function]), f"{function}."
    return own if file.startswith(f"{own[0]}/") or file == source and name.startswith(own[1]) else None


def groups(edits):
    """Edits in groups that are tried together, in order."""
    found = []
    for edit in edits:
        own = unit(edit) if edit.says("fact") else None
        group = next((group for group in found if own and group[0][0].crate == edit.crate and all(other and other != own for _, other in group)), None)
        if group is None:
            found.append([(edit, own)])
        else:
            group.append((edit, own))
    return found
