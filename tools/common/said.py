"""What the checker said of a crate that it did not prove: each fact that is not had, or that it stopped for something else.

An error stands in a file of the crate's and names the declaration that it is in. Where a function has no proof file, a note says which part
of the proof that was made for it does not hold, with a place in the function's source."""
import os
import re

PATH = r"(?:\./)?(?P<path>\S+?):(?P<line>\d+):(?P<column>\d+): "
ERROR = re.compile(rf"^{PATH}error(?:\[[\w-]+\])?: (?:`(?P<name>[^`\s]+)`: )?(?P<message>.*(?:\n  .*)*)", re.M)
NOTE = re.compile(rf"^note: {PATH}(?P<message>it is not proved that .*?) \(`(?P<name>[^`]+)`\)", re.M)
# A term that does not have its type (a log of `rt ci` cuts such a message off), sides that are not equal, or a goal that does not follow. All else, as a name out of scope, a hole, a term
# that was not admitted or a rewriting that finds nothing, tells of a proof that no longer fits.
NOT_HAD = re.compile("expected type .* but this has type|^expected type |^computed as a goal is, one side reads|the two (?:types|values|sides) (?:first )?(?:differ|are)|≟ .* does not hold"
                     "|`(?:omega|grind)`: the goal does not follow|`grind` found no proof|`search`: no proof of|^it is not proved that")
WRITTEN = "-- Written by tools/walk with the facts of its answers."  # the second line of a walk
FOLLOWS = re.compile("so this cannot be checked|was rejected, w(?:as|ere) not checked|was not admitted, w(?:as|ere) not checked")
FUNCTION = re.compile(r"^ *(?:pub )?(?:extern \"C\" )?fn (\w+)", re.M)
CUT = 150


class Failure:
    """Where the check of a crate fails: file, line, column, the declaration's name and the message, on one line."""

    def __init__(self, found, crate):
        path = os.path.join(crate, found["path"])
        self.file, self.line, self.column = os.path.relpath(path, crate), int(found["line"]), int(found["column"])
        self.name, self.message = found["name"], " ".join(found["message"].split())
        if found.re is NOTE:
            self.name = f"{function_at(path, self.line)}.{self.name}"

    def place(self):
        return f"{self.file} {self.name}"

    def stands_in(self, folder, beginning):
        """Whether it stands in a folder of the crate or, in a source, in a name that begins so."""
        return self.file.startswith(f"{folder}/") or self.file.startswith("src/") and (self.name or "").startswith(beginning)

    def is_fact(self):
        return bool(self.name and NOT_HAD.search(self.message))

    def cut(self):
        return self.message[:CUT]


def failures(text, crate):
    """The failures in what was said of a crate, which is in a folder, in order. Those that only follow from another come last."""
    found = sorted([*ERROR.finditer(text), *NOTE.finditer(text)], key=lambda match: (bool(FOLLOWS.search(match["message"])), match.start()))
    return [Failure(match, os.path.abspath(crate)) for match in found]


def function_at(path, line):
    """The name of the function whose source has a line; an attribute is of the function that follows."""
    lines = open(path).read().split("\n")
    while line < len(lines) and lines[line - 1].lstrip().startswith("#["):
        line += 1
    names = FUNCTION.findall("\n".join(lines[:line]))
    return names[-1] if names else ""
