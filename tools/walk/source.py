"""What the walk takes from the sources: parameters' names, clauses, fields, variants, and the names that the clauses cite.

The sources are read by regular expressions. What has a form that these do not read, as a tuple among the parameters or a name that two
modules of a crate have, is kept as None, and is a fault where a walk asks for it."""
import glob
import re

from fault import Fault, ask
from repository import listed


class Declared:
    def __init__(self, params, requires, ensures):
        self.params, self.requires, self.ensures = params, requires, ensures


class Source:
    def __init__(self, root="."):
        self.functions, self.fields, self.variants = {}, {}, {}
        for path in sorted(glob.glob(f"{root}/crates/*/src/**/*.rt", recursive=True)):
            self.read(path[len(root) + 1:].split("/")[1], open(path).read())

    def read(self, crate, text):
        text = re.sub(r"//[^\n]*", "", text)
        for m in re.finditer(r"\bfn (\w+)", text):
            keep(self.functions, crate, m.group(1), function(text[m.end():]))
        for m in re.finditer(r"\bstruct (\w+)([^{;]*)\{(.*?)\n\}", text, re.S):
            keep(self.fields, crate, m.group(1), fields(m.group(3)))
        for m in re.finditer(r"\benum (\w+)([^{;]*)\{(.*?)\n\}", text, re.S):
            keep(self.variants, crate, m.group(1), variants(m.group(3)))

    def function(self, full):
        return found(self.functions, "function", full)

    def fields_of(self, full):
        return found(self.fields, "struct", full)

    def variants_of(self, full):
        return found(self.variants, "enum", full)


def function(text):
    """What is declared of a function, from behind its name on."""
    m = re.match(r"\(([^()<>]*)\)[^\n{;]*(?:\{|\n(.*?)\n\{)", text, re.S)
    params = [re.match(r"\s*(?:mut )?(\w+)\s*:", p) for p in m.group(1).split(",") if p.strip()] if m else [None]
    if None in params:
        return None
    clauses = m.group(2) or ""
    requires = re.findall(r"requires[^{]*\{\s*⌜(.*?)⌝\s*\}", clauses, re.S)
    if len(requires) != len(re.findall(r"\brequires\b", clauses)):
        return None
    return Declared([p.group(1) for p in params], requires, len(re.findall(r"\bensures\b", clauses)))


def fields(body):
    names = [re.match(r"\s*(?:pub )?(\w+)\s*:", f) for f in body.split(",") if f.strip()]
    return None if None in names else [name.group(1) for name in names]


def variants(body):
    names = [v.strip() for v in re.sub(r"\([^()]*\)|\{[^{}]*\}", "", body).split(",") if v.strip()]
    return names if all(re.fullmatch(r"\w+", name) for name in names) else None


def keep(table, crate, name, what):
    table[crate, name] = None if (crate, name) in table else what


def found(table, kind, full):
    crate, name = full.split("::")[0], full.split("::")[-1]
    what = table.get((crate, name))
    ask(what is not None, f"crates/{crate}/src: the {kind} {name} has a form that tools/walk doesn't read, or its name stands twice")
    return what


def cited(root, crate):
    """The crate's `ghost use` lines, as antt has them."""
    lines = []
    for path in sorted(glob.glob(f"{root}/crates/{crate}/src/**/*.rt", recursive=True)):
        for line in open(path).read().split("\n"):
            if line.startswith("ghost use"):
                ask(line.endswith(";"), f"{path}: a `ghost use` over several lines")
                lines.append(line.replace("ghost use", "use").rstrip(";"))
    return lines


def dependencies(root, crate):
    crates = listed(root)
    if crate not in crates:
        raise Fault(f"crates.txt has no {crate}")
    return crates[crate]
