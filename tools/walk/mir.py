"""The code of a crate's functions, as `rt mir` prints it: nested lists of words."""
import re
import subprocess

from fault import ask


class Function:
    def __init__(self, name, item):
        self.name = name
        self.lifetimes = int(item[1])
        self.params = int(item[3])
        self.locals = [local[1] for local in items(item[4])]
        self.body = item[5]

    @property
    def short(self):
        return self.name.split("::")[-1]


def read(text):
    """One nested list of the words of a text in brackets."""
    words = re.findall(r'"[^"]*"|[()]|[^\s()]+', text)
    stack = [[]]
    for word in words:
        if word == "(":
            stack.append([])
        elif word == ")":
            ask(len(stack) > 1, "rt mir: a bracket too many")
            done = stack.pop()
            stack[-1].append(done)
        else:
            stack[-1].append(word)
    ask(len(stack) == 1 and len(stack[0]) == 1, "rt mir: not one term in brackets")
    return stack[0][0]


def items(cell):
    """A list of `lcons` or `tcons` cells."""
    found = []
    while cell not in ("lnil", "tnil"):
        found.append(cell[1])
        cell = cell[2]
    return found


def payloads(cell):
    """The types of each variant's payload."""
    found = []
    while cell != "ttnil":
        found.append(items(cell[1]))
        cell = cell[2]
    return found


def named(quoted):
    return quoted.strip('"')


def load(root, crate):
    """Every function that the crate's code reaches, by its full name, and what each named type is made of."""
    ran = subprocess.run(["rt", "mir", crate], capture_output=True, text=True, cwd=root)
    ask(ran.returncode == 0, f"rt mir {crate} ended with status {ran.returncode}:\n{ran.stderr}{ran.stdout}".strip())
    return tables(ran.stdout)


def tables(printed):
    program = read("(" + printed + ")")
    functions, types = {}, {}
    for definition in items(program[1]):
        name = named(definition[1])
        functions[name] = Function(name, definition[2])
        if len(definition) > 3:
            for pair in items(definition[3]):
                types[named(pair[1])] = pair[2]
    return functions, types


def called(body, found=None):
    """The full names of the functions that a part of the code calls."""
    found = set() if found is None else found
    if isinstance(body, list):
        if body and body[0] == "call":
            found.add(named(body[1][1][1]))
        for part in body:
            called(part, found)
    return found


def types(term, found):
    """The full names of the types in a term."""
    if isinstance(term, list):
        if term and term[0] == "tyNamed":
            found.add(named(term[1][1]))
        for part in term:
            types(part, found)
    return found


def assigned(body, found=None):
    """The locals that a part of the code assigns."""
    found = set() if found is None else found
    if isinstance(body, list):
        if body and body[0] == "assign":
            found.add(int(body[1][1]))
        if body and body[0] == "call":
            found.add(int(body[3][1]))
        for part in body:
            assigned(part, found)
    return found


def has_loop(body):
    return isinstance(body, list) and (body[:1] == ["loop"] or any(map(has_loop, body)))
