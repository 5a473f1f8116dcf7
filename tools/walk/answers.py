"""The answers to a crate's walks, as tools/walk/answers/CRATE has them. Each line must be of use; `__main__` says what lines there are."""
import re

from fault import Fault

NUMBERED = "call also less ret too add sub mul cast vars inv falls start again fall"
KEY = re.compile(rf"(?:{NUMBERED.replace(' ', '|')})(?:\d+|\*)|(?:call|also|less)\(\w+(?: \d+)?\)|measure|fits")


class Line:
    """A text under a name, from a line of the answers."""

    def __init__(self, where, text):
        self.where, self.text, self.used = where, text, False


class Answers:
    def __init__(self, path, text, instead=()):
        """instead: lines, each with its place, that go before those of the text: facts, and texts under a name that it has."""
        self.walks, self.uses, self.facts, self.instead, self.texts, self.faults = [], [], {}, {}, {}, []
        self.marks = False  # whether the walks are to have a mark at each fact
        self.only = None  # the function of a wrong program: of the walks in a cycle with it, its own alone is written out
        renewed = {line.split(": ")[0]: (where, line) for where, line in instead if line.startswith("@")}
        for number, line in enumerate(text.split("\n"), 1):
            if line.strip() and not line.startswith("#"):
                self.read(*renewed.pop(line.split(": ")[0], (f"{path}:{number}", line)))
        self.faults += [f"{where}: {path} has no {name}" for name, (where, _) in renewed.items()]
        of_text, self.facts = self.facts, self.instead
        for where, line in instead:
            if not line.startswith("@"):
                self.read(where, line)
        self.facts = of_text
        self.refuse()

    def refuse(self):
        if self.faults:
            raise Fault("\n".join(self.faults))

    # ---- one line
    def read(self, where, line):
        name, colon, rest = line.partition(": ")
        function, _, key = name.partition(".")
        if line.startswith("use "):
            self.uses.append((where, line))
        elif line.startswith("walk ") and colon:
            self.walks.append((where, name.split()[1:], rest))
        elif colon and re.fullmatch(r"@[\w-]+", name):
            self.keep(self.texts, where, name, rest)
        elif colon and re.fullmatch(r"\w+", function) and KEY.fullmatch(key):
            self.keep(self.facts, where, name, rest)
        else:
            self.faults.append(f"{where}: {name if colon else line} is no key of a fact, nor another line of answers")

    def keep(self, table, where, name, text):
        if name in table:
            self.faults.append(f"{where}: {name} has a line above, too")
        table[name] = Line(where, re.sub(r"@[\w-]+", lambda m: self.text_of(where, m.group()), text))

    def text_of(self, where, name):
        if name not in self.texts:
            self.faults.append(f"{where}: {name} is not defined above")
            return name
        self.texts[name].used = True
        return self.texts[name].text

    # ---- what the walks take
    def of(self, function, *keys):
        """The first term that stands under one of the keys."""
        for line in [table.get(f"{function}.{key}") for table in (self.instead, self.facts) for key in keys]:
            if line:
                line.used = True
                return line.text
        return None

    # ---- once all walks are written
    def refuse_unused_instead(self):
        self.faults += [f"{line.where}: {name} answers no fact" for name, line in self.instead.items() if not line.used]
        self.refuse()

    def cites(self):
        """Each module and name of a `use` line, with its place."""
        for where, line in self.uses:
            module, _, names = line[4:].rstrip("}").partition(".{")
            yield from ((where, module, name) for name in names.split(", "))

    def refuse_unused(self, written):
        """Refuses what none of the texts of the walks written uses."""
        walked = {name for _, names, _ in self.walks for name in names}
        for name, line in self.facts.items():
            function = name.split(".")[0]
            if function not in walked:
                self.faults.append(f"{line.where}: {function} is not walked")
            elif not line.used:
                self.faults.append(f"{line.where}: {name} answers no fact")
        self.faults += [f"{line.where}: {name} is in no line below" for name, line in self.texts.items() if not line.used]
        lines = [line for text in written for line in re.findall(r"^use (\S+)\.\{(.*)\}$", text, re.M)]
        cited = {(module, name) for module, names in lines for name in names.split(", ")}
        self.faults += [f"{where}: no walk uses {name}" for where, module, name in self.cites() if (module, name) not in cited]
        self.refuse()
