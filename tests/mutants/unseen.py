"""Tables of mutants of code that no prover sees: what is read of them, which functions have none, and what is made of them."""
import re
from dataclasses import dataclass, field
from functools import lru_cache
from pathlib import Path

from .functions import functions_of
from .tables import BadTable

WHOLE_FILE = "(the file)"
NAME = re.compile(r"(\w+): ([\w ]+?)(, gate)?")


@lru_cache(64)
def functions(path, text):
    return functions_of(path, text)


@dataclass
class Mutant:
    """A mutant: the lines that go and those that come in a function of a file, and the test that kills it."""

    name: str
    file: str  # from the top of the repository
    function: str
    test: str
    is_gate: bool
    table: Path
    line: int  # of the table
    pairs: list = field(default_factory=list)

    def applied(self, text):
        """The text of its file with the mutant. Each text that goes stands once in its function."""
        for old, new in self.pairs:
            start, end = (0, len(text)) if self.function == WHOLE_FILE else self.span(text)
            count = text.count(old, start, end)
            if not old or count != 1:
                raise BadTable(self.table, self.line, f"{self.name}: {self.function} has {count} times: {old}")
            at = text.index(old, start)
            text = text[:at] + new + text[at + len(old) :]
        return text

    def span(self, text):
        for each in functions(Path(self.file), text):
            if each.name == self.function:
                return each.start, each.end
        raise BadTable(self.table, self.line, f"{self.name}: {self.file} has no function {self.function}")


class Table:
    """A table: the mutants of a piece of code, and the functions that can have none."""

    def __init__(self, path):
        self.path, self.mutants, self.excused = path, [], {}
        self.file = self.function = ""
        self.last = ""  # the sign of the line before, of a mutant
        for self.number, line in enumerate(path.read_text(encoding="utf-8").splitlines(), 1):
            self.read(line)
        names = [(mutant.file, mutant.name) for mutant in self.mutants]
        for mutant in self.mutants:
            if names.count((mutant.file, mutant.name)) > 1:
                raise BadTable(path, mutant.line, f"{mutant.name} is the name of two mutants of its file")
            if not mutant.pairs:
                raise BadTable(path, mutant.line, f"{mutant.name} changes nothing")

    def fail(self, words):
        raise BadTable(self.path, self.number, words)

    def read(self, line):
        if line.startswith("    "):
            self.read_change(line[4:5], line[6:])
        elif line.startswith("file: "):
            self.file, self.function = line[6:], WHOLE_FILE
        elif line.startswith("## "):
            self.function = line[3:]
        elif line.startswith("none: "):
            self.excused[self.file, self.function] = line[6:]
        elif line.strip() and not line.startswith("# "):
            self.open(line)

    def open(self, line):
        named = NAME.fullmatch(line)
        if not named or not self.file:
            self.fail(f"is no NAME: TEST below a file: {line}")
        self.mutants.append(Mutant(named[1], self.file, self.function, named[2], bool(named[3]), self.path, self.number))
        self.last = ""

    def read_change(self, sign, text):
        """A line that goes (-) or comes (+). Lines of one sign behind one another are one text."""
        if sign not in ("-", "+") or not self.mutants or (sign, self.last) == ("+", ""):
            self.fail("is no line of a mutant")
        pairs = self.mutants[-1].pairs
        if sign == "-" and self.last != "-":
            pairs.append((text, ""))
        elif sign == "-":
            pairs[-1] = (f"{pairs[-1][0]}\n{text}", "")
        else:
            pairs[-1] = (pairs[-1][0], f"{pairs[-1][1]}\n{text}" if self.last == "+" else text)
        self.last = sign


def untried(table, path, name):
    """The functions of a file that have no mutant, and are not excused."""
    tried = {mutant.function for mutant in table.mutants if mutant.file == name}
    text = path.read_text(encoding="utf-8")
    for each in functions(path, text):
        if each.name not in tried and (name, each.name) not in table.excused:
            yield path, text.count("\n", 0, each.start) + 1, f"{each.name} has no mutant in {table.path.name}"


def faults(table, top, paths):
    """What is wrong in a table, whose mutants are to be of all functions of these files: path, line and words."""
    names = {path.relative_to(top).as_posix(): path for path in paths}
    for name, path in names.items():
        yield from untried(table, path, name)
    for file, function in table.excused:
        if file not in names or all(each.name != function for each in functions(names[file], names[file].read_text(encoding="utf-8"))):
            yield table.path, 1, f"{function} of {file} is excused, and not there"
    for mutant in table.mutants:
        if mutant.file not in names:
            yield table.path, mutant.line, f"{mutant.file} is no file of this piece"
            continue
        try:
            mutant.applied(names[mutant.file].read_text(encoding="utf-8"))
        except BadTable as bad:
            yield bad.path, bad.line, bad.words
