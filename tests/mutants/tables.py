"""The tables of mutants: contract/CRATE/MODULE.mutants has those of src/MODULE.rt, a heading for each function.

    ## BitSet::add
    add_forgets_that_it_was_there
        - Ok(self.set_bit(id, true))
        + Ok(self.set_bit(id, true) && false)
    add_makes_no_room: twin, gate
        self.grow_to(0)?;
        Ok(self.set_bit(id, true))

README.md beside this file says what the lines of a mutant are.
"""
import re
from dataclasses import dataclass, field
from pathlib import Path

CONTRACT = Path(__file__).resolve().parent / "contract"
NAME = re.compile(r"(\w+)(?:: (twin|(?:twin, )?(?:gate|single)))?$")
OF_TWINS = ("before", "with", "for", "parts")


class BadTable(Exception):
    """A line of a table that has not the form."""

    def __init__(self, path, line, words):
        super().__init__(f"{path}:{line}: {words}")
        self.path, self.line, self.words = path, line, words


@dataclass
class Mutant:
    """A mutant of a table: what goes and what comes, or the body of a twin."""

    name: str
    function: str  # as its heading says
    table: Path
    line: int
    file: str
    is_twin: bool = False
    is_gate: bool = False
    is_single: bool = False
    pairs: list = field(default_factory=list)  # file, old text, new text
    body: list = field(default_factory=list)
    said: dict = field(default_factory=dict)  # what its lines before:, with:, for: and parts: say


def file_of(table, folder):
    """The source whose mutants a table has, from its crate's folder."""
    return f"src/{table.relative_to(folder).with_suffix('.rt').as_posix()}"


class Reader:
    """Reads one table."""

    def __init__(self, table, file):
        self.table, self.file, self.number = table, file, 0
        self.function, self.into = "", file
        self.old, self.last = None, ""  # the text of a line - that has no line + yet; the kind of the line before
        self.found = []

    def fail(self, words):
        raise BadTable(self.table, self.number, words)

    def read(self, text):
        for self.number, line in enumerate(text.splitlines(), 1):
            if line.startswith("## "):
                self.close()
                self.function = line[3:].strip()
            elif line.startswith("    ") and line.strip():
                self.read_part(line[4:])
            elif line.strip() and not line.startswith("# "):
                self.open(line)
        self.close()
        return self.found

    def open(self, line):
        """Begins a mutant."""
        self.close()
        named = NAME.match(line)
        if not named:
            self.fail(f"is no NAME, and no NAME with twin, gate or single behind it: {line}")
        if not self.function:
            self.fail(f"{named[1]} stands under no heading ## FUNCTION")
        marks = named[2] or ""
        self.found.append(Mutant(named[1], self.function, self.table, self.number, self.file, "twin" in marks, "gate" in marks, "single" in marks))
        self.into, self.last = self.file, ""

    def close(self):
        """Sees that the mutant before is whole."""
        if self.old is not None:
            self.fail("a line - has no line + behind it")
        if not self.found:
            return
        mutant = self.found[-1]
        if mutant.is_twin != bool(mutant.body):
            self.fail(f"{mutant.name} is a twin without a body, or has a body and is none")
        if not mutant.is_twin and (mutant.said or not mutant.pairs):
            self.fail(f"{mutant.name} changes nothing, or has lines of a twin and is none")

    def read_part(self, said):
        """Reads a line of a mutant, without its first four spaces."""
        if not self.found:
            self.fail("stands below no mutant")
        mutant = self.found[-1]
        word, colon, rest = said.partition(": ")
        if said.startswith("    ") and self.last in ("+", "with"):
            self.go_on(mutant, said.strip())
        elif said.startswith("- ") or said == "+" or said.startswith("+ "):
            self.read_pair(mutant, said[0], said[2:])
        elif colon and word == "file":
            self.into, self.last = rest, word
        elif colon and word in OF_TWINS:
            mutant.said[word], self.last = rest, word
        else:
            mutant.body.append(said.strip())
            self.last = "body"

    def read_pair(self, mutant, sign, text):
        if (sign == "-") != (self.old is None):
            self.fail("a line - has no line + behind it" if sign == "-" else "a line + has no line - before it")
        if sign == "+":
            mutant.pairs.append((self.into, self.old, text))
        self.old, self.last = (text, sign) if sign == "-" else (None, sign)

    def go_on(self, mutant, said):
        """Reads a line that goes on with the one before."""
        if self.last == "with":
            mutant.said["with"] += f" {said}"
        else:
            file, old, new = mutant.pairs[-1]
            mutant.pairs[-1] = (file, old, f"{new} {said}".strip())


def read_table(table, folder):
    return Reader(table, file_of(table, folder)).read(table.read_text(encoding="utf-8"))


def mutants_of(crate, contract=CONTRACT):
    """The mutants of a crate, of all its tables."""
    folder = contract / crate
    return [mutant for table in sorted(folder.rglob("*.mutants")) for mutant in read_table(table, folder)]


def crates(contract=CONTRACT):
    """The crates that have tables."""
    return sorted(path.name for path in contract.iterdir() if path.is_dir())
