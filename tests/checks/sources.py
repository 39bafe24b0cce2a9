"""What the sources of a crate declare: functions with their clauses, types, traits, facts, records."""
import re
from functools import lru_cache

FUNCTION = re.compile(r' *(pub )?(?:pub\([^)]*\) )?(?:const )?(?:final )?(?:extern "C" )?fn (\w+)')
BLOCK = re.compile(r"(?:pub(?:\([^)]*\))? )?(impl|trait|struct|enum)\b")


@lru_cache(maxsize=None)
def text_of(path):
    return path.read_text(encoding="utf-8")


@lru_cache(maxsize=None)
def lines_of(path):
    return text_of(path).splitlines()


def line_at(text, offset):
    """The number of the line at an offset, from 1."""
    return text.count("\n", 0, offset) + 1


def flat(head):
    """The head of an impl or a trait without what stands in angle brackets."""
    while (less := re.sub(r"<[^<>]*>", "", head.replace("->", ""))) != head:
        head = less
    return head


def last_word(text):
    words = re.findall(r"\w+", text.split(" where ")[0])
    return words[-1] if words else ""


def block_end(lines, at):
    """The last line of the block or the function whose head ends at a line."""
    indent = re.match(" *", lines[at])[0]
    if lines[at].endswith((";", "}")):
        return at
    return next(end for end in range(at, len(lines)) if lines[end] == indent + "}")


def head_end(lines, at):
    """The last line of the head of the function that begins at a line: before its body, or with the brace behind it."""
    indent = re.match(" *", lines[at])[0]
    for end in range(at, len(lines)):
        if lines[end].startswith((indent + "{", indent + "}")) or lines[end].endswith((" {", ";", " {}")):
            return end
    return at


def head_of(lines, at):
    """The head of the function that begins at a line, up to its body."""
    return "\n".join(lines[at : head_end(lines, at) + 1])


def past_block(text, start):
    """The offset behind the braces that are open at an offset."""
    depth, end = 1, start
    while depth and end < len(text):
        depth += {"{": 1, "}": -1}.get(text[end], 0)
        end += 1
    return end


def clauses_of(head):
    """The clauses of a function's head, each in one line, as 'ensures LABEL: ..'."""
    found = set()
    for clause in re.finditer(r"\b((?:ensures|requires)\*?(?: \w+)?) \{", head):
        said = head[clause.end() : past_block(head, clause.end()) - 1]
        found.add(f"{clause[1]}: {' '.join(said.split())}")
    return found


def signature_of(head):
    """The signature of a function's head in one line, from its name to its result."""
    line = " ".join(head.split())
    signature = re.split(r" (?:where|requires|ensures)\b| ?\{|;$", line[line.index("fn ") + 3 :])[0]
    return re.sub(r",? \)", ")", signature.replace("( ", "(")).strip()


def is_hidden_at(lines, at):
    """Whether the item that begins at a line is left out of the documentation."""
    above = at - 1
    while above >= 0 and lines[above].strip().startswith(("#[", "//")):
        if lines[above].strip() == "#[doc(hidden)]":
            return True
        above -= 1
    return False


def is_test(function, text):
    """Whether a source has this test function."""
    return re.search(rf"#\[test\]\s+(?:#\[.*\]\s+)*(?:pub )?fn {function}\b", text)


class Function:
    """A function: where it stands, and what its head promises."""

    def __init__(self, path, at, block, module, owner, trait):
        lines = lines_of(path)
        call = FUNCTION.match(lines[at])
        head = head_of(lines, at)
        self.path, self.at, self.block = path, at, block  # its line, and that of its impl or trait, from 0
        self.end, self.hidden = block_end(lines, head_end(lines, at)), is_hidden_at(lines, at)
        self.module, self.owner, self.trait, self.name = module, owner, trait, call[2]
        self.is_pub, self.clauses = bool(call[1]) or bool(trait), clauses_of(head)
        self.labels = {said.split(":")[0].split()[-1] for said in self.clauses} - {"ensures", "requires"}
        self.ensures, self.signature = "ensures" in head, signature_of(head)

    def names(self):
        """All names by which a page may call it."""
        if self.owner or self.trait:
            return [f"{owner}::{self.name}" for owner in (self.owner, self.trait) if owner]
        path = [*self.module, self.name]
        return ["::".join(path[at:]) for at in range(len(path))]

    def name_shown(self):
        """The shortest name by which a page or a table calls it."""
        calls = self.names()
        return calls[0] if self.owner or self.trait else calls[-1]


class Crate:
    """What the sources of a crate declare."""

    def __init__(self, folder):
        self.name, self.folder = folder.name, folder
        self.functions, self.impls = [], set()
        self.words = {}  # records with their fields, types with their invariants, traits with their facts
        self.facts = {}  # of an impl, by its type and its trait
        self.open, self.exported = {(): True}, set()
        self.own_traits = set()  # those that no user can name
        self.hidden = set()  # the paths of modules, and the traits, that the documentation leaves out
        for path in self.modules():
            self.read_source(path)
        for path in sorted((self.folder / "specs").glob("*.antt")):
            self.read_specs(path)

    def modules(self):
        """The source files that are no tests, each before those of its folder, lib.rt or main.rt first."""

        def parts(path):
            return path.relative_to(self.folder / "src").with_suffix("").parts

        def place(path):
            return (parts(path) not in (("lib",), ("main",)), parts(path))

        found = (self.folder / "src").rglob("*.rt")
        return sorted((path for path in found if "tests" not in parts(path)), key=place)

    def read_source(self, path):
        """Reads a file's functions, with the type and the trait whose block each is in, and the facts of these blocks."""
        parts = path.relative_to(self.folder / "src").with_suffix("").parts
        module = () if parts in (("lib",), ("main",)) else parts
        lines = lines_of(path)
        self.read_names(module, lines)
        kind = owner = trait = ""
        block = 0
        for at, line in enumerate(lines):
            if opened := BLOCK.match(line):
                kind, block = opened[1], at
                if kind == "trait" and not line.startswith("pub trait "):
                    self.own_traits.add(re.search(r"trait (\w+)", line)[1])
                if kind == "trait" and is_hidden_at(lines, at):
                    self.hidden.add(re.search(r"trait (\w+)", line)[1])
                owner, trait = self.read_block(kind, " ".join(lines[at : at + 3])[opened.end() :])
            elif line == "}":
                kind = owner = trait = ""
            if ghost := re.match(r"    (?:pub )?ghost (\w+)(:| =) \{", line):
                of_impl = kind == "impl"
                (self.facts if of_impl else self.words).setdefault((owner, trait) if of_impl else owner or trait, set()).add(ghost[1])
            elif FUNCTION.match(line):
                self.functions.append(Function(path, at, block, module, owner, trait))

    def read_names(self, module, lines):
        """Reads which modules are open, and what is given on."""
        for at, line in enumerate(lines):
            if declared := re.match(r"(pub )?mod (\w+);", line):
                self.open[(*module, declared[2])] = bool(declared[1])
                if is_hidden_at(lines, at):
                    self.hidden.add((*module, declared[2]))
            elif line.startswith("pub use "):
                said = " ".join(lines[at:]).split(";")[0]
                self.exported.update(re.findall(r"\w+", said.split("::")[-1]))

    def read_block(self, kind, rest):
        """The type and the trait of a block, by what follows its first word."""
        first, _, second = flat(rest.split("{")[0]).partition(" for ")
        if kind == "trait":
            return "", re.search(r"\w+", first)[0]
        if second:
            owner, trait = last_word(second), last_word(first)
            self.impls.add((owner, trait))
            return owner, trait
        owner = re.search(r"\w+", first)[0]
        self.words.setdefault(owner, set())
        return owner, ""

    def read_specs(self, path):
        """Reads the records of a file, with their fields, and its definitions."""
        record, indent = "", ""
        for line in lines_of(path):
            if found := re.match(r"( *)(?:\w+ )*record (\S+)", line):
                indent, record = found[1], found[2]
                self.words.setdefault(record, set())
            elif record and (field := re.match(rf"{indent}  (?:pub )?(\S+) :", line)):
                self.words[record].add(field[1])
            elif found := re.match(r" *(?:\w+ )*pub (?!use|mod|module)(\S+) :", line):
                record = ""
                self.words.setdefault(found[1], set())
            elif line.strip() and not line.startswith(indent + "  "):
                record = ""

    def is_hidden(self, function):
        """Whether the documentation leaves a function out, which serves other crates then."""
        parts = {function.module[:at] for at in range(len(function.module) + 1)}
        return function.hidden or bool(self.hidden & {function.trait, *parts})

    def is_public(self, function):
        """Whether a user can name a function."""
        if function.trait in self.own_traits:
            return False
        path = function.module
        if function.is_pub and all(self.open.get(path[:at], False) for at in range(len(path) + 1)):
            return True
        return function.is_pub and (function.owner or function.trait or function.name) in self.exported
