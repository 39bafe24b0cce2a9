"""Quotes: blocks of a page that say which file they are of, or which clauses a function has."""
import re

from .clauses import names_for
from .sources import line_at, text_of


def quoted(page, kind, comment):
    """The parts of each block of a kind that has the path of a file: line, path and part."""
    text = text_of(page)
    for block in re.finditer(rf"^```{kind}\n{comment} (crates/\S+)\n(.*?)^```", text, re.M | re.S):
        offset = block.start(2)
        for part in re.split(r"(\n\n+)", block[2]):
            if part.strip():
                yield line_at(text, offset), block[1], part.strip("\n")
            offset += len(part)


def stripped(text):
    return "\n" + "\n".join(line.strip() for line in text.splitlines()) + "\n"


def stands_in(kind, part, source):
    """Whether a source has a part: lines of rust whatever their indentation, a statement of antt whole."""
    if kind == "rust":
        return stripped(part) in stripped(source)
    # What goes on after a statement of antt is indented.
    return re.search(rf"\n{re.escape(part)}\n(?! )", "\n" + source)


def misquoted(repository, page):
    """What a page quotes and does not stand so in the file that it names."""
    for kind, comment in (("rust", "//"), ("antt", "--")):
        for line, path, part in quoted(page, kind, comment):
            if not (repository.top / path).is_file():
                yield line, f"quotes {path}, which is not there"
            elif not stands_in(kind, part, text_of(repository.top / path)):
                yield line, f"quotes what does not stand so in {path}: {part.splitlines()[0].strip()}"


def has_signature(names, function, line):
    """Whether a line has the signature of a function; one with (..) leaves it out."""
    said = line[line.index(function) + len(function) :].strip()
    return said.startswith("(..)") or function.split("::")[-1] + said in names.signatures.get(function, set())


def misquoted_clauses(repository, page):
    """The signatures and clauses that a block of text says a function has, and that it does not have so."""
    text, names = text_of(page), names_for(repository, page)
    for block in re.finditer(r"^```text\n(.*?)^```", text, re.M | re.S):
        function = ""
        for number, line in enumerate(block[1].splitlines(), line_at(text, block.start(1))):
            if head := re.match(r"(?:pub )?(?:final )?fn ([\w:]+)", line):
                function = head[1]
                if function not in names:
                    yield number, f"no function {function} in {names.where}"
                elif not has_signature(names, function, line):
                    yield number, f"{function} has no such signature: {line.strip()}"
            elif function in names and re.match(r" +(?:ensures|requires)\b", line):
                said = re.sub(r"^(\S+(?: \w+)?) \{ (.*) \}$", r"\1: \2", line.strip())
                if said not in names.clauses.get(function, set()):
                    yield number, f"{function} has no such clause: {line.strip()}"
