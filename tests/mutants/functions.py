"""The functions of a source in Rust, C, C++ or Python: their names and where they lie, by a simple scan of words and brackets."""
import ast
import re
from collections import Counter
from dataclasses import dataclass

# What says nothing of brackets: comments, texts and characters. A lifetime of Rust is no character.
SILENT = re.compile(r"//[^\n]*|/\*.*?\*/|\"(?:\\.|[^\"\\])*\"|'(?:\\[^\n]{1,8}?|[^'\\\n])'", re.S)
CLOSING = {"(": ")", "{": "}", "[": "]"}
RUST_FUNCTION = re.compile(r"\bfn\s+(\$?\w+)")
RUST_OWNER = re.compile(r"^[ \t]*(?:pub(?:\([^)]*\))? )?(impl\b[^{]*|trait \w+[^{;]*)\{", re.M)
C_FUNCTION = re.compile(r"^[A-Za-z_][\w \t*]*?\b(\w+)\(", re.M)
CPP_FUNCTION = re.compile(r"(?<![\w.>:])(operator ?(?:\(\)|[^\s\w(]+)|~?\w+)\(")
CPP_OWNER = re.compile(r"^(?:template <[^>]*> )?(?:class|struct) ([\w:]+)[^;{]*\{", re.M)
CPP_HEAD = re.compile(r"(?:\s|const\b|noexcept\b)*")
NO_FUNCTION = ("if", "for", "while", "switch", "return", "sizeof", "throw", "decltype")


@dataclass
class Function:
    """A function: its name, after that of its type if it has one, and where its text begins and ends."""

    name: str
    start: int
    end: int


def silenced(text):
    """The text with blanks in the place of what says nothing of brackets."""
    return SILENT.sub(lambda found: re.sub(r"[^\n]", " ", found[0]), text)


def end_of(text, at):
    """Where the bracket at a place is closed: the place after it."""
    opening, depth = text[at], 0
    for here in range(at, len(text)):
        depth += (text[here] == opening) - (text[here] == CLOSING[opening])
        if depth == 0:
            return here + 1
    return len(text)


def owners(text, pattern, name_of):
    """The names of types whose functions are within brackets, and where these begin and end."""
    return [(found.end(), end_of(text, found.end() - 1), name_of(found[1])) for found in pattern.finditer(text)]


def owner_at(at, found):
    """The innermost type around a place, with `::` behind it, or nothing."""
    around = [each for each in found if each[0] <= at < each[1]]
    return max(around)[2] + "::" if around else ""


def rust_owner(head):
    """The type of an impl, or a trait: its last name, without parameters."""
    while re.search(r"<[^<>]*>", head):
        head = re.sub(r"<[^<>]*>", "", head)
    head = re.split(r"\bwhere\b", head)[0].strip()
    if head.startswith("trait"):
        return re.match(r"trait (\w+)", head)[1]
    said = head.split(" for ")[-1].removeprefix("impl").strip()
    return re.sub(r"^&?(?:mut )?(?:\w+::)*", "", said) if " " not in said.removeprefix("&mut ") else said


def rust(text):
    bare = silenced(text)
    types = owners(bare, RUST_OWNER, rust_owner)
    for found in RUST_FUNCTION.finditer(bare):
        at = found.end()
        while bare[at] not in "{;":
            at = end_of(bare, at) if bare[at] in "([" else at + 1
        if bare[at] == "{":
            yield Function(owner_at(found.start(), types) + found[1], found.start(), end_of(bare, at))


def c(text):
    bare = silenced(text)
    for found in C_FUNCTION.finditer(bare):
        at = end_of(bare, found.end() - 1)
        body = re.compile(r"\s*\{").match(bare, at)
        if body:
            yield Function(found[1], found.start(), end_of(bare, body.end() - 1))


def body_of_cpp(bare, at):
    """Where the body begins behind the parameters that end at a place: None if there is none."""
    at = CPP_HEAD.match(bare, at).end()
    if bare[at : at + 2] != "::" and bare[at : at + 1] == ":":
        while member := re.compile(r"[:,]\s*[\w:]+\(").match(bare, at):
            at = CPP_HEAD.match(bare, end_of(bare, member.end() - 1)).end()
    return at if bare[at : at + 1] == "{" else None


def cpp(text):
    bare = silenced(re.sub(r"(?m)^ *#.*$", lambda found: " " * len(found[0]), text))
    types, at = owners(bare, CPP_OWNER, lambda name: name.split("::")[-1]), 0
    while found := CPP_FUNCTION.search(bare, at):
        at = found.end()
        body = None if found[1] in NO_FUNCTION else body_of_cpp(bare, end_of(bare, at - 1))
        if body is not None:
            start, at = found.start(), end_of(bare, body)
            yield Function(owner_at(start, types) + found[1], bare.rfind("\n", 0, start) + 1, at)


def python(text):
    lines = [0]
    for line in text.splitlines(keepends=True):
        lines.append(lines[-1] + len(line))

    def within(node, prefix):
        for child in ast.iter_child_nodes(node):
            if isinstance(child, ast.FunctionDef):
                yield Function(prefix + child.name, lines[child.lineno - 1], lines[child.end_lineno])
            if isinstance(child, (ast.FunctionDef, ast.ClassDef)):
                yield from within(child, f"{prefix}{child.name}.")

    # A nested function counts as part of the one around it.
    found = list(within(ast.parse(text), ""))
    return [each for each in found if not any(other.start < each.start and each.end <= other.end for other in found)]


SCANS = {".rs": rust, ".c": c, ".h": c, ".hpp": cpp, ".py": python}


def functions_of(path, text):
    """The functions of a file in order. One whose name was there before has its number behind it, as `add 2`."""
    seen, found = Counter(), sorted(SCANS[path.suffix](text), key=lambda each: each.start)
    for each in found:
        seen[each.name] += 1
        each.name += f" {seen[each.name]}" if seen[each.name] > 1 else ""
    return found
