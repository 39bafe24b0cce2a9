"""The clauses of a documented function, put behind its documentation as text."""

import textwrap

from .erasing import end_of_clause

BEFORE_FN = ("pub", "const", "unsafe", "extern", "final")


class Contract:
    """The clauses that are read between a documented `fn` and its body."""

    def __init__(self):
        self.place, self.clauses, self.body = None, [], -1

    def begin(self, source, at):
        """At the `fn` at a place."""
        self.place, self.clauses = end_of_documentation(source, at), []
        self.body = beginning_of_body(source, at)

    def add(self, source, first, last):
        if self.place is not None:
            self.clauses.append("".join(token.text for token in source.tokens[first : last + 1]))

    def end(self, source):
        """At the body, or the `;` in its place."""
        if self.place is not None and self.clauses:
            indent = source.indent(self.place)
            lines = ["", "# Contract", "", "```text"]
            for clause in self.clauses:
                lines += textwrap.dedent(indent + "    " + clause).split("\n")
            lines.append("```")
            text = "".join("\n" + indent + ("/// " + line).rstrip() for line in lines)
            source.put(self.place, source.out[self.place] + text, "contract")
        self.place, self.clauses = None, []


def beginning_of_body(source, at):
    """The place of the `{` or `;` behind the head and the clauses of the function at a place."""
    here = source.next(at)
    while source.text(here) not in ("{", ";"):
        if source.text(here) in ("(", "["):
            here = source.close(here)
        elif source.text(here) in ("requires", "ensures"):
            here = end_of_clause(source, here)
        here = source.next(here)
    return here


def end_of_documentation(source, at):
    """The place of the last line of documentation above the function at a place, or None."""
    first, before = at, source.last(at)
    while before >= 0:
        if source.text(before) in BEFORE_FN:
            first = before
        elif source.text(before) == ")" and source.text(before - 1) == "crate":
            first = before - 3
        elif source.text(before) == "]":
            first = opening_of_attribute(source, before)
        else:
            break
        before = source.last(first)
    above = first - 1
    while above >= 0 and (source.gone[above] or source.text(above).isspace()):
        above -= 1
    return above if source.text(above).startswith("///") else None


def opening_of_attribute(source, at):
    depth, here = 0, at
    while here >= 0:
        depth += {"]": 1, "[": -1}.get(source.text(here), 0)
        if depth == 0:
            return source.last(here)
        here -= 1
    source.fail(at, "an attribute without a beginning")
