#!/usr/bin/env python3
"""calls.py [CRATE] [NAME]: prints the public calls of a crate, by type, with their signatures; without CRATE of all library
crates. With NAME prints the calls of this name, each with its documentation and its contract, as it stands in its file."""
import signal
import sys
from pathlib import Path

from checks.repository import LIBRARY, Repository
from checks.sources import head_end, lines_of

TOP = Path(__file__).resolve().parent.parent


def calls_of(crate):
    """The public calls of a crate, but for those that a trait declares and an impl has."""
    for function in crate.functions:
        if crate.is_public(function) and not crate.is_hidden(function) and not (function.owner and function.trait):
            yield function


def home_of(function):
    """The type or the trait of a call; of a free function its module."""
    return function.owner or function.trait or "::".join(function.module)


def first_line(function):
    """The line where the documentation of a call begins, or its attributes."""
    lines, at = lines_of(function.path), function.at
    while lines[at - 1].strip().startswith(("//", "#[")):
        at -= 1
    return at


def text_of_call(function):
    """The documentation of a call, its signature and its contract."""
    lines = lines_of(function.path)
    end = head_end(lines, function.at)
    said = lines[first_line(function) : end + 1]
    if said[-1].strip() == "{" or said[-1].endswith("{}"):
        said[-1] = said[-1].rstrip("{} ")
    indent = len(lines[function.at]) - len(lines[function.at].lstrip())
    return "\n".join(line[indent:] for line in said).rstrip()


def listed(repository, names):
    """The lines of the list of calls: each type with its files, and below it its calls."""
    for name in names:
        homes = {}
        for function in calls_of(repository.crate(name)):
            homes.setdefault(home_of(function) or name, []).append(function)
        for home, functions in homes.items():
            files = dict.fromkeys(repository.shown(function.path) for function in functions)
            yield f"{home} ({', '.join(files)})"
            yield from (f"  {function.signature}" for function in functions)


def told(repository, names, wanted):
    """The lines of the calls of a name."""
    for name in names:
        for function in calls_of(repository.crate(name)):
            if function.name == wanted:
                yield f"{function.name_shown()} ({repository.shown(function.path)}:{function.at + 1})\n"
                yield text_of_call(function) + "\n"


def main(words):
    signal.signal(signal.SIGPIPE, signal.SIG_DFL)  # what reads it may end early
    repository = Repository(TOP)
    names = words[:1] if words and words[0] in LIBRARY else LIBRARY
    rest = words[1:] if words and words[0] in LIBRARY else words
    if len(rest) > 1:
        sys.exit(__doc__)
    found = list(told(repository, names, rest[0]) if rest else listed(repository, names))
    if not found:
        sys.exit(f"calls.py: no call {rest[0]} in {', '.join(names)}")
    print("\n".join(found))


if __name__ == "__main__":
    main(sys.argv[1:])
