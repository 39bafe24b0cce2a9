"""The line above each test of hibitset_refusals: how much its call allocates, and which public calls it makes.

    // allocates: 1, 634_944 bytes: hibitset::BitSet::add

says how many allocations the call makes where none fails, and of how many bytes in all, and names the calls that it tries.
In place of the figures may stand

    none                               the call allocates nothing, as things are
    1, 96 bytes, or goes on            where one of them alone fails, the call may pass: std's `collect` allocates again, for one
                                       item, where it does not get the capacity that a walk hints at
    8, 96 bytes, and passes            the call passes, whichever of them fails: it does its work without
    11, in threads                     the bytes depend on the processors
    5 at most, 0 bytes on 1 processor  so many threads as there are processors; on one, so many bytes in one allocation or none
    unmeasured                         the run prints the figures, and fails

A list of calls that ends in a comma goes on in the next line.
"""
import re
from dataclasses import dataclass

FIGURES = re.compile(
    r"(?P<none>none)|(?P<unmeasured>unmeasured)"
    r"|(?P<requests>\d+), (?:(?P<bytes>[\d_]+) bytes(?:, (?:(?P<goes_on>or goes on)|(?P<passes>and passes)))?|in threads)"
    r"|(?P<most>\d+) at most, (?P<alone>[\d_]+) bytes on 1 processor"
)
LINE = re.compile(r"// allocates: (.*?)(?:: (.*))?$")


class BadLine(Exception):
    """A line above a test that has not the form."""


@dataclass
class Wanted:
    """What a test says of its call; None where it says nothing."""

    requests: int = None
    bytes: int = None
    most: int = None  # requests, by so many threads as there are processors
    alone: int = None  # bytes on one processor
    goes_on: bool = False
    passes: bool = False
    is_none: bool = False
    is_unmeasured: bool = False
    calls: tuple = ()


def wanted(figures, calls):
    found = FIGURES.fullmatch(figures)
    if not found:
        raise BadLine(f"has not the form of figures: {figures}")

    def count(name):
        return int(found[name].replace("_", "")) if found[name] else None

    said = {name: count(name) for name in ("requests", "bytes", "most", "alone")}
    listed = tuple(call.strip() for call in calls.split(",")) if calls else ()
    marks = {"goes_on": "goes_on", "passes": "passes", "is_none": "none", "is_unmeasured": "unmeasured"}
    return Wanted(**said, **{mark: bool(found[name]) for mark, name in marks.items()}, calls=listed)


def line_above(lines, at):
    """The figures and the calls of the line above a test, whose attribute has this place; None where there is none."""
    first = at
    while lines[first - 1].startswith("//"):
        first -= 1
    for place in range(first, at):
        if found := LINE.match(lines[place]):
            calls = found[2] or ""
            while calls.endswith(","):
                place += 1
                calls += lines[place].removeprefix("//")
            return found[1], calls
    return None


def tests_of(path):
    """The tests of a file: line, name, and what each says of its call; None where it says nothing."""
    lines = path.read_text(encoding="utf-8").splitlines()
    for at, line in enumerate(lines):
        if line == "#[test]":
            name = next(re.match(r"(?:pub )?fn (\w+)", more)[1] for more in lines[at:] if re.match(r"(?:pub )?fn ", more))
            yield at + 1, f"tests::{path.stem}::{name}", line_above(lines, at)


def read(folder):
    """The tests of a crate's src/tests/, each with what is wanted of its call, and what is wrong in their lines."""
    found, wrong = {}, []
    for path in sorted((folder / "src" / "tests").glob("*.rt")):
        for line, name, said in tests_of(path):
            try:
                if said is None:
                    raise BadLine(f"{name} has no line // allocates: ..")
                found[name] = wanted(*said)
            except BadLine as bad:
                wrong.append((path, line, str(bad)))
    return found, wrong
