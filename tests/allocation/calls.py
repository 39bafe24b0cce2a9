"""The public calls that can fail for memory: each is made by a test, and each test that names one names what is there."""
import re

from checks.sources import head_end, lines_of

from . import lines

CRATES = "hibitset_base hibitset_atomic hibitset hibitset_store hibitset_roaring hibitset_sparse uses hibitset_run".split()

# Calls of the program: by two tests of its own, and by the scripts of scripts.py.
OF_PROGRAM = {f"hibitset_run::{name}" for name in ("run", "run_text", "Printed::put_line", "Reply::put_line", "StoreReply::put_line")}


def can_fail(function):
    """Whether a function returns a Result, or how a script ended."""
    said = lines_of(function.path)
    head = "\n".join(said[function.at : head_end(said, function.at) + 1])
    signature = re.split(r"\b(?:where|requires|ensures)\b|[{;]$", head, maxsplit=1, flags=re.M)[0]
    return re.search(r"-> .*\b(?:Result<|Ended)", signature)


def fallible(crate):
    """The public functions of a crate that can fail, as CRATE::FUNCTION; of the program, which nobody calls, all."""
    calls = (each for each in crate.functions if each.is_pub and can_fail(each))
    return {f"{crate.name}::{each.name_shown()}" for each in calls if crate.name == "hibitset_run" or crate.is_public(each)}


def wrong_calls(repository):
    """What is wrong in the lines above the tests, and which calls are in one of sources and lines alone."""
    folder = repository.crates / "hibitset_refusals"
    found, wrong = lines.read(folder)
    yield from wrong
    tried = {call for test in found.values() for call in test.calls} | OF_PROGRAM
    there = {call for name in CRATES for call in fallible(repository.crate(name))}
    yield from ((folder / "src" / "tests.rt", 1, f"no test makes {call}, a public call that can fail") for call in sorted(there - tried))
    yield from ((folder / "src" / "tests.rt", 1, f"a test names {call}, which is no public call that can fail") for call in sorted(tried - there))
