"""What files say at their heads."""
import re

from .sources import text_of


def headless(repository):
    """The sources, specs and proofs that do not say in their first line what they are."""
    crates = repository.crates
    for path in sorted(crates.glob("*/src/**/*.rt")):
        if not text_of(path).startswith("//! "):
            yield path, 1, "does not begin with //!"
    for path in sorted([*crates.glob("*/specs/*.antt"), *crates.glob("*/proofs/*.antt")]):
        if path.name != "Lib.antt" and not text_of(path).startswith("-- "):
            yield path, 1, "does not begin with --"


def wrong_results(repository):
    path = repository.top / "bench" / "RESULTS.md"
    first = text_of(path).split("\n", 1)[0] if path.is_file() else ""
    if not re.search(r"\bcommit [0-9a-f]{7,40}\b", first):
        yield path, 1, "its first line does not say which commit was measured"
