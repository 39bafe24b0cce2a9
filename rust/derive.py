#!/usr/bin/env python3
"""derive.py [--write | --tests]: makes plain Rust of the proved Rattle sources, by the rules of DERIVATION.md.

Without a word it compares rust/src/derived with what the rules make of crates/, and ends with status 1 where a file is
stale. --write makes these files anew. --tests derives the test crates and the program into rust/checks/src/derived,
which is not kept in git. What fits no rule is an error with file and line. check.py compares the two texts by itself.
"""

import argparse
import shutil
import sys
from collections import Counter
from pathlib import Path

from derivation.naming import HEAD
from derivation.rules import RULES, Rules
from derivation.tokens import Unknown

RUST = Path(__file__).resolve().parent
CRATES = RUST.parent / "crates"
LIBRARIES = ("hibitset_base", "hibitset_sparse", "hibitset_atomic", "hibitset", "hibitset_store", "hibitset_roaring")
TESTS = (
    "hibitset_run",
    "hibitset_testing",
    "hibitset_tests",
    "hibitset_atomic_tests",
    "hibitset_sparse_tests",
    "hibitset_store_tests",
    "hibitset_roaring_tests",
    "hibitset_word_reads",
    "uses",
    "uses_tests",
    "hibitset_refusals",
)
LIBRARY_FOLDER = RUST / "src" / "derived"
TEST_FOLDER = RUST / "checks" / "src" / "derived"


def with_head(name, body):
    """The derived text under its head: where it comes from, and the names that Rattle has in scope everywhere."""
    lines = body.rstrip("\n").split("\n")
    count = next((n for n, line in enumerate(lines) if not line.startswith(("//!", "#!["))), len(lines))
    first = f"// Derived from crates/{name} by rust/derive.py, and never edited by hand."
    documentation = lines[:count] + [""] if count else []
    rest = "\n".join(lines[count:]).lstrip("\n")
    return "\n".join([first, "", *documentation, HEAD, "", rest]).rstrip("\n") + "\n"


def derived_crate(crate, crates):
    """The files of a crate, by their paths, and how often each rule was at work."""
    files, counts = {}, Counter()
    folder = CRATES / crate / "src"
    for path in sorted(folder.rglob("*.rt")):
        inside = path.relative_to(folder).as_posix()
        body, found = Rules(f"{crate}/{inside}", path.read_text(encoding="utf-8"), crates).derived()
        counts += found + Counter(head=1)
        root = inside in ("lib.rt", "main.rt")
        files[f"{crate}/mod.rs" if root else f"{crate}/{inside[:-3]}.rs"] = with_head(f"{crate}/src/{inside}", body)
    return files, counts


def derived(names):
    """The files of several crates under one module, and how often each rule was at work."""
    modules = "".join(f"pub mod {name};\n" for name in sorted(names))
    files, counts = {"mod.rs": f"//! The derived crates, each a module: made by rust/derive.py.\n\n{modules}"}, Counter()
    for name in names:
        made, found = derived_crate(name, LIBRARIES + TESTS)
        files |= made
        counts += found
    return files, counts


def write(folder, files):
    """Makes a folder have these files, and no others."""
    shutil.rmtree(folder, ignore_errors=True)
    for name, text in files.items():
        path = folder / name
        path.parent.mkdir(parents=True, exist_ok=True)
        path.write_text(text, encoding="utf-8")


def stale(folder, files):
    """The names of the files that are not as they would be derived."""
    there = {path.relative_to(folder).as_posix(): path for path in folder.rglob("*.rs")}
    for name in sorted(there.keys() | files.keys()):
        if name not in there or name not in files or there[name].read_text(encoding="utf-8") != files[name]:
            yield name


def main():
    reader = argparse.ArgumentParser(description="Derives plain Rust from the Rattle sources.")
    reader.add_argument("--write", action="store_true", help="make rust/src/derived anew")
    reader.add_argument("--tests", action="store_true", help="derive the tests into rust/checks/src/derived")
    options = reader.parse_args()
    try:
        files, counts = derived(TESTS if options.tests else LIBRARIES)
    except Unknown as error:
        sys.exit(str(error))
    folder = TEST_FOLDER if options.tests else LIBRARY_FOLDER
    if options.write or options.tests:
        write(folder, files)
    faults = [f"{folder.relative_to(RUST.parent)}/{name}" for name in stale(folder, files)]
    for name in faults:
        print(f"{name}:1: is stale; rust/derive.py --write makes it anew")
    said = ", ".join(f"{counts[rule]} {rule}" for rule in RULES if counts[rule])
    print(f"derive.py: {len(files)} files: {said}" + (f"; {len(faults)} stale" if faults else ""))
    sys.exit(1 if faults else 0)


if __name__ == "__main__":
    main()
