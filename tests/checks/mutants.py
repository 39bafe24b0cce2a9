"""Mutants: the tables of contract/, the edits of must-fail/ that are made of them, and the patches of tests."""
import os
import re
import subprocess
from concurrent.futures import ThreadPoolExecutor

from mutants import edits, tables, unseen
from mutants.pieces import PIECES

from . import known
from .repository import LIBRARY
from .sources import text_of


# Mutants that restate clauses, as CRATE NAME: no twin can take them from the source.
RESTATED = {
    "hibitset equal_where_contained",  # a law says them, and `eq` has no clauses
    "hibitset_store join_looks_up_each_key",  # of another type than `join` returns
}


class Mutants:
    """The mutants of a repository, and the edits that are made of them."""

    def __init__(self, repository):
        self.repository, self.contract = repository, repository.top / "tests" / "mutants" / "contract"
        self.bad, self.found, self.pairs = [], [], {}
        for name in tables.crates(self.contract):
            self.read(name)

    def read(self, name):
        crate = self.repository.crate(name)
        traits = edits.traits_of(self.repository.crate(each) for each in self.repository.at_or_below(name))
        try:
            mutants = tables.mutants_of(name, self.contract)
        except tables.BadTable as bad:
            self.bad.append((bad.path, bad.line, bad.words))
            return
        seen = {}
        for mutant in mutants:
            if mutant.name in seen:
                self.bad.append((mutant.table, mutant.line, f"{mutant.name} stands also in line {seen[mutant.name]} of a table"))
            seen[mutant.name] = mutant.line
            self.make(crate, mutant, traits)

    def make(self, crate, mutant, traits):
        """Makes the pairs of a mutant, and sees that they can be applied."""
        try:
            pairs = edits.pairs_of(mutant, crate, traits)
            edits.applied(pairs, crate.folder)
            if wrong := edits.wrong_place(mutant, crate):
                raise edits.BadMutant(wrong)
        except edits.BadMutant as bad:
            self.bad.append((mutant.table, mutant.line, f"{mutant.name}: {bad}"))
            return
        self.found.append((crate.name, mutant))
        self.pairs[crate.name, mutant.name] = pairs

    def gate_edits(self):
        """The edits that must-fail/ of each crate is to have: path and text."""
        return {
            self.repository.crates / name / "must-fail" / f"{mutant.name}.edit": edits.edit_text(self.pairs[name, mutant.name])
            for name, mutant in self.found
            if mutant.is_gate
        }


def restated(mutants):
    """The mutants that write clauses, where a twin gets them from the source."""
    for name, mutant in mutants.found:
        clauses = any(re.search(r"\b(?:ensures|requires)\b.*\{", new) for _, _, new in mutant.pairs)
        if clauses and f"{name} {mutant.name}" not in RESTATED:
            yield mutant.table, mutant.line, f"{mutant.name} restates clauses: write it as a twin"


def strays(repository):
    """The edits of must-fail/ that there are, and those of contract/, where none belongs."""
    return sorted(repository.crates.glob("*/must-fail/*.edit")), sorted(repository.top.glob("tests/mutants/contract/**/*.edit"))


def wrong_mutants(repository, mutants):
    """What is wrong in the tables, and where must-fail/ has not the edits that are made of them."""
    yield from mutants.bad
    yield from restated(mutants)
    there, strayed = strays(repository)
    yield from ((path, 1, "is an edit beside the tables: it belongs into one of them") for path in strayed)
    wanted = mutants.gate_edits()
    yield from ((path, 1, "is of no mutant that a table marks as gate") for path in there if path not in wanted)
    for path, text in wanted.items():
        if not path.is_file() or text_of(path) != text:
            yield path, 1, "is not what its table makes of it now: docs.py --write writes it"


def write_gate_edits(repository, mutants):
    wanted = mutants.gate_edits()
    there, _ = strays(repository)
    for path in set(there) - set(wanted):
        path.unlink()
        print(f"docs.py: {repository.shown(path)} is gone: no table marks it as gate")
    for path, text in wanted.items():
        if not path.is_file() or path.read_text(encoding="utf-8") != text:
            path.parent.mkdir(exist_ok=True)
            path.write_text(text, encoding="utf-8")
            print(f"docs.py: {repository.shown(path)} is written anew")


def without_mutant(repository, mutants):
    """The public functions with clauses that no heading of a table names, as CRATE FUNCTION."""
    tried = {(name, mutant.function) for name, mutant in mutants.found}
    for name in LIBRARY:
        crate, seen = repository.crate(name), set()
        for function in crate.functions:
            calls = set(function.names())
            if function.ensures and crate.is_public(function) and not any((name, call) in tried for call in calls) and not calls & seen:
                seen |= calls
                yield f"{name} {function.name_shown()}"


def untried_lines(repository, mutants):
    """The public functions without a mutant, in a line for each crate."""
    crates = {}
    for each in without_mutant(repository, mutants):
        name, function = each.split()
        crates.setdefault(name, []).append(function)
    return [f"{name}: {', '.join(functions)}" for name, functions in crates.items()]


def list_of_untried(repository):
    return repository.top / "tests" / "mutants" / "without_mutant.txt"


def wrong_untried(repository, mutants):
    """The public functions without a mutant that the list does not have, and those of the list that have one now."""
    found = list(without_mutant(repository, mutants))
    gone = "has a mutant, or is no public function with clauses, so take it off the list"
    return known.changes(list_of_untried(repository), found, "has no mutant, so write one", gone)


def shrink(repository, mutants):
    if known.shrink(list_of_untried(repository), list(without_mutant(repository, mutants))):
        print("docs.py: without_mutant.txt is shorter")


def wrong_unseen(repository):
    """What is wrong in the tables of unseen/, and the functions of their pieces that have no mutant."""
    for piece in PIECES:
        try:
            yield from unseen.faults(piece.table(repository.top), repository.top, piece.paths(repository.top))
        except tables.BadTable as bad:
            yield bad.path, bad.line, bad.words


def why_not_applied(repository, path):
    """What git says of a patch that cannot be applied to the sources as they are; nothing of one that can."""
    # Above this folder git looks for no repository, so that each path of a patch is one from here.
    environment = {**os.environ, "GIT_CEILING_DIRECTORIES": str(repository.top.parent)}
    checked = ["git", "apply", "--check", path]
    ran = subprocess.run(checked, cwd=repository.top, env=environment, capture_output=True, text=True)
    return ran.stderr.strip().splitlines()[0] if ran.returncode else ""


def wrong_patches(repository):
    """The patches that cannot be applied, or that name a test that is not there."""
    paths = sorted(repository.top.glob("tests/mutants/tests/*.patch"))
    with ThreadPoolExecutor() as pool:
        whys = list(pool.map(lambda path: why_not_applied(repository, path), paths))
    for path, why in zip(paths, whys):
        if why:
            yield path, 1, f"cannot be applied: {why}"
        yield from ((path, line, words) for line, words in wrong_head(repository, path))


def wrong_head(repository, path):
    """The crates and tests that the head of a patch names, and that are not there."""
    name = ""
    for number, line in enumerate(re.split(r"\ndiff ", text_of(path))[0].splitlines(), 1):
        word, _, said = line.partition(": ")
        if word == "crate":
            name = said
            if not (repository.crates / name).is_dir():
                yield number, f"there is no crate {name}"
        elif word in ("fails", "misses") and not repository.has_test(name, said):
            yield number, f"{name} has no test {said}"
