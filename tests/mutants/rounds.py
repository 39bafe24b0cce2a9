"""Tries many mutants of a crate in one check: in each round at most one of a function, so that what is refused is its own."""
import re
import subprocess
from pathlib import Path

from checks.sources import line_at, text_of

from . import edits

PROMISE = re.compile(r"\b(ensures|requires|ghost|struct|enum)\b")
VERDICT = re.compile(r"^fn (\S+): (.*)$", re.M)
# A proof file that names what the mutant took away, or proves another statement.
SHAPE = "THE SHAPE of a proof file: write a twin"
# What the prover calls the goals of a call's condition, and of an operation's.
CONDITION = re.compile(r"-requires\b|^(overflow|bounds|underflow|division|unwrap|expect)")


def is_apart(mutant, pairs, crate):
    """Whether a mutant changes what its function does, and nothing that other functions are proved by."""
    if not all(file.startswith("src/") for file, _, _ in pairs):
        return False
    if mutant.is_twin:
        return not mutant.pairs
    promises = any(PROMISE.search(old) or PROMISE.search(new.replace(old, "")) for _, old, new in pairs)
    return bool(edits.functions_of(mutant, crate)) and not promises


class Round:
    """Mutants of different functions, and the sources with all of them."""

    def __init__(self, folder):
        self.folder, self.texts, self.mutants, self.functions = folder, {}, [], set()

    def takes(self, mutant, pairs):
        """Takes a mutant in, unless the round has one of its function, or its text is not where the source has it."""
        texts, own = dict(self.texts), set()
        for file, old, new in pairs:
            source = text_of(self.folder / file)
            text = texts.get(file, source)
            if text.count(old) != 1:
                return False
            if file not in own and line_at(source, source.find(old)) != line_at(text, text.find(old)):
                return False
            own.add(file)
            texts[file] = text.replace(old, new)
        if (mutant.file, mutant.function) in self.functions:
            return False
        self.texts = texts
        self.mutants.append((mutant, pairs))
        self.functions.add((mutant.file, mutant.function))
        return True

    def check(self):
        """What `rt check` says of the crate with these sources. The sources are afterwards as before."""
        before = {file: text_of(self.folder / file) for file in self.texts}
        try:
            for file, text in self.texts.items():
                (self.folder / file).write_text(text, encoding="utf-8")
            return said_by_check(self.folder)
        finally:
            for file, text in before.items():
                (self.folder / file).write_text(text, encoding="utf-8")


def said_by_check(folder):
    ran = subprocess.run(["rt", "check"], cwd=folder, stdout=subprocess.PIPE, stderr=subprocess.STDOUT, text=True, errors="replace")
    return ran.stdout


def is_of(name, mutant):
    """Whether a function of the crate, as a check names it, is the one that a mutant changes, or its twin."""
    owner, _, function = mutant.function.rpartition("::")
    *path, last = name.split("::")[1:]
    if last != function + ("_twin" if mutant.is_twin and "for" not in mutant.said else ""):
        return False
    if not owner:
        return tuple(path) == Path(mutant.file).relative_to("src").with_suffix("").parts or not path
    if not path or "for" in mutant.said and path[-1].startswith("Ref") != mutant.said["for"].startswith("&"):
        return False
    return owner == path[-1] if mutant.is_twin and "for" not in mutant.said else owner in path[-1]


def goals_of(name, verdict, said):
    """The goals of a function that the prover found open: those that a search did not prove, and those that fail behind all that its proof file has."""
    searched = re.findall(r"`([^`]+)`", verdict.partition("did not prove")[2].partition("; it calls")[0])
    return searched + re.findall(rf"{in_its_proof(name)}: error: `([^`]+)`.* does not follow from", said, re.M)


def in_its_proof(name):
    """The form of a line about the proof file of a function, up to its column."""
    *path, last = name.split("::")[1:]
    return rf"^(?:\./)?proofs/{re.escape('/'.join(path))}/?\+?{re.escape(last)}/\S*?:\d+:\d+"


def kind(goals):
    """What the open goals of a function refuse it by."""
    clauses = [goal for goal in goals if goal.startswith("returns") and not CONDITION.search(goal)]
    conditions = [goal for goal in goals if CONDITION.search(goal)]
    if clauses:
        return f"a clause: {clauses[0]}"
    others = [goal for goal in goals if goal not in conditions]
    return f"an invariant: {others[0]}" if others else f"a condition: {conditions[0]}"


def refusal(mutant, said):
    """What a check says refused a mutant; None where it says of nothing."""
    for name, verdict in VERDICT.findall(said):
        if verdict != "proved" and is_of(name, mutant):
            goals = goals_of(name, verdict, said)
            if goals:
                return kind(goals)
            if re.search(rf"{in_its_proof(name)}: error", said, re.M):
                return SHAPE
    return None


def outcomes(folder, pairs):
    """Each of these mutants of different functions with what refused it. Those that the compiler refuses are found by halves."""
    one = Round(folder)
    later = [each for each in pairs if not one.takes(*each)]
    if not one.mutants:
        yield from ((mutant, None) for mutant, _ in later)
        return
    said = one.check()
    if VERDICT.search(said):
        yield from ((mutant, refusal(mutant, said)) for mutant, _ in one.mutants)
    elif len(one.mutants) == 1:
        yield one.mutants[0][0], None
    else:
        half = len(one.mutants) // 2
        yield from outcomes(folder, one.mutants[:half])
        yield from outcomes(folder, one.mutants[half:])
    if later:
        yield from outcomes(folder, later)
