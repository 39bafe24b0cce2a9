#!/usr/bin/env python3
"""run_contract.py [--gate | CRATE [FUNCTION]]: the prover must refuse the mutants of contract/.

With CRATE it tries those of one crate, with FUNCTION those below the headings `## FUNCTION` or `## TYPE::FUNCTION`. Those
marked `gate`, which `rt ci` tries, are left out where no function is named. It works in a copy of the repository, whose
edits it makes of the tables. Where no function is named, mutants of different functions are tried in one check
(rounds.py); what that leaves undecided is tried alone. With --gate it tries those marked `single`, each by a check of its
function alone over the libraries that `rt ci` has just proved (single.py). Behind each refusal it says what refused: a clause, a condition (what
a call or an operation requires), an invariant (or a measure) of a loop or a type, a limit of the prover, or the shape of a
proof file, which says nothing of the contract: such a mutant has to become a twin.
"""
import re
import subprocess
import sys
import tempfile
from collections import Counter
from pathlib import Path

TOP = Path(__file__).resolve().parent.parent.parent
sys.path.insert(0, str(TOP / "tests"))

from checks.repository import Repository  # noqa: E402
from mutants import edits, rounds, single, tables  # noqa: E402

KINDS = (
    (r"\(only by a limit of the prover", "a limit of the prover"),
    (r"proofs/\S+: note: ", "READ THE LINE: a note stands before what refused"),
    (r"\(only because a proof file|: (?:note: )?(?:\./)?proofs/", rounds.SHAPE),
    (r"clause-|ensures holds|_gives\b", "a clause"),
    (r"requires holds", "a condition"),
    (r"invariant|the loop ends|measure", "an invariant"),
    (r"it is not proved that", "a condition"),
)


def refusal(line):
    """What a line of `rt must-fail` says refused its edit; None where it says of none."""
    found = re.search(r"must-fail \S+: refused, as it must be(.*)", line)
    if not found:
        return None
    return next((kind for form, kind in KINDS if re.search(form, found[1])), "READ THE LINE")


def chosen(mutants, function=None):
    """Which of the mutants are to be tried."""
    if not function:
        return [mutant for mutant in mutants if not mutant.is_gate]
    return [mutant for mutant in mutants if mutant.function == function or mutant.function.endswith(f"::{function}")]


def copy(work):
    """Copies the repository, as it stands, without what git ignores."""
    listed = ["git", "ls-files", "-z", "--cached", "--others", "--exclude-standard"]
    names = subprocess.run(listed, cwd=TOP, capture_output=True, text=True, check=True).stdout.split("\0")
    there = "\0".join(name for name in names if name and (TOP / name).is_file())
    packed = subprocess.run(["tar", "--null", "--files-from=-", "-cf", "-"], cwd=TOP, input=there.encode(), capture_output=True, check=True)
    subprocess.run(["tar", "-xf", "-", "-C", work], input=packed.stdout, check=True)


def write(work, name, mutants):
    """Writes the edits of these mutants in the place of those that a crate of the copy has."""
    repository = Repository(work)
    crate, folder = repository.crate(name), work / "crates" / name / "must-fail"
    traits = edits.traits_of(repository.crate(each) for each in repository.at_or_below(name))
    folder.mkdir(exist_ok=True)
    for old in folder.glob("*.edit"):
        old.unlink()
    for mutant in mutants:
        (folder / f"{mutant.name}.edit").write_text(edits.edit_text(edits.pairs_of(mutant, crate, traits)), encoding="utf-8")


def together(work, name, mutants):
    """Tries mutants of a crate by many in one check, and says what refused each. Returns those that are to be tried alone."""
    repository = Repository(work)
    crate = repository.crate(name)
    traits = edits.traits_of(repository.crate(each) for each in repository.at_or_below(name))
    pairs = [(mutant, edits.pairs_of(mutant, crate, traits)) for mutant in mutants]
    apart = [each for each in pairs if rounds.is_apart(*each, crate)]
    left = [mutant for mutant, each in pairs if not rounds.is_apart(mutant, each, crate)]
    if not apart:
        return left
    said = rounds.said_by_check(crate.folder)
    if "logic=proved" not in said:
        sys.exit(f"{said}\nrun_contract.py: {name} is not proved as it stands")
    counts = Counter()
    for mutant, kind in rounds.outcomes(crate.folder, apart):
        if kind is None:
            left.append(mutant)
        else:
            counts[kind.partition(":")[0]] += 1
            print(f"{name}/{mutant.name}: refused by {kind}", flush=True)
    said = ", ".join(f"{count} by {kind}" for kind, count in counts.most_common())
    print(f"run_contract.py: {name}: refusals together: {said or 'none'}; {len(left)} are tried alone", flush=True)
    return left


def attempt(work, names):
    """Runs `rt must-fail`, and says of each refusal what it was."""
    counts = Counter()
    ran = subprocess.Popen(["rt", "must-fail", *names], cwd=work, stdout=subprocess.PIPE, stderr=subprocess.STDOUT, text=True, errors="replace")
    for line in ran.stdout:
        kind = refusal(line)
        counts[kind] += 1
        print(line.rstrip("\n") + (f"\n    refused by {kind}" if kind else ""), flush=True)
    said = ", ".join(f"{count} by {kind}" for kind, count in counts.most_common() if kind)
    print(f"run_contract.py: refusals: {said or 'none'}")
    return ran.wait()


def attempt_each(repository, found):
    """Tries each mutant by a check of its function alone. Returns 1 if one of them is not refused."""
    missed = 0
    for name, mutant, kind in single.outcomes(repository, found):
        print(f"{name}/{mutant.name}: {f'refused by {kind}' if kind else 'NOT REFUSED'}", flush=True)
        missed += kind is None or kind == rounds.SHAPE
    print(f"run_contract.py: {len(found) - missed} of {len(found)} refused, as they must be")
    return 1 if missed else 0


def attempt_in_copy(found, at_once):
    """Tries the mutants of each crate in a copy of the repository, those of different functions at once where that is asked for."""
    with tempfile.TemporaryDirectory() as folder:
        work = Path(folder)
        copy(work)
        left = {name: together(work, name, mutants) if at_once else mutants for name, mutants in found.items()}
        for name, mutants in left.items():
            write(work, name, mutants)
        names = names_with(left)
        return attempt(work, names) if names else 0


def names_with(found):
    return [name for name, mutants in found.items() if mutants]


def gate():
    """Tries the mutants marked `single`."""
    found = {name: [mutant for mutant in tables.mutants_of(name) if mutant.is_single] for name in tables.crates()}
    repository = Repository(TOP)
    if single.can_try(repository, names_with(found)):
        return attempt_each(repository, [(name, mutant) for name, mutants in found.items() for mutant in mutants])
    return attempt_in_copy({name: found[name] for name in names_with(found)}, at_once=False)


def main():
    if sys.argv[1:] == ["--gate"]:
        return gate()
    crate, function = (*sys.argv[1:3], None, None)[:2]
    names = [crate] if crate else tables.crates()
    if len(sys.argv) > 3 or not set(names) <= set(tables.crates()):
        sys.exit(__doc__)
    found = {name: chosen(tables.mutants_of(name), function) for name in names}
    if not any(found.values()):
        sys.exit(f"run_contract.py: no heading of {crate} is {function}")
    return attempt_in_copy(found, at_once=not function)


if __name__ == "__main__":
    sys.exit(main())
