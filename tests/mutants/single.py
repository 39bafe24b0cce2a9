"""Tries a mutant by a check of its function alone, over the libraries that `rt ci` has proved, which checks no crate whole."""
import os
import shutil
import subprocess
import tempfile
from concurrent.futures import ThreadPoolExecutor
from pathlib import Path

import over_proofs

from . import edits, rounds


def said_by_check(repository, name, mutant):
    """What a check of the mutant's function says."""
    crate = repository.crate(name)
    traits = edits.traits_of(repository.crate(each) for each in repository.at_or_below(name))
    changed = edits.applied(edits.pairs_of(mutant, crate, traits), crate.folder)
    with tempfile.TemporaryDirectory() as room:
        for part in ("src", "specs", "proofs"):
            shutil.copytree(crate.folder / part, Path(room, part))
        for file, text in changed.items():
            Path(room, file).write_text(text, encoding="utf-8")
        command = [*over_proofs.words(repository, name, "check"), "--only", mutant.function + "_twin" * mutant.is_twin, "--jobs", "1"]
        ran = subprocess.run([str(word) for word in command], cwd=room, stdout=subprocess.PIPE, stderr=subprocess.STDOUT, text=True, errors="replace")
        return ran.stdout


def can_try(repository, names):
    """Whether `rt ci` left the libraries below each of these crates."""
    return all(over_proofs.words(repository, name, "check") for name in names)


def outcomes(repository, found):
    """Each mutant, with its crate, and with what refused it: None if nothing did."""

    def outcome(each):
        name, mutant = each
        said = said_by_check(repository, name, mutant)
        kind = rounds.refusal(mutant, said)
        if kind is None:
            print(said[-2000:])
        return name, mutant, kind

    with ThreadPoolExecutor(os.cpu_count()) as pool:
        yield from pool.map(outcome, found)
