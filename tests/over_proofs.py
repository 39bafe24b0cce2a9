#!/usr/bin/env python3
"""over_proofs.py: proves the crate of C exports whose folder this is, and builds its static library, over the libraries
that `rt ci` has just proved, which `rt lib` would prove once more. Where `rt ci` left none, as it does where a check has
kept its own, it is `rt lib`. Only where no source has changed since `rt ci`."""
import os
import subprocess
import sys
from pathlib import Path

from checks.repository import Repository

TOP = Path(__file__).resolve().parent.parent


def kit():
    said = subprocess.run(["rt", "doc"], capture_output=True, text=True, check=True)
    return Path(said.stdout.strip()).parent


def is_left(library):
    """Whether `rt ci` left this library. One with a stamp is one that a check keeps, and that `rt` takes."""
    return library.is_dir() and not (library.parent / "stamp").exists()


def words(repository, name, command):
    """What proves a crate over the libraries that `rt ci` left, up to what the command is asked for; None where it left none."""
    root, named = kit(), repository.libraries[name]
    below = {low: repository.crates / low / "out" / "rlib" / f"{low}.rlib" for low in repository.at_or_below(name)[1:]}
    if not all(is_left(library) for library in below.values()):
        return None
    said = [root / "bin" / "rattle", command, "--crate-name", name, "src/lib.rt", "--extern", f"std={root}/rlibs/std.rlib"]
    for low, library in below.items():
        said += ["--extern", f"{low}={library}"] if low in named else []
        said += ["-L", f"dependency={library.parent}"]
    for low in repository.of_kit(name):
        said += ["--extern", f"{low}={root}/rlibs/{low}.rlib"]
    said += ["-L", f"dependency={root}/rlibs", "--antt-project", root / "rattle/logic/antt-project.json"]
    said += ["--logic-built", root / "logic_built", "--links", f"{name}="]
    return said + (["--crate-type", "staticlib"] if repository.is_static(name) else [])


def main():
    name = Path.cwd().name
    found = words(Repository(TOP), name, "build")
    if not found:
        os.execvp("rt", ["rt", "lib"])
    Path("out").mkdir(exist_ok=True)
    command = [*found, "--jobs", str(os.cpu_count()), "--toolchain", kit() / "toolchain", "-o", f"out/lib{name}.a"]
    sys.stdout.flush()
    os.execv(command[0], [str(word) for word in command])


if __name__ == "__main__":
    main()
