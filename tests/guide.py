#!/usr/bin/env python3
"""guide.py [--make] [FOLDER]: makes the repository that docs/GUIDE.md prints, and passes it.

On that page each block whose line above it ends in a file's name in backticks and a colon is that file. Beside these
files stand the crates of this repository that the printed crates.txt names, as they are here but for must-fail edits.
FOLDER is one that is not there yet; without it a fresh one is made, and removed afterwards. Then 'rt ci' runs there, and
its status is this one's. With --make nothing is run.
"""
import argparse
import re
import shutil
import subprocess
import sys
import tempfile
from pathlib import Path

TOP = Path(__file__).resolve().parent.parent
GUIDE = TOP / "docs" / "GUIDE.md"


def printed():
    """The files that the page prints: their names, and what is in them."""
    text = GUIDE.read_text(encoding="utf-8")
    files = dict(re.findall(r"`([\w./-]+)`:\n\n```\w*\n(.*?)^```$", text, re.M | re.S))
    if "crates.txt" not in files:
        sys.exit("guide.py: docs/GUIDE.md prints no file crates.txt")
    return files


def make(folder):
    files = printed()
    folder.mkdir()
    for name, text in files.items():
        path = folder / name
        path.parent.mkdir(parents=True, exist_ok=True)
        path.write_text(text, encoding="utf-8")
    for crate in re.findall(r"^(\w+)[^:#\n]*:", files["crates.txt"], re.M):
        copy = folder / "crates" / crate
        if copy.exists():
            continue
        shutil.copytree(TOP / "crates" / crate, copy, ignore=shutil.ignore_patterns("out", "must-fail"))


def main():
    reader = argparse.ArgumentParser(description="Makes the repository that docs/GUIDE.md prints, and passes it.")
    reader.add_argument("--make", action="store_true", help="make it, and run nothing")
    reader.add_argument("folder", nargs="?", type=Path, metavar="FOLDER", help="where to make it; not there yet")
    said = reader.parse_args()
    if said.make and not said.folder:
        reader.error("--make wants a FOLDER")
    if said.folder and said.folder.exists():
        reader.error(f"{said.folder} is there already")
    with tempfile.TemporaryDirectory() as fresh:
        folder = said.folder or Path(fresh) / "example"
        make(folder)
        sys.exit(0 if said.make else subprocess.run(["rt", "ci"], cwd=folder).returncode)


main()
