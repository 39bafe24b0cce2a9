#!/usr/bin/env python3
"""make.py OUT SCRIPTS ORACLE: writes the files of the folder OUT, of scripts that lie in the folder SCRIPTS as *.in,
of those of recipes.py, of the examples of crates/hibitset_run/README.md and of a few runs with other arguments, input or output, each
with the answer of the program ORACLE. make.sh calls it.
"""
import re
import sys
from pathlib import Path

sys.dont_write_bytecode = True
import bundle
import page
import recipes
import runs

ALL = 10_000
LIMIT = 1_000_000  # bytes of all files together
PLAIN = 40_000  # bytes of output that are kept as they are
NAMES = {"row": "example"}  # kinds that have other names here


# What the oracle is to know beside the commands on sets: five layers, and the store.
FORM = ["--layers", "5", "--store"]

# How many scripts of each kind are kept, spread over all that there are. Of those with none recipes.py has its own.
KINDS = {
    "row": ALL,
    "basic-dense": 6,
    "basic-borders": 6,
    "basic-everywhere": 6,
    "mixed-dense": 8,
    "mixed-borders": 12,
    "mixed-everywhere": 8,
    "mixed-clusters": 2,
    "assign-blocks": 14,
    "assign-borders": 7,
    "aliased-dense": 8,
    "aliased-blocks": 8,
    "split-dense": 5,
    "split-blocks": 8,
    "split-everywhere": 6,
    "split-four": 6,
    "bad": ALL,
    "bad-mutated": ALL,
    "bad-store": ALL,
    "good": ALL,
    "store-dense": 3,
    "store-borders": 3,
    "store-everywhere": 3,
    "store-long": 0,
    "long-basic": 0,
    "long-mixed": 0,
    "full-range": 0,
    "pairs": 0,
}


def kind_of(name):
    for kind in ("row", "good", "bad-store", "bad-mutated", "bad"):
        if name == kind or name.startswith(kind + "-"):
            return kind
    return re.sub(r"-\d+$", "", name)


def spread(names, count):
    """So many of the names, at equal distances."""
    count = min(count, len(names))
    return [names[at * len(names) // count] for at in range(count)]


def name_of(kind, number, path):
    return f"{NAMES[kind]}-{number:02}" if kind in NAMES else path.stem


def with_text(name, text):
    script = bundle.Script(name)
    script.text = text
    return script


def of_recipes():
    scripts = []
    for name in recipes.RECIPES:
        text = recipes.made(name)
        script = with_text(name, text)
        script.digest = bundle.digest(text)
        scripts.append(script)
    return scripts


def bad_lines():
    """Each bad line of recipes.py alone, without its newline, and in the middle of a good script."""
    scripts = []
    for number, line in enumerate(recipes.BAD_LINES):
        line = line.encode("latin-1")
        for place, text in [
            ("alone", line + b"\n"),
            ("bare", line),
            ("middle", b"add a 5\nhas a 5\n" + line + b"\nlist a\n"),
        ]:
            scripts.append(with_text(f"bad-line-{number:02}-{place}", text))
    return scripts


def other_runs():
    """Runs that are told apart by more than their script."""
    scripts = []
    for name, text in [("arguments-are-not-looked-at", b"add a 5\n"), ("arguments-beside-a-bad-line", b"list\n")]:
        script = with_text(name, text)
        script.args = ["--help", "x"]
        scripts.append(script)
    script = with_text("input-is-a-folder", b"")
    script.folder = True
    scripts.append(script)
    for name, text in [("one-reply", b"add a 5\n"), ("bad-line", b"list\n"), ("no-reply", b"")]:
        script = with_text("output-is-full-" + name, text)
        script.full = True
        scripts.append(script)
    return scripts


def of_page():
    return [with_text(script.name, script.text) for script in page.scripts()]


def answer(oracle, script):
    """Puts the oracle's answer into the script."""
    asked = bundle.Script(script.name)
    asked.args, asked.folder, asked.full = FORM, script.folder, script.full
    ran = runs.run([oracle], asked, script.text)
    if ran is None or ran[0] not in (0, 2, 4, 5):
        sys.exit(f"make.py: the oracle failed on {script.name}: {ran}")
    script.status, script.out, script.err = ran
    if script.digest is not None and len(script.out) > PLAIN:
        script.digests = bundle.pieces(script.out)


def main():
    if len(sys.argv) != 4:
        sys.exit("usage: make.py OUT SCRIPTS ORACLE")
    out, folder, oracle = Path(sys.argv[1]), Path(sys.argv[2]), sys.argv[3]
    found = {}
    for path in sorted(folder.glob("*.in")):
        found.setdefault(kind_of(path.stem), []).append(path)
    for kind in found:
        if kind not in KINDS:
            sys.exit(f"make.py: scripts of a kind that make.py does not know: {kind}")
    files = {"made": of_recipes(), "bad-lines": bad_lines(), "runs": other_runs(), "program": of_page()}
    for kind, paths in found.items():
        paths = [path for path in paths if path.stem not in recipes.RECIPES]
        kept = spread(paths, KINDS[kind])
        if kept:
            files[NAMES.get(kind, kind)] = [with_text(name_of(kind, n, path), path.read_bytes()) for n, path in enumerate(kept, 1)]
    out.mkdir(exist_ok=True)
    for old in out.glob("*.txt"):
        old.unlink()
    scripts = size = 0
    for kind, of_kind in files.items():
        for script in of_kind:
            answer(oracle, script)
        text = "".join(map(bundle.written, of_kind))
        (out / f"{kind}.txt").write_text(text, encoding="ascii", newline="\n")
        scripts, size = scripts + len(of_kind), size + len(text)
    print(f"{scripts} scripts, {size} bytes")
    if size > LIMIT:
        sys.exit(f"make.py: over {LIMIT} bytes")


main()
