#!/usr/bin/env python3
"""callees.py [--write]: the functions of Rust's library that derived code calls, as rustc resolves each call.

Which method a call picks is rustc's choice, so it is listed once, in callees.txt, and compared: rustc writes the library
as MIR, where each call names its callee. Generic arguments are left out. A list is that of one rustc, which its first
line names; with another one nothing is compared, and a line says so.
"""

import re
import subprocess
import sys
import tempfile
from pathlib import Path

RUST = Path(__file__).resolve().parent
LIST = RUST / "callees.txt"

# Functions that are not derived.
OTHERS = re.compile(r"/(?:support|beside)/|^fn (?:support::)?(?:rayon|rattle_std|atomic_table)::")
ROOT = """#![no_std]
extern crate alloc;
extern crate std;
#[macro_use]
#[path = "{rust}/support/mod.rs"]
mod support;
#[path = "{rust}/beside/mod.rs"]
mod beside;
#[path = "{rust}/derived/mod.rs"]
pub mod derived;
"""


def mir():
    """The MIR of derived code and of what it stands on, without the face."""
    with tempfile.TemporaryDirectory() as folder:
        root = Path(folder) / "root.rs"
        root.write_text(ROOT.format(rust=RUST / "src"), encoding="utf-8")
        command = ["rustc", "--edition=2021", "--crate-type=lib", "--emit=mir", "--cap-lints=allow", '--cfg=feature="std"', str(root)]
        subprocess.run([*command, "-o", f"{folder}/root.mir"], check=True, cwd=folder)
        return (Path(folder) / "root.mir").read_text(encoding="utf-8")


def defined(folder, kinds):
    """The names of what the files of a folder define, but for tests."""
    paths = (path for path in (RUST / "src" / folder).rglob("*.rs") if path.name != "tests.rs")
    text = "\n".join(path.read_text(encoding="utf-8") for path in paths)
    return set(re.findall(rf"\b(?:{kinds}) (\w+)", text))


def callee(line):
    """The callee of a line of MIR, or None."""
    found = re.match(r" +[^=]+ = (?!\w+ as |const |&)(.+?\)) -> (?:\[|unwind)", line)
    if not found:
        return None
    depth, said = 0, found[1].replace("->", "~~")
    for at, sign in enumerate(said):
        depth += (sign in "<[{") - (sign in ">]}")
        if sign == "(" and depth == 0:
            return said[:at].replace("~~", "->")
    return None


def without_arguments(name):
    """A callee without generic arguments: `<Range<usize> as Iterator>::next` is `<Range as Iterator>::next`."""
    kept, depth, at = [], 0, 0
    while at < len(name):
        # A qualified path begins at `<`, and `<impl usize>::` stands for a type; other angle brackets have arguments.
        opens = name[at] == "<" and at > 0 and name[at - 1] not in "<&([ " and not re.match(r"<impl [^<>]*(<[^<>]*>)?[^<>]*>::", name[at:])
        if depth or opens:
            depth += (name[at] == "<") - (name[at] == ">" and name[at - 1] != "-")
        else:
            kept.append(name[at])
        at += 1
    return re.sub(r"::(?=$|>| as )", "", "".join(kept)).replace("::::", "::")


def callees(text):
    own = defined("derived", "fn|struct|enum|trait|type")
    beside = defined("support", "fn") | defined("beside", "fn")
    local = own | beside | defined("support", "struct|enum|trait") | defined("beside", "trait")
    found, is_derived = set(), False
    for line in text.splitlines():
        if line.startswith("fn "):
            name = re.match(r"fn (?:.*::)?(\w+)", re.sub(r"(?:::\{[^}]*\})+\(", "(", line).split("(")[0])
            is_derived = not OTHERS.search(line) and bool(name) and name[1] in own
        said = callee(line) if is_derived else None
        if said and not is_local(without_arguments(said), local):
            found.add(without_arguments(said))
    return sorted(found)


def is_local(name, local):
    """Returns whether a callee is of derived code, or of what stands in for Rattle's library."""
    qualified = re.match(r"<(.+) as (.+)>::\w+$", name)
    if qualified:
        return qualified[2].split("::")[-1] in local or qualified[1].startswith("rattle_std::")
    if name.startswith(("core::", "alloc::", "std::")):
        return False
    parts = re.findall(r"\w+", name)
    return bool(set(parts[-2:]) & local) or parts[0] in local


def main():
    version = subprocess.run(["rustc", "--version"], check=True, capture_output=True, text=True).stdout.strip()
    first = f"# What derived code calls of Rust's library, as {version} resolves it. rust/callees.py --write makes it anew."
    if sys.argv[1:] != ["--write"] and LIST.read_text(encoding="utf-8").split("\n", 1)[0] != first:
        print(f"callees.py: callees.txt is of another rustc than {version}, so calls are not compared")
        return
    text = "\n".join([first, *callees(mir())]) + "\n"
    if sys.argv[1:] == ["--write"]:
        LIST.write_text(text, encoding="utf-8")
    before, now = LIST.read_text(encoding="utf-8").splitlines(), text.splitlines()
    for name in sorted(set(before) ^ set(now)):
        print(f"callees.py: {'is no longer called' if name in before else 'is not in callees.txt'}: {name}")
    if before != now:
        print("callees.py: read what is new, as it means in Rust; --write makes the list anew")
    print(f"callees.py: {len(now) - 1} callees")
    sys.exit(before != now)


if __name__ == "__main__":
    main()
