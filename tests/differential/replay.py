#!/usr/bin/env python3
"""replay.py SCRIPTS PROGRAM [ARG..]: runs the program on each script of the folder SCRIPTS, and compares standard output,
standard error and the exit status with what is kept there. It also fails where the examples of crates/hibitset_run/README.md are not
those of program.txt.

The last line is 'N passed, M failed'. The status is 0 where none failed. SHOW: failures that are printed whole (10).
"""
import os
import sys
from pathlib import Path

sys.dont_write_bytecode = True
import bundle
import page
import recipes
import runs

SHOW = int(os.environ.get("SHOW", "10"))


def short(line):
    text = bundle.escaped(line).rstrip("\n") if line else "(nothing)"
    return text if len(text) <= 100 else f"{text[:90]}.. ({len(line)} bytes)"


def first_difference(what, wanted, got):
    """Two lines on the first place where two texts differ, with the line before it."""
    wanted, got = bundle.lines_of(wanted), bundle.lines_of(got)
    at = next((n for n, (a, b) in enumerate(zip(wanted, got)) if a != b), min(len(wanted), len(got)))
    said = [f"  {what}, line {at + 1} (wanted {len(wanted)} lines, came {len(got)}):"]
    if at:
        said.append(f"      {short(got[at - 1])}")
    said += [f"    - {short(line)}" for line in wanted[at : at + 2] or [b""]]
    said += [f"    + {short(line)}" for line in got[at : at + 2] or [b""]]
    return said


def differing_digest(wanted, got):
    lines, start = bundle.lines_of(got), 0
    for count, digest in wanted:
        part = lines[start : start + count]
        if bundle.digest(b"".join(part)) != digest:
            came = f"begin {short(part[0])}" if part else "did not come"
            return [f"  standard output: lines {start + 1} to {start + count} differ, and {came}"]
        start += count
    return [f"  standard output: line {start + 1} and later, where none were wanted, begin {short(lines[start])}"]


def failures(program, script):
    """The failures of one script, as lines, or none."""
    text = script.text
    if script.digest is not None:
        text = recipes.made(script.name)
        if bundle.digest(text) != script.digest:
            return ["  recipes.py makes another script than the one that is kept"]
    ran = runs.run(program, script, text)
    if ran is None:
        return [f"  not ended after {runs.SECONDS} seconds"]
    status, out, err = ran
    said = []
    if status != script.status:
        said.append(f"  status: wanted {script.status}, came {status}")
    if script.digests is not None:
        if bundle.pieces(out) != script.digests:
            said += differing_digest(script.digests, out)
    elif out != script.out:
        said += first_difference("standard output", script.out, out)
    if err != script.err:
        said += first_difference("standard error", script.err, err)
    return said


def main():
    if len(sys.argv) < 3:
        sys.exit("usage: replay.py SCRIPTS PROGRAM [ARG..]")
    folder, program = Path(sys.argv[1]), sys.argv[2:]
    if not os.access(program[0], os.X_OK):
        sys.exit(f"replay.py: no program {program[0]}")
    files = sorted(folder.glob("*.txt"))
    passed = failed = 0
    kept = (folder / "program.txt").read_text(encoding="ascii")
    if page.text() != kept:
        failed += 1
        print("FAILED crates/hibitset_run/README.md: its examples are not those of program.txt")
    for script in (script for file in files for script in bundle.read(file)):
        said = failures(program, script)
        if not said:
            passed += 1
            continue
        failed += 1
        if failed <= SHOW:
            print("\n".join([f"FAILED {script.name}"] + said))
        elif failed == SHOW + 1:
            print("and more")
    print(f"{passed} passed, {failed} failed", flush=True)
    sys.exit(1 if failed or not passed else 0)


main()
