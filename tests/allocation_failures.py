#!/usr/bin/env python3
"""Makes each allocation of each call fail in turn, and sees what stands afterwards and that the call passes then.

Each test of hibitset_refusals makes one call, between two allocations of its own, and prints of the first allocation, of
the call and of the last allocation whether it failed. With N = 1, 2 and so on allocation N of the test fails
(failing_allocation.c), until the last one did: so the numbers between those of the two are the allocations of the call.
The line above each test says how many they are, and of how many bytes in all (allocation/lines.py). It fails where one of
them failed and the call passed, where there are others or other bytes than the line says, where a public call that can
fail is in no line, and where a test fails, which compares what stands and makes the call again. The program runs the
scripts of allocation/scripts.py, and what it prints is compared.
"""
import shutil
import sys
import tempfile
from concurrent.futures import ThreadPoolExecutor
from pathlib import Path

from allocation import calls, lines, scripts
from allocation.judge import Failed
from allocation.programs import Program, compiled, on_one_processor, tests_in_turn
from checks.repository import Repository

TOP = Path(__file__).resolve().parent.parent
TOGETHER = 4  # runs side by side
OF_PROGRAM = {name: None for name in ("script::tests::refused_and_again", "store::tests::refused_and_again")}


def wanted_of_library(repository):
    """What the lines above the tests say; each public call that can fail is in one."""
    if wrong := list(calls.wrong_calls(repository)):
        raise Failed("; ".join(f"{repository.shown(path)}:{line}: {words}" for path, line, words in wrong))
    return lines.read(repository.crates / "hibitset_refusals")[0]


def of_library(pool, library, wanted):
    program = Program(library, "hibitset_refusals", "hibitset_refusals_tests")
    if lone := sorted(set(wanted) ^ program.tests()):
        raise Failed(f"not both a test in the sources and in {program.path.name}: {lone}")
    tests_in_turn(pool, program, wanted)
    on_one_processor(program, {name: said for name, said in wanted.items() if said.alone is not None})


def of_program(pool, library):
    tests_in_turn(pool, Program(library, "hibitset_run", "hibitset_run_tests"), OF_PROGRAM)
    program = Program(library, "hibitset_run", "hibitset_run")
    for script, outputs in scripts.SCRIPTS.items():
        print(scripts.try_script(program, script, outputs))


def main():
    wanted = wanted_of_library(Repository(TOP))
    if not (shutil.which("cc") and shutil.which("nm")):
        print("allocation_failures.py: no cc or no nm: allocations that fail are left out")
        return
    with tempfile.TemporaryDirectory() as folder, ThreadPoolExecutor(TOGETHER) as pool:
        library = compiled(folder)
        of_library(pool, library, wanted)
        of_program(pool, library)


if __name__ == "__main__":
    try:
        main()
    except Failed as why:
        print(f"allocation_failures.py: FAILED: {why}", flush=True)
        sys.exit(1)
