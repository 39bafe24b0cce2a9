#!/usr/bin/env python3
"""run_unseen.py [--gate|PIECE [WORD]]: tests must kill the mutants of code that no prover sees. Each mutant of unseen/PIECE.mutants
is applied to a copy, which is built, and where the test that it names must fail. PIECE: derivation, rust, python or cpp alone;
WORD: of it those with this word in their names or of this function. --gate: those marked gate.
It begins with the functions that have no mutant, and fails if there is one, if a mutant survives, or if one is not built.
So many are tried side by side as TOGETHER says, or two, or for the gate as many as there are processors. What a machine has no program or package for is left out, and said."""
import os
import queue
import sys
import tempfile
import time
from collections import Counter
from pathlib import Path
from threading import Thread

sys.path.insert(0, str(Path(__file__).resolve().parent.parent))

from mutants import unseen  # noqa: E402
from mutants.pieces import PIECES, TOP, NotBuilt, TooLong  # noqa: E402

MUTANTS_AT_ONCE = 12  # What a worker takes of the queue: mutants that one test is to kill.


def verdict(piece, room, mutant):
    """What becomes of a mutant in a worker's copy, and how long that takes."""
    path, began = room / mutant.file, time.monotonic()
    before = path.read_text(encoding="utf-8")
    try:
        path.write_text(mutant.applied(before), encoding="utf-8")
        said = "killed" if piece.fails(room, mutant.test, path) else "SURVIVED"
    except TooLong:
        said = "killed: by the time limit"
    except NotBuilt as why:
        said = f"NOT BUILT: {why}"
    finally:
        path.write_text(before, encoding="utf-8")
    return said, time.monotonic() - began


def work(piece, batches, results):
    """Takes batches of mutants, until there are no more. A test passes in the copy before it is to kill one."""
    passed = set()
    with tempfile.TemporaryDirectory() as folder:
        room = Path(folder)
        piece.prepare(room)
        while True:
            try:
                test, mutants = batches.get_nowait()
            except queue.Empty:
                return
            if test not in passed and piece.fails(room, test, None):
                results.put((None, f"{piece.name}: the test {test} fails without a mutant", 0))
                continue
            passed.add(test)
            for mutant in mutants:
                results.put((mutant, *verdict(piece, room, mutant)))


def guarded(piece, batches, results):
    """A worker, whose end is a result too."""
    try:
        work(piece, batches, results)
    except Exception as why:  # noqa: BLE001 (whatever ends a worker fails the run)
        results.put((None, f"{piece.name}: a worker ended: {why!r}", 0))
    results.put(None)


def batches_of(mutants):
    """The mutants in batches of one test each."""
    found = queue.Queue()
    for test in sorted({mutant.test for mutant in mutants}):
        of_test = [mutant for mutant in mutants if mutant.test == test]
        for at in range(0, len(of_test), MUTANTS_AT_ONCE):
            found.put((test, of_test[at : at + MUTANTS_AT_ONCE]))
    return found


def processor_seconds():
    """What the programs that have ended took of processors."""
    spent = os.times()
    return spent.children_user + spent.children_system


def attempt(piece, mutants, workers):
    """Tries mutants, and prints what became of each. Returns whether all were killed."""
    batches, results, counts, began, spent = batches_of(mutants), queue.Queue(), Counter(), time.monotonic(), processor_seconds()
    for _ in range(workers):
        Thread(target=guarded, args=(piece, batches, results), daemon=True).start()
    while workers:
        result = results.get()
        if result is None:
            workers -= 1
            continue
        mutant, said, seconds = result
        counts[said.partition(":")[0] if mutant else "other"] += 1
        print(f"{mutant.table.name}:{mutant.line}: {mutant.name} ({mutant.test}): {said}, {seconds:.1f} s" if mutant else said, flush=True)
    print(
        f"run_unseen.py: {piece.name}: {len(mutants)} mutants: {counts['killed']} killed, {counts['SURVIVED']} survived, "
        f"{counts['NOT BUILT']} not built; {time.monotonic() - began:.0f} s, {processor_seconds() - spent:.0f} s of a processor",
        flush=True,
    )
    return counts["killed"] == len(mutants) and not counts["other"]


def has_all(piece):
    """Prints which functions of a piece there are, and what is wrong in its table. Returns whether nothing is."""
    table, paths = piece.table(), piece.paths()
    wrong = list(unseen.faults(table, TOP, paths))
    for path, line, words in wrong:
        print(f"run_unseen.py: {path.relative_to(TOP)}:{line}: {words}")
    count = sum(len(unseen.functions(path, path.read_text(encoding="utf-8"))) for path in paths)
    print(f"run_unseen.py: {piece.name}: {count} functions, {len(table.mutants)} mutants; {len(table.excused)} functions can have none", flush=True)
    return not wrong


def chosen(piece, words):
    mutants = piece.table().mutants
    if words == ["--gate"]:
        return [mutant for mutant in mutants if mutant.is_gate]
    return [mutant for mutant in mutants if len(words) < 2 or words[1] in mutant.name or words[1] == mutant.function]


def main(words):
    gate = words == ["--gate"]
    pieces = [piece for piece in PIECES if not words or gate or piece.name == words[0]]
    if not pieces or len(words) > 2:
        sys.exit(__doc__)
    right = all([has_all(piece) for piece in pieces])
    for piece in pieces:
        missing = piece.missing()
        if missing:
            print(f"run_unseen.py: no {missing}: the mutants of {piece.name} are left out")
            continue
        together = os.environ.get("TOGETHER") or (os.cpu_count() if gate else 2)
        right = attempt(piece, chosen(piece, words), int(together)) and right
    return 0 if right else 1


if __name__ == "__main__":
    try:
        sys.exit(main(sys.argv[1:]))
    except unseen.BadTable as bad:
        sys.exit(f"run_unseen.py: {bad.path.name}:{bad.line}: {bad.words}")
