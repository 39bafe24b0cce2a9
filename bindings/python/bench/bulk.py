#!/usr/bin/env python3
"""bulk.py [IDS]: processor time of calls on two sets of random ids below 2^24 (10,000,000 ids each unless it is said): of BitSet, of
numpy's sorted arrays and arrays of bool, and of set. Results are compared before they are timed. It prints two tables."""
import sys
import time
import timeit

import numpy as np

from hibitset import BitSet

BELOW = 1 << 24


def milliseconds(call):
    """The least of the times within a second, of five at least, but of one alone if it takes two seconds."""
    timer = timeit.Timer(call, timer=time.process_time)
    first = timer.timeit(1)
    return 1e3 * min([first, *timer.repeat(max(4, int(1 / first)) if first < 2 else 0, 1)])


def masked(ids):
    mask = np.zeros(BELOW, bool)
    mask[ids] = True
    return mask


def rows(a, b):
    """What is done: by BitSet, by sorted arrays, by arrays of bool, by set."""
    sorted_a, sorted_b, mask_a, mask_b = np.unique(a), np.unique(b), masked(a), masked(b)
    x, y = BitSet.from_numpy(a), BitSet.from_numpy(b)
    list_a = a.tolist()
    set_a, set_b = set(list_a), set(b.tolist())
    assert np.array_equal(x.to_numpy(), sorted_a) and np.array_equal(x.to_mask(BELOW), mask_a) and len(x) == len(set_a)
    both = np.intersect1d(sorted_a, sorted_b, assume_unique=True)
    assert np.array_equal((x & y).to_numpy(), both) and len(set_a & set_b) == len(both) and x.contains(b).sum() == np.isin(b, sorted_a).sum()
    data = x.serialize()
    print(f"{len(a):,} random ids below 2^24 each, {len(x):,} members. A BitSet takes {x.capacity() / 8e6:.1f} MB, a sorted array {sorted_a.nbytes / 1e6:.1f} MB.\n")
    return [
        ("made of an array", lambda: BitSet.from_numpy(a), lambda: np.unique(a), lambda: masked(a), None),
        ("made of a list", lambda: BitSet(list_a), None, None, lambda: set(list_a)),
        ("`a & b`", lambda: x & y, lambda: np.intersect1d(sorted_a, sorted_b, assume_unique=True), lambda: mask_a & mask_b, lambda: set_a & set_b),
        ("<code>a &#124; b</code>", lambda: x | y, lambda: np.union1d(sorted_a, sorted_b), lambda: mask_a | mask_b, lambda: set_a | set_b),
        ("how many of both", lambda: x.intersection_len(y), None, lambda: np.count_nonzero(mask_a & mask_b), lambda: len(set_a & set_b)),
        ("is each of `b` in `a`", lambda: x.contains(b), lambda: np.isin(b, sorted_a), lambda: mask_a[b], None),
        ("100,000 ranks", lambda: x.ranks(b[:100_000]), lambda: np.searchsorted(sorted_a, b[:100_000]), None, None),
        ("the members as an array", lambda: x.to_numpy(), lambda: sorted_a.copy(), lambda: np.flatnonzero(mask_a), lambda: np.array(list(set_a))),
        ("all members, one by one", lambda: sum(x), None, None, lambda: sum(set_a)),
        ("`serialize`, `tobytes`", lambda: x.serialize(), lambda: sorted_a.tobytes(), lambda: np.packbits(mask_a).tobytes(), None),
        ("`deserialize`", lambda: BitSet.deserialize(data), None, None, None),
    ]


def main():
    count = int(sys.argv[1]) if len(sys.argv) > 1 else 10_000_000
    random = np.random.default_rng(3)
    table = rows(*(random.integers(0, BELOW, count, dtype=np.uint32) for _ in range(2)))
    print("| milliseconds | BitSet | sorted array | array of bool | set |\n|---|---:|---:|---:|---:|")
    for name, *calls in table:
        cells = ["-" if call is None else f"{milliseconds(call):,.2f}" for call in calls]
        print(f"| {name} | {' | '.join(cells)} |", flush=True)


def single():
    """Nanoseconds of one call on a set of 100,000 random ids below 2^20."""
    ids = np.random.default_rng(1).integers(0, 1 << 20, 100_000, dtype=np.uint32).tolist()
    model = set(ids)
    miss = next(i for i in range(1 << 20) if i not in model)
    print("\n| nanoseconds | BitSet | set |\n|---|---:|---:|")
    statements = [("`i in a`, a member", "hit in a"), ("`i in a`, none", "miss in a"), ("`a.add(i)`, a member", "a.add(hit)"), ("an empty set", "kind()")]
    for name, statement in statements:
        cells = []
        for kind in [BitSet, set]:
            names = {"a": kind(ids), "hit": ids[7], "miss": miss, "kind": kind}
            timer = timeit.Timer("\n".join([statement] * 10), globals=names, timer=time.process_time)
            cells.append(min(timer.repeat(10, 20_000)) / 200_000 * 1e9)
        print(f"| {name} | {cells[0]:.0f} | {cells[1]:.0f} |")


main()
single()
