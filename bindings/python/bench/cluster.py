#!/usr/bin/env python3
"""cluster.py dask|ids|numpy [IDS]: two sets of random 64-bit ids (100,000,000 each unless it is said) below 2^32, by Dask on a
LocalCluster of 4 processes, by an IdSet, or by numpy's sorted arrays, the latter two in one process. It prints seconds and the
most memory of a process, and last the answers, which are the same for all three. BITS: bits of a shard, of which there are 16 (28)."""
import hashlib
import os
import resource
import sys
import tempfile
import time

import numpy as np

BITS, SHARDS, CHUNK, PROCESSES = int(os.environ.get("BITS", "28")), 16, 5_000_000, 4
BELOW = SHARDS << BITS


def chunk(which, number, count):
    return np.random.default_rng([which, number]).integers(0, BELOW, count, dtype=np.uint64)


def lens(count):
    return [min(CHUNK, count - start) for start in range(0, count, CHUNK)]


def whole(which, count):
    return np.concatenate([chunk(which, number, length) for number, length in enumerate(lens(count))])


def digest(ids):
    return hashlib.sha256(np.ascontiguousarray(ids, np.uint64)).hexdigest()[:16]


def peak():
    return resource.getrusage(resource.RUSAGE_SELF).ru_maxrss / 1e3


class Clock:
    """Prints how long each step took."""

    def __init__(self):
        self.at = self.began = time.perf_counter()

    def __call__(self, step):
        now = time.perf_counter()
        print(f"  {step:40} {now - self.at:8.2f} s", flush=True)
        self.at = now


def by_numpy(count, clock):
    a, b = whole(1, count), whole(2, count)
    clock("the ids are made")
    a, b = np.unique(a), np.unique(b)
    clock("both sets")
    both = np.intersect1d(a, b, assume_unique=True)
    clock("a & b")
    either = len(np.union1d(a, b))
    clock("how many of a | b")
    found = int(np.isin(chunk(3, 0, 1_000_000), a).sum())
    clock("is each of a million in a")
    order = int(np.searchsorted(a, np.uint64(BELOW // 3))), int(a[len(a) // 2])
    clock("rank, select")
    return len(a), len(b), len(both), either, found, *order, digest(both)


def by_ids(count, clock):
    from hibitset.ids import IdSet

    a, b = whole(1, count), whole(2, count)
    clock("the ids are made")
    a, b = (IdSet.from_numpy(ids, shards=SHARDS, bits=BITS) for ids in (a, b))
    clock("both sets")
    both = a & b
    clock("a & b")
    either = len(a | b)
    clock("how many of a | b")
    found = int(a.contains(chunk(3, 0, 1_000_000)).sum())
    clock("is each of a million in a")
    order = a.rank(BELOW // 3), a.select(len(a) // 2)
    clock("rank, select")
    return len(a), len(b), len(both), either, found, *order, digest(both.to_numpy())


def by_dask(count, clock):
    import dask
    import dask.array as da
    import distributed

    from hibitset import dask as hd

    def ids(which):
        parts = [(dask.delayed(chunk)(which, number, length), length) for number, length in enumerate(lens(count))]
        return da.concatenate([da.from_delayed(part, (length,), np.uint64) for part, length in parts])

    def held(collection):
        collection = collection.persist()
        distributed.wait(collection)
        return collection

    words = {"processes": True, "host": "127.0.0.1", "dashboard_address": None, "memory_limit": "3GB"}
    with distributed.LocalCluster(n_workers=PROCESSES, threads_per_worker=1, **words) as cluster, distributed.Client(cluster) as client:
        clock(f"{PROCESSES} processes are started")
        lists = [held(ids(which)) for which in (1, 2)]
        clock("the ids are made")
        a, b = (held(hd.from_ids(each, bits=BITS, shards=SHARDS)) for each in lists)
        del lists
        clock("both sets")
        both = held(a & b)
        clock("a & b")
        either = (a | b).count().compute()
        clock("how many of a | b")
        found = int(a.contains(chunk(3, 0, 1_000_000)).sum().compute())
        clock("is each of a million in a")
        order = a.rank(BELOW // 3).compute(), a.select(len(a) // 2).compute()
        clock("rank, select")
        with tempfile.TemporaryDirectory() as folder:
            both.to_folder(folder)
            clock(f"to_folder, {sum(entry.stat().st_size for entry in os.scandir(folder)) / 1e6:,.0f} MB")
            again = hd.from_folder(folder).compute()
        clock("from_folder, into this process")
        print(f"  most memory of a worker: {max(client.run(peak).values()):,.0f} MB")
        return len(a), len(b), len(both), either, found, *order, digest(again.to_numpy())


def main():
    way = {"dask": by_dask, "ids": by_ids, "numpy": by_numpy}[sys.argv[1]]
    count = int(float(sys.argv[2])) if len(sys.argv) > 2 else 100_000_000
    print(f"{sys.argv[1]}: {count:,} random ids below 2^{BELOW.bit_length() - 1}, twice, in {SHARDS} shards of {BITS} bits", flush=True)
    clock = Clock()
    answers = way(count, clock)
    print(f"  all {time.perf_counter() - clock.began:.1f} s, most memory of this process {peak():,.0f} MB")
    print(f"  answers: {answers}")


if __name__ == "__main__":
    main()
