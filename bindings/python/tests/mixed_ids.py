"""Two lists of ids whose shards are of both kinds, beside each other in each way."""
import numpy as np

from hibitset import BitSet

BITS, SHARDS = 12, 7
TOP = SHARDS << BITS
RANDOM = np.random.default_rng(11)


def ids_of(counts):
    """So many random ids of each shard, in random order."""
    parts = [RANDOM.integers(high << BITS, (high + 1) << BITS, count, dtype=np.uint64) for high, count in enumerate(counts)]
    return RANDOM.permutation(np.concatenate(parts))


A = ids_of([1500, 9, 2000, 0, 8, 1201, 2998])
B = ids_of([7, 10, 1500, 900, 1000, 6, 2000])
MEMBERS = np.unique(A)


def kinds_of(some):
    """The kinds of a set's shards, as words."""
    return " ".join("dense" if type(shard) is BitSet else "sparse" for shard in some.shards)
