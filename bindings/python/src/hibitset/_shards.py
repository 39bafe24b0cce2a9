"""Shards of a set of 64-bit ids: each is a BitSet or a SparseBitSet, whichever takes fewer bytes."""
from __future__ import annotations

import operator
from collections.abc import Callable, Iterable
from typing import Any, Union

import numpy as np
import numpy.typing as npt

from ._arrays import BITS_OF_WORD
from ._bitset import BitSet
from ._indexset import IndexSet
from ._sparse import SparseBitSet

Shard = Union[BitSet, SparseBitSet]

BYTES_OF_WORD = 8
BYTES_OF_ID = 32  # A BitSet is filled with ids in any order if it takes no more than this for each.


def dense_bytes(end: int) -> int:
    """What a BitSet takes for members below end: 8 bytes for each 64 indices, and a 64th more."""
    words = -(-end // BITS_OF_WORD)
    return BYTES_OF_WORD * words + BYTES_OF_WORD * words // BITS_OF_WORD


def smaller(shard: Shard) -> Shard:
    """The same set as the kind that takes fewer bytes, sparse if both take as many. It may be the shard itself."""
    dense = dense_bytes(shard._end())
    if isinstance(shard, BitSet):
        # A sparse set keeps the words that are not 0, and tables over them.
        if BYTES_OF_WORD * np.count_nonzero(shard.words()) > dense:
            return shard
        sparse = SparseBitSet(shard)
        return shard if dense < sparse._memory() else sparse
    if dense < shard._memory():
        return BitSet(shard)
    shard.shrink()
    return shard


def fills_a_dense_set(end: int, count: int) -> bool:
    """Whether so many ids below end are put into a BitSet first, since it takes little more than they do."""
    return dense_bytes(end) <= BYTES_OF_ID * count


def put(shard: Shard, part: Any) -> Shard:
    """Add the members of a set, or the indices of an array, to a shard, and return it."""
    if isinstance(shard, BitSet) or isinstance(part, IndexSet):
        shard.update(part)
    else:
        shard.update(SparseBitSet(np.sort(part)))  # A sparse set is filled in ascending order.
    return shard


def built(parts: Iterable[Any]) -> Shard:
    """The set of the members of sets and of the indices of arrays, of the smaller kind."""
    lists = [part for part in parts if len(part)]
    end = max((part._end() if isinstance(part, IndexSet) else int(part.max()) + 1 for part in lists), default=0)
    made: Shard = BitSet() if fills_a_dense_set(end, sum(map(len, lists))) else SparseBitSet()
    for part in lists:
        put(made, part)
    return smaller(made)


def added(shard: Shard, indices: npt.NDArray[np.uint32], fills: bool) -> Shard:
    """A shard with indices more, of the smaller kind; if it fills a dense set, dense until no more are added."""
    if fills or isinstance(shard, BitSet):
        made = shard if isinstance(shard, BitSet) else BitSet(shard)
        before = made.capacity()
        put(made, indices)
        # With more members below the same end, a BitSet is the smaller kind still.
        return made if fills or made.capacity() == before else smaller(made)
    return smaller(put(shard, indices))


def combined(call: Callable[[Any, Any], Any], a: Shard, b: Shard) -> Shard:
    """What an operator returns of two shards, of the smaller kind."""
    dense = isinstance(b, BitSet)
    if call is operator.and_ and not dense or call in (operator.or_, operator.xor) and dense:
        a, b = b, a  # What is returned is made of the first: of both a sparse one, of either a dense one.
    return smaller(call(a, b))
