"""The sparse set."""
from __future__ import annotations

from collections.abc import MutableSet

from ._core import SparseCore, return_sets_of
from ._indexset import IndexSet

__all__ = ["SparseBitSet"]


class SparseBitSet(SparseCore, IndexSet["SparseBitSet"]):
    """A set of integers below 2**30 whose memory goes by its members, wherever they lie.

    It has what a BitSet has but for arrays of bits, capacity, first_gap and fingerprint, and mixes with BitSets: an
    operator returns a set of the left one's kind. BitSet(s) and SparseBitSet(s) make a set of the other kind.

    >>> from hibitset import BitSet, SparseBitSet
    >>> seen = SparseBitSet([1_000_000_000, 5])
    >>> seen | BitSet([7]), BitSet([5, 7]) & seen, BitSet(seen - {1_000_000_000})
    (SparseBitSet([5, 7, 1000000000]), BitSet([5]), BitSet([5]))

    It takes 8 bytes for each 64 indices with a member, 16 for each 4,096, 56 for each 262,144 and 16 for each
    16,777,216, and up to twice that until shrink. Members are best added in ascending order. Threads may share one; a
    long call on it lets others run meanwhile, but none on the same set.
    """

    __slots__ = ("__weakref__",)


return_sets_of(SparseBitSet)
MutableSet.register(SparseBitSet)
