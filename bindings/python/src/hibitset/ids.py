"""Sets of 64-bit ids in one process: a shard, of the kind that takes fewer bytes, for each value of their high bits."""
from __future__ import annotations

import operator
from collections.abc import Callable, Iterator, Sequence
from itertools import accumulate
from pathlib import Path
from typing import Any, Optional, Union

import numpy as np
import numpy.typing as npt

from . import folder as folders
from ._arrays import integers
from ._core import split_ids
from ._shards import Shard, added, combined, fills_a_dense_set, smaller
from ._sparse import SparseBitSet

__all__ = ["IdSet"]

IDS_AT_ONCE = 1 << 22  # Splitting a list takes some 30 bytes an id.
MOST_SHARDS = 1 << 20  # So negative numbers, as numbers without a sign, lie past all ids.


def check_shape(bits: int, shards: int) -> None:
    """ValueError if there are no sets of so many shards of so many bits."""
    folders.check_bits(bits)
    if not 1 <= shards <= MOST_SHARDS:
        raise ValueError(f"a set has 1 to {MOST_SHARDS:,} shards, not {shards:,}")


class Parts:
    """A list of integers by shards: the low bits of those in each, and in others how many are no ids."""

    def __init__(self, given: Any, bits: int, shards: int) -> None:
        ids = np.require(integers(given), "u8", ["C", "A"]).reshape(-1)
        highs, lows = np.empty(len(ids), np.uint32), np.empty(len(ids), np.uint32)
        split_ids(ids, bits, shards, highs, lows)
        highs = highs.astype(np.min_scalar_type(shards))
        # Positions in the list, by shards: what is no id comes last.
        self.order = np.argsort(highs, kind="stable")
        ends = np.bincount(highs, minlength=shards + 1).cumsum()
        *self.lows, last = np.split(lows[self.order], ends[:-1])
        self.others = len(last)

    def answers(self, by_shard: Sequence[npt.NDArray[np.bool_]]) -> npt.NDArray[np.bool_]:
        """The answers in the order of the list, of those to each shard; False to what is no id."""
        found = np.zeros(len(self.order), np.bool_)
        found[self.order[: len(found) - self.others]] = np.concatenate(by_shard)
        return found


def split(given: Any, bits: int, shards: int, first: int = 0) -> list[npt.NDArray[np.uint32]]:
    """The low bits of the ids in each shard. OverflowError for what is no id, with its position, counted from first."""
    parts = Parts(given, bits, shards)
    if parts.others:
        at = int(parts.order[-parts.others])
        found = f"{integers(given).reshape(-1)[at]} at position {first + at}"
        raise OverflowError(f"{found} is not an id: these lie in range({shards} * 2**{bits})")
    return parts.lows


def ids_of(shard: Shard, high: int, bits: int) -> npt.NDArray[np.uint64]:
    """The ids of the members of a shard."""
    return shard._ids(high << bits)


def shard_at(lens: Sequence[int], at: int) -> tuple[int, int]:
    """The shard that has the member at a position of the whole list, and its position there."""
    before = 0
    if at >= 0:
        for high, end in enumerate(accumulate(lens)):
            if at < end:
                return high, at - before
            before = end
    raise IndexError("there is no member at this position")


class IdSet:
    """A set of ids below len(shards) << bits.

    >>> users = IdSet.from_numpy([5, 1 << 33], shards=16, bits=30)
    >>> 1 << 33 in users, len(users), users.rank(1 << 33)
    (True, 2, 1)

    Each shard is a BitSet, which takes a bit for each id up to its last one and a 64th more, or a SparseBitSet, which
    takes memory by its members: the kind that takes fewer bytes. It is chosen where a shard is made of an array, read,
    or returned by an operator; add and discard keep it. One thread at a time changes an IdSet. A set that was computed
    of a ShardedSet may share its shards with it: change a copy.
    """

    __slots__ = ("bits", "shards")

    def __init__(self, shards: Sequence[Shard], bits: int) -> None:
        check_shape(bits, len(shards))
        self.bits = bits
        self.shards = list(shards)

    # ---- Made of other things, and given to them ----

    @classmethod
    def from_numpy(cls, ids: npt.ArrayLike, *, shards: int, bits: int) -> IdSet:
        """Return the set of the integers of an array. OverflowError for one that is no id, with its position."""
        check_shape(bits, shards)
        made = cls([SparseBitSet() for _ in range(shards)], bits)
        made.update(ids)
        return made

    def to_numpy(self) -> npt.NDArray[np.uint64]:
        """Return the members, ascending, as an array of uint64."""
        return np.concatenate([ids_of(shard, high, self.bits) for high, shard in enumerate(self.shards)])

    @classmethod
    def from_folder(cls, folder: Union[str, Path]) -> IdSet:
        """Return the set that to_folder has written. FolderError, which names the file, if the folder has another."""
        bits, entries = folders.read_manifest(folder)
        return cls([folders.read_shard(folder, entry, bits) for entry in entries], bits)

    def to_folder(self, folder: Union[str, Path]) -> None:
        """Write each shard as a stream, and a manifest. A crash leaves what the folder had, or this set."""
        entries = [folders.write_shard(folder, high, shard) for high, shard in enumerate(self.shards)]
        folders.commit(folder, self.bits, entries)

    def copy(self) -> IdSet:
        """Return a set with the same members."""
        return IdSet([shard.copy() for shard in self.shards], self.bits)

    # ---- Ids in and out ----

    def _place(self, id_: int) -> tuple[Optional[Shard], int]:
        """The shard of an id, or None, and its low bits."""
        high, low = divmod(operator.index(id_), 1 << self.bits)
        return (self.shards[high] if 0 <= high < len(self.shards) else None), low

    def add(self, id_: int) -> None:
        """Add an id. OverflowError if it lies past the shards."""
        shard, low = self._place(id_)
        if shard is None:
            raise OverflowError(f"{id_} is not an id: these lie in range({len(self.shards)} * 2**{self.bits})")
        shard.add(low)

    def update(self, ids: npt.ArrayLike) -> None:
        """Add the integers of an array. OverflowError for one that is no id, with its position: others may be added."""
        flat = integers(ids).reshape(-1)
        fills = fills_a_dense_set(1 << self.bits, len(flat) // len(self.shards))
        try:
            for first in range(0, len(flat), IDS_AT_ONCE):
                parts = split(flat[first : first + IDS_AT_ONCE], self.bits, len(self.shards), first)
                for high, lows in enumerate(parts):
                    if len(lows):
                        self.shards[high] = added(self.shards[high], lows, fills)
        finally:
            if fills:
                self.shards = list(map(smaller, self.shards))

    def discard(self, id_: int) -> None:
        """Remove an id if it is a member."""
        shard, low = self._place(id_)
        if shard is not None:
            shard.discard(low)

    def __contains__(self, id_: int) -> bool:
        shard, low = self._place(id_)
        return shard is not None and low in shard

    # ---- All of them ----

    def __len__(self) -> int:
        return sum(map(len, self.shards))

    def __bool__(self) -> bool:
        return any(self.shards)

    def __iter__(self) -> Iterator[int]:
        for high, shard in enumerate(self.shards):
            first = high << self.bits
            for low in shard:
                yield first + low

    def contains(self, ids: npt.ArrayLike) -> npt.NDArray[np.bool_]:
        """Return for each integer of an array whether it is a member, as an array of bool of the same shape."""
        parts = Parts(ids, self.bits, len(self.shards))
        found = parts.answers([shard.contains(lows) for shard, lows in zip(self.shards, parts.lows)])
        return found.reshape(np.shape(ids))

    def rank(self, id_: int) -> int:
        """Return how many members are less than an id."""
        high = operator.index(id_) >> self.bits
        if high < 0:
            return 0
        shard, low = self._place(id_)
        return sum(map(len, self.shards[:high])) + (0 if shard is None else shard.rank(low))

    def select(self, at: int) -> int:
        """Return the member at a position of the ascending list. IndexError if there is none."""
        high, position = shard_at([len(shard) for shard in self.shards], at)
        return (high << self.bits) + self.shards[high][position]

    # ---- Two sets ----

    def _with(self, other: object, call: Callable[[Any, Any], Any]) -> IdSet:
        if not isinstance(other, IdSet):
            return NotImplemented
        if (other.bits, len(other.shards)) != (self.bits, len(self.shards)):
            raise ValueError("the two sets have other shards")
        return IdSet([combined(call, a, b) for a, b in zip(self.shards, other.shards)], self.bits)

    def __and__(self, other: object) -> IdSet:
        return self._with(other, operator.and_)

    def __or__(self, other: object) -> IdSet:
        return self._with(other, operator.or_)

    def __xor__(self, other: object) -> IdSet:
        return self._with(other, operator.xor)

    def __sub__(self, other: object) -> IdSet:
        return self._with(other, operator.sub)

    def __eq__(self, other: object) -> bool:
        if not isinstance(other, IdSet):
            return NotImplemented
        return self.bits == other.bits and self.shards == other.shards

    __hash__ = None  # type: ignore[assignment]

    def __repr__(self) -> str:
        return f"<IdSet of {len(self)} in {len(self.shards)} shards of {self.bits} bits>"
