"""A program with types, as a user writes it: mypy checks it, and nothing runs it."""
from collections.abc import MutableSet, Set

import numpy as np
import numpy.typing as npt

from hibitset import BitSet, Fault, SparseBitSet, StreamError
from hibitset.ids import IdSet


class Pages(BitSet):
    """A class of the user's."""


def total(members: Set[int]) -> int:
    return sum(members)


def fill(members: MutableSet[int]) -> None:
    members.add(5)
    members |= {7}


def kept(pages: Pages, other: BitSet, ids: npt.NDArray[np.int64]) -> BitSet:
    fill(pages)
    pages |= other
    both: BitSet = pages & other & {1, 2} - {3}
    hits: npt.NDArray[np.bool_] = both.contains(ids)
    first: int = both[0]
    some: BitSet = both[1:first]
    least: int | None = some.first_from(total(some))
    made: Pages = Pages.from_numpy(ids[hits])
    return made.union(range(5), [least or 0], np.arange(3))


def mixed(dense: BitSet, sparse: SparseBitSet, ids: npt.NDArray[np.uint32]) -> SparseBitSet:
    fill(sparse)
    sparse |= dense
    both: BitSet = dense & sparse
    rest: SparseBitSet = sparse - both.union([5]) ^ {7}
    some: SparseBitSet = SparseBitSet(both)[1:]
    some.shrink()
    return rest if rest.max() < total(dense | sparse) else SparseBitSet.from_numpy(ids)


def fault(data: bytes) -> Fault | None:
    try:
        BitSet.deserialize(data, below=1 << 20)
    except StreamError as error:
        return error.fault
    return None


def ids_of(array: npt.NDArray[np.uint64]) -> npt.NDArray[np.uint64]:
    some: IdSet = IdSet.from_numpy(array, shards=4, bits=20)
    return (some & some - some).to_numpy()
