"""What all sets of indices have: arrays, questions by order, streams."""
from __future__ import annotations

import operator
import pickle
from collections.abc import Callable, Iterable
from itertools import islice
from typing import TYPE_CHECKING, Any, Optional, Self, SupportsIndex, Union, overload

from . import _arrays
from ._algebra import Algebra, Made
from ._core import MAX_INDEX, Core
from ._streams import Fault, StreamError

if TYPE_CHECKING:
    import numpy as np
    import numpy.typing as npt

INDICES_PER_KEY = 65_536  # Those that a container of a stream has.
SHOWN = 32  # The most members that `repr` shows all of.


class IndexSet(Algebra[Made]):
    """A set of integers below 2**30, of either kind: what BitSet and SparseBitSet share."""

    __slots__ = ()

    def __init__(self, items: Iterable[SupportsIndex] = (), /) -> None:
        """Make the set of the items.

        TypeError for one that is no integer, OverflowError for one that is not in range(2**30).
        """
        if self:
            self.clear()
        if isinstance(items, Core):
            self._assign(items)
        elif type(items) is not tuple or items:
            self._add_items(items)

    # ---- Made of arrays and streams, and given to arrays ----

    @classmethod
    def from_numpy(cls, indices: npt.ArrayLike) -> Self:
        """Return the set of the integers of an array, which may be in any order. One of uint32 is not copied.

        >>> import numpy as np
        >>> from hibitset import BitSet
        >>> BitSet.from_numpy(np.array([70_000, 5]))
        BitSet([5, 70000])
        """
        made = cls()
        made._add_many(_arrays.indices_of_array(indices))
        return made

    @classmethod
    def deserialize(cls, data: Any, *, below: int = MAX_INDEX + 1) -> Self:
        """Return the set of the members that a stream in the portable Roaring format has, with runs or without.

        StreamError if the bytes are none, or if a member is not less than below. Give a bound for bytes of a stranger:
        without one, 18 of them can make a BitSet of 136 MB.

        >>> from hibitset import BitSet
        >>> BitSet.deserialize(BitSet([5, 70_000]).serialize(), below=100_000)
        BitSet([5, 70000])
        """
        made = cls()
        made._read(data, below)
        return made

    def to_numpy(self, out: Optional[npt.NDArray[np.uint32]] = None, *, start: int = 0) -> npt.NDArray[np.uint32]:
        """Return the members from start on, ascending, as an array of uint32.

        With out, write as many of them as it has room for there, and return that part of out.

        >>> from hibitset import BitSet
        >>> BitSet([5, 70_000]).to_numpy()
        array([    5, 70000], dtype=uint32)
        """
        if out is not None:
            return out[: self._next_many(start, out)]
        return self._all_from(start, "u4", lambda found: self._next_many(start, found))  # type: ignore[no-any-return]

    def _ids(self, base: int) -> npt.NDArray[np.uint64]:
        """The members plus a base, ascending."""
        return self._all_from(0, "u8", lambda found: self._next_many_u64(0, base, found))  # type: ignore[no-any-return]

    def _all_from(self, start: int, dtype: str, write: Callable[[Any], int]) -> Any:
        """An array of what is written of each member from start on."""
        room, count = 0, 1
        while count > room:  # Another thread may add members meanwhile, and take them out before they are counted.
            room = min(max(2 * room, self.len_range(start, MAX_INDEX + 1)), MAX_INDEX + 1)
            found = _arrays.numpy().empty(room + 1, dtype)
            count = write(found)
        return found[:count]

    def __array__(self, dtype: Any = None, copy: Optional[bool] = None) -> Any:
        """Return what to_numpy returns, for numpy.asarray."""
        if copy is False:
            raise ValueError("the members of a set are copied into an array")
        found = self.to_numpy()
        return found if dtype is None else found.astype(dtype)

    # ---- Questions about many indices, and by order ----

    def contains(self, indices: npt.ArrayLike) -> npt.NDArray[np.bool_]:
        """Return for each integer of an array whether it is a member, as an array of bool of the same shape.

        >>> from hibitset import BitSet
        >>> BitSet([5, 70_000]).contains([4, 5, -1])
        array([False,  True, False])
        """
        np = _arrays.numpy()
        asked = _arrays.integers(indices)
        found = np.empty(asked.shape, np.bool_)
        self._contains_many(_arrays.as_indices(asked), found.reshape(-1))
        if asked.dtype != np.uint32:
            found[_arrays.outside(asked)] = False
        return found  # type: ignore[no-any-return]

    def ranks(self, ends: npt.ArrayLike) -> npt.NDArray[np.uint64]:
        """Return for each integer of an array how many members are less, as an array of the same shape.

        >>> from hibitset import BitSet
        >>> BitSet([5, 70_000]).ranks([5, 6, 80_000])
        array([0, 1, 2], dtype=uint64)
        """
        np = _arrays.numpy()
        bounds = _arrays.bounds_of(ends)
        found = np.empty(bounds.shape, np.uint64)
        self._rank_many(bounds.reshape(-1), found.reshape(-1))
        return found  # type: ignore[no-any-return]

    def index(self, member: int) -> int:
        """Return the position of a member in the ascending list. ValueError if it is none."""
        if member not in self:
            raise ValueError(f"{member!r} is not a member")
        return self.rank(member)

    def contains_range(self, start: int, end: int) -> bool:
        """Return whether all indices in range(start, end) are members."""
        return start >= end or self.len_range(start, end) == end - start

    @overload
    def __getitem__(self, at: SupportsIndex) -> int: ...
    @overload
    def __getitem__(self, at: slice) -> Made: ...
    def __getitem__(self, at: Union[SupportsIndex, slice]) -> Union[int, Made]:
        """Return the member at a position of the ascending list, or the set of those at a slice of positions.

        >>> from hibitset import BitSet
        >>> pages = BitSet([5, 6, 70_000])
        >>> pages[0], pages[-1], pages[1:]
        (5, 70000, BitSet([6, 70000]))
        """
        if isinstance(at, slice):
            return self._at_slice(at)
        position = operator.index(at)
        if position < 0:
            position += len(self)
        found = self._select(position) if position >= 0 else None
        if found is None:
            raise IndexError("there is no member at this position")
        return found

    def _at_slice(self, at: slice) -> Made:
        found = self.copy()  # Other threads may change the set meanwhile.
        positions = range(len(found))[at]
        if positions.step < 0:
            positions = positions[::-1]
        if not positions or positions.step > 1:
            some = self._empty()
            some._add_items(islice(found, positions.start, positions.stop, positions.step))
            return some
        first, last = found[positions[0]], found[positions[-1]]
        found.remove_range(0, first)
        found.remove_range(last + 1, MAX_INDEX + 1)
        return found

    # ---- Streams ----

    def _read(self, data: Any, below: int) -> None:
        """Make this the set of a stream."""
        bound = min(max(operator.index(below), 0), MAX_INDEX + 1)
        wrong = self._deserialize(data, -(-bound // INDICES_PER_KEY))
        if wrong is None and self._end() > bound:
            wrong = Fault.MEMBER_OUT_OF_RANGE, memoryview(data).nbytes
        if wrong is not None:
            raise StreamError(Fault(wrong[0]), wrong[1])

    def __reduce_ex__(self, protocol: SupportsIndex) -> Any:
        """Pickle the stream of serialize, out of band from protocol 5 on."""
        data: Any = self.serialize()
        if operator.index(protocol) >= 5:
            data = pickle.PickleBuffer(data)
        return _unpickled, (type(self), data), getattr(object, "__getstate__")(self)

    def __dask_tokenize__(self) -> Any:
        return type(self).__qualname__, self.serialize()

    # ---- What is shown of it ----

    def __repr__(self) -> str:
        name = type(self).__name__
        first = list(islice(self, SHOWN + 1))
        if len(first) <= SHOWN:
            return f"{name}({first})" if first else f"{name}()"
        listed = ", ".join(map(str, first[: SHOWN // 2]))
        return f"<{name} of {len(self)}: {listed}, ..., {self.max()}>"

    def __sizeof__(self) -> int:
        return object.__sizeof__(self) + self._memory()


def _unpickled(cls: type[IndexSet[Any]], data: Any) -> IndexSet[Any]:
    made = cls.__new__(cls)
    made._read(data, MAX_INDEX + 1)
    return made
