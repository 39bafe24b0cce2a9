"""The dense set."""
from __future__ import annotations

from collections.abc import MutableSet
from typing import TYPE_CHECKING, Any, Optional, Self

from . import _arrays
from ._core import DenseCore, return_sets_of
from ._indexset import IndexSet

if TYPE_CHECKING:
    import numpy as np
    import numpy.typing as npt

__all__ = ["BitSet"]


class BitSet(DenseCore, IndexSet["BitSet"]):
    """A set of integers below 2**30, which are its indices.

    It has the methods and operators of Python's set, and goes by ascending members. These return BitSets, also those of
    a derived class.

    >>> pages = BitSet([70_000, 5])
    >>> 5 in pages, list(pages), pages | {7}
    (True, [5, 70000], BitSet([5, 7, 70000]))

    A set takes a bit for each number up to its greatest member, and a sixty-third of that. Threads may share one: a
    call waits for another that changes the set, and a long one lets others run meanwhile.
    """

    __slots__ = ("__weakref__",)

    # ---- Made of bits ----

    @classmethod
    def with_capacity(cls, end: int) -> Self:
        """Return an empty set, to which the indices below end can be added without an allocation."""
        made = cls()
        made._with_capacity(end)
        return made

    @classmethod
    def from_mask(cls, mask: npt.ArrayLike) -> Self:
        """Return the set of the positions where an array of bool is true.

        >>> import numpy as np
        >>> BitSet.from_mask(np.array([False, True, True]))
        BitSet([1, 2])
        """
        np = _arrays.numpy()
        bits = np.asarray(mask)
        if bits.dtype != np.bool_ or bits.ndim != 1:
            raise TypeError("expected an array of bool of one dimension")
        return cls.from_packed(np.packbits(bits, bitorder="little"), bitorder="little")

    @classmethod
    def from_packed(cls, packed: npt.ArrayLike, *, bitorder: str = "big") -> Self:
        """Return the set of the positions of the bits that numpy.packbits has packed in this order."""
        np = _arrays.numpy()
        given = np.asarray(packed)
        if given.dtype != np.uint8 or given.ndim != 1:
            raise TypeError("expected an array of uint8 of one dimension")
        words = _arrays.no_words(8 * len(given))
        words.view(np.uint8)[: len(given)] = _arrays.in_order(given, bitorder)
        return cls.from_words(words)

    @classmethod
    def from_words(cls, words: Any) -> Self:
        """Return the set of which 64 * p + b is a member if bit b of word p is set, of a buffer of uint64."""
        made = cls()
        made._assign_words(words)
        return made

    # ---- Given as bits ----

    def to_mask(self, length: Optional[int] = None) -> npt.NDArray[np.bool_]:
        """Return an array of bool that is true at each member. Without a length it ends with the last member.

        >>> BitSet([1, 2]).to_mask(4)
        array([False,  True,  True, False])
        """
        np = _arrays.numpy()
        length = self._end() if length is None else length
        bits = np.unpackbits(self._copied_words(length).view(np.uint8), count=length, bitorder="little")
        return bits.view(np.bool_)  # type: ignore[no-any-return]

    def to_packed(self, length: Optional[int] = None, *, bitorder: str = "big") -> npt.NDArray[np.uint8]:
        """Return what numpy.packbits makes of to_mask(length)."""
        np = _arrays.numpy()
        length = self._end() if length is None else length
        packed = self._copied_words(length).view(np.uint8)[: -(-length // 8)]
        if length % 8:
            packed[-1] &= (1 << length % 8) - 1
        return _arrays.in_order(packed, bitorder)  # type: ignore[no-any-return]

    def words(self) -> npt.NDArray[np.uint64]:
        """Return the words of the set, without a copy: 64 * p + b is a member if bit b of word p is set.

        The array is read only. While it or a part of it lives, a change of the set raises BufferError.

        >>> BitSet([0, 2, 64]).words().tolist()
        [5, 1]
        """
        return _arrays.numpy().asarray(memoryview(self._words()))  # type: ignore[arg-type, no-any-return]

    def _copied_words(self, length: int) -> Any:
        words = _arrays.no_words(length)
        self._copy_words(words)
        return words


return_sets_of(BitSet)
MutableSet.register(BitSet)
