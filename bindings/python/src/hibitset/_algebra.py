"""What sets of indices do with other sets, of any kind: the methods and operators of Python's set."""
from __future__ import annotations

from collections.abc import Collection, Iterable, Set
from typing import TYPE_CHECKING, Any, Self, SupportsIndex, TypeVar

from . import _arrays
from ._core import MAX_INDEX, Core

if TYPE_CHECKING:
    from ._indexset import IndexSet

Made = TypeVar("Made", bound="IndexSet[Any]")  # The sets that methods return: BitSet or SparseBitSet.


class Algebra(Core[Made]):
    """A set of indices with the methods and operators of Python's set, which return sets of the left one's kind."""

    __slots__ = ()

    # ---- What other objects are as sets of indices ----

    def _end(self) -> int:
        """A number above all members, 0 if there is none."""
        last = self.last_before(MAX_INDEX + 1)
        return 0 if last is None else last + 1

    def _add_items(self, items: Any) -> None:
        if isinstance(items, Core):
            self._or_assign(items)
        elif type(items) is range and items.step == 1:
            if items:
                self.add_range(items.start, items.stop)
        else:
            self._add_many(_arrays.indices_of(items))

    def _set_of(self, items: Any) -> Core[Any]:
        """The set of the items. TypeError or OverflowError for one that is no index."""
        if isinstance(items, Core):
            return items
        made = self._empty()
        made._add_items(items)
        return made

    def _common(self, items: Any) -> tuple[Core[Any], bool]:
        """A set that has those members that an item is equal to, and no other member; and whether it has each item."""
        if isinstance(items, Core):
            return items, True
        made = self._empty()
        if type(items) is range and items.step == 1:
            inside = range(max(items.start, 0), min(items.stop, self._end()))
            made._add_items(inside)
            return made, len(inside) == len(items)
        if not isinstance(items, Collection):
            items = list(items)  # It may be gone through twice.
        try:
            return made, made._add_common(self, _arrays.indices_of(items))
        except (OverflowError, TypeError):
            pass
        if _arrays.is_array(items) and _arrays.numpy().asarray(items).dtype.kind in "iu":
            indices, whole = _arrays.indices_within(items)
            return made, made._add_common(self, indices) and whole
        whole = True
        for item in items:
            if item in self:
                made.add(hash(item))  # What is equal to an integer has its hash, which is the integer.
            else:
                whole = False
        return made, whole

    def _remove_items(self, items: Any) -> None:
        """Remove the members that an item is equal to."""
        if not isinstance(items, (Core, range)):
            if not isinstance(items, Collection):
                items = list(items)  # It may be gone through twice.
            try:
                self._remove_many(_arrays.indices_of(items))
                return
            except (OverflowError, TypeError):
                pass
        self._andnot_assign(self._common(items)[0])

    # ---- Methods of sets, which take any iterable ----

    def update(self, *others: Iterable[SupportsIndex]) -> None:
        """Add the items of all others. If one is refused, some of those before it may have been added."""
        for other in others:
            self._add_items(other)

    def intersection_update(self, *others: Iterable[Any]) -> None:
        """Remove the members that are not in all others."""
        for other in others:
            self._and_assign(self._common(other)[0])

    def difference_update(self, *others: Iterable[Any]) -> None:
        """Remove the members that are in one of the others."""
        for other in others:
            self._remove_items(other)

    def symmetric_difference_update(self, other: Iterable[SupportsIndex]) -> None:
        """Remove the members that are in the other, and add its other items."""
        self._xor_assign(self._set_of(other))

    def union(self, *others: Iterable[SupportsIndex]) -> Made:
        """Return the set of the members and the items of all others."""
        if len(others) == 1:
            return self._or(self._set_of(others[0]))
        found = self.copy()
        found.update(*others)
        return found

    def intersection(self, *others: Iterable[Any]) -> Made:
        """Return the set of the members that are in all others."""
        if len(others) == 1:
            return self._and(self._common(others[0])[0])
        found = self.copy()
        found.intersection_update(*others)
        return found

    def difference(self, *others: Iterable[Any]) -> Made:
        """Return the set of the members that are in none of the others."""
        if len(others) == 1:
            return self._andnot(self._common(others[0])[0])
        found = self.copy()
        found.difference_update(*others)
        return found

    def symmetric_difference(self, other: Iterable[SupportsIndex]) -> Made:
        """Return the set of what is in one of the two alone."""
        return self._xor(self._set_of(other))

    def issubset(self, other: Iterable[Any]) -> bool:
        """Return whether each member is in the other."""
        return self._is_subset(self._common(other)[0])

    def issuperset(self, other: Iterable[Any]) -> bool:
        """Return whether each item of the other is a member."""
        common, whole = self._common(other)
        return whole and common._is_subset(self)

    def isdisjoint(self, other: Iterable[Any]) -> bool:
        """Return whether no member is in the other."""
        return self._is_disjoint(self._common(other)[0])

    # ---- Sizes of sets that are not made ----

    def intersection_len(self, other: Iterable[Any]) -> int:
        """Return the length of intersection(other).

        >>> from hibitset import BitSet
        >>> BitSet([5, 6]).intersection_len(BitSet([6, 7]))
        1
        """
        return self._and_len(self._common(other)[0])

    def union_len(self, other: Iterable[SupportsIndex]) -> int:
        """Return the length of union(other)."""
        return self._or_len(self._set_of(other))

    def difference_len(self, other: Iterable[Any]) -> int:
        """Return the length of difference(other)."""
        return self._andnot_len(self._common(other)[0])

    def symmetric_difference_len(self, other: Iterable[SupportsIndex]) -> int:
        """Return the length of symmetric_difference(other)."""
        return self._xor_len(self._set_of(other))

    # ---- Operators, which take a set of any kind ----

    def __or__(self, other: Set[int]) -> Made:  # type: ignore[override]
        return self._or(self._set_of(other)) if isinstance(other, Set) else NotImplemented

    def __and__(self, other: Set[Any]) -> Made:
        return self._and(self._common(other)[0]) if isinstance(other, Set) else NotImplemented

    def __xor__(self, other: Set[int]) -> Made:  # type: ignore[override]
        return self._xor(self._set_of(other)) if isinstance(other, Set) else NotImplemented

    def __sub__(self, other: Set[Any]) -> Made:
        return self._andnot(self._common(other)[0]) if isinstance(other, Set) else NotImplemented

    __ror__ = __or__
    __rand__ = __and__
    __rxor__ = __xor__

    def __rsub__(self, other: Set[int]) -> Made:
        if not isinstance(other, Set):
            return NotImplemented
        return self._set_of(other)._andnot(self)  # type: ignore[no-any-return]

    def __ior__(self, other: Set[int]) -> Self:  # type: ignore[override]
        if not isinstance(other, Set):
            return NotImplemented
        self._or_assign(self._set_of(other))
        return self

    def __iand__(self, other: Set[Any]) -> Self:
        if not isinstance(other, Set):
            return NotImplemented
        self._and_assign(self._common(other)[0])
        return self

    def __ixor__(self, other: Set[int]) -> Self:  # type: ignore[override]
        if not isinstance(other, Set):
            return NotImplemented
        self._xor_assign(self._set_of(other))
        return self

    def __isub__(self, other: Set[Any]) -> Self:
        if not isinstance(other, Set):
            return NotImplemented
        self._remove_items(other)
        return self

    def __eq__(self, other: object) -> bool:
        if not isinstance(other, Set):
            return NotImplemented
        if not isinstance(other, Core) and len(other) != len(self):
            return False
        common, whole = self._common(other)
        return whole and self._equals(common)

    def __le__(self, other: Set[Any]) -> bool:
        return self.issubset(other) if isinstance(other, Set) else NotImplemented

    def __ge__(self, other: Set[Any]) -> bool:
        return self.issuperset(other) if isinstance(other, Set) else NotImplemented

    def __lt__(self, other: Set[Any]) -> bool:
        if not isinstance(other, Set):
            return NotImplemented
        common, whole = self._common(other)
        return self._is_subset(common) and not (whole and self._equals(common))

    def __gt__(self, other: Set[Any]) -> bool:
        if not isinstance(other, Set):
            return NotImplemented
        common, whole = self._common(other)
        return whole and common._is_subset(self) and not self._equals(common)
