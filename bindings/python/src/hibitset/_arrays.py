"""Lists of integers, numpy's arrays among them, as the buffers that the library takes."""
from __future__ import annotations

from array import array
from contextlib import suppress
from functools import cache
from typing import TYPE_CHECKING, Any

from ._core import MAX_INDEX

if TYPE_CHECKING:
    import numpy as np
    import numpy.typing as npt

BITS_OF_WORD = 64


def numpy() -> Any:
    """The module numpy, which is imported with the first array."""
    import numpy

    return numpy


def is_array(items: object) -> bool:
    """Whether numpy makes an array of an object without looking at its items."""
    return hasattr(items, "__array_interface__") or hasattr(items, "__array__")


def integers(given: Any) -> Any:
    """An array of integers of an object. TypeError if its items are no integers."""
    found = numpy().asarray(given)
    if found.dtype.kind in "iu":
        return found
    if found.size == 0:
        return found.astype("u4")
    raise TypeError(f"expected an array of integers, got one of {found.dtype}")


def outside(given: Any) -> Any:
    """Which items of an array of integers are no indices."""
    return (given < 0) | (given > MAX_INDEX)


def as_indices(given: Any) -> Any:
    """The items of an array of integers as a flat one of uint32, as it is if it can be."""
    return numpy().require(given, "u4", ["C", "A"]).reshape(-1)


def indices_of_array(items: Any) -> npt.NDArray[np.uint32]:
    """The items of an array as indices. OverflowError for one that is none, with its position."""
    given = integers(items)
    if given.dtype == "u4" or not outside(given).any():
        return as_indices(given)  # type: ignore[no-any-return]
    at = int(outside(given).argmax())
    raise OverflowError(f"{given.reshape(-1)[at]} at position {at} is not an index: these lie in range(2**30)")


def indices_within(items: Any) -> tuple[npt.NDArray[np.uint32], bool]:
    """Those items of an array that are indices, and whether all are."""
    given = integers(items)
    wrong = outside(given)
    return as_indices(given[~wrong]), not wrong.any()


def indices_of(items: Any) -> Any:
    """The items of an iterable as a buffer of indices, those of an array without a copy if they are uint32."""
    if type(items) is array and items.typecode == "I":
        return items
    if is_array(items):
        if integers(items).ndim == 0:
            raise TypeError(f"{type(items).__name__!r} object is not iterable")
        return indices_of_array(items)
    if type(items) is list or type(items) is tuple:
        with suppress(OverflowError):
            return array("I", items)
    found = array("I")
    try:
        found.extend(iter(items))  # By `iter`, since items may be bytes: of these it would take four as one.
    except OverflowError:
        raise OverflowError(f"the item at position {len(found)} is not an index: these lie in range(2**30)") from None
    return found


def bounds_of(ends: Any) -> Any:
    """The items of an array of integers, brought between 0 and 2**30."""
    given = integers(ends)
    if given.dtype.kind == "u":
        return numpy().minimum(given.astype("u8"), MAX_INDEX + 1).astype("u4")
    return given.astype("i8").clip(0, MAX_INDEX + 1).astype("u4")


def no_words(length: int) -> Any:
    """Words for so many bits, all clear."""
    return numpy().zeros(-(-length // BITS_OF_WORD), "<u8")


@cache
def reversed_bits() -> Any:
    """For each byte, that with its bits in the other order."""
    np = numpy()
    return np.packbits(np.unpackbits(np.arange(256, dtype="u1"), bitorder="little"), bitorder="big")


def in_order(packed: Any, bitorder: str) -> Any:
    """Bytes of bits in the order `little`, made of those in an order of numpy.packbits, or the other way round."""
    if bitorder not in ("big", "little"):
        raise ValueError("bitorder must be 'big' or 'little'")
    return packed if bitorder == "little" else reversed_bits()[packed]
