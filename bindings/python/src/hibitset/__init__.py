"""Sets of integers below 2**30, over a library whose functions are proved.

    >>> from hibitset import BitSet
    >>> dirty = BitSet([5, 70_000])
    >>> loaded = BitSet([7, 70_000])
    >>> dirty & loaded
    BitSet([70000])

A BitSet has the methods and operators of Python's set, and beside them order, ranges, numpy arrays and streams. A
SparseBitSet has them too, and its memory goes by its members, wherever they lie.
hibitset.ids has sets of 64-bit ids, and hibitset.dask such sets over many processes or machines.
"""
try:
    from ._core import LIBRARY_VERSION, MAX_INDEX
except ImportError as error:
    # The loader of glibc 2.33 or later reads what the library needs, and refuses it by these words.
    if "CPU ISA level" in str(error):
        raise ImportError("hibitset needs a processor of level x86-64-v2, with SSE 4.2 and POPCNT") from error
    raise

from ._bitset import BitSet
from ._sparse import SparseBitSet
from ._streams import Fault, StreamError

__version__ = "0.1.0"
__all__ = ["LIBRARY_VERSION", "MAX_INDEX", "BitSet", "Fault", "SparseBitSet", "StreamError", "__version__"]
