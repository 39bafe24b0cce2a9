"""Sets of 64-bit ids that are spread over the workers of Dask: a shard is a task.

    ids = hibitset.dask.from_ids(array, bits=28, shards=16)     # a Dask array, series or bag of integers
    both = (ids & other).persist()
    both.count().compute(), both.contains(asked).compute(), both.rank(2**30).compute()
    both.to_folder("both")

A shard is a BitSet or a SparseBitSet, as in an IdSet: whichever takes fewer bytes. Between processes go streams.
from_folder reads what to_folder has written, also where the processes are others.
"""
from __future__ import annotations

import operator
import os
import uuid
from collections.abc import Callable, Sequence
from pathlib import Path
from typing import Any, Optional, Union

import dask
import dask.array as da
import dask.threaded
import numpy as np
from dask.base import DaskMethodsMixin, tokenize
from dask.core import flatten
from dask.delayed import Delayed
from dask.highlevelgraph import HighLevelGraph

from . import folder as folders
from ._indexset import IndexSet
from ._shards import Shard, built, combined
from .folder import FolderError
from .ids import IdSet, Parts, check_shape, ids_of, shard_at, split

__all__ = ["FolderError", "ShardedSet", "from_folder", "from_ids"]

IDS_OF_CHUNK = 1 << 22  # Of an array that is not one of Dask.

# ---- What tasks do ----


def _split(ids: Any, bits: int, shards: int) -> list[Any]:
    return split(ids if hasattr(ids, "__array__") else list(ids), bits, shards)


def _finished(shards: Sequence[Shard], bits: int) -> IdSet:
    return IdSet(shards, bits)


def _lows(parts: Parts, high: int) -> Any:
    return parts.lows[high]


def _read(folder: str, bits: int, *entry: Any) -> Shard:
    return folders.read_shard(folder, folders.Entry(*entry), bits)


def _committed(folder: str, bits: int, entries: Sequence[folders.Entry]) -> str:
    folders.commit(folder, bits, entries)
    return folder


# ---- The collection ----


class ShardedSet(DaskMethodsMixin):  # type: ignore[misc]
    """A set of ids below shards << bits, as tasks that make its shards. compute makes an IdSet of it."""

    __slots__ = ("_graph", "_name", "shards", "bits", "_lens")

    def __init__(self, graph: HighLevelGraph, name: str, shards: int, bits: int) -> None:
        """Not for callers: from_ids and from_folder make sets."""
        self._graph = graph
        self._name = name
        self.shards = shards
        self.bits = bits
        self._lens: Optional[list[int]] = None

    # What Dask asks of a collection.

    def __dask_graph__(self) -> HighLevelGraph:
        return self._graph

    def __dask_keys__(self) -> list[tuple[str, int]]:
        return [(self._name, high) for high in range(self.shards)]

    def __dask_layers__(self) -> tuple[str, ...]:
        return (self._name,)

    def __dask_tokenize__(self) -> str:
        return self._name

    @staticmethod
    def __dask_optimize__(graph: Any, keys: Any, **_: Any) -> Any:
        if not isinstance(graph, HighLevelGraph):
            graph = HighLevelGraph.from_collections(id(graph), graph, dependencies=())
        return graph.cull(set(flatten([keys])))

    __dask_scheduler__ = staticmethod(dask.threaded.get)

    def __dask_postcompute__(self) -> Any:
        return _finished, (self.bits,)

    def __dask_postpersist__(self) -> Any:
        return self._rebuilt, ()

    def _rebuilt(self, graph: Any, *, rename: Optional[dict[str, str]] = None) -> ShardedSet:
        name = (rename or {}).get(self._name, self._name)
        if not isinstance(graph, HighLevelGraph):
            graph = HighLevelGraph({name: graph}, {name: set()})
        return ShardedSet(graph, name, self.shards, self.bits)

    # What is made of its shards.

    def _delayed(self, name: str, tasks: dict[Any, Any], *others: Any) -> Delayed:
        return Delayed(name, HighLevelGraph.from_collections(name, tasks, dependencies=[self, *others]))

    def _beside(self, other: object, name: str, *call: Callable[..., Any]) -> tuple[str, dict[Any, Any]]:
        """A call for each shard, with that of another set, as tasks; and the name of these."""
        if not isinstance(other, ShardedSet):
            raise TypeError(f"expected a ShardedSet, got {type(other).__name__}")
        if (other.bits, other.shards) != (self.bits, self.shards):
            raise ValueError("the two sets have other shards")
        name = f"{name}-{tokenize(self, other)}"
        pairs = zip(self.__dask_keys__(), other.__dask_keys__())
        return name, {(name, high): (*call, a, b) for high, (a, b) in enumerate(pairs)}

    def _with(self, other: object, call: Callable[..., Any]) -> ShardedSet:
        if not isinstance(other, ShardedSet):
            return NotImplemented
        name, tasks = self._beside(other, call.__name__.strip("_"), combined, call)
        graph = HighLevelGraph.from_collections(name, tasks, dependencies=[self, other])
        return ShardedSet(graph, name, self.shards, self.bits)

    def __and__(self, other: object) -> ShardedSet:
        return self._with(other, operator.and_)

    def __or__(self, other: object) -> ShardedSet:
        return self._with(other, operator.or_)

    def __xor__(self, other: object) -> ShardedSet:
        return self._with(other, operator.xor)

    def __sub__(self, other: object) -> ShardedSet:
        return self._with(other, operator.sub)

    def equals(self, other: ShardedSet) -> Delayed:
        """Return whether the two have the same members, to be computed."""
        name, tasks = self._beside(other, "eq", operator.eq)
        tasks[name] = (all, list(tasks))
        return self._delayed(name, tasks, other)

    def _len_tasks(self, name: str, shards: int) -> dict[Any, Any]:
        return {(name, high): (len, key) for high, key in enumerate(self.__dask_keys__()[:shards])}

    def count(self) -> Delayed:
        """Return the number of members, to be computed."""
        name = f"count-{tokenize(self)}"
        tasks = self._len_tasks(name, self.shards)
        tasks[name] = (sum, list(tasks))
        return self._delayed(name, tasks)

    def lens(self) -> list[int]:
        """Return the number of members of each shard, which are computed once."""
        if self._lens is None:
            name = f"lens-{tokenize(self)}"
            tasks = self._len_tasks(name, self.shards)
            tasks[name] = (list, list(tasks))
            self._lens = list(self._delayed(name, tasks).compute())
        return self._lens

    def __len__(self) -> int:
        """Return the number of members, which is computed."""
        return sum(self.lens())

    def __bool__(self) -> bool:
        raise TypeError("whether a ShardedSet has members is not known before count() is computed")

    def rank(self, id_: int) -> Delayed:
        """Return how many members are less than an id, to be computed."""
        high, low = divmod(operator.index(id_), 1 << self.bits)
        name = f"rank-{tokenize(self, id_)}"
        tasks = self._len_tasks(name, min(max(high, 0), self.shards))
        counts = list(tasks)
        if 0 <= high < self.shards:
            tasks[name, high] = (IndexSet.rank, (self._name, high), low)
            counts.append((name, high))
        tasks[name] = (sum, counts)
        return self._delayed(name, tasks)

    def select(self, at: int) -> Delayed:
        """Return the member at a position of the ascending list, to be computed. IndexError if there is none.

        The lengths of the shards are computed now.
        """
        high, position = shard_at(self.lens(), at)
        name = f"select-{tokenize(self, at)}"
        tasks: dict[Any, Any] = {(name, high): (operator.getitem, (self._name, high), position)}
        tasks[name] = (operator.add, high << self.bits, (name, high))
        return self._delayed(name, tasks)

    def contains(self, ids: Any) -> da.Array:
        """Return for each id of an array of one dimension whether it is a member, as a Dask array of bool."""
        asked = ids if isinstance(ids, da.Array) else da.from_array(np.asarray(ids), chunks=IDS_OF_CHUNK)
        if asked.ndim != 1:
            raise ValueError("expected an array of one dimension")
        name = f"contains-{tokenize(self, asked)}"
        tasks: dict[Any, Any] = {}
        for chunk, key in enumerate(flatten(asked.__dask_keys__())):
            parts = ("parts-" + name, chunk)
            tasks[parts] = (Parts, key, self.bits, self.shards)
            for high, shard in enumerate(self.__dask_keys__()):
                tasks["lows-" + name, chunk, high] = (_lows, parts, high)
                tasks["found-" + name, chunk, high] = (IndexSet.contains, shard, ("lows-" + name, chunk, high))
            found = [("found-" + name, chunk, high) for high in range(self.shards)]
            tasks[name, chunk] = (Parts.answers, parts, found)
        graph = HighLevelGraph.from_collections(name, tasks, dependencies=[self, asked])
        return da.Array(graph, name, asked.chunks, dtype=np.bool_)

    def to_dask_array(self) -> da.Array:
        """Return the members as a Dask array of uint64, ascending, a chunk for each shard.

        The lengths of the shards are computed now.
        """
        name = f"ids-{tokenize(self)}"
        tasks = {(name, high): (ids_of, key, high, self.bits) for high, key in enumerate(self.__dask_keys__())}
        graph = HighLevelGraph.from_collections(name, tasks, dependencies=[self])
        return da.Array(graph, name, (tuple(self.lens()),), dtype=np.uint64)

    def to_folder(self, folder: Union[str, Path], *, compute: bool = True) -> Any:
        """Write each shard as a stream, and then a manifest, and return the folder, which all workers see.

        A crash leaves what the folder had, or this set. Without compute, return what writes them when it is computed.
        """
        at = os.path.abspath(folder)
        name = f"written-{uuid.uuid4().hex}"  # Of one name, what a cluster has done once it may not do again.
        keys = self.__dask_keys__()
        tasks: dict[Any, Any] = {(name, high): (folders.write_shard, at, high, key) for high, key in enumerate(keys)}
        tasks[name] = (_committed, at, self.bits, list(tasks))
        written = self._delayed(name, tasks)
        return written.compute() if compute else written

    def __repr__(self) -> str:
        return f"<ShardedSet of {self.shards} shards of {self.bits} bits, {self._name}>"


def from_ids(ids: Any, *, bits: int = 28, shards: int = 16, parts_at_once: int = 16) -> ShardedSet:
    """Return the set of the ids of a Dask array, series or bag, or of what numpy makes an array of.

    Each id is less than shards << bits. Computing the set raises OverflowError for another, with its position in its
    chunk. A task puts together what parts_at_once chunks have of a shard.
    """
    check_shape(bits, shards)
    if not dask.is_dask_collection(ids):
        ids = da.from_array(np.asarray(ids).reshape(-1), chunks=IDS_OF_CHUNK)
    chunks = ids.to_delayed()
    chunks = chunks.ravel().tolist() if isinstance(chunks, np.ndarray) else list(chunks)
    name = f"ids-{tokenize([chunk.key for chunk in chunks], bits, shards)}"
    tasks: dict[Any, Any] = {("split-" + name, c): (_split, chunk.key, bits, shards) for c, chunk in enumerate(chunks)}
    for high in range(shards):
        parts = []
        for c in range(len(chunks)):
            parts.append(("part-" + name, c, high))
            tasks[parts[-1]] = (operator.getitem, ("split-" + name, c), high)
        while len(parts) > parts_at_once:
            groups = [parts[first : first + parts_at_once] for first in range(0, len(parts), parts_at_once)]
            parts = [("union-" + name, high, len(tasks) + g) for g in range(len(groups))]
            tasks.update({part: (built, group) for part, group in zip(parts, groups)})
        tasks[name, high] = (built, parts)
    return ShardedSet(HighLevelGraph.from_collections(name, tasks, dependencies=chunks), name, shards, bits)


def from_folder(folder: Union[str, Path]) -> ShardedSet:
    """Return the set that to_folder has written. The manifest is read now, and each shard when it is computed.

    FolderError, which names the file, if one is missing, cut short, or of another set.
    """
    at = os.path.abspath(folder)
    bits, entries = folders.read_manifest(at)
    name = f"read-{tokenize(at, bits, entries)}"
    tasks = {(name, high): (_read, at, bits, *entry) for high, entry in enumerate(entries)}
    return ShardedSet(HighLevelGraph({name: tasks}, {name: set()}), name, len(entries), bits)
