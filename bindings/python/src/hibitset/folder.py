"""Folders of shards: a stream in the portable Roaring format for each, and a manifest that names the files.

A folder is what its manifest says. The manifest is replaced after all its files are on the disk, so a crash leaves the
old set or the new one. One process at a time writes into a folder; any number read.
"""
from __future__ import annotations

import hashlib
import json
import os
import re
import uuid
from collections.abc import Sequence
from pathlib import Path
from typing import Any, NamedTuple, Union

from ._bitset import BitSet
from ._shards import Shard, smaller
from ._sparse import SparseBitSet
from ._streams import StreamError

__all__ = ["MANIFEST", "Entry", "FolderError", "Manifest", "commit", "read_manifest", "read_shard", "write_shard"]

MANIFEST = "hibitset.json"
FORMAT = "hibitset shards, version 1"
LEAST_BITS, MOST_BITS = 6, 30
INDICES_OF_MEMBER = 16  # A file with a member for this many indices or fewer is read as a BitSet at once.
UNLISTED = re.compile(r"shard-\d{5,}-[0-9a-f]{16}\.roaring|\.(shard-|hibitset\.json).*\.part")


class FolderError(ValueError):
    """A folder that is not as a manifest says: the message names the file."""


class Entry(NamedTuple):
    """What a manifest says of the file of a shard."""

    file: str
    members: int
    bytes: int
    sha256: str


class Manifest(NamedTuple):
    """What the files of a folder are, that of shard 0 first."""

    bits: int
    entries: list[Entry]


def check_bits(bits: int) -> None:
    """ValueError if a shard can't have so many bits."""
    if not LEAST_BITS <= bits <= MOST_BITS:
        raise ValueError(f"a shard has {LEAST_BITS} to {MOST_BITS} bits, not {bits}")


def _name(high: int, sha256: str) -> str:
    """The name of a file, which tells its shard and its bytes: so none is ever written over by other bytes."""
    return f"shard-{high:05}-{sha256[:16]}.roaring"


def _write(path: Path, data: bytes) -> None:
    """Make a file of these bytes, which has all of them or is not there."""
    beside = path.with_name(f".{path.name}.{uuid.uuid4().hex}.part")
    try:
        with open(beside, "xb") as file:
            file.write(data)
            file.flush()
            os.fsync(file.fileno())
        os.replace(beside, path)
    finally:
        beside.unlink(missing_ok=True)


def _sync(folder: Path) -> None:
    """Return when the names in a folder are on the disk."""
    handle = os.open(folder, os.O_RDONLY | os.O_DIRECTORY)
    try:
        os.fsync(handle)
    finally:
        os.close(handle)


def write_shard(folder: Union[str, Path], high: int, shard: Shard) -> Entry:
    """Write the file of a shard, and return what the manifest will say of it."""
    data = shard.serialize()
    sha256 = hashlib.sha256(data).hexdigest()
    Path(folder).mkdir(parents=True, exist_ok=True)
    _write(Path(folder) / _name(high, sha256), data)
    return Entry(_name(high, sha256), len(shard), len(data), sha256)


def commit(folder: Union[str, Path], bits: int, entries: Sequence[Entry]) -> None:
    """Replace the manifest of a folder, whose files are written, and remove the files that no manifest names then."""
    check_bits(bits)
    at = Path(folder)
    _sync(at)
    said = {
        "format": FORMAT,
        "bits": bits,
        "members": sum(entry.members for entry in entries),
        "shards": [entry._asdict() for entry in entries],
    }
    _write(at / MANIFEST, (json.dumps(said, indent=1) + "\n").encode())
    _sync(at)
    listed = {entry.file for entry in entries}
    for path in at.iterdir():
        if path.name not in listed and UNLISTED.fullmatch(path.name):
            path.unlink(missing_ok=True)


def _entry(high: int, said: Any, bits: int) -> Entry:
    """An entry of a manifest that was read. ValueError, KeyError or TypeError if it is none."""
    entry = Entry(**said)
    numbers = all(type(number) is int and number >= 0 for number in (entry.members, entry.bytes))
    if not numbers or not re.fullmatch(r"[0-9a-f]{64}", entry.sha256) or entry.file != _name(high, entry.sha256):
        raise ValueError(f"shard {high} is no entry")
    if entry.members > 1 << bits:
        raise ValueError(f"shard {high} has more members than fit")
    return entry


def read_manifest(folder: Union[str, Path]) -> Manifest:
    """Return what the manifest of a folder says. FolderError if it is missing, cut short or of another kind."""
    path = Path(folder) / MANIFEST
    try:
        said = json.loads(path.read_bytes())
        if said["format"] != FORMAT:
            raise ValueError(f"its format is {said['format']!r}")
        bits = said["bits"]
        check_bits(bits)
        entries = [_entry(high, each, bits) for high, each in enumerate(said["shards"])]
        if sum(entry.members for entry in entries) != said["members"]:
            raise ValueError("its members are not those of its shards")
    except FileNotFoundError:
        raise FolderError(f"{path} is missing") from None
    except (ValueError, KeyError, TypeError) as error:
        raise FolderError(f"{path} is no manifest of shards: {error}") from error
    return Manifest(bits, entries)


def read_shard(folder: Union[str, Path], entry: Entry, bits: int) -> Shard:
    """Return the shard that an entry names, of the kind that takes fewer bytes.

    FolderError if its file is missing, cut short, or another one.
    """
    path = Path(folder) / entry.file
    try:
        data = path.read_bytes()
    except FileNotFoundError:
        raise FolderError(f"{path} is missing") from None
    if len(data) != entry.bytes:
        raise FolderError(f"{path} has {len(data)} bytes, and {MANIFEST} says {entry.bytes}")
    if hashlib.sha256(data).hexdigest() != entry.sha256:
        raise FolderError(f"{path} is of another set: it has not the checksum that {MANIFEST} says")
    kind: type[Shard] = BitSet if INDICES_OF_MEMBER * entry.members >= 1 << bits else SparseBitSet
    try:
        shard: Shard = kind.deserialize(data, below=1 << bits)
    except StreamError as error:
        raise FolderError(f"{path}: {error}") from error
    if len(shard) != entry.members:
        raise FolderError(f"{path} has {len(shard)} members, and {MANIFEST} says {entry.members}")
    return smaller(shard)
