"""The portable Roaring format, read from its public specification alone: which faults bytes have, and which members a stream has."""
import struct

KEYS = 16384  # keys of a set of this library


def number(bytes_, at, size):
    """The number at a position, whose bytes past the end are 0."""
    return int.from_bytes(bytes_[at : at + size].ljust(size, b"\0"), "little")


class Layout:
    """Where the parts of bytes lie, if they are taken for a stream."""

    def __init__(self, bytes_):
        self.bytes = bytes_
        self.runs = number(bytes_, 0, 2) == 12347
        self.count = number(bytes_, 2, 2) + 1 if self.runs else number(bytes_, 4, 4)
        self.keys = 4 + (self.count + 7) // 8 if self.runs else 8
        self.has_offsets = not self.runs or self.count >= 4
        self.offsets = self.keys + 4 * self.count
        self.first = self.offsets + (4 * self.count if self.has_offsets else 0)

    def key(self, k):
        return number(self.bytes, self.keys + 4 * k, 2)

    def cardinality(self, k):
        return number(self.bytes, self.keys + 4 * k + 2, 2) + 1

    def is_run(self, k):
        return self.runs and number(self.bytes, 4 + k // 8, 1) >> k % 8 & 1 == 1

    def size(self, k, at):
        if self.is_run(k):
            return 2 + 4 * number(self.bytes, at, 2)
        return 2 * self.cardinality(k) if self.cardinality(k) <= 4096 else 8192

    def runs_of(self, at):
        for r in range(number(self.bytes, at, 2)):
            first = number(self.bytes, at + 2 + 4 * r, 2)
            yield at + 2 + 4 * r, first, first + number(self.bytes, at + 4 + 4 * r, 2)

    def numbers_of(self, k, at):
        return [number(self.bytes, at + 2 * j, 2) for j in range(self.cardinality(k))]

    def bits_of(self, at):
        words = self.bytes[at : at + 8192]
        return [8 * i + j for i, byte in enumerate(words) if byte for j in range(8) if byte >> j & 1]


def container_faults(layout, k, at):
    """The faults of one container."""
    if layout.is_run(k):
        last, total = None, 0
        for where, first, end in layout.runs_of(at):
            if last is not None and first <= last + 1:
                yield "RunsNotApart", where
            if end > 65535:
                yield "RunPastEnd", where + 2
            last, total = end, total + end + 1 - first
        if total != layout.cardinality(k):
            yield "WrongCardinality", at
    elif layout.cardinality(k) <= 4096:
        numbers = layout.numbers_of(k, at)
        for j in range(1, len(numbers)):
            if numbers[j] <= numbers[j - 1]:
                yield "NotAscending", at + 2 * j
    elif len(layout.bits_of(at)) != layout.cardinality(k):
        yield "WrongCardinality", at


def faults(bytes_, end=KEYS):
    """All faults, each with its position; of what lies past the end that alone, so of a header that is cut no more than it."""
    layout = Layout(bytes_)
    found = set()
    if not layout.runs and number(bytes_, 0, 4) != 12346:
        found.add(("BadCookie", 0))
    if layout.count > 65536:
        found.add(("TooManyContainers", 4))
    if layout.first > len(bytes_):
        found.add(("TooShort", 0))
    if found:
        return found
    at = layout.first
    for k in range(layout.count):
        where = layout.keys + 4 * k
        if k and layout.key(k) <= layout.key(k - 1):
            found.add(("KeysNotAscending", where))
        if layout.key(k) >= end:
            found.add(("OutOfRange", where))
        if layout.has_offsets and number(bytes_, layout.offsets + 4 * k, 4) != at:
            found.add(("WrongOffset", layout.offsets + 4 * k))
        if at + layout.size(k, at) > len(bytes_):
            found.add(("TooShort", at))
        else:
            found.update(container_faults(layout, k, at))
        at += layout.size(k, at)
    if at < len(bytes_):
        found.add(("TooLong", at))
    return found


def containers(bytes_):
    """The keys of a stream without faults, each with the low bits of its members."""
    layout = Layout(bytes_)
    at = layout.first
    for k in range(layout.count):
        if layout.is_run(k):
            low = [v for _, first, end in layout.runs_of(at) for v in range(first, end + 1)]
        elif layout.cardinality(k) <= 4096:
            low = layout.numbers_of(k, at)
        else:
            low = layout.bits_of(at)
        yield layout.key(k), low
        at += layout.size(k, at)


def members(bytes_):
    """The members of a stream without faults."""
    return [65536 * key + v for key, low in containers(bytes_) for v in low]


def plain(bytes_):
    """The stream without runs of the members of a stream without faults."""
    keys, offsets, bodies = b"", b"", []
    parts = list(containers(bytes_))
    at = 8 + 8 * len(parts)
    for key, low in parts:
        keys += struct.pack("<HH", key, len(low) - 1)
        offsets += struct.pack("<I", at)
        if len(low) <= 4096:
            body = struct.pack(f"<{len(low)}H", *low)
        else:
            bits = bytearray(8192)
            for v in low:
                bits[v >> 3] |= 1 << (v & 7)
            body = bytes(bits)
        bodies.append(body)
        at += len(body)
    return struct.pack("<II", 12346, len(parts)) + keys + offsets + b"".join(bodies)


def frames(file):
    """The streams of a file, each with its length before it."""
    while head := file.read(4):
        yield file.read(struct.unpack("<I", head)[0])
