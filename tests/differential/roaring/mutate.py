#!/usr/bin/env python3
"""mutate.py STREAMS OUT: of short streams every prefix, every byte changed, bytes put in and taken out; halves of two streams; and random bytes, most behind a right cookie."""
import random
import struct
import sys

from oracle import Layout, frames

FAR = 300  # streams with a greater key are kept one in fifty: they take much memory


def changed(stream):
    """The stream with each byte changed: to all other values if it is short, else in each bit."""
    for at, byte in enumerate(stream):
        others = range(256) if len(stream) <= 40 else [byte ^ 1 << bit for bit in range(8)]
        for other in others:
            if other != byte:
                yield stream[:at] + bytes([other]) + stream[at + 1 :]


def shifted(stream):
    """The stream with a byte put in, or one or two taken out."""
    for _ in range(20):
        at = random.randrange(len(stream) + 1)
        yield stream[:at] + bytes([random.randrange(256)]) + stream[at:]
        yield stream[:at] + stream[at + random.randrange(1, 3) :]
    yield stream + b"\0"
    yield stream + stream[:7]


def changed_here_and_there(stream):
    """Of a long stream prefixes and changed bits, most of them near the start."""
    for at in [*range(120), *(random.randrange(len(stream)) for _ in range(200))]:
        yield stream[:at]
        yield stream[:at] + bytes([stream[at] ^ 1 << random.randrange(8)]) + stream[at + 1 :]


def any_bytes():
    """Random bytes, three quarters of them behind a cookie."""
    body = bytes(random.choice([random.randrange(256), random.randrange(4)]) for _ in range(random.randrange(60)))
    return random.choice([b"", struct.pack("<II", 12346, random.randrange(4)), *[struct.pack("<HH", 12347, random.randrange(4))] * 2]) + body


def mutants(streams):
    short = sorted({s for s in streams if len(s) <= 700}, key=len)
    tiny = [s for s in short if len(s) <= 60][:14]
    middle = random.sample([s for s in short if len(s) > 60], 10)
    for stream in tiny + middle:
        yield from (stream[:at] for at in range(len(stream)))
        yield from changed(stream)
        yield from shifted(stream)
    for stream in [s for s in streams if 8000 < len(s) < 30000][:2]:
        yield from changed_here_and_there(stream)
    for _ in range(1500):
        a, b = random.choice(short), random.choice(short)
        yield a[: random.randrange(len(a) + 1)] + b[random.randrange(len(b) + 1) :]
    for _ in range(8000):
        yield any_bytes()


def is_far(stream):
    layout = Layout(stream)
    return any(layout.key(k) > FAR for k in range(min(layout.count, 64)))


def main(source, out):
    random.seed(7)
    total = 0
    for stream in mutants(list(frames(source))):
        if is_far(stream) and random.randrange(50):
            continue
        out.write(struct.pack("<I", len(stream)) + stream)
        total += 1
    print(f"{total} streams")


if __name__ == "__main__":
    if len(sys.argv) != 3:
        sys.exit(__doc__)
    with open(sys.argv[1], "rb") as source, open(sys.argv[2], "wb") as out:
        main(source, out)
