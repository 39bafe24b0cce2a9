#!/usr/bin/env python3
"""vectors.py STREAMS MUTANTS: prints the rows of crates/hibitset_roaring_tests/src/tests/vectors.rt: short streams with their members; bytes with one fault; and streams with how many changes of one byte are accepted, and how many members those have in all."""
import sys
from itertools import groupby

from oracle import Layout, faults, frames, members

CHANGES = 0x01, 0x80, 0xFF  # what each byte is changed by
BELOW = 512  # the keys with which changed streams are read
# Bytes with one fault that changes of one byte hardly make.
RARE = [
    "3a300000020000000100000001000000180000001a00000005000600",
    "3a300000010000000000010010000000" "07000700",
    "3a300000010000000000020010000000" "010003000200",
    "3b300000010000030002000000010002000100",
    "3b300000010000040002000000020002000100",
    "3b3000000100000100020000000000ffff0100",
]


def ranges(numbers):
    """Ascending numbers as pairs of a first and a last."""
    for _, row in groupby(enumerate(numbers), lambda pair: pair[1] - pair[0]):
        row = [number for _, number in row]
        yield row[0], row[-1]


def kind(stream):
    """What a stream is an example of."""
    layout = Layout(stream)
    sizes = tuple(layout.cardinality(k).bit_length() for k in range(layout.count))
    return layout.runs, layout.has_offsets, layout.count, sizes[:2]


def main(streams, mutants):
    short = sorted({s for s in frames(streams) if len(s) <= 80}, key=lambda s: (len(s), s))
    print("// accepted")
    seen = {}
    for stream in short:
        pairs = list(ranges(members(stream)))
        few = 6 if kind(stream)[2] == 1 and not kind(stream)[0] else 1
        if len(pairs) <= 14 and seen.setdefault(kind(stream), 0) < few:
            seen[kind(stream)] += 1
            row = ", ".join(f"({a:_}, {b:_})" for a, b in pairs)
            print(f'("{stream.hex()}", &[{row}]),')
    print("// refused")
    seen = {}
    for mutant in sorted({m for m in [*frames(mutants), *map(bytes.fromhex, RARE)] if len(m) <= 40 and Layout(m).count <= 8}, key=lambda m: (len(m), m)):
        found = faults(mutant)
        if len(found) == 1:
            [(fault, at)] = found
            if seen.setdefault(fault, 0) < 2 and (fault, at) not in seen:
                seen[fault] += 1
                seen[fault, at] = 0
                print(f'("{mutant.hex()}", Fault::{fault}, {at}),')
    print("// changed")
    seen = set()
    for stream in short:
        if kind(stream) in seen or not 9 <= len(stream) <= 64 or len(members(stream)) > 25_000 or len(seen) == 6:
            continue
        seen.add(kind(stream))
        accepted = total = 0
        for at, byte in enumerate(stream):
            for change in CHANGES:
                changed = stream[:at] + bytes([byte ^ change]) + stream[at + 1 :]
                if not faults(changed, BELOW):
                    accepted += 1
                    total += len(members(changed))
        print(f'("{stream.hex()}", {accepted}, {total:_}),')


if __name__ == "__main__":
    if len(sys.argv) != 3:
        sys.exit(__doc__)
    with open(sys.argv[1], "rb") as streams, open(sys.argv[2], "rb") as mutants:
        main(streams, mutants)
