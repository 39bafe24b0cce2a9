#!/usr/bin/env python3
"""verdict.py STREAMS ANSWERS: compares each answer of streams.rt.txt with the oracle: the set that it reads, written without runs; or one of the faults that it finds, at its position."""
import struct
import sys

from oracle import faults, frames, plain

NAMES = """TooShort TooLong BadCookie TooManyContainers KeysNotAscending OutOfRange WrongOffset WrongCardinality NotAscending
RunsNotApart RunPastEnd""".split()


def main(streams, answers):
    total = accepted = differences = 0
    for stream in frames(streams):
        status, at, size = struct.unpack("<BII", answers.read(9))
        again = answers.read(size)
        found = faults(stream)
        if status == 0:
            same = not found and again == plain(stream)
            accepted += same
        else:
            same = 0 < status <= len(NAMES) and (NAMES[status - 1], at) in found
        if not same:
            differences += 1
            print(f"stream {total}, {stream[:40].hex()}..: status {status} at {at}, the oracle finds {sorted(found)[:5]}")
        total += 1
    if answers.read():
        sys.exit("verdict.py: there are more answers than streams")
    print(f"{total} streams, {accepted} accepted, {differences} differences")
    sys.exit(differences != 0)


if __name__ == "__main__":
    if len(sys.argv) != 3:
        sys.exit(__doc__)
    with open(sys.argv[1], "rb") as streams, open(sys.argv[2], "rb") as answers:
        main(streams, answers)
