"""Streams in the portable Roaring format."""
import pickle
import re

import pytest
from hypothesis import given
from hypothesis import strategies as st

from hibitset import BitSet, Fault, SparseBitSet, StreamError

SOME = BitSet([1, 2, 65_539])


def fault_of(data, **words):
    """The fault that both kinds see, and where."""
    with pytest.raises(StreamError) as seen:
        SparseBitSet.deserialize(data, **words)
    with pytest.raises(StreamError) as caught:
        BitSet.deserialize(data, **words)
    assert (seen.value.fault, seen.value.at) == (caught.value.fault, caught.value.at)
    assert isinstance(caught.value, ValueError) and str(caught.value.at) in str(caught.value)
    again = pickle.loads(pickle.dumps(caught.value))
    assert (again.fault, again.at) == (caught.value.fault, caught.value.at)
    return caught.value.fault, caught.value.at


def test_bytes(kind):
    some = kind(SOME)
    data = some.serialize()
    # Cookie 12346, two containers; key 0 with two members, key 1 with one; offsets 24 and 28; 1, 2; 3.
    assert data.hex() == "3a300000" "02000000" "0000" "0100" "0100" "0000" "18000000" "1c000000" "0100" "0200" "0300"
    assert len(data) == some.serialized_len() and kind.deserialize(data) == SOME


def test_with_runs(kind):
    # Cookie 12347 with one container, a bit that it has runs, key 0 with ten members, one run: from 5 on nine more.
    data = bytes.fromhex("3b300000" "01" "0000" "0900" "0100" "0500" "0900")
    assert kind.deserialize(data) == set(range(5, 15))


@given(st.lists(st.integers(0, 1 << 20), max_size=300))
def test_round_trips(kind, items):
    some = kind(items)
    data = some.serialize()
    for buffer in [bytes, bytearray, memoryview]:
        assert kind.deserialize(buffer(data)) == some
    buffer = bytearray(len(data) + 3)
    assert some.serialize_into(buffer) == len(data) and buffer == data + b"\0\0\0"
    short = bytearray(len(data) - 1)
    with pytest.raises(ValueError, match="too short"):
        some.serialize_into(short)
    assert not any(short)
    with pytest.raises(BufferError):
        some.serialize_into(data)


def test_each_prefix():
    data = SOME.serialize()
    for end in range(len(data)):
        fault, at = fault_of(data[:end])
        assert fault == Fault.TOO_SHORT and at <= end
    assert fault_of(data[:29]) == (Fault.TOO_SHORT, 28)


@pytest.mark.parametrize(
    "at, byte, fault, where",
    [
        (0, 0, Fault.BAD_COOKIE, 0), (6, 2, Fault.TOO_MANY_CONTAINERS, 4), (12, 0, Fault.KEYS_NOT_ASCENDING, 12),
        (13, 0x40, Fault.KEY_OUT_OF_RANGE, 12), (16, 9, Fault.WRONG_OFFSET, 16), (26, 1, Fault.NOT_ASCENDING, 26),
    ],
)  # fmt: skip
def test_one_fault(at, byte, fault, where):
    data = bytearray(SOME.serialize())
    data[at] = byte
    assert fault_of(data) == (fault, where)


@pytest.mark.parametrize(
    "data, fault",
    [
        ("3b300000" "01" "0000" "0900" "0200" "0500" "0300" "0800" "0500", Fault.RUNS_NOT_APART),
        ("3b300000" "01" "0000" "0900" "0100" "f8ff" "0900", Fault.RUN_PAST_END),
        ("3b300000" "01" "0000" "0800" "0100" "0500" "0900", Fault.WRONG_CARDINALITY),
    ],
)
def test_a_fault_of_runs(data, fault):
    assert fault_of(bytes.fromhex(data))[0] == fault


def test_bytes_behind_the_end():
    assert fault_of(SOME.serialize() + b"\0") == (Fault.TOO_LONG, 30)


def test_a_bound():
    data = BitSet([(1 << 30) - 1]).serialize()
    assert len(data) == 18 and BitSet.deserialize(data).max() == (1 << 30) - 1
    assert fault_of(data, below=1 << 20)[0] == Fault.KEY_OUT_OF_RANGE and SparseBitSet.deserialize(data).max() == (1 << 30) - 1
    assert BitSet.deserialize(SOME.serialize(), below=65_540) == SOME
    assert fault_of(SOME.serialize(), below=65_539) == (Fault.MEMBER_OUT_OF_RANGE, 30)
    assert fault_of(SOME.serialize(), below=65_536)[0] == Fault.KEY_OUT_OF_RANGE
    for below in [0, -5]:
        assert fault_of(SOME.serialize(), below=below)[0] == Fault.KEY_OUT_OF_RANGE
        assert not BitSet.deserialize(BitSet().serialize(), below=below)
    assert BitSet.deserialize(SOME.serialize(), below=1 << 99) == SOME


@given(st.binary(max_size=60))
def test_any_bytes(kind, data):
    try:
        made = kind.deserialize(data, below=1 << 20)
    except StreamError as wrong:
        assert 0 <= wrong.at <= len(data)
    else:
        assert kind.deserialize(made.serialize()) == made


def test_what_is_no_buffer(kind):
    for bad in [None, 5, "text", [1, 2]]:
        with pytest.raises(TypeError):
            kind.deserialize(bad)


def test_numbers_of_the_header(header):
    found = dict(re.findall(r"HIBITSET_FAULT_(\w+) = (\d+)", header))
    assert {name: int(number) for name, number in found.items()} == {fault.name: fault for fault in Fault if fault > 0}
