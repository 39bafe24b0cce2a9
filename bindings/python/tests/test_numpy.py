"""Arrays in and out."""
import gc

import pytest
from hypothesis import given
from hypothesis import strategies as st

np = pytest.importorskip("numpy")

from hibitset import MAX_INDEX, BitSet, _core  # noqa: E402

lists = st.lists(st.integers(0, 1 << 18), max_size=200)


@pytest.mark.parametrize("dtype", ["u1", "u2", "u4", "u8", "i1", "i2", "i4", "i8", ">u4", ">i8"])
def test_dtypes(kind, dtype):
    items = np.array([5, 3, 100, 3], dtype)
    assert kind.from_numpy(items) == kind(items) == kind().union(items) == {3, 5, 100}
    assert kind([3, 100]).contains(items).tolist() == [False, True, True, True]
    assert kind([3, 100]).ranks(items).tolist() == [1, 0, 1, 0]
    assert kind([3, 7]).intersection(items) == {3} and kind([3, 7]).difference(items) == {7}


def test_the_order_of_bytes(kind):
    some = kind()
    some._add_many(np.array([1], "<u4"))
    with pytest.raises(TypeError, match="unsigned integers of 4 bytes"):
        some._add_many(np.array([2], ">u4"))
    assert some == {1}


def test_shapes(kind):
    wide = np.arange(24, dtype=np.uint32).reshape(4, 6)
    assert kind.from_numpy(wide[:, ::2]) == set(wide[:, ::2].ravel().tolist())
    assert kind.from_numpy(wide[::-1]) == set(range(24)) and not kind(np.array([])) and not kind([5]).contains([]).size
    assert kind([1, 8]).contains(wide).shape == (4, 6) and kind([1, 8]).contains(wide[:, ::2]).sum() == 1
    assert kind([7]).contains(7).shape == () and kind([7]).contains(7) and kind.from_numpy(7) == {7}
    assert kind([1, 8]).ranks(wide.T).tolist() == [[kind([1, 8]).rank(i) for i in row] for row in wide.T.tolist()]
    with pytest.raises(TypeError, match="not iterable"):
        kind(np.uint32(7))


def test_arrays_that_are_not_aligned(kind):
    """As those are that a message of another process brings."""
    for dtype in [np.uint32, np.uint64]:
        odd = np.zeros(8 * 10 + 1, np.uint8)[1:].view(dtype)[:10]
        odd[:] = range(10)
        assert not odd.flags.aligned and kind.from_numpy(odd) == set(range(10)) and kind([3]).contains(odd).sum() == 1
        with pytest.raises((ValueError, TypeError)):
            kind([3])._next_many(0, odd)


@pytest.mark.parametrize("bad", [np.array([1.0]), np.array(["a"]), np.array([True]), np.array([None])])
def test_arrays_of_other_things(kind, bad):
    for call in [kind.from_numpy, kind().contains, kind().ranks, kind().update]:
        with pytest.raises(TypeError):
            call(bad)


@pytest.mark.parametrize("dtype, bad", [("i8", -1), ("i8", 1 << 30), ("u8", 1 << 63), ("u4", 1 << 30), ("i4", -1), ("i1", -1)])
def test_out_of_range(kind, dtype, bad):
    items = np.array([5, bad, 6], dtype)
    for call in [kind.from_numpy, kind, kind().update]:
        with pytest.raises(OverflowError, match="at position 1 "):
            call(items)
    some = kind([5, 6])
    assert some.contains(items).tolist() == [True, False, True] and some.ranks(items)[0] == 0
    assert some.intersection(items) == some and some.issubset(items) and not some.issuperset(items)


@given(lists)
def test_round_trips(kind, items):
    some, model = kind(items), np.unique(np.array(items, np.uint32))
    members = some.to_numpy()
    assert members.dtype == np.uint32 and np.array_equal(members, model) and kind.from_numpy(members) == some
    assert np.array_equal(np.asarray(some), model) and np.asarray(some, np.int64).dtype == np.int64


@given(lists)
def test_round_trips_of_bits(items):
    some, model = BitSet(items), np.unique(np.array(items, np.uint32))
    mask = some.to_mask()
    assert mask.dtype == np.bool_ and np.array_equal(np.flatnonzero(mask), model) and BitSet.from_mask(mask) == some
    for order in ["big", "little"]:
        packed = some.to_packed(bitorder=order)
        assert np.array_equal(packed, np.packbits(mask, bitorder=order))
        assert BitSet.from_packed(packed, bitorder=order) == some
    assert BitSet.from_packed(np.packbits(mask)) == some
    assert BitSet.from_words(some.words()) == some and BitSet.from_words(some.words().copy()) == some


@given(lists, st.integers(0, 1 << 18))
def test_lengths(items, length):
    some = BitSet(items)
    mask = some.to_mask(length)
    assert len(mask) == length and np.flatnonzero(mask).tolist() == sorted({i for i in items if i < length})
    for order in ["big", "little"]:
        assert np.array_equal(some.to_packed(length, bitorder=order), np.packbits(mask, bitorder=order))


@given(lists, lists)
def test_many_questions(kind, items, asked):
    some, asked = kind(items), np.array(asked, np.int64)
    assert some.contains(asked).tolist() == [i in some for i in asked.tolist()]
    assert some.ranks(asked).tolist() == [some.rank(i) for i in asked.tolist()]


def test_ranks_past_the_range(kind):
    assert kind([5, 6]).ranks(np.array([[-1, 6], [7, 1 << 40]])).tolist() == [[0, 1], [2, 2]]
    assert kind([5, 6]).ranks(np.array([1 << 63], np.uint64)).tolist() == [2]


def test_what_is_wrong_with_bits():
    for call, bad in [(BitSet.from_mask, [1, 0]), (BitSet.from_mask, [[True]]), (BitSet.from_packed, [1, 2]), (BitSet.from_words, [1, 2])]:
        with pytest.raises(TypeError):
            call(bad)
    for call in [BitSet.from_packed, lambda _, **words: BitSet([1]).to_packed(**words)]:
        with pytest.raises(ValueError):
            call(np.array([1], np.uint8), bitorder="middle")
    with pytest.raises(OverflowError):
        BitSet.from_words(np.zeros((1 << 24) + 1, np.uint64))


def test_to_a_buffer_of_the_caller(kind):
    some, room = kind(range(0, 100, 3)), np.full(10, 7, np.uint32)
    found = some.to_numpy(room)
    assert found.base is room and found.tolist() == list(range(0, 30, 3))
    found = some.to_numpy(room, start=91)
    assert found.tolist() == [93, 96, 99] and room[3] == 9
    assert some.to_numpy(start=91).tolist() == [93, 96, 99] and some.to_numpy(start=-5)[0] == 0
    read_only = np.empty(4, np.uint32)
    read_only.flags.writeable = False
    for bad in [np.empty(10, np.int64), np.empty(10, np.int32), np.empty(20, np.uint32)[::2], read_only]:
        with pytest.raises((TypeError, BufferError, ValueError)):
            some.to_numpy(bad)


def test_short_buffers(kind):
    some, asked = kind([1, 2, 3]), np.arange(4, dtype=np.uint32)
    for call, found in [(some._contains_many, np.zeros(4, bool)), (some._rank_many, np.zeros(4, np.uint64))]:
        with pytest.raises(ValueError):
            call(asked, found[:3])
        assert not found.any()
        call(asked, found)
        assert found.tolist() == ([False, True, True, True] if found.dtype == bool else [0, 0, 1, 2])


def test_a_list_is_removed(kind):
    some, asked = kind([1, 5, 70_000]), np.array([5, 5, 9, 1 << 31], np.uint32)
    assert some._remove_many(asked) == 1 and some == {1, 70_000}
    members = iter(some)
    assert some._remove_many(asked) == 0 and list(members) == [1, 70_000]
    assert kind([1, 5])._remove_many(np.array([9, 5], np.uint32)) == 1
    some.difference_update([1, 70_000.0], np.array([-1, 70_001]))
    assert not some


def test_ids(kind):
    some, ids = kind([0, 3, 70_000]), np.zeros(4, np.uint64)
    assert some._next_many_u64(1, (1 << 64) - 4, ids) == 2 and ids.tolist() == [(1 << 64) - 1, 69_996, 0, 0]
    asked, highs, lows = np.array([5, (3 << 30) + 7, 1 << 63], np.uint64), np.zeros(3, np.uint32), np.zeros(3, np.uint32)
    _core.split_ids(asked, 30, 4, highs, lows)
    assert highs.tolist() == [0, 3, 4] and lows.tolist() == [5, 7, 0]
    for bits, room in [(31, 3), (30, 2)]:
        with pytest.raises(ValueError):
            _core.split_ids(asked, bits, 4, highs, lows[:room])
    for base in [-1, 1 << 64]:
        with pytest.raises(OverflowError):
            some._next_many_u64(0, base, ids)


def test_words_are_no_copy():
    some = BitSet([0, 64, 130])
    words = some.words()
    assert words.dtype == np.uint64 and words[:3].tolist() == [1, 1, 4] and not words.flags.writeable and not words.flags.owndata
    changes = [
        lambda: some.add(5), lambda: some.add(0), lambda: some.discard(0), some.clear, some.pop, some.pop_last, lambda: some.add_range(0, 5),
        lambda: some.flip_range(0, 5), lambda: some.remove_range(0, 5), lambda: some.update([1]), lambda: some.__iand__(BitSet()),
        lambda: some.__ior__(some), lambda: some.__init__([5]), lambda: some._assign_words(np.ones(3, np.uint64)), lambda: some._with_capacity(9), lambda: some.reserve(9),
        lambda: some._deserialize(some.serialize(), 5),
    ]  # fmt: skip
    for change in changes:
        with pytest.raises(BufferError):
            change()
    assert some == {0, 64, 130} and len(some) == 3 and some & {0} == {0} and list(some) == [0, 64, 130]
    part = words[1:]
    del words
    gc.collect()
    with pytest.raises(BufferError):
        some.add(5)
    del part
    some.add(5)
    assert 5 in some


def test_words_outlive_the_name_of_their_set():
    words = BitSet([0, 64]).words()
    gc.collect()
    assert words[:2].tolist() == [1, 1]
    assert BitSet().words().tolist() == []
    with pytest.raises(TypeError, match="read-only"):
        memoryview(BitSet([1])._words())[0] = 1


def test_many(kind):
    random = np.random.default_rng(7)
    ids, other = (random.integers(0, 1 << 22, 200_000, dtype=np.uint32) for _ in range(2))
    some, model = kind.from_numpy(ids), np.unique(ids)
    assert len(some) == len(model) and np.array_equal(some.to_numpy(), model)
    assert np.array_equal((some & kind.from_numpy(other)).to_numpy(), np.intersect1d(ids, other))
    assert np.array_equal(some.contains(other), np.isin(other, ids))
    assert np.array_equal(some.ranks(other), np.searchsorted(model, other))
    assert MAX_INDEX == (1 << 30) - 1
