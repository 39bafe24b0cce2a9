"""Allocations that fail in a process with little memory, and memory and references that are given back."""
import gc
import subprocess
import sys
import textwrap
import weakref
from array import array

import pytest

from hibitset import BitSet, SparseBitSet, _core

SOME = BitSet([1, 2, 65_539])


def run(program):
    """Runs a program in a process of its own, which has no numpy unless it imports it."""
    done = subprocess.run([sys.executable, "-c", textwrap.dedent(program)], capture_output=True, text=True)
    assert done.returncode == 0, done.stdout + done.stderr


def test_no_memory():
    run(
        """
        import resource, sys
        from hibitset import BitSet, SparseBitSet
        some, other, large = BitSet([1, 2, 3]), BitSet([1]), BitSet([2**30 - 1])
        stream = bytes.fromhex("3a300000 01000000 ff3f0000 10000000 ffff")
        resource.setrlimit(resource.RLIMIT_AS, (64 << 20, 64 << 20))
        def fails(call, *arguments):
            try:
                call(*arguments)
            except MemoryError:
                return
            sys.exit(f"{call} has not failed")
        fails(some.add, 2**30 - 1)
        fails(some.add_new, 2**30 - 1)
        fails(some.add_range, 2**30 - 5, 2**30)
        fails(some.flip_range, 2**30 - 5, 2**30)
        fails(some.update, [2**30 - 1])
        fails(BitSet.with_capacity, 2**30)
        fails(BitSet, SparseBitSet([2**30 - 1]))
        assert some | SparseBitSet([9]) == {1, 2, 3, 9} and list(SparseBitSet.deserialize(stream)) == [2**30 - 1]
        fails(BitSet.deserialize, stream)
        counted = sys.getrefcount(BitSet)
        for call in [large.copy, lambda: large | some, lambda: large ^ some, lambda: large - some]:
            fails(call)
        assert sys.getrefcount(BitSet) == counted, "a set is lost"
        assert some == {1, 2, 3} and other == {1} and some | other == {1, 2, 3}
        far = 2**30 - 1
        assert some & {1, far} == {1} and some.difference([far]) == some and some != {1, 2, far} and not some >= {1, far} and some < {1, 2, 3, far}
        assert some & set(range(3, 5)) == some.intersection(range(3, 2**30)) == {3}
        some.add(4)
        assert some == {1, 2, 3, 4}
        """
    )


def test_memory_is_given_back():
    run(
        """
        import gc, pickle, resource
        from hibitset import BitSet, SparseBitSet
        def turn(kind, other_kind):
            a = kind(range(0, 1 << 19, 3)); b = kind([5]); c = a | b; c &= a; c.copy(); d = other_kind.deserialize(a.serialize())
            list(zip(c, range(5))), repr(c), c == d, (a ^ d, a - d, c[5:9], a & d, d & a, {5} - a, a <= d, a.union_len(d), a.isdisjoint(d), kind(d))
            pickle.loads(pickle.dumps(a, 5)); a.serialize_into(bytearray(a.serialized_len())); reversed(a)
            if kind is BitSet:
                m = memoryview(a._words()); del m; a.first_gap(0)
            else:
                a.shrink()
            for call, error in [(lambda: kind.deserialize(b"abc"), ValueError), (lambda: a.add(-1), OverflowError), (lambda: a.update([1 << 30]), OverflowError),
                                (lambda: a.remove(1), KeyError), (lambda: a & 5, TypeError), (lambda: a._or(5), TypeError), (lambda: a.serialize_into(bytearray(3)), ValueError)]:
                try:
                    call()
                except error:
                    continue
                raise AssertionError
        for _ in range(20): turn(BitSet, SparseBitSet), turn(SparseBitSet, BitSet)
        before = resource.getrusage(resource.RUSAGE_SELF).ru_maxrss
        for _ in range(40): turn(BitSet, SparseBitSet), turn(SparseBitSet, BitSet)
        after = resource.getrusage(resource.RUSAGE_SELF).ru_maxrss
        assert after - before < 1024, (before, after)
        """
    )


def test_without_numpy():
    run(
        """
        import sys
        sys.modules["numpy"] = None
        from hibitset import BitSet
        some = BitSet([5, 6, 7])
        assert some & {5} == {5} and BitSet.deserialize(some.serialize()) == some and some[1:] == {6, 7} == some[-2::1] and some[::2] == {5, 7}
        try:
            some.to_numpy()
        except ImportError:
            sys.exit()
        sys.exit("numpy is there")
        """
    )


class Number:
    """An integer of a class of its own."""

    def __init__(self, value):
        self.value = value

    def __index__(self):
        return self.value

    def __hash__(self):
        return hash(self.value)

    def __eq__(self, other):
        return other == self.value


class Broken:
    """What raises an error where it is asked."""

    def __index__(self):
        raise ZeroDivisionError

    __hash__ = __eq__ = lambda self, *_: 1 // 0


def test_references(kind):
    """No reference of an argument is kept or lost."""
    kept = int("77777")
    number, broken, some, list_ = Number(kept), Broken(), kind(), [kept]
    view = some._words if kind is BitSet else bytes
    counted = [some, number, kept, broken, list_, kind, type(iter(some)), type(view())]
    call = some.add
    gc.collect()
    before = [sys.getrefcount(each) for each in counted]
    for _ in range(1000):
        some.add(number), number in some, some.discard(number), some.rank(number), some.first_from(number), some.update(list_)
        some.copy(), list(some), next(reversed(some)), view(), some & set(), some.add_new(number), some & {number}
        memoryview(view())
        iter(some).__reduce__(), reversed(some).__reduce__()
        some.remove(kept), iter(some).__length_hint__()
        for call in [some.add, some.rank, some.__contains__, some.discard, some.remove, some.add_new]:
            with pytest.raises(ZeroDivisionError):
                call(broken)
        with pytest.raises(KeyError):
            some.remove(77778)
        with pytest.raises(TypeError):
            some._or(list_)
    gc.collect()
    assert [sys.getrefcount(each) for each in counted] == before


def test_circles_are_collected(kind):
    class Holder(kind):
        """A set that may hold what holds it."""

    some = Holder([1])
    some.iterator, some.view = iter(some), some._words() if kind is BitSet else None
    gone = []
    weakref.finalize(some, gone.append, 1)
    del some
    gc.collect()
    assert gone == [1]


def test_buffers_are_given_back(kind):
    """Of each call, also of one that fails: a buffer that is held could not grow."""
    numbers, bytes_, room, words = array("I", [1, 2, 3]), bytearray(SOME.serialize()), bytearray(40), array("L", [1, 2])
    some, viewed = kind(SOME), BitSet([1])
    held = memoryview(viewed._words())
    calls = [
        lambda: kind(numbers), lambda: kind(array("I", [1 << 31])), lambda: some & set(numbers), lambda: some._contains_many(numbers, room),
        lambda: some._contains_many(numbers, bytearray(1)), lambda: some._contains_many(numbers, 5), lambda: some._contains_many(5, room),
        lambda: kind()._add_common(some, numbers), lambda: viewed._add_common(some, numbers), lambda: viewed._add_many(numbers),
        lambda: kind([1])._remove_many(numbers), lambda: viewed._remove_many(numbers), lambda: some._next_many_u64(0, 5, words),
        lambda: some._next_many_u64(0, -1, words), lambda: some._next_many_u64(0, 5, numbers), lambda: _core.split_ids(words, 9, 5, numbers, numbers),
        lambda: _core.split_ids(words, 31, 5, numbers, numbers), lambda: _core.split_ids(words, 9, 5, numbers, words), lambda: _core.split_ids(words, 9, 5, words, numbers),
        lambda: some._next_many(0, numbers), lambda: some._rank_many(numbers, array("L", [0, 0, 0])), lambda: some._rank_many(numbers, array("L")),
        lambda: some._rank_many(numbers, numbers), lambda: some._rank_many(5, words), lambda: BitSet()._assign_words(words),
        lambda: viewed._assign_words(words), lambda: SOME._copy_words(words), lambda: SOME._copy_words(numbers), lambda: kind.deserialize(bytes_),
        lambda: kind.deserialize(bytes_, below=1), lambda: viewed._deserialize(bytes_, 5), lambda: some.serialize_into(room), lambda: some.serialize_into(bytearray(1)),
        lambda: some.serialize_into(bytes_),
    ]  # fmt: skip
    for call in calls:
        try:
            call()
        except (TypeError, ValueError, OverflowError, BufferError):
            pass
        for buffer in [numbers, bytes_, room, words]:
            buffer.append(0)
            buffer.pop()
    assert held[0] == 2
