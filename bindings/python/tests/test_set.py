"""BitSet and SparseBitSet beside set, and beside each other."""
import copy
import operator
import pickle
import sys
from array import array
from collections.abc import MutableSet
from decimal import Decimal
from fractions import Fraction

import pytest
from hypothesis import given
from hypothesis import strategies as st
from hypothesis.stateful import RuleBasedStateMachine, invariant, precondition, rule

from hibitset import MAX_INDEX, BitSet, SparseBitSet, _core

# Indices at the ends of words and of words of layers above, and dense ones. Sets end below 2^24, so that they are small.
BORDERS = [border + d for border in (64, 4096, 65536, 1 << 18, 1 << 24) for d in (-1, 0, 1)]
index = st.one_of(st.integers(0, 300), st.sampled_from(BORDERS), st.integers(0, 1 << 20))
indices = st.lists(index, max_size=60)
bound = st.one_of(index, st.integers(-5, 5))
# What may be in a set of Python's.
things = st.lists(
    st.one_of(st.integers(-3, 70), st.sampled_from([MAX_INDEX, MAX_INDEX + 1, 1 << 70, 5.0, 5.5, "5", True, (5,)])), max_size=20
)


def test_all_names_of_sets(kind):
    for model in [set, MutableSet]:
        assert not [name for name in dir(model) if not name.startswith("_") and not hasattr(kind, name)]
    assert issubclass(kind, MutableSet)


def test_the_empty_set(kind):
    empty = kind()
    assert not empty and len(empty) == 0 and list(empty) == [] and empty == set() and repr(empty) == f"{kind.__name__}()"
    for call, error in [(empty.pop, KeyError), (empty.pop_last, KeyError), (empty.min, ValueError), (empty.max, ValueError)]:
        with pytest.raises(error):
            call()
    with pytest.raises(IndexError):
        empty[0]
    assert empty.first_from(0) is None and empty.last_before(1 << 30) is None


@pytest.mark.parametrize(
    "items",
    [
        [3, 1, 2, 3], (3, 1, 2), {1, 2, 3}, frozenset({1, 2, 3}), range(1, 4), range(1, 6, 2), iter([1, 2, 3]), {1: 0, 2: 0},
        (i for i in (1, 2, 3)), array("I", [1, 2, 3]), array("q", [1, 2, 3]), array("B", [1, 2, 3]), b"\x01\x02\x03\x00",
        bytearray(b"abcde"), [], (), "", range(5, 5), range(5, 1), [True, False], {1: 2}.keys(), {1: 2}.values(),
    ],
    ids=repr,
)  # fmt: skip
def test_made_of(kind, items):
    if hasattr(items, "__next__"):
        items = list(items)
        assert kind(iter(items)) == set(items)
    assert list(kind(items)) == sorted(set(items))


def test_made_anew(kind):
    some = kind([1, 2])
    some.__init__([3])
    assert some == {3}
    for wrong in [(some, 2), (1,), ([[]],), (None,)]:
        with pytest.raises(TypeError):
            some.__init__(*wrong)
    with pytest.raises(TypeError):
        kind(items=[1])


@pytest.mark.parametrize("bad", [-1, MAX_INDEX + 1, 1 << 32, 1 << 70, -(1 << 70)])
def test_out_of_range(kind, bad):
    some = kind([1, 2])
    calls = [some.add, some.add_new, lambda i: some.update([7, i]), lambda i: some.update({i}), lambda i: some | {i}, lambda i: some ^ {i}]
    for call in [*calls, lambda i: some.add_range(3, i + 2 if i > 0 else i), lambda i: some.symmetric_difference([i])]:
        with pytest.raises(OverflowError, match="range"):
            call(bad)
    assert bad not in some
    some.discard(bad)
    with pytest.raises(KeyError) as caught:
        some.remove(bad)
    assert caught.value.args == (bad,)
    for wrong in [[5, 6, bad, 7], iter([5, 6, bad, 7])]:
        with pytest.raises(OverflowError, match="at position 2 "):
            kind(wrong)


@pytest.mark.parametrize("bad", ["5", 5.0, None, (5,), [5], object()])
def test_what_is_no_integer(kind, bad):
    some = kind([5])
    for call in [some.add, some.rank, some.first_from, lambda i: some.update([i]), lambda i: some.add_range(0, i), lambda i: some[i]]:
        with pytest.raises(TypeError):
            call(bad)
    assert some == {5}


class Hashed:
    """What has the hash of a member, and is none."""

    def __hash__(self):
        return 5


@pytest.mark.parametrize("item", [Hashed(), "5", 5.0, 5.5, None, (5,), True, Decimal(5), Fraction(5), Fraction(11, 2), object(), -5, 1 << 70, float("nan"), float("inf")], ids=repr)
def test_what_is_equal_to_a_member(kind, item):
    """As of set: an object is in a set if it equals a member."""
    some, model = kind([1, 5]), {1, 5}
    assert (item in some) == (item in model)
    for call in [set.issubset, set.issuperset, set.isdisjoint, set.intersection, set.difference]:
        assert getattr(some, call.__name__)([item, 1]) == call(model, [item, 1])
    for call in [operator.and_, operator.sub, operator.eq, operator.ne, operator.le, operator.lt, operator.ge, operator.gt]:
        assert call(some, {item, 1}) == call(model, {item, 1})
    some.discard(item)
    model.discard(item)
    assert some == model
    if item not in model:
        with pytest.raises(KeyError) as caught:
            some.remove(item)
        assert caught.value.args == (item,)


def test_what_has_no_hash(kind):
    some = kind([5])
    for call in [some.__contains__, some.discard, some.remove, lambda i: some & [i], lambda i: some.intersection([i])]:
        with pytest.raises(TypeError):
            call([])
    with pytest.raises(TypeError, match="unhashable"):
        hash(some)


def test_what_is_no_set(kind):
    some = kind([5])
    calls = [operator.or_, operator.and_, operator.sub, operator.xor, operator.le, operator.lt, operator.ge, operator.gt]
    for call in [*calls, operator.ior, operator.iand, operator.isub, operator.ixor]:
        for other in [[5], (5,), 5, "5", b"5", {5: 5}, None]:
            with pytest.raises(TypeError):
                call(some, other)
    assert some != [5] and some != 5 and not some == [5]


@given(indices, things)
def test_a_set_and_things(kind, a, b):
    ours, theirs, other = kind(a), set(a), set(b)
    for call in [operator.and_, operator.sub]:
        assert call(ours, other) == call(theirs, other)
    for call in [operator.eq, operator.ne, operator.le, operator.lt, operator.ge, operator.gt]:
        assert call(ours, other) == call(theirs, other) and call(other, ours) == call(other, theirs)
    for name in ["issubset", "issuperset", "isdisjoint", "intersection", "difference"]:
        assert getattr(ours, name)(b) == getattr(theirs, name)(b) == getattr(ours, name)(iter(b))
    for name in ["__iand__", "__isub__"]:
        changed = ours.copy()
        assert getattr(changed, name)(other) is changed and changed == getattr(theirs.copy(), name)(other)
    assert ours.intersection_len(b) == len(theirs.intersection(b)) and ours.difference_len(b) == len(theirs.difference(b))


@given(indices, indices)
def test_two_sets(kind, other_kind, a, b):
    ours, theirs, other, model = kind(a), set(a), other_kind(b), set(b)
    for call in [operator.or_, operator.and_, operator.sub, operator.xor]:
        expected = call(theirs, model)
        for found, of in [(call(ours, other), kind), (call(ours, model), kind), (call(theirs, other), other_kind)]:
            assert type(found) is of and found == expected
        changed = ours.copy()
        assert getattr(operator, "i" + call.__name__.strip("_"))(changed, other) is changed and changed == expected
        assert list(call(ours, other)) == sorted(expected)
    for call in [operator.eq, operator.ne, operator.le, operator.lt, operator.ge, operator.gt]:
        assert call(ours, other) == call(ours, model) == call(theirs, model) == call(theirs, other)
    for name in ["union", "intersection", "difference", "symmetric_difference"]:
        assert getattr(ours, name)(other) == getattr(ours, name)(b) == getattr(theirs, name)(b)
        assert getattr(ours, name + "_len")(other) == len(getattr(theirs, name)(b))
    for name in ["issubset", "issuperset", "isdisjoint"]:
        assert getattr(ours, name)(other) == getattr(ours, name)(b) == getattr(theirs, name)(b)
    assert ours.union(b, a, [1]) == theirs.union(b, a, [1]) and ours.union() == ours.intersection() == ours.difference() == ours
    assert ours.intersection(b, a) == theirs.intersection(b, a) and ours.difference(b, [1]) == theirs.difference(b, [1])
    assert ours == theirs and other == model
    assert (BitSet(ours).fingerprint() == BitSet(other).fingerprint()) == (theirs == model)


@given(indices)
def test_a_set_and_itself(kind, a):
    for name, expected in [("__ior__", set(a)), ("__iand__", set(a)), ("__isub__", set()), ("__ixor__", set())]:
        some = kind(a)
        getattr(some, name)(some)
        assert some == expected
    some = kind(a)
    assert some | some == some & some == some and not some ^ some and not some - some
    assert some == some and some <= some and not some < some and some.intersection_len(some) == len(some)
    some.update(some)
    assert some == set(a)


@given(indices, bound, bound)
def test_order(kind, a, x, y):
    some, members = kind(a), sorted(set(a))
    assert list(some) == members and list(reversed(some)) == members[::-1] and len(some) == len(members)
    assert some.rank(x) == sum(member < x for member in members)
    assert some.len_range(x, y) == sum(x <= member < y for member in members)
    assert some.first_from(x) == next((member for member in members if member >= x), None)
    assert some.last_before(x) == next((member for member in reversed(members) if member < x), None)
    gap = BitSet(some).first_gap(x)
    assert gap >= x and gap not in some and some.contains_range(max(x, 0), gap)
    assert some.contains_range(x, y) == all(i in some for i in range(x, min(y, x + 400)))
    assert [some[at] for at in range(-len(members), len(members))] == members * 2
    assert [some.index(member) for member in members] == list(range(len(members)))
    if members:
        assert some.min() == members[0] and some.max() == members[-1]
    for at in [len(members), -len(members) - 1, 1 << 70, -(1 << 70)]:
        with pytest.raises(IndexError):
            some[at]
    with pytest.raises(ValueError):
        some.index(gap)


@given(indices, st.integers(-70, 70), st.integers(-70, 70), st.integers(-4, 4).filter(bool))
def test_slices(kind, a, start, stop, step):
    some, members = kind(a), sorted(set(a))
    for at in [slice(start, stop), slice(start, stop, step), slice(None, stop, step), slice(start, None, step)]:
        assert list(some[at]) == sorted(members[at])


def test_ends_of_the_range(kind):
    some = kind()
    some.add(MAX_INDEX)
    assert some.max() == MAX_INDEX and some.last_before(1 << 99) == MAX_INDEX and list(some) == [MAX_INDEX]
    assert list(reversed(some)) == [MAX_INDEX] and some.rank(1 << 99) == 1 and some.first_from(-(1 << 99)) == MAX_INDEX
    some.clear()
    assert not some


def test_capacity():
    some = BitSet([MAX_INDEX])
    assert some.capacity() == MAX_INDEX + 1 and sys.getsizeof(some) > 1 << 27 and some.first_gap(MAX_INDEX) is None
    some.clear()
    assert some.capacity() == 0 == some.first_gap(0) and BitSet.with_capacity(1000).capacity() >= 1000
    some.add(5)
    some.reserve(1000)
    some.reserve(9)
    assert some.capacity() == 1024 and some == {5} and sys.getsizeof(some) == sys.getsizeof(BitSet()) + 8 * (16 + 1 + 1 + 1)
    for bad in [-1, MAX_INDEX + 2]:
        with pytest.raises(OverflowError):
            BitSet.with_capacity(bad)
        with pytest.raises(OverflowError):
            some.reserve(bad)


def test_what_a_sparse_set_takes():
    """8 bytes for each 64 indices with a member, 16 for each 4,096, 56 for each 262,144, 16 for each 16,777,216."""
    some, none = SparseBitSet(), sys.getsizeof(SparseBitSet())
    for far, more in [(MAX_INDEX, 96), (MAX_INDEX - 1, 0), (MAX_INDEX - 64, 8), (MAX_INDEX - 4096, 24), (MAX_INDEX - (1 << 18), 80), (5, 96)]:
        before = sys.getsizeof(some)
        some.add(far)
        assert sys.getsizeof(some) == before + more
    some.remove_range(6, 1 << 30)
    some.shrink()
    assert some == {5} and sys.getsizeof(some) == none + 96
    some.clear()
    assert sys.getsizeof(some) == none


@given(indices)
def test_copies(kind, a):
    some = kind(a)
    for made in [some.copy(), copy.copy(some), copy.deepcopy(some), kind(some), some[:], some.union(), some | set()]:
        assert made == some and made is not some
        made.add(301)
        made ^= {1}
        assert some == set(a)


@given(indices)
def test_conversions(kind, other_kind, a):
    some = kind(a)
    made = other_kind(some)
    assert type(made) is other_kind and list(made) == list(some) == sorted(set(a)) and made.serialize() == some.serialize()
    for change in [made.__init__, made._assign]:
        made.add(301)
        change(some)
        assert made == some == set(a)


@given(indices, st.integers(0, 5))
def test_pickles(kind, a, protocol):
    assert pickle.loads(pickle.dumps(kind(a), protocol)) == set(a)


def test_pickle_out_of_band(kind):
    some, buffers = kind(range(0, 1 << 20, 7)), []
    data = pickle.dumps(some, 5, buffer_callback=buffers.append)
    assert len(data) < 300 and pickle.loads(data, buffers=buffers) == some


class Noted:
    """A set that has a note too."""

    def __init__(self, items=(), note=None):
        super().__init__(items)
        self.note = note


class Pages(Noted, BitSet):
    """A dense one."""


class SparsePages(Noted, SparseBitSet):
    """A sparse one."""


@pytest.mark.parametrize("derived", [Pages, SparsePages])
def test_a_class_derived_from_it(derived):
    some, kind = derived([1, 2], "kept"), derived.__mro__[2]
    for made in [some | {3}, some & {1}, some - {1}, some ^ {1}, some.copy(), some[:1], some[::2], some.union([7]), {9} - some]:
        assert type(made) is kind
    some |= {3}
    some -= {3}
    for made in [copy.copy(some), copy.deepcopy(some), pickle.loads(pickle.dumps(some)), pickle.loads(pickle.dumps(some, 5))]:
        assert type(made) is derived and made == some and made.note == "kept"
    assert type(some) is type(derived.deserialize(some.serialize())) is type(derived.from_numpy([5])) is derived
    assert some == kind([1, 2]) and repr(some) == f"{derived.__name__}([1, 2])" and type(Pages.with_capacity(5)) is Pages


def test_no_set_is_of_both_kinds():
    """Else the library's functions of one kind would have the memory of the other."""
    for names in [(BitSet, SparseBitSet), (SparseBitSet, BitSet), (_core.DenseCore, _core.SparseCore)]:
        with pytest.raises(TypeError, match="lay-out conflict"):
            type("Both", names, {})
    for some, other_kind in [(BitSet([1]), SparseBitSet), (SparseBitSet([1]), BitSet), (_core.DenseCore(), _core.SparseCore)]:
        with pytest.raises(TypeError, match="layout differs"):
            some.__class__ = other_kind
    for call in [_core.Core, type("Derived", (_core.Core,), {}), lambda: object.__new__(_core.Core), lambda: object.__new__(BitSet)]:
        with pytest.raises(TypeError):
            call()
    for call in [lambda: BitSet.reserve(SparseBitSet(), 5), lambda: SparseBitSet.shrink(BitSet()), lambda: BitSet.words(SparseBitSet())]:
        with pytest.raises((TypeError, AttributeError)):
            call()
    for wrong in [int, object, _core.Core, 5]:
        with pytest.raises(TypeError, match="expected a type of sets"):
            _core.return_sets_of(wrong)


def test_repr(kind):
    name = kind.__name__
    assert repr(kind(range(32))) == f"{name}({list(range(32))})"
    assert repr(kind(range(100))) == f"<{name} of 100: 0, 1, 2, 3, 4, 5, 6, 7, 8, 9, 10, 11, 12, 13, 14, 15, ..., 99>"


@pytest.mark.parametrize("way", [iter, reversed])
def test_a_set_that_changes_during_an_iteration(kind, way):
    changes = [
        lambda some: some.add(7), lambda some: some.discard(4000), kind.pop, kind.pop_last, kind.clear, lambda some: some.update([9]),
        lambda some: some.add_range(0, 9), lambda some: some.__ior__({7}), lambda some: some.remove_range(0, 9), lambda some: some.remove(8),
    ]  # fmt: skip
    for change in changes:
        some = kind(range(0, 5000, 2))
        found = way(some)
        next(found)
        change(some)
        for _ in range(2):
            with pytest.raises(RuntimeError, match="changed"):
                next(found)
    some = kind(range(0, 5000, 2))
    alone = some.reserve if kind is BitSet else lambda i: some.shrink()
    for same in [lambda i: some.add(i), lambda i: some.discard(i + 1), lambda i: some.rank(i), lambda i: some.add_new(i), alone]:
        for member in way(some):
            same(member)


def test_what_changes_nothing(kind):
    """An iterator goes on after it."""
    some, far = kind([5, 70_000]), kind([5, 70_000])
    members, none = iter(some), kind()
    ends = iter(none)
    for call in [none.pop, none.pop_last]:
        with pytest.raises(KeyError):
            call()
    none.clear()
    assert list(ends) == []
    some.discard(6), some.add(5), some.difference_update([6]), far.clear()
    assert list(members) == [5, 70_000]


def test_bounds_past_the_range(kind):
    """Where no index is added they are those of the range."""
    some = kind([0, 5, MAX_INDEX])
    assert some.len_range(-5, 1 << 70) == 3 and some.rank(1 << 40) == 3 and some.first_from(-(1 << 70)) == 0
    some.remove_range(1, 1 << 70)
    assert some == {0}
    some.remove_range(-(1 << 70), 1)
    assert not some


def test_numbers_of_arguments(kind):
    some = kind([5])
    for call in [some.add_range, some.flip_range, some.remove_range, some.len_range]:
        for bounds in [(), (1,), (1, 2, 3)]:
            with pytest.raises(TypeError):
                call(*bounds)
    assert some == {5}


@pytest.mark.parametrize("count", [0, 1, 255, 256, 257, 1000])
def test_iterators(kind, count):
    some = kind(range(0, 3 * count, 3))
    for way in [iter, reversed]:
        found, expected = way(some), list(way(range(0, 3 * count, 3)))
        assert iter(found) is found
        for left in range(count, 0, -1):
            assert operator.length_hint(found) == left
            assert next(found) == expected[count - left]
            if left % 100 == 0:
                assert list(pickle.loads(pickle.dumps(found))) == expected[count - left + 1 :]
        assert operator.length_hint(found) == 0 and list(pickle.loads(pickle.dumps(found))) == []
        for _ in range(2):
            with pytest.raises(StopIteration):
                next(found)


class Machine(RuleBasedStateMachine):
    """Random calls on a set of a kind, and on a set of Python's."""

    kind, other_kind = BitSet, SparseBitSet

    def __init__(self):
        super().__init__()
        self.ours, self.model = self.kind(), set()

    @rule(i=index)
    def add(self, i):
        assert self.ours.add_new(i) == (i not in self.model)
        self.model.add(i)

    @rule(i=index)
    def discard(self, i):
        self.ours.discard(i)
        self.model.discard(i)

    @rule(i=index)
    def remove(self, i):
        if i in self.model:
            self.ours.remove(i)
            self.model.remove(i)
        else:
            with pytest.raises(KeyError):
                self.ours.remove(i)

    @rule(start=index, length=st.integers(0, 5000))
    def add_range(self, start, length):
        self.ours.add_range(start, start + length)
        self.model.update(range(start, start + length))

    @rule(start=index, length=st.integers(0, 5000))
    def remove_range(self, start, length):
        self.ours.remove_range(start, start + length)
        self.model.difference_update(range(start, start + length))

    @rule(start=index, length=st.integers(0, 5000))
    def flip_range(self, start, length):
        self.ours.flip_range(start, start + length)
        self.model.symmetric_difference_update(range(start, start + length))

    @rule(items=indices, name=st.sampled_from(["update", "intersection_update", "difference_update", "symmetric_difference_update"]), made=st.booleans())
    def assign(self, items, name, made):
        getattr(self.ours, name)(self.other_kind(items) if made else items)
        getattr(self.model, name)(items)

    @precondition(lambda self: self.model)
    @rule()
    def pop(self):
        assert self.ours.pop() == min(self.model)
        self.model.remove(min(self.model))

    @precondition(lambda self: self.model)
    @rule()
    def pop_last(self):
        assert self.ours.pop_last() == max(self.model)
        self.model.remove(max(self.model))

    @rule()
    def stream(self):
        self.ours = self.kind.deserialize(self.ours.serialize())

    @rule(i=index)
    def contains(self, i):
        assert (i in self.ours) == (i in self.model)

    @invariant()
    def same(self):
        assert list(self.ours) == sorted(self.model)


class SparseMachine(Machine):
    """The same on a SparseBitSet."""

    kind, other_kind = SparseBitSet, BitSet


TestMachine, TestSparseMachine = Machine.TestCase, SparseMachine.TestCase
