"""failing.py: each allocation of each call fails in turn: MemoryError, the members are as before, and the same call then passes.
And no two threads are in calls with a sparse set at once, also if both only look: the library's functions have it alone.
And a long call gives the GIL up, and a short one keeps it.

Needs a `_core` that is linked with failing.c. Prints how many calls were tried, or ends with the first that is wrong.
"""
import ctypes
import pickle
import threading

import numpy as np

from hibitset import BitSet, SparseBitSet, _core

LIBRARY = ctypes.PyDLL(_core.__file__)
WORDS = np.full(3000, 5, np.uint64)


def failing_calls(kind, other_kind):
    """Calls that allocate, on a set of a kind: each may fail."""
    big, same = other_kind([3, 70_000, 1 << 22]), kind([3, 70_000, 1 << 22])
    stream = big.serialize()
    calls = {
        "add": lambda some: some.add(1 << 21),
        "add_new": lambda some: some.add_new(1 << 21),
        "update of a list": lambda some: some.update([1 << 21]),
        "update of an array": lambda some: some.update(np.array([1 << 21])),
        "add_range": lambda some: some.add_range(1 << 20, 1 << 21),
        "flip_range": lambda some: some.flip_range(1 << 20, 1 << 21),
        "|=": lambda some: some.__ior__(big),
        "^=": lambda some: some.__ixor__(big),
        "|": lambda some: some | big,
        "^": lambda some: some ^ big,
        "&": lambda some: (some | {3}) & big,
        "-": lambda some: same - some,
        "copy": lambda some: some.copy(),
        "a set of the other kind": lambda some: other_kind(some),
        "slice": lambda some: some[1:],
        "serialize": lambda some: some.serialize(),
        "serialize_into": lambda some: some.serialize_into(bytearray(1000)),
        "deserialize": lambda some: kind.deserialize(stream),
        "pickle": lambda some: pickle.loads(pickle.dumps(some, 5)),
        "comparison with a set": lambda some: some <= {5, 6},
    }
    if kind is BitSet:
        calls["from_words"] = lambda some: BitSet.from_words(WORDS)
        calls["with_capacity"] = lambda some: BitSet.with_capacity(1 << 20)
        calls["reserve"] = lambda some: some.reserve(1 << 20)
    if kind is not other_kind or kind is SparseBitSet:
        for name in ["intersection_len", "union_len", "difference_len", "symmetric_difference_len"]:
            calls[name] = lambda some, name=name: getattr(some, name)(big)
    if kind is not other_kind:
        for name in ["issubset", "isdisjoint", "__eq__"]:
            calls[name] = lambda some, name=name: getattr(some, name)(other_kind([3, 6]))
    return calls


def calls_without(kind):
    """Calls on a set of a kind that allocate nothing."""
    big = kind([3, 70_000, 1 << 22])
    calls = {
        "discard": lambda some: some.discard(5),
        "to_numpy": lambda some: some.to_numpy(),
        "contains": lambda some: some.contains([5]),
        "iteration": lambda some: list(some),
        "len": len,
        "rank": lambda some: some.rank(9),
        "==": lambda some: some == big,
        "isdisjoint": lambda some: some.isdisjoint(big),
    }
    if kind is BitSet:
        calls["&="] = lambda some: some.__iand__(big)
        calls["-="] = lambda some: some.__isub__(big)
        calls["words"] = lambda some: some.words().sum()
        calls["fingerprint"] = lambda some: some.fingerprint()
        calls["union_len"] = lambda some: some.union_len(big)
    return calls


def spared_calls(kind):
    """Calls that do without memory that they don't get: what they then return of {3, 70_000, 1 << 22}."""
    dense, sparse = BitSet([3, 5]), SparseBitSet([3, 5])
    calls = {"ranks": lambda some: some.ranks([9, 100_000] * 50).tolist() == [1, 2] * 50}  # They take longer.
    if kind is SparseBitSet:
        for name, other in [("a dense set", dense), ("a sparse set", sparse)]:
            calls[f"&= {name}"] = lambda some, other=other: list(some.__iand__(other)) == [3]
            calls[f"-= {name}"] = lambda some, other=other: list(some.__isub__(other)) == [70_000, 1 << 22]
        calls["shrink"] = lambda some: some.shrink() is None and list(some) == [3, 70_000, 1 << 22]
    return calls


def allocations_of(call, some):
    LIBRARY.let_pass(-1)
    call(some)
    return LIBRARY.allocations()


def fail_each(kind, name, call):
    changed = kind([5, 6])
    count = allocations_of(call, changed)
    assert count > 0, f"{name} of a {kind.__name__} allocates nothing"
    for number in range(count):
        some = kind([5, 6])
        LIBRARY.let_pass(number)
        try:
            call(some)
        except MemoryError:
            LIBRARY.let_pass(-1)
        else:
            raise AssertionError(f"{name} of a {kind.__name__}: allocation {number} fails, and the call passes")
        assert some == kind([5, 6]), f"{name} of a {kind.__name__}: allocation {number} fails, and the members change"
        call(some)
        assert some == changed, f"{name} of a {kind.__name__}: after allocation {number} has failed the call does something else"


def spare_each(kind, name, call):
    for number in range(allocations_of(call, kind([3, 70_000, 1 << 22]))):
        some = kind([3, 70_000, 1 << 22])
        LIBRARY.let_pass(number)
        done = call(some)
        LIBRARY.let_pass(-1)
        assert done, f"{name} of a {kind.__name__}: allocation {number} fails"


def look_at(*sets):
    """Long calls on each set in a thread of its own. Returns whether two threads were in the library at once."""
    threads = [threading.Thread(target=lambda some=some: [len(some) for _ in range(2000)]) for some in sets]
    for thread in threads:
        thread.start()
    for thread in threads:
        thread.join()
    return bool(LIBRARY.have_met())


def keeps_gil(call):
    call()
    return bool(LIBRARY.had_gil())


tried = [0, 0, 0]
for first in [BitSet, SparseBitSet]:
    for second in [BitSet, SparseBitSet]:
        for each, its_call in failing_calls(first, second).items():
            fail_each(first, each, its_call)
            tried[0] += 1
    for each, its_call in calls_without(first).items():
        assert allocations_of(its_call, first([5, 6])) == 0, f"{each} of a {first.__name__} allocates"
        tried[1] += 1
    for each, its_call in spared_calls(first).items():
        spare_each(first, each, its_call)
        tried[2] += 1

many = SparseBitSet(range(1 << 20))
assert not look_at(many, many), "two threads are in calls with a sparse set at once"
assert look_at(many, many.copy()), "the test sees no two threads at once where they may be"
few, far = BitSet([5]), BitSet([1 << 24])
assert keeps_gil(few.fingerprint) and not keeps_gil(far.fingerprint), "a walk over many words"
assert keeps_gil(lambda: few.add_range(5, 7)) and keeps_gil(lambda: far.add_range(5, 7)), "a short range"
assert not keeps_gil(lambda: few.add_range(0, 1 << 20)) and not keeps_gil(lambda: few.add_range(1 << 24, (1 << 24) + 5)), "many words are written"
asked, found = np.arange(10_000, dtype=np.uint32), np.zeros(10_000, bool)
assert keeps_gil(lambda: few._contains_many(asked[:9], found)) and not keeps_gil(lambda: few._contains_many(asked, found)), "many indices"
print("failing.py: {} calls, each allocation fails in turn; {} calls allocate nothing, {} do without; a sparse set is in one call at a time".format(*tried))
