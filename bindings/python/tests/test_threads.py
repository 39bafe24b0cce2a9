"""Threads that share a set, and processes that have it too: each call is one step."""
import multiprocessing
import os
import signal
import threading
import time
from array import array

import pytest

from hibitset import BitSet, SparseBitSet

np = pytest.importorskip("numpy")
pytestmark = pytest.mark.usefixtures("many_turns")


def run(*calls):
    """Runs each call in a thread of its own, until all have ended."""
    wrong = []

    def guarded(call):
        try:
            call()
        except BaseException as error:  # noqa: BLE001 (it is raised below)
            wrong.append(error)

    threads = [threading.Thread(target=guarded, args=(call,), daemon=True) for call in calls]
    for thread in threads:
        thread.start()
    for thread in threads:
        thread.join(30)
        if wrong:
            raise wrong[0]
        assert not thread.is_alive(), "a call waits for ever"


def test_each_addition_is_new_once(kind):
    some, fresh = kind(), [0] * 4

    def add(k):
        fresh[k] = sum(some.add_new(i << 10) for i in range(20_000))

    run(*(lambda k=k: add(k) for k in range(4)))
    assert sum(fresh) == len(some) == 20_000


def test_many_at_once(kind):
    some = kind()
    parts = [np.random.default_rng(k).integers(0, 1 << 22, 300_000, dtype=np.uint32) for k in range(4)]
    run(*(lambda part=part: some.update(part) for part in parts))
    assert np.array_equal(some.to_numpy(), np.unique(np.concatenate(parts)))


def test_changes_beside_reads(kind):
    some, stop = kind(range(1 << 20)), threading.Event()

    def change():
        for turn in range(60):
            some.add_range(1 << 20, (1 << 20) + (turn + 1) * 20_000)
            some.remove_range(1 << 20, 1 << 30)
            if turn % 10 == 0:
                some.clear()
                some.add_range(0, 1 << 20)
        stop.set()

    def read():
        while not stop.is_set():
            mask = (some if kind is BitSet else BitSet(some)).to_mask(1 << 20)
            assert mask.all() or not mask.any()
            assert kind.deserialize(some.serialize()) is not None
            assert (np.diff(some.to_numpy().astype(np.int64)) > 0).all()
            assert some.rank(1 << 19) in (0, 1 << 19) and (7 in some) in (False, True)

    run(change, read, read)


def test_a_long_change_is_one_step(kind):
    some, end, stop = kind(), 1 << 26, threading.Event()

    def change():
        for _ in range(12):
            some.add_range(0, end)
            some.remove_range(0, end)
        stop.set()

    def read():
        while not stop.is_set():
            assert some.len_range(0, end) in (0, end)
            assert some.intersection_len(some) in (0, end)

    run(change, read, read)


def test_changes_that_move_the_words():
    some, part = BitSet(), np.random.default_rng(1).integers(0, 1 << 23, 100_000, dtype=np.uint32)

    def fill():
        for _ in range(60):
            some.add_range(0, 1 << 23)
            some.clear()

    def add():
        for _ in range(60):
            some.update(part)
            some.clear()

    run(fill, add, add)
    some.update(part)
    assert np.array_equal(some.to_numpy(), np.unique(part))


def test_two_sets_in_both_orders(kind, other_kind):
    a, b = kind(range(0, 1 << 21, 2)), other_kind(range(1, 1 << 21, 2))
    ended = []

    def assign(to, of):
        for _ in range(60):
            to |= of
            to.discard(5)
        ended.append(True)

    def read(first, second):
        while len(ended) < 2:
            first.union_len(second)

    run(lambda: assign(a, b), lambda: assign(b, a), lambda: read(a, b), lambda: read(b, a))
    assert len(a | b) >= (1 << 21) - 1


def test_readers_in_both_orders_beside_changes(kind):
    a, b = kind(range(0, 1 << 19, 2)), kind(range(0, 1 << 19, 3))
    stop = threading.Event()

    def read(first, second):
        for _ in range(500):
            first.intersection_len(second)
        stop.set()

    def change(some):
        while not stop.is_set():
            some.add(7)
            some.discard(7)

    run(lambda: read(a, b), lambda: read(b, a), lambda: change(a), lambda: change(b))


def test_a_set_with_itself_beside_changes(kind):
    some, stop = kind(range(1 << 20)), threading.Event()

    def pair():
        for _ in range(200):
            assert some.intersection_len(some) in range((1 << 20) - 1, (1 << 20) + 1)
            some.__ior__(some)
        stop.set()

    def change():
        while not stop.is_set():
            some.discard(7)
            some.add(7)

    run(pair, change)
    assert len(some) == 1 << 20


def test_an_array_of_words_beside_changes():
    some, refused = BitSet(range(1 << 16)), [0]

    def change():
        for i in range(20_000):
            try:
                some.add((1 << 16) + i)
            except BufferError:
                refused[0] += 1

    def look():
        for _ in range(2_000):
            words = some.words()
            assert (words[:1024] == np.uint64(2**64 - 1)).all()
            del words

    run(change, look)
    assert len(some) == (1 << 16) + 20_000 - refused[0]


def test_an_iterator_that_threads_share():
    """Of a set with a reader that takes long, and a writer that waits for it and is then refused: both threads wait for members."""
    some = BitSet()
    some.add_range(0, 1 << 28)
    words, found, seen, refused = some.words(), iter(some), [[], []], [0]

    def take(k):
        while refused[0] < 40:
            seen[k].append(next(found))

    def count():
        while refused[0] < 40:
            len(some)

    def refuse():
        while refused[0] < 40:
            with pytest.raises(BufferError):
                some.add(1)
            refused[0] += 1

    run(lambda: take(0), lambda: take(1), count, refuse)
    assert sorted(seen[0] + seen[1]) == list(range(len(seen[0]) + len(seen[1]))) and len(words) == 1 << 22


def test_each_call_has_its_turn(kind):
    """Beside a thread that makes one long call after the other: a call waits for few of them."""
    some, stop, turns, most = kind(range(1 << 24)), threading.Event(), [0], [0]

    def change():
        while not stop.is_set():
            some.add_range(0, 1 << 22)
            turns[0] += 1

    def read():
        for _ in range(100):
            before = turns[0]
            some.len_range(0, 1 << 20)
            most[0] = max(most[0], turns[0] - before)
        stop.set()

    run(change, read)
    assert most[0] < 100


def test_streams_and_arrays_beside_changes(kind):
    """Which the set may have between the parts of a call."""
    some, ended = kind(range(1 << 20)), []

    def change():
        while len(ended) < 2:
            some.add_range(1 << 20, (1 << 20) + (1 << 19))
            some.remove_range(1 << 20, 1 << 30)

    def read():
        for _ in range(4):
            for made in [kind.deserialize(some.serialize()), kind.from_numpy(some.to_numpy())]:
                assert len(made) in (1 << 20, (1 << 20) + (1 << 19))
        ended.append(True)

    run(change, read, read)


def test_an_array_whose_length_is_never_counted_in_time():
    """Another thread adds members after each count, and takes them out before the next one."""

    class Changing(BitSet):
        def len_range(self, start=0, stop=None):
            return 3

    assert Changing(range(100)).to_numpy().tolist() == list(range(100))


def test_others_run_during_a_long_call():
    """While one thread builds and reads large sets, another gets turns within the calls."""
    ids = np.random.default_rng(2).integers(0, 1 << 27, 6_000_000, dtype=np.uint32)
    inside, turns, stop = threading.Event(), [0], threading.Event()

    def build():
        inside.set()
        BitSet.from_numpy(ids).serialize()
        inside.clear()
        stop.set()

    def count():
        while not stop.is_set():
            if inside.is_set():
                turns[0] += 1

    run(build, count)
    assert turns[0] > 1000


def test_both_sets_of_a_call_are_kept():
    """What two sets have is that of one moment, also where the second one changes."""
    left, right, stop, lens = BitSet(range(0, 1 << 20, 64)), BitSet.with_capacity(1 << 22), threading.Event(), set()

    def change():
        for _ in range(60):
            right.flip_range(0, 1 << 22)
        stop.set()

    def read():
        while not stop.is_set():
            lens.add(len(left | right))

    run(change, read, read)
    assert lens <= {len(left), 1 << 22}


def test_a_fork_beside_calls():
    """In the child the sets that no call has are as free as before."""
    taken, free, stop = BitSet(range(1 << 22)), BitSet(range(1 << 20)), threading.Event()

    def read():
        while not stop.is_set():
            len(taken)

    def change():
        while not stop.is_set():
            taken.add_range(0, 1 << 22)

    def fork():
        for _ in range(20):
            child = os.fork()
            if child == 0:
                signal.alarm(20)  # It ends by itself if a call waits for ever.
                free.add_range(0, 1 << 22)
                os._exit(len(free) != 1 << 22)
            assert os.waitpid(child, 0)[1] == 0
        stop.set()

    run(read, change, fork)


def test_a_fork_while_a_call_waits():
    """In the child no call waits: what had to wait for it is free."""
    long, free, few = BitSet.with_capacity(1 << 29), BitSet([1]), array("I", [1])
    for _ in range(4):
        done = []
        flips = threading.Thread(target=lambda: (long.flip_range(0, 1 << 29), done.append(1)))
        waits = threading.Thread(target=lambda: free._add_common(long, few))
        flips.start(), waits.start()
        time.sleep(0.002)
        child = os.fork()
        if child == 0:
            signal.alarm(20)
            if not done:  # So the set that is flipped is taken, and the other call waits, or has not begun.
                free.add(5)
            os._exit(0)
        flips.join(), waits.join()
        assert os.waitpid(child, 0)[1] == 0


def changed(some):
    """In another process: the set without its least member, and with one that makes it grow."""
    some.pop()
    some.add(1 << 24)
    return some


@pytest.mark.parametrize("way", ["fork", "spawn"])
def test_processes(way):
    sets = [kind(range(start, 1 << 20)) for kind, start in ((BitSet, 0), (SparseBitSet, 5))]
    with multiprocessing.get_context(way).Pool(2) as pool:
        made = pool.map(changed, sets)
    assert made == [changed(some) for some in sets] and [type(some) for some in made] == [BitSet, SparseBitSet]
