"""Sets of 64-bit ids over Dask's schedulers, processes that are killed among them."""
import os
import pickle
import signal

import pytest

np = pytest.importorskip("numpy")
dask = pytest.importorskip("dask")

import dask.array as da  # noqa: E402
import dask.bag as db  # noqa: E402

from mixed_ids import BITS, MEMBERS, SHARDS, TOP, A, B, kinds_of  # noqa: E402

from hibitset import BitSet, SparseBitSet  # noqa: E402
from hibitset import dask as hd  # noqa: E402
from hibitset.ids import IdSet  # noqa: E402


@pytest.fixture(scope="module")
def client():
    distributed = pytest.importorskip("distributed")
    words = {"n_workers": 3, "threads_per_worker": 2, "processes": True, "host": "127.0.0.1", "dashboard_address": None}
    with distributed.LocalCluster(**words) as cluster, distributed.Client(cluster) as client:
        yield client


@pytest.fixture(params=["sync", "threads", "processes of a cluster"])
def scheduler(request):
    if request.param.startswith("processes"):
        request.getfixturevalue("client")
        yield request.param
        return
    with dask.config.set(scheduler=request.param):
        yield request.param


def made(ids, chunks=1000):
    return hd.from_ids(da.from_array(ids, chunks=chunks), bits=BITS, shards=SHARDS, parts_at_once=3)


def of(ids):
    return IdSet.from_numpy(ids, shards=SHARDS, bits=BITS)


def test_two_sets(scheduler):
    a, b = made(A), made(B, 500)
    assert type(a.compute()) is IdSet
    here, there = of(A), of(B)
    found, expected = dask.compute(a, a & b, a | b, a - b, a ^ b), (here, here & there, here | there, here - there, here ^ there)
    assert found == expected and list(map(kinds_of, found)) == list(map(kinds_of, expected))
    assert a.equals(made(A, 333)).compute() and not a.equals(b).compute()
    with pytest.raises(ValueError):
        a & hd.from_ids(A, bits=BITS + 1, shards=SHARDS)
    with pytest.raises(TypeError):
        a & {5}
    with pytest.raises(TypeError):
        a.equals(here)


def test_questions(scheduler):
    a = made(A)
    assert len(a) == len(MEMBERS) == a.count().compute()
    asked = np.concatenate([B.astype(np.int64), [-1, TOP, 1 << 60]])
    expected = np.isin(asked, A.astype(np.int64))
    assert np.array_equal(a.contains(asked).compute(), expected) and len(a.contains([]).compute()) == 0
    chunked = a.contains(da.from_array(asked, chunks=700))
    assert np.array_equal(chunked.compute(), expected) and chunked.sum().compute() == expected.sum()
    with pytest.raises(ValueError):
        a.contains(np.zeros((2, 2), int))
    for id_ in [-5, 0, 5000, TOP - 1, TOP, int(MEMBERS[77])]:
        assert a.rank(id_).compute() == (MEMBERS.astype(np.int64) < id_).sum()
    for at in [0, 777, len(MEMBERS) - 1]:
        assert a.select(at).compute() == MEMBERS[at]
    for at in [-1, len(MEMBERS)]:
        with pytest.raises(IndexError):
            a.select(at)
    members = a.to_dask_array()
    assert members.shape == (len(MEMBERS),) and np.array_equal(members.compute(), MEMBERS)
    with pytest.raises(TypeError):
        bool(a)


def test_persist(scheduler):
    a = made(A).persist()
    assert type(a) is hd.ShardedSet and len(a & made(B)) == len(np.intersect1d(A, B)) and a.compute() == of(A)


def test_what_ids_come_from(scheduler):
    bag = db.from_sequence(A.tolist(), npartitions=5)
    for ids in [bag, bag.map(lambda id_: id_), A.tolist(), A.reshape(-1, 3), da.from_array(A.reshape(-1, 3), chunks=(500, 2)), A.astype(np.int32)]:
        assert hd.from_ids(ids, bits=BITS, shards=SHARDS).compute() == of(A)
    assert len(hd.from_ids([], bits=BITS, shards=SHARDS)) == 0
    for bad, error in [(np.array([TOP], np.uint64), OverflowError), (np.array([-1]), OverflowError), (np.array([0.5]), TypeError)]:
        with pytest.raises(error):
            made(bad).compute()
    with pytest.raises(ValueError):
        hd.from_ids(A, bits=31)


def test_series(scheduler):
    pandas, frames = pytest.importorskip("pandas"), pytest.importorskip("dask.dataframe")
    series = frames.from_pandas(pandas.Series(A.astype(np.int64)), npartitions=4)
    assert hd.from_ids(series, bits=BITS, shards=SHARDS).compute() == of(A)


def test_folders(scheduler, tmp_path):
    at = str(tmp_path / "ids")
    a = made(A)
    assert a.to_folder(at) == at
    again = hd.from_folder(at)
    assert kinds_of(again.compute()) == kinds_of(of(A))
    assert again.compute() == of(A) == IdSet.from_folder(at) and len(again & made(B)) == len(np.intersect1d(A, B))
    # Of itself: what is read is written anew in its place.
    assert (again | made(B)).to_folder(at, compute=False).compute() == at
    assert hd.from_folder(at).compute() == of(A) | of(B)
    # Once more the set that was there before another one.
    for each, expected in [(a, of(A)), (made(B), of(B)), (a, of(A))]:
        each.to_folder(at)
        assert IdSet.from_folder(at) == expected


@pytest.mark.parametrize(
    "harm, words",
    [(lambda path: path.write_bytes(path.read_bytes()[:-1]), "has .* bytes"), (lambda path: path.unlink(), "is missing"), (lambda path: path.write_bytes(path.read_bytes()[:-1] + b"\xff"), "is of another set")],
    ids=["cut short", "missing", "another"],
)  # fmt: skip
def test_a_folder_that_is_harmed(scheduler, tmp_path, harm, words):
    of(A).to_folder(tmp_path)
    path = tmp_path / hd.folders.read_manifest(tmp_path).entries[3].file
    harm(path)
    with pytest.raises(hd.FolderError, match=f"{path.name} {words}"):
        hd.from_folder(tmp_path).compute()
    (tmp_path / "hibitset.json").unlink()
    with pytest.raises(hd.FolderError, match="hibitset.json is missing"):
        hd.from_folder(tmp_path)


def test_tokens():
    for kind in [BitSet, SparseBitSet]:
        assert dask.base.tokenize(kind([5])) == dask.base.tokenize(kind([5])) != dask.base.tokenize(kind([6]))


def killed_once(ids, mark):
    """The ids; the first process that is asked for them ends instead."""
    try:
        os.close(os.open(mark, os.O_CREAT | os.O_EXCL))
    except FileExistsError:
        return ids
    os.kill(os.getpid(), signal.SIGKILL)


def test_a_worker_that_is_killed(client, tmp_path):
    """The answer is right, or there is an error."""
    from distributed import KilledWorker

    def computed(collection):
        return client.compute(collection).result(timeout=90)

    def killing(name):
        parts = da.from_array(A, chunks=1000).map_blocks(killed_once, str(tmp_path / name), dtype=np.uint64, meta=np.empty(0, np.uint64))
        return hd.from_ids(parts, bits=BITS, shards=SHARDS, parts_at_once=3)

    # While the set is made and written.
    at = computed(killing("first").to_folder(tmp_path / "ids", compute=False))
    assert (tmp_path / "first").exists() and computed(hd.from_folder(at)) == of(A)
    # While shards lie in its memory.
    kept = made(A).persist()
    assert computed(kept.count()) == len(MEMBERS)
    os.kill(next(iter(client.run(os.getpid).values())), signal.SIGKILL)
    assert computed(kept & made(B)) == of(A) & of(B) and computed(kept) == of(A)
    # And where Dask does nothing anew.
    client.run_on_scheduler(lambda dask_scheduler: setattr(dask_scheduler, "allowed_failures", 0))
    with pytest.raises(KilledWorker):
        computed(killing("second"))


def test_pickles_of_a_collection():
    assert pickle.loads(pickle.dumps(made(A))).compute(scheduler="sync") == of(A)
