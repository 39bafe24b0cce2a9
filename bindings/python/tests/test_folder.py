"""Sets of 64-bit ids in one process, and folders of their shards."""
import json
import os
import pickle
import shutil
import subprocess
import sys

import pytest

np = pytest.importorskip("numpy")

from hypothesis import given  # noqa: E402
from hypothesis import strategies as st  # noqa: E402
from mixed_ids import BITS, MEMBERS, RANDOM, SHARDS, TOP, A, B, kinds_of  # noqa: E402

from hibitset import BitSet, SparseBitSet, _shards, folder  # noqa: E402
from hibitset.folder import FolderError  # noqa: E402
from hibitset.ids import IdSet, split  # noqa: E402


def of(ids):
    return IdSet.from_numpy(ids, shards=SHARDS, bits=BITS)


# ---- Ids ----


@pytest.mark.parametrize("dtype", ["u8", "i8", "u4", "i4", "u2", "i2"])
def test_split(dtype):
    ids = A.astype(dtype)
    for high, lows in enumerate(split(ids, BITS, SHARDS)):
        assert lows.dtype == np.uint32 and lows.tolist() == [i % (1 << BITS) for i in ids.tolist() if i >> BITS == high]


def test_what_is_no_id():
    assert [len(lows) for lows in split([], BITS, SHARDS)] == [0] * SHARDS
    for bad in [TOP, -1, 1 << 62]:
        with pytest.raises(OverflowError, match=f"{bad} at position 1 "):
            split(np.array([5, bad, 6, bad]), BITS, SHARDS)
    with pytest.raises(OverflowError, match="at position 0 "):
        split(np.array([(1 << 64) - 1], np.uint64), 30, 1 << 10)
    with pytest.raises(TypeError):
        split([0.5], BITS, SHARDS)
    for bits, shards in [(5, 1), (31, 1), (30, 0), (30, (1 << 20) + 1)]:
        with pytest.raises(ValueError):
            IdSet.from_numpy([], shards=shards, bits=bits)


@pytest.mark.parametrize("shards", [300, 70_000])
def test_many_shards(shards):
    """More than a byte, and than two, can number."""
    ids = RANDOM.integers(0, shards << 6, 5000, dtype=np.uint64)
    parts = split(ids, 6, shards)
    found = [(high << 6) + low for high, lows in enumerate(parts) if len(lows) for low in lows.tolist()]
    assert len(parts) == shards and sorted(found) == sorted(ids.tolist())


def test_sets_of_ids():
    some, other = of(A), of(B)
    assert kinds_of(some) == "dense sparse dense sparse sparse dense dense" == kinds_of(some - other)
    assert kinds_of(other) == "sparse sparse dense dense dense sparse dense"
    assert kinds_of(some & other) == "sparse sparse dense sparse sparse sparse dense"
    assert kinds_of(some | other) == "dense sparse dense dense dense dense dense" == kinds_of(some ^ other)
    assert len(some) == len(MEMBERS) and np.array_equal(some.to_numpy(), MEMBERS) and list(some) == MEMBERS.tolist()
    assert np.array_equal((some & other).to_numpy(), np.intersect1d(A, B))
    assert np.array_equal((some | other).to_numpy(), np.union1d(A, B))
    assert np.array_equal((some - other).to_numpy(), np.setdiff1d(A, B))
    assert np.array_equal((some ^ other).to_numpy(), np.setxor1d(MEMBERS, np.unique(B)))
    asked = np.concatenate([B.astype(np.int64), [-1, TOP, 1 << 60]])
    assert np.array_equal(some.contains(asked), np.isin(asked, A.astype(np.int64)))
    assert some.contains(asked[-3:].reshape(3, 1)).tolist() == [[False]] * 3
    for id_ in [-5, 0, 1, 5000, TOP - 1, TOP, TOP + 5, int(MEMBERS[77])]:
        assert some.rank(id_) == (MEMBERS.astype(np.int64) < id_).sum() and (id_ in some) == (id_ in MEMBERS.tolist())
    for at in [0, 1, 777, len(MEMBERS) - 1]:
        assert some.select(at) == MEMBERS[at]
    for at in [-1, len(MEMBERS)]:
        with pytest.raises(IndexError):
            some.select(at)
    assert pickle.loads(pickle.dumps(some)) == some == some.copy() and some != other and bool(some) and not of([])


@given(st.sets(st.integers(0, 5000)), st.sampled_from([0, 5000, 1 << 22]))
def test_the_smaller_kind(items, far):
    items.add(far)
    dense, sparse = BitSet(items), SparseBitSet(items)
    found = [_shards.smaller(dense), _shards.smaller(sparse), _shards.built([np.array(list(items), np.uint32)]), _shards.built([dense, sparse])]
    takes = [sys.getsizeof(kind(items)) - sys.getsizeof(kind()) for kind in (BitSet, SparseBitSet)]
    if abs(takes[0] - takes[1]) > 16:  # The layers over a short BitSet take some bytes more than a 64th.
        assert [type(some) for some in found] == [BitSet if takes[0] < takes[1] else SparseBitSet] * 4
    assert all(some == items for some in found)


def test_what_the_page_says_of_memory():
    def shard_of(share, bits):
        ids = np.random.default_rng(7).integers(0, 1 << bits, int(share * (1 << bits)), dtype=np.uint64)
        return IdSet.from_numpy(ids, shards=1, bits=bits).shards[0]

    for share, megabytes in [(0.01, 17.0), (0.00001, 0.12)]:
        shard = shard_of(share, 28)
        assert type(shard) is SparseBitSet and abs(sys.getsizeof(shard) / 1e6 - megabytes) < 0.05
        assert abs(sys.getsizeof(BitSet(shard)) / 1e6 - 34.1) < 0.05
    # Some ids are there twice.
    assert [type(shard_of(share, 20)) for share in (0.05, 0.06, 0.07)] == [SparseBitSet, SparseBitSet, BitSet]


def test_kinds_while_ids_are_added():
    some = of([])
    assert kinds_of(some) == " ".join(["sparse"] * SHARDS)
    for ids in np.array_split(A, 40):
        some.update(ids)
        assert kinds_of(some) == kinds_of(IdSet.from_numpy(some.to_numpy(), shards=SHARDS, bits=BITS))
    assert some == of(A)
    some.update(np.arange(TOP))
    assert kinds_of(some) == " ".join(["dense"] * SHARDS) and len(some) == TOP
    some = IdSet.from_numpy([5], shards=2, bits=30)
    some.update([1 << 29, (1 << 30) + 7])
    assert kinds_of(some) == "sparse dense" and some.to_numpy().tolist() == [5, 1 << 29, (1 << 30) + 7]


def test_a_long_list():
    """Of which a part is split at a time."""
    ids = np.arange(5_000_000, dtype=np.uint64)[::-1].copy()
    some = IdSet.from_numpy(ids, shards=5, bits=20)
    assert len(some) == 5_000_000 and some.select(4_999_999) == 4_999_999
    ids[4_500_001] = 5 << 20
    with pytest.raises(OverflowError, match="5242880 at position 4500001 "):
        some.update(ids)
    some.update([])
    some.update(range(3))


def test_one_id():
    some = of(A)
    copied = some.copy()
    copied.discard(int(MEMBERS[3]))
    copied.discard(TOP)
    assert int(MEMBERS[3]) not in copied and int(MEMBERS[3]) in some and TOP not in some and -1 not in some
    copied.add(int(MEMBERS[3]))
    assert copied == some
    for bad in [TOP, -1]:
        with pytest.raises(OverflowError):
            some.add(bad)
    with pytest.raises(ValueError):
        some & IdSet.from_numpy(A, shards=SHARDS, bits=BITS + 1)
    with pytest.raises(TypeError):
        some & {5}


# ---- Folders ----


@pytest.fixture
def written(tmp_path):
    of(A).to_folder(tmp_path / "ids")
    return tmp_path / "ids"


def file_of(path, high):
    return path / folder.read_manifest(path).entries[high].file


def test_round_trip(written):
    said = json.loads((written / "hibitset.json").read_text())
    assert said["bits"] == BITS and said["members"] == len(MEMBERS) and len(said["shards"]) == SHARDS
    assert IdSet.from_folder(written) == of(A) and len(list(written.iterdir())) == SHARDS + 1
    assert kinds_of(IdSet.from_folder(written)) == kinds_of(of(A))
    # The bytes do not tell of which kind a shard was.
    assert folder.write_shard(written, 3, BitSet(of(A).shards[1])) == folder.write_shard(written, 3, SparseBitSet(of(A).shards[1]))
    assert BitSet.deserialize(file_of(written, 3).read_bytes()) == of(A).shards[3]
    checked = [f"{shard['sha256']}  {shard['file']}" for shard in said["shards"]]
    done = subprocess.run(["sha256sum", "-c", "--quiet"], input="\n".join(checked) + "\n", text=True, cwd=written, capture_output=True)
    assert done.returncode == 0, done.stdout


def test_another_set_in_its_place(written):
    for ids in [B, A, [], A]:
        of(ids).to_folder(written)
        assert IdSet.from_folder(written) == of(ids) and len(list(written.iterdir())) == SHARDS + 1
    IdSet.from_numpy(A, shards=1, bits=20).to_folder(written)
    assert np.array_equal(IdSet.from_folder(written).to_numpy(), MEMBERS) and len(list(written.iterdir())) == 2


def test_a_far_id_is_read_without_a_dense_set(tmp_path):
    """In a process with less memory than that would take."""
    IdSet.from_numpy([(1 << 30) - 1, 1 << 30], shards=2, bits=30).to_folder(tmp_path)
    program = (
        "import resource, sys; from hibitset.ids import IdSet\n"
        "used = int(open('/proc/self/statm').read().split()[0]) * 4096\n"
        "resource.setrlimit(resource.RLIMIT_AS, (used + (64 << 20),) * 2)\n"
        "some = IdSet.from_folder(sys.argv[1])\n"
        "assert list(some | some) == [(1 << 30) - 1, 1 << 30], some"
    )
    done = subprocess.run([sys.executable, "-c", program, str(tmp_path)], capture_output=True, text=True)
    assert done.returncode == 0, done.stderr


def test_what_else_lies_in_a_folder_stays(written):
    (written / "notes.txt").write_text("kept")
    of(B).to_folder(written)
    assert (written / "notes.txt").read_text() == "kept"


@pytest.mark.parametrize(
    "harm, words",
    [
        (lambda path: path.unlink(), "is missing"),
        (lambda path: path.write_bytes(path.read_bytes()[:-1]), "bytes, and hibitset.json says"),
        (lambda path: path.write_bytes(path.read_bytes()[:-1] + b"\xff"), "of another set"),
        (lambda path: path.write_bytes(b""), "has 0 bytes"),
    ],
)
def test_a_file_that_is_harmed(written, harm, words):
    path = file_of(written, 3)
    harm(path)
    with pytest.raises(FolderError, match=f"{path.name}.*{words}") as caught:
        IdSet.from_folder(written)
    assert isinstance(pickle.loads(pickle.dumps(caught.value)), FolderError)


def test_a_file_of_another_set(written, tmp_path):
    of(B).to_folder(tmp_path / "other")
    shutil.copy(file_of(tmp_path / "other", 3), file_of(written, 3))
    with pytest.raises(FolderError, match="shard-00003-"):
        IdSet.from_folder(written)


def test_a_stream_that_the_manifest_belies(written):
    """A manifest whose checksum is right, and whose words are not."""
    said = json.loads((written / "hibitset.json").read_text())
    said["shards"][3]["members"] += 1
    said["members"] += 1
    (written / "hibitset.json").write_text(json.dumps(said))
    with pytest.raises(FolderError, match="shard-00003-.* members, and"):
        IdSet.from_folder(written)
    for data in [BitSet([1 << BITS]).serialize(), b"no stream"]:
        entry = folder.write_shard(written, 0, BitSet([1 << BITS]))
        sha256 = folder.hashlib.sha256(data).hexdigest()
        entry = entry._replace(file=folder._name(0, sha256), sha256=sha256, bytes=len(data))
        (written / entry.file).write_bytes(data)
        folder.commit(written, BITS, [entry])
        with pytest.raises(FolderError, match="shard-00000-.*not a Roaring stream"):
            IdSet.from_folder(written)


@pytest.mark.parametrize(
    "change",
    [
        lambda said: said.pop("format"), lambda said: said.update(format="another"), lambda said: said.update(bits=31), lambda said: said.update(bits="12"),
        lambda said: said.update(members=1), lambda said: said["shards"].pop(), lambda said: said.update(shards=5), lambda said: said["shards"][0].pop("file"),
        lambda said: said["shards"][0].update(file="../../etc/passwd"), lambda said: said["shards"].reverse(), lambda said: said["shards"][0].update(members=-1),
        lambda said: said["shards"][0].update(members=True), lambda said: said["shards"][0].update(sha256="x"), lambda said: said["shards"][0].update(more=1),
        lambda said: said["shards"][0].update(sha256=5),
    ],
)  # fmt: skip
def test_a_manifest_that_is_none(written, change):
    said = json.loads((written / "hibitset.json").read_text())
    change(said)
    (written / "hibitset.json").write_text(json.dumps(said))
    with pytest.raises(FolderError, match="hibitset.json is no manifest"):
        IdSet.from_folder(written)


def test_a_manifest_that_is_cut_short(written):
    data = (written / "hibitset.json").read_bytes()
    for end in [0, 1, 50, len(data) - 3]:
        (written / "hibitset.json").write_bytes(data[:end])
        with pytest.raises(FolderError, match="hibitset.json is no manifest"):
            IdSet.from_folder(written)
    for data in [b"[]", b"null", b"\xff\xfe"]:
        (written / "hibitset.json").write_bytes(data)
        with pytest.raises(FolderError, match="hibitset.json is no manifest"):
            IdSet.from_folder(written)
    (written / "hibitset.json").unlink()
    with pytest.raises(FolderError, match="hibitset.json is missing"):
        IdSet.from_folder(written)


class Crash(BaseException):
    """The end of the process."""


@pytest.mark.parametrize("name", ["replace", "fsync", "open"])
def test_a_crash_leaves_the_old_set_or_the_new_one(written, monkeypatch, name):
    old, new, left = of(A), of(B), [0]
    call = getattr(os, name)

    def crashing(*arguments, **words):
        if left[0] == 0:
            raise Crash
        left[0] -= 1
        return call(*arguments, **words)

    seen = []
    for count in range(100):
        old.to_folder(written)
        left[0] = count
        with monkeypatch.context() as patch:
            patch.setattr(os, name, crashing)
            try:
                new.to_folder(written)
                crashed = False
            except Crash:
                crashed = True
        found = IdSet.from_folder(written)
        assert found in ([old, new] if crashed else [new])
        seen.append(found == new)
        if not crashed:
            break
    else:
        pytest.fail("it never ends")
    assert seen == sorted(seen) and seen.count(False) > (SHARDS if name != "open" else 0)


def test_a_process_that_is_killed(written):
    """It is killed at any time, in whatever step it is then."""
    program = (
        "import sys, numpy as np; from hibitset.ids import IdSet\n"
        "sets = [IdSet.from_numpy(np.arange(k, 7 << 12, 2), shards=7, bits=12) for k in (0, 1)]\n"
        "print('ready', flush=True)\n"
        "while True:\n    for each in sets: each.to_folder(sys.argv[1])"
    )
    sets = [of(A), *(of(np.arange(k, TOP, 2)) for k in (0, 1))]
    for wait in [0.0, 0.01, 0.033, 0.07, 0.1]:
        process = subprocess.Popen([sys.executable, "-c", program, str(written)], stdout=subprocess.PIPE)
        process.stdout.readline()
        with pytest.raises(subprocess.TimeoutExpired):
            process.wait(wait)
        process.kill()
        process.wait()
        process.stdout.close()
        assert IdSet.from_folder(written) in sets
