"""The package: its examples, its types, its page, and what it uses of the library."""
import ast
import doctest
import importlib
import inspect
import re
from pathlib import Path

import pytest

import hibitset
from hibitset import BitSet, SparseBitSet, _core

HERE = Path(__file__).resolve().parent.parent

# The functions of the header that the package has no use for, and why.
LEFT_OUT = {
    r"hibitset_(atomic|seat)_\w+": "threads of Python take turns",
    r"hibitset_(sparse_)?select_many": "no method asks for a list of positions",
    r"hibitset_(sparse_)?clear": "clear frees the memory, as that of set does",
    r"hibitset_(sparse_)?iterate": "hibitset_next_many in its place",
    r"hibitset_not_next_many|hibitset_(and|or|xor|andnot)_next_many": "a set of two is made instead",
    r"hibitset_(sparse_)?roaring_read": "hibitset_roaring_read_below in its place",
    r"hibitset_fault_text": "Fault has names",
}


@pytest.mark.parametrize("name", "hibitset hibitset._core hibitset._algebra hibitset._indexset hibitset._bitset hibitset._sparse hibitset.ids".split())
def test_examples(name):
    pytest.importorskip("numpy")
    found = doctest.testmod(importlib.import_module(name))
    assert not found.failed and found.attempted > 1


def test_examples_of_the_page():
    pytest.importorskip("numpy")
    page = re.sub(r"^```\w*$", "", (HERE / "README.md").read_text(encoding="utf-8"), flags=re.M)
    found = doctest.DocTestRunner().run(doctest.DocTestParser().get_doctest(page, {}, "README.md", "README.md", 0))
    assert not found.failed and found.attempted > 5


def test_each_public_name_says_what_it_is(kind):
    names = [name for name in dir(kind) if not name.startswith("_") or name in {"__getitem__", "__init__", "__array__", "__reversed__"}]
    assert len(names) > 45
    for name in names:
        text = inspect.getdoc(getattr(kind, name))
        assert text and text.endswith((".", ")", "]", "}", "True", "2", "1", "5", "7", "28", "70000")), name
        assert inspect.signature(getattr(kind, name)) is not None


def test_the_stub():
    """_core.pyi has the names of the module's types of sets, and the parameters of those that have a text."""
    tree = ast.parse((Path(_core.__file__).parent / "_core.pyi").read_text())
    for type_ in [_core.Core, _core.DenseCore, _core.SparseCore]:
        stubs = next({each.name: each for each in node.body} for node in tree.body if isinstance(node, ast.ClassDef) and node.name == type_.__name__)
        own = {name for name, value in vars(type_).items() if callable(value) and name not in ("__new__", "__doc__", "__class_getitem__")}
        assert set(stubs) == own
        for name, stub in stubs.items():
            text = vars(type_)[name].__text_signature__
            if text and not name.startswith("__"):
                assert [each.arg for each in stub.args.posonlyargs or stub.args.args][1:] == re.findall(r"\w+", text)[1:], name


def test_what_one_kind_has_alone():
    """What the page says of it."""
    names = [{name for name in dir(kind) if not name.startswith("_")} for kind in (BitSet, SparseBitSet)]
    bits = {"words", "to_mask", "to_packed", "from_mask", "from_packed", "from_words"}
    assert names[0] - names[1] == bits | {"with_capacity", "reserve", "capacity", "first_gap", "fingerprint"} and names[1] - names[0] == {"shrink"}


def test_what_is_used_of_the_library(header):
    """Each function of the header is called, or left out for a reason."""
    code = re.sub(r"/\*.*?\*/", "", header, flags=re.S)
    declared = set(re.findall(r"\b(hibitset_\w+)\([^;{]*\)\s*[;{]", code)) - set(re.findall(r"\bhibitset_internal_\w+", code))
    used = set(re.findall(r"\bhibitset_\w+", "".join(path.read_text() for path in (HERE / "src" / "core").glob("*.[ch]"))))
    left = {name for name in declared if any(re.fullmatch(pattern, name) for pattern in LEFT_OUT)}
    assert not declared - used - left, "functions that are neither called nor in LEFT_OUT"
    assert not left & used and len(declared) > 120


def test_versions():
    assert f'version = "{hibitset.__version__}"' in (HERE / "pyproject.toml").read_text()
    assert hibitset.LIBRARY_VERSION and hibitset.MAX_INDEX == (1 << 30) - 1


def test_files_are_short():
    for path in [*(HERE / "src").rglob("*.[ch]"), *(HERE / "src").rglob("*.py")]:
        assert len(path.read_text().splitlines()) <= 400, path.name
