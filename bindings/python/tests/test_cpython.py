"""CPython's own tests of sets, over BitSet and SparseBitSet, where Debian's testsuite of the standard library is installed.

The tests run as they are, with one of the two in the place of set, and with the numbers of letters in the place of letters.
Those of DIFFERENT are about what the two do otherwise.
"""
import ast
import importlib.util
import sys
import types
import unittest

import pytest

from hibitset import BitSet, SparseBitSet

SOURCE = importlib.util.find_spec("test.test_set") if importlib.util.find_spec("test") else None
if SOURCE is None or not SOURCE.origin:
    pytest.skip("CPython's test_set.py is not here", allow_module_level=True)

# Those of its classes that have sets of integers, those of them that have letters, and tests that are left out, by reason.
CLASSES = (
    "TestSet TestSetSubclass TestBasicOpsEmpty TestBasicOpsSingleton TestExceptionPropagation TestBinaryOps TestUpdateOps TestMutate "
    "TestSubsetEqualEmpty TestSubsetEqualNonEmpty TestSubsetEmptyNonEmpty TestSubsetPartial TestSubsetNonOverlap TestOnlySetsNumeric "
    "TestOnlySetsDict TestOnlySetsOperator TestOnlySetsTuple TestOnlySetsString TestOnlySetsGenerator TestCopyingEmpty TestIdentities"
).split()
OF_LETTERS = {"TestJointOps", "TestSet", "TestSetSubclass", "TestMutate", "TestIdentities", "TestOnlySetsString"}
DIFFERENT = {
    "members are objects that are no integers": [
        "test_setOfFrozensets", "test_deepcopy", "test_gc", "test_badcmp", "test_cyclical_repr", "test_container_iterator", "test_subclass_with_custom_hash",
        "test_instancesWithoutException",
    ],
    "a set is looked up, as a frozenset is": ["test_contains", "test_remove", "test_discard", "test_remove_keyerror_set"],
    "a set is shown as {3}": ["test_repr"],
}  # fmt: skip


class Letters(ast.NodeTransformer):
    """A letter that stands for an item becomes its number, and another string bytes, whose items are numbers."""

    ITEMS = {"add", "remove", "discard", "assertIn", "assertNotIn"}

    @staticmethod
    def numbers(nodes):
        return [ast.Constant(ord(node.value)) if isinstance(node, ast.Constant) and isinstance(node.value, str) and len(node.value) == 1 else node for node in nodes]

    def visit_Call(self, node):
        if isinstance(node.func, ast.Name) and node.func.id == "hasattr":
            return node
        if isinstance(node.func, ast.Attribute) and node.func.attr in self.ITEMS:
            node.args = self.numbers(node.args)
        return self.generic_visit(node)

    def visit_FunctionDef(self, node):
        node.body = [self.visit(each) for each in node.body]
        return node

    def visit_List(self, node):
        node.elts = self.numbers(node.elts)
        return self.generic_visit(node)

    def visit_Tuple(self, node):
        if any(isinstance(each, ast.Name) and each.id == "frozenset" for each in node.elts):  # Types, each of which makes an iterable of letters.
            node.elts = [ast.Name("bytes", each.ctx) if isinstance(each, ast.Name) and each.id == "str" else each for each in node.elts]
        numbers = self.numbers(node.elts)
        node.elts = numbers if not any(isinstance(each, ast.Constant) and isinstance(each.value, str) for each in numbers) else node.elts
        return self.generic_visit(node)

    def visit_Expr(self, node):
        return node if isinstance(node.value, ast.Constant) else self.generic_visit(node)

    def visit_BinOp(self, node):
        return node if isinstance(node.op, ast.Mod) else self.generic_visit(node)

    def visit_Constant(self, node):
        return ast.Constant(node.value.encode()) if isinstance(node.value, str) else node


def module_over(kind):
    """The module of CPython's tests, over another type than set."""
    with open(SOURCE.origin, encoding="utf-8") as file:
        tree = ast.parse(file.read())
    tree.body = [Letters().visit(node) if getattr(node, "name", "") in OF_LETTERS else node for node in tree.body]
    module = types.ModuleType(f"cpython_test_set_over_{kind.__name__}")
    sys.modules[module.__name__] = module  # Pickles name it.
    module.__dict__.update(set=kind)
    exec(compile(ast.fix_missing_locations(tree), SOURCE.origin, "exec"), module.__dict__)
    return module


for _kind in [BitSet, SparseBitSet]:
    _module = module_over(_kind)
    for _name in CLASSES:
        _class = getattr(_module, _name)
        for _reason, _tests in DIFFERENT.items():
            for _test in _tests:
                if hasattr(_class, _test):
                    setattr(_class, _test, unittest.skip(_reason)(lambda self: None))
        globals()[_name + _kind.__name__] = _class
