"""Mutants of code that no prover sees: the scan for functions, the tables, and what becomes of a mutant."""
import contextlib
import io
import tempfile
import unittest
from pathlib import Path

from mutants import run_unseen, unseen
from mutants.functions import functions_of
from mutants.pieces import NotBuilt, Piece
from mutants.tables import BadTable

RUST = """\
/// fn in_a_comment() {}
impl<T: Fn(u8) -> [u8; 2]> Iterator for Walk<'_, T> {
    fn next(&mut self) -> Option<[u8; 4]> { "}"; '{'; None }
}
impl Walk<'_, ()> {
    fn next(&self) {}
}
trait Ends { fn ends(&self); fn begins(&self) -> bool { true } }
fn alone(list: [u8; 3]) where u8: Copy {}
"""
C = "static int a(int (*call)(int), char b) {\n    if (b == '}') { return 1; }\n    return 0;\n}\n\nint declared(void);\nint b = 5;\nbool c(void) { return true; }\n"
CPP = """\
class set {
public:
    set() noexcept : at_(f(0)), of::base(1) {}
    set(const set &) = delete;
    set &operator=(set &&other) noexcept { return *this; }
    bool add(int a) { if (a) { return b(a); } return true; }
    bool operator()(int a) const { return a; }
};
"""
PYTHON = "class A:\n    def b(self):\n        def c():\n            pass\n\ndef d():\n    pass\n"
TABLE = "# Head.\nfile: code/a.c\n\n## a\nwrong_sign: one\n    - return 0;\n    + return 1;\n"


def names(file, text):
    return [each.name for each in functions_of(Path(file), text)]


class Functions(unittest.TestCase):
    def test_each_language(self):
        self.assertEqual(names("a.rs", RUST), ["Walk::next", "Walk::next 2", "Ends::begins", "alone"])
        self.assertEqual(names("a.c", C), ["a", "c"])
        self.assertEqual(names("a.hpp", CPP), ["set::set", "set::operator=", "set::add", "set::operator()"])
        self.assertEqual(names("a.py", PYTHON), ["A.b", "d"])

    def test_where_they_lie(self):
        first, last = functions_of(Path("a.c"), C)
        self.assertTrue(C[first.start : first.end].startswith("static int a(") and C[first.start : first.end].endswith("return 0;\n}"))
        self.assertEqual(C[last.start : last.end], "bool c(void) { return true; }")


class OnePiece(Piece):
    """A piece whose tests read a file: `one` fails without `return 0;`, and `none` never."""

    def fails(self, room, test, changed):
        text = (room / "code" / "a.c").read_text()
        if "unknown" in text:
            raise NotBuilt("error: unknown")
        return test == "one" and "return 0;" not in text


class InFolder(unittest.TestCase):
    def setUp(self):
        room = tempfile.TemporaryDirectory()
        self.addCleanup(room.cleanup)
        self.top = Path(room.name)
        self.path, self.source = self.top / "one.mutants", self.top / "code" / "a.c"
        self.source.parent.mkdir()
        self.source.write_text(C, encoding="utf-8")

    def table(self, text):
        self.path.write_text(text, encoding="utf-8")
        return unseen.Table(self.path)

    def faults(self, text):
        return [words for _, _, words in unseen.faults(self.table(text), self.top, [self.source])]

    def test_a_mutant_is_applied_in_its_function(self):
        [mutant] = self.table(TABLE).mutants
        self.assertEqual((mutant.name, mutant.file, mutant.function, mutant.test, mutant.is_gate), ("wrong_sign", "code/a.c", "a", "one", False))
        self.assertEqual(mutant.applied(C), C.replace("return 0;", "return 1;"))

    def test_lines_and_pairs(self):
        text = TABLE.replace("one", "one two, gate") + "    - char b\n    - ) {\n    +\n"
        [mutant] = self.table(text).mutants
        self.assertEqual((mutant.test, mutant.is_gate, mutant.pairs), ("one two", True, [("return 0;", "return 1;"), ("char b\n) {", "")]))

    def test_a_function_without_a_mutant(self):
        self.assertEqual(self.faults(TABLE), ["c has no mutant in one.mutants"])
        self.assertEqual(self.faults(TABLE + "## c\nnone: it takes nothing\n"), [])

    def test_what_does_not_stand_once(self):
        self.assertIn("wrong_sign: a has 2 times: return", self.faults(TABLE.replace("- return 0;", "- return")))
        self.assertIn("wrong_sign: a has 0 times: return true;", self.faults(TABLE.replace("- return 0;", "- return true;")))
        self.assertIn("wrong_sign: code/a.c has no function e", self.faults(TABLE.replace("## a", "## e")))
        self.assertIn("code/b.c is no file of this piece", self.faults(TABLE.replace("a.c", "b.c")))
        self.assertIn("e of code/a.c is excused, and not there", self.faults(TABLE + "## e\nnone: so\n"))

    def test_tables_without_the_form(self):
        for text in ("wrong_sign\n", TABLE + "a b c\n", TABLE + "    = x\n", TABLE + "empty: one\n", TABLE + TABLE[8:], "    - x\n", TABLE + "late: one\n    + x\n"):
            with self.subTest(text), self.assertRaises(BadTable):
                self.table(text)

    def attempt(self, *changes):
        piece = OnePiece("one", [], ["code/*.c"])
        piece.prepare = lambda room: [(room / "code").mkdir(), (room / "code" / "a.c").write_text(C)]
        text = TABLE
        for old, new in changes:
            text = text.replace(old, new)
        said = io.StringIO()
        with contextlib.redirect_stdout(said):
            passed = run_unseen.attempt(piece, self.table(text).mutants, 2)
        return passed, said.getvalue()

    def test_what_becomes_of_a_mutant(self):
        cases = [
            (True, "1 killed, 0 survived, 0 not built", []),
            (False, "0 killed, 1 survived, 0 not built", [("one", "none")]),
            (False, "0 killed, 0 survived, 1 not built", [("+ return 1;", "+ unknown;")]),
        ]
        for passed, words, changes in cases:
            with self.subTest(words):
                found = self.attempt(*changes)
                self.assertEqual(found[0], passed)
                self.assertIn(words, found[1])

    def test_a_test_that_fails_alone_kills_nothing(self):
        self.source.write_text(C.replace("return 0;", "return 2;"))
        piece = OnePiece("one", [], ["code/*.c"])
        piece.prepare = lambda room: [(room / "code").mkdir(), (room / "code" / "a.c").write_text(C.replace("return 0;", "return 2;"))]
        said = io.StringIO()
        with contextlib.redirect_stdout(said):
            self.assertFalse(run_unseen.attempt(piece, self.table(TABLE.replace("return 0;", "return 2;")).mutants, 1))
        self.assertIn("the test one fails without a mutant", said.getvalue())
