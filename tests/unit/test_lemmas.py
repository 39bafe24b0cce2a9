"""Lemmas that stand in two files."""
from checks import known, lemmas

from .fixture import InRepository

FIRST = "-- One.\npub low : (a b : ℕ) → a ≤ b →\n  a < suc b\nlow a b h = h\n"
SECOND = "-- Two.\nbelow : (x y : ℕ) → x ≤ y → x < suc y\nbelow x y h = h\n\nother : (x : ℕ) → x ≤ x\n"
FILES = {"crates/low/proofs/One.antt": FIRST, "crates/low/specs/Two.antt": SECOND}


class Lemmas(InRepository):
    def found(self, listed):
        repository = self.repository({**FILES, "known.txt": listed})
        return self.said(lemmas.repeated(repository, repository.top / "known.txt"))

    def test_a_statement_in_two_files(self):
        said = self.found("")
        self.assertIn("stands also in another file: crates/low/proofs/One.antt low, as crates/low/specs/Two.antt below", said)
        self.assertNotIn("Two.antt other", said)

    def test_known_ones(self):
        both = "# Known.\ncrates/low/proofs/One.antt low\ncrates/low/specs/Two.antt below\n"
        self.assertEqual(self.found(both), "")
        self.assertIn("take it off the list: crates/low/specs/Two.antt other", self.found(both + "crates/low/specs/Two.antt other\n"))

    def test_other_statements(self):
        self.assertNotEqual(lemmas.without_names("(a b : ℕ) → a ≤ b"), lemmas.without_names("(a b : ℕ) → b ≤ a"))

    def test_a_list_shrinks(self):
        path = self.repository({"known.txt": "# Known.\na\nb\n"}).top / "known.txt"
        self.assertTrue(known.shrink(path, {"b", "c"}))
        self.assertEqual(path.read_text(encoding="utf-8"), "# Known.\nb\n")
        self.assertFalse(known.shrink(path, {"b", "c"}))
