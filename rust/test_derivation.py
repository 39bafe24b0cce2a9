"""Tests of the rules, each on a few lines, and of check.py on the same lines."""

import re
import subprocess
import tempfile
import unittest
from collections import Counter
from pathlib import Path
from unittest.mock import patch

import callees
import check
import derive
from derivation.rules import RULES, Rules
from derivation.tokens import Unknown

CRATES = derive.LIBRARIES + derive.TESTS


def derived(text, name="hibitset/set.rt"):
    return Rules(name, text, CRATES).derived()[0]


class Erasing(unittest.TestCase):
    def test_clauses_and_the_body_behind_them(self):
        source = "pub fn f(a: u32) -> u32\n    requires { a < 5 }\n    ensures same { result ≡ a }\n{\n    a\n}\n"
        self.assertEqual(derived(source), "pub fn f(a: u32) -> u32 {\n    a\n}\n")

    def test_a_clause_with_a_star_before_a_semicolon(self):
        self.assertEqual(derived("fn f(&self)\n    ensures* { ⊤ }\n;\n"), "fn f(&self);\n")

    def test_comments_within(self):
        self.assertEqual(derived("fn f()\n    requires /* a */ { a }\n{}\n"), "fn f() {}\n")
        self.assertEqual(derived("fn f<R: A + /* a */ Drop>() {}\n"), "fn f<R: A>() {}\n")
        self.assertEqual(derived("fn f()\n{ g::<A + Drop>() }\n"), "fn f()\n{ g::<A>() }\n")

    def test_ghosts_with_the_comment_above(self):
        source = "ghost use A.{b, c};\n\nstruct S {\n    a: u8,\n    // Says why.\n    ghost fits: { a < 5 },\n}\n"
        self.assertEqual(derived(source), "struct S {\n    a: u8,\n}\n")
        self.assertEqual(derived(source.replace("// Says", "// Two lines.\n    // Say")), "struct S {\n    a: u8,\n}\n")
        self.assertEqual(derived("trait T {\n    pub ghost kept = { λ p. p } by { q };\n}\n"), "trait T {\n}\n")

    def test_attributes_of_proofs(self):
        self.assertEqual(derived("#![tactic(auto)]\n\n#[inline]\n#[cycle(x)]\nfn f() {}\n"), "#[inline]\nfn f() {}\n")

    def test_drops(self):
        self.assertEqual(derived("#[derive(Drop)]\nstruct S;\n"), "struct S;\n")
        self.assertEqual(derived("#[derive(Debug, Drop)]\nstruct S;\n"), "#[derive(Debug)]\nstruct S;\n")
        self.assertEqual(derived("#[derive(Drop, Debug)]\nstruct S;\n"), "#[derive(Debug)]\nstruct S;\n")
        self.assertEqual(derived("fn f<R: Send + Drop, S: Drop>() {}\n"), "fn f<R: Send, S>() {}\n")
        self.assertEqual(derived("fn f<R: Drop + Send>() {}\n"), "fn f<R: Send>() {}\n")
        where = "fn f<T>(a: T)\nwhere\n    T: Drop,\n    ensures { ⊤ }\n{\n    g\n}\n"
        self.assertEqual(derived(where), "fn f<T>(a: T) {\n    g\n}\n")
        impl = "impl Drop for S {\n    fn drop(self)\n        ensures { ⊤ }\n    {\n        let S { a: _, b } = self;\n        drop(b);\n    }\n}\n"
        self.assertEqual(derived("struct S;\n\n" + impl), "struct S;\n")

    def test_a_drop_that_does_something_is_refused(self):
        with self.assertRaisesRegex(Unknown, r"crates/hibitset/src/set.rt:1: an impl of Drop"):
            derived("impl Drop for S { fn drop(self) { let S { a } = self; a.free(); } }")

    def test_the_writer_of_fmt(self):
        source = "fn fmt<W: fmt::Write>(&self, f: &mut Formatter<W>) -> fmt::Result { Ok(()) }\n"
        self.assertEqual(derived(source), "fn fmt(&self, f: &mut Formatter) -> fmt::Result { Ok(()) }\n")

    def test_what_no_rule_knows(self):
        for source in ("let a = b ∧ c;", "ghost 5;", "prove!(a);", "fn fmt<W>(&self) {}", "fn f() where Drop {}", "fn f() where T: Drop, U: Send, {}"):
            with self.subTest(source), self.assertRaisesRegex(Unknown, r"crates/hibitset/src/set.rt:1: "):
                derived(source)

    def test_the_line_of_what_no_rule_knows(self):
        for source in ("\n\nlet a = b ∧ c;", "/* a\nb */ f();\nlet a = b ∧ c;"):
            with self.subTest(source), self.assertRaisesRegex(Unknown, rf"set.rt:{source.count(chr(10)) + 1}: "):
                derived(source)


class Naming(unittest.TestCase):
    def test_paths(self):
        source = "use crate::a::crate_of;\nuse hibitset_base::{iter, like};\nuse std::mem;\nuse super::rayon;\n"
        wanted = (
            "use crate::derived::hibitset::a::crate_of;\nuse crate::derived::hibitset_base::{iter, like};\n"
            "use crate::support::rattle_std::mem;\nuse super::rayon;\n"
        )
        self.assertEqual(derived(source), wanted)

    def test_links(self):
        source = "/// As [`iter`](crate::like::iter).\nfn a() {}\n"
        self.assertEqual(derived(source), source.replace("(crate::", "(crate::derived::hibitset::"))

    def test_names(self):
        source = "#[derive(Clone)]\nimpl Clone for S { fn clone(&self) { a.to_vec(g)?; b.collect(g); c.collect() } }\n"
        wanted = source.replace("impl Clone", "impl TryClone").replace("fn clone", "fn try_clone")
        self.assertEqual(derived(source), wanted.replace("to_vec", "try_to_vec").replace("collect(g)", "collect_in(g)"))

    def test_visibility(self):
        self.assertEqual(derived("pub fn new() {}\n", "hibitset_base/iter.rt"), "pub(crate) fn of_parts() {}\n")
        self.assertEqual(derived("pub fn new() {}\n", "hibitset_base/like.rt"), "pub fn new() {}\n")
        self.assertEqual(derived("fn main() {}\n", "hibitset_run/main.rt"), "pub(crate) fn main() {}\n")
        self.assertEqual(derived("fn main() {}\n"), "fn main() {}\n")

    def test_members(self):
        source = "impl<T: S> Iterator for BitIter<T> {\n    fn next() {}\n}\n"
        wanted = "impl<T: S> Iterator for BitIter<T> {\n    fn next() {}\n\n    crate::beside::iterator_members! { BitIter }\n}\n"
        self.assertEqual(derived(source, "hibitset_base/iter.rt"), wanted)
        for source in (source.replace("BitIter", "Other"), source.replace(" Iterator", " IntoIterator")):
            self.assertEqual(derived(source, "hibitset_base/iter.rt"), source)

    def test_a_condition(self):
        source = "fn f(layer: usize) {\n    match layer {}\n}\n"
        wanted = "fn f(layer: usize) {\n    crate::beside::check_layer(layer);\n    match layer {}\n}\n"
        self.assertEqual(derived(source, "hibitset_base/like.rt"), wanted)
        self.assertEqual(derived(source, "hibitset_base/iter.rt"), source)

    def test_the_runtime(self):
        source = "#[test]\nfn t(rt: HostRuntime) -> R {\n    f(rt)\n}\n"
        wanted = "#[test]\nfn t() -> R {\n    let rt = crate::support::rattle_std::rt::host();\n    f(rt)\n}\n"
        self.assertEqual(derived(source), wanted)


class Contracts(unittest.TestCase):
    def test_a_documented_function(self):
        source = "/// Adds.\n#[inline]\npub fn f(a: [u8; 4])\n    ensures one { x\n        ≡ y }\n{\n}\n"
        wanted = (
            "/// Adds.\n///\n/// # Contract\n///\n/// ```text\n/// ensures one { x\n///     ≡ y }\n/// ```\n"
            "#[inline]\npub fn f(a: [u8; 4]) {\n}\n"
        )
        self.assertEqual(derived(source), wanted)

    def test_a_documented_function_that_returns_an_array(self):
        source = "/// Adds.\npub fn f() -> [u8; 4]\n    ensures { a }\n{\n}\n"
        self.assertEqual(derived(source), source.replace("\n    ensures { a }\n{", " {").replace("Adds.", "Adds.\n///\n/// # Contract\n///\n/// ```text\n/// ensures { a }\n/// ```"))

    def test_a_documented_function_of_the_crate(self):
        source = "/// Adds.\npub(crate) const fn f()\n    ensures { a }\n{\n}\n"
        wanted = "/// Adds.\n///\n/// # Contract\n///\n/// ```text\n/// ensures { a }\n/// ```\npub(crate) const fn f() {\n}\n"
        self.assertEqual(derived(source), wanted)

    def test_no_documentation_and_the_clauses_of_a_closure(self):
        self.assertEqual(derived("// Says.\nfn f()\n    ensures { a }\n{}\n"), "// Says.\nfn f() {}\n")
        source = "/// Says.\nfn f() {\n    g(|| -> u8\n        ensures { b }\n    { 5 })\n}\n"
        self.assertNotIn("Contract", derived(source))


class Checking(unittest.TestCase):
    SOURCE = "//! A file.\n\n/// Adds.\npub fn f(a: u8) -> bool\n    ensures { a ≡ b }\n{\n    // Says.\n    a & &b\n}\n"

    def compare(self, change=lambda text: text, text=SOURCE):
        with tempfile.TemporaryDirectory() as folder:
            source, made = Path(folder, "set.rt"), Path(folder, "set.rs")
            source.write_text(text, encoding="utf-8")
            text = derive.with_head("hibitset/src/set.rt", derived(text))
            made.write_text(change(text), encoding="utf-8")
            return check.compare("hibitset/set", source, made)

    def test_what_is_derived_passes(self):
        self.assertEqual(self.compare()["contract"], 1)
        self.compare(text="fn f() {\n    a.collect();\n    b.collect(c);\n    collect(c);\n}\n")
        self.assertEqual(self.compare(text="use crate::a;\nuse std::mem;\n")["path"], 2)

    def test_what_is_refused(self):
        changes = [("& &b", "&& b"), ("// Says.", "// Said."), ("≡ b", "≡ a"), ("Derived from", "Made of"), ("a: u8", "a: u16")]
        changes += [("/// # Contract", "/// # Promise"), ("pub fn", "#[inline]\npub fn"), ("use crate", "use super")]
        for old, new in changes:
            with self.subTest(old), self.assertRaises(check.Difference):
                self.compare(lambda text: text.replace(old, new, 1))


    def test_a_drop_that_does_something_is_refused(self):
        words = "impl Drop for S { fn drop ( self ) { let S { a } = self ; a . free ( ) ; } }".split()
        with self.assertRaisesRegex(check.Difference, "an impl of Drop that does more"):
            check.drop(words, 0)

    def test_a_derived_file_without_a_source_is_refused(self):
        with tempfile.TemporaryDirectory() as folder:
            crates, made = Path(folder, "crates"), Path(folder, "derived")
            derive.write(crates, {"a/src/lib.rt": "", "a/src/b.rt": ""})
            root = "//! The derived crates, each a module: made by rust/derive.py.\n\npub mod a;\n"
            derive.write(made, {"mod.rs": root, "a/mod.rs": "", "a/b.rs": ""})
            self.assertEqual([name for name, _, _ in check.pairs(crates, ["a"], made)], ["a/b", "a/lib"])
            (made / "a" / "c.rs").write_text("")
            with self.assertRaisesRegex(check.Difference, "comes from no source"):
                list(check.pairs(crates, ["a"], made))

    def test_a_difference_fails(self):
        with patch.object(check, "compare", side_effect=check.Difference("a word")), patch("sys.argv", ["check.py"]), self.assertRaises(SystemExit) as end:
            check.main()
        self.assertEqual(end.exception.code, "check.py: a word")


class Files(unittest.TestCase):
    def test_no_other_file_is_left(self):
        with tempfile.TemporaryDirectory() as folder:
            made = Path(folder, "derived")
            derive.write(made, {"mod.rs": "", "a/old.rs": ""})
            derive.write(made, {"mod.rs": "", "a/b.rs": "x"})
            self.assertEqual(sorted(path.name for path in made.rglob("*.rs")), ["b.rs", "mod.rs"])

    def test_what_is_stale(self):
        with tempfile.TemporaryDirectory() as folder:
            derive.write(Path(folder, "derived"), {"same.rs": "x", "other.rs": "x", "stray.rs": "x"})
            found = derive.stale(Path(folder, "derived"), {"same.rs": "x", "other.rs": "y", "missing.rs": "x"})
            self.assertEqual(list(found), ["missing.rs", "other.rs", "stray.rs"])

    def test_a_stale_file_fails(self):
        for stale, status in ([], 0), (["a.rs"], 1):
            with patch.object(derive, "stale", return_value=stale), patch.object(derive, "derived", return_value=({}, Counter())):
                with patch("sys.argv", ["derive.py"]), patch("builtins.print"), self.assertRaises(SystemExit) as end:
                    derive.main()
            self.assertEqual(end.exception.code, status)

    def test_what_rules_do_is_counted(self):
        _, counts = Rules("hibitset/set.rt", "use crate::a;\nuse std::mem;\nghost use B.{c};\n", CRATES).derived()
        self.assertEqual(counts, {"path": 2, "ghost use": 1})


class Callees(unittest.TestCase):
    def test_another_callee_fails(self):
        first = "# What derived code calls of Rust's library, as rustc 5 resolves it. rust/callees.py --write makes it anew."
        version = subprocess.CompletedProcess([], 0, "rustc 5\n")
        for listed, status in ("core::a", False), ("core::b", True):
            with tempfile.TemporaryDirectory() as folder, patch.object(callees, "LIST", Path(folder, "list")):
                callees.LIST.write_text(f"{first}\n{listed}\n", encoding="utf-8")
                with patch.object(callees.subprocess, "run", return_value=version), patch.object(callees, "mir", return_value=""):
                    with patch.object(callees, "callees", return_value=["core::a"]), patch("sys.argv", ["callees.py"]), patch("builtins.print"):
                        with self.assertRaises(SystemExit) as end:
                            callees.main()
            self.assertEqual(end.exception.code, status)


class Page(unittest.TestCase):
    def test_the_table_has_each_rule(self):
        page = (derive.RUST / "DERIVATION.md").read_text(encoding="utf-8")
        self.assertEqual(re.findall(r"^\| \*\*(.+?)\*\* \|", page, re.M), list(RULES))

    def test_both_know_the_same_crates(self):
        self.assertEqual((list(derive.LIBRARIES), list(derive.TESTS)), (check.LIBRARIES, check.TESTS))


if __name__ == "__main__":
    unittest.main()
