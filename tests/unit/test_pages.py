"""The checks of pages, each with a page that it must refuse."""
from checks import clauses, counts, heads, module_tables, pages, quotes

from .fixture import InRepository

README = "crates/low/README.md"
RIGHT = """# low

[a heading](#low), [crates](../../crates.txt), crates/low/src/set.rt, `src/set.rt`

<!-- modules -->
| in `src/` | what it is |
|---|---|
| `set` | A set |
<!-- /modules -->

| promise | clause |
|---|---|
| It has. | `Set::has`: `found` |

```rust
// crates/low/src/set.rt
fn word(&self, id: usize) -> usize {
    id
}
```

```text
fn Set::has(..)
    ensures found { IsTrue result }
```

## What is only tested

| promise | test |
|---|---|
| It is. | `low`: `tests::is` |
"""
TESTS = "//! Tests.\n#[test]\nfn is() {\n}\n"


class Pages(InRepository):
    def found(self, check, old="", new="", more=None):
        files = {README: RIGHT.replace(old, new) if old else RIGHT, "crates/low/src/tests.rt": TESTS, **(more or {})}
        repository = self.repository(files)
        return self.said(check(repository, repository.crates / "low" / "README.md"))

    def refuses(self, check, old, new, words):
        """A check takes the right page, and refuses the one that has new words in the place of old ones."""
        self.assertEqual(self.found(check), "")
        self.assertIn(words, self.found(check, old, new))

    def test_links(self):
        self.refuses(pages.dead_links, "crates.txt)", "lost.txt)", "links to ../../lost.txt")
        self.refuses(pages.dead_links, "(#low)", "(#high)", "no heading has the anchor #high")

    def test_paths_and_files(self):
        self.refuses(pages.dead_paths, "crates/low/src/set.rt,", "crates/low/src/lost.rt,", "names crates/low/src/lost.rt")
        self.refuses(pages.dead_files, "`src/set.rt`\n", "`src/lost.rt`\n", "names src/lost.rt")

    def test_tests(self):
        self.refuses(pages.untested, "`tests::is`", "`tests::was`", "there is no tests::was in low")
        self.refuses(pages.untested, "`tests::is`", "`tests` (`was`)", "there is no was in low")

    def test_quotes(self):
        self.refuses(quotes.misquoted, "    id\n", "    it\n", "does not stand so in crates/low/src/set.rt")
        self.refuses(quotes.misquoted, "// crates/low/src/set.rt", "// crates/low/src/lost.rt", "quotes crates/low/src/lost.rt")
        self.refuses(quotes.misquoted_clauses, "IsTrue", "IsFalse", "Set::has has no such clause")
        self.refuses(quotes.misquoted_clauses, "fn Set::has", "fn Set::had", "no function Set::had")
        self.refuses(quotes.misquoted_clauses, "fn Set::has(..)", "fn Set::has(&self) -> bool", "Set::has has no such signature")
        self.assertEqual(self.found(quotes.misquoted_clauses, "fn Set::has(..)", "fn Set::has(&self, id: usize) -> bool"), "")

    def test_clauses(self):
        self.refuses(clauses.wrong_cells, "`found` |", "`lost` |", "Set::has has no clause lost")
        self.refuses(clauses.wrong_cells, "`Set::has`: `found` |", "`Set::had` |", "no function, type, record or definition Set::had")
        self.refuses(clauses.wrong_cells, "`Set::has`: `found` |", "has |", "is not of the form")
        self.assertIn("nothing has a clause lost", self.found(clauses.wrong_cells, "| promise | clause |\n|---|---|\n| It has. |", "| clause | promise |\n|---|---|\n| `lost` |"))

    def test_common_clauses(self):
        source = "//! Sets.\npub fn hibitset_f()\n    ensures same { true }\n    ensures err { true }\n{\n}\n"
        page = "| clause | says |\n|---|---|\n| `same` | It stays. |\n\n| promise | clause |\n|---|---|\n| It does. | `f`: `err` |\n"

        def said(check, old="", new=""):
            repository = self.repository({"crates.txt": "hibitset_c: std\n", "crates/hibitset_c/src/lib.rt": source, "crates/hibitset_c/README.md": page.replace(old, new)})
            return self.said(check(repository, repository.crates / "hibitset_c" / "README.md"))

        for check in (clauses.wrong_cells, clauses.unsaid_clauses):
            self.assertEqual(said(check), "")
            self.assertEqual(said(check, "`f`", "`hibitset_f`"), "")
        self.assertIn("neither a row of hibitset_f nor the table of common clauses names err", said(clauses.unsaid_clauses, "`f`: `err`", "`f`"))
        self.assertIn("names same", said(clauses.unsaid_clauses, "`same`", "`err`"))
        self.assertIn("no public function has the common clause lost", said(clauses.unsaid_clauses, "`same`", "`same`, `lost`"))
        self.assertIn("hibitset_f has no clause lost", said(clauses.wrong_cells, "`f`: `err`", "`f`: `err`, `lost`"))
        self.assertIn("no function, type, record or definition g", said(clauses.wrong_cells, "`f`", "`g`"))

    def test_functions_that_no_row_names(self):
        source = "//! Sets.\npub fn f()\n    ensures { true }\n{\n}\n"
        repository = self.repository({"crates/hibitset/src/lib.rt": source, "crates/hibitset/README.md": "# hibitset\n"})
        self.assertIn("names f", self.said(clauses.unnamed_functions(repository)))
        named = "| promise | clause |\n|---|---|\n| It is true. | `f` |\n"
        files = {"crates/hibitset/src/lib.rt": source, "crates/hibitset/README.md": "# hibitset\n", "crates/hibitset/INTERNALS.md": named}
        self.assertEqual(self.said(clauses.unnamed_functions(self.repository(files))), "")
        hidden = {**files, "crates/hibitset/src/lib.rt": source.replace("pub fn", "#[doc(hidden)]\npub fn"), "crates/hibitset/INTERNALS.md": "# none\n"}
        self.assertEqual(self.said(clauses.unnamed_functions(self.repository(hidden))), "")
        within = {"crates/hibitset/src/lib.rt": "//! Sets.\n#[doc(hidden)]\npub mod bits;\n", "crates/hibitset/src/bits.rt": source, "crates/hibitset/README.md": "# none\n"}
        self.assertEqual(self.said(clauses.unnamed_functions(self.repository(within))), "")

    def test_main_phrases(self):
        kept = ("A set.", "Scripts: commands on eight sets.", "Calls that take indices, ends or positions.", "Walks over a set, in descending order.")
        self.assertEqual([module_tables.main_phrase(each) for each in kept], [each.removesuffix(".") for each in kept])
        for cut in ("A set of many indices: of what it is made, and how.", "A set of many indices, as words in three layers."):
            self.assertEqual(module_tables.main_phrase(cut), "A set of many indices")

    def test_tables_of_modules(self):
        self.refuses(module_tables.wrong_modules, "| A set |", "| Sets |", "the table of modules lacks")
        repository = self.repository({README: RIGHT.replace("| A set |", "| Sets |")})
        with self.silence():
            module_tables.write_modules(repository)
        self.assertIn("| A set |", (repository.top / README).read_text(encoding="utf-8"))
        apart = self.repository({README: "# low\n", "crates/low/INTERNALS.md": RIGHT.replace("| A set |", "| Sets |")})
        said = [self.said(module_tables.wrong_modules(apart, apart.crates / "low" / name)) for name in ("README.md", "INTERNALS.md")]
        self.assertEqual(said[0], "")
        self.assertIn("the table of modules lacks", said[1])


class Repositories(InRepository):
    def test_heads(self):
        files = {"crates/low/src/set.rt": "pub struct Set;\n", "crates/low/specs/Sets.antt": "pub x : Bool\n", "bench/RESULTS.md": "# Some day\n"}
        repository = self.repository(files)
        said = self.said(heads.headless(repository))
        self.assertIn("does not begin with //!", said)
        self.assertIn("does not begin with --", said)
        self.assertIn("does not say which commit", self.said(heads.wrong_results(repository)))

    def test_numbers(self):
        for said, value in (("1,398", 1398), ("64", 64), ("twelve", 12), ("Twenty-one", 21), ("thirty", 30), ("some", None)):
            self.assertEqual(counts.number(said), value)

    def test_numbers_of_sources(self):
        cost = "const A: CostModel = CostModel {\n    worth: 1_000,\n};\nconst B: CostModel = CostModel {\n    worth: 20,\n};\n"
        repository = self.repository({"crates/hibitset_base/src/parallel/cost.rt": cost})
        self.assertEqual([counts.worth(name)(repository) for name in "AB"], [1000, 20])

    def test_counts(self):
        repository = self.repository({"README.md": "low has two modules\n"})
        one = ((r"low has (\S+) modules", "modules", lambda _: 1),)
        self.assertIn("says two where there are 1 modules", self.said(counts.wrong_counts(repository, one)))
        lists = {"README.md": "Three modules are about rows: `rows`, `lost`.", "crates/uses/src/rows.rt": "//! Rows.\n"}
        said = self.said(counts.wrong_lists(self.repository(lists)))
        self.assertIn("names lost, which is no module of uses", said)
        self.assertIn("says Three modules where it names 2", said)
        self.assertIn("no page says", self.said(counts.wrong_counts(repository, ((r"high has (\S+)", "modules", len),))))
