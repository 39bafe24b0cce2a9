"""Tables of mutants: what is read of them, what is made of them, and what is refused."""
import unittest
from pathlib import Path

from checks import mutants as checks
from mutants import edits, rounds, tables
from mutants.run_contract import chosen, refusal, write

from .fixture import InRepository

TABLE = "tests/mutants/contract/low/set.mutants"
PLAIN = "## Set::has\nhas_none\n    - self.word(id) == 1\n    + self.word(id) == 2\n"
TWIN = "## Set::has\nhas_all: twin, gate\n    self.has(id);\n    true\n"
OPERATOR = "## Set::bitand\nand_is_or: twin\n    for: Set\n    parts: result.1, result.0\n    -> Or<Self, T> { Or(self, rhs) }\n"

WALK = """\
pub struct Walk<T> {
    set: T,
}

impl<T: Sets> Walk<T> {
    pub fn first(&self) -> bool {
        true
    }
}

impl<T: Sets> Iterator for Walk<T> {
    ghost next_gives = { Steps T.holds };

    fn next(&mut self) -> Option<usize> {
        None
    }
}

impl Other {
    pub fn last(&self) -> bool {
        true
    }
}
"""

PART = """\
pub(crate) trait Change<T>: Drop {
    ghost leaves: { Self → ℕ → T → Type 0 };

    ghost holds: { Self → ℕ → Bool };

    ghost left: { Self → ℕ };

    fn change(&self, value: &mut T) -> bool
        requires { left self.now < 64 → Over holds (holds self.now) }
        ensures leaves { (x : T) → leaves self.now (0 + 1) value.new };
}

impl<K: Sets> Change<usize> for Part<'_, K> {
    ghost leaves = { λ s p. Stays s.0 p };

    ghost holds = { λ s i. K.holds s.0 i };

    ghost left = { count };

    fn change(&self, value: &mut usize) -> bool {
        false
    }
}
"""


def read(text):
    return tables.Reader(Path("t.mutants"), "src/set.rt").read(text)


class Tables(unittest.TestCase):
    def refuses(self, text, words):
        with self.assertRaises(tables.BadTable) as bad:
            read(text)
        self.assertIn(words, str(bad.exception))

    def test_lines_that_go_and_come(self):
        (mutant,) = read(PLAIN)
        self.assertEqual(mutant.pairs, [("src/set.rt", "self.word(id) == 1", "self.word(id) == 2")])
        self.assertEqual((mutant.name, mutant.function, mutant.is_twin), ("has_none", "Set::has", False))

    def test_a_line_that_goes_on(self):
        (mutant,) = read("## f\nm\n    - a\n    + b\n        c\n    file: src/other.rt\n    -   d\n    +\n")
        self.assertEqual(mutant.pairs, [("src/set.rt", "a", "b c"), ("src/other.rt", "  d", "")])

    def test_a_twin(self):
        (mutant,) = read(TWIN)
        self.assertEqual((mutant.body, mutant.is_twin, mutant.is_gate), (["self.has(id);", "true"], True, True))

    def test_refused_forms(self):
        self.refuses("m\n    - a\n    + b\n", "under no heading")
        self.refuses("## f\nm: double\n", "is no NAME")
        self.refuses("## f\nm\n    - a\n", "no line + behind it")
        self.refuses("## f\nm\n    + a\n", "no line - before it")
        self.refuses("## f\nm\n", "changes nothing")
        self.refuses("## f\nm: twin\n    - a\n    + b\n", "twin without a body")
        self.refuses("## f\nm\n    body()\n", "has a body and is none")
        self.refuses("## f\nm\n    - a\n    - b\n    + c\n", "no line + behind it")
        self.refuses("## f\nm\n    with: #[inline]\n    - a\n    + c\n", "has lines of a twin and is none")
        self.refuses("    - a\n", "stands below no mutant")


class Edits(InRepository):
    def pairs(self, text):
        repository = self.repository()
        crate = repository.crate("low")
        (mutant,) = read(text)
        return edits.pairs_of(mutant, crate, edits.traits_of([crate]))

    def test_a_twin_has_the_clauses_and_attributes_of_its_function(self):
        ((_, old, new),) = self.pairs(TWIN)
        clauses = "ensures found { IsTrue result } { self.has(id); true } #[tactic(auto)]"
        self.assertEqual(new, f"pub fn has_twin(&self, id: usize) -> bool {clauses} {old}")

    def test_a_twin_before_another_line(self):
        ((_, old, new),) = self.pairs(TWIN.replace("gate\n", "gate\n    before: impl<T: Sets> BitAnd<T> for Set {\n"))
        self.assertTrue(new.startswith("impl Set { pub fn has_twin"))
        self.assertTrue(new.endswith("{ self.has(id); true } } impl<T: Sets> BitAnd<T> for Set {"))

    def test_a_twin_before_a_part_of_a_line(self):
        with self.assertRaises(edits.BadMutant):
            self.pairs(TWIN.replace("gate\n", "gate\n    before: fn has(&self\n"))

    def test_an_operator(self):
        ((_, old, new),) = self.pairs(OPERATOR)
        self.assertIn("type Output = Or<Self, T>; ghost bitand_gives = { λ set other result. (result.1 ≡ set)", new)
        self.assertTrue(new.endswith("{ Or(self, rhs) } } impl<'a, T: Sets> BitAnd<T> for &'a mut Set {"))

    def test_a_twin_by_the_definition_that_a_fact_names(self):
        crate = self.repository({"crates/low/src/set.rt": WALK}).crate("low")
        for before, generics in (("pub fn first(&self) -> bool {", ""), ("pub fn last(&self) -> bool {", "<T: Sets>")):
            (mutant,) = read(f"## Walk::next\nwalk_ends: twin\n    before: {before}\n    None\n")
            ((_, _, new),) = edits.pairs_of(mutant, crate, {})
            clause = "ensures { Steps T.holds self.old result self.new } { None }"
            self.assertIn(f"fn next_twin{generics}(&mut self) -> Option<usize> {clause}", new)

    def test_a_twin_in_the_facts_and_types_of_an_impl(self):
        crate = self.repository({"crates/low/src/set.rt": PART}).crate("low")
        place = "impl<K: Sets> Change<usize> for Part<'_, K> {"
        (mutant,) = read(f"## Part::change\nall_stays: twin\n    before: {place}\n    true\n")
        ((_, old, new),) = edits.pairs_of(mutant, crate, edits.traits_of([crate]))
        clauses = "requires { count self.now < 64 → Over (λ s i. K.holds s.0 i) ((λ i. K.holds self.now.0 i)) } ensures leaves { (x : ℕ) → (Stays self.now.0 (0 + 1)) value.new }"
        head = "pub fn change_twin(&self, value: &mut usize) -> bool"
        self.assertEqual((old, new), (place, f"impl<K: Sets> Part<'_, K> {{ {head} {clauses} {{ true }} }} {place}"))

    def test_a_twin_of_no_function(self):
        with self.assertRaises(edits.BadMutant):
            self.pairs(TWIN.replace("Set::has", "Set::had"))


class Rounds(InRepository):
    def mutants(self, text):
        self.crate = self.repository().crate("low")
        return [(mutant, edits.pairs_of(mutant, self.crate, edits.traits_of([self.crate]))) for mutant in read(text)]

    def test_one_of_a_function_in_a_round(self):
        plain, other, twin = self.mutants(PLAIN + "has_two\n    - self.word(id) == 1\n    + self.word(id) < 1\n" + TWIN.replace("## Set::has\n", ""))
        one = rounds.Round(self.crate.folder)
        self.assertEqual([one.takes(*each) for each in (plain, other, twin)], [True, False, False])

    def test_a_text_that_another_mutant_made(self):
        one = rounds.Round(self.crate_folder())
        source = rounds.text_of(one.folder / "src/set.rt")
        first, second = [line.strip() for line in source.splitlines() if "fn " in line][:2]
        (mutant, _), (other, _) = self.mutants(PLAIN + PLAIN.replace("Set::has", "Set::word").replace("has_none", "word_none"))
        self.assertTrue(one.takes(mutant, [("src/set.rt", first, "// gone"), ("src/set.rt", second, first)]))
        self.assertFalse(one.takes(other, [("src/set.rt", first, "fn other()")]))

    def crate_folder(self):
        return self.repository().crate("low").folder

    def test_a_text_that_is_not_there(self):
        ((mutant, _),) = self.mutants(PLAIN)
        told = rounds.outcomes(self.crate.folder, [(mutant, [("src/set.rt", "not there", "there")])])
        self.assertEqual(list(told), [(mutant, None)])

    def test_what_other_functions_are_proved_by(self):
        (plain,), (twin,) = self.mutants(PLAIN), self.mutants(TWIN)
        clause = [("src/set.rt", "ensures found", "ensures")]
        self.assertTrue(rounds.is_apart(*plain, self.crate) and rounds.is_apart(*twin, self.crate))
        self.assertFalse(rounds.is_apart(plain[0], clause, self.crate))
        self.assertFalse(rounds.is_apart(plain[0], [("specs/Sets.antt", "a", "b")], self.crate))

    def test_what_refuses(self):
        ((plain, _),), ((twin, _),) = self.mutants(PLAIN), self.mutants(TWIN)
        searched = "no proof: expected answers in ./proofs/x; `search` did not prove `overflow_add-at`, `returns-clause-found`; it calls `low::f`, which is not proved"
        said = f"fn low::set::Set::has: {searched}\nfn low::set::Set::has_twin: not proved\n"
        self.assertEqual(rounds.refusal(plain, said), "a clause: returns-clause-found")
        self.assertIsNone(rounds.refusal(twin, said))
        answer = "./proofs/set/Set/has_twin/Answers.antt:1:2: error: `loop-preserved`: "
        self.assertEqual(rounds.refusal(twin, f"{said}{answer}`omega`: the goal does not follow from what it read\n"), "an invariant: loop-preserved")
        self.assertEqual(rounds.refusal(twin, f"{said}{answer}the two types differ\n"), rounds.SHAPE)
        self.assertEqual(rounds.kind(["add-requires-clause-fits"]), "a condition: add-requires-clause-fits")

    def test_a_type_whose_name_begins_with_that_of_another(self):
        ((twin, _),) = self.mutants(TWIN)
        self.assertEqual([rounds.is_of(f"low::set::{owner}::has_twin", twin) for owner in ("Set", "SetOf")], [True, False])

    def test_what_calls_what_is_refused(self):
        ((plain, _),) = self.mutants(PLAIN)
        self.assertIsNone(rounds.refusal(plain, "fn low::set::Set::has: no proof: it calls `low::f`, which is not proved\n"))


class Checks(InRepository):
    def faults(self, table, files=None):
        repository = self.repository({TABLE: table, **(files or {})})
        return self.said(checks.wrong_mutants(repository, checks.Mutants(repository)))

    def test_what_is_right(self):
        self.assertEqual(self.faults(PLAIN), "")

    def test_what_cannot_be_applied(self):
        self.assertIn("the old text stands 0 times", self.faults(PLAIN.replace("- self", "- this")))
        self.assertIn("changes no line of Set::word", self.faults(PLAIN.replace("Set::has", "Set::word")))
        self.assertIn("declares no Set::had", self.faults(PLAIN.replace("Set::has", "Set::had")))
        self.assertIn("there is no function Set::had", self.faults(TWIN.replace("Set::has", "Set::had")))
        self.assertIn("stands also in line", self.faults(PLAIN + PLAIN))

    def test_clauses_that_a_mutant_restates(self):
        text = "fn twin(&self) -> bool ensures found { IsTrue result } { true } fn word"
        said = self.faults(PLAIN.replace("- self.word(id) == 1", "- fn word").replace("+ self.word(id) == 2", f"+ {text}").replace("Set::has", "Set::word"))
        self.assertIn("has_none restates clauses", said)

    def test_edits_of_the_gate(self):
        self.assertIn("is not what its table makes", self.faults(TWIN))
        stray = {"crates/low/must-fail/stray.edit": "file: src/set.rt\n"}
        self.assertIn("is of no mutant", self.faults(PLAIN, stray))
        self.assertIn("beside the tables", self.faults(PLAIN, {"tests/mutants/contract/low/m.edit": ""}))

    def test_a_public_function_without_a_mutant(self):
        repository = self.repository({TABLE: PLAIN.replace("Set::has", "Set"), "crates/hibitset/src/lib.rt": "//! Has.\npub fn f()\n    ensures { true }\n{\n}\n"})
        self.assertIn("has no mutant, so write one: hibitset f", self.said(checks.wrong_untried(repository, checks.Mutants(repository))))

    def test_a_function_of_the_list_that_has_a_mutant(self):
        repository = self.repository({TABLE: PLAIN, "tests/mutants/without_mutant.txt": "# Words.\nlow has\n"})
        self.assertIn("take it off the list", self.said(checks.wrong_untried(repository, checks.Mutants(repository))))

    def test_patches(self):
        head = "crate: low\nfails: tests::lost\n"
        diff = "diff --git a/crates.txt b/crates.txt\n--- a/crates.txt\n+++ b/crates.txt\n@@ -1 +1 @@\n-high: std\n+low:\n"
        repository = self.repository({"tests/mutants/tests/p.patch": head + diff})
        said = self.said(checks.wrong_patches(repository))
        self.assertIn("cannot be applied", said)
        self.assertIn("low has no test tests::lost", said)


class Tries(InRepository):
    def test_which_are_tried(self):
        mutants = read(PLAIN + TWIN)
        self.assertEqual([mutant.name for mutant in chosen(mutants)], ["has_none"])
        self.assertEqual([mutant.name for mutant in chosen(mutants, "has")], ["has_none", "has_all"])
        self.assertEqual(chosen(mutants, "as"), [])

    def test_their_edits(self):
        repository = self.repository({"crates/low/must-fail/old.edit": "file: src/set.rt\n"})
        write(repository.top, "low", read(PLAIN))
        (edit,) = (repository.crates / "low" / "must-fail").iterdir()
        self.assertEqual(edit.read_text(encoding="utf-8"), "file: src/set.rt\nold: self.word(id) == 1\nnew: self.word(id) == 2\n")


class Refusals(unittest.TestCase):
    def test_what_refused(self):
        line = "rt: must-fail low/m.edit: refused, as it must be"
        for words, kind in (
            (": src/set.rt:8:5: error: it is not proved that what the function ensures holds when it returns", "a clause"),
            (": src/set.rt:8:5: error: it is not proved that what `get` requires holds at this call", "a condition"),
            (": src/set.rt:8:5: error: it is not proved that index 64 is below 5, the array's length", "a condition"),
            (": src/set.rt:8:5: error: it is not proved that the invariant of the loop holds", "an invariant"),
            (" (only because a proof file names what the edit took away)", "THE SHAPE of a proof file: write a twin"),
            (": ./proofs/set/Answers.antt:3:1: error: wrong", "THE SHAPE of a proof file: write a twin"),
            (": ./proofs/SetLemmas.antt:3:1: note: large", "READ THE LINE: a note stands before what refused"),
            (" (only by a limit of the prover, which gave no verdict)", "a limit of the prover"),
        ):
            self.assertEqual(refusal(line + words), kind)
        self.assertIsNone(refusal("rt: must-fail low/m.edit: NOT REFUSED: the crate is still proved"))
