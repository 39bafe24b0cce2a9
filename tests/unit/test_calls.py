"""calls.py: what it lists, and what it tells of a call."""
import calls

from .fixture import InRepository

SOURCE = """//! Sets.

pub struct Set;

impl Set {
    /// Adds an index.
    #[inline]
    pub fn add(
        &mut self,
        id: u32,
    ) -> bool
        ensures { true }
    {
        true
    }

    fn own(&self) {}
}

impl Clone for Set {
    fn clone(&self) -> Set {
        Set
    }
}

pub fn largest() -> u32 {
    5
}
"""


class Calls(InRepository):
    def setUp(self):
        self.made = self.repository({"crates.txt": "hibitset: std\n", "crates/hibitset/src/lib.rt": SOURCE})

    def test_the_list(self):
        file = "(crates/hibitset/src/lib.rt)"
        self.assertEqual(list(calls.listed(self.made, ["hibitset"])), [f"Set {file}", "  add(&mut self, id: u32) -> bool", f"hibitset {file}", "  largest() -> u32"])

    def test_a_call_with_its_contract(self):
        where, text = calls.told(self.made, ["hibitset"], "add")
        self.assertEqual(where, "Set::add (crates/hibitset/src/lib.rt:8)\n")
        self.assertEqual(text, "/// Adds an index.\n#[inline]\npub fn add(\n    &mut self,\n    id: u32,\n) -> bool\n    ensures { true }\n")
        self.assertEqual(list(calls.told(self.made, ["hibitset"], "own")), [])
