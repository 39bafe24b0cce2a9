"""Small repositories for the unit tests."""
import contextlib
import io
import tempfile
import unittest
from pathlib import Path

from checks.repository import Repository

SET = """//! A set.
pub struct Set;

impl Set {
    // Whether it has an index.
    #[inline]
    #[tactic(auto)]
    pub fn has(&self, id: usize) -> bool
        ensures found { IsTrue result }
    {
        self.word(id) == 1
    }

    fn word(&self, id: usize) -> usize {
        id
    }
}

impl<T: Sets> BitAnd<T> for Set {
    type Output = And<Self, T>;

    ghost bitand_gives = { λ set other result. (result.0 ≡ set) × (result.1 ≡ other) };

    #[inline]
    fn bitand(self, rhs: T) -> And<Self, T> {
        And(self, rhs)
    }
}
"""
FILES = {
    "crates.txt": "low: std\n",
    "crates/low/src/lib.rt": "//! Sets.\npub mod set;\n",
    "crates/low/src/set.rt": SET,
}


class InRepository(unittest.TestCase):
    """A test in a repository of its own, in a folder that goes with it."""

    def repository(self, files=None):
        folder = tempfile.TemporaryDirectory()
        self.addCleanup(folder.cleanup)
        for name, text in {**FILES, **(files or {})}.items():
            path = Path(folder.name) / name
            path.parent.mkdir(parents=True, exist_ok=True)
            path.write_text(text, encoding="utf-8")
        return Repository(folder.name)

    def silence(self):
        """A place for what is printed, which no test looks at."""
        return contextlib.redirect_stdout(io.StringIO())

    def said(self, faults):
        """The words of all faults, in one text."""
        return "\n".join(str(fault[-1]) for fault in faults)
