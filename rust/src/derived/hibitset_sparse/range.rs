// Derived from crates/hibitset_sparse/src/range.rt by rust/derive.py, and never edited by hand.

//! Ranges of indices, added, taken out and flipped by whole words.

use crate::support::rattle_std::prelude::*;

use crate::derived::hibitset_sparse::set::SparseBitSet;
use crate::derived::hibitset_base::range::BitSetRange;
use crate::derived::hibitset_base::util::{Index, MAX_EID};
use crate::support::rattle_std::alloc::AllocError;

impl SparseBitSet {
    /// Adds the indices from `start` up to, but without, `end`, which is at most `MAX_EID`. If `end` is not above
    /// `start`, nothing changes.
    ///
    /// # Errors
    ///
    /// An allocation fails: the members stay. A range of n indices takes n / 7 bytes at most.
    ///
    /// # Contract
    ///
    /// ```text
    /// requires { end ≤ MAX_EID }
    /// ensures added { OnOk result ((i : ℕ)
    ///     → has self.new i ≡ (has self.old i || in_range start end i)) }
    /// ensures err { OnErr result ((i : ℕ) → has self.new i ≡ has self.old i) }
    /// ensures succeeds_empty { end ≤ start → IsOk result }
    /// ```
    pub fn add_range(&mut self, start: Index, end: Index) -> Result<(), AllocError> {
        if start >= end {
            return Ok(());
        }
        self.bitor_assign(&BitSetRange { start, end })
    }

    /// Takes out the indices from `start` up to, but without, `end`, for any two numbers. It does not allocate.
    ///
    /// # Contract
    ///
    /// ```text
    /// ensures { (i : ℕ) → has self.new i ≡ (has self.old i && not (in_range start end i)) }
    /// ```
    pub fn remove_range(&mut self, start: Index, end: Index) {
        self.subtract_assign(&BitSetRange { start, end });
    }

    /// Flips the indices from `start` up to, but without, `end`, which is at most `MAX_EID`: members are taken out, and
    /// the others are added.
    ///
    /// # Errors
    ///
    /// An allocation fails: the members stay.
    ///
    /// # Contract
    ///
    /// ```text
    /// requires { end ≤ MAX_EID }
    /// ensures flipped { OnOk result ((i : ℕ)
    ///     → has self.new i ≡ differ (has self.old i) (in_range start end i)) }
    /// ensures err { OnErr result ((i : ℕ) → has self.new i ≡ has self.old i) }
    /// ensures succeeds_empty { end ≤ start → IsOk result }
    /// ```
    pub fn flip_range(&mut self, start: Index, end: Index) -> Result<(), AllocError> {
        if start >= end {
            return Ok(());
        }
        self.bitxor_assign(&BitSetRange { start, end })
    }
}
