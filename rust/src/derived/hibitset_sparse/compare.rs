// Derived from crates/hibitset_sparse/src/compare.rt by rust/derive.py, and never edited by hand.

//! Comparisons with other sets.

use crate::support::rattle_std::prelude::*;

use crate::derived::hibitset_sparse::set::SparseBitSet;
use crate::derived::hibitset_base::like::BitSetLike;
use crate::derived::hibitset_base::util::MAX_EID;

impl SparseBitSet {
    /// Returns whether each member of the other set, of any type, is one of this set. It does not allocate.
    ///
    /// It looks at the words of the other set, and at those of this one in the same places of layer 0, down to the first
    /// member that this one lacks.
    ///
    /// # Contract
    ///
    /// ```text
    /// ensures { IsTrue result ↔ ((i : ℕ) → i < MAX_EID → B.holds other.now i ≡ true
    ///     → has self.now i ≡ true) }
    /// ```
    pub fn contains_set<B: BitSetLike>(&self, other: &B) -> bool {
        other.is_subset(self)
    }
}

/// Sets are equal if they have the same members. It does not allocate.
impl PartialEq for SparseBitSet {
    fn eq(&self, other: &SparseBitSet) -> bool {
        self.is_subset(other) && other.is_subset(self)
    }
}

impl Eq for SparseBitSet {
}
