// Derived from crates/hibitset_sparse/src/build.rt by rust/derive.py, and never edited by hand.

//! Sparse sets made of the items of an iterator or of a slice, or extended by them.

use crate::support::rattle_std::prelude::*;

use crate::derived::hibitset_sparse::set::SparseBitSet;
pub use crate::derived::hibitset_base::build::BuildError;
use crate::derived::hibitset_base::build::{self, FallibleInsert};
use crate::derived::hibitset_base::util::{Index, MAX_EID};
use crate::support::rattle_std::alloc::{AllocError, Global};

impl FallibleInsert for SparseBitSet {
    const RANGE: usize = MAX_EID;

    #[inline]
    fn add_index(&mut self, index: Index) -> Result<bool, AllocError> {
        self.add(index)
    }
}

impl SparseBitSet {
    /// Adds the items of an iterator, each of which is to be below `MAX_EID`.
    ///
    /// # Errors
    ///
    /// An item is out of range, or an allocation fails. The set then has its old members and the items before that one,
    /// and no later item is taken from the iterator. An allocation can fail only for an item with no member among the
    /// 64 indices that share its word.
    ///
    /// # Contract
    ///
    /// ```text
    /// requires { IsFiniteIterable U.into_iter_gives U.IntoIter.can_next U.IntoIter.remaining
    ///     iter }
    /// ensures all { OnOk result (TakesAll U.into_iter_gives U.IntoIter.next_gives (λ i. i) iter
    ///     (has self.old) (has self.new)) }
    /// ensures stops { IfErr result (StopsAtRefused U.into_iter_gives U.IntoIter.next_gives
    ///     (λ i. i) iter (has self.old) (has self.new) (word_of self.new)) }
    /// ```
    pub fn extend_indices<U: IntoIterator<Item = Index>>(
        &mut self,
        iter: U,
    ) -> Result<(), BuildError> {
        build::extend_indices(self, iter)
    }

    /// Adds the items that an iterator gives by reference, as `extend_indices` does.
    ///
    /// # Contract
    ///
    /// ```text
    /// requires { IsFiniteIterable U.into_iter_gives U.IntoIter.can_next U.IntoIter.remaining
    ///     iter }
    /// ensures all { OnOk result (TakesAll U.into_iter_gives U.IntoIter.next_gives (λ i. i.now)
    ///     iter (has self.old) (has self.new)) }
    /// ensures stops { IfErr result (StopsAtRefused U.into_iter_gives U.IntoIter.next_gives
    ///     (λ i. i.now) iter (has self.old) (has self.new) (word_of self.new)) }
    /// ```
    pub fn extend_index_refs<'a, U: IntoIterator<Item = &'a Index>>(
        &mut self,
        iter: U,
    ) -> Result<(), BuildError> {
        build::extend_index_refs(self, iter)
    }

    /// A set of the items of an iterator, each of which is to be below `MAX_EID`.
    ///
    /// # Errors
    ///
    /// An item is out of range, or an allocation fails; no later item is taken. An allocation can fail only for an item
    /// with none before it among the 64 indices that share its word.
    ///
    /// # Contract
    ///
    /// ```text
    /// requires { IsFiniteIterable U.into_iter_gives U.IntoIter.can_next U.IntoIter.remaining
    ///     iter }
    /// ensures all { IfOk result (λ set. TakesAll U.into_iter_gives U.IntoIter.next_gives (λ i. i)
    ///     iter (λ _. false) (has set)) }
    /// ensures stops { IfErr result (Refuses U.into_iter_gives U.IntoIter.next_gives (λ i. i)
    ///     iter) }
    /// ```
    pub fn from_indices<U: IntoIterator<Item = Index>>(
        alloc: Global,
        iter: U,
    ) -> Result<SparseBitSet, BuildError> {
        build::from_indices(SparseBitSet::new(alloc), iter)
    }

    /// A set of the items that an iterator gives by reference, as `from_indices` makes it.
    ///
    /// # Contract
    ///
    /// ```text
    /// requires { IsFiniteIterable U.into_iter_gives U.IntoIter.can_next U.IntoIter.remaining
    ///     iter }
    /// ensures all { IfOk result (λ set. TakesAll U.into_iter_gives U.IntoIter.next_gives
    ///     (λ i. i.now) iter (λ _. false) (has set)) }
    /// ensures stops { IfErr result (Refuses U.into_iter_gives U.IntoIter.next_gives (λ i. i.now)
    ///     iter) }
    /// ```
    pub fn from_index_refs<'a, U: IntoIterator<Item = &'a Index>>(
        alloc: Global,
        iter: U,
    ) -> Result<SparseBitSet, BuildError> {
        build::from_index_refs(SparseBitSet::new(alloc), iter)
    }

    /// Adds the indices of a slice, each of which is to be below `MAX_EID`.
    ///
    /// # Errors
    ///
    /// An index is out of range, or an allocation fails. The set then has its old members and the indices before that
    /// one, whose place the error has. An allocation can fail only for an index with no member among the 64 indices
    /// that share its word.
    ///
    /// # Contract
    ///
    /// ```text
    /// ensures added { OnOk result (AddsList (has self.old) (has self.new) indices.now) }
    /// ensures in_range { OnOk result (InRangeBefore MAX_EID indices.now (length indices.now)) }
    /// ensures added_before { IfErr result (λ error. AddsList (has self.old) (has self.new)
    ///     (take (place_of error) indices.now)) }
    /// ensures error_place { IfErr result (λ error. place_of error < length indices.now) }
    /// ensures in_range_before { IfErr result (λ error. InRangeBefore MAX_EID indices.now
    ///     (place_of error)) }
    /// ensures reason { IfErr result (IsRefusalIn MAX_EID indices.now) }
    /// ensures lacks_room { IfErr result (LacksRoom (λ i. word_of self.new 0 (i / 64) ≡ 0)
    ///     indices.now) }
    /// ```
    pub fn extend_from_slice(&mut self, indices: &[Index]) -> Result<(), BuildError> {
        build::extend_from_slice(self, indices)
    }

    /// A set of the indices of a slice, each of which is to be below `MAX_EID`.
    ///
    /// # Errors
    ///
    /// An index is out of range, or an allocation fails; the error has its place. An allocation can fail only for an
    /// index with none before it among the 64 indices that share its word.
    ///
    /// # Contract
    ///
    /// ```text
    /// ensures members { IfOk result (λ set. (i : ℕ)
    ///     → (has set i ≡ true) ↔ Contains indices.now i) }
    /// ensures in_range { IfOk result (λ _. InRangeBefore MAX_EID indices.now
    ///     (length indices.now)) }
    /// ensures error_place { IfErr result (λ error. place_of error < length indices.now) }
    /// ensures in_range_before { IfErr result (λ error. InRangeBefore MAX_EID indices.now
    ///     (place_of error)) }
    /// ensures reason { IfErr result (IsRefusalIn MAX_EID indices.now) }
    /// ensures apart { IfErr result (LiesApartIn (λ i j. i / 64 ≢ j / 64) indices.now) }
    /// ```
    pub fn from_slice(alloc: Global, indices: &[Index]) -> Result<SparseBitSet, BuildError> {
        build::from_slice(SparseBitSet::new(alloc), indices)
    }
}
