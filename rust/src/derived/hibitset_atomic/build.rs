// Derived from crates/hibitset_atomic/src/build.rt by rust/derive.py, and never edited by hand.

//! Atomic sets made of the items of an iterator or of a slice, or extended by them.

use crate::support::rattle_std::prelude::*;

use crate::derived::hibitset_atomic::atomic::{ATOMIC_MAX_EID, AtomicBitSet};
use crate::derived::hibitset_base::build::{self, BuildError, FallibleInsert};
use crate::derived::hibitset_base::util::Index;
use crate::support::rattle_std::alloc::{AllocError, Global};

impl FallibleInsert for AtomicBitSet {
    const RANGE: usize = ATOMIC_MAX_EID;

    #[inline]
    fn add_index(&mut self, index: Index) -> Result<bool, AllocError> {
        self.add(index)
    }
}

impl AtomicBitSet {
    /// Adds the items of an iterator, each of which is to be below `ATOMIC_MAX_EID`: `Extend` of the original.
    ///
    /// # Errors
    ///
    /// An item is out of range, or an allocation fails. The set then has its old members and the items before that one,
    /// and no later item is taken from the iterator. An allocation can fail only for an item whose block of 4,096
    /// indices is not made, and no block is made but those of members.
    ///
    /// # Contract
    ///
    /// ```text
    /// requires { IsFiniteIterable U.into_iter_gives U.IntoIter.can_next U.IntoIter.remaining
    ///     iter }
    /// ensures all { OnOk result (TakesAll U.into_iter_gives U.IntoIter.next_gives (λ i. i) iter
    ///     (has self.old) (has self.new)) }
    /// ensures stops { IfErr result (StopsAtRefused U.into_iter_gives U.IntoIter.next_gives
    ///     (λ i. i) iter (has self.old) (has self.new) (NeedsAllocation self.new)) }
    /// ensures frees_none { (i : ℕ) → NeedsAllocation self.new i → NeedsAllocation self.old i }
    /// ensures makes_no_more { (i : ℕ) → NeedsAllocation self.old i → SharesBlockWithNone self.new i
    ///     → NeedsAllocation self.new i }
    /// ```
    pub fn extend_indices<U: IntoIterator<Item = Index>>(
        &mut self,
        iter: U,
    ) -> Result<(), BuildError> {
        build::extend_indices(self, iter)
    }

    /// Adds the items that an iterator gives by reference, as `extend_indices` does.
    ///
    /// # Contract
    ///
    /// ```text
    /// requires { IsFiniteIterable U.into_iter_gives U.IntoIter.can_next U.IntoIter.remaining
    ///     iter }
    /// ensures all { OnOk result (TakesAll U.into_iter_gives U.IntoIter.next_gives (λ i. i.now)
    ///     iter (has self.old) (has self.new)) }
    /// ensures stops { IfErr result (StopsAtRefused U.into_iter_gives U.IntoIter.next_gives
    ///     (λ i. i.now) iter (has self.old) (has self.new) (NeedsAllocation self.new)) }
    /// ensures frees_none { (i : ℕ) → NeedsAllocation self.new i → NeedsAllocation self.old i }
    /// ensures makes_no_more { (i : ℕ) → NeedsAllocation self.old i → SharesBlockWithNone self.new i
    ///     → NeedsAllocation self.new i }
    /// ```
    pub fn extend_index_refs<'a, U: IntoIterator<Item = &'a Index>>(
        &mut self,
        iter: U,
    ) -> Result<(), BuildError> {
        build::extend_index_refs(self, iter)
    }

    /// A set of the items of an iterator, each of which is to be below `ATOMIC_MAX_EID`: `FromIterator` of the
    /// original.
    ///
    /// # Errors
    ///
    /// An item is out of range, or an allocation fails; no later item is taken. An allocation can fail only for an item
    /// with none before it in the same 4,096 indices. If that of the empty set itself fails, the error is `Memory` at
    /// place 0, whatever the items are, and none is taken.
    ///
    /// # Contract
    ///
    /// ```text
    /// requires { IsFiniteIterable U.into_iter_gives U.IntoIter.can_next U.IntoIter.remaining
    ///     iter }
    /// ensures all { IfOk result (λ set. TakesAll U.into_iter_gives U.IntoIter.next_gives (λ i. i)
    ///     iter (λ _. false) (has set)) }
    /// ensures makes_no_more { IfOk result (λ set. (i : ℕ) → SharesBlockWithNone set i
    ///     → NeedsAllocation set i) }
    /// ensures stops { IfErr result (λ error. (error ≡ Memory 0)
    ///     ⊎ Refuses U.into_iter_gives U.IntoIter.next_gives (λ i. i) iter error) }
    /// ```
    pub fn from_indices<U: IntoIterator<Item = Index>>(
        alloc: Global,
        iter: U,
    ) -> Result<AtomicBitSet, BuildError> {
        match AtomicBitSet::new(alloc) {
            Ok(set) => build::from_indices(set, iter),
            Err(_) => {
                drop(iter.into_iter());
                Err(BuildError::Memory { place: 0 })
            }
        }
    }

    /// A set of the items that an iterator gives by reference, as `from_indices` makes it.
    ///
    /// # Contract
    ///
    /// ```text
    /// requires { IsFiniteIterable U.into_iter_gives U.IntoIter.can_next U.IntoIter.remaining
    ///     iter }
    /// ensures all { IfOk result (λ set. TakesAll U.into_iter_gives U.IntoIter.next_gives
    ///     (λ i. i.now) iter (λ _. false) (has set)) }
    /// ensures makes_no_more { IfOk result (λ set. (i : ℕ) → SharesBlockWithNone set i
    ///     → NeedsAllocation set i) }
    /// ensures stops { IfErr result (λ error. (error ≡ Memory 0)
    ///     ⊎ Refuses U.into_iter_gives U.IntoIter.next_gives (λ i. i.now) iter error) }
    /// ```
    pub fn from_index_refs<'a, U: IntoIterator<Item = &'a Index>>(
        alloc: Global,
        iter: U,
    ) -> Result<AtomicBitSet, BuildError> {
        match AtomicBitSet::new(alloc) {
            Ok(set) => build::from_index_refs(set, iter),
            Err(_) => {
                drop(iter.into_iter());
                Err(BuildError::Memory { place: 0 })
            }
        }
    }

    /// Adds the indices of a slice, each of which is to be below `ATOMIC_MAX_EID`.
    ///
    /// # Errors
    ///
    /// An index is out of range, or an allocation fails. The set then has its old members and the indices before that
    /// one, whose place the error has. An allocation can fail only for an index whose block of 4,096 indices is not
    /// made, and no block is made but those of members.
    ///
    /// # Contract
    ///
    /// ```text
    /// ensures added { OnOk result (AddsList (has self.old) (has self.new) indices.now) }
    /// ensures in_range { OnOk result (InRangeBefore ATOMIC_MAX_EID indices.now
    ///     (length indices.now)) }
    /// ensures added_before { IfErr result (λ error. AddsList (has self.old) (has self.new)
    ///     (take (place_of error) indices.now)) }
    /// ensures error_place { IfErr result (λ error. place_of error < length indices.now) }
    /// ensures in_range_before { IfErr result (λ error. InRangeBefore ATOMIC_MAX_EID indices.now
    ///     (place_of error)) }
    /// ensures reason { IfErr result (IsRefusalIn ATOMIC_MAX_EID indices.now) }
    /// ensures lacks_room { IfErr result (LacksRoom (NeedsAllocation self.new) indices.now) }
    /// ensures frees_none { (i : ℕ) → NeedsAllocation self.new i → NeedsAllocation self.old i }
    /// ensures makes_no_more { (i : ℕ) → NeedsAllocation self.old i → SharesBlockWithNone self.new i
    ///     → NeedsAllocation self.new i }
    /// ```
    pub fn extend_from_slice(&mut self, indices: &[Index]) -> Result<(), BuildError> {
        build::extend_from_slice(self, indices)
    }

    /// A set of the indices of a slice, each of which is to be below `ATOMIC_MAX_EID`.
    ///
    /// # Errors
    ///
    /// An index is out of range, or an allocation fails; the error has its place. An allocation can fail only for an
    /// index with none before it in the same 4,096 indices. If that of the empty set itself fails, the error is
    /// `Memory` at place 0, whatever the indices are.
    ///
    /// # Contract
    ///
    /// ```text
    /// ensures members { IfOk result (λ set. (i : ℕ)
    ///     → (has set i ≡ true) ↔ Contains indices.now i) }
    /// ensures in_range { IfOk result (λ _. InRangeBefore ATOMIC_MAX_EID indices.now
    ///     (length indices.now)) }
    /// ensures makes_no_more { IfOk result (λ set. (i : ℕ) → SharesBlockWithNone set i
    ///     → NeedsAllocation set i) }
    /// ensures error_place { IfErr result (λ error. (error ≡ Memory 0)
    ///     ⊎ (place_of error < length indices.now)) }
    /// ensures in_range_before { IfErr result (λ error. InRangeBefore ATOMIC_MAX_EID indices.now
    ///     (place_of error)) }
    /// ensures reason { IfErr result (λ error. (error ≡ Memory 0)
    ///     ⊎ IsRefusalIn ATOMIC_MAX_EID indices.now error) }
    /// ensures apart { IfErr result (LiesApartIn (λ i j. i / 4096 ≢ j / 4096) indices.now) }
    /// ```
    pub fn from_slice(alloc: Global, indices: &[Index]) -> Result<AtomicBitSet, BuildError> {
        let Ok(set) = AtomicBitSet::new(alloc) else {
            return Err(BuildError::Memory { place: 0 });
        };
        build::from_slice(set, indices)
    }
}
