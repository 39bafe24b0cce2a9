// Derived from crates/hibitset_base/src/drain.rt by rust/derive.py, and never edited by hand.

//! Walks that take out of their set what they give.

use crate::support::rattle_std::prelude::*;

use crate::derived::hibitset_base::cursor::Cursor;
use crate::derived::hibitset_base::iter::{cursor_of, next_index, root_cursor};
use crate::derived::hibitset_base::like::DrainableBitSet;
use crate::derived::hibitset_base::read_count::Reads;
use crate::derived::hibitset_base::util::{Index, LAYERS, MAX_EID};

/// A walk over the members of a set, in ascending order, that takes each one out of the set as it gives it:
/// `DrainBitIter` of the original. Dropped early, it leaves all members that were not given.
pub struct DrainBitIter<'a, T> {
    pub(crate) set: &'a mut T,
    pub(crate) cursor: Cursor<LAYERS>,
    pub(crate) reads: Reads,
}

impl<'a, T> DrainBitIter<'a, T> {
    /// A drain of `set` that goes on from the given state. `masks` has the bits that are left of each layer, from the
    /// lowest up. `prefix` has the position of each mask's first bit in its layer, for the layers below the top.
    ///
    /// - The prefix of a nonzero mask is a multiple of 64 within the layer.
    /// - What is left in a layer lies in the range of one word of each layer above that has something left: the word
    ///   whose first bit is at that layer's prefix. There it lies before what is left of that word.
    ///
    /// # Contract
    ///
    /// ```text
    /// requires { IsWellFormed LAYERS masks prefix }
    /// ensures lender { lender result ≡ set.entry.ghost_name }
    /// ensures set { drained_set result ≡ set.old }
    /// ensures items { (holds : T → ℕ → Bool)
    ///     → items_to_drain holds result ≡ items_of (holds set.old) (places_left 0 masks prefix) }
    /// ```
    #[inline]
    pub(crate) fn of_parts(set: &'a mut T, masks: [usize; LAYERS], prefix: [u32; LAYERS - 1]) -> Self {
        DrainBitIter {
            set,
            cursor: cursor_of(masks, prefix),
            reads: Reads::none(),
        }
    }
}

impl<'a, T: DrainableBitSet> DrainBitIter<'a, T> {
    // Starts at the top of the set.
    #[inline]
    pub(crate) fn from_top(set: &'a mut T) -> Self {
        let mut reads = Reads::none();
        let cursor = root_cursor(&*set, &mut reads);
        DrainBitIter { set, cursor, reads }
    }
}

impl<'a, T: DrainableBitSet> Iterator for DrainBitIter<'a, T> {
    type Item = Index;

    #[inline]
    fn next(&mut self) -> Option<Index> {
        let index = next_index(&*self.set, &mut self.cursor, &mut self.reads)?;
        self.set.remove(index);
        Some(index)
    }

    crate::beside::iterator_members! { DrainBitIter }
}

// Takes an index out of a set, unless it is to stay.
#[inline]
fn keep_or_remove<T: DrainableBitSet, F: Fn(Index) -> bool>(set: &mut T, index: Index, keep: &F) {
    if keep(index) {
        return;
    }
    set.remove(index);
}

// Takes out each member that is not to stay, in ascending order.
#[inline]
pub(crate) fn retain_members<T: DrainableBitSet, F: Fn(Index) -> bool>(set: &mut T, keep: &F) {
    let mut reads = Reads::none();
    let mut cursor = root_cursor(&*set, &mut reads);
    'items: while let Some(index) = next_index(&*set, &mut cursor, &mut reads) {
        keep_or_remove(set, index, keep);
    }
}
