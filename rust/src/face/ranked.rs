//! Counts of members beside a set that stands still.

use crate::derived::hibitset_base as base;
use crate::face::out_of_memory;
use crate::{AllocError, BitSetLike, Global, Index};
use core::fmt::{self, Debug, Formatter};

/// A set that stands still, with the number of members before each 4,096th index: for many calls of
/// [`rank`](Ranked::rank) and [`select`](Ranked::select). The crate `hibitset` 0.6.3 has no such type.
///
/// The counts take 4 bytes for each 4,096 indices up to the last member, which is 0.8 % of what a [`BitSet`](crate::BitSet)
/// takes. They are of the moment when they are made: over an [`AtomicBitSet`](crate::AtomicBitSet) to which threads add
/// meanwhile or later, answers are wrong. Take a copy first, by [`to_bit_set`](crate::BitSetLikeExt::to_bit_set).
///
/// ```
/// use hibitset::{BitSet, Ranked};
///
/// let set: BitSet = (0..100_000).map(|i| 3 * i).collect();
/// let ranked = Ranked::new(&set);
/// assert_eq!((ranked.rank(3_000), ranked.select(1_000)), (1_000, Some(3_000)));
/// ```
pub struct Ranked<T: BitSetLike>(base::Ranked<T>);

impl<T: BitSetLike> Ranked<T> {
    /// Counts the members of a set.
    pub fn new(set: T) -> Ranked<T> {
        Ranked::try_new(set).unwrap_or_else(|error| out_of_memory(error))
    }

    /// Counts the members of a set.
    ///
    /// # Errors
    ///
    /// [`AllocError`] if an allocation fails.
    pub fn try_new(set: T) -> Result<Ranked<T>, AllocError> {
        base::Ranked::new(Global, set).map(Ranked)
    }

    /// Returns the set.
    pub fn set(&self) -> &T {
        self.0.set()
    }

    /// Returns the number of members before `end`, as [`BitSetLike::rank`] does. It counts at most 64 words.
    #[inline]
    pub fn rank(&self, end: Index) -> usize {
        self.0.rank(end)
    }

    /// Returns the member at a position of the ascending list of all, as [`BitSetLike::select`] does, or `None` past its
    /// end. It finds the block by a binary search, and counts at most 64 words.
    #[inline]
    pub fn select(&self, at: usize) -> Option<Index> {
        self.0.select(at)
    }
}

impl<T: BitSetLike + Debug> Debug for Ranked<T> {
    fn fmt(&self, f: &mut Formatter<'_>) -> fmt::Result {
        f.debug_struct("Ranked")
            .field("set", self.set())
            .finish_non_exhaustive()
    }
}
