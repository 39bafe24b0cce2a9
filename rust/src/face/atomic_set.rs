//! The set that threads add to by `&`.

use crate::derived::hibitset_atomic as proved;
use crate::face::row::Row;
use crate::face::{index_out_of_range, out_of_memory};
use crate::{AllocError, BitSetLike, DrainableBitSet, Index, Seat, ATOMIC_MAX_EID};
use alloc::vec::Vec;
use core::fmt::{self, Debug, Formatter};

/// A set of indices below [`ATOMIC_MAX_EID`] that threads add to at once, by `&`.
///
/// The first addition makes the words, 2.1 MB, of which the system gives what is touched; a set that stays empty has
/// none. Without the feature `std` [`new`](AtomicBitSet::new) makes them.
///
/// [`add_atomic`](AtomicBitSet::add_atomic), [`contains`](AtomicBitSet::contains) and the words that an iteration reads
/// are derived from a proved source, in which each thread has a seat. That seats can be left out is an argument, and no
/// proof: `SHARED_BY_REFERENCE.md` has it. [`remove`](AtomicBitSet::remove) and [`clear`](AtomicBitSet::clear) are
/// written by hand. [`share`](AtomicBitSet::share) hands seats out.
///
/// # Examples
///
/// ```
/// use hibitset::{AtomicBitSet, BitSet, BitSetLike};
/// use std::thread;
///
/// let set = AtomicBitSet::new();
/// let fresh: usize = thread::scope(|scope| {
///     let adders: Vec<_> = (0..4)
///         .map(|first| scope.spawn({
///             let set = &set;
///             move || (first..1000).step_by(2).filter(|&index| !set.add_atomic(index)).count()
///         }))
///         .collect();
///     adders.into_iter().map(|adder| adder.join().unwrap()).sum()
/// });
/// assert_eq!((fresh, set.len()), (1000, 1000)); // each index was new to one of the threads
/// ```
///
/// # Iteration while threads add
///
/// An iteration ascends and gives each index whose addition happened before it, and none that was not added. What is
/// added meanwhile may be given or not. Counts and lists of one call may be of different moments:
/// `SHARED_BY_REFERENCE.md` says which calls are covered.
pub struct AtomicBitSet(pub(crate) Row);

impl AtomicBitSet {
    /// Returns the empty set, which has no words yet.
    ///
    /// ```
    /// # #[cfg(feature = "std")]
    /// static SEEN: hibitset::AtomicBitSet = hibitset::AtomicBitSet::new();
    /// # #[cfg(feature = "std")]
    /// assert!(!SEEN.add_atomic(7) && SEEN.contains(7));
    /// ```
    #[cfg(feature = "std")]
    #[must_use]
    pub const fn new() -> AtomicBitSet {
        AtomicBitSet(Row::new())
    }

    /// Returns the empty set, and makes its words.
    #[cfg(not(feature = "std"))]
    #[must_use]
    pub fn new() -> AtomicBitSet {
        AtomicBitSet(Row::new())
    }

    /// Returns the empty set, and makes its words, so that no later call needs memory or waits for another thread.
    ///
    /// # Errors
    ///
    /// [`AllocError`] if an allocation fails.
    pub fn try_new() -> Result<AtomicBitSet, AllocError> {
        Row::try_made().map(AtomicBitSet)
    }

    /// Adds an index, while other threads add too. Returns whether it was in the set before: of all calls for an index
    /// that was not, one alone returns false.
    ///
    /// It makes at most seven loads and four exchanges. The first addition to a set also makes the words; until they are
    /// there, another thread's first addition may wait for that.
    ///
    /// # Panics
    ///
    /// If `id` is not below [`ATOMIC_MAX_EID`].
    #[inline]
    pub fn add_atomic(&self, id: Index) -> bool {
        if id as usize >= ATOMIC_MAX_EID {
            index_out_of_range(id, ATOMIC_MAX_EID);
        }
        self.0
            .get_or_make()
            .add_atomic(&mut proved::shared::Seat::erased(), id)
    }

    /// Adds an index. Returns whether it was in the set before.
    ///
    /// # Panics
    ///
    /// If `id` is not below [`ATOMIC_MAX_EID`].
    #[inline]
    pub fn add(&mut self, id: Index) -> bool {
        self.add_atomic(id)
    }

    /// Adds an index. Returns whether it was in the set before.
    ///
    /// # Errors
    ///
    /// [`AllocError`] if an allocation fails, which only the first addition makes. The set is empty, as it was.
    ///
    /// # Panics
    ///
    /// If `id` is not below [`ATOMIC_MAX_EID`].
    #[inline]
    pub fn try_add(&mut self, id: Index) -> Result<bool, AllocError> {
        if id as usize >= ATOMIC_MAX_EID {
            index_out_of_range(id, ATOMIC_MAX_EID);
        }
        Ok(self
            .0
            .try_get_or_make()?
            .add_atomic(&mut proved::shared::Seat::erased(), id))
    }

    /// Removes an index. Returns whether it was in the set.
    #[inline]
    pub fn remove(&mut self, id: Index) -> bool {
        self.0.get_mut().is_some_and(|words| words.remove(id))
    }

    /// Returns whether an index is in the set. It is true of each index whose addition happened before. It makes at most
    /// four loads.
    #[inline]
    pub fn contains(&self, id: Index) -> bool {
        BitSetLike::contains(&self.0, id)
    }

    /// Removes all members. It keeps the words, and goes only to those that are not 0.
    pub fn clear(&mut self) {
        if let Some(words) = self.0.get_mut() {
            words.clear();
        }
    }

    /// Returns whether the set has no member.
    #[inline]
    pub fn is_empty(&self) -> bool {
        BitSetLike::is_empty(&self.0)
    }

    /// Returns the members, ascending.
    pub fn to_vec(&self) -> Vec<Index> {
        crate::BitSetLikeExt::to_vec(&self.0)
    }

    /// Shares the set by seats: returns the first one.
    ///
    /// ```
    /// use hibitset::AtomicBitSet;
    /// use std::thread;
    ///
    /// let seat = AtomicBitSet::from([3]).share();
    /// let other = seat.divide().unwrap();
    /// let adder = thread::spawn(move || other.add_atomic(5));
    /// seat.add_atomic(4);
    /// assert!(!adder.join().unwrap()); // 5 was not in the set, and its seat is dropped
    /// assert_eq!(seat.settle().unwrap().to_vec(), [3, 4, 5]);
    /// ```
    #[must_use]
    pub fn share(self) -> Seat {
        self.try_share()
            .unwrap_or_else(|_| out_of_memory(AllocError))
    }

    /// Shares the set by seats, as [`share`](AtomicBitSet::share) does. The few bytes that count the seats end the
    /// process if there is no memory for them.
    ///
    /// # Errors
    ///
    /// The set, as it was, if the allocation of its words fails.
    pub fn try_share(self) -> Result<Seat, AtomicBitSet> {
        match self.0.try_get_or_make() {
            Ok(_) => Ok(Seat::first_of(self.0)),
            Err(AllocError) => Err(self),
        }
    }
}

crate::face::ops::words!(AtomicBitSet);
crate::face::ops::collected!(AtomicBitSet);

impl DrainableBitSet for AtomicBitSet {
    #[inline]
    fn remove(&mut self, i: Index) -> bool {
        AtomicBitSet::remove(self, i)
    }
}

impl Default for AtomicBitSet {
    fn default() -> AtomicBitSet {
        AtomicBitSet::new()
    }
}

/// Prints the members, as `{5, 70000}`.
impl Debug for AtomicBitSet {
    fn fmt(&self, f: &mut Formatter<'_>) -> fmt::Result {
        f.debug_set().entries(self).finish()
    }
}
