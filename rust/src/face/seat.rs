//! Seats of a set that threads add to at once.

use crate::derived::hibitset_atomic::shared::{Seat as Shares, SharedBitSet};
use crate::face::row::Row;
use crate::face::{index_out_of_range, out_of_memory};
use crate::{AllocError, AtomicBitSet, BitSet, Global, Index, ATOMIC_MAX_EID};
use alloc::sync::Arc;
use alloc::vec::Vec;
use core::cell::RefCell;
use core::fmt::{self, Debug, Formatter};

/// What one thread adds and looks with, at a set that many threads share, as the proved source has it.
/// [`AtomicBitSet::share`] makes the first one, and [`divide`](Seat::divide) more. The set lives as long as one of its
/// seats.
///
/// A seat may go to another thread, and no two threads use it at once: it is `Send` and not `Sync`. An addition takes no
/// lock and allocates nothing. Nothing is removed while the set is shared. The crate `hibitset` 0.6.3 has no seats:
/// [`AtomicBitSet::add_atomic`] needs none.
///
/// ```
/// use hibitset::AtomicBitSet;
/// use std::thread;
///
/// let mut seats = AtomicBitSet::new().share().divide_among(4);
/// let last = seats.pop().unwrap();
/// let adders: Vec<_> = (0..)
///     .zip(seats)
///     .map(|(first, seat)| {
///         thread::spawn(move || (first..1000).step_by(2).filter(|&i| !seat.add_atomic(i)).count())
///     })
///     .collect();
/// let fresh: usize = adders.into_iter().map(|adder| adder.join().unwrap()).sum();
/// assert_eq!(fresh, 1000); // each index was new to one seat
/// assert_eq!(last.settle().unwrap().to_vec().len(), 1000);
/// ```
///
/// ```compile_fail
/// let seat = hibitset::AtomicBitSet::new().share();
/// std::thread::scope(|scope| {
///     scope.spawn(|| seat.add_atomic(1)); // a seat is for one thread
/// });
/// ```
pub struct Seat {
    set: Arc<SharedBitSet>,
    // It is there but while a call that takes it runs.
    shares: RefCell<Option<Shares>>,
}

const THERE: &str = "no call of the seat is running";

impl Seat {
    fn of(set: Arc<SharedBitSet>, shares: Shares) -> Seat {
        Seat {
            set,
            shares: RefCell::new(Some(shares)),
        }
    }

    /// The first seat of the set that a row has.
    pub(crate) fn first_of(row: Row) -> Seat {
        let words = row
            .into_words()
            .expect("the words of a set that is shared are made");
        Seat::of(Arc::new(words), Shares::opening())
    }

    fn call<T>(&self, call: impl FnOnce(&SharedBitSet, &mut Shares) -> T) -> T {
        call(&self.set, self.shares.borrow_mut().as_mut().expect(THERE))
    }

    /// Adds an index, while other seats add too. Returns whether it was in the set before: false if this call put it in.
    /// It makes at most seven loads and four exchanges.
    ///
    /// # Panics
    ///
    /// If `id` is not below [`ATOMIC_MAX_EID`].
    #[inline]
    pub fn add_atomic(&self, id: Index) -> bool {
        if id as usize >= ATOMIC_MAX_EID {
            index_out_of_range(id, ATOMIC_MAX_EID);
        }
        self.call(|set, shares| set.add_atomic(shares, id))
    }

    /// Returns whether an index is in the set. It is true of each index that the set had when it was shared, that this
    /// seat added, or that it has seen before. What another seat adds meanwhile may be seen or not.
    #[inline]
    pub fn contains(&self, id: Index) -> bool {
        self.call(|set, shares| set.contains(shares, id))
    }

    /// Adds to a set what an iteration over the shared set gives, while others add: each index of which
    /// [`contains`](Seat::contains) must be true.
    pub fn collect_into(&self, set: &mut BitSet) {
        self.try_collect_into(set)
            .unwrap_or_else(|error| out_of_memory(error))
    }

    /// Adds to a set what an iteration over the shared set gives, as [`collect_into`](Seat::collect_into) does.
    ///
    /// # Errors
    ///
    /// [`AllocError`] if an allocation fails. The set has its old members, and some of those of the shared set.
    pub fn try_collect_into(&self, set: &mut BitSet) -> Result<(), AllocError> {
        self.call(|shared, shares| set.try_extend(shared.walk(shares)))
    }

    /// Returns a set of what an iteration over the shared set gives, as [`collect_into`](Seat::collect_into) does.
    ///
    /// ```
    /// use hibitset::AtomicBitSet;
    ///
    /// let seat = AtomicBitSet::from([3, 70_000]).share();
    /// seat.add_atomic(5);
    /// assert_eq!(seat.to_bit_set().to_vec(), [3, 5, 70_000]);
    /// ```
    pub fn to_bit_set(&self) -> BitSet {
        let mut set = BitSet::new();
        self.collect_into(&mut set);
        set
    }

    /// Returns whether the seat has all shares of its set: no other seat was made of it.
    pub fn is_whole(&self) -> bool {
        self.call(|_, shares| shares.is_whole())
    }

    /// Returns a second seat of the set, with half of this one's shares of it. There are 65,536, and `None` if this seat
    /// has one.
    pub fn divide(&self) -> Option<Seat> {
        let mut shares = self.shares.borrow_mut();
        let (first, second) = self.set.divide(shares.take().expect(THERE));
        *shares = Some(first);
        second.map(|second| Seat::of(self.set.clone(), second))
    }

    /// Returns so many seats of the set, with even shares of it.
    ///
    /// # Panics
    ///
    /// If this seat has fewer shares of the set, which has 65,536, or `count` is 0.
    #[must_use]
    pub fn divide_among(self, count: usize) -> Vec<Seat> {
        let shares = self.shares.into_inner().expect(THERE);
        assert!(count > 0, "a seat can't be divided among none");
        assert!(
            count <= shares.weight() as usize,
            "the seat has fewer shares than seats are asked for"
        );
        match self.set.divide_among(Global, shares, count) {
            Ok(seats) => seats
                .into_iter()
                .map(|shares| Seat::of(self.set.clone(), shares))
                .collect(),
            Err(_) => out_of_memory(AllocError),
        }
    }

    /// Ends the shared set: returns it as a set held alone, with the indices from before it was shared and those that its
    /// seats put in. It copies nothing.
    ///
    /// # Errors
    ///
    /// The seat, as it was, if another seat of the set is not dropped yet.
    pub fn settle(self) -> Result<AtomicBitSet, Seat> {
        let shares = self.shares.into_inner().expect(THERE);
        match Arc::try_unwrap(self.set) {
            Ok(words) => Ok(AtomicBitSet(Row::from(words))),
            Err(set) => Err(Seat::of(set, shares)),
        }
    }
}

/// Prints nothing of the set, to which others add.
impl Debug for Seat {
    fn fmt(&self, f: &mut Formatter<'_>) -> fmt::Result {
        f.debug_struct("Seat").finish_non_exhaustive()
    }
}
