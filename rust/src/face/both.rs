//! Iterators that go from both ends.

use crate::{BitIter, BitRevIter, BitSet, BitSetLike, Index, SparseBitSet};
use core::iter::FusedIterator;

/// An iterator over the members of a set from both ends: one that ascends and one that descends, and the limits between
/// which nothing is given yet. The state of a [`BitIter`] has one path from the top, so it goes one way alone. The crate
/// `hibitset` 0.6.3 has no such type.
///
/// ```
/// use hibitset::{BitIterBoth, BitSet};
///
/// let (a, b) = (BitSet::from([1, 2, 30, 400]), BitSet::from([2, 30, 400, 5]));
/// let both = &a & &b;
/// let mut members = BitIterBoth::new(&both);
/// assert_eq!((members.next_back(), members.next(), members.next(), members.next()), (Some(400), Some(2), Some(30), None));
/// ```
#[derive(Clone, Debug)]
pub struct BitIterBoth<'a, T> {
    up: BitIter<&'a T>,
    down: BitRevIter<&'a T>,
    // What is left lies from `start` on and before `end`.
    start: Index,
    end: Index,
}

impl<'a, T: BitSetLike> BitIterBoth<'a, T> {
    /// Returns an iterator over the members of a set.
    pub fn new(set: &'a T) -> Self {
        BitIterBoth {
            up: set.iter(),
            down: set.iter_rev(),
            start: 0,
            end: Index::MAX,
        }
    }
}

impl<T: BitSetLike> Iterator for BitIterBoth<'_, T> {
    type Item = Index;

    #[inline]
    fn next(&mut self) -> Option<Index> {
        if self.start >= self.end {
            return None;
        }
        let index = self.up.next().filter(|&index| index < self.end);
        self.start = index.map_or(self.end, |index| index + 1);
        index
    }

    fn size_hint(&self) -> (usize, Option<usize>) {
        let between = self.end.saturating_sub(self.start) as usize;
        (0, self.up.size_hint().1.map(|most| most.min(between)))
    }
}

impl<T: BitSetLike> DoubleEndedIterator for BitIterBoth<'_, T> {
    #[inline]
    fn next_back(&mut self) -> Option<Index> {
        if self.start >= self.end {
            return None;
        }
        let index = self.down.next().filter(|&index| index >= self.start);
        self.end = index.unwrap_or(self.start);
        index
    }
}

impl<T: BitSetLike> FusedIterator for BitIterBoth<'_, T> {}

impl BitSet {
    /// Returns an iterator over the members that goes from both ends.
    ///
    /// ```
    /// use hibitset::BitSet;
    ///
    /// let set = BitSet::from([1, 20, 300]);
    /// assert!(set.iter_both().rev().eq([300, 20, 1]));
    /// ```
    pub fn iter_both(&self) -> BitIterBoth<'_, BitSet> {
        BitIterBoth::new(self)
    }
}

impl SparseBitSet {
    /// Returns an iterator over the members that goes from both ends.
    ///
    /// ```
    /// use hibitset::SparseBitSet;
    ///
    /// let set = SparseBitSet::from([1, 20, 300]);
    /// assert!(set.iter_both().rev().eq([300, 20, 1]));
    /// ```
    pub fn iter_both(&self) -> BitIterBoth<'_, SparseBitSet> {
        BitIterBoth::new(self)
    }
}
