//! Tests of what a caller does not see: seats, and how much the words of a set cost.

use crate::derived::hibitset_atomic::shared::types::{Seat, SharedBitSet};
use crate::{AtomicBitSet, BitSet, BitSetAnd, BitSetLike, Index};

/// An empty set of a type that says nothing of its words.
struct Empty;

impl BitSetLike for Empty {
    fn layer4(&self) -> usize {
        0
    }

    fn layer3(&self, _: usize) -> usize {
        0
    }

    fn layer2(&self, _: usize) -> usize {
        0
    }

    fn layer1(&self, _: usize) -> usize {
        0
    }

    fn layer0(&self, _: usize) -> usize {
        0
    }

    fn contains(&self, _: Index) -> bool {
        false
    }
}

#[test]
fn a_seat_of_one_call_has_one_share() {
    assert_eq!(Seat::erased().weight(), 1);
    assert!(Seat::opening().is_whole() && !Seat::erased().is_whole());
}

#[test]
fn words_that_are_kept_in_rows_are_cheap() {
    let (set, atomic) = (BitSet::from([5]), AtomicBitSet::from([5]));
    assert!(set.has_cheap_words() && atomic.has_cheap_words());
    assert!(SharedBitSet::empty().has_cheap_words() && AtomicBitSet::new().has_cheap_words());
    let (kept, unknown): (&dyn BitSetLike, &dyn BitSetLike) = (&set, &Empty);
    assert!((&kept).has_cheap_words() && !(&unknown).has_cheap_words());
    assert!(!BitSetAnd(&set, &Empty).has_cheap_words());
}
