//! What the tests share: numbers, and a set of std beside each set.
#![allow(dead_code)]

use std::collections::BTreeSet;
use std::fmt::Debug;
use std::ops::Range;

use hibitset::{BitSet, BitSetLike, BitSetLikeExt, Index, MAX_EID};

/// Numbers that look random, the same at each run.
pub struct Numbers(u64);

impl Numbers {
    pub fn new(seed: u64) -> Numbers {
        Numbers(seed.wrapping_mul(0x9E37_79B9_7F4A_7C15) | 1)
    }

    pub fn next(&mut self) -> u64 {
        self.0 ^= self.0 << 13;
        self.0 ^= self.0 >> 7;
        self.0 ^= self.0 << 17;
        self.0 >> 11
    }

    pub fn below(&mut self, bound: Index) -> Index {
        (self.next() % u64::from(bound)) as Index
    }

    /// A range of at most 10,000 indices.
    pub fn range_below(&mut self, bound: Index) -> Range<Index> {
        let start = self.below(bound);
        start..start + self.below(10_000.min(bound - start))
    }

    /// A set of that many indices below a bound, or fewer, as two types.
    pub fn set_of(&mut self, len: usize, bound: Index) -> (BitSet, BTreeSet<Index>) {
        let model: BTreeSet<Index> = (0..len).map(|_| self.below(bound)).collect();
        (model.iter().collect(), model)
    }
}

/// Compares what a set answers as a whole.
pub fn assert_members<T: BitSetLike>(set: &T, model: &BTreeSet<Index>) {
    assert_same(&set.to_vec(), &model.iter().copied().collect::<Vec<_>>());
    assert_same(&set.iter().collect::<Vec<_>>(), &set.to_vec());
    let mut by_next = Vec::new();
    for index in BitSetLike::iter(set) {
        by_next.push(index);
    }
    assert_same(&by_next, &set.to_vec());
    assert_eq!(set.len(), model.len());
    assert_eq!(set.is_empty(), model.is_empty());
    assert_eq!(set.first(), model.first().copied());
    assert_eq!(set.last(), model.last().copied());
}

/// Compares two lists, and shows where they part.
fn assert_same<T: PartialEq + Debug>(left: &[T], right: &[T]) {
    let place = left.iter().zip(right).position(|(a, b)| a != b);
    assert_eq!(
        place,
        None,
        "{:?} and {:?}",
        place.map(|at| &left[at]),
        place.map(|at| &right[at])
    );
    assert_eq!(left.len(), right.len());
}

/// Compares what a set answers at one index.
pub fn assert_at<T: BitSetLike>(set: &T, model: &BTreeSet<Index>, index: Index) {
    assert_eq!(
        set.contains(index),
        model.contains(&index),
        "contains {index}"
    );
    let next: Vec<_> = set.iter_from(index).take(200).collect();
    assert_same(
        &next,
        &model.range(index..).take(200).copied().collect::<Vec<_>>(),
    );
    let gap = (index..MAX_EID as Index).find(|i| !model.contains(i));
    assert_eq!(set.first_gap(index), gap, "first_gap {index}");
}
