//! Indices at the borders of words and layers, and at the end of the range.

mod common;

use std::collections::BTreeSet;

use common::{assert_at, assert_members};
use hibitset::{
    BitSet, BitSetAll, BitSetAnd, BitSetLike, BitSetLikeExt, BitSetNot, BitSetOr, Index,
    SparseBitSet, MAX_EID,
};

const MAX: Index = MAX_EID as Index;

/// The first and the last index of a word of each layer.
const BORDERS: [Index; 12] = [
    0,
    63,
    64,
    4_095,
    4_096,
    262_143,
    262_144,
    (1 << 24) - 1,
    1 << 24,
    MAX / 2,
    MAX - 2,
    MAX - 1,
];

#[test]
fn the_constants_are_those_of_five_layers() {
    assert_eq!(MAX_EID, 64usize.pow(5));
    assert_eq!(BitSet::BITS_PER_USIZE, 64);
    assert_eq!(BitSet::LAYER1_GRANULARITY, 64);
    assert_eq!(BitSet::LAYER2_GRANULARITY, 4_096);
    assert_eq!(BitSet::LAYER3_GRANULARITY, 262_144);
}

#[test]
fn each_border_is_added_and_removed() {
    let mut set = BitSet::with_capacity(MAX);
    let mut model = BTreeSet::new();
    for index in BORDERS {
        assert!(!set.contains(index) && !set.add(index) && set.contains(index) && set.add(index));
        model.insert(index);
        for near in [index.saturating_sub(1), index, index + 1] {
            assert_at(&set, &model, near);
        }
    }
    assert_members(&set, &model);
    for index in BORDERS {
        assert!(set.remove(index) && !set.contains(index) && !set.remove(index));
        model.remove(&index);
        assert_members(&set, &model);
    }
}

#[test]
fn one_border_alone_is_found() {
    let mut set = BitSet::with_capacity(MAX);
    for index in BORDERS {
        set.add(index);
        assert_eq!(
            (set.first(), set.last(), set.len()),
            (Some(index), Some(index), 1)
        );
        assert_eq!(set.to_vec(), [index]);
        assert_eq!(BitSetAnd(&set, BitSetAll).to_vec(), [index]);
        assert_eq!(BitSetAnd(&set, BitSetAll).last(), Some(index));
        assert_eq!((&set).iter_from(index).next(), Some(index));
        assert_eq!((&set).iter_from(index + 1).next(), None);
        assert_eq!(
            BitSetAnd(&set, BitSetAll).iter_from(index).next(),
            Some(index)
        );
        assert_eq!(BitSetAnd(&set, BitSetAll).iter_from(index + 1).next(), None);
        assert_eq!(set.drain().collect::<Vec<_>>(), [index]);
    }
}

#[test]
fn ranges_end_at_borders() {
    for pair in BORDERS[..9].windows(2) {
        let mut set = BitSet::new();
        set.add_range(pair[0]..pair[1]);
        assert_eq!(set.len(), (pair[1] - pair[0]) as usize);
        assert_eq!(
            (set.first(), set.last()),
            (Some(pair[0]), Some(pair[1] - 1))
        );
        assert_eq!(set.first_gap(pair[0]), Some(pair[1]));
        set.add_range(pair[0]..=pair[1]);
        assert_eq!(set.last(), Some(pair[1]));
        set.remove_range(pair[0]..pair[1]);
        assert_eq!(set.to_vec(), [pair[1]]);
    }
}

#[test]
fn the_last_index_lies_in_ranges_past_the_end() {
    let mut set = SparseBitSet::from([5, MAX - 1]);
    assert_eq!((set.len_range(..), set.len_range(6..=Index::MAX)), (2, 1));
    set.remove_range(6..);
    assert_eq!(set.to_vec(), [5]);
    let mut dense = BitSet::from([5, 6]);
    assert_eq!(
        (dense.len_range(..=Index::MAX), dense.len_range(6..)),
        (2, 1)
    );
    dense.remove_range(6..=Index::MAX);
    assert_eq!(dense.to_vec(), [5]);
}

#[test]
fn all_kinds_of_ranges_are_taken() {
    use std::ops::Bound::{Excluded, Included, Unbounded};
    let mut set = BitSet::new();
    set.add_range(..3);
    set.add_range(10..=11);
    set.add_range((Excluded(20), Included(22)));
    assert_eq!(set.to_vec(), [0, 1, 2, 10, 11, 21, 22]);
    set.remove_range((Excluded(10), Unbounded));
    set.remove_range(..=1);
    assert_eq!(set.to_vec(), [2, 10]);
    #[allow(clippy::reversed_empty_ranges)]
    set.remove_range(11..2);
    set.remove_range((Excluded(Index::MAX), Unbounded));
    set.remove_range(MAX..=Index::MAX);
    assert_eq!(set.to_vec(), [2, 10]);
    set.remove_range(0..=Index::MAX);
    assert!(set.is_empty());
}

#[test]
fn the_whole_range_is_a_set() {
    let mut set = BitSet::new();
    set.add_range(..);
    assert_eq!(
        (set.len(), set.first(), set.last()),
        (MAX_EID, Some(0), Some(MAX - 1))
    );
    assert_eq!(
        (
            set.first_gap(0),
            (&set).iter_from(MAX - 2).collect::<Vec<_>>()
        ),
        (None, vec![MAX - 2, MAX - 1])
    );
    set.remove(5);
    assert_eq!(BitSetNot(&set).to_vec(), [5]);
    assert_eq!((BitSetNot(&set).len(), set.first_gap(0)), (1, Some(5)));
    let few = BitSet::from_iter([5, 6]);
    assert_eq!((&few & !&set).to_bit_set(), BitSet::from_iter([5]));
    assert_eq!(BitSetNot(&few).to_bit_set().len(), MAX_EID - 2);
}

#[test]
fn indices_past_the_range_are_in_no_set() {
    let set: BitSet = (0..100).collect();
    for index in [MAX, MAX + 1, Index::MAX] {
        assert!(!set.contains(index) && !BitSetOr(&set, &set).contains(index));
        assert!(BitSetAll.contains(index) && BitSetNot(&set).contains(index));
        assert_eq!(
            ((&set).iter_from(index).next(), set.first_gap(index)),
            (None, None)
        );
        assert_eq!(
            (
                BitSetAll.iter_from(index).next(),
                BitSetNot(&set).iter_from(index).next()
            ),
            (None, None)
        );
        assert!(!set.clone().remove(index));
    }
    assert_eq!(BitSetAll.iter_from(MAX - 1).collect::<Vec<_>>(), [MAX - 1]);
    assert_eq!(
        BitSetNot(&set).iter_from(MAX - 1).collect::<Vec<_>>(),
        [MAX - 1]
    );
    assert_eq!(BitSetNot(&set).last(), Some(MAX - 1));
}

#[test]
fn words_of_every_number_are_taken() {
    for len in [0, 1, 2, 63, 64, 65, 4_096, 4_097] {
        let words: Vec<usize> = (0..len).map(|i| if i % 3 == 0 { i } else { 0 }).collect();
        let set = BitSet::from_words(&words);
        assert_eq!(set.layer0_as_slice(), words);
        assert_eq!(
            set.len(),
            words
                .iter()
                .map(|word| word.count_ones() as usize)
                .sum::<usize>()
        );
    }
}
