//! Calls that go by the order of the members, beside a `BTreeSet`.

mod common;

use std::collections::BTreeSet;

use common::Numbers;
use hibitset::{BitSet, BitSetLike, Index, Ranked, MAX_EID};

/// Compares what a set and its model say of one index, one range and one position.
fn assert_order(set: &BitSet, model: &BTreeSet<Index>, numbers: &mut Numbers, bound: Index) {
    let end = numbers.below(bound);
    let range = numbers.range_below(bound);
    let at = numbers.below(model.len() as Index + 2) as usize;
    assert_eq!(set.rank(end), model.range(..end).count());
    assert_eq!(set.len_range(range.clone()), model.range(range).count());
    assert_eq!(set.select(at), model.iter().nth(at).copied());
    assert_eq!(
        set.last_before(end),
        model.range(..end).next_back().copied()
    );
    assert!(set.iter_rev().eq(model.iter().rev().copied()));
    assert!(set
        .iter_rev_before(end)
        .eq(model.range(..end).rev().copied()));
}

#[test]
fn order_is_that_of_a_model() {
    for (seed, bound) in [(1, 64), (2, 300), (3, 5_000), (4, 300_000), (5, 1 << 20)] {
        let mut numbers = Numbers::new(seed);
        for len in [0, 1, 7, 130, 2000] {
            let (set, model) = numbers.set_of(len, bound);
            for _ in 0..20 {
                assert_order(&set, &model, &mut numbers, bound);
            }
        }
    }
}

#[test]
fn counts_beside_a_set_are_exact() {
    for (seed, len, bound) in [
        (7, 0, 64),
        (8, 1, 9_000),
        (9, 300, 5_000),
        (10, 4_000, 300_000),
    ] {
        let mut numbers = Numbers::new(seed);
        let (set, model) = numbers.set_of(len, bound);
        let ranked = Ranked::new(&set);
        for end in [
            0,
            1,
            4_095,
            4_096,
            4_097,
            8_192,
            bound - 1,
            bound,
            MAX_EID as Index,
            Index::MAX,
        ] {
            assert_eq!(ranked.rank(end), model.range(..end).count());
        }
        for (at, &member) in model.iter().enumerate() {
            assert_eq!(ranked.select(at), Some(member));
        }
        assert_eq!(
            (ranked.select(model.len()), ranked.select(usize::MAX)),
            (None, None)
        );
    }
    let (full, ends): (BitSet, BitSet) = (
        (0..20_000).collect(),
        [4_095, 4_096, MAX_EID as Index - 1].into_iter().collect(),
    );
    let counted = Ranked::new(&full);
    assert!(
        (0..20_000).all(|i| counted.rank(i) == i as usize && counted.select(i as usize) == Some(i))
    );
    assert_eq!(
        (Ranked::new(&ends).select(2), Ranked::new(&ends).rank(4_096)),
        (ends.last(), 1)
    );
}

#[test]
fn changes_by_order_are_those_of_a_model() {
    let mut numbers = Numbers::new(6);
    let (mut set, mut model) = numbers.set_of(3000, 20_000);
    for round in 0..200 {
        assert_eq!(set.pop_first(), model.pop_first());
        assert_eq!(set.pop_last(), model.pop_last());
        let range = numbers.range_below(20_000);
        set.flip_range(range.clone());
        for index in range {
            if !model.remove(&index) {
                model.insert(index);
            }
        }
        set.retain(|i| i % 199 != round);
        model.retain(|i| i % 199 != round);
        assert!((&set).iter_rev().eq(model.iter().rev().copied()));
    }
}

#[test]
fn an_iterator_counts_what_is_left() {
    let set = BitSet::from([5, 70, 5_000, 1 << 20]);
    let mut members = (&set).into_iter();
    for left in (0..=4).rev() {
        assert_eq!(members.clone().count(), left);
        members.next();
    }
}

#[test]
fn retain_goes_up_once() {
    let mut set: BitSet = (0..1000).map(|i| 7 * i).collect();
    let members = set.to_vec();
    let mut seen = Vec::new();
    set.retain(|i| {
        seen.push(i);
        i % 2 == 0
    });
    assert_eq!(seen, members);
    assert!(set.to_vec().iter().all(|i| i % 2 == 0) && set.len() == 500);
}

#[test]
fn the_ends_of_the_range() {
    let last = MAX_EID as Index - 1;
    let mut set = BitSet::from_iter([0, last]);
    assert_eq!(
        (set.rank(0), set.rank(last), set.rank(Index::MAX)),
        (0, 1, 2)
    );
    assert_eq!(
        (
            set.len_range(..),
            set.len_range(last..),
            set.len_range(..=0)
        ),
        (2, 1, 1)
    );
    assert_eq!(
        (
            set.last_before(Index::MAX),
            set.last_before(last),
            set.last_before(0)
        ),
        (Some(last), Some(0), None)
    );
    assert!((&set).iter_rev().eq([last, 0]) && (&set).iter_rev_before(0).next().is_none());
    set.flip_range(last..);
    set.flip_range(5..5);
    assert_eq!(
        (set.pop_last(), set.pop_last(), set.pop_first()),
        (Some(0), None, None)
    );
}

#[test]
#[should_panic(expected = "out of range")]
fn flipping_past_the_range_panics() {
    BitSet::new().flip_range(..=MAX_EID as Index);
}
