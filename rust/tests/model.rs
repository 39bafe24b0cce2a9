//! A `BitSet` beside a `BTreeSet`: random calls of every kind, in random order.

mod common;

use std::collections::BTreeSet;

use common::{assert_at, assert_members, Numbers};
use hibitset::{BitSet, BitSetLike, Index};

/// Makes one random change to both.
fn change(numbers: &mut Numbers, bound: Index, set: &mut BitSet, model: &mut BTreeSet<Index>) {
    let index = numbers.below(bound);
    match numbers.below(40) {
        0..=13 => assert_eq!(set.add(index), !model.insert(index)),
        14..=19 => assert_eq!(set.remove(index), model.remove(&index)),
        20..=22 => {
            let range = numbers.range_below(bound);
            set.add_range(range.clone());
            model.extend(range);
        }
        23..=25 => {
            let range = numbers.range_below(bound);
            set.remove_range(range.clone());
            model.retain(|i| !range.contains(i));
        }
        26 => {
            let count = numbers.below(300) as usize;
            let drained: Vec<Index> = set.drain().take(count).collect();
            assert!(drained.iter().eq(model.iter().take(count)));
            model.retain(|i| drained.last().is_none_or(|last| i > last));
        }
        27 => {
            set.clear();
            model.clear();
        }
        28..=30 => {
            let more: Vec<Index> = (0..50).map(|_| numbers.below(bound)).collect();
            set.extend(&more);
            model.extend(&more);
        }
        31 => *set = set.clone(),
        32 => *set = BitSet::from_words(set.layer0_as_slice()),
        _ => assign(numbers, bound, set, model),
    }
}

/// Makes one random assignment to both.
fn assign(numbers: &mut Numbers, bound: Index, set: &mut BitSet, model: &mut BTreeSet<Index>) {
    let len = numbers.below(2000) as usize;
    let (other, other_model) = numbers.set_of(len, bound);
    match numbers.below(4) {
        0 => {
            *set |= &other;
            *model = &*model | &other_model;
        }
        1 => {
            *set ^= &other;
            *model = &*model ^ &other_model;
        }
        2 => {
            *set -= &other;
            *model = &*model - &other_model;
        }
        _ => {
            let kept = set.clone();
            *set |= &other;
            *set &= &kept;
        }
    }
}

#[test]
fn random_calls_answer_as_those_of_a_model() {
    for (seed, bound) in [(1, 64), (2, 300), (3, 5_000), (4, 300_000), (5, 1 << 20)] {
        let mut numbers = Numbers::new(seed);
        let (mut set, mut model) = (BitSet::new(), BTreeSet::new());
        for round in 0..400 {
            change(&mut numbers, bound, &mut set, &mut model);
            assert_at(&set, &model, numbers.below(bound));
            if round % 10 == 0 {
                assert_members(&set, &model);
            }
        }
    }
}

#[test]
fn two_sets_compare_as_their_models() {
    let mut numbers = Numbers::new(6);
    for round in 0..200 {
        let bound = [100, 5_000, 300_000][round % 3];
        let (a, a_model) = numbers.set_of(50, bound);
        let (mut b, mut b_model) = numbers.set_of(round / 4, bound);
        if round % 4 == 0 {
            b |= &a;
            b_model.extend(&a_model);
        }
        assert_eq!(a == b, a_model == b_model);
        assert_eq!(a.is_subset(&b), a_model.is_subset(&b_model));
        assert_eq!(b.contains_set(&a), b_model.is_superset(&a_model));
        assert_eq!(a.is_disjoint(&b), a_model.is_disjoint(&b_model));
    }
}

#[test]
fn sets_are_equal_whatever_their_capacity() {
    let mut wide = BitSet::with_capacity(100_000);
    wide.add(3);
    let narrow = BitSet::from_iter([3]);
    assert!(wide.capacity() >= 100_000 && narrow.capacity() >= 4 && narrow.capacity() < 100_000);
    assert_eq!(wide, narrow);
    assert_eq!(wide.clone(), narrow);
    wide.remove(3);
    assert_eq!(wide, BitSet::new());
    assert_ne!(wide, narrow);
    assert!(wide.capacity() >= 100_000);
    wide.clear();
    assert_eq!((wide.capacity(), BitSet::new().capacity()), (0, 0));
}

#[test]
fn slices_have_the_words() {
    let mut numbers = Numbers::new(7);
    let (set, model) = numbers.set_of(5_000, 1 << 20);
    let mut below: BTreeSet<Index> = model;
    let layers = [
        set.layer0_as_slice(),
        set.layer1_as_slice(),
        set.layer2_as_slice(),
        set.layer3_as_slice(),
    ];
    for words in layers {
        let stands = |i: Index| {
            words
                .get(i as usize / 64)
                .is_some_and(|word| word >> (i % 64) & 1 == 1)
        };
        assert!((0..1 << 20).all(|i| stands(i) == below.contains(&i)));
        below = below.iter().map(|i| i / 64).collect();
    }
}

#[test]
fn debug_prints_the_members() {
    assert_eq!(
        format!("{:?}", BitSet::from_iter([70_000, 5])),
        "{5, 70000}"
    );
    assert_eq!(format!("{:?}", BitSet::default()), "{}");
}

#[test]
fn a_drain_that_is_dropped_leaves_the_rest() {
    let mut set: BitSet = (0..1000).collect();
    for index in set.drain() {
        if index == 499 {
            break;
        }
    }
    assert!((&set).iter().eq(500..1000));
    assert_eq!(set.drain().count(), 500);
    assert!(set.is_empty());
}

#[test]
fn an_iterator_is_cloned_where_it_is() {
    let set: BitSet = (0..1000).map(|i| 3 * i).collect();
    let mut iter = (&set).iter();
    for skipped in [0, 1, 7, 8, 9, 135, 136, 137, 999] {
        let mut iter = iter.by_ref().clone().skip(skipped);
        let rest = iter.clone();
        assert!(rest.eq((skipped as u32..1000).map(|i| 3 * i)));
        assert_eq!(iter.next(), Some(3 * skipped as u32));
    }
    assert_eq!((iter.contains(3), iter.contains(4)), (true, false));
    assert_eq!(iter.by_ref().count(), 1000);
}

#[test]
fn an_iterator_stays_at_its_end() {
    let set: BitSet = (0..8).collect();
    let mut iter = (&set).iter();
    assert_eq!(iter.by_ref().take(8).count(), 8);
    assert_eq!((iter.next(), iter.next()), (None, None));
    assert_eq!(iter.sum::<Index>(), 0);
}

#[test]
fn a_fold_goes_on_from_where_next_stopped() {
    let set: BitSet = (0..10_000).filter(|i| i % 7 < 3).collect();
    for taken in [0, 1, 7, 8, 9, 40, 41, 2000] {
        let mut iter = (&set).iter();
        let head: Vec<Index> = iter.by_ref().take(taken).collect();
        let all = iter.fold(head, |mut all, index| {
            all.push(index);
            all
        });
        assert_eq!(all, set.to_vec());
    }
}
