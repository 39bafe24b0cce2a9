//! Traits of std's sets and iterators, beside a `BTreeSet`.

mod common;

use std::cmp::Ordering;
use std::collections::hash_map::DefaultHasher;
use std::collections::{BTreeSet, HashSet};
use std::fmt::Debug;
use std::hash::{BuildHasher, BuildHasherDefault, Hash};
use std::iter::FusedIterator;

use common::Numbers;
use hibitset::{
    AtomicBitSet, BitIter, BitIterBoth, BitRevIter, BitSet, BitSetLike, DrainBitIter, Index,
    Ranked, SparseBitSet, MAX_EID,
};

/// A set with these members that has more capacity than they need.
fn wide(model: &BTreeSet<Index>) -> BitSet {
    let mut set: BitSet = model.iter().collect();
    if !set.add(1 << 20) {
        set.remove(1 << 20);
    }
    set
}

fn models() -> Vec<BTreeSet<Index>> {
    let mut numbers = Numbers::new(1);
    let mut models = vec![BTreeSet::new()];
    for round in 0..80 {
        let len = numbers.below(6);
        models.push(
            (0..len)
                .map(|_| numbers.below(64 << (round % 14)))
                .collect(),
        );
    }
    let begun = models
        .iter()
        .map(|model| model.iter().copied().take(2).collect())
        .collect::<Vec<_>>();
    models.extend(begun);
    models
}

#[test]
fn order_and_hash_are_those_of_lists() {
    let models = models();
    let sets: Vec<BitSet> = models.iter().map(wide).collect();
    for (a, x) in models.iter().zip(&sets) {
        for (b, y) in models.iter().zip(&sets) {
            assert_eq!((x.cmp(y), x == y), (a.cmp(b), a == b), "{a:?} {b:?}");
        }
    }
    let tight: HashSet<BitSet> = models.iter().map(|model| model.iter().collect()).collect();
    assert!(sets.iter().all(|set| tight.contains(set)));
    assert_eq!(tight.len(), models.iter().collect::<HashSet<_>>().len());
}

#[test]
fn both_ends_meet() {
    let mut numbers = Numbers::new(3);
    for round in 0..200 {
        let len = numbers.below(300) as usize;
        let (set, model) = numbers.set_of(len, 64 << (round % 20));
        let (mut members, mut expected) = (set.iter_both(), model.iter().copied());
        for _ in 0..model.len() + 3 {
            let (least, most) = members.size_hint();
            assert!(least <= expected.len() && most.expect("a limit") >= expected.len());
            if numbers.below(2) == 0 {
                assert_eq!(members.next(), expected.next());
            } else {
                assert_eq!(members.next_back(), expected.next_back());
            }
        }
        assert!(set.iter_both().rev().eq(model.iter().copied().rev()));
        let none = BitSet::new();
        let same = &set & !&none;
        assert!(BitIterBoth::new(&same).eq(model.iter().copied()));
    }
}

/// The limits of an iterator hold at each of its first items.
fn assert_hints(mut members: impl Iterator<Item = Index> + Clone) {
    for _ in 0..40 {
        let (least, most) = members.size_hint();
        let count = members.clone().fold(0, |count, _| count + 1);
        assert!(least <= count && count <= most.expect("a limit"));
        assert_eq!(members.clone().count(), count);
        members.next();
    }
}

#[test]
fn size_hints_hold() {
    let mut numbers = Numbers::new(5);
    for round in 0..100 {
        let (a, model) = numbers.set_of(300, 64 << (round % 20));
        let (b, _) = numbers.set_of(100, 64 << (round % 20));
        assert_hints((&a).iter());
        assert_hints((&a & &b).iter());
        assert_hints((&a).iter_rev());
        assert_hints((&a).iter_from(1 << 10));
        let mut drained = a.clone();
        let mut drain = drained.drain();
        for left in (0..=model.len()).rev() {
            let (least, most) = drain.size_hint();
            assert!(least <= left && left <= most.expect("a limit"));
            assert_eq!(drain.next().is_some(), left > 0);
        }
    }
    assert_eq!((!BitSet::new()).iter().size_hint(), (0, Some(MAX_EID)));
}

#[test]
fn the_last_index_is_at_an_end() {
    let last = MAX_EID as Index - 1;
    assert_eq!(SparseBitSet::from([last]).iter_both().next(), Some(last));
    let set = SparseBitSet::from([5, 6, last]);
    let mut members = set.iter_both();
    assert_eq!(members.size_hint(), (0, Some(2 << 24)));
    assert_eq!(
        (members.next_back(), members.next(), members.next_back()),
        (Some(last), Some(5), Some(6))
    );
    assert_eq!(
        (members.next(), members.next_back(), members.size_hint()),
        (None, None, (0, Some(0)))
    );
}

#[test]
fn an_iterator_from_the_end_is_cloned_where_it_is() {
    let all = [5, 70_000, 70_001, 1 << 25, (1 << 25) + 1];
    let set = BitSet::from(all);
    let mut members = set.iter_rev();
    for left in (0..=5).rev() {
        assert!(members.clone().eq(all[..left].iter().rev().copied()));
        members.next();
    }
}

#[test]
fn places_are_hashed_and_compared() {
    let hash = |set: &BitSet| BuildHasherDefault::<DefaultHasher>::default().hash_one(set);
    let [a, b] = [5, 69].map(|index| BitSet::from([index]));
    assert_ne!(hash(&a), hash(&b));
    assert_eq!((a.partial_cmp(&b), a < b), (Some(Ordering::Less), true));
    let [a, b] = [5, 69].map(|index| SparseBitSet::from([index]));
    assert_eq!((a.partial_cmp(&b), a < b), (Some(Ordering::Less), true));
}

#[test]
fn counts_are_printed_with_their_set() {
    let text = format!("{:?}", Ranked::new(BitSet::from([5])));
    assert_eq!(text, "Ranked { set: {5}, .. }");
}

#[test]
fn types_have_traits() {
    fn assert_fused<T: FusedIterator>() {}
    assert_fused::<BitIter<&BitSet>>();
    assert_fused::<BitRevIter<&BitSet>>();
    assert_fused::<DrainBitIter<BitSet>>();
    assert_fused::<BitIterBoth<BitSet>>();
    fn assert_collection<'a, T>()
    where
        T: 'a
            + IntoIterator<Item = Index>
            + From<[Index; 3]>
            + FromIterator<Index>
            + FromIterator<&'a Index>,
        T: Extend<Index> + Extend<&'a Index> + Default + Debug,
        &'a T: IntoIterator<Item = Index>,
    {
    }
    assert_collection::<BitSet>();
    assert_collection::<AtomicBitSet>();
    fn assert_key<T: Clone + Ord + Hash>() {}
    assert_key::<BitSet>();
    assert_eq!(BitSet::from([3, 1]).to_vec(), [1, 3]);
}
