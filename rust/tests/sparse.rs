//! A `SparseBitSet` beside a `BTreeSet`, mixed with `BitSet`; borders, panics and iterators.

mod common;

use std::collections::hash_map::DefaultHasher;
use std::collections::{BTreeSet, HashSet};
use std::fmt::Debug;
use std::hash::{Hash, Hasher};
use std::iter::FusedIterator;
use std::panic::{catch_unwind, AssertUnwindSafe};

use common::{assert_at, assert_members, Numbers};
use hibitset::{
    BitIterBoth, BitSet, BitSetAll, BitSetAnd, BitSetLike, BitSetLikeExt, BitSetRange,
    DrainBitIter, DrainableBitSet, Index, Ranked, SparseBitSet, SparseIter, MAX_EID,
};

const MAX: Index = MAX_EID as Index;

/// The first and the last index of a word, of a part of 262,144 indices, and of the range.
const BORDERS: [Index; 12] = [
    0,
    63,
    64,
    4_095,
    4_096,
    262_143,
    262_144,
    (1 << 24) - 1,
    1 << 24,
    MAX / 2,
    MAX - 262_145,
    MAX - 1,
];

type Model = BTreeSet<Index>;

/// A set of that many indices below a bound, or fewer, as three types.
fn set_of(numbers: &mut Numbers, len: usize, bound: Index) -> (SparseBitSet, BitSet, Model) {
    let (dense, model) = numbers.set_of(len, bound);
    (SparseBitSet::from(&dense), dense, model)
}

/// Compares a set with its model, and its words with those of a set that is made anew.
fn assert_sparse(set: &SparseBitSet, model: &Model) {
    assert_members(set, model);
    assert!(set.iter().eq(model.iter().copied()) && set.into_iter().eq(model.iter().copied()));
    assert_eq!(
        (set.len(), set.first(), set.last(), set.is_empty()),
        (
            model.len(),
            model.first().copied(),
            model.last().copied(),
            model.is_empty()
        )
    );
    assert_eq!(set.to_vec(), BitSetLikeExt::to_vec(set));
    let anew: SparseBitSet = model.iter().collect();
    assert!(*set == anew && set.contains_set(&anew) && anew.is_subset(set));
    for layer in 0..5 {
        let places: BTreeSet<usize> = model.iter().map(|&i| i as usize >> (6 * layer)).collect();
        let mut words = BTreeSet::from([0, 1]);
        words.extend(places.iter().map(|place| place / 64));
        for word in words {
            let bits = places.range(64 * word..64 * (word + 1));
            let wanted = bits.fold(0, |bits, place| bits | 1 << (place % 64));
            if layer < 4 || word == 0 {
                assert_eq!(set.get_from_layer(layer, word), wanted, "layer {layer}");
            }
        }
    }
}

/// Compares what a set says of one index, one range and one position.
fn assert_order(numbers: &mut Numbers, bound: Index, set: &SparseBitSet, model: &Model) {
    let end = numbers.below(bound);
    let range = numbers.range_below(bound);
    let at = numbers.below(model.len() as Index + 2) as usize;
    assert_at(set, model, end);
    assert_eq!(set.contains(end), model.contains(&end));
    assert_eq!(set.rank(end), model.range(..end).count());
    assert_eq!(BitSetLike::rank(set, end), set.rank(end));
    assert_eq!(set.len_range(range.clone()), model.range(range).count());
    assert_eq!(set.select(at), model.iter().nth(at).copied());
    assert_eq!(
        set.last_before(end),
        model.range(..end).next_back().copied()
    );
    assert!(set.iter_rev().eq(model.iter().rev().copied()));
    assert!(set
        .iter_rev_before(end)
        .eq(model.range(..end).rev().copied()));
}

/// Makes one random change to both.
fn change(numbers: &mut Numbers, bound: Index, set: &mut SparseBitSet, model: &mut Model) {
    let index = numbers.below(bound);
    let range = numbers.range_below(bound);
    match numbers.below(44) {
        0..=11 => assert_eq!(set.add(index), !model.insert(index)),
        12..=17 => assert_eq!(set.remove(index), model.remove(&index)),
        18 => assert_eq!(set.try_add(index), Ok(!model.insert(index))),
        19..=21 => {
            set.add_range(range.clone());
            model.extend(range);
        }
        22..=24 => {
            set.remove_range(range.clone());
            model.retain(|i| !range.contains(i));
        }
        25..=26 => {
            set.flip_range(range.clone());
            *model = &*model ^ &range.collect();
        }
        27 => {
            let count = numbers.below(300) as usize;
            let drained: Vec<Index> = set.drain().take(count).collect();
            assert!(drained.iter().eq(model.iter().take(count)));
            model.retain(|i| drained.last().is_none_or(|last| i > last));
        }
        28 if numbers.below(4) == 0 => {
            set.clear();
            model.clear();
        }
        29..=31 => {
            let more: Vec<Index> = (0..50).map(|_| numbers.below(bound)).collect();
            set.extend(&more);
            model.extend(&more);
        }
        32 => *set = set.clone(),
        33 => set.shrink_to_fit(),
        34 => {
            set.retain(|i| i % 5 != 0);
            model.retain(|i| i % 5 != 0);
        }
        35 => assert_eq!(set.pop_first(), model.pop_first()),
        36 => assert_eq!(set.pop_last(), model.pop_last()),
        _ => assign(numbers, bound, set, model),
    }
}

/// Makes one of the four assignments.
fn assign_by<B: BitSetLike>(operation: Index, set: &mut SparseBitSet, other: &B) {
    match operation {
        0 => *set |= other,
        1 => *set ^= other,
        2 => *set -= other,
        _ => *set &= other,
    }
}

/// Makes one random assignment to both, by a sparse, a dense or a virtual set.
fn assign(numbers: &mut Numbers, bound: Index, set: &mut SparseBitSet, model: &mut Model) {
    let len = numbers.below(2000);
    let other: Model = (0..len).map(|_| numbers.below(bound)).collect();
    let sparse: SparseBitSet = other.iter().collect();
    let operation = numbers.below(4);
    match numbers.below(4) {
        0 => assign_by(operation, set, &sparse),
        // A dense set of any bound would take 136 MB.
        1 if bound <= 1 << 22 => assign_by(operation, set, &sparse.to_bit_set()),
        2 => assign_by(operation, set, &(&sparse & BitSetAll)),
        // These two read no more of the other set than of this one.
        3 if operation >= 2 => assign_by(operation, set, &!!&sparse),
        _ => assign_by(operation, set, &(&SparseBitSet::new() | &sparse)),
    }
    *model = match operation {
        0 => &*model | &other,
        1 => &*model ^ &other,
        2 => &*model - &other,
        _ => &*model & &other,
    };
}

#[test]
fn random_calls_answer_as_those_of_a_model() {
    for (seed, bound) in [(1, 64), (2, 5_000), (3, 300_000), (4, 1 << 22), (5, MAX)] {
        let mut numbers = Numbers::new(seed);
        let (mut set, mut model) = (SparseBitSet::new(), Model::new());
        for round in 0..400 {
            change(&mut numbers, bound, &mut set, &mut model);
            if round % 8 == 0 {
                assert_sparse(&set, &model);
                assert_order(&mut numbers, bound, &set, &model);
            }
        }
    }
}

#[test]
fn each_border_is_added_and_removed() {
    let (mut set, mut model) = (SparseBitSet::new(), Model::new());
    for index in BORDERS {
        assert!(!set.contains(index) && !set.add(index) && set.contains(index) && set.add(index));
        model.insert(index);
        for near in [index.saturating_sub(1), index, index + 1] {
            assert_at(&set, &model, near);
        }
        assert_sparse(&set, &model);
    }
    for index in BORDERS {
        assert!(set.remove(index) && !set.contains(index) && !set.remove(index));
        model.remove(&index);
        assert_sparse(&set, &model);
    }
    for index in BORDERS.into_iter().rev() {
        assert!(!set.add(index));
        model.insert(index);
    }
    assert_sparse(&set, &model);
    set.clear();
    assert_sparse(&set, &Model::new());
}

#[test]
fn one_border_alone_is_found() {
    let mut set = SparseBitSet::new();
    for index in BORDERS {
        set.add(index);
        assert_eq!(
            (set.first(), set.last(), set.len(), set.is_empty()),
            (Some(index), Some(index), 1, false)
        );
        assert_eq!((set.rank(index), set.rank(index + 1)), (0, 1));
        assert_eq!((set.select(0), set.select(1)), (Some(index), None));
        assert_eq!((&set).iter_from(index).next(), Some(index));
        assert_eq!((&set).iter_from(index + 1).next(), None);
        assert_eq!(BitSetAnd(&set, BitSetAll).to_vec(), [index]);
        assert_eq!(format!("{set:?}"), format!("{{{index}}}"));
        assert_eq!(set.drain().collect::<Vec<_>>(), [index]);
    }
}

#[test]
fn ranges_end_at_borders() {
    for pair in BORDERS[..9].windows(2) {
        let mut set = SparseBitSet::new();
        set.add_range(pair[0]..pair[1]);
        assert_eq!(set.len(), (pair[1] - pair[0]) as usize);
        assert_eq!(
            (set.first(), set.last()),
            (Some(pair[0]), Some(pair[1] - 1))
        );
        assert_eq!(set.first_gap(pair[0]), Some(pair[1]));
        set.flip_range(pair[0]..=pair[1]);
        assert_eq!(set.to_vec(), [pair[1]]);
        set.add_range(pair[0]..=pair[1]);
        set.remove_range(pair[0]..pair[1]);
        assert_eq!(set.to_vec(), [pair[1]]);
    }
}

#[test]
fn all_kinds_of_ranges_are_taken() {
    use std::ops::Bound::{Excluded, Included, Unbounded};
    let mut set = SparseBitSet::new();
    set.add_range(..3);
    set.add_range(10..=11);
    set.add_range((Excluded(20), Included(22)));
    set.add_range(MAX - 2..);
    assert_eq!(set.to_vec(), [0, 1, 2, 10, 11, 21, 22, MAX - 2, MAX - 1]);
    set.flip_range(MAX - 1..=MAX - 1);
    set.remove_range((Excluded(10), Unbounded));
    set.remove_range(..=1);
    assert_eq!(set.to_vec(), [2, 10]);
    assert_eq!((set.len_range(..), set.len_range(3..=10)), (2, 1));
    #[allow(clippy::reversed_empty_ranges)]
    set.remove_range(11..2);
    set.remove_range((Excluded(Index::MAX), Unbounded));
    set.remove_range(MAX..=Index::MAX);
    set.flip_range(5..5);
    set.add_range(MAX..);
    assert_eq!(set.to_vec(), [2, 10]);
    set.remove_range(0..=Index::MAX);
    assert!(set.is_empty() && set == SparseBitSet::default());
}

#[test]
fn indices_past_the_range_are_in_no_set() {
    let set: SparseBitSet = (0..100).chain([MAX - 1]).collect();
    for index in [MAX, MAX + 1, Index::MAX] {
        assert!(!set.contains(index) && !BitSetLike::contains(&set, index));
        assert!(!set.clone().remove(index));
        assert_eq!(
            ((&set).iter_from(index).next(), set.first_gap(index)),
            (None, None)
        );
        assert_eq!(
            (set.rank(index), set.last_before(index)),
            (101, Some(MAX - 1))
        );
    }
    for word in [MAX_EID / 64, usize::MAX] {
        assert_eq!(set.layer0(word) | set.layer1(word) | set.layer2(word), 0);
        assert_eq!(set.layer3(word), 0);
    }
}

#[test]
fn a_panic_leaves_the_members() {
    let mut set = SparseBitSet::from([1, 2]);
    let calls: [fn(&mut SparseBitSet, Index); 9] = [
        |set, index| _ = set.add(index),
        |set, index| _ = set.try_add(index),
        |set, index| set.extend([2, index, 3]),
        |set, index| _ = set.try_extend([2, index, 3]),
        |_, index| drop(SparseBitSet::from([2, index, 3])),
        |set, index| set.add_range(5..=index),
        |set, index| _ = set.try_add_range(index..=index),
        |set, index| set.flip_range(0..=index),
        |set, index| _ = set.try_flip_range(5..=index),
    ];
    for index in [MAX, MAX + 1, Index::MAX] {
        for (number, call) in calls.iter().enumerate() {
            let panic = catch_unwind(AssertUnwindSafe(|| call(&mut set, index)));
            let message = *panic
                .expect_err("the call returned")
                .downcast::<String>()
                .expect("the panic has a text");
            let wanted = match number {
                0..=4 => format!("the index {index} is out of range: indices lie below {MAX}"),
                _ => format!("the bound {} is out of range", u64::from(index) + 1),
            };
            assert!(message.contains(&wanted), "{message}");
            assert_eq!(set.to_vec(), [1, 2]);
        }
    }
    assert!(catch_unwind(|| set.get_from_layer(5, 0)).is_err());
    let items = (0..1000).chain([MAX, 5_000]);
    assert!(catch_unwind(AssertUnwindSafe(|| set.extend(items))).is_err());
    assert!((&set).into_iter().eq(0..1000));
}

#[test]
fn sets_of_other_types_are_mixed_in() {
    for bound in [5_000, 300_000, 1 << 22] {
        let mut numbers = Numbers::new(11);
        let (a, _, x) = set_of(&mut numbers, 3_000, bound);
        let (b, dense, y) = set_of(&mut numbers, 2_000, bound);
        assert_members(&(&a & &b), &(&x & &y));
        assert_members(&(&a & &dense), &(&x & &y));
        assert_members(&(&dense | &a), &(&x | &y));
        assert_members(&(&a ^ &dense), &(&x ^ &y));
        assert_members(&(&a - &b), &(&x - &y));
        assert_members(&(&dense - &a), &(&y - &x));
        assert_members(&(!&a & &b), &(&y - &x));
        assert_members(&(a.clone() & b.clone()), &(&x & &y));
        assert_members(&(a.clone() | &dense), &(&x | &y));
        assert_members(&(a.clone() - (b.clone() ^ &a)), &(&x & &y));
        let range = BitSetRange { start: 5, end: 900 };
        let within: Model = x.range(5..900).copied().collect();
        assert_members(&(&a & range), &within);
        let dynamic: &dyn BitSetLike = &a;
        assert_members(&BitSetAnd(dynamic, &dense), &(&x & &y));
        let mut sum = dense.clone();
        sum |= &a;
        assert_members(&sum, &(&x | &y));
        sum -= &b;
        assert_members(&sum, &(&x - &y));
        assert_eq!(a.to_bit_set(), x.iter().collect());
        assert!((a & dense).into_iter().eq(&x & &y));
    }
}

#[test]
fn two_sparse_sets_are_combined_in_place() {
    let a = BTreeSet::from([1, 2, 70_000, 1 << 20, MAX - 1]);
    let b = BTreeSet::from([2, 3, 70_000, 1 << 25]);
    let other = SparseBitSet::from_iter(&b);
    let combined = |combine: fn(&mut SparseBitSet, &SparseBitSet)| {
        let mut set = SparseBitSet::from_iter(&a);
        combine(&mut set, &other);
        set.to_vec()
    };
    assert!((&a | &b).into_iter().eq(combined(SparseBitSet::union_with)));
    assert!((&a ^ &b)
        .into_iter()
        .eq(combined(SparseBitSet::symmetric_difference_with)));
    assert!((&a & &b)
        .into_iter()
        .eq(combined(SparseBitSet::intersect_with)));
    assert!((&a - &b)
        .into_iter()
        .eq(combined(SparseBitSet::difference_with)));
    assert!((&a - &b)
        .into_iter()
        .eq(combined(|set, other| set.subtract_assign(other))));
    assert_eq!(
        combined(|set, other| set.try_union_with(other).unwrap()).len(),
        7
    );
    assert_eq!(
        combined(|set, other| set.try_symmetric_difference_with(other).unwrap()).len(),
        5
    );
}

#[test]
fn an_iterator_says_what_is_left() {
    let set: SparseBitSet = (0..3_000).map(|i| i * 700).collect();
    let mut members = (&set).into_iter();
    for left in (0..=3_000).rev() {
        let (least, most) = members.size_hint();
        assert!(least <= left && left <= most.expect("a limit"));
        assert_eq!(members.next().is_some(), left > 0);
    }
    let few = SparseBitSet::from([5, 6]);
    assert_eq!(format!("{:?}", (&few).into_iter()), "[5, 6]");
    assert_eq!((few.memory(), SparseBitSet::new().memory()), (96, 0));
}

#[test]
fn sets_are_made_of_others() {
    let mut numbers = Numbers::new(12);
    for bound in [64, 300_000, 1 << 24] {
        let (set, dense, model) = set_of(&mut numbers, 1_000, bound);
        assert_sparse(&set, &model);
        assert_sparse(&SparseBitSet::from_set(&dense), &model);
        assert_sparse(&SparseBitSet::from_set(&&set), &model);
        let none = SparseBitSet::new();
        let made = SparseBitSet::try_from_set(&(&set | (&none & &dense)));
        assert_sparse(&made.expect("there is memory"), &model);
        assert_sparse(&set.clone(), &model);
        assert_sparse(&(&set).into_iter().collect(), &model);
    }
    assert_eq!(
        SparseBitSet::from_set(&BitSetRange { start: 3, end: 7 }).to_vec(),
        [3, 4, 5, 6]
    );
}

#[test]
fn two_sets_compare_as_their_models() {
    let mut numbers = Numbers::new(6);
    for round in 0..200 {
        let bound = [100, 5_000, MAX][round % 3];
        let a_model: Model = (0..6).map(|_| numbers.below(bound)).collect();
        let mut b_model: Model = (0..round % 7).map(|_| numbers.below(bound)).collect();
        if round % 4 == 0 {
            b_model.extend(&a_model);
        }
        let a: SparseBitSet = a_model.iter().collect();
        let b: SparseBitSet = b_model.iter().collect();
        assert_eq!(
            (a == b, a.cmp(&b)),
            (a_model == b_model, a_model.cmp(&b_model))
        );
        assert_eq!(a.is_subset(&b), a_model.is_subset(&b_model));
        assert_eq!(b.contains_set(&a), b_model.is_superset(&a_model));
        assert_eq!(a.is_disjoint(&b), a_model.is_disjoint(&b_model));
    }
}

#[test]
fn a_sparse_set_hashes_as_a_dense_one() {
    fn hash(set: &impl Hash) -> u64 {
        let mut hasher = DefaultHasher::new();
        set.hash(&mut hasher);
        hasher.finish()
    }
    let mut numbers = Numbers::new(13);
    let mut sets = HashSet::new();
    for len in 0..50 {
        let (mut set, dense, _) = set_of(&mut numbers, len, 1 << 20);
        assert_eq!(hash(&set), hash(&dense));
        sets.insert(set.clone());
        set.add(1 << 20);
        set.remove(1 << 20);
        assert!(sets.contains(&set));
    }
}

#[test]
fn an_iterator_is_cloned_where_it_is() {
    let members: Vec<Index> = (0..300)
        .chain((3..12).map(|i| i * 131_072 + 5))
        .chain([MAX - 1])
        .collect();
    let set: SparseBitSet = members.iter().collect();
    let mut iter = (&set).into_iter();
    for given in 0..=members.len() {
        let (least, most) = iter.size_hint();
        let left = members.len() - given;
        assert!(least <= left && left <= most.expect("a limit"));
        assert!(iter.clone().eq(members[given..].iter().copied()));
        assert_eq!(iter.clone().count(), left);
        assert_eq!(format!("{iter:?}"), format!("{:?}", &members[given..]));
        assert_eq!(iter.next(), members.get(given).copied());
    }
    assert_eq!(
        (iter.next(), iter.next(), iter.size_hint()),
        (None, None, (0, Some(0)))
    );
    assert!(BitIterBoth::new(&set)
        .rev()
        .eq(members.iter().rev().copied()));
    assert!(set.iter_both().eq(members.iter().copied()));
    assert!(set.into_iter().eq(members));
}

#[test]
fn a_drain_that_is_dropped_leaves_the_rest() {
    let mut set: SparseBitSet = (0..1000).map(|i| 1000 * i).collect();
    for index in set.drain() {
        if index == 499_000 {
            break;
        }
    }
    assert!((&set).into_iter().eq((500..1000).map(|i| 1000 * i)));
    assert_eq!(DrainableBitSet::drain(&mut set).count(), 500);
    assert!(set.is_empty());
}

#[test]
fn counts_beside_a_set_are_exact() {
    let mut numbers = Numbers::new(14);
    let (set, _, model) = set_of(&mut numbers, 2_000, 1 << 20);
    let ranked = Ranked::new(&set);
    for end in [0, 1, 4_095, 4_096, 262_144, 1 << 20, MAX] {
        assert_eq!(ranked.rank(end), model.range(..end).count());
    }
    for (at, &member) in model.iter().enumerate() {
        assert_eq!(ranked.select(at), Some(member));
    }
}

#[cfg(feature = "parallel")]
#[test]
fn threads_share_a_walk() {
    use hibitset::BitParIter;
    use rayon::iter::ParallelIterator;
    let set: SparseBitSet = (0..5_000).map(|i| i * 97_001 % MAX).collect();
    let walk: BitParIter<&SparseBitSet> = (&set).par_iter();
    assert_eq!(walk.count(), set.len());
    let mut members: Vec<Index> = (&set).par_iter().collect();
    members.sort_unstable();
    assert_eq!(members, set.to_vec());
}

#[test]
fn types_have_traits() {
    fn assert_fused<T: FusedIterator + Clone + Debug>() {}
    assert_fused::<SparseIter>();
    fn assert_drain<T: FusedIterator>() {}
    assert_drain::<DrainBitIter<SparseBitSet>>();
    fn assert_collection<'a, T>()
    where
        T: 'a
            + IntoIterator<Item = Index>
            + From<[Index; 3]>
            + From<&'a BitSet>
            + FromIterator<Index>
            + FromIterator<&'a Index>,
        T: Extend<Index> + Extend<&'a Index> + Default + Debug,
        T: Clone + Ord + Hash + Send + Sync,
        &'a T: IntoIterator<Item = Index>,
    {
    }
    assert_collection::<SparseBitSet>();
    assert_eq!(
        format!("{:?}", SparseBitSet::from([MAX - 1, 5])),
        "{5, 1073741823}"
    );
    assert_eq!(format!("{:?}", SparseBitSet::default()), "{}");
}
