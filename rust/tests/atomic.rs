//! Atomic sets held alone beside a set of std, and shared ones from many threads.

mod common;

use std::collections::BTreeSet;
use std::thread;

use common::Numbers;
use hibitset::{
    AtomicBitSet, BitSet, BitSetLike, BitSetLikeExt, DrainableBitSet, Index, Seat, ATOMIC_MAX_EID,
    MAX_EID,
};

fn assert_members(set: &AtomicBitSet, model: &BTreeSet<Index>) {
    assert_eq!(set.len(), model.len());
    assert_eq!(set.is_empty(), model.is_empty());
    assert_eq!(set.first(), model.first().copied());
    assert_eq!(set.last(), model.last().copied());
    assert_eq!(set.to_vec(), Vec::from_iter(model.iter().copied()));
    assert!(set.into_iter().eq(model.iter().copied()));
}

#[test]
fn random_changes() {
    let mut numbers = Numbers::new(5);
    let (mut set, mut model) = (AtomicBitSet::new(), BTreeSet::new());
    for round in 0..200 {
        let span = 1 << (6 + round % 19);
        for _ in 0..100 {
            let index = numbers.below(span);
            assert_eq!(set.contains(index), model.contains(&index));
            if numbers.below(3) == 0 {
                assert_eq!(set.remove(index), model.remove(&index));
            } else {
                assert_eq!(set.add(index), !model.insert(index));
            }
        }
        if round % 50 == 49 {
            set.clear();
            model.clear();
        }
        assert_members(&set, &model);
    }
}

#[test]
fn it_is_an_operand_like_any_other() {
    let atomic: AtomicBitSet = [1, 20, 300, 70_000].iter().collect();
    let set: BitSet = (0..400).collect();
    assert_eq!((&atomic & &set).to_vec(), [1, 20, 300]);
    assert_eq!((&atomic - &set).to_vec(), [70_000]);
    assert_eq!((&set | &atomic).len(), 401);
    assert_eq!((!&atomic).len(), MAX_EID - 4);
    assert!((&atomic).iter_from(21).eq([300, 70_000]));
    assert!(atomic.is_subset(&atomic) && !atomic.is_disjoint(&set));
    assert_eq!(atomic.to_bit_set(), BitSet::from_iter([1, 20, 300, 70_000]));
    let mut other = set.clone();
    other &= &atomic;
    assert_eq!(other.to_vec(), [1, 20, 300]);
}

#[test]
fn its_words_are_read_by_layer() {
    let set = AtomicBitSet::from_iter([0, 64, 5_000, 300_000]);
    let same = BitSet::from_iter([0, 64, 5_000, 300_000]);
    for layer in 0..5 {
        for position in (0..5_000).chain([1 << 24, usize::MAX]) {
            assert_eq!(
                set.get_from_layer(layer, position),
                same.get_from_layer(layer, position)
            );
        }
    }
}

#[test]
fn it_is_drained_and_printed() {
    let mut set = AtomicBitSet::default();
    set.extend([5, 70_000]);
    set.extend(&[6]);
    assert_eq!(format!("{set:?}"), "{5, 6, 70000}");
    assert!(set.drain().take(2).eq([5, 6]));
    assert!(set.into_iter().eq([70_000]));
}

#[test]
#[should_panic(expected = "the index 16777216 is out of range")]
fn an_index_past_the_range_panics() {
    AtomicBitSet::new().add(ATOMIC_MAX_EID as Index);
}

#[test]
#[should_panic(expected = "the index 16777216 is out of range")]
fn an_index_past_the_range_panics_where_memory_may_fail() {
    let _ = AtomicBitSet::new().try_add(ATOMIC_MAX_EID as u32);
}

#[test]
#[should_panic(expected = "the index 16777216 is out of range: indices lie below 16777216")]
fn an_index_past_the_range_panics_by_reference() {
    AtomicBitSet::new().add_atomic(ATOMIC_MAX_EID as Index);
}

#[test]
#[should_panic(expected = "the index 16777216 is out of range")]
fn a_shared_index_past_the_range_panics() {
    AtomicBitSet::new()
        .share()
        .add_atomic(ATOMIC_MAX_EID as Index);
}

#[test]
fn an_addition_that_may_fail_says_what_was_there() {
    let mut set = AtomicBitSet::new();
    for (index, was) in [(5, false), (5, true), (70_000, false), (5, true)] {
        assert_eq!(set.try_add(index), Ok(was));
    }
    assert_eq!(set.to_vec(), [5, 70_000]);
}

#[test]
fn a_seat_adds_and_looks() {
    let seat = AtomicBitSet::from_iter([3]).share();
    assert!(seat.is_whole() && seat.contains(3) && !seat.contains(4));
    assert!(seat.add_atomic(3) && !seat.add_atomic(4) && seat.add_atomic(4));
    assert!(!seat.contains(Index::MAX));
    let other = seat.divide().expect("the seat has more than one share");
    assert!(other.contains(4) && !seat.is_whole() && !other.add_atomic(70_000));
    let seat = seat.settle().expect_err("there is another seat");
    drop(seat);
    assert_eq!(other.to_bit_set().to_vec(), [3, 4, 70_000]);
    let mut set = BitSet::from_iter([1]);
    other.collect_into(&mut set);
    assert_eq!(set.len(), 4);
    let mut set = other.settle().expect("it is the last seat");
    assert_eq!(set.to_vec(), [3, 4, 70_000]);
    assert!(set.remove(4) && !set.add(5));
}

#[test]
fn a_seat_is_divided_to_its_last_share() {
    let seat = AtomicBitSet::new().share();
    let others: Vec<Seat> = (0..16)
        .map(|_| seat.divide().expect("there are shares"))
        .collect();
    assert!(seat.divide().is_none());
    others[15].add_atomic(8);
    drop(others);
    assert_eq!(format!("{seat:?}"), "Seat { .. }");
    assert_eq!(seat.divide_among(1).len(), 1);
}

#[test]
#[should_panic(expected = "the seat has fewer shares than seats are asked for")]
fn a_seat_of_one_share_is_not_divided_among_two() {
    let seat = AtomicBitSet::new().share();
    let others: Vec<Seat> = core::iter::from_fn(|| seat.divide()).collect();
    assert_eq!(others.len(), 16);
    let _ = seat.divide_among(2);
}

#[test]
fn types_go_to_other_threads() {
    fn assert_sent<T: Send>() {}
    fn assert_shared<T: Send + Sync>() {}
    assert_shared::<AtomicBitSet>();
    assert_sent::<Seat>();
}

#[test]
fn threads_add_to_one_set() {
    const END: Index = 60_000;
    let seats = AtomicBitSet::from_iter([1, 30]).share().divide_among(5);
    let mut adders = Vec::new();
    for (step, seat) in [2, 3, 5, 1, 1].into_iter().zip(seats) {
        adders.push(thread::spawn(move || {
            let mut fresh = 0;
            for index in (0..END).step_by(step) {
                fresh += u32::from(!seat.add_atomic(index));
                assert!(seat.contains(index));
            }
            let seen = seat.to_bit_set();
            assert!(seen.contains(1) && (0..END).step_by(step).all(|i| seen.contains(i)));
            (seat, fresh)
        }));
    }
    let (mut seats, fresh): (Vec<_>, Vec<_>) = adders
        .into_iter()
        .map(|adder| adder.join().expect("the thread ended"))
        .unzip();
    // Each index was new to one call alone.
    assert_eq!(fresh.iter().sum::<u32>(), END - 2);
    let last = seats.pop().expect("there are seats");
    drop(seats);
    let set = last.settle().expect("the others are dropped");
    assert!(set.into_iter().eq(0..END));
}
