//! Sets that threads add to by `&`, while others look and iterate.

mod common;

use std::collections::BTreeSet;
use std::sync::atomic::{AtomicBool, AtomicUsize, Ordering};
use std::sync::Barrier;
use std::thread;

use common::Numbers;
use hibitset::{
    AtomicBitSet, BitSet, BitSetLike, BitSetLikeExt, DrainableBitSet, Index, ATOMIC_MAX_EID,
};

const END: Index = ATOMIC_MAX_EID as Index;

/// Adds the items of a list, and returns how many were new.
fn add_all(set: &AtomicBitSet, list: &[Index]) -> usize {
    let mut fresh = 0;
    for &index in list {
        fresh += usize::from(!set.add_atomic(index));
        assert!(set.contains(index) && set.add_atomic(index));
    }
    // An iteration gives what the thread added, whatever others do.
    let seen: BitSet = set.iter().collect();
    assert!(list.iter().all(|&index| seen.contains(index)));
    fresh
}

#[test]
fn each_index_is_new_once_and_none_is_lost() {
    for round in 0..20 {
        let old = [3, 70_000];
        let mut set = AtomicBitSet::from(old);
        let lists = [0, 1, 0, 1].map(|list| {
            let mut numbers = Numbers::new(10 * round + list);
            (0..5_000)
                .map(|_| numbers.below(END >> (round % 16)))
                .collect::<Vec<_>>()
        });
        let fresh = AtomicUsize::new(0);
        thread::scope(|scope| {
            for list in &lists {
                scope.spawn(|| fresh.fetch_add(add_all(&set, list), Ordering::Relaxed));
            }
        });
        let model: BTreeSet<Index> = lists.iter().flatten().copied().chain(old).collect();
        assert!((&set).iter().eq(model.iter().copied()));
        assert_eq!(fresh.into_inner(), model.len() - old.len());
        for &index in model.iter().step_by(2) {
            assert!(set.remove(index) && !set.contains(index) && !set.remove(index));
        }
        assert!((&set).iter().eq(model.iter().copied().skip(1).step_by(2)));
        assert_eq!(set.drain().count(), model.len() / 2);
        assert!(set.is_empty() && set.layer4() == 0);
    }
}

#[test]
fn threads_meet_at_the_first_addition() {
    for round in 0..200 {
        let (set, start) = (AtomicBitSet::new(), Barrier::new(4));
        let fresh = AtomicUsize::new(0);
        thread::scope(|scope| {
            for thread in 0..4 {
                let (set, start, fresh) = (&set, &start, &fresh);
                scope.spawn(move || {
                    start.wait();
                    let is_there = set.contains(round);
                    let was_there = set.add_atomic(round);
                    assert!(was_there || !is_there);
                    fresh.fetch_add(usize::from(!was_there), Ordering::Relaxed);
                    assert!(!set.add_atomic(1_000 + thread) && set.contains(round));
                });
            }
        });
        assert_eq!((fresh.into_inner(), set.len()), (1, 5));
    }
}

#[test]
fn an_addition_is_seen_by_what_it_happens_before() {
    let set = &AtomicBitSet::new();
    let done = AtomicUsize::new(0);
    const COUNT: Index = 30_000;
    let index_of = |at: Index| at.wrapping_mul(0x9E37_79B1) >> 8;
    thread::scope(|scope| {
        scope.spawn(|| {
            for at in 0..COUNT {
                set.add_atomic(index_of(at));
                done.store(at as usize + 1, Ordering::Release);
            }
        });
        scope.spawn(|| loop {
            let count = done.load(Ordering::Acquire) as Index;
            if count > 0 {
                assert!(set.contains(index_of(count - 1)) && set.add_atomic(index_of(count - 1)));
                let next = set.iter_from(index_of(count - 1)).next();
                assert_eq!(next, Some(index_of(count - 1)));
            }
            if count % 1_000 == 0 {
                let seen: BitSet = set.iter().collect();
                assert!((0..count).all(|at| seen.contains(index_of(at))));
            }
            if count == COUNT {
                break;
            }
        });
    });
}

/// What is in a set that threads add to: what they add meanwhile may be given or not.
struct Growing<'a> {
    set: &'a AtomicBitSet,
    old: BitSet,
    /// All that is ever added, with the old ones.
    all: BitSet,
}

impl Growing<'_> {
    /// A list that ascends has each old index and none that is not added.
    fn assert_list(&self, list: &[Index]) {
        assert!(list.windows(2).all(|pair| pair[0] < pair[1]));
        let list: BitSet = list.iter().collect();
        assert!(list.contains_set(&self.old) && self.all.contains_set(&list));
    }

    fn assert_number(&self, count: usize) {
        assert!((self.old.len()..=self.all.len()).contains(&count));
    }

    /// Calls that read no word of the set twice, or of which the list is covered.
    fn look(&self, other: &BitSet) {
        let set = self.set;
        self.assert_list(&set.iter().collect::<Vec<_>>());
        self.assert_list(&set.to_vec());
        self.assert_list(
            &set.iter_rev()
                .collect::<BTreeSet<_>>()
                .into_iter()
                .collect::<Vec<_>>(),
        );
        self.assert_number(set.len());
        assert!(
            set.first() <= self.old.first() && set.last() >= self.old.last() && !set.is_empty()
        );
        let both: BitSet = (set & other).iter().collect();
        assert!(both.contains_set(&(other & &self.old).to_bit_set()) && other.contains_set(&both));
        let without: BitSet = (other - set).iter().collect();
        assert!(
            without.contains_set(&(other - &self.all).to_bit_set())
                && without.is_disjoint(&self.old)
        );
        #[cfg(feature = "parallel")]
        {
            use rayon::iter::ParallelIterator;
            let mut list: Vec<Index> = set.par_iter().collect();
            list.sort_unstable();
            self.assert_list(&list);
        }
    }

    /// Calls whose answers may be of two moments: they return, and give what was added.
    fn look_twice(&self, other: &BitSet) {
        let set = self.set;
        let selected = [
            set.select(100),
            set.select(1 << 16),
            set.last_before(END / 2),
        ];
        assert!(selected
            .into_iter()
            .flatten()
            .all(|index| self.all.contains(index)));
        let (same, set_too) = (set, set);
        assert!(self.all.contains_set(&(same ^ set_too).to_bit_set()));
        assert!(set.rank(END) <= self.all.len() && set.len_range(5, END / 4) <= self.all.len());
        let mut copy = other.clone();
        copy |= set;
        assert!(copy.contains_set(other) && copy.contains_set(&self.old));
        copy -= set;
        assert!(copy.is_disjoint(&self.old));
        copy.clone_from(other);
        copy &= set;
        assert!(
            copy.contains_set(&(other & &self.old).to_bit_set()) && self.all.contains_set(&copy)
        );
    }
}

#[test]
fn looks_at_a_set_that_grows() {
    let mut numbers = Numbers::new(7);
    let old: BitSet = (0..2_000).map(|i| i * 4_099 % END).collect();
    let lists = [16, 24].map(|bits| {
        (0..30_000)
            .map(|_| numbers.below(1 << bits))
            .collect::<Vec<_>>()
    });
    let other: BitSet = (0..1 << 18).step_by(3).collect();
    let set: AtomicBitSet = (&old).into_iter().collect();
    let all = (&old)
        .into_iter()
        .chain(lists.iter().flatten().copied())
        .collect();
    let growing = Growing {
        set: &set,
        old,
        all,
    };
    let done = AtomicBool::new(false);
    thread::scope(|scope| {
        let adders = lists
            .each_ref()
            .map(|list| scope.spawn(|| add_all(&set, list)));
        for _ in 0..2 {
            scope.spawn(|| loop {
                let is_last = done.load(Ordering::Acquire);
                growing.look(&other);
                growing.look_twice(&other);
                if is_last {
                    break;
                }
            });
        }
        for adder in adders {
            adder.join().expect("the thread ended");
        }
        done.store(true, Ordering::Release);
    });
    assert_eq!(set.to_bit_set(), growing.all);
}
