//! Panics of another set and of closures, at each point in turn: the set's summaries stay those of its words.

use std::cell::Cell;
use std::collections::BTreeSet;
use std::panic::{catch_unwind, resume_unwind, AssertUnwindSafe};

use hibitset::{BitSet, BitSetLike, Index, SparseBitSet};

/// Takes one of the calls that are left, and panics, without a message, if there is none.
fn take_one(left: &Cell<usize>) {
    match left.get().checked_sub(1) {
        Some(rest) => left.set(rest),
        None => resume_unwind(Box::new(())),
    }
}

/// A set that panics at one of its reads.
struct Failing<'a> {
    set: &'a BitSet,
    reads_left: Cell<usize>,
}

impl Failing<'_> {
    fn read<T>(&self, word: T) -> T {
        take_one(&self.reads_left);
        word
    }
}

impl BitSetLike for Failing<'_> {
    fn layer4(&self) -> usize {
        self.read(self.set.layer4())
    }

    fn layer3(&self, i: usize) -> usize {
        self.read(self.set.layer3(i))
    }

    fn layer2(&self, i: usize) -> usize {
        self.read(self.set.layer2(i))
    }

    fn layer1(&self, i: usize) -> usize {
        self.read(self.set.layer1(i))
    }

    fn layer0(&self, i: usize) -> usize {
        self.read(self.set.layer0(i))
    }

    fn contains(&self, i: Index) -> bool {
        self.read(self.set.contains(i))
    }
}

/// Compares the words of each layer with those of a set made anew of the words of layer 0.
fn assert_summed(set: &BitSet) {
    let anew = BitSet::from_words(set.layer0_as_slice());
    let above = |set: &BitSet| {
        [
            set.layer1_as_slice(),
            set.layer2_as_slice(),
            set.layer3_as_slice(),
        ]
        .map(|words| {
            let end = words
                .iter()
                .rposition(|&word| word != 0)
                .map_or(0, |last| last + 1);
            words[..end].to_vec()
        })
    };
    assert_eq!(above(set), above(&anew));
    assert_eq!((set.layer4(), set.len()), (anew.layer4(), anew.len()));
    assert!(set == &anew && set.is_empty() == anew.to_vec().is_empty());
}

/// A set that is summed takes an addition and gives it again.
fn assert_usable(set: &mut BitSet) {
    assert_summed(set);
    set.add(6);
    assert!(set.contains(6) && (&*set).iter().any(|index| index == 6));
    assert_summed(set);
}

type Assignment = fn(&mut BitSet, &Failing);

const ASSIGNMENTS: [Assignment; 7] = [
    |set, other| *set |= other,
    |set, other| *set &= other,
    |set, other| *set ^= other,
    |set, other| *set -= other,
    |set, other| _ = set.try_bitor_assign(other),
    |set, other| _ = set.try_bitxor_assign(other),
    |set, other| set.subtract_assign(other),
];

fn pairs() -> Vec<(BitSet, BitSet)> {
    let few = BitSet::from([300_000]);
    let spread: BitSet = (0..40).map(|i| i * 7_001).collect();
    let dense: BitSet = (0..5_000).filter(|i| i % 3 != 0).collect();
    vec![
        (few.clone(), BitSet::from([5, 70])),
        (BitSet::new(), spread.clone()),
        (spread.clone(), dense.clone()),
        (dense.clone(), spread.clone()),
        (dense.clone(), few),
        (
            dense.clone(),
            dense.iter_both().rev().filter(|i| i % 2 == 0).collect(),
        ),
    ]
}

/// Makes an assignment panic at one read. Returns false if it came to its end, and compares the set in either case.
fn fails_at(start: &BitSet, other: &BitSet, assign: Assignment, reads: usize) -> bool {
    let mut set = start.clone();
    let failing = Failing {
        set: other,
        reads_left: Cell::new(reads),
    };
    let result = catch_unwind(AssertUnwindSafe(|| assign(&mut set, &failing)));
    // Each word is merged or as it was.
    let mut merged = start.clone();
    assign(
        &mut merged,
        &Failing {
            set: other,
            reads_left: Cell::new(usize::MAX),
        },
    );
    for place in 0..set.layer0_as_slice().len() {
        let word = set.layer0(place);
        assert!(
            word == start.layer0(place) || word == merged.layer0(place),
            "word {place}"
        );
    }
    assert!(result.is_err() || set == merged);
    assert_usable(&mut set);
    result.is_err()
}

#[test]
fn a_panic_at_each_read_of_another_set() {
    let mut panics = 0;
    for (start, other) in pairs() {
        for assign in ASSIGNMENTS {
            panics += (0..)
                .take_while(|&reads| fails_at(&start, &other, assign, reads))
                .count();
        }
    }
    assert!(panics > 500, "{panics} panics");
}

/// Calls a function that panics at its call number `calls`.
fn failing<T>(calls: usize, mut call: impl FnMut(T) -> bool) -> impl FnMut(T) -> bool {
    let left = Cell::new(calls);
    move |item| {
        take_one(&left);
        call(item)
    }
}

#[test]
fn a_panic_in_each_call_of_a_closure() {
    let start: BitSet = (0..60).map(|i| i * 997 % 30_000).chain([300_000]).collect();
    type Change = fn(&mut BitSet, usize);
    let changes: [Change; 5] = [
        |set, calls| set.retain(failing(calls, |index: Index| index % 2 == 0)),
        |set, calls| {
            let mut seen = failing(calls, |_| true);
            set.drain().for_each(|index| _ = seen(index));
        },
        |set, calls| {
            let mut seen = failing(calls, |_| true);
            set.extend((0..61).map(|i| i * 7_103).inspect(|&index| _ = seen(index)));
        },
        |set, calls| {
            let mut seen = failing(calls, |_| true);
            _ = set.try_extend((0..61).inspect(|&index| _ = seen(index)));
        },
        |set, calls| {
            let mut seen = failing(calls, |_| true);
            *set = (0..61).inspect(|&index| _ = seen(index)).collect();
        },
    ];
    for change in changes {
        for calls in 0..61 {
            let mut set = start.clone();
            let result = catch_unwind(AssertUnwindSafe(|| change(&mut set, calls)));
            assert!(result.is_err(), "call {calls}");
            assert_usable(&mut set);
        }
        let mut set = start.clone();
        change(&mut set, 61);
        assert_usable(&mut set);
    }
}

#[test]
fn a_drain_that_is_left_early() {
    let start: BitSet = (0..100).map(|i| i * 997).collect();
    let members: BTreeSet<Index> = start.iter_both().collect();
    for count in 0..=start.len() {
        let mut set = start.clone();
        assert!(set
            .drain()
            .take(count)
            .eq(members.iter().copied().take(count)));
        assert!((&set).iter().eq(members.iter().copied().skip(count)));
        assert_usable(&mut set);
    }
}

/// Gives other words at each read: no set has them.
struct Unlawful(Cell<u64>);

impl Unlawful {
    fn word(&self) -> usize {
        let mut word = self.0.get();
        word ^= word << 13;
        word ^= word >> 7;
        word ^= word << 17;
        self.0.set(word);
        (word & word.rotate_left(23) & word.rotate_left(41) & word.rotate_left(11)) as usize
    }
}

impl BitSetLike for Unlawful {
    fn layer4(&self) -> usize {
        self.word() & 1
    }

    fn layer3(&self, _: usize) -> usize {
        self.word() & 0xF
    }

    fn layer2(&self, _: usize) -> usize {
        self.word()
    }

    fn layer1(&self, _: usize) -> usize {
        self.word()
    }

    fn layer0(&self, _: usize) -> usize {
        self.word()
    }

    fn contains(&self, _: Index) -> bool {
        self.word() & 1 == 1
    }
}

#[test]
fn a_set_that_breaks_the_law_leaves_exact_summaries() {
    for seed in 1..20 {
        let mut set: BitSet = (0..60_000)
            .step_by(7)
            .chain([300_000, 20_000_000])
            .collect();
        let other = Unlawful(Cell::new(seed * 77_777));
        let assign: [fn(&mut BitSet, &Unlawful); 4] = [
            |a, b| *a |= b,
            |a, b| *a ^= b,
            |a, b| *a &= b,
            |a, b| *a -= b,
        ];
        for assign in assign {
            _ = catch_unwind(AssertUnwindSafe(|| assign(&mut set, &other)));
            assert_summed(&set);
        }
    }
}

/// Compares the words of each layer with those of a sparse set made anew of the members.
fn assert_sparse_summed(set: &SparseBitSet) {
    let anew: SparseBitSet = set.iter().collect();
    assert_eq!(set.layer4(), anew.layer4());
    assert!((0..64).all(|i| set.layer3(i) == anew.layer3(i)));
    assert!((0..4_096).all(|i| set.layer2(i) == anew.layer2(i)));
    assert!((0..262_144).all(|i| set.layer1(i) == anew.layer1(i)));
    assert!(*set == anew && set.len() == anew.len());
    assert!(BitSetLike::iter(set).eq(set.iter()));
}

type SparseAssignment = fn(&mut SparseBitSet, &Failing);

#[test]
fn a_sparse_set_has_its_old_members_or_none_if_another_panics() {
    // Whether the old members stay: `&=` and `-=` change the words in place, so theirs are gone.
    let assignments: [(bool, Assignment, SparseAssignment); 4] = [
        (true, |set, other| *set |= other, |set, other| *set |= other),
        (
            false,
            |set, other| *set &= other,
            |set, other| *set &= other,
        ),
        (true, |set, other| *set ^= other, |set, other| *set ^= other),
        (
            false,
            |set, other| *set -= other,
            |set, other| *set -= other,
        ),
    ];
    let mut panics = 0;
    for (dense, other) in pairs() {
        let start = SparseBitSet::from(&dense);
        for (stay, assign_dense, assign) in assignments {
            for reads in 0.. {
                let failing = |reads_left| Failing {
                    set: &other,
                    reads_left: Cell::new(reads_left),
                };
                let mut set = start.clone();
                let call = AssertUnwindSafe(|| assign(&mut set, &failing(reads)));
                if catch_unwind(call).is_ok() {
                    let mut merged = dense.clone();
                    assign_dense(&mut merged, &failing(usize::MAX));
                    assert_eq!(set, SparseBitSet::from(&merged));
                    break;
                }
                assert!(
                    if stay { set == start } else { set.is_empty() },
                    "read {reads}"
                );
                panics += 1;
            }
        }
    }
    assert!(panics > 300, "{panics} panics");
}

#[test]
fn a_set_that_breaks_the_law_leaves_a_sparse_set_with_exact_summaries() {
    for seed in 1..8 {
        let mut set: SparseBitSet = (0..6_000).step_by(7).chain([300_000, 20_000_000]).collect();
        let other = Unlawful(Cell::new(seed * 77_777));
        let assign: [fn(&mut SparseBitSet, &Unlawful); 4] = [
            |a, b| *a |= b,
            |a, b| *a ^= b,
            |a, b| *a &= b,
            |a, b| *a -= b,
        ];
        for assign in assign {
            _ = catch_unwind(AssertUnwindSafe(|| assign(&mut set, &other)));
            assert_sparse_summed(&set);
        }
    }
}
