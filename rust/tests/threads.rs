//! Threads that read one set at once, and sets that go from thread to thread.

use std::panic::{RefUnwindSafe, UnwindSafe};
use std::sync::{Arc, RwLock};
use std::thread;

use hibitset::{
    AllocError, BitIter, BitSet, BitSetAll, BitSetAnd, BitSetLike, BitSetNot, DrainBitIter,
};

#[test]
fn types_go_to_other_threads() {
    fn assert_shared<T: Send + Sync + UnwindSafe + RefUnwindSafe>() {}
    assert_shared::<BitSet>();
    assert_shared::<&BitSet>();
    assert_shared::<BitIter<&BitSet>>();
    assert_shared::<BitSetAnd<&BitSet, BitSetNot<BitSet>>>();
    assert_shared::<BitSetAll>();
    assert_shared::<AllocError>();
    fn assert_sent<T: Send + Sync>() {}
    assert_sent::<DrainBitIter<BitSet>>();
}

#[test]
fn threads_read_one_set() {
    let set: BitSet = (0..100_000).filter(|i| i % 3 == 0).collect();
    let other: BitSet = (0..100_000).filter(|i| i % 5 == 0).collect();
    let sum: u64 = (&set).iter().map(u64::from).sum();
    thread::scope(|scope| {
        for first in 0..4 {
            let (set, other) = (&set, &other);
            scope.spawn(move || {
                for round in 0..20 {
                    let from = first * 1000 + round;
                    assert_eq!(set.iter().map(u64::from).sum::<u64>(), sum);
                    assert_eq!(set.len(), 33_334);
                    assert_eq!(set.contains(from), from % 3 == 0);
                    assert_eq!(set.iter_from(from).next(), Some(from.next_multiple_of(3)));
                    assert_eq!((set & other).into_iter().count(), 6_667);
                    assert_eq!((set & !(other | other)).into_iter().count(), 33_334 - 6_667);
                    assert_eq!(set.clone(), *set);
                    assert!(!set.is_subset(other) && !set.is_disjoint(other) && set != other);
                }
            });
        }
    });
}

#[test]
fn a_set_is_changed_by_one_thread_after_another() {
    let mut set = BitSet::new();
    for first in 0..8 {
        set = thread::spawn(move || {
            set.extend((0..1000).map(|i| 8 * i + first));
            set
        })
        .join()
        .expect("the thread ended");
    }
    assert!((&set).iter().eq(0..8000));
    let last = thread::spawn(move || set.len());
    assert_eq!(last.join().expect("the thread ended"), 8000);
}

#[test]
fn threads_share_a_set_behind_a_lock() {
    let shared = Arc::new(RwLock::new(BitSet::new()));
    let threads: Vec<_> = (0..4)
        .map(|first| {
            let shared = Arc::clone(&shared);
            thread::spawn(move || {
                for i in 0..500 {
                    assert!(!shared
                        .write()
                        .expect("no thread panicked")
                        .add(4 * i + first));
                    assert!(shared
                        .read()
                        .expect("no thread panicked")
                        .contains(4 * i + first));
                }
            })
        })
        .collect();
    for thread in threads {
        thread.join().expect("the thread ended");
    }
    assert_eq!(
        shared.read().expect("no thread panicked").to_vec(),
        (0..2000).collect::<Vec<_>>()
    );
}
