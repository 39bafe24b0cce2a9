//! Iterations in parts, by rayon.
#![cfg(feature = "parallel")]

mod common;

use std::collections::{BTreeSet, HashSet};
use std::sync::Mutex;
use std::thread;

use common::Numbers;
use hibitset::{BitParIter, BitProducer, BitSet, BitSetLike, Index};
use rayon::iter::plumbing::UnindexedProducer;
use rayon::iter::ParallelIterator;

#[test]
fn parts_have_all_members() {
    let a: BitSet = (0..300_000).filter(|i| i % 3 != 0).collect();
    let b: BitSet = (0..300_000).filter(|i| i % 5 != 0).collect();
    for set in [&a & &a, &a & &b] {
        assert_eq!(set.par_iter().count(), set.len());
        let list: BTreeSet<Index> = set.par_iter().collect();
        assert!(set.iter().eq(list));
        let sum: u64 = set.par_iter().map(u64::from).sum();
        assert_eq!(sum, set.iter().map(u64::from).sum());
        assert_eq!(
            set.par_iter().filter(|i| i % 7 == 0).min(),
            set.iter().find(|i| i % 7 == 0)
        );
    }
    assert_eq!(a.clone().par_iter().max(), a.last());
}

#[test]
fn parts_go_to_several_threads() {
    let set: BitSet = (0..200_000).collect();
    let seen = Mutex::new((HashSet::new(), 0));
    let pool = rayon::ThreadPoolBuilder::new()
        .num_threads(4)
        .build()
        .expect("threads are there");
    pool.install(|| {
        (&set).par_iter().for_each(|_| {
            let mut seen = seen.lock().expect("no thread panicked");
            seen.0.insert(thread::current().id());
            seen.1 += 1;
        });
    });
    let (threads, count) = seen.into_inner().expect("no thread panicked");
    assert!(
        count == 200_000 && threads.len() > 1,
        "{} threads",
        threads.len()
    );
}

/// All items of a producer, which is split as often as it can be.
fn split_all(producer: BitProducer<BitSet>, parts: &mut Vec<Vec<Index>>) {
    match UnindexedProducer::split(producer) {
        (first, None) => parts.push(first.0.collect()),
        (first, Some(second)) => {
            split_all(first, parts);
            split_all(second, parts);
        }
    }
}

#[test]
fn a_split_keeps_the_order() {
    let mut numbers = Numbers::new(11);
    for bits in [6, 12, 18, 24, 30] {
        let (set, model) = numbers.set_of(100, 1 << bits);
        for layers in [0, 1, 2, 3, 4, 255] {
            let mut parts = Vec::new();
            split_all(BitProducer((&set).iter(), layers), &mut parts);
            assert!(
                parts.concat().into_iter().eq(model.iter().copied()),
                "{layers} layers"
            );
            // A part has whole ranges of indices.
            let shift = 6 * (4 - u32::from(layers.min(3)));
            let ranges: Vec<Index> = parts
                .iter()
                .flat_map(|part| part.iter().map(|i| i >> shift).collect::<BTreeSet<_>>())
                .collect();
            assert!(
                ranges.windows(2).all(|pair| pair[0] < pair[1]),
                "{layers} layers"
            );
        }
    }
}

#[test]
fn a_split_looks_at_one_layer_more() {
    let set = BitSet::from([0, 1 << 18, 1 << 24]);
    let (first, second) = UnindexedProducer::split(BitProducer((&set).iter(), 0));
    let second = second.expect("the top layer is split");
    assert!(first.0.eq([0, 1 << 18]) && second.0.eq([1 << 24]));
}

#[test]
fn layers_to_split_are_counted() {
    let set: BitSet = (0..100_000).step_by(3).collect();
    for layers in 1..5 {
        assert_eq!(
            BitParIter::new(&set).layers_split(layers).count(),
            set.len()
        );
    }
    for layers in [0, 5, 255] {
        let result =
            std::panic::catch_unwind(|| BitParIter::new(&set).layers_split(layers).count());
        let message = *result
            .expect_err("it panics")
            .downcast::<String>()
            .expect("the panic has a text");
        assert_eq!(
            message,
            format!("a walk is cut in 1 to 4 layers, and not in {layers}")
        );
    }
}

#[test]
fn a_panic_in_a_part_reaches_the_caller() {
    let set: BitSet = (0..100_000).collect();
    let result = std::panic::catch_unwind(|| {
        (&set)
            .par_iter()
            .for_each(|index| assert!(index != 77_777, "one index"));
    });
    assert!(result.is_err());
}
