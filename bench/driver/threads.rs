//! threads parallel REPEATS, threads steps REPEATS, threads shared REPEATS: the rows of crates/hibitset_bench_threads over the original crate, with its own rayon, and with std's scope.
extern crate hibitset;
extern crate rayon;

use hibitset::{AtomicBitSet, BitSet, BitSetLike};
use rayon::iter::ParallelIterator;
use std::hint::black_box;
use std::sync::atomic::{AtomicU64, Ordering};
use std::time::Instant;

const END: u32 = 1 << 24;
const INDICES: usize = 2_000_000;
const SEED: u64 = 88_172_645_463_325_252;

#[derive(Clone, Copy)]
enum Shape {
    OneIn(u32),
    Dense,
    Clusters,
}

fn next(state: u64) -> u64 {
    let a = state ^ (state << 13);
    let b = a ^ (a >> 7);
    b ^ (b << 17)
}

fn set_of(shape: Shape, members: u32) -> BitSet {
    let mut set = BitSet::new();
    match shape {
        Shape::OneIn(one_in) => {
            let mut state = SEED;
            for id in 0..members.saturating_mul(one_in) {
                state = next(state);
                if (state >> 32) % u64::from(one_in) == 0 && id < END {
                    set.add(id);
                }
            }
        }
        Shape::Dense => (0..members).for_each(|id| {
            set.add(id);
        }),
        Shape::Clusters => {
            let count = members / 1_000;
            for cluster in 0..count {
                let first = cluster * (END / count);
                (first..first + 1_000).for_each(|id| {
                    set.add(id);
                });
            }
        }
    }
    set
}

fn alone(set: &BitSet, work: &str) -> u64 {
    match work {
        "count" => set.iter().count() as u64,
        "collect" => set.iter().collect::<Vec<u32>>().last().copied().unwrap_or(0).into(),
        _ => set.iter().fold(0u64, |sum, index| sum.wrapping_add(index.into())),
    }
}

fn in_parts(set: &BitSet, work: &str) -> u64 {
    match work {
        "count" => set.par_iter().count() as u64,
        "collect" => set.par_iter().collect::<Vec<u32>>().last().copied().unwrap_or(0).into(),
        _ => set.par_iter().fold(|| 0u64, |sum, index| sum.wrapping_add(index.into())).reduce(|| 0, |a, b| a.wrapping_add(b)),
    }
}

fn parallel(repeats: usize) {
    let shapes = [("dense", Shape::Dense), ("half", Shape::OneIn(2)), ("10 %", Shape::OneIn(10)), ("1 %", Shape::OneIn(100)), ("clusters", Shape::Clusters)];
    for (shape_name, shape) in shapes {
        for size in [10_000, 100_000, 1_000_000, 4_000_000] {
            let set = set_of(shape, size);
            for work in ["count", "collect", "fold"] {
                for way in ["alone", "in parts"] {
                    let mut times: Vec<u128> = (0..repeats)
                        .map(|_| {
                            let start = Instant::now();
                            black_box(if way == "alone" { alone(&set, work) } else { in_parts(&set, work) });
                            start.elapsed().as_nanos()
                        })
                        .collect();
                    times.sort();
                    println!("{work}\t{shape_name}\t{size}\t{way}\t{}", times[times.len() / 2]);
                }
            }
        }
    }
}

// A step that takes time, as in ours.
#[inline]
fn hash(index: u32, turns: u32) -> u64 {
    let mut state = u64::from(index) | 1;
    for _ in 0..turns {
        state = (state ^ (state >> 29)).wrapping_mul(0x9E37_79B9_7F4A_7C15);
    }
    state
}

fn step_in_parts(set: &BitSet, work: &str, turns: u32) -> u64 {
    if work == "fold" {
        return set.par_iter().fold(|| 0u64, |sum, index| sum.wrapping_add(hash(index, turns))).reduce(|| 0, |a, b| a.wrapping_add(b));
    }
    let zeros = AtomicU64::new(0);
    set.par_iter().for_each(|index| {
        if hash(index, turns) == 0 {
            zeros.fetch_add(1, Ordering::SeqCst);
        }
    });
    zeros.into_inner()
}

fn steps(repeats: usize) {
    for (step, turns) in [("0 ns", 0), ("100 ns", 75), ("1 us", 620)] {
        for (shape_name, shape) in [("dense", Shape::Dense), ("10 %", Shape::OneIn(10))] {
            for size in [1_000, 10_000, 100_000, 1_000_000] {
                let set = set_of(shape, size);
                for work in ["for_each", "fold"] {
                    let mut times: Vec<u128> = (0..repeats)
                        .map(|_| {
                            let start = Instant::now();
                            black_box(step_in_parts(&set, work, black_box(turns)));
                            start.elapsed().as_nanos()
                        })
                        .collect();
                    times.sort();
                    println!("{work} of {step}\t{shape_name}\t{size}\tin parts\t{}", times[times.len() / 2]);
                }
            }
        }
    }
}

fn by_chance() -> Vec<u32> {
    let mut drawn = BitSet::new();
    let mut list = Vec::new();
    let mut state = SEED;
    while list.len() < INDICES {
        state = next(state);
        let id = ((state >> 32) % u64::from(END)) as u32;
        if !drawn.add(id) {
            list.push(id);
        }
    }
    list
}

// How often each index is asked for, as in ours.
const TURNS: usize = 16;

// How many answers were false.
fn through(set: &AtomicBitSet, list: &[u32], adds: bool) -> usize {
    if adds {
        list.iter().filter(|&&id| !set.add_atomic(id % END)).count()
    } else {
        (0..TURNS).map(|_| list.iter().filter(|&&id| !set.contains(id % END)).count()).sum()
    }
}

// The same on so many threads, each with a part of the list of its own, and how long it took.
fn timed(set: &AtomicBitSet, list: &[u32], adds: bool, threads: usize, falses: usize) -> u128 {
    let start = Instant::now();
    let found: usize = if threads < 2 {
        through(set, list, adds)
    } else {
        std::thread::scope(|scope| {
            let mut parts = list.chunks(list.len().div_ceil(threads));
            let first = parts.next().unwrap_or(&[]);
            let others: Vec<_> = parts.map(|part| scope.spawn(move || through(set, part, adds))).collect();
            through(set, first, adds) + others.into_iter().map(|other| other.join().expect("a thread")).sum::<usize>()
        })
    };
    let time = start.elapsed().as_nanos();
    assert_eq!(found, falses);
    time
}

fn shared(repeats: usize) {
    let processors = std::thread::available_parallelism().expect("processors").get();
    let ascending: Vec<u32> = (0..INDICES as u32).collect();
    for (ways, threads) in [("one thread", 1), ("all processors", processors)] {
        for (order, list) in [("random", by_chance()), ("ascending", ascending.clone())] {
            let (new, others) = list.split_at(list.len() / 2);
            let mut times: [Vec<u128>; 4] = Default::default();
            for _ in 0..repeats {
                let set = AtomicBitSet::new();
                times[0].push(timed(&set, new, true, threads, new.len()));
                times[1].push(timed(&set, new, true, threads, 0));
                times[2].push(timed(&set, new, false, threads, 0) / TURNS as u128);
                times[3].push(timed(&set, others, false, threads, TURNS * others.len()) / TURNS as u128);
            }
            for (work, times) in ["add, new", "add, there", "contains, hit", "contains, miss"].into_iter().zip(&mut times) {
                times.sort();
                println!("{work}\t{order}\t{ways}\t{}", times[times.len() / 2]);
            }
        }
    }
}

fn main() {
    let words: Vec<String> = std::env::args().collect();
    let repeats: usize = words.get(2).and_then(|word| word.parse().ok()).expect("REPEATS");
    match words[1].as_str() {
        "parallel" => parallel(repeats),
        "steps" => steps(repeats),
        "shared" => shared(repeats),
        _ => panic!("parallel, steps or shared"),
    }
}
