//! bench [REPEATS [MILLISECONDS [WORDS]]]: the workloads, each with ours, the original and its peers in one process.
//! MILLISECONDS: how long the work of one timing is to take. WORDS: the rows whose names have them, alone.
//! bench count [WORDS]: has callgrind count the instructions of each kernel, in turns of a fixed number; nothing is timed.
mod callgrind;
mod columns;
mod harness;
mod original;
mod ours;
mod peers;
#[cfg(roaring)]
mod roaring;
mod wide;

use std::collections::{BTreeSet, HashSet};
use std::time::Duration;

use harness::{counts, timed, Answer, Bench, Both, Kernel, Numbers, Row, SMALLER};
use peers::{sum, Peers, END};

#[cfg(fixedbitset)]
use peers::{fixed_of, wide_sum};

#[cfg(roaring)]
use roaring::Roaring;

const MILLION: usize = 1_000_000 >> SMALLER;

/// A list of indices, ascending, with a name, and its members in the peers.
struct Sample {
    name: &'static str,
    ids: Vec<u32>,
    peers: Peers,
}

impl Sample {
    fn new(name: &'static str, ids: Vec<u32>) -> Sample {
        Sample { name, peers: Peers::of(&ids), ids }
    }
    fn len(&self) -> usize {
        self.ids.len()
    }
}

/// A kernel over the crate of rust/, where the driver is compiled with it.
#[cfg(derived)]
macro_rules! derived {
    ($kernel:expr) => {
        Some(Box::new($kernel) as Kernel)
    };
}

#[cfg(not(derived))]
macro_rules! derived {
    ($kernel:expr) => {
        None
    };
}

macro_rules! both {
    ($kernel:ident, $($list:expr),*) => {
        Both {
            ours: Box::new(|times| ours::$kernel($($list,)* times)),
            original: Box::new(|times| original::$kernel($($list,)* times)),
            derived: derived!(|times| kernels_derived::$kernel($($list,)* times)),
        }
    };
}

/// The same kernel over each of several sets, one after the other.
macro_rules! each {
    ($kernel:ident, $lists:expr) => {
        Both {
            ours: Box::new(|times| $lists.iter().map(|ids| ours::$kernel(ids, times)).fold(0, u64::wrapping_add)),
            original: Box::new(|times| $lists.iter().map(|ids| original::$kernel(ids, times)).fold(0, u64::wrapping_add)),
            derived: derived!(|times| $lists.iter().map(|ids| kernels_derived::$kernel(ids, times)).fold(0, u64::wrapping_add)),
        }
    };
}

/// Adds a peer where its crate or library was found.
macro_rules! peer {
    ($row:ident, $cfg:ident, $who:expr, $run:expr) => {
        #[cfg($cfg)]
        {
            $row = $row.peer($who, $run);
        }
    };
}

/// The count of ids that were there already.
fn count(ids: &[u32], mut was_there: impl FnMut(u32) -> bool) -> u64 {
    ids.iter().filter(|id| was_there(**id)).count() as u64
}

/// A copy made before the clock runs, and dropped after it has stopped.
fn on_copy<S: Clone, R>(set: &S, work: impl FnOnce(&mut S) -> R) -> (Duration, R) {
    let mut copy = set.clone();
    timed(|| work(&mut copy))
}

fn adds(bench: &mut Bench, random: &[u32], members: &Peers, absent: &[u32], ascending: &[u32]) {
    bench.part("one index at a time (ns per index)");
    for (name, ids) in [("add, 1M random below 2^24, from empty", random), ("add, 1M ascending, from empty", ascending)] {
        let mut row = Row::new(name, ids.len(), 0.85, both!(add, ids));
        peer!(row, fixedbitset, "fixedbitset", || timed(|| { let mut s = fixedbitset::FixedBitSet::with_capacity(END); count(ids, |i| s.put(i as usize)) }));
        peer!(row, bit_set, "bit-set", || timed(|| { let mut s = bit_set::BitSet::new(); count(ids, |i| !s.insert(i as usize)) }));
        peer!(row, roaring, "CRoaring", || timed(|| { let mut s = Roaring::new(); count(ids, |i| !s.add(i)) }));
        bench.run(row
            .peer("BTreeSet", || timed(|| { let mut s = BTreeSet::new(); count(ids, |i| !s.insert(i)) }))
            .peer("HashSet", || timed(|| { let mut s = HashSet::new(); count(ids, |i| !s.insert(i)) })));
    }
    let mut row = Row::new("add, 1M random, room made before", random.len(), 0.85, both!(add_with_room, random));
    peer!(row, fixedbitset, "fixedbitset", || timed(|| { let mut s = fixedbitset::FixedBitSet::with_capacity(END); count(random, |i| s.put(i as usize)) }));
    peer!(row, bit_set, "bit-set", || timed(|| { let mut s = bit_set::BitSet::with_capacity(END); count(random, |i| !s.insert(i as usize)) }));
    bench.run(row.peer("HashSet", || timed(|| { let mut s = HashSet::with_capacity(MILLION); count(random, |i| !s.insert(i)) })));
    let mut row = Row::new("add again what is there", random.len(), 0.85, both!(add_again, random));
    peer!(row, fixedbitset, "fixedbitset", || on_copy(&members.fixed, |s| count(random, |i| s.put(i as usize))));
    peer!(row, bit_set, "bit-set", || on_copy(&members.bits, |s| count(random, |i| !s.insert(i as usize))));
    peer!(row, roaring, "CRoaring", || on_copy(&members.roaring, |s| count(random, |i| !s.add(i))));
    bench.run(row
        .peer("BTreeSet", || on_copy(&members.tree, |s| count(random, |i| !s.insert(i))))
        .peer("HashSet", || on_copy(&members.hash, |s| count(random, |i| !s.insert(i)))));
    for (name, asked) in [("contains, hit", random), ("contains, miss", absent)] {
        let mut row = Row::new(name, asked.len(), 1.0, both!(contains, random, asked));
        peer!(row, fixedbitset, "fixedbitset", || timed(|| count(asked, |i| members.fixed.contains(i as usize))));
        peer!(row, bit_set, "bit-set", || timed(|| count(asked, |i| members.bits.contains(i as usize))));
        peer!(row, roaring, "CRoaring", || timed(|| count(asked, |i| members.roaring.contains(i))));
        bench.run(row
            .peer("BTreeSet", || timed(|| count(asked, |i| members.tree.contains(&i))))
            .peer("HashSet", || timed(|| count(asked, |i| members.hash.contains(&i)))));
    }
    let distinct: Vec<u32> = { let mut seen = HashSet::new(); random.iter().copied().filter(|i| seen.insert(*i)).collect() };
    let mut row = Row::new("remove, all of 1M random", distinct.len(), 1.0, both!(remove, random, &distinct)).on_copies(both!(clone, random));
    peer!(row, fixedbitset, "fixedbitset", || on_copy(&members.fixed, |s| { distinct.iter().for_each(|i| s.set(*i as usize, false)); distinct.len() as u64 }));
    peer!(row, bit_set, "bit-set", || on_copy(&members.bits, |s| count(&distinct, |i| s.remove(i as usize))));
    peer!(row, roaring, "CRoaring", || on_copy(&members.roaring, |s| count(&distinct, |i| s.remove(i))));
    bench.run(row
        .peer("BTreeSet", || on_copy(&members.tree, |s| count(&distinct, |i| s.remove(&i))))
        .peer("HashSet", || on_copy(&members.hash, |s| count(&distinct, |i| s.remove(&i)))));
}

fn walks(bench: &mut Bench, all: &[(&Sample, f64)]) {
    bench.part("walks (ns per item)");
    for (sample, aim) in all {
        let (ids, k) = (&sample.ids[..], &sample.peers);
        let mut row = Row::new(format!("walk, {}", sample.name), ids.len(), *aim, both!(walk, ids));
        peer!(row, fixedbitset, "fixedbitset", || timed(|| wide_sum(k.fixed.ones())));
        peer!(row, bit_set, "bit-set", || timed(|| wide_sum(k.bits.iter())));
        peer!(row, roaring, "CRoaring", || timed(|| k.roaring.sum()));
        bench.run(row
            .peer("BTreeSet", || timed(|| sum(k.tree.iter().copied())))
            .peer("HashSet", || timed(|| sum(k.hash.iter().copied()))));
    }
}

/// Walks that std's methods of an iterator make.
fn walks_by_method(bench: &mut Bench, all: &[(&Sample, f64)]) {
    bench.part("walks by a method of the iterator (ns per item)");
    for (sample, aim) in all {
        let (ids, k) = (&sample.ids[..], &sample.peers);
        let mut row = Row::new(format!("count, {}", sample.name), ids.len(), *aim, both!(walk_count, ids));
        peer!(row, fixedbitset, "fixedbitset", || timed(|| k.fixed.ones().count() as u64));
        peer!(row, bit_set, "bit-set", || timed(|| k.bits.iter().count() as u64));
        bench.run(row);
        let mut row = Row::new(format!("fold, {}", sample.name), ids.len(), *aim, both!(walk_fold, ids));
        peer!(row, fixedbitset, "fixedbitset", || timed(|| k.fixed.ones().fold(0, |sum, index| sum + index as u64)));
        peer!(row, bit_set, "bit-set", || timed(|| k.bits.iter().fold(0, |sum, index| sum + index as u64)));
        bench.run(row
            .peer("BTreeSet", || timed(|| k.tree.iter().fold(0, |sum, index| sum + *index as u64)))
            .peer("HashSet", || timed(|| k.hash.iter().fold(0, |sum, index| sum + *index as u64))));
        let mut row = Row::new(format!("collect, {}", sample.name), ids.len(), 0.6, both!(walk_collect, ids));
        peer!(row, fixedbitset, "fixedbitset", || timed(|| last_of(k.fixed.ones().collect())));
        peer!(row, bit_set, "bit-set", || timed(|| last_of(k.bits.iter().collect())));
        peer!(row, roaring, "CRoaring", || timed(|| k.roaring.list()));
        bench.run(row);
    }
}

/// The length of a list and its last item.
#[cfg(any(fixedbitset, bit_set))]
fn last_of(list: Vec<usize>) -> u64 {
    (list.len() + list.last().copied().unwrap_or(0)) as u64
}

/// How many members a set has, and their list, by whole words.
fn sizes_and_lists(bench: &mut Bench, all: &[(&Sample, f64, f64)]) {
    bench.part("the size and the list of a set (ns per member)");
    for (sample, len_aim, list_aim) in all {
        let (ids, k) = (&sample.ids[..], &sample.peers);
        let mut row = Row::new(format!("len, {}", sample.name), ids.len(), *len_aim, both!(len, ids));
        peer!(row, fixedbitset, "fixedbitset", || timed(|| k.fixed.count_ones(..) as u64));
        peer!(row, bit_set, "bit-set", || timed(|| k.bits.len() as u64));
        peer!(row, roaring, "CRoaring", || timed(|| k.roaring.len()));
        bench.run(row);
        let mut row = Row::new(format!("to_vec, {}", sample.name), ids.len(), *list_aim, both!(to_vec, ids));
        peer!(row, fixedbitset, "fixedbitset", || timed(|| last_of(k.fixed.ones().collect())));
        peer!(row, bit_set, "bit-set", || timed(|| last_of(k.bits.iter().collect())));
        peer!(row, roaring, "CRoaring", || timed(|| k.roaring.list()));
        bench.run(row);
    }
}

/// Sets of so few members that a processor learns by heart where a walk over one of them branches, and the one better than the other.
fn sparse_sets(bench: &mut Bench, lists: &[Vec<u32>]) {
    bench.part("eight sets of 0.01 %, one after the other (ns per item)");
    let ops = lists.iter().map(Vec::len).sum();
    bench.run(Row::new("walk, eight sets of 0.01 %", ops, 0.6, each!(walk, lists)));
    bench.run(Row::new("count, eight sets of 0.01 %", ops, 0.6, each!(walk_count, lists)));
    bench.run(Row::new("fold, eight sets of 0.01 %", ops, 0.6, each!(walk_fold, lists)));
    bench.run(Row::new("collect, eight sets of 0.01 %", ops, 0.6, each!(walk_collect, lists)));
    bench.run(Row::new("len, eight sets of 0.01 %", ops, 0.6, each!(len, lists)));
    bench.run(Row::new("to_vec, eight sets of 0.01 %", ops, 0.6, each!(to_vec, lists)));
}

/// The first member of a set, and walks that begin at an index.
fn firsts(bench: &mut Bench, all: &[&Sample], asked: &[u32]) {
    bench.part("the first member (ns per call)");
    for sample in all {
        let (ids, k) = (&sample.ids[..], &sample.peers);
        let first = || k.tree.first().map_or(0, |index| *index as u64);
        let mut row = Row::new(format!("first, {}", sample.name), 1, 1.0, both!(first, ids));
        peer!(row, roaring, "CRoaring", || timed(|| k.roaring.first()));
        bench.run(row.peer("BTreeSet", || timed(first)));
        bench.run(Row::new(format!("iter().next(), {}", sample.name), 1, 1.0, both!(walk_next, ids)).peer("BTreeSet", || timed(first)));
        // From past the last member on the original, which asks for each index in turn, would go on to the end of the range.
        let last = ids.last().copied().unwrap_or(0);
        let asked: Vec<u32> = asked.iter().copied().filter(|start| *start <= last).take(10_000).collect();
        let asked = &asked[..];
        let from = |start: &u32| k.tree.range(*start..).next().map_or(0, |index| *index as u64);
        let mut row = Row::new(format!("iter_from(i).next(), {}", sample.name), asked.len(), 0.5, both!(walk_from, ids, asked));
        peer!(row, roaring, "CRoaring", || timed(|| k.roaring.first_from(asked)));
        bench.run(row.peer("BTreeSet", || timed(|| asked.iter().map(from).sum())));
    }
}

fn pair_walks(bench: &mut Bench, a: &Sample, b: &Sample, aim: f64) {
    let (ops, of) = (a.len() + b.len(), format!("{} and {}", a.name, b.name));
    let (x, y) = (&a.ids[..], &b.ids[..]);
    let (p, q) = (&a.peers, &b.peers);
    macro_rules! row {
        ($name:literal, $kernel:ident, $method:ident) => {
            let mut row = Row::new(format!("walk of {}, {of}", $name), ops, aim, both!($kernel, x, y));
            peer!(row, fixedbitset, "fixedbitset", || timed(|| wide_sum(p.fixed.$method(&q.fixed))));
            peer!(row, bit_set, "bit-set", || timed(|| wide_sum(p.bits.$method(&q.bits))));
            peer!(row, roaring, "CRoaring", || timed(|| p.roaring.$method(&q.roaring).sum()));
            bench.run(row
                .peer("BTreeSet", || timed(|| sum(p.tree.$method(&q.tree).copied())))
                .peer("HashSet", || timed(|| sum(p.hash.$method(&q.hash).copied()))));
        };
    }
    row!("a & b", walk_and, intersection);
    row!("a \\| b", walk_or, union);
    row!("a ^ b", walk_xor, symmetric_difference);
}

/// The peers' trees and hashes make a new set, and the flat ones change a copy made before.
fn assignments(bench: &mut Bench, a: &Sample, b: &Sample, aims: [f64; 3]) {
    let (ops, of) = (a.len() + b.len(), format!("{} and {}", a.name, b.name));
    let (x, y) = (&a.ids[..], &b.ids[..]);
    let (p, q) = (&a.peers, &b.peers);
    macro_rules! row {
        ($name:literal, $kernel:ident, $aim:expr, $op:tt, $flat:ident) => {
            let mut row = Row::new(format!("{}, {of}", $name), ops, $aim, both!($kernel, x, y)).on_copies(both!(clone, x)).answer(Answer::Last);
            peer!(row, fixedbitset, "fixedbitset", || {
                let mut set = p.fixed.clone();
                let took = timed(|| set.$flat(&q.fixed)).0;
                (took, wide_sum(set.ones()))
            });
            peer!(row, bit_set, "bit-set", || {
                let mut set = p.bits.clone();
                let took = timed(|| set.$flat(&q.bits)).0;
                (took, wide_sum(set.iter()))
            });
            peer!(row, roaring, "CRoaring", || {
                let mut set = p.roaring.clone();
                let took = timed(|| set.$flat(&q.roaring)).0;
                (took, set.sum())
            });
            bench.run(row
                .peer("BTreeSet", || { let (took, set) = timed(|| &p.tree $op &q.tree); (took, sum(set.into_iter())) })
                .peer("HashSet", || { let (took, set) = timed(|| &p.hash $op &q.hash); (took, sum(set.into_iter())) }));
        };
    }
    row!("a &= b", and_assign, aims[0], &, intersect_with);
    row!("a \\|= b", or_assign, aims[1], |, union_with);
    row!("a ^= b", xor_assign, aims[2], ^, symmetric_difference_with);
}

/// Assignments without copies: an exclusive or that each second turn undoes, and a union that an intersection undoes.
fn assignments_in_place(bench: &mut Bench, a: &Sample, b: &Sample) {
    let of = format!("{} and {}", a.name, b.name);
    let (x, y) = (&a.ids[..], &b.ids[..]);
    bench.run(Row::new(format!("a ^= b, in place, {of}"), 1, 1.0, both!(xor_in_place, x, y)).answer(Answer::Last));
    bench.run(Row::new(format!("a \\|= b, then &= what a was, {of}"), 1, 1.0, both!(or_and_in_place, x, y)).answer(Answer::Last));
}

fn drains(bench: &mut Bench, all: &[&Sample]) {
    bench.part("drains (ns per item)");
    for sample in all {
        let (ids, k) = (&sample.ids[..], &sample.peers);
        bench.run(Row::new(format!("drain, {}", sample.name), ids.len(), 1.0, both!(drain, ids)).on_copies(both!(clone, ids))
            .peer("BTreeSet", || on_copy(&k.tree, |s| sum(std::iter::from_fn(|| s.pop_first()))))
            .peer("HashSet", || on_copy(&k.hash, |s| sum(s.drain()))));
    }
}

fn whole(bench: &mut Bench, cleared: &Sample, all: &[&Sample]) {
    bench.part("whole sets (ns per call)");
    let (ids, k) = (&cleared.ids[..], &cleared.peers);
    let first = ids[0];
    let mut row = Row::new(format!("clear and add one, {}", cleared.name), 1, 1.0, both!(clear, ids));
    peer!(row, fixedbitset, "fixedbitset", || on_copy(&k.fixed, |s| { s.clear(); s.insert(first as usize); s.contains(first as usize) as u64 }));
    peer!(row, bit_set, "bit-set", || on_copy(&k.bits, |s| { s.clear(); s.insert(first as usize); s.contains(first as usize) as u64 }));
    peer!(row, roaring, "CRoaring", || on_copy(&k.roaring, |s| { s.clear(); s.add(first); s.contains(first) as u64 }));
    bench.run(row
        .peer("BTreeSet", || on_copy(&k.tree, |s| { s.clear(); s.insert(first); s.contains(&first) as u64 }))
        .peer("HashSet", || on_copy(&k.hash, |s| { s.clear(); s.insert(first); s.contains(&first) as u64 })));
    for sample in all {
        let (ids, k) = (&sample.ids[..], &sample.peers);
        let first = ids[0];
        let mut row = Row::new(format!("clone, {}", sample.name), 1, 1.0, both!(clone, ids));
        peer!(row, fixedbitset, "fixedbitset", || timed(|| k.fixed.clone().contains(first as usize) as u64));
        peer!(row, bit_set, "bit-set", || timed(|| k.bits.clone().contains(first as usize) as u64));
        peer!(row, roaring, "CRoaring", || timed(|| k.roaring.clone().contains(first) as u64));
        bench.run(row
            .peer("BTreeSet", || timed(|| k.tree.clone().contains(&first) as u64))
            .peer("HashSet", || timed(|| k.hash.clone().contains(&first) as u64)));
        let same = Peers::of(ids);
        let mut row = Row::new(format!("a == b, {} and its copy", sample.name), 1, 1.0, both!(equal, ids, ids));
        peer!(row, fixedbitset, "fixedbitset", || timed(|| (k.fixed == same.fixed) as u64));
        peer!(row, bit_set, "bit-set", || timed(|| (k.bits == same.bits) as u64));
        peer!(row, roaring, "CRoaring", || timed(|| k.roaring.equals(&same.roaring) as u64));
        bench.run(row
            .peer("BTreeSet", || timed(|| (k.tree == same.tree) as u64))
            .peer("HashSet", || timed(|| (k.hash == same.hash) as u64)));
        let mut row = Row::new(format!("a.contains\\_set(b), {} and its copy", sample.name), 1, 1.0, both!(contains_set, ids, ids));
        peer!(row, fixedbitset, "fixedbitset", || timed(|| same.fixed.is_subset(&k.fixed) as u64));
        peer!(row, bit_set, "bit-set", || timed(|| same.bits.is_subset(&k.bits) as u64));
        peer!(row, roaring, "CRoaring", || timed(|| same.roaring.is_subset(&k.roaring) as u64));
        bench.run(row
            .peer("BTreeSet", || timed(|| same.tree.is_subset(&k.tree) as u64))
            .peer("HashSet", || timed(|| same.hash.is_subset(&k.hash) as u64)));
    }
}

/// Ranges, differences, and words in and out, which the original has by other calls alone.
fn ranges_and_words(bench: &mut Bench, half: &Sample, other: &Sample) {
    bench.part("ranges, differences and words (ns per call)");
    let ends = [70_001u32, 170_001];
    let mut row = Row::new("add\\_range and remove\\_range, 100,000 indices", 1, 0.05, both!(ranges, &ends));
    peer!(row, fixedbitset, "fixedbitset", || {
        let mut set = fixedbitset::FixedBitSet::with_capacity(END);
        timed(|| {
            set.insert_range(70_001..170_001);
            let there = set.contains(70_001) as u64;
            set.set_range(70_001..170_001, false);
            there + set.contains(70_001) as u64
        })
    });
    peer!(row, roaring, "CRoaring", || {
        let mut set = Roaring::of(&[]);
        timed(|| {
            set.add_range(70_001, 170_001);
            let there = set.contains(70_001) as u64;
            set.remove_range(70_001, 170_001);
            there + set.contains(70_001) as u64
        })
    });
    bench.run(row);
    let (x, y) = (&half.ids[..], &other.ids[..]);
    let of = format!("{} and {}", half.name, other.name);
    let mut row = Row::new(format!("a.subtract\\_assign(b), {of}"), 1, 0.3, both!(subtract_assign, x, y)).on_copies(both!(clone, x)).answer(Answer::Last);
    peer!(row, fixedbitset, "fixedbitset", || {
        let mut set = half.peers.fixed.clone();
        let took = timed(|| set.difference_with(&other.peers.fixed)).0;
        (took, wide_sum(set.ones()))
    });
    bench.run(row);
    let (even, odd): (Vec<u32>, Vec<u32>) = x.iter().copied().partition(|i| i % 2 == 0);
    let (evens, odds) = (Peers::of(&even), Peers::of(&odd));
    let mut row = Row::new(format!("a.is\\_disjoint(b), even and odd of {}", half.name), 1, 1.0, both!(is_disjoint, &even, &odd));
    peer!(row, fixedbitset, "fixedbitset", || timed(|| evens.fixed.is_disjoint(&odds.fixed) as u64));
    peer!(row, bit_set, "bit-set", || timed(|| evens.bits.is_disjoint(&odds.bits) as u64));
    peer!(row, roaring, "CRoaring", || timed(|| evens.roaring.is_disjoint(&odds.roaring) as u64));
    bench.run(row);
    let mut row = Row::new(format!("a.is\\_subset(b), even of {}", half.name), 1, 1.0, both!(is_subset, &even, x));
    peer!(row, fixedbitset, "fixedbitset", || timed(|| evens.fixed.is_subset(&half.peers.fixed) as u64));
    peer!(row, bit_set, "bit-set", || timed(|| evens.bits.is_subset(&half.peers.bits) as u64));
    peer!(row, roaring, "CRoaring", || timed(|| evens.roaring.is_subset(&half.peers.roaring) as u64));
    bench.run(row);
    for sample in [half] {
        bench.run(Row::new(format!("from\\_words, {}, beside a clone", sample.name), 1, 2.0, both!(from_words, &sample.ids)));
    }
}

/// Places in the order of the members. The original iterates, or asks for each index in turn.
fn orders(bench: &mut Bench, all: &[&Sample]) {
    bench.part("order (ns per call; of walks, per item)");
    for sample in all {
        let (ids, k) = (&sample.ids[..], &sample.peers);
        // Sixteen members from the first quarter to the last, and their positions.
        let at: Vec<u32> = (1..17).map(|step| (step * ids.len() / 18) as u32).collect();
        let asked: Vec<u32> = at.iter().map(|at| ids[*at as usize]).collect();
        let (at, asked) = (&at[..], &asked[..]);
        for (call, ranked) in [("rank", false), ("rank by counts", true)] {
            let kernels = if ranked { both!(ranked_rank, ids, asked) } else { both!(rank, ids, asked) };
            let mut row = Row::new(format!("{call}, {}", sample.name), asked.len(), 0.1, kernels);
            peer!(row, fixedbitset, "fixedbitset", || timed(|| asked.iter().map(|end| k.fixed.count_ones(..*end as usize) as u64).sum()));
            peer!(row, roaring, "CRoaring", || timed(|| asked.iter().map(|end| k.roaring.rank(*end)).sum()));
            bench.run(row);
        }
        for (call, ranked) in [("select", false), ("select by counts", true)] {
            let kernels = if ranked { both!(ranked_select, ids, at) } else { both!(select, ids, at) };
            let mut row = Row::new(format!("{call}, {}", sample.name), at.len(), 0.1, kernels);
            peer!(row, roaring, "CRoaring", || timed(|| at.iter().map(|at| k.roaring.select(*at)).sum()));
            bench.run(row);
        }
        let mut row = Row::new(format!("len\\_range of 100,000, {}", sample.name), asked.len(), 0.1, both!(len_range, ids, asked));
        peer!(row, fixedbitset, "fixedbitset", || timed(|| asked.iter().map(|start| k.fixed.count_ones(*start as usize..(*start as usize + 100_000).min(END)) as u64).sum()));
        peer!(row, roaring, "CRoaring", || timed(|| asked.iter().map(|start| k.roaring.len_range(*start, *start + 100_000)).sum()));
        bench.run(row);
        bench.run(Row::new(format!("last\\_before, {}", sample.name), asked.len(), 1.0, both!(last_before, ids, asked))
            .peer("BTreeSet", || timed(|| asked.iter().map(|end| k.tree.range(..*end).next_back().map_or(0, |id| *id as u64)).sum())));
        bench.run(Row::new(format!("walk down, beside its walk up, {}", sample.name), ids.len(), 0.6, both!(walk_down, ids))
            .peer("BTreeSet", || timed(|| sum(k.tree.iter().rev().copied()))));
    }
    let ends = [70_001u32, 170_001];
    let mut row = Row::new("flip\\_range, 100,000 indices", 1, 0.05, both!(flip, &ends));
    // Each second turn undoes the first, and the answer that is looked for is that of a second one: so a peer has made one before.
    peer!(row, fixedbitset, "fixedbitset", || {
        let mut set = fixed_of(&ends);
        set.toggle_range(70_001..170_001);
        timed(|| { set.toggle_range(70_001..170_001); set.contains(70_001) as u64 })
    });
    peer!(row, roaring, "CRoaring", || {
        let mut set = Roaring::of(&ends);
        set.flip_range(70_001, 170_001);
        timed(|| { set.flip_range(70_001, 170_001); set.contains(70_001) as u64 })
    });
    bench.run(row);
}

fn builds(bench: &mut Bench, lists: [(&str, &[u32]); 2]) {
    bench.part("building (ns per index)");
    for (name, ids) in lists {
        let mut row = Row::new(format!("build from an iterator, {name}"), ids.len(), 1.0, both!(build, ids));
        peer!(row, fixedbitset, "fixedbitset", || timed(|| fixed_of(ids).contains(ids[0] as usize) as u64));
        peer!(row, bit_set, "bit-set", || timed(|| ids.iter().map(|i| *i as usize).collect::<bit_set::BitSet>().contains(ids[0] as usize) as u64));
        peer!(row, roaring, "CRoaring", || timed(|| Roaring::of(ids).contains(ids[0]) as u64));
        bench.run(row
            .peer("BTreeSet", || timed(|| ids.iter().copied().collect::<BTreeSet<u32>>().contains(&ids[0]) as u64))
            .peer("HashSet", || timed(|| ids.iter().copied().collect::<HashSet<u32>>().contains(&ids[0]) as u64)));
    }
}

/// Atomic sets held alone.
fn atomics(bench: &mut Bench, random: &[u32], absent: &[u32], ascending: &[u32], walked: &[(&Sample, f64)]) {
    bench.part("an atomic set held alone (ns per index)");
    for (name, ids) in [("atomic add, 1M random below 2^24, from empty", random), ("atomic add, 1M ascending, from empty", ascending)] {
        bench.run(Row::new(name, ids.len(), 0.5, both!(atomic_add, ids)));
    }
    bench.run(Row::new("atomic add again what is there", random.len(), 0.5, both!(atomic_add_again, random)));
    bench.run(Row::new("atomic contains, hit", random.len(), 0.7, both!(atomic_contains, random, random)));
    bench.run(Row::new("atomic contains, miss", absent.len(), 0.7, both!(atomic_contains, random, absent)));
    bench.run(Row::new("atomic remove and add, 1M random", 2 * random.len(), 0.7, both!(atomic_renew, random)));
    for (sample, aim) in walked {
        let ids = &sample.ids[..];
        bench.run(Row::new(format!("atomic walk, {}", sample.name), ids.len(), *aim, both!(atomic_walk, ids)));
    }
    bench.part("clear of an atomic set (ns per call)");
    let ids = &walked[0].0.ids[..];
    bench.run(Row::new("atomic clear and add one", 1, 0.5, both!(atomic_clear, ids)));
}

/// Sets of a few small indices: what a set costs before it has much to do. The peers' work is too short for the clock.
fn small_sets(bench: &mut Bench) {
    bench.part("sets of a few indices (ns per set)");
    let indices: Vec<u32> = (0..1000).collect();
    for (name, many) in [("1 index", 1), ("3 indices", 3), ("20 indices", 20)] {
        bench.run(Row::new(format!("a set made, {name} added, dropped"), 1, 0.6, both!(add, &indices[..many])));
    }
    for (name, many) in [("1 index", 1), ("20 indices", 20), ("1,000 indices", 1000)] {
        bench.run(Row::new(format!("clone of a set of {name}"), 1, 1.0, both!(clone, &indices[..many])));
    }
}

fn main() {
    let args: Vec<String> = std::env::args().collect();
    let number = |at: usize, default: u64| args.get(at).map_or(default, |n| n.parse().expect("a number"));
    let (repeats, wanted) = if counts() { (0, Duration::ZERO) } else { (number(1, 9) as usize, Duration::from_millis(number(2, 20))) };
    let only = args.get(if counts() { 2 } else { 3 }).map_or("", String::as_str);
    let mut bench = Bench::new(cfg!(derived), &peers::names(), repeats, wanted, only);

    let end = (END >> SMALLER) as u32;
    let mut numbers = Numbers(1);
    let random = numbers.many(MILLION, END as u64);
    let members = Peers::of(&random);
    let there: HashSet<u32> = random.iter().copied().collect();
    let absent: Vec<u32> = numbers.many(MILLION, END as u64).into_iter().filter(|i| !there.contains(i)).collect();
    let ascending: Vec<u32> = (0..MILLION as u32).collect();
    let half = Sample::new("half of 2^21", numbers.one_in(2, 1 << 21 >> SMALLER));
    let other_half = Sample::new("another half", numbers.one_in(2, 1 << 21 >> SMALLER));
    let ten = Sample::new("10 %", numbers.one_in(10, end));
    let other_ten = Sample::new("another 10 %", numbers.one_in(10, end));
    let one = Sample::new("1 %", numbers.one_in(100, end));
    let other_one = Sample::new("another 1 %", numbers.one_in(100, end));
    let few = Sample::new("0.01 %", numbers.one_in(10_000, end));
    let other_few = Sample::new("another 0.01 %", numbers.one_in(10_000, end));
    let dense = Sample::new("dense, 1M of 1M", ascending.clone());
    let clusters = Sample::new("100 clusters of 1,000", (0..100).flat_map(|c| (0..1000 >> SMALLER).map(move |i| c * 160_000 + i)).collect());

    adds(&mut bench, &random, &members, &absent, &ascending);
    walks(&mut bench, &[(&dense, 0.4), (&half, 0.6), (&ten, 0.6), (&one, 0.6), (&few, 0.6), (&clusters, 0.4)]);
    walks_by_method(&mut bench, &[(&dense, 0.4), (&half, 0.6), (&ten, 0.6), (&one, 0.6), (&few, 0.6)]);
    sizes_and_lists(&mut bench, &[(&dense, 0.02, 0.2), (&half, 0.02, 0.2), (&ten, 0.04, 0.33), (&one, 0.3, 0.6), (&few, 0.6, 0.6)]);
    sparse_sets(&mut bench, &(0..8).map(|seed| Numbers(seed).one_in(10_000, end)).collect::<Vec<_>>());
    firsts(&mut bench, &[&dense, &ten, &one], &random);
    orders(&mut bench, &[&dense, &half, &ten, &one, &few]);
    bench.part("walks of two sets (ns per member of either set)");
    for (a, b, aim) in [(&half, &other_half, 0.6), (&ten, &other_ten, 0.6), (&one, &other_one, 0.6), (&few, &ten, 0.6), (&clusters, &one, 0.6)] {
        pair_walks(&mut bench, a, b, aim);
    }
    bench.part("the size of two sets together (ns per member of either set)");
    for (a, b) in [(&half, &other_half), (&ten, &other_ten), (&one, &other_one)] {
        let (x, y) = (&a.ids[..], &b.ids[..]);
        let mut row = Row::new(format!("len of a & b, {} and {}", a.name, b.name), a.len() + b.len(), 0.6, both!(and_len, x, y));
        peer!(row, fixedbitset, "fixedbitset", || timed(|| a.peers.fixed.intersection(&b.peers.fixed).count() as u64));
        peer!(row, bit_set, "bit-set", || timed(|| a.peers.bits.intersection(&b.peers.bits).count() as u64));
        peer!(row, roaring, "CRoaring", || timed(|| a.peers.roaring.and_len(&b.peers.roaring)));
        bench.run(row);
    }
    bench.part("walks of what is not there (ns per item)");
    for (sample, aim) in [(&half, 0.4), (&one, 0.4)] {
        let ids = &sample.ids[..];
        let mut row = Row::new(format!("walk of !a, {}", sample.name), END - ids.len(), aim, both!(walk_not, ids));
        peer!(row, roaring, "CRoaring", || timed(|| sample.peers.roaring.complement(END as u64).sum()));
        bench.run(row);
    }
    bench.part("assignments (ns per member of either set)");
    let dense_aims = [0.3, 0.6, 0.3];
    for (a, b, aims) in [
        (&half, &other_half, dense_aims),
        (&ten, &other_ten, dense_aims),
        (&one, &other_one, [1.0; 3]),
        (&few, &other_few, [1.0; 3]),
        (&few, &ten, [1.0; 3]),
        (&ten, &few, [1.0; 3]),
        (&clusters, &one, [1.0; 3]),
        (&few, &clusters, [1.0; 3]),
    ] {
        assignments(&mut bench, a, b, aims);
    }
    bench.part("assignments in place, over and over (ns per turn)");
    for (a, b) in [(&one, &other_one), (&few, &other_few), (&ten, &few), (&few, &clusters)] {
        assignments_in_place(&mut bench, a, b);
    }
    small_sets(&mut bench);
    ranges_and_words(&mut bench, &half, &other_half);
    drains(&mut bench, &[&half, &ten, &one, &clusters]);
    whole(&mut bench, &one, &[&half, &ten, &one, &few]);
    builds(&mut bench, [("1M random", &random), ("1M ascending", &ascending)]);
    atomics(&mut bench, &random, &absent, &ascending, &[(&dense, 0.4), (&half, 0.6), (&ten, 0.6), (&one, 0.6), (&few, 0.6)]);
    wide::rows(&mut bench);
    let mut values = Bench::new(false, &["HashMap"], repeats, wanted, only);
    columns::rows(&mut values);
    bench.print();
    if !counts() {
        println!("\nValues by index, where \"original\" is its set beside a flat vector:\n");
    }
    values.print();
}
