// Derived from crates/hibitset_base/src/parallel/fill.rt by rust/derive.py, and never edited by hand.

//! One list, which several threads fill, each its own piece.
//!
//! The parts of a walk, the numbers of their items and the list are halved side by side.

use crate::support::rattle_std::prelude::*;

use super::run::sum_of_counts;
use crate::derived::hibitset_base::bulk::slice::write_walk;
use crate::derived::hibitset_base::iter::BitIter;
use crate::derived::hibitset_base::like::BitSetLike;
use crate::derived::hibitset_base::util::Index;
use crate::support::rayon::{current_num_threads, join_mut};
use crate::support::rattle_std::thread::Threads;

// No pool keeps threads, so each piece costs a new one, and no more than this are for one list.
const MAX_THREADS: usize = 32;

// How many times the work is halved: two pieces for each processor, since pieces differ in length.
pub(super) fn halvings<R: Threads>(rt: &R) -> usize {
    let threads = current_num_threads(rt).min(MAX_THREADS);
    threads.saturating_mul(2).ilog2() as usize
}

// Writes the items of the parts, in order, into a list of as many.
fn write_parts<T: BitSetLike>(parts: &[BitIter<&'_ T>], list: &mut [Index]) {
    let mut end = 0;
    for part in parts {
        end = write_walk(part, list, end);
    }
}

// The same from several threads: while there is depth left, each half has a thread of its own.
pub(super) fn fill<R: Threads + Sync, T: BitSetLike + Sync>(
    rt: &R,
    depth: usize,
    parts: &[BitIter<&'_ T>],
    counts: &[usize],
    list: &mut [Index],
) {
    if depth == 0 || parts.len() < 2 {
        write_parts(parts, list);
        return;
    }
    let middle = parts.len() / 2;
    let (low, high) = parts.split_at(middle);
    let (low_counts, high_counts) = counts.split_at(middle);
    let (front, back) = list.split_at_mut(sum_of_counts(low_counts));
    fill_both(
        rt,
        depth - 1,
        low,
        low_counts,
        front,
        high,
        high_counts,
        back,
    );
}

// Both halves, side by side.
fn fill_both<R: Threads + Sync, T: BitSetLike + Sync>(
    rt: &R,
    depth: usize,
    low: &[BitIter<&'_ T>],
    low_counts: &[usize],
    front: &mut [Index],
    high: &[BitIter<&'_ T>],
    high_counts: &[usize],
    back: &mut [Index],
) {
    let mut first = || { fill(rt, depth, low, low_counts, front) };
    let mut second = || { fill(rt, depth, high, high_counts, back) };
    join_mut(rt, &mut first, &mut second);
}
