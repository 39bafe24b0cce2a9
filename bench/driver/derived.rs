//! The kernels over the crate of rust/: those of `original.rs`, and others for the calls that the original lacks.
#[path = "original.rs"]
mod original;

pub use original::*;

use hibitset::{BitSet, BitSetLike, Ranked};
use original::{on_copies, set_of, sum_of, turns, END};
use std::hint::black_box;

/// Adds up an answer for each number that is asked for.
fn sum_of_answers(set: &BitSet, asked: &[u32], times: usize, answer: impl Fn(&BitSet, u32) -> u64) -> u64 {
    turns(times, || {
        let set = black_box(set);
        asked.iter().fold(0u64, |sum, number| sum.wrapping_add(answer(set, *number)))
    })
}

pub fn len(ids: &[u32], times: usize) -> u64 {
    let set = set_of(ids);
    turns(times, || black_box(&set).len() as u64)
}

pub fn to_vec(ids: &[u32], times: usize) -> u64 {
    let set = set_of(ids);
    turns(times, || {
        let list = black_box(&set).to_vec();
        list.len() as u64 + list.last().copied().unwrap_or(0) as u64
    })
}

pub fn first(ids: &[u32], times: usize) -> u64 {
    let set = set_of(ids);
    turns(times, || black_box(&set).first().unwrap_or(0) as u64)
}

pub fn walk_from(a: &[u32], b: &[u32], times: usize) -> u64 {
    sum_of_answers(&set_of(a), b, times, |set, start| set.iter_from(start).next().unwrap_or(0) as u64)
}

pub fn and_len(a: &[u32], b: &[u32], times: usize) -> u64 {
    let (a, b) = (set_of(a), set_of(b));
    turns(times, || (black_box(&a) & &b).len() as u64)
}

pub fn rank(ids: &[u32], asked: &[u32], times: usize) -> u64 {
    sum_of_answers(&set_of(ids), asked, times, |set, end| set.rank(end) as u64)
}

pub fn select(ids: &[u32], asked: &[u32], times: usize) -> u64 {
    sum_of_answers(&set_of(ids), asked, times, |set, at| set.select(at as usize).unwrap_or(0) as u64)
}

pub fn len_range(ids: &[u32], asked: &[u32], times: usize) -> u64 {
    sum_of_answers(&set_of(ids), asked, times, |set, start| set.len_range(start..start + 100_000) as u64)
}

pub fn last_before(ids: &[u32], asked: &[u32], times: usize) -> u64 {
    sum_of_answers(&set_of(ids), asked, times, |set, end| set.last_before(end).unwrap_or(0) as u64)
}

pub fn ranked_rank(ids: &[u32], asked: &[u32], times: usize) -> u64 {
    let set = set_of(ids);
    let ranked = Ranked::new(&set);
    sum_of_answers(&set, asked, times, |_, end| ranked.rank(end) as u64)
}

pub fn ranked_select(ids: &[u32], asked: &[u32], times: usize) -> u64 {
    let set = set_of(ids);
    let ranked = Ranked::new(&set);
    sum_of_answers(&set, asked, times, |_, at| ranked.select(at as usize).unwrap_or(0) as u64)
}

pub fn walk_down(ids: &[u32], times: usize) -> u64 {
    let set = set_of(ids);
    turns(times, || sum_of(black_box(&set).iter_rev()))
}

pub fn flip(ends: &[u32], times: usize) -> u64 {
    let mut set = set_of(ends);
    let (start, end) = (ends.first().copied().unwrap_or(0), ends.last().copied().unwrap_or(0));
    turns(times, || {
        set.flip_range(start..end);
        set.contains(start) as u64
    })
}

pub fn ranges(ends: &[u32], times: usize) -> u64 {
    let mut set = BitSet::with_capacity(END - 1);
    let (start, end) = (ends.first().copied().unwrap_or(0), ends.last().copied().unwrap_or(0));
    turns(times, || {
        set.add_range(start..end);
        let there = set.contains(start) as u64;
        set.remove_range(start..end);
        there.wrapping_add(set.contains(start) as u64)
    })
}

pub fn from_words(ids: &[u32], times: usize) -> u64 {
    let set = set_of(ids);
    let first = ids.first().copied().unwrap_or(0);
    turns(times, || BitSet::from_words(set.layer0_as_slice()).contains(first) as u64)
}

pub fn subtract_assign(a: &[u32], b: &[u32], times: usize) -> u64 {
    let other = set_of(b);
    on_copies(&set_of(a), a, times, |copy| {
        *copy -= &other;
        0
    })
}

/// A turn adds an index that is there, so that no turn's answer serves for the next.
fn compared(a: &[u32], b: &[u32], times: usize, compare: impl Fn(&BitSet, &BitSet) -> bool) -> u64 {
    let (mut first, second) = (set_of(a), set_of(b));
    let there = a.first().copied().unwrap_or(0);
    turns(times, || {
        first.add(there);
        compare(&first, &second) as u64
    })
}

pub fn is_disjoint(a: &[u32], b: &[u32], times: usize) -> u64 {
    compared(a, b, times, |first, second| first.is_disjoint(second))
}

pub fn is_subset(a: &[u32], b: &[u32], times: usize) -> u64 {
    compared(a, b, times, |first, second| first.is_subset(second))
}
