// Derived from crates/hibitset_roaring/src/encode_container.rt by rust/derive.py, and never edited by hand.

//! Containers written as arrays, as bits or as runs.

use crate::support::rattle_std::prelude::*;

use crate::derived::hibitset_roaring::array::write_array;
use crate::derived::hibitset_roaring::layout::{CONTAINER_WORDS, MAX_ARRAY_LEN, flat_size};
use crate::derived::hibitset_roaring::number::put_u64;
use crate::derived::hibitset_roaring::runs::{are_shorter, write_runs};

// How many bytes a container takes, by its numbers of members and of runs.
#[inline]
pub(crate) fn container_size(count: usize, runs: usize) -> usize {
    if are_shorter(runs, count) {
        2 + 4 * runs
    } else {
        flat_size(count)
    }
}

// Writes words from one on, as many as `count`.
fn write_words_of(out: &mut [u8], at: usize, words: &[usize], base: usize, count: usize) {
    'words: for j in 0..count {
        put_u64(out, at + 8 * j, words[base + j]);
    }
}

// Writes zero words.
fn write_zeros(out: &mut [u8], at: usize, count: usize) {
    'zeros: for j in 0..count {
        put_u64(out, at + 8 * j, 0);
    }
}

// Writes the members with these high bits as bits. Words past the end are 0.
fn write_bits(out: &mut [u8], at: usize, words: &[usize], key: usize) {
    let base = CONTAINER_WORDS * key;
    let count = words.len().saturating_sub(base).min(CONTAINER_WORDS);
    write_words_of(out, at, words, base, count);
    write_zeros(out, at + 8 * count, CONTAINER_WORDS - count);
}

// Writes a container that is no runs.
fn write_flat(out: &mut [u8], at: usize, words: &[usize], above: &[usize], key: usize, count: usize) {
    if count <= MAX_ARRAY_LEN {
        write_array(out, at, words, above, key);
    } else {
        write_bits(out, at, words, key);
    }
}

// Writes a container, as runs if these are shorter.
pub(crate) fn write_kind(
    out: &mut [u8],
    at: usize,
    words: &[usize],
    above: &[usize],
    key: usize,
    count: usize,
    runs: usize,
) {
    if are_shorter(runs, count) {
        write_runs(out, at, words, above, key, runs);
    } else {
        write_flat(out, at, words, above, key, count);
    }
}
