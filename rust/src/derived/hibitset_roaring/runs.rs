// Derived from crates/hibitset_roaring/src/runs.rt by rust/derive.py, and never edited by hand.

//! Runs of consecutive members: how many a container has, and how they are written.

use crate::support::rattle_std::prelude::*;

use crate::derived::hibitset_roaring::header::CONTAINER_NUMBERS;
use crate::derived::hibitset_roaring::layout::{CONTAINER_WORDS, MAX_ARRAY_LEN};
use crate::derived::hibitset_roaring::nonzero_words::next_slot;
use crate::derived::hibitset_roaring::number::put_u16;
use crate::derived::hibitset_base::bits::{next_bit, word_or_zero};

// From this many runs on, bits take no more bytes.
const RUNS_OF_BITS: usize = 2048;

// Returns whether `runs` runs take fewer bytes than an array or bits of their `count` members.
#[inline]
pub(crate) fn are_shorter(runs: usize, count: usize) -> bool {
    if count <= MAX_ARRAY_LEN {
        runs < (count + 1) / 2
    } else {
        runs < RUNS_OF_BITS
    }
}

// The next number of a container, from one on, that is a member; or 65,536.
fn next_member(words: &[usize], above: &[usize], key: usize, from: usize) -> usize {
    let mut number = from;
    'numbers: while number < CONTAINER_NUMBERS {
        let slot = number / 64;
        let bit = next_bit(
            word_or_zero(words, CONTAINER_WORDS * key + slot),
            number % 64,
        );
        if bit < 64 {
            return 64 * slot + bit;
        }
        number = 64 * next_slot(above, key, slot + 1);
    }
    number
}

// The next number of a container, from one on, that is no member; or 65,536.
fn next_gap(words: &[usize], key: usize, from: usize) -> usize {
    let mut number = from;
    'numbers: while number < CONTAINER_NUMBERS {
        let slot = number / 64;
        let bit = next_bit(
            !word_or_zero(words, CONTAINER_WORDS * key + slot),
            number % 64,
        );
        if bit < 64 {
            return 64 * slot + bit;
        }
        number = 64 * (slot + 1);
    }
    number
}

// How many runs the members with these high bits form, `count` of them. The count ends where runs are no shorter.
pub(crate) fn count_runs(words: &[usize], above: &[usize], key: usize, count: usize) -> usize {
    let mut runs = 0;
    let mut start = next_member(words, above, key, 0);
    'starts: while start < CONTAINER_NUMBERS {
        let shorter = are_shorter(runs, count);
        if !shorter {
            return runs;
        }
        let end = next_gap(words, key, start);
        start = next_member(words, above, key, end);
        runs += 1;
    }
    runs
}

// Writes the run of the numbers from one on before another.
fn put_run(out: &mut [u8], at: usize, start: usize, end: usize) {
    put_u16(out, at, start);
    put_u16(out, at + 2, end - start - 1);
}

// Writes the runs of the members with these high bits.
pub(crate) fn write_runs(
    out: &mut [u8],
    at: usize,
    words: &[usize],
    above: &[usize],
    key: usize,
    runs: usize,
) {
    put_u16(out, at, runs);
    let mut done = 0;
    let mut start = next_member(words, above, key, 0);
    'starts: while start < CONTAINER_NUMBERS {
        let end = next_gap(words, key, start);
        put_run(out, at + 2 + 4 * done, start, end);
        start = next_member(words, above, key, end);
        done += 1;
    }
}
