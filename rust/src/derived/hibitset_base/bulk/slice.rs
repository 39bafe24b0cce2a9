// Derived from crates/hibitset_base/src/bulk/slice.rt by rust/derive.py, and never edited by hand.

//! Members written into a slice that is as long as they are many, for threads.

use crate::support::rattle_std::prelude::*;

use crate::derived::hibitset_base::bulk::word_indices::{write_bit, write_bits};
use crate::derived::hibitset_base::bulk::{take_child, take_lowest_word, take_next_block};
use crate::derived::hibitset_base::iter::BitIter;
use crate::derived::hibitset_base::like::BitSetLike;
use crate::derived::hibitset_base::read_count::Reads;
use crate::derived::hibitset_base::util::Index;

// Writes the indices of a word's bits into a list one by one, from a place on, and returns the place after them.
#[inline]
fn write_exactly(list: &mut [Index], at: usize, start: Index, word: usize) -> usize {
    let mut rest = word;
    let mut end = at;
    'bits: while rest != 0 {
        rest = write_bit(list, end, start, rest);
        end += 1;
    }
    at + word.count_ones() as usize
}

// As `write_exactly`, but by the faster `write_bits` while 68 entries are free, since that may write past the end.
#[inline]
fn write_word(list: &mut [Index], at: usize, start: Index, word: usize) -> usize {
    if list.len() - at < 68 {
        return write_exactly(list, at, start, word);
    }
    write_bits(list, at, start, word)
}

// Writes the members in the words of layer 0 under the bits of a word of layer 1, whose first bit is at `start`, into a
// list, from a place on, and returns the place after them.
#[inline]
fn write_subtree<T: BitSetLike>(
    set: &T,
    start: u32,
    word: usize,
    list: &mut [Index],
    at: usize,
) -> usize {
    let mut end = at;
    let mut rest = word;
    'bits: while rest != 0 {
        let (first, lower) = take_child(set, start, &mut rest);
        end = write_word(list, end, first, lower);
    }
    end
}

// Writes the items that a walk has left into a list, from a place on, and returns the place after them.
pub(crate) fn write_walk<T: BitSetLike>(walk: &BitIter<T>, list: &mut [Index], at: usize) -> usize {
    let mut reads = Reads::none();
    let mut cursor = walk.cursor.copied();
    let (first, word) = take_lowest_word(&mut cursor);
    let mut end = write_word(list, at, first, word);
    'parts: while let Some((start, word)) = take_next_block(&walk.set, &mut cursor, &mut reads) {
        end = write_subtree(&walk.set, start, word, list, end);
    }
    end
}
