// Derived from crates/hibitset_base/src/bulk/count.rt by rust/derive.py, and never edited by hand.

//! Counts of members, by whole words.

use crate::support::rattle_std::prelude::*;

use crate::derived::hibitset_base::bulk::{take_child, take_lowest_word, take_next_block};
use crate::derived::hibitset_base::cursor::Cursor;
use crate::derived::hibitset_base::iter::{BitIter, root_cursor};
use crate::derived::hibitset_base::like::BitSetLike;
use crate::derived::hibitset_base::read_count::Reads;
use crate::derived::hibitset_base::util::LAYERS;

// How many members lie in the 64 words of layer 0 from a position on.
#[inline]
fn count_block<T: BitSetLike>(set: &T, start: u32) -> usize {
    let mut count = 0;
    let mut word = 0;
    'words: while word < 64 {
        count += set.layer0(start as usize + word).count_ones() as usize;
        word += 1;
    }
    count
}

// How many members lie in the words of layer 0 under the bits of a word of layer 1, whose first bit is at `start`. If
// all bits are set, the words are gone over one after the other.
#[inline]
pub(crate) fn count_subtree<T: BitSetLike>(set: &T, start: u32, word: usize) -> usize {
    if word == usize::MAX {
        return count_block(set, start);
    }
    let mut count = 0;
    let mut rest = word;
    'bits: while rest != 0 {
        let (_, lower) = take_child(set, start, &mut rest);
        count += lower.count_ones() as usize;
    }
    count
}

// How many items are left, where none is left in layer 0.
#[inline]
fn count_blocks<T: BitSetLike>(set: &T, cursor: &mut Cursor<LAYERS>, reads: &mut Reads) -> usize {
    let mut count = 0;
    'parts: while let Some((start, word)) = take_next_block(set, cursor, reads) {
        count += count_subtree(set, start, word);
    }
    count
}

// How many items are left. It goes by words of layer 1, since what lies under one is counted without a look at the
// layers above.
#[inline]
pub(crate) fn count_left<T: BitSetLike>(
    set: &T,
    cursor: &mut Cursor<LAYERS>,
    reads: &mut Reads,
) -> usize {
    let (_, word) = take_lowest_word(cursor);
    word.count_ones() as usize + count_blocks(set, cursor, reads)
}

// How many members a set has.
#[inline]
pub(crate) fn count_members<T: BitSetLike>(set: &T) -> usize {
    let mut reads = Reads::none();
    let mut cursor = root_cursor(set, &mut reads);
    count_left(set, &mut cursor, &mut reads)
}

// How many items a walk has left.
pub(crate) fn count_walk<T: BitSetLike>(walk: &BitIter<T>) -> usize {
    let mut reads = Reads::none();
    let mut cursor = walk.cursor.copied();
    count_left(&walk.set, &mut cursor, &mut reads)
}
