// Derived from crates/hibitset_base/src/bulk.rt by rust/derive.py, and never edited by hand.

//! What is left of a walk, taken by whole words and blocks of 64 words.

use crate::support::rattle_std::prelude::*;

use crate::derived::hibitset_base::cursor::Cursor;
use crate::derived::hibitset_base::iter::{load_next_from_layer2, load_next_word};
use crate::derived::hibitset_base::like::BitSetLike;
use crate::derived::hibitset_base::read_count::Reads;
use crate::derived::hibitset_base::util::{BITS, Index, LAYERS};

pub(crate) mod count;
pub(crate) mod fold;
pub(crate) mod list;
pub(crate) mod slice;
pub(crate) mod word_indices;

// Takes the next word of layer 0 out of the cursor, which reads it if it has to: the position of its bit 0, and the
// word. `None` at the end.
#[inline]
pub(crate) fn take_next_word<T: BitSetLike>(
    set: &T,
    cursor: &mut Cursor<LAYERS>,
    reads: &mut Reads,
) -> Option<(Index, usize)> {
    'layers: while cursor.is_empty(0) {
        if !load_next_word(set, cursor, reads) {
            return None;
        }
    }
    Some(cursor.take_word(0))
}

// Takes the next word of layer 1 out of the cursor: the position of its bit 0, and the word. `None` at the end. Layer 0
// must be empty.
#[inline]
pub(crate) fn take_next_block<T: BitSetLike>(
    set: &T,
    cursor: &mut Cursor<LAYERS>,
    reads: &mut Reads,
) -> Option<(u32, usize)> {
    'layers: while cursor.is_empty(1) {
        if !load_next_from_layer2(set, cursor, reads) {
            return None;
        }
    }
    Some(cursor.take_word(1))
}

// Takes the first bit of a word of layer 1, whose own first bit is at `start`, and reads the word of layer 0 under it:
// the position of that word's first bit, and the word.
#[inline]
pub(crate) fn take_child<T: BitSetLike>(set: &T, start: u32, rest: &mut usize) -> (Index, usize) {
    let position = start | rest.trailing_zeros();
    *rest &= *rest - 1;
    (position << BITS, set.layer0(position as usize))
}

// Takes what is left in layer 0: the position of the first bit of its word, and the word, which is 0 where nothing is
// left.
#[inline]
pub(crate) fn take_lowest_word(cursor: &mut Cursor<LAYERS>) -> (Index, usize) {
    if cursor.is_empty(0) {
        return (0, 0);
    }
    cursor.take_word(0)
}

// Takes the first bit of a word whose own first bit is at `start`, and returns its index.
#[inline]
pub(crate) fn take_index(start: Index, rest: &mut usize) -> Index {
    let index = start | rest.trailing_zeros();
    *rest &= *rest - 1;
    index
}
