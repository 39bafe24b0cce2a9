// Derived from crates/hibitset_base/src/rev_iter.rt by rust/derive.py, and never edited by hand.

//! Walks over a set, in descending order.

use crate::support::rattle_std::prelude::*;

use crate::derived::hibitset_base::bits::head;
use crate::derived::hibitset_base::iter::read;
use crate::derived::hibitset_base::like::BitSetLike;
use crate::derived::hibitset_base::read_count::Reads;
use crate::derived::hibitset_base::rev_cursor::RevCursor;
use crate::derived::hibitset_base::util::{BITS, Index, LAYERS, MAX_EID};

/// A walk over the members of a set, in descending order.
#[derive(Debug)]
pub struct BitRevIter<T> {
    pub(crate) set: T,
    pub(crate) cursor: RevCursor<LAYERS>,
    pub(crate) reads: Reads,
}

// Reads the top word of a set, and returns where a walk down begins.
#[inline]
pub(crate) fn start_at_end<T: BitSetLike>(set: &T, reads: &mut Reads) -> RevCursor<LAYERS> {
    let word = read(set, reads, LAYERS - 1, 0);
    let mut cursor = RevCursor::<LAYERS>::empty();
    cursor.push_bits(LAYERS - 1, 0, word);
    cursor
}

// Reads the word over an index in a layer, leaves its bits before the index to the walk, and returns whether the bit
// over the index is set.
#[inline]
pub(crate) fn put_head<T: BitSetLike>(
    set: &T,
    cursor: &mut RevCursor<LAYERS>,
    reads: &mut Reads,
    layer: usize,
    end: Index,
) -> bool {
    let place = end >> (BITS * layer);
    let word = read(set, reads, layer, place >> BITS);
    cursor.push_bits(layer, place >> BITS, head(word, place % 64));
    word >> (place % 64) & 1 == 1
}

// Reads the words over an index from the top layer down, as long as the bit over the index is set, and returns where a
// walk down begins that gives the members before it.
#[inline]
fn start_before<T: BitSetLike>(set: &T, reads: &mut Reads, end: Index) -> RevCursor<LAYERS> {
    let mut cursor = RevCursor::<LAYERS>::empty();
    'layers: for depth in 0..LAYERS {
        if !put_head(set, &mut cursor, reads, LAYERS - 1 - depth, end) {
            return cursor;
        }
    }
    cursor
}

// Reads the word under the last bit of `layer`, to go on from there. False if no bit is left in `layer`.
#[inline]
fn descend_last<T: BitSetLike>(
    set: &T,
    cursor: &mut RevCursor<LAYERS>,
    reads: &mut Reads,
    layer: usize,
) -> bool {
    if cursor.is_empty(layer) {
        return false;
    }
    let position = cursor.take_last(layer);
    let word = read(set, reads, layer - 1, position);
    cursor.push_bits(layer - 1, position, word);
    true
}

// Reads the word under the last bit that is left above layer 2. False if none is left.
#[inline]
fn load_last_from_layer3<T: BitSetLike>(
    set: &T,
    cursor: &mut RevCursor<LAYERS>,
    reads: &mut Reads,
) -> bool {
    if descend_last(set, cursor, reads, 3) {
        return true;
    }
    descend_last(set, cursor, reads, 4)
}

// Reads the word under the last bit that is left above layer 1. False if none is left.
#[inline]
fn load_last_from_layer2<T: BitSetLike>(
    set: &T,
    cursor: &mut RevCursor<LAYERS>,
    reads: &mut Reads,
) -> bool {
    if descend_last(set, cursor, reads, 2) {
        return true;
    }
    load_last_from_layer3(set, cursor, reads)
}

// Reads the word under the last bit that is left above layer 0. False if none is left.
#[inline]
fn load_last_word<T: BitSetLike>(set: &T, cursor: &mut RevCursor<LAYERS>, reads: &mut Reads) -> bool {
    if descend_last(set, cursor, reads, 1) {
        return true;
    }
    load_last_from_layer2(set, cursor, reads)
}

// The last index that is left, which is taken.
#[inline(always)]
pub(crate) fn previous_index<T: BitSetLike>(
    set: &T,
    cursor: &mut RevCursor<LAYERS>,
    reads: &mut Reads,
) -> Option<Index> {
    'layers: while cursor.is_empty(0) {
        if !load_last_word(set, cursor, reads) {
            return None;
        }
    }
    Some(cursor.take_last(0))
}

impl<T: BitSetLike> BitRevIter<T> {
    // Starts at the end of the set.
    #[inline]
    pub(crate) fn from_end(set: T) -> Self {
        let mut reads = Reads::none();
        let cursor = start_at_end(&set, &mut reads);
        BitRevIter { set, cursor, reads }
    }

    // Starts before an index.
    #[inline]
    pub(crate) fn from_before(set: T, end: Index) -> Self {
        if end as usize >= MAX_EID {
            return BitRevIter::from_end(set);
        }
        let mut reads = Reads::none();
        let cursor = start_before(&set, &mut reads, end);
        BitRevIter { set, cursor, reads }
    }
}

impl<T: BitSetLike> Iterator for BitRevIter<T> {
    type Item = Index;

    #[inline]
    fn next(&mut self) -> Option<Index> {
        previous_index(&self.set, &mut self.cursor, &mut self.reads)
    }

    crate::beside::iterator_members! { BitRevIter }
}
