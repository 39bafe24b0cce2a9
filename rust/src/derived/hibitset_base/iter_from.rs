// Derived from crates/hibitset_base/src/iter_from.rt by rust/derive.py, and never edited by hand.

//! Walks that begin at an index.

use crate::support::rattle_std::prelude::*;

use crate::derived::hibitset_base::bits::{tail, tail_after};
use crate::derived::hibitset_base::cursor::Cursor;
use crate::derived::hibitset_base::iter::{BitIter, read};
use crate::derived::hibitset_base::like::BitSetLike;
use crate::derived::hibitset_base::read_count::Reads;
use crate::derived::hibitset_base::util::{BITS, Index, LAYERS, MAX_EID};

// The bits of a word that an iteration from an index still visits: from the index's own bit on in layer 0, strictly
// after it above.
#[inline]
fn left_over(layer: usize, word: usize, place: u32) -> usize {
    if layer == 0 {
        tail(word, place % 64)
    } else {
        tail_after(word, place % 64)
    }
}

// Reads the word over an index in a layer, and returns what is left of it and whether the bit over the index is set.
#[inline]
fn read_over<T: BitSetLike>(set: &T, reads: &mut Reads, layer: usize, from: Index) -> (usize, bool) {
    let place = from >> (BITS * layer);
    let word = read(set, reads, layer, place >> BITS);
    let stands = word >> (place % 64) & 1 == 1;
    (left_over(layer, word, place), stands)
}

// Where the words over an index begin in their layers.
#[inline]
fn prefixes_over(from: Index) -> [u32; LAYERS] {
    let mut prefixes = [0; LAYERS];
    'layers: for layer in 0..LAYERS {
        prefixes[layer] = from >> (BITS * (layer + 1)) << BITS;
    }
    prefixes
}

// Reads the words over an index from the top layer down, as long as the bit over the index is set, and returns what is
// left of each.
#[inline]
fn tails_over<T: BitSetLike>(
    set: &T,
    reads: &mut Reads,
    from: Index,
    prefixes: [u32; LAYERS],
) -> [usize; LAYERS] {
    let mut masks = [0; LAYERS];
    'layers: for depth in 0..LAYERS {
        let layer = LAYERS - 1 - depth;
        let (mask, stands) = read_over(set, reads, layer, from);
        masks[layer] = mask;
        if !stands {
            return masks;
        }
    }
    masks
}

// Reads the words over an index, and returns where a walk begins that goes over the members from it on.
#[inline]
fn begin_at<T: BitSetLike>(set: &T, reads: &mut Reads, from: Index) -> Cursor<LAYERS> {
    let prefixes = prefixes_over(from);
    let masks = tails_over(set, reads, from, prefixes);
    Cursor::new(masks, prefixes)
}

impl<T: BitSetLike> BitIter<T> {
    // Starts at an index.
    #[inline]
    pub(crate) fn from_index(set: T, from: Index) -> Self {
        let mut reads = Reads::none();
        if from as usize >= MAX_EID {
            return BitIter {
                set,
                cursor: Cursor::at_top(0),
                reads,
            };
        }
        let cursor = begin_at(&set, &mut reads, from);
        BitIter { set, cursor, reads }
    }
}
