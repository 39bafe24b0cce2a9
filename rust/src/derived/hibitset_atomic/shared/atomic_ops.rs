// Derived from crates/hibitset_atomic/src/shared/atomic_ops.rt by rust/derive.py, and never edited by hand.

//! The single steps of the calls on a shared set: each reads or writes one word.

use crate::support::rattle_std::prelude::*;

use crate::derived::hibitset_atomic::atomic::ATOMIC_MAX_EID;
use crate::derived::hibitset_atomic::layers::ATOMIC_LAYERS;
use crate::derived::hibitset_atomic::shared::layout::{LAYER1_START, LAYER2_START, LAYER3_START};
use crate::derived::hibitset_atomic::shared::rule::{FetchOrLayer0, FetchOrSummary, Load};
use crate::derived::hibitset_atomic::shared::types::{SharedBitSet, TableSeat};
use crate::derived::hibitset_atomic::steps::bit_over;
use crate::derived::hibitset_base::util::Index;

// Where a layer begins in the row of all words.
#[inline]
pub(crate) fn first_word(layer: usize) -> usize {
    match layer {
        0 => 0,
        1 => LAYER1_START,
        2 => LAYER2_START,
        _ => LAYER3_START,
    }
}

// The mark of the bit that an addition of an index sets in a layer, at its place of `path`.
#[inline]
pub(crate) fn mark_of(id: Index, layer: usize) -> u32 {
    let (place, bit) = bit_over(id, layer);
    ((first_word(layer) + place) * 64) as u32 + bit
}

impl SharedBitSet {
    // The exchange at layer 0.
    #[inline]
    pub(crate) fn fetch_or_layer0(&self, pass: &mut TableSeat, id: u32) -> bool {
        let found = self
            .table
            .shared
            .fetch_or::<FetchOrLayer0>(pass, (id / 64) as usize, 1 << (id % 64));
        (found >> (id % 64)) & 1 != 0
    }

    // The exchange at a layer above 0, after that of the layer below.
    #[inline]
    fn fetch_or_summary(&self, pass: &mut TableSeat, id: Index, layer: usize) {
        let mark = mark_of(id, layer + 1);
        self.table
            .shared
            .fetch_or::<FetchOrSummary>(pass, (mark / 64) as usize, 1 << (mark % 64));
    }

    // Ensures that the bit at a layer above 0 is set, after that of the layer below: reads it, and exchanges where it
    // does not stand yet, so that threads whose indices lie under one word don't contend for it.
    #[inline]
    pub(crate) fn set_summary(&self, pass: &mut TableSeat, id: Index, layer: usize) {
        if !self.load_bit(pass, mark_of(id, layer + 1)) {
            self.fetch_or_summary(pass, id, layer);
        }
    }

    #[inline]
    pub(crate) fn load(&self, pass: &mut TableSeat, place: usize) -> u64 {
        self.table.shared.load::<Load>(pass, place)
    }

    #[inline]
    pub(crate) fn load_bit(&self, pass: &mut TableSeat, mark: u32) -> bool {
        let word = self.load(pass, (mark / 64) as usize);
        (word >> (mark % 64)) & 1 != 0
    }

    // The word of a layer at a position. Under a summary bit that the seat has seen it is not zero, and it has each bit
    // over an old or known index.
    #[inline]
    pub(crate) fn load_word(&self, pass: &mut TableSeat, layer: usize, position: u32) -> u64 {
        self.load(pass, first_word(layer) + position as usize)
    }
}
