//! Beside the shared set: seats of no bytes for calls by `&`, and its words by `&mut`. `SHARED_BY_REFERENCE.md` says why
//! the seats can be left out.

use crate::derived::hibitset_atomic::layers::ATOMIC_LAYERS;
use crate::derived::hibitset_atomic::shared::layout::{
    LAYER1_START, LAYER2_START, LAYER3_START, ROW_WORDS, SHARES,
};
use crate::derived::hibitset_atomic::shared::types::{Seat, SharedBitSet, TableSeat};
use crate::derived::hibitset_atomic::ATOMIC_MAX_EID;
use crate::derived::hibitset_base::like::BitSetLike;
use crate::derived::hibitset_base::util::{Index, BITS};
use crate::support::atomic_table::Table;
use crate::support::rattle_std::alloc::{AllocError, Global};
use crate::support::rattle_std::prelude::*;
use crate::support::rattle_std::snapshot::Snapshot;

/// Where each layer begins in the row of all words.
const LAYER_STARTS: [usize; ATOMIC_LAYERS] = [0, LAYER1_START, LAYER2_START, LAYER3_START];

const WORD_BITS: usize = 1 << BITS;

impl Seat {
    /// A seat of one share, for one call or one read.
    #[inline]
    pub(crate) fn erased() -> Seat {
        Seat {
            pass: TableSeat::erased(),
            weight: 1,
        }
    }

    /// The seat with all shares, where no other is in use.
    #[inline]
    pub(crate) fn opening() -> Seat {
        Seat {
            pass: TableSeat::erased(),
            weight: SHARES,
        }
    }
}

impl SharedBitSet {
    /// Returns what `share` makes of the empty set. Without memory it ends the process.
    pub(crate) fn empty() -> SharedBitSet {
        SharedBitSet {
            table: Table::of_zeros(ROW_WORDS),
            alloc: Global,
        }
    }

    /// Returns what `share` makes of the empty set, or the error if there is no memory. It writes to all words.
    pub(crate) fn try_empty() -> Result<SharedBitSet, AllocError> {
        let mut row = Vec::with_capacity(Global, ROW_WORDS)?;
        row.resize(ROW_WORDS, 0)?;
        let (table, _) = Table::of_words(Global, row.as_slice(), &Snapshot::of(&row))?;
        Ok(SharedBitSet {
            table,
            alloc: Global,
        })
    }

    /// The word of a layer at a position, which is 0 past the layer's end.
    #[inline]
    fn word_at(&self, layer: usize, position: usize) -> usize {
        if position >> (BITS * (ATOMIC_LAYERS - 1 - layer)) != 0 {
            return 0;
        }
        self.load(&mut TableSeat::erased(), LAYER_STARTS[layer] + position) as usize
    }

    /// Removes an index, and the summary bits over words that become 0. Returns whether it was there.
    pub(crate) fn remove(&mut self, id: Index) -> bool {
        if id as usize >= ATOMIC_MAX_EID {
            return false;
        }
        let (mut position, mut was) = (id as usize, false);
        for start in LAYER_STARTS {
            let word = self.table.shared.word_mut(start + position / WORD_BITS);
            let bit = 1 << (position % WORD_BITS);
            was |= start == 0 && *word & bit != 0;
            *word &= !bit;
            if *word != 0 || !was {
                return was;
            }
            position /= WORD_BITS;
        }
        was
    }

    /// Makes a word of a layer above 0 zero, and all words under it.
    fn clear_under(&mut self, layer: usize, position: usize) {
        let mut left = core::mem::take(self.table.shared.word_mut(LAYER_STARTS[layer] + position));
        if layer == 1 && left != 0 {
            return self
                .table
                .shared
                .zero(WORD_BITS * position..WORD_BITS * (position + 1));
        }
        while left != 0 {
            self.clear_under(
                layer - 1,
                WORD_BITS * position + left.trailing_zeros() as usize,
            );
            left &= left - 1;
        }
    }

    /// Removes all members. It goes only to words that are not 0.
    pub(crate) fn clear(&mut self) {
        self.clear_under(ATOMIC_LAYERS - 1, 0);
    }
}

impl BitSetLike for SharedBitSet {
    #[inline]
    fn is_empty(&self) -> bool {
        self.layer4() == 0
    }

    #[inline]
    fn has_cheap_words(&self) -> bool {
        true
    }

    #[inline]
    fn layer4(&self) -> usize {
        (self.word_at(3, 0) != 0) as usize
    }

    #[inline]
    fn layer3(&self, i: usize) -> usize {
        self.word_at(3, i)
    }

    #[inline]
    fn layer2(&self, i: usize) -> usize {
        self.word_at(2, i)
    }

    #[inline]
    fn layer1(&self, i: usize) -> usize {
        self.word_at(1, i)
    }

    #[inline]
    fn layer0(&self, i: usize) -> usize {
        self.word_at(0, i)
    }

    #[inline]
    fn contains(&self, i: Index) -> bool {
        SharedBitSet::contains(self, &mut Seat::erased(), i)
    }
}
