// Derived from crates/hibitset_atomic/src/shared/walk.rt by rust/derive.py, and never edited by hand.

//! Walks over a shared set, while others add to it.

use crate::support::rattle_std::prelude::*;

use crate::derived::hibitset_atomic::layers::ATOMIC_LAYERS;
use crate::derived::hibitset_atomic::shared::types::{Seat, SharedBitSet};
use crate::derived::hibitset_base::cursor::Cursor;
use crate::derived::hibitset_base::read_count::Reads;
use crate::derived::hibitset_base::util::Index;

// The layers, and the root over them: one place, over the word of the highest layer.
pub(crate) const LEVELS: usize = ATOMIC_LAYERS + 1;

/// A walk over a shared set, in ascending order, while others add to it. It has one seat of that set on loan, and what
/// it gives becomes known to that seat.
///
/// - Once it has ended, it has given each index from before `share`, and each that the seat knew when the walk was
///   made. An index that comes in meanwhile may be given or not.
/// - Dropped early, it leaves a seat that knows what was given, and it has given all old and known indices before its
///   last item.
///
/// A step makes at most four loads at the first `next` and at most three at each later one, each a sequentially
/// consistent read of one word. It does not allocate, writes nothing to the set, and waits for no other thread.
pub struct SharedWalk<'a> {
    pub(crate) seat: &'a mut Seat,
    pub(crate) set: &'a SharedBitSet,
    pub(crate) cursor: Cursor<LEVELS>,
    pub(crate) reads: Reads,
}

// Loads the word of a layer at a position. Each load of a walk is made here.
#[inline]
fn load(
    set: &SharedBitSet,
    seat: &mut Seat,
    reads: &mut Reads,
    layer: usize,
    position: u32,
) -> usize {
    *reads = Reads::succ(reads);
    set.load_word(&mut seat.pass, layer, position) as usize
}

// Loads the word under a place that was taken, and puts its bits in the place's stead.
#[inline]
fn descend(
    set: &SharedBitSet,
    seat: &mut Seat,
    cursor: &mut Cursor<LEVELS>,
    reads: &mut Reads,
    layer: usize,
    position: u32,
) {
    let word = load(set, seat, reads, layer - 1, position);
    cursor.push_bits(layer - 1, position, word);
}

// The first index that is left, which is taken.
#[inline]
fn next_index(
    set: &SharedBitSet,
    seat: &mut Seat,
    cursor: &mut Cursor<LEVELS>,
    reads: &mut Reads,
) -> Option<Index> {
    'places: while let Some((layer, position)) = cursor.take_lowest() {
        if layer == 0 {
            return Some(position);
        }
        descend(set, seat, cursor, reads, layer, position);
    }
    None
}

impl SharedBitSet {
    /// A walk over the set, in ascending order, while others add to it, for one of the set's seats. The seat comes back
    /// when the walk is dropped, with the same weight and reports; it knows what the walk gave.
    ///
    /// Nothing is read here; the first `next` reads the first word.
    ///
    /// # Contract
    ///
    /// ```text
    /// requires { BelongsTo self.now seat.old }
    /// ensures same_reference { lender result ≡ seat.entry.ghost_name }
    /// ensures set_and_seat { (set_of result ≡ self.now) × (seat_of result ≡ seat.old) }
    /// ensures ready { IsReady result }
    /// ensures due { (i : ℕ) → IsOld self.now i ⊎ IsKnown seat.old i → IsDue result i }
    /// ensures loads { loads_of result ≡ 0 }
    /// ```
    #[inline]
    pub fn walk<'a>(&'a self, seat: &'a mut Seat) -> SharedWalk<'a> {
        SharedWalk {
            seat,
            set: self,
            cursor: Cursor::at_top(1),
            reads: Reads::none(),
        }
    }
}

impl<'a> Iterator for SharedWalk<'a> {
    type Item = Index;

    #[inline]
    fn next(&mut self) -> Option<Index> {
        next_index(self.set, self.seat, &mut self.cursor, &mut self.reads)
    }
}
