// Derived from crates/hibitset_atomic/src/shared/types.rt by rust/derive.py, and never edited by hand.

//! What a shared set and a seat are made of, and what each allocates.

use crate::support::rattle_std::prelude::*;

use crate::derived::hibitset_atomic::shared::rule::FourLayers;
use crate::derived::hibitset_atomic::shared::view::View;
use crate::support::atomic_table::Table;
use crate::support::rattle_std::alloc::Global;
use crate::support::rattle_std::snapshot::Snapshot;

// A seat's permission to act on the table: a fractional token of ghost state, which takes no bytes.
pub type TableSeat = crate::support::atomic_table::Seat<(), View>;

/// A set that threads add to, each with a seat of its own. `AtomicBitSet::share` makes it, and `settle` ends it; until
/// then no index is taken out.
pub struct SharedBitSet {
    pub(crate) table: Table<(), View, Snapshot<Vec<u64>>, FourLayers, Global>,
    pub(crate) alloc: Global,
}

/// What one thread adds and asks with, at the set that it came from. It has
///
/// - a weight: how many of the `SHARES` of its set it has;
/// - reports: the indices that its own adds put in, the newest first;
/// - known indices, of which it has seen all four bits.
///
/// No call takes a report or a known index from it. A seat that is dropped takes its shares with it.
pub struct Seat {
    pub(crate) pass: TableSeat,
    pub(crate) weight: u32,
}
