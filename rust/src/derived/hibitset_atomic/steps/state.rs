// Derived from crates/hibitset_atomic/src/steps/state.rt by rust/derive.py, and never edited by hand.

//! What a world keeps.

use crate::support::rattle_std::prelude::*;

use crate::derived::hibitset_atomic::atomic::AtomicBitSet;
use crate::derived::hibitset_atomic::layers::{ATOMIC_LAYERS, Layers};
use crate::derived::hibitset_atomic::steps::calls::Calls;
use crate::derived::hibitset_atomic::steps::event::Event;
use crate::derived::hibitset_atomic::steps::walks::Walks;
use crate::support::rattle_std::alloc::Global;
use crate::support::rattle_std::snapshot::Snapshot;

/// A set to which calls add and which walks go over, in turns of one word each, with all that happened to it.
pub struct World {
    pub(crate) alloc: Global,
    pub(crate) past: Vec<Event>,
    pub(crate) start: Snapshot<AtomicBitSet>,
    pub(crate) layers: Layers,
    pub(crate) calls: Calls,
    pub(crate) walks: Walks,
}
