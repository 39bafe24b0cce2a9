// Derived from crates/hibitset_atomic/src/shared/view.rt by rust/derive.py, and never edited by hand.

//! What a seat of a shared set has and knows, for the proofs.

use crate::support::rattle_std::prelude::*;

use crate::support::rattle_std::collections::LinkedList;

/// What a seat has and knows: the words of layer 0 from before, its shares, the indices that it reported, the bits that
/// it set or saw, and how many loads and how many exchanges it has made. No value of it is made.
pub struct View {
    pub old: LinkedList<u64>,
    pub shares: LinkedList<u32>,
    pub reports: LinkedList<u32>,
    pub seen: LinkedList<u32>,
    pub loads: u64,
    pub exchanges: u64,
}
