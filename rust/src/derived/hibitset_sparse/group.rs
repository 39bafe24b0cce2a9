// Derived from crates/hibitset_sparse/src/group.rt by rust/derive.py, and never edited by hand.

//! Where 64 places of a table have their values.

use crate::support::rattle_std::prelude::*;

/// The places of a group that have a value, as bits, and how many values lie before the first of them.
#[derive(Clone, Copy)]
pub(crate) struct Group {
    pub(crate) word: usize,
    pub(crate) start: usize,
}
