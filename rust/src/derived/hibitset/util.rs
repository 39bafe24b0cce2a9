// Derived from crates/hibitset/src/util.rt by rust/derive.py, and never edited by hand.

//! Indices and the layers of both sets: how many there are, and where in them an index lies.

use crate::support::rattle_std::prelude::*;

pub use crate::derived::hibitset_atomic::ATOMIC_MAX_EID;
pub use crate::derived::hibitset_base::util::{
    BITS, Index, LAYERS, MAX, MAX_EID, Row, SHIFT0, SHIFT1, SHIFT2, SHIFT3, SHIFT4, average_ones,
    offsets,
};
