// Derived from crates/hibitset_atomic/src/shared/layout.rt by rust/derive.py, and never edited by hand.

//! The numbers of a shared set: its shares, and where its layers lie in the row of all its words.

use crate::support::rattle_std::prelude::*;

/// How many shares a set has. A seat that has them all is whole.
pub const SHARES: u32 = 65_536;

/// The position in the row at which layer 1 begins, after the words of layer 0.
pub(crate) const LAYER1_START: usize = 262_144;

/// The position in the row at which layer 2 begins.
pub(crate) const LAYER2_START: usize = 266_240;

/// The position in the row of the one word of layer 3.
pub(crate) const LAYER3_START: usize = 266_304;

/// The words of the row: those of the four layers.
pub(crate) const ROW_WORDS: usize = 266_305;
