// Derived from crates/hibitset_base/src/lib.rt by rust/derive.py, and never edited by hand.

//! Hierarchical bit sets: the words of a set in layers, walks over them, and sets that are combined without copying.

use crate::support::rattle_std::prelude::*;

#[doc(hidden)]
pub mod bits;
pub mod build;
mod bulk;
mod byte_table;
#[doc(hidden)]
pub mod cursor;
pub mod drain;
mod ends;
pub mod iter;
mod iter_from;
pub mod laws;
pub mod like;
pub mod ops;
pub mod parallel;
pub mod range;
pub mod ranked;
mod ranks;
#[doc(hidden)]
pub mod read_count;
pub(crate) mod rev_cursor;
pub mod rev_iter;
pub mod util;
pub mod virt;

pub use build::BuildError;
pub use drain::DrainBitIter;
pub use iter::BitIter;
pub use like::{BitSetLike, DrainableBitSet};
pub use parallel::{BitParIter, BitProducer};
pub use range::BitSetRange;
pub use ranked::Ranked;
pub use rev_iter::BitRevIter;
pub use util::{Index, LAYERS, MAX_EID};
pub use virt::{BitSetAll, BitSetAnd, BitSetNot, BitSetOr, BitSetXor};
