// Derived from crates/hibitset_store/src/lib.rt by rust/derive.py, and never edited by hand.

//! Columns of values by index over the sets of `hibitset`, and what two of them have in common.

use crate::support::rattle_std::prelude::*;

pub mod columns;
pub mod joins;
mod pages;
pub mod walks;

pub use columns::Column;
pub use joins::{join, join_masked};
pub use pages::PAGE;
pub use walks::{Iter, Join, JoinMasked};
