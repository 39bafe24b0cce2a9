// Derived from crates/hibitset_base/src/ops.rt by rust/derive.py, and never edited by hand.

//! Operators over the virtual sets:
//! `!`, `&`, `|`, `^` and `-` make a virtual set of their operands, and `into_iter` a walk.
//!
//! They are written out for each type and for a reference to it: the toolchain refuses impls that a macro of the
//! repository writes. All have the same form.

use crate::support::rattle_std::prelude::*;

mod bit_set_all;
mod bit_set_and;
mod bit_set_not;
mod bit_set_or;
mod bit_set_range;
mod bit_set_xor;
