// Derived from crates/hibitset_sparse/src/rank.rt by rust/derive.py, and never edited by hand.

//! How many bits of a word are set below a bit: where a value lies in a list that has one for each bit that is set.

use crate::support::rattle_std::prelude::*;

/// How many bits are set below a bit.
///
/// # Contract
///
/// ```text
/// requires { bit < 64 }
/// ensures { result ≡ rank_in word bit }
/// ```
#[inline]
pub(crate) fn rank(word: usize, bit: usize) -> usize {
    let below = (1usize << bit) - 1;
    (word & below).count_ones() as usize
}

/// Returns whether a bit is set.
///
/// # Contract
///
/// ```text
/// requires { bit < 64 }
/// ensures { result ≡ bit_is_set word bit }
/// ```
#[inline]
pub(crate) fn is_set(word: usize, bit: usize) -> bool {
    word >> bit & 1 == 1
}
