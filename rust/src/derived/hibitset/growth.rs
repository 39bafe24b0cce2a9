// Derived from crates/hibitset/src/growth.rt by rust/derive.py, and never edited by hand.

//! Which capacity a set reserves when it grows.

use crate::support::rattle_std::prelude::*;

// An assignment makes room for one in so many words more than there was room for. All that the other set has is known
// by then, and room that is not needed is written all the same.
const SPARE_FRACTION: usize = 8;

/// How much capacity to allocate. A type parameter, so that `ensure_word` is compiled once for each policy.
pub(crate) trait Growth {
    /// The capacity to reserve, in words of layer 0, if it is `current` now and `len` words are needed.
    ///
    /// # Contract
    ///
    /// ```text
    /// requires current { current ≤ 64 ^ (LAYERS - 1) }
    /// requires nonzero { 0 < len }
    /// requires len { len ≤ 64 ^ (LAYERS - 1) }
    /// ensures { result ≤ 2 * max current len }
    /// ```
    fn capacity(current: usize, len: usize) -> usize;
}

/// Adds, which come one by one. They reserve a power of two of words, so that few allocate and random ones end with the
/// words of their range; but only what they need if that is more than twice the capacity, so one index far up takes
/// just the words up to it.
pub(crate) struct Adds;

impl Growth for Adds {
    #[inline]
    fn capacity(current: usize, len: usize) -> usize {
        if len > 2 * current {
            return len;
        }
        len.next_power_of_two()
    }
}

/// An assignment, which reserves an eighth more than the capacity.
pub(crate) struct Assignment;

impl Growth for Assignment {
    #[inline]
    fn capacity(current: usize, _len: usize) -> usize {
        current + current / SPARE_FRACTION
    }
}
