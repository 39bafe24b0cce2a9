// Derived from crates/hibitset_roaring/src/words.rt by rust/derive.py, and never edited by hand.

//! The words of layer 0 of a set, into which members are put.

use crate::support::rattle_std::prelude::*;

use crate::derived::hibitset_base::bits::{bits_within, with_bit};
use crate::support::rattle_std::alloc::AllocError;

// Puts zero words behind others, up to a length.
pub(crate) fn lengthen(words: &mut Vec<usize>, len: usize) -> Result<(), AllocError> {
    words.resize(len, 0)
}

// Sets the bit of a number.
#[inline]
pub(crate) fn set_bit(words: &mut [usize], number: usize) {
    let slot = number / 64;
    words[slot] = with_bit(words[slot], number % 64, true);
}

// Sets the bits of the numbers from one on before another, word by word.
fn set_some(words: &mut [usize], start: usize, end: usize) {
    'slots: for slot in start / 64..(end + 63) / 64 {
        words[slot] |= bits_within(64 * slot, start, end);
    }
}

// Sets all bits of the words from one on before another.
fn fill(words: &mut [usize], from: usize, to: usize) {
    'slots: for slot in from..to {
        words[slot] = usize::MAX;
    }
}

// Sets the bits of the numbers from one on before another: those of whole words first, and then those at the ends.
pub(crate) fn set_range(words: &mut [usize], start: usize, end: usize) {
    let from = (start + 63) / 64;
    let to = end / 64;
    if to <= from {
        set_some(words, start, end);
        return;
    }
    fill(words, from, to);
    set_some(words, start, 64 * from);
    set_some(words, 64 * to, end);
}
