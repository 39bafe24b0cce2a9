// Derived from crates/hibitset_roaring/src/array.rt by rust/derive.py, and never edited by hand.

//! Members written as an array.

use crate::support::rattle_std::prelude::*;

use crate::derived::hibitset_roaring::layout::CONTAINER_WORDS;
use crate::derived::hibitset_roaring::nonzero_words::{blocks_over, slot_after, slot_from};
use crate::derived::hibitset_roaring::number::put_u16;
use crate::derived::hibitset_base::bits::{take_bit, word_or_zero};

// Writes the bits of a word, whose first bit has the number `first`, behind the `len` numbers of an array, and returns
// how many it has then.
#[inline]
fn write_word(out: &mut [u8], at: usize, len: usize, first: usize, word: usize) -> usize {
    let mut end = len;
    let mut rest = word;
    'bits: while rest != 0 {
        let bit = take_bit(&mut rest);
        put_u16(out, at + 2 * end, first + bit);
        end += 1;
    }
    end
}

// Writes the members with these high bits as an array.
pub(crate) fn write_array(out: &mut [u8], at: usize, words: &[usize], above: &[usize], key: usize) {
    let base = CONTAINER_WORDS * key;
    let blocks = blocks_over(above, key);
    let mut len = 0;
    let mut rest = 0;
    let mut slot = slot_from(above, key, blocks, 0, &mut rest);
    'slots: while slot < CONTAINER_WORDS {
        len = write_word(out, at, len, 64 * slot, word_or_zero(words, base + slot));
        slot = slot_after(above, key, blocks, slot, &mut rest);
    }
}
