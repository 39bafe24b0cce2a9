// Derived from crates/hibitset/src/merge.rt by rust/derive.py, and never edited by hand.

//! Words of layer 0 merged with those of any other set.

use crate::support::rattle_std::prelude::*;

use crate::derived::hibitset::word_op::Operator;
use crate::derived::hibitset_base::bits::{take_bit, with_bit};
use crate::derived::hibitset_base::like::BitSetLike;

// Merges one of the first `len` words, and returns whether it is not 0 then.
#[inline]
fn merge_word<O: Operator, B: BitSetLike>(
    words: &mut [usize],
    len: usize,
    other: &B,
    place: usize,
) -> bool {
    if len <= place {
        return false;
    }
    let word = O::merge(words[place], other.layer0(place));
    words[place] = word;
    word != 0
}

// Merges those of the first `len` words below word `place` of layer 1 whose bits are set in `bits`, and returns the
// summary of all 64, which was `summary`.
#[inline]
pub(crate) fn merge_words<O: Operator, B: BitSetLike>(
    words: &mut Vec<usize>,
    len: usize,
    other: &B,
    place: usize,
    bits: usize,
    summary: usize,
) -> usize {
    let slice = words.as_mut_slice();
    let mut above = summary;
    let mut left = bits;
    while left != 0 {
        let bit = take_bit(&mut left);
        let stands = merge_word::<O, B>(slice, len, other, 64 * place + bit);
        above = with_bit(above, bit, stands);
    }
    above
}
