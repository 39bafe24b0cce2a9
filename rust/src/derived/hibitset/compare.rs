// Derived from crates/hibitset/src/compare.rt by rust/derive.py, and never edited by hand.

//! Comparisons of two sets, whole words at a time.

use crate::support::rattle_std::prelude::*;

use crate::derived::hibitset::set::BitSet;
use crate::derived::hibitset_base::bits::take_bit;
use crate::derived::hibitset_base::like::BitSetLike;
use crate::derived::hibitset_base::util::{LAYERS, MAX_EID};

// How many words of a block are not 0 where it goes faster as a whole than word by word.
const MIN_NONZERO_WORDS: u32 = 8;

// What may be in two sets beside each other.
pub(crate) trait Comparison {
    // Zero exactly where all bits of the two words pass.
    fn misses(ours: usize, theirs: usize) -> usize;
}

// Ours has each index that theirs has.
pub(crate) struct Superset;

impl Comparison for Superset {
    #[inline]
    fn misses(ours: usize, theirs: usize) -> usize {
        theirs & !ours
    }
}

// Both have the same indices.
pub(crate) struct Equality;

impl Comparison for Equality {
    #[inline]
    fn misses(ours: usize, theirs: usize) -> usize {
        ours ^ theirs
    }
}

// Compares the 64 words below word `place` of layer 1, all of which both sets have, with no test between them.
#[inline]
fn compare_block<C: Comparison>(ours: &BitSet, theirs: &BitSet, place: usize) -> bool {
    let ours = ours.layers.slice(0);
    let theirs = theirs.layers.slice(0);
    let mut missed = 0usize;
    let mut bit = 0;
    while bit < 64 {
        missed |= C::misses(ours[64 * place + bit], theirs[64 * place + bit]);
        bit += 1;
    }
    missed == 0
}

// Returns whether a set has all 64 words below word `place` of layer 1.
#[inline]
fn has_block(set: &BitSet, place: usize) -> bool {
    64 * place + 64 <= set.layers.len()
}

// Compares the words below word `place` of layer 1 whose bits are set in `bits`.
#[inline]
fn compare_words<C: Comparison>(ours: &BitSet, theirs: &BitSet, place: usize, bits: usize) -> bool {
    let mut left = bits;
    while left != 0 {
        let lower = 64 * place + take_bit(&mut left);
        if C::misses(ours.layer0(lower), theirs.layer0(lower)) != 0 {
            return false;
        }
    }
    true
}

// Compares the words below word `place` of layer 1, where theirs has the word `word`: as a block where many of them are
// not 0.
#[inline]
fn compare_lowest<C: Comparison>(ours: &BitSet, theirs: &BitSet, place: usize, word: usize) -> bool {
    if word.count_ones() >= MIN_NONZERO_WORDS
        && has_block(ours, place)
        && has_block(theirs, place)
    {
        compare_block::<C>(ours, theirs, place)
    } else {
        compare_words::<C>(ours, theirs, place, word)
    }
}

// Compares word `place` of a layer above layer 0, and then what lies under it.
fn compare_subtree<C: Comparison>(
    ours: &BitSet,
    theirs: &BitSet,
    layer: usize,
    place: usize,
) -> bool {
    let word = theirs.get_from_layer(layer, place);
    if C::misses(ours.get_from_layer(layer, place), word) != 0 {
        return false;
    }
    if layer == 1 {
        return compare_lowest::<C>(ours, theirs, place, word);
    }
    let mut left = word;
    while left != 0 {
        let bit = take_bit(&mut left);
        if !compare_subtree::<C>(ours, theirs, layer - 1, 64 * place + bit) {
            return false;
        }
    }
    true
}

// Compares two sets, from the top down to the first words that do not pass.
pub(crate) fn compare<C: Comparison>(ours: &BitSet, theirs: &BitSet) -> bool {
    compare_subtree::<C>(ours, theirs, LAYERS - 1, 0)
}

impl BitSet {
    /// Returns whether each member of the other set is one of this set: `contains_set` of the original. It does not
    /// allocate, and skips regions in which the other set has no member.
    ///
    /// # Contract
    ///
    /// ```text
    /// ensures { IsTrue result ↔ ((i : ℕ) → i < MAX_EID → has other.now i ≡ true
    ///     → has self.now i ≡ true) }
    /// ```
    pub fn contains_set(&self, other: &BitSet) -> bool {
        compare::<Superset>(self, other)
    }
}

/// Sets are equal if they have the same members. It does not allocate.
impl PartialEq for BitSet {
    fn eq(&self, other: &BitSet) -> bool {
        compare::<Equality>(self, other)
    }
}

impl Eq for BitSet {
}
