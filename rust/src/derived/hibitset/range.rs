// Derived from crates/hibitset/src/range.rt by rust/derive.py, and never edited by hand.

//! Ranges of indices, added, taken out and flipped by whole words.

use crate::support::rattle_std::prelude::*;

use crate::derived::hibitset::layers::Layers;
use crate::derived::hibitset::set::BitSet;
use crate::derived::hibitset_base::bits::bits_within;
use crate::derived::hibitset_base::range::BitSetRange;
use crate::derived::hibitset_base::util::{Index, LAYERS, MAX_EID};
use crate::support::rattle_std::alloc::AllocError;

// The word with some of its bits set or cleared.
#[inline]
fn with_bits(word: usize, bits: usize, stands: bool) -> usize {
    if stands { word | bits } else { word & !bits }
}

// The word with all bits set, or the word with none.
#[inline]
fn whole_word(stands: bool) -> usize {
    if stands { usize::MAX } else { 0 }
}

impl Layers {
    // Sets or clears bits of a word, below the top.
    #[inline]
    fn put_bits(&mut self, layer: usize, place: usize, bits: usize, stands: bool) {
        let before = self.slice(layer)[place];
        let word = with_bits(before, bits, stands);
        self.store_word(layer, place, word);
    }

    // Puts one word in the place of several, below the top.
    #[inline]
    fn put_words(&mut self, layer: usize, from: usize, to: usize, word: usize) {
        let mut place = from;
        while place < to {
            self.store_word(layer, place, word);
            place += 1;
        }
    }

    // Sets or clears the bits of a layer below the top, from one position on before another: those of the first word
    // and of the last, and all between.
    fn put_range(&mut self, layer: usize, from: usize, to: usize, stands: bool) {
        let first = from / 64;
        let last = (to - 1) / 64;
        self.put_bits(layer, first, bits_within(64 * first, from, to), stands);
        if first < last {
            self.put_words(layer, first + 1, last, whole_word(stands));
            self.put_bits(layer, last, bits_within(64 * last, from, to), stands);
        }
    }

    // Sets the bits of a range of indices for which there are words, and in each layer above those over the words that
    // it touches.
    fn set_range(&mut self, start: usize, end: usize) {
        let mut from = start;
        let mut to = end;
        let mut layer = 0;
        while layer < LAYERS - 1 {
            self.put_range(layer, from, to, true);
            from /= 64;
            to = (to - 1) / 64 + 1;
            layer += 1;
        }
        self.store_top(with_bits(self.top(), bits_within(0, from, to), true));
    }

    // The first word that clearing from bit `from` on has left zero: the one that holds `from`, or the next.
    #[inline]
    fn first_zero_word(&self, layer: usize, from: usize) -> usize {
        let first = from / 64;
        if self.word(layer, first) == 0 {
            first
        } else {
            first + 1
        }
    }

    // Where they end, which were cleared before a position: after the last word, or at it.
    #[inline]
    fn last_zero_word(&self, layer: usize, to: usize) -> usize {
        let last = (to - 1) / 64;
        if self.word(layer, last) == 0 {
            last + 1
        } else {
            last
        }
    }

    // Clears the bits of a range of indices for which there are words, and in each layer above those over words
    // that have become zero.
    fn clear_range(&mut self, start: usize, end: usize) {
        let mut from = start;
        let mut to = end;
        let mut layer = 0;
        while layer < LAYERS - 1 && from < to {
            self.put_range(layer, from, to, false);
            from = self.first_zero_word(layer, from);
            to = self.last_zero_word(layer, to);
            layer += 1;
        }
        if from < to {
            self.store_top(with_bits(self.top(), bits_within(0, from, to), false));
        }
    }
}

impl BitSet {
    /// Adds the indices from `start` up to, but without, `end`, which is at most `MAX_EID`. If `end` is not above
    /// `start`, nothing changes.
    ///
    /// ```text
    /// set.add_range(10, 1_000)?;
    /// // 10, 11, .., 999 are members
    /// ```
    ///
    /// # Errors
    ///
    /// The allocation fails: the members and the length of layer 0 stay. It allocates at most once, and not at all if
    /// the word of `end - 1` lies in `layer0_as_slice`; else the slices become as long as by `add` of `end - 1`.
    ///
    /// # Cost
    ///
    /// It writes whole words: one for each 64 indices.
    ///
    /// # Contract
    ///
    /// ```text
    /// requires { end ≤ MAX_EID }
    /// ensures added { OnOk result ((i : ℕ)
    ///     → has self.new i ≡ (has self.old i || in_range start end i)) }
    /// ensures err { OnErr result ((i : ℕ) → has self.new i ≡ has self.old i) }
    /// ensures succeeds { end ≤ 64 * slice_len self.old 0 → IsOk result }
    /// ensures succeeds_empty { end ≤ start → IsOk result }
    /// ensures len_min { slice_len self.old 0 ≤ slice_len self.new 0 }
    /// ensures len_max { slice_len self.new 0 ≤ max (slice_len self.old 0) ((end - 1) / 64 + 1) }
    /// ensures upper_len_max { (l : ℕ) → l < LAYERS - 1
    ///     → slice_len self.new l ≤ max (slice_len self.old l) ((end - 1) / 64 ^ (l + 1) + 1) }
    /// ensures same { end ≤ start → slice_len self.new 0 ≡ slice_len self.old 0 }
    /// ensures err_len { OnErr result (slice_len self.new 0 ≡ slice_len self.old 0) }
    /// ```
    pub fn add_range(&mut self, start: Index, end: Index) -> Result<(), AllocError> {
        if start >= end {
            return Ok(());
        }
        self.grow_to(end - 1)?;
        self.layers.set_range(start as usize, end as usize);
        Ok(())
    }

    /// Takes out the indices from `start` up to, but without, `end`, for any two numbers. It writes whole words, does
    /// not allocate, and keeps the length of layer 0.
    ///
    /// # Contract
    ///
    /// ```text
    /// ensures removed { (i : ℕ) → has self.new i
    ///     ≡ (has self.old i && not (in_range start end i)) }
    /// ensures length { slice_len self.new 0 ≡ slice_len self.old 0 }
    /// ```
    pub fn remove_range(&mut self, start: Index, end: Index) {
        let end = (end as usize).min(64 * self.layers.len());
        if (start as usize) < end {
            self.layers.clear_range(start as usize, end);
        }
    }

    /// Flips the indices from `start` up to, but without, `end`, which is at most `MAX_EID`: members are taken out, and
    /// the others are added. If `end` is not above `start`, nothing changes.
    ///
    /// ```text
    /// // set: {1, 2}
    /// set.flip_range(0, 4)?;
    /// // set: {0, 3}
    /// ```
    ///
    /// # Errors
    ///
    /// The allocation fails: the members and the length of layer 0 stay. It allocates at most once, as `add_range`
    /// does.
    ///
    /// # Contract
    ///
    /// ```text
    /// requires { end ≤ MAX_EID }
    /// ensures flipped { OnOk result ((i : ℕ)
    ///     → has self.new i ≡ differ (has self.old i) (in_range start end i)) }
    /// ensures err { OnErr result ((i : ℕ) → has self.new i ≡ has self.old i) }
    /// ensures succeeds { end ≤ 64 * slice_len self.old 0 → IsOk result }
    /// ensures succeeds_empty { end ≤ start → IsOk result }
    /// ensures len_min { slice_len self.old 0 ≤ slice_len self.new 0 }
    /// ensures len_max { slice_len self.new 0 ≤ max (slice_len self.old 0) ((end - 1) / 64 + 1) }
    /// ensures upper_len_max { (l : ℕ) → l < LAYERS - 1
    ///     → slice_len self.new l ≤ max (slice_len self.old l) ((end - 1) / 64 ^ (l + 1) + 1) }
    /// ensures same { end ≤ start → slice_len self.new 0 ≡ slice_len self.old 0 }
    /// ensures err_len { OnErr result (slice_len self.new 0 ≡ slice_len self.old 0) }
    /// ```
    pub fn flip_range(&mut self, start: Index, end: Index) -> Result<(), AllocError> {
        self.bitxor_assign(&BitSetRange { start, end })
    }
}
