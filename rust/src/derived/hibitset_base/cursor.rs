// Derived from crates/hibitset_base/src/cursor.rt by rust/derive.py, and never edited by hand.

//! The places that a walk has still to visit, without the set.

use crate::support::rattle_std::prelude::*;

use crate::derived::hibitset_base::util::{BITS, average_ones};

/// The bits that a walk has left: a mask a layer from the lowest up, and the position of each mask's first bit. One
/// serves every walk, over a set of any number of layers.
#[derive(Debug)]
pub struct Cursor<const N: usize> {
    pub(crate) masks: [usize; N],
    pub(crate) prefix: [u32; N],
}

impl<const N: usize> Cursor<N> {
    /// A cursor with these masks and positions.
    ///
    /// # Contract
    ///
    /// ```text
    /// requires positions_fit { 64 ^ N ≤ 2 ^ 32 }
    /// requires formed { IsWellFormed N masks prefix }
    /// ensures masks { result.masks ≡ masks.entry }
    /// ensures prefix { result.prefix ≡ prefix.entry }
    /// ```
    #[inline]
    pub(crate) fn new(masks: [usize; N], prefix: [u32; N]) -> Self {
        Cursor { masks, prefix }
    }

    /// A cursor at the same places.
    ///
    /// # Contract
    ///
    /// ```text
    /// ensures left { cursor_places result ≡ cursor_places self.now }
    /// ensures masks { result.masks ≡ self.now.masks }
    /// ```
    #[inline]
    pub(crate) fn copied(&self) -> Self {
        Cursor {
            masks: self.masks,
            prefix: self.prefix,
        }
    }

    /// A cursor that has the bits of one word left, the whole top layer.
    ///
    /// # Contract
    ///
    /// ```text
    /// requires some_layer { 0 < N }
    /// requires positions_fit { 64 ^ N ≤ 2 ^ 32 }
    /// ensures left { cursor_places result ≡ places_in (N - 1) (bits_from 0 word) }
    /// ensures one_mask { HasOneMask N (masks_of result) }
    /// ensures empty_below { IsEmptyBelow result (N - 1) }
    /// ```
    #[inline]
    pub fn at_top(word: usize) -> Self {
        let mut masks = [0; N];
        masks[N - 1] = word;
        Cursor {
            masks,
            prefix: [0; N],
        }
    }

    /// A cursor that has the bits of one word of `layer` left, the first of which lies at `start`.
    ///
    /// # Contract
    ///
    /// ```text
    /// requires layer { layer < N }
    /// requires positions_fit { 64 ^ N ≤ 2 ^ 32 }
    /// requires aligned { start % 64 ≡ 0 }
    /// requires within { start < 64 ^ (N - layer) }
    /// ensures { cursor_places result ≡ places_in layer (bits_from start word) }
    /// ```
    #[inline]
    pub(crate) fn of_word(layer: usize, start: u32, word: usize) -> Self {
        let mut masks = [0; N];
        masks[layer] = word;
        let mut prefix = [0; N];
        prefix[layer] = start;
        Cursor { masks, prefix }
    }

    /// Returns whether no bit is left in `layer`.
    ///
    /// # Contract
    ///
    /// ```text
    /// requires { layer < N }
    /// ensures empty { result ≡ true → mask self.now layer ≡ 0 }
    /// ensures nonempty { result ≡ false → 0 < mask self.now layer }
    /// ```
    #[inline]
    pub(crate) fn is_empty(&self, layer: usize) -> bool {
        self.masks[layer] == 0
    }

    // Where the first bit of a layer's mask lies: of the top layer at 0.
    #[inline]
    fn start_of(&self, layer: usize) -> u32 {
        if layer + 1 == N {
            return 0;
        }
        self.prefix[layer]
    }

    /// Takes the first place that is left, which lies in `layer`, and returns its position.
    ///
    /// # Contract
    ///
    /// ```text
    /// requires layer { layer < N }
    /// requires nonempty { 0 < mask self.old layer }
    /// requires lowest { IsEmptyBelow self.old layer }
    /// ensures taken { cursor_places self.old
    ///     ≡ (record { layer = layer; position = result }) ∷ cursor_places self.new }
    /// ensures rest { CanContinueAt self.new layer result }
    /// ensures others { (l : ℕ) → l ≢ layer → mask self.new l ≡ mask self.old l }
    /// ensures last { count_ones (mask self.old layer) ≤ 1 → mask self.new layer ≡ 0 }
    /// ```
    #[inline]
    pub(crate) fn take_first(&mut self, layer: usize) -> u32 {
        let mask = self.masks[layer];
        // The position comes first, so that what is left of the mask can take its register.
        let position = self.start_of(layer) | mask.trailing_zeros();
        self.masks[layer] = mask & (mask - 1);
        position
    }

    // The lowest layer in which bits are left.
    #[inline]
    fn lowest_layer(&self) -> Option<usize> {
        self.masks.iter().position(|mask| *mask != 0)
    }

    /// Takes the first place that is left, and returns its layer and its position.
    ///
    /// # Contract
    ///
    /// ```text
    /// ensures taken { MatchOption result (cursor_places self.old ≡ [])
    ///     (λ place. cursor_places self.old
    ///     ≡ (record { layer = place.0; position = place.1 }) ∷ cursor_places self.new) }
    /// ensures end { IfNone result (cursor_places self.new ≡ []) }
    /// ensures rest { MatchOption result (cursor_places self.new ≡ [])
    ///     (λ place. (place.0 < N) × CanContinueAt self.new place.0 place.1) }
    /// ```
    #[inline]
    pub fn take_lowest(&mut self) -> Option<(usize, u32)> {
        let Some(layer) = self.lowest_layer() else {
            return None;
        };
        let position = self.take_first(layer);
        Some((layer, position))
    }

    /// Takes all places that are left in `layer` at once, if none is left below, and returns the position of the first
    /// bit of their word, and the word.
    ///
    /// # Contract
    ///
    /// ```text
    /// requires layer { layer < N }
    /// requires nonempty { 0 < mask self.old layer }
    /// requires lowest { IsEmptyBelow self.old layer }
    /// ensures taken { cursor_places self.old
    ///     ≡ places_in layer (bits_from result.0 result.1) ++ cursor_places self.new }
    /// ensures word { result.1 ≡ mask self.old layer }
    /// ensures aligned { result.0 % 64 ≡ 0 }
    /// ensures within { result.0 < 64 ^ (N - layer) }
    /// ensures empty_below { IsEmptyBelow self.new (layer + 1) }
    /// ```
    #[inline]
    pub(crate) fn take_word(&mut self, layer: usize) -> (u32, usize) {
        let word = self.masks[layer];
        self.masks[layer] = 0;
        (self.prefix[layer], word)
    }

    /// Returns whether at most one mask has bits.
    ///
    /// # Contract
    ///
    /// ```text
    /// ensures one { IsTrue result ↔ HasOneMask N self.now.masks }
    /// ```
    pub(crate) fn has_one_mask(&self) -> bool {
        let Some(lowest) = self.lowest_layer() else {
            return true;
        };
        'above: for layer in lowest + 1..N {
            if self.masks[layer] != 0 {
                return false;
            }
        }
        true
    }

    /// Cuts the bits of the one layer that has any at their halving bit: this cursor keeps those before it, and the one
    /// returned has the others. It returns `None`, and nothing changes, if there are fewer than two.
    ///
    /// # Contract
    ///
    /// ```text
    /// requires layer { layer < N }
    /// requires alone { IsAlone self.old layer }
    /// ensures cut { MatchOption result ((self.new ≡ self.old)
    ///     × (count_ones (mask self.old layer) ≤ 1))
    ///     (λ other. AreCut (cursor_places self.old) (cursor_places self.new)
    ///     (cursor_places other)) }
    /// ensures lower { IsAlone self.new layer }
    /// ensures upper { MatchOption result ⊤ (λ other. IsAlone other layer) }
    /// ```
    pub(crate) fn halve(&mut self, layer: usize) -> Option<Self> {
        let mask = self.masks[layer];
        let Some(bit) = average_ones(mask) else {
            return None;
        };
        let lower = (1usize << bit) - 1;
        let mut masks = [0; N];
        masks[layer] = mask & !lower;
        self.masks[layer] = mask & lower;
        Some(Cursor {
            masks,
            prefix: self.prefix,
        })
    }

    /// Returns whether no place is left.
    ///
    /// # Contract
    ///
    /// ```text
    /// ensures { IsTrue result ↔ (cursor_places self.now ≡ []) }
    /// ```
    #[inline]
    pub fn is_done(&self) -> bool {
        match self.lowest_layer() {
            None => true,
            Some(layer) => self.masks[layer] == 0,
        }
    }

    /// Puts the places of a word's bits in front of those that are left. The word lies in `layer` at `position`, the
    /// position that was taken last.
    ///
    /// # Contract
    ///
    /// ```text
    /// requires layer { layer + 1 < N }
    /// requires rest { CanContinueAt self.old (layer + 1) position }
    /// ensures left { cursor_places self.new
    ///     ≡ places_in layer (bits_from (64 * position) word) ++ cursor_places self.old }
    /// ensures others { (l : ℕ) → l ≢ layer → mask self.new l ≡ mask self.old l }
    /// ```
    #[inline]
    pub fn push_bits(&mut self, layer: usize, position: u32, word: usize) {
        self.push_bits_from(layer, position << BITS, word);
    }

    /// Puts the places of a word's bits in front of those that are left, as `push_bits` does. The first bit of the word
    /// lies at `start`.
    ///
    /// # Contract
    ///
    /// ```text
    /// requires layer { layer + 1 < N }
    /// requires aligned { start % 64 ≡ 0 }
    /// requires rest { CanContinueAt self.old (layer + 1) (start / 64) }
    /// ensures left { cursor_places self.new
    ///     ≡ places_in layer (bits_from start word) ++ cursor_places self.old }
    /// ensures others { (l : ℕ) → l ≢ layer → mask self.new l ≡ mask self.old l }
    /// ```
    #[inline]
    pub(crate) fn push_bits_from(&mut self, layer: usize, start: u32, word: usize) {
        self.masks[layer] = word;
        self.prefix[layer] = start;
    }
}
