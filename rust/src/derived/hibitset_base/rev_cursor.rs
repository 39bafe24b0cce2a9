// Derived from crates/hibitset_base/src/rev_cursor.rt by rust/derive.py, and never edited by hand.

//! The places that a walk from the last member down has still to visit, without the set.

use crate::support::rattle_std::prelude::*;

use crate::derived::hibitset_base::bits::take_last_bit;

/// The bits that a walk down has left: a mask a layer from the lowest up, and the position of each mask's first bit.
#[derive(Debug)]
pub(crate) struct RevCursor<const N: usize> {
    pub(crate) masks: [usize; N],
    pub(crate) starts: [u32; N],
}

impl<const N: usize> RevCursor<N> {
    /// A cursor with no place left.
    ///
    /// # Contract
    ///
    /// ```text
    /// requires { 64 ^ N ≤ 2 ^ 32 }
    /// ensures left { rev_left result ≡ [] }
    /// ensures empty_below { IsRevEmptyBelow result N }
    /// ```
    #[inline]
    pub(crate) fn empty() -> Self {
        RevCursor {
            masks: [0; N],
            starts: [0; N],
        }
    }

    /// Returns whether no bit is left in `layer`.
    ///
    /// # Contract
    ///
    /// ```text
    /// requires { layer < N }
    /// ensures empty { result ≡ true → rev_mask self.now layer ≡ 0 }
    /// ensures nonempty { result ≡ false → 0 < rev_mask self.now layer }
    /// ```
    #[inline]
    pub(crate) fn is_empty(&self, layer: usize) -> bool {
        self.masks[layer] == 0
    }

    /// Takes the last place that is left, which lies in `layer`, and returns its position.
    ///
    /// # Contract
    ///
    /// ```text
    /// requires layer { layer < N }
    /// requires nonempty { 0 < rev_mask self.old layer }
    /// requires lowest { IsRevEmptyBelow self.old layer }
    /// ensures taken { rev_left self.old
    ///     ≡ rev_left self.new ++ ((record { layer = layer; position = result }) ∷ []) }
    /// ensures within { result < 64 ^ (N - layer) }
    /// ensures others { (l : ℕ) → l ≢ layer → rev_mask self.new l ≡ rev_mask self.old l }
    /// ```
    #[inline]
    pub(crate) fn take_last(&mut self, layer: usize) -> u32 {
        let mut mask = self.masks[layer];
        let bit = take_last_bit(&mut mask);
        self.masks[layer] = mask;
        let start = self.starts[layer];
        start + bit as u32
    }

    /// Puts the places of a word's bits behind those that are left. The word lies in `layer` at `position`.
    ///
    /// # Contract
    ///
    /// ```text
    /// requires layer { layer < N }
    /// requires within { position < 64 ^ (N - 1 - layer) }
    /// requires lowest { IsRevEmptyBelow self.old (layer + 1) }
    /// ensures left { rev_left self.new ≡ rev_left self.old
    ///     ++ places_in layer (bits_from (64 * position) word) }
    /// ensures others { (l : ℕ) → l ≢ layer → rev_mask self.new l ≡ rev_mask self.old l }
    /// ```
    #[inline]
    pub(crate) fn push_bits(&mut self, layer: usize, position: u32, word: usize) {
        let start = 64 * position;
        self.masks[layer] = word;
        self.starts[layer] = start;
    }
}
