// Derived from crates/hibitset_atomic/src/layers.rt by rust/derive.py, and never edited by hand.

//! The words of an atomic set: four layers, of which the lowest is made block by block.

use crate::support::rattle_std::prelude::*;

use crate::derived::hibitset_atomic::blocks::{Blocks, zeros};
use crate::derived::hibitset_base::bits::{replace, take_bit, with_bit, word_or_zero};
use crate::support::rattle_std::alloc::{AllocError, Global};

/// Number of layers of an atomic set.
pub(crate) const ATOMIC_LAYERS: usize = 4;

/// The words of an atomic set. A set with one member takes some 42 KB: 32,768 bytes for layer 1, 8,192 for the places
/// of the blocks, and two blocks of 512.
///
/// It says nothing of summaries: an `AtomicBitSet` has these words with exact summaries.
pub(crate) struct Layers {
    pub(crate) layer3: usize,
    pub(crate) layer2: Vec<usize>,
    pub(crate) layer1: Vec<usize>,
    pub(crate) layer0: Blocks,
}

// The word with one bit set.
#[inline]
pub(crate) fn or_bit(word: usize, bit: u32) -> usize {
    word | (1 << bit)
}

// Sets a bit of a word, and tells the word as it was.
fn or_at(words: &mut Vec<usize>, position: usize, bit: u32) -> usize {
    let before = words[position];
    words[position] = or_bit(before, bit);
    before
}

impl Layers {
    /// All words are 0.
    ///
    /// # Contract
    ///
    /// ```text
    /// ensures zero { IfOk result (λ layers. (l p : ℕ) → layer_word layers l p ≡ 0) }
    /// ensures unmade { IfOk result (λ layers. (k : ℕ) → IsUnmade layers.layer0 k) }
    /// ```
    pub(crate) fn new(alloc: Global) -> Result<Layers, AllocError> {
        let layer2 = zeros(alloc, 64)?;
        let layer1 = zeros(alloc, 4_096)?;
        let layer0 = Blocks::new(alloc)?;
        Ok(Layers {
            layer3: 0,
            layer2,
            layer1,
            layer0,
        })
    }

    /// Reserves capacity for all blocks, and changes no word.
    ///
    /// # Contract
    ///
    /// ```text
    /// ensures same { (l p : ℕ) → layer_word self.new l p ≡ layer_word self.old l p }
    /// ensures has_room { OnOk result (HasRoom self.new.layer0) }
    /// ```
    pub(crate) fn make_room(&mut self) -> Result<(), AllocError> {
        self.layer0.make_room()
    }

    // Makes the word of layer 2 at a place 0, and all words under it. It goes by the bits, and only to nonzero words.
    fn clear_under(&mut self, place: usize) {
        let mut left = self.layer2[place];
        self.layer2[place] = 0;
        while left != 0 {
            let block = 64 * place + take_bit(&mut left);
            self.layer1[block] = 0;
            self.layer0.clear_block(block);
        }
    }

    /// Makes all words 0. It visits only nonzero words, and does not allocate.
    ///
    /// # Contract
    ///
    /// ```text
    /// requires { SummariesExactEverywhere ATOMIC_LAYERS (layer_word self.old) }
    /// ensures zero { (l p : ℕ) → layer_word self.new l p ≡ 0 }
    /// ensures blocks { self.new.layer0.places.items ≡ self.old.layer0.places.items }
    /// ensures same_capacity { vec_capacity self.new.layer0.words ≡ vec_capacity self.old.layer0.words }
    /// ```
    pub(crate) fn clear(&mut self) {
        let mut left = self.layer3;
        self.layer3 = 0;
        while left != 0 {
            self.clear_under(take_bit(&mut left));
        }
    }

    /// The word of layer 3 at a position, which is 0 past its one word.
    ///
    /// # Contract
    ///
    /// ```text
    /// ensures { result ≡ layer_word self.now 3 position }
    /// ```
    #[inline]
    pub(crate) fn layer3(&self, position: usize) -> usize {
        if position == 0 { self.layer3 } else { 0 }
    }

    /// The word of layer 2 at a position.
    ///
    /// # Contract
    ///
    /// ```text
    /// ensures { result ≡ layer_word self.now 2 position }
    /// ```
    #[inline]
    pub(crate) fn layer2(&self, position: usize) -> usize {
        word_or_zero(&self.layer2, position)
    }

    /// The word of layer 1 at a position.
    ///
    /// # Contract
    ///
    /// ```text
    /// ensures { result ≡ layer_word self.now 1 position }
    /// ```
    #[inline]
    pub(crate) fn layer1(&self, position: usize) -> usize {
        word_or_zero(&self.layer1, position)
    }

    /// The word of layer 0 at a position.
    ///
    /// # Contract
    ///
    /// ```text
    /// ensures { result ≡ layer_word self.now 0 position }
    /// ```
    #[inline]
    pub(crate) fn layer0(&self, position: usize) -> usize {
        self.layer0.word(position)
    }

    /// Makes the block of a position of layer 0, if it is not made, and changes no word.
    ///
    /// # Contract
    ///
    /// ```text
    /// requires { place < 64 ^ (ATOMIC_LAYERS - 1) }
    /// ensures same { (l p : ℕ) → layer_word self.new l p ≡ layer_word self.old l p }
    /// ensures made { OnOk result (IsMade self.new.layer0 place) }
    /// ensures succeeds_made { IsMade self.old.layer0 place → IsOk result }
    /// ensures err { OnErr result (IsUnmade self.old.layer0 (place / 64)
    ///     × (self.new.layer0.places.items ≡ self.old.layer0.places.items)) }
    /// ensures frees_none { (k : ℕ) → IsUnmade self.new.layer0 k → IsUnmade self.old.layer0 k }
    /// ensures others { (k : ℕ) → k ≢ place / 64 → IsUnmade self.old.layer0 k
    ///     → IsUnmade self.new.layer0 k }
    /// ensures succeeds { HasRoom self.old.layer0 → IsOk result × HasRoom self.new.layer0 }
    /// ```
    #[inline]
    pub(crate) fn make(&mut self, place: usize) -> Result<(), AllocError> {
        self.layer0.make(place)
    }

    /// Stores a word in a block of layer 0, where `before` was, and updates the summaries over it, as far up as a word
    /// becomes zero or nonzero.
    ///
    /// # Contract
    ///
    /// ```text
    /// requires made { IsMade self.old.layer0 place }
    /// requires before { before ≡ layer_word self.old 0 place }
    /// requires summed { SummariesExactEverywhere ATOMIC_LAYERS (layer_word self.old) }
    /// ensures here { layer_word self.new 0 place ≡ word }
    /// ensures others { (p : ℕ) → p ≢ place → layer_word self.new 0 p ≡ layer_word self.old 0 p }
    /// ensures summed { SummariesExactEverywhere ATOMIC_LAYERS (layer_word self.new) }
    /// ensures keeps_room { HasRoom self.old.layer0 → HasRoom self.new.layer0 }
    /// ensures blocks { self.new.layer0.places.items ≡ self.old.layer0.places.items }
    /// ```
    #[inline]
    pub(crate) fn store_word(&mut self, place: usize, before: usize, word: usize) {
        self.layer0.store_word(place, word);
        if (before == 0) == (word == 0) {
            return;
        }
        let before1 = self.layer1[place / 64];
        let word1 = with_bit(before1, place % 64, word != 0);
        if !replace(&mut self.layer1, place / 64, before1, word1) {
            return;
        }
        let before2 = self.layer2[place / 4_096];
        let word2 = with_bit(before2, place / 64 % 64, word1 != 0);
        if !replace(&mut self.layer2, place / 4_096, before2, word2) {
            return;
        }
        self.layer3 = with_bit(self.layer3, place / 4_096, word2 != 0);
    }

    /// The word of a layer at a position.
    ///
    /// # Contract
    ///
    /// ```text
    /// requires { layer < ATOMIC_LAYERS }
    /// ensures { result ≡ layer_word self.now layer position }
    /// ```
    #[inline]
    pub(crate) fn word(&self, layer: usize, position: usize) -> usize {
        match layer {
            0 => self.layer0(position),
            1 => self.layer1(position),
            2 => self.layer2(position),
            _ => self.layer3(position),
        }
    }

    /// Sets a bit of a word, and returns the word as it was. Nothing else changes, no summary either; if an allocation
    /// fails, nothing does.
    ///
    /// # Contract
    ///
    /// ```text
    /// requires layer { layer < ATOMIC_LAYERS }
    /// requires position { position < 64 ^ (ATOMIC_LAYERS - 1 - layer) }
    /// requires bit { bit < 64 }
    /// ensures before { IfOk result (λ word. word ≡ layer_word self.old layer position) }
    /// ensures after { OnOk result ((l p : ℕ)
    ///     → layer_word self.new l p ≡ cond (l == layer && p == position)
    ///     (bit_or (layer_word self.old l p) (2 ^ bit)) (layer_word self.old l p)) }
    /// ensures err { OnErr result ((l p : ℕ)
    ///     → layer_word self.new l p ≡ layer_word self.old l p) }
    /// ```
    pub(crate) fn fetch_or(
        &mut self,
        layer: usize,
        position: usize,
        bit: u32,
    ) -> Result<usize, AllocError> {
        match layer {
            0 => self.layer0.fetch_or(position, bit),
            1 => Ok(or_at(&mut self.layer1, position, bit)),
            2 => Ok(or_at(&mut self.layer2, position, bit)),
            _ => {
                let before = self.layer3;
                self.layer3 = or_bit(before, bit);
                Ok(before)
            }
        }
    }
}
