// Derived from crates/hibitset/src/layers.rt by rust/derive.py, and never edited by hand.

//! The words of a set: all layers but the top one lie in one vector.

use crate::support::rattle_std::prelude::*;

use crate::derived::hibitset::layout::{lengthen_to, lens_over, move_layers, next_capacity, starts_over};
use crate::derived::hibitset::merge::merge_words;
use crate::derived::hibitset::word_op::Operator;
use crate::derived::hibitset_base::like::BitSetLike;
use crate::derived::hibitset_base::util::LAYERS;
use crate::support::rattle_std::alloc::{AllocError, Global};

/// The words of a set, by layer and position, without a promise of their summaries: a `BitSet` has these words with
/// exact summaries.
///
/// The vector holds layer 0, then layer 1, and so on up to the top, whose one word lies apart. `starts[l]` is where
/// layer l begins, and `lens[l]` how many of its words are in use. All behind them are 0, so growing within the
/// capacity writes nothing.
pub(crate) struct Layers {
    words: Vec<usize>,
    starts: [usize; LAYERS - 1],
    lens: [usize; LAYERS - 1],
    top: usize,
}

impl Layers {
    /// No words. It does not allocate.
    ///
    /// # Contract
    ///
    /// ```text
    /// ensures zero { (l p : ℕ) → word_in result l p ≡ 0 }
    /// ensures lengths { (l : ℕ) → l < LAYERS - 1 → len_in result l ≡ 0 }
    /// ensures capacity { room_in result ≡ 0 }
    /// ```
    pub(crate) fn new(alloc: Global) -> Layers {
        Layers {
            words: Vec::new(alloc),
            starts: [0; LAYERS - 1],
            lens: [0; LAYERS - 1],
            top: 0,
        }
    }

    /// Words that are all 0, `len` of them in layer 0, and no more capacity than they need.
    ///
    /// # Contract
    ///
    /// ```text
    /// requires { len ≤ 64 ^ (LAYERS - 1) }
    /// ensures zero { IfOk result (λ layers. (l p : ℕ) → word_in layers l p ≡ 0) }
    /// ensures length { IfOk result (λ layers. len_in layers 0 ≡ len) }
    /// ```
    pub(crate) fn zeros(alloc: Global, len: usize) -> Result<Layers, AllocError> {
        let mut layers = Layers::new(alloc);
        layers.reserve_layers(len)?;
        layers.set_len_within(len);
        Ok(layers)
    }

    /// The words of these layers with a word of the top layer, and no more capacity than they need. It allocates once.
    ///
    /// # Contract
    ///
    /// ```text
    /// requires len_max { length layer0.now ≤ 64 ^ (LAYERS - 1) }
    /// requires fitted { IsFitted LAYERS (piled layer0.now layer1.now layer2.now layer3.now top) }
    /// ensures words { IfOk result (λ layers. (l p : ℕ) → l < LAYERS
    ///     → word_in layers l p ≡ word_at (piled layer0.now layer1.now layer2.now layer3.now top) l
    ///     p) }
    /// ensures lengths { IfOk result (λ layers. (l : ℕ) → l < LAYERS - 1
    ///     → len_in layers l ≡ length (get_or
    ///     (piled layer0.now layer1.now layer2.now layer3.now top) l [])) }
    /// ```
    pub(crate) fn of_layers(
        alloc: Global,
        layer0: &[usize],
        layer1: &[usize],
        layer2: &[usize],
        layer3: &[usize],
        top: usize,
    ) -> Result<Layers, AllocError> {
        let mut layers = Layers::with_zero_summaries(alloc, layer0)?;
        layers.put_layer(1, layer1);
        layers.put_layer(2, layer2);
        layers.put_layer(3, layer3);
        layers.store_top(top);
        Ok(layers)
    }

    // A copy of these words in layer 0, and zero words over them.
    fn with_zero_summaries(alloc: Global, words: &[usize]) -> Result<Layers, AllocError> {
        Layers::before_zeros(Layers::vec_of(alloc, words)?)
    }

    /// A copy of these words, in a vector with capacity for those over them.
    ///
    /// # Contract
    ///
    /// ```text
    /// requires { length words.now ≤ 64 ^ (LAYERS - 1) }
    /// ensures { IfOk result (λ list. list.items ≡ words.now) }
    /// ```
    pub(crate) fn vec_of(alloc: Global, words: &[usize]) -> Result<Vec<usize>, AllocError> {
        let mut list = Layers::vec_with_room(alloc, words.len())?;
        list.extend_from_slice(words)?;
        Ok(list)
    }

    /// An empty vector with capacity for `len` words of layer 0, and for those over them.
    ///
    /// # Contract
    ///
    /// ```text
    /// requires { len ≤ 64 ^ (LAYERS - 1) }
    /// ensures empty { IfOk result (λ words. words.items ≡ []) }
    /// ensures layers_fit { IfOk result (λ words. layer_start (LAYERS - 1) len ≤ vec_capacity words) }
    /// ```
    pub(crate) fn vec_with_room(alloc: Global, len: usize) -> Result<Vec<usize>, AllocError> {
        let (_, end) = starts_over(len);
        Vec::with_capacity(alloc, end)
    }

    /// These words in layer 0, and zero words behind them. It allocates at most once, and not at all if the vector has
    /// capacity for both.
    ///
    /// # Contract
    ///
    /// ```text
    /// requires { length words.items ≤ 64 ^ (LAYERS - 1) }
    /// ensures words { IfOk result (λ layers. (p : ℕ)
    ///     → word_in layers 0 p ≡ get_or words.items p 0) }
    /// ensures length { IfOk result (λ layers. len_in layers 0 ≡ length words.items) }
    /// ensures succeeds { layer_start (LAYERS - 1) (length words.items) ≤ vec_capacity words
    ///     → IsOk result }
    /// ```
    pub(crate) fn before_zeros(words: Vec<usize>) -> Result<Layers, AllocError> {
        let len = words.len();
        let (starts, end) = starts_over(len);
        let mut words = words;
        lengthen_to(&mut words, end)?;
        Ok(Layers {
            words,
            starts,
            lens: lens_over(len),
            top: 0,
        })
    }

    // Puts these words in the place of those of a layer below the top.
    fn put_layer(&mut self, layer: usize, words: &[usize]) {
        let mut place = 0;
        while place < words.len() {
            self.store_word(layer, place, words[place]);
            place += 1;
        }
    }

    // Where a layer begins. That layer 0 begins at 0 is known without a read.
    #[inline]
    fn layer_start(&self, layer: usize) -> usize {
        if layer == 0 { 0 } else { self.starts[layer] }
    }

    /// The words of a layer below the top.
    ///
    /// # Contract
    ///
    /// ```text
    /// requires { layer < LAYERS - 1 }
    /// ensures length { length result.now ≡ len_in self.now layer }
    /// ensures words { (p : ℕ) → get_or result.now p 0 ≡ word_in self.now layer p }
    /// ```
    #[inline]
    pub(crate) fn slice(&self, layer: usize) -> &[usize] {
        let start = self.layer_start(layer);
        &self.words[start..start + self.lens[layer]]
    }

    /// How many words layer 0 has.
    ///
    /// # Contract
    ///
    /// ```text
    /// ensures { result ≡ len_in self.now 0 }
    /// ```
    #[inline]
    pub(crate) fn len(&self) -> usize {
        self.lens[0]
    }

    /// The capacity of layer 0, in words.
    ///
    /// # Contract
    ///
    /// ```text
    /// ensures here { result ≡ room_in self.now }
    /// ensures within { result ≤ 64 ^ (LAYERS - 1) }
    /// ```
    #[inline]
    pub(crate) fn capacity(&self) -> usize {
        self.starts[1]
    }

    /// The word of the top layer.
    ///
    /// # Contract
    ///
    /// ```text
    /// ensures { result ≡ word_in self.now (LAYERS - 1) 0 }
    /// ```
    #[inline]
    pub(crate) fn top(&self) -> usize {
        self.top
    }

    /// The word of a layer below the top at a position, which is 0 past the layer's end. One of layer 1, which a sparse
    /// walk reads as often as one of layer 0, is taken from the layer's slice: so the position needs no addition in a
    /// loop.
    ///
    /// # Contract
    ///
    /// ```text
    /// requires { layer < LAYERS - 1 }
    /// ensures { result ≡ word_in self.now layer place }
    /// ```
    #[inline]
    pub(crate) fn word(&self, layer: usize, place: usize) -> usize {
        if place >= self.lens[layer] {
            return 0;
        }
        if layer == 1 {
            return self.slice(1)[place];
        }
        self.words[self.layer_start(layer) + place]
    }

    /// Stores a word at a position of a layer below the top.
    ///
    /// # Contract
    ///
    /// ```text
    /// requires layer { layer < LAYERS - 1 }
    /// requires in_range { place < len_in self.old layer }
    /// ensures here { word_in self.new layer place ≡ word }
    /// ensures others { (p : ℕ) → p ≢ place → word_in self.new layer p ≡ word_in self.old layer p }
    /// ensures layers { (l p : ℕ) → l ≢ layer → word_in self.new l p ≡ word_in self.old l p }
    /// ensures lengths { (l : ℕ) → len_in self.new l ≡ len_in self.old l }
    /// ```
    #[inline]
    pub(crate) fn store_word(&mut self, layer: usize, place: usize, word: usize) {
        let start = self.layer_start(layer);
        self.words[start + place] = word;
    }

    /// Stores the word of the top layer.
    ///
    /// # Contract
    ///
    /// ```text
    /// ensures here { word_in self.new (LAYERS - 1) 0 ≡ word }
    /// ensures others { (p : ℕ) → p ≢ 0 → word_in self.new (LAYERS - 1) p
    ///     ≡ word_in self.old (LAYERS - 1) p }
    /// ensures layers { (l p : ℕ) → l ≢ LAYERS - 1 → word_in self.new l p ≡ word_in self.old l p }
    /// ensures lengths { (l : ℕ) → len_in self.new l ≡ len_in self.old l }
    /// ```
    #[inline]
    pub(crate) fn store_top(&mut self, word: usize) {
        self.top = word;
    }

    /// Applies `O` to those of the 64 words of layer 0 under `place` that `bits` selects. Returns their new summary;
    /// `summary` is the old one. Layers above are untouched.
    ///
    /// # Contract
    ///
    /// ```text
    /// requires in_range { place < 64 ^ (LAYERS - 2) }
    /// requires exact { Summarizes (word_in self.old 0) place summary }
    /// requires fits { (p : ℕ) → p < 64 ^ (LAYERS - 1) → len_in self.old 0 ≤ p
    ///     → O.merged 0 (B.word other.now 0 p) ≡ 0 }
    /// ensures lengths { (l : ℕ) → len_in self.new l ≡ len_in self.old l }
    /// ensures words { MergedAt O.merged (B.word other.now 0) (word_in self.old 0)
    ///     (word_in self.new 0) 1 place bits }
    /// ensures exact { Summarizes (word_in self.new 0) place result }
    /// ensures above { (l p : ℕ) → l ≢ 0 → word_in self.new l p ≡ word_in self.old l p }
    /// ```
    #[inline]
    pub(crate) fn merge<O: Operator, B: BitSetLike>(
        &mut self,
        other: &B,
        place: usize,
        bits: usize,
        summary: usize,
    ) -> usize {
        let len = self.len();
        merge_words::<O, B>(&mut self.words, len, other, place, bits, summary)
    }

    // Gives the vector room for so many words of layer 0, and moves the layers above it up, from the last one down. It
    // makes one request for memory at most; refused, nothing changes.
    fn reserve_layers(&mut self, room: usize) -> Result<(), AllocError> {
        let (starts, end) = starts_over(room);
        lengthen_to(&mut self.words, end)?;
        move_layers(&mut self.words, self.lens, self.starts, starts);
        self.starts = starts;
        Ok(())
    }

    // Sets the length of layer 0 to `len`, within the capacity, and of the layers above to match. The new words are 0
    // already.
    fn set_len_within(&mut self, len: usize) {
        self.lens = lens_over(len);
    }

    /// Sets the length of layer 0 to `len`, and of the layers above to match, by zero words. It allocates at most once,
    /// for a capacity of `capacity` words of layer 0 if that is more and not too much. If that fails, nothing changes.
    ///
    /// # Contract
    ///
    /// ```text
    /// requires len_min { len_in self.old 0 ≤ len }
    /// requires within { len ≤ 64 ^ (LAYERS - 1) }
    /// ensures same { (l p : ℕ) → word_in self.new l p ≡ word_in self.old l p }
    /// ensures length { OnOk result (len_in self.new 0 ≡ len) }
    /// ensures err { OnErr result (len_in self.new 0 ≡ len_in self.old 0) }
    /// ```
    pub(crate) fn set_len(&mut self, len: usize, capacity: usize) -> Result<(), AllocError> {
        if self.capacity() < len {
            self.reserve_layers(next_capacity(capacity, len))?;
        }
        self.set_len_within(len);
        Ok(())
    }

    /// The same words in slices of the same lengths, and no more capacity than they need. It allocates at most once.
    ///
    /// # Contract
    ///
    /// ```text
    /// ensures same { IfOk result (λ copy. (l p : ℕ) → word_in copy l p ≡ word_in self.now l p) }
    /// ensures length { IfOk result (λ copy. len_in copy 0 ≡ len_in self.now 0) }
    /// ```
    pub(crate) fn copy(&self) -> Result<Layers, AllocError> {
        let (starts, end) = starts_over(self.len());
        let mut words = Vec::with_capacity(*self.words.allocator(), end)?;
        let mut layer = 0;
        while layer < LAYERS - 1 {
            words.extend_from_slice(self.slice(layer))?;
            layer += 1;
        }
        Ok(Layers {
            words,
            starts,
            lens: self.lens,
            top: self.top,
        })
    }

    /// Takes all words away. The vector keeps its memory.
    ///
    /// # Contract
    ///
    /// ```text
    /// ensures zero { (l p : ℕ) → word_in self.new l p ≡ 0 }
    /// ensures lengths { (l : ℕ) → l < LAYERS - 1 → len_in self.new l ≡ 0 }
    /// ```
    pub(crate) fn clear(&mut self) {
        self.words.clear();
        self.starts = [0; LAYERS - 1];
        self.lens = [0; LAYERS - 1];
        self.top = 0;
    }
}
