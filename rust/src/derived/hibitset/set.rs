// Derived from crates/hibitset/src/set.rt by rust/derive.py, and never edited by hand.

//! The set that keeps its words.

use crate::support::rattle_std::prelude::*;

use crate::derived::hibitset::growth::{Adds, Growth};
use crate::derived::hibitset::layers::Layers;
use crate::derived::hibitset_base::bits::with_bit;
use crate::derived::hibitset_base::like::{BitSetLike, DrainableBitSet};
use crate::derived::hibitset_base::util::{Index, LAYERS, MAX_EID};
use crate::support::rattle_std::alloc::{AllocError, Global};
use crate::support::rattle_std::fmt::{self, Debug, Formatter};

/// A set of indices below `MAX_EID`, kept as words in five layers: `BitSet` of the original.
///
/// A bit of a layer above the lowest is set exactly over a nonzero word, at all times. It is 96 bytes and one block of
/// memory:
///
/// - none for an empty set, 56 bytes for the first 20 indices, 152 for the first 1,000 (measured; no clause says it);
/// - 8 bytes for each 64 indices up to the greatest member since `clear`, and a sixty-third more: 2,130,440 if one lies
///   just below 2^24, 136,348,160 just below 2^30;
/// - up to twice as much if the members were added one by one.
pub struct BitSet {
    pub(crate) layers: Layers,
}

impl BitSet {
    /// Number of bits in a word.
    pub const BITS_PER_USIZE: usize = 64;

    /// Number of indices that a bit of layer 1 stands for.
    pub const LAYER1_GRANULARITY: usize = 64;

    /// Number of indices that a bit of layer 2 stands for.
    pub const LAYER2_GRANULARITY: usize = 4_096;

    /// Number of indices that a bit of layer 3 stands for.
    pub const LAYER3_GRANULARITY: usize = 262_144;

    /// The empty set, which does not allocate until the first `add`.
    ///
    /// # Contract
    ///
    /// ```text
    /// ensures empty { (i : ℕ) → has result i ≡ false }
    /// ensures lengths { (l : ℕ) → l < LAYERS - 1 → slice_len result l ≡ 0 }
    /// ```
    pub fn new(alloc: Global) -> BitSet {
        BitSet {
            layers: Layers::new(alloc),
        }
    }

    /// An empty set with capacity for every index below `max`, which is at most `MAX_EID`: no `add` of one allocates
    /// until `clear`.
    ///
    /// # Errors
    ///
    /// The allocation fails: 8 bytes for each 64 indices and a sixty-third more, so 2,130,440 for 2^24, and 136,348,160
    /// for 2^30.
    ///
    /// # Contract
    ///
    /// ```text
    /// requires { max ≤ MAX_EID }
    /// ensures empty { IfOk result (λ set. (i : ℕ) → has set i ≡ false) }
    /// ensures capacity { IfOk result (λ set. (i : ℕ) → i < max → i / 64 < slice_len set 0) }
    /// ensures length { IfOk result (λ set. slice_len set 0 ≡ (max + 63) / 64) }
    /// ensures upper_len_max { IfOk result
    ///     (λ set. (l end : ℕ) → l < LAYERS - 1 → max ≤ 64 ^ (l + 1) * end
    ///     → slice_len set l ≤ end) }
    /// ```
    pub fn with_capacity(alloc: Global, max: Index) -> Result<BitSet, AllocError> {
        let layers = Layers::zeros(alloc, (max as usize + 63) / 64)?;
        Ok(BitSet { layers })
    }

    // Makes room for the words over `id`, and changes no word. It is apart from `grow_to`, so that a call of `add` that
    // needs no room tests one length alone.
    #[inline(never)]
    pub(crate) fn ensure_word<G: Growth>(&mut self, id: Index) -> Result<(), AllocError> {
        let len = id as usize / 64 + 1;
        let capacity = G::capacity(self.layers.capacity(), len);
        self.layers.set_len(len, capacity)
    }

    // Makes room for the words over `id`, and changes no word.
    #[inline]
    pub(crate) fn grow_to(&mut self, id: Index) -> Result<(), AllocError> {
        if (id as usize) / 64 < self.layers.len() {
            return Ok(());
        }
        self.ensure_word::<Adds>(id)
    }

    // Puts an index in or takes it out, where there is room for it, and returns whether it was there.
    #[inline]
    fn set_bit(&mut self, id: Index, stands: bool) -> bool {
        let place = id as usize / 64;
        let before = self.layers.slice(0)[place];
        let word = with_bit(before, id as usize % 64, stands);
        if word == before {
            return stands;
        }
        self.layers.replace_word(place, before, word, stands);
        !stands
    }

    /// Adds an index below `MAX_EID`, and returns whether it was there.
    ///
    /// # Errors
    ///
    /// An allocation fails: the members and the length of layer 0 stay.
    ///
    /// # Cost
    ///
    /// - It does not allocate if the word at position `id / 64` lies in `layer0_as_slice`, so for no index that is
    ///   there.
    /// - Else that slice becomes as long as the word needs, and those above it no longer than the words over it need.
    ///   One index far up takes the words below it too: 136,348,160 bytes for 1,073,741,823.
    ///
    /// # Contract
    ///
    /// ```text
    /// requires { id < MAX_EID }
    /// ensures was_member { IfOk result (λ was. was ≡ has self.old id) }
    /// ensures added { OnOk result ((i : ℕ) → has self.new i ≡ (has self.old i || i == id)) }
    /// ensures err { OnErr result ((i : ℕ) → has self.new i ≡ has self.old i) }
    /// ensures succeeds { id / 64 < slice_len self.old 0 → IsOk result }
    /// ensures len_min { slice_len self.old 0 ≤ slice_len self.new 0 }
    /// ensures len_max { slice_len self.new 0 ≤ max (slice_len self.old 0) (id / 64 + 1) }
    /// ensures upper_len_max { (l : ℕ) → l < LAYERS - 1
    ///     → slice_len self.new l ≤ max (slice_len self.old l) (id / 64 ^ (l + 1) + 1) }
    /// ensures err_len { OnErr result (slice_len self.new 0 ≡ slice_len self.old 0) }
    /// ```
    #[inline]
    pub fn add(&mut self, id: Index) -> Result<bool, AllocError> {
        self.grow_to(id)?;
        Ok(self.set_bit(id, true))
    }

    /// Takes an index out, and returns whether it was there.
    ///
    /// # Contract
    ///
    /// ```text
    /// ensures was_member { result ≡ has self.old id }
    /// ensures removed { (i : ℕ) → has self.new i ≡ (has self.old i && not (i == id)) }
    /// ensures length { slice_len self.new 0 ≡ slice_len self.old 0 }
    /// ```
    #[inline]
    pub fn remove(&mut self, id: Index) -> bool {
        if (id as usize) / 64 >= self.layers.len() {
            return false;
        }
        self.set_bit(id, false)
    }

    /// Takes all members out. The four slices have length 0 then.
    ///
    /// The memory is kept, but no contract says that it is enough for words to come, so an addition may fail to
    /// allocate again.
    ///
    /// # Contract
    ///
    /// ```text
    /// ensures empty { (i : ℕ) → has self.new i ≡ false }
    /// ensures lengths { (l : ℕ) → l < LAYERS - 1 → slice_len self.new l ≡ 0 }
    /// ```
    pub fn clear(&mut self) {
        self.layers.clear();
    }

    /// The words of layer 0, at least as many as the members need. Past the end all are 0. `from_words` makes the set
    /// of them again.
    ///
    /// # Contract
    ///
    /// ```text
    /// ensures members { (i : ℕ) → has self.now i ≡ stands_in result.now i }
    /// ensures length { length result.now ≡ slice_len self.now 0 }
    /// ensures len_max { length result.now ≤ 64 ^ (LAYERS - 1) }
    /// ensures words { (p : ℕ) → slice_index_or result.now p 0 ≡ word_of self.now 0 p }
    /// ```
    #[inline]
    pub fn layer0_as_slice(&self) -> &[usize] {
        self.layers.slice(0)
    }

    /// The words of layer 1, at least as many as the members need. Past the end all are 0.
    ///
    /// # Contract
    ///
    /// ```text
    /// ensures length { length result.now ≡ slice_len self.now 1 }
    /// ensures len_max { length result.now ≤ 64 ^ (LAYERS - 2) }
    /// ensures words { (p : ℕ) → slice_index_or result.now p 0 ≡ word_of self.now 1 p }
    /// ```
    #[inline]
    pub fn layer1_as_slice(&self) -> &[usize] {
        self.layers.slice(1)
    }

    /// The words of layer 2, at least as many as the members need. Past the end all are 0.
    ///
    /// # Contract
    ///
    /// ```text
    /// ensures length { length result.now ≡ slice_len self.now 2 }
    /// ensures len_max { length result.now ≤ 64 ^ (LAYERS - 3) }
    /// ensures words { (p : ℕ) → slice_index_or result.now p 0 ≡ word_of self.now 2 p }
    /// ```
    #[inline]
    pub fn layer2_as_slice(&self) -> &[usize] {
        self.layers.slice(2)
    }

    /// The words of layer 3, at least as many as the members need. Past the end all are 0.
    ///
    /// # Contract
    ///
    /// ```text
    /// ensures length { length result.now ≡ slice_len self.now 3 }
    /// ensures len_max { length result.now ≤ 64 ^ (LAYERS - 4) }
    /// ensures words { (p : ℕ) → slice_index_or result.now p 0 ≡ word_of self.now 3 p }
    /// ```
    #[inline]
    pub fn layer3_as_slice(&self) -> &[usize] {
        self.layers.slice(3)
    }

    /// Returns whether an index is there.
    ///
    /// # Contract
    ///
    /// ```text
    /// ensures { result ≡ has self.now id }
    /// ```
    #[inline]
    pub fn contains(&self, id: Index) -> bool {
        let index = id as usize;
        self.layer0(index / 64) >> (index % 64) & 1 == 1
    }
}

impl BitSetLike for BitSet {
    #[inline]
    fn get_from_layer(&self, layer: usize, idx: usize) -> usize {
        if layer == LAYERS - 1 {
            self.layers.top()
        } else {
            self.layers.word(layer, idx)
        }
    }

    #[inline]
    fn is_empty(&self) -> bool {
        self.layers.top() == 0
    }

    #[inline]
    fn has_cheap_words(&self) -> bool {
        true
    }

    #[inline]
    fn layer4(&self) -> usize {
        self.layers.top()
    }

    #[inline]
    fn layer3(&self, i: usize) -> usize {
        self.layers.word(3, i)
    }

    #[inline]
    fn layer2(&self, i: usize) -> usize {
        self.layers.word(2, i)
    }

    #[inline]
    fn layer1(&self, i: usize) -> usize {
        self.layers.word(1, i)
    }

    #[inline]
    fn layer0(&self, i: usize) -> usize {
        self.layers.word(0, i)
    }

    #[inline]
    fn contains(&self, i: Index) -> bool {
        BitSet::contains(self, i)
    }
}

impl DrainableBitSet for BitSet {
    #[inline]
    fn remove(&mut self, i: Index) -> bool {
        BitSet::remove(self, i)
    }
}

/// A copy with the same members and words, whose slices have the same lengths. It fails only if an allocation fails.
impl TryClone for BitSet {
    fn try_clone(&self) -> Result<BitSet, AllocError> {
        let layers = self.layers.copy()?;
        Ok(BitSet { layers })
    }
}

/// It prints the members, in ascending order: `{5, 70000}`.
impl Debug for BitSet {
    fn fmt(&self, f: &mut Formatter) -> fmt::Result {
        f.debug_set().entries(self.iter()).finish()
    }
}
