// Derived from crates/hibitset/src/assign.rt by rust/derive.py, and never edited by hand.

//! Assignments: a set put together with any other, whole words at a time.

use crate::support::rattle_std::prelude::*;

use crate::derived::hibitset::growth::Assignment;
use crate::derived::hibitset::set::BitSet;
use crate::derived::hibitset::word_op::{And, Difference, Operator, Or, Xor};
use crate::derived::hibitset_base::bits::{last_bit, take_bit, take_last_bit, with_bit};
use crate::derived::hibitset_base::like::BitSetLike;
use crate::derived::hibitset_base::util::{Index, LAYERS, MAX_EID};
use crate::support::rattle_std::alloc::AllocError;
use crate::support::rattle_std::ops::{BitAndAssign, SubAssign};

// The set with no members, which is merged in where the other has no word.
struct Empty;

impl BitSetLike for Empty {
    #[inline]
    fn layer4(&self) -> usize {
        0
    }

    #[inline]
    fn layer3(&self, _i: usize) -> usize {
        0
    }

    #[inline]
    fn layer2(&self, _i: usize) -> usize {
        0
    }

    #[inline]
    fn layer1(&self, _i: usize) -> usize {
        0
    }

    #[inline]
    fn layer0(&self, _i: usize) -> usize {
        0
    }

    #[inline]
    fn contains(&self, _i: Index) -> bool {
        false
    }
}

// The other's word at place `64 * place + bit` of the layer below `layer`, which is read only where the word above,
// `theirs`, has the bit.
#[inline]
fn lower_word<B: BitSetLike>(
    other: &B,
    layer: usize,
    place: usize,
    theirs: usize,
    bit: usize,
) -> usize {
    if theirs >> bit & 1 == 1 {
        other.get_from_layer(layer, 64 * place + bit)
    } else {
        0
    }
}

// One step of `end_of`: `other` has only zero words in `layer` from `end` on; returns such a bound for the layer below.
#[inline]
fn lower_end<B: BitSetLike>(other: &B, layer: usize, end: usize) -> usize {
    if end == 0 {
        return 0;
    }
    let last = end - 1;
    let word = other.get_from_layer(layer, last);
    if word == 0 {
        64 * last
    } else {
        64 * last + last_bit(word) + 1
    }
}

// A place of layer 0 from which on the other has no words, found by the last bit of each layer. Past the last word lie
// places of summary bits over zero words.
fn end_of<B: BitSetLike>(other: &B) -> usize {
    let mut layer = LAYERS - 1;
    let mut end = 1;
    while layer > 0 {
        end = lower_end(other, layer, end);
        layer -= 1;
    }
    end
}

// The place after the last word of layer 0 that the other has under word `place` of a layer, and 0 where it has none
// there. Words under summary bits are read from the last one down, until one is not 0.
fn end_of_subtree<B: BitSetLike>(other: &B, layer: usize, place: usize) -> usize {
    let mut left = other.get_from_layer(layer, place);
    if layer == 0 {
        return if left == 0 { 0 } else { place + 1 };
    }
    while left != 0 {
        let bit = take_last_bit(&mut left);
        let end = end_of_subtree(other, layer - 1, 64 * place + bit);
        if end > 0 {
            return end;
        }
    }
    0
}

impl BitSet {
    // Merges the words below word `place` of layer 1, where the other has the word `theirs`, and sets the summaries
    // over them right, as far up as a word becomes zero or nonzero. It is apart, so that its loops have the registers
    // to themselves.
    #[inline(never)]
    fn merge_block<O: Operator, B: BitSetLike>(&mut self, other: &B, place: usize, theirs: usize) {
        if self.layers.slice(1).len() <= place {
            return;
        }
        let ours = self.layers.slice(1)[place];
        let visited = O::visit(ours, theirs);
        let kept = self
            .layers
            .merge::<O, Empty>(&Empty, place, visited & !theirs, ours);
        let word = self
            .layers
            .merge::<O, B>(other, place, visited & theirs, kept);
        self.layers.store_word(1, place, word);
        self.layers.update_above(1, place, word != 0);
    }

    // Merges what lies under word `place` of a layer above 1, where the other has the word `theirs`. The blocks below
    // layer 2 are merged from its loop, without a call of this for each.
    fn merge_subtree<O: Operator, B: BitSetLike>(
        &mut self,
        other: &B,
        layer: usize,
        place: usize,
        theirs: usize,
    ) {
        let ours = self.get_from_layer(layer, place);
        let visited = O::visit(ours, theirs);
        let mut left = visited;
        while left != 0 {
            let bit = take_bit(&mut left);
            let lower = lower_word::<B>(other, layer - 1, place, theirs, bit);
            if layer == 2 {
                self.merge_block::<O, B>(other, 64 * place + bit, lower);
            } else {
                self.merge_subtree::<O, B>(other, layer - 1, 64 * place + bit, lower);
            }
        }
    }

    // Merges the other in, where what the set has no room for comes to nothing.
    fn merge_with<O: Operator, B: BitSetLike>(&mut self, other: &B) {
        let theirs = other.get_from_layer(LAYERS - 1, 0);
        self.merge_subtree::<O, B>(other, LAYERS - 1, 0, theirs);
    }

    // Makes room for all words of the other that are not 0, and no more. The exact end is looked for where summary bits
    // lie past the room.
    fn reserve_for<B: BitSetLike>(&mut self, other: &B) -> Result<(), AllocError> {
        if end_of(other) <= self.layers.len() {
            return Ok(());
        }
        let end = end_of_subtree(other, LAYERS - 1, 0);
        if end <= self.layers.len() {
            return Ok(());
        }
        self.ensure_word::<Assignment>((64 * (end - 1)) as Index)
    }

    /// Adds the members of any other set: `|=` of the original.
    ///
    /// # Errors
    ///
    /// An allocation fails: the members and the length of layer 0 stay.
    ///
    /// # Cost
    ///
    /// - It does not allocate if `layer0_as_slice` reaches to the other's last nonzero word. Else it reserves first, in
    ///   each layer up to the word over that one.
    /// - Words that the other has not are neither read nor changed. Its summary bits over zero words, past the capacity
    ///   of this set, may be read twice.
    ///
    /// # Contract
    ///
    /// ```text
    /// ensures members { OnOk result (IsUnion (has self.old) (is_member (B.holds other.now))
    ///     (has self.new)) }
    /// ensures err { OnErr result ((i : ℕ) → has self.new i ≡ has self.old i) }
    /// ensures len_min { slice_len self.old 0 ≤ slice_len self.new 0 }
    /// ensures succeeds { NoWordsFrom (B.word other.now) (slice_len self.old 0) → IsOk result }
    /// ensures len_max { (end : ℕ) → slice_len self.old 0 ≤ end
    ///     → NoWordsFrom (B.word other.now) end
    ///     → slice_len self.new 0 ≤ end }
    /// ensures upper_len_max { (l end : ℕ) → l < LAYERS - 1 → slice_len self.old l ≤ end
    ///     → NoWordsFrom (B.word other.now) (64 ^ l * end) → slice_len self.new l ≤ end }
    /// ensures err_len { OnErr result (slice_len self.new 0 ≡ slice_len self.old 0) }
    /// ```
    pub fn bitor_assign<B: BitSetLike>(&mut self, other: &B) -> Result<(), AllocError> {
        self.reserve_for(other)?;
        self.merge_with::<Or, B>(other);
        Ok(())
    }

    /// Adds the members of any other set that were not there, and takes out those that were: `^=` of the original.
    ///
    /// # Errors
    ///
    /// An allocation fails: the members and the length of layer 0 stay.
    ///
    /// # Cost
    ///
    /// That of `bitor_assign`.
    ///
    /// # Contract
    ///
    /// ```text
    /// ensures members { OnOk result (IsSymmetricDifference (has self.old)
    ///     (is_member (B.holds other.now)) (has self.new)) }
    /// ensures err { OnErr result ((i : ℕ) → has self.new i ≡ has self.old i) }
    /// ensures len_min { slice_len self.old 0 ≤ slice_len self.new 0 }
    /// ensures succeeds { NoWordsFrom (B.word other.now) (slice_len self.old 0) → IsOk result }
    /// ensures len_max { (end : ℕ) → slice_len self.old 0 ≤ end
    ///     → NoWordsFrom (B.word other.now) end
    ///     → slice_len self.new 0 ≤ end }
    /// ensures upper_len_max { (l end : ℕ) → l < LAYERS - 1 → slice_len self.old l ≤ end
    ///     → NoWordsFrom (B.word other.now) (64 ^ l * end) → slice_len self.new l ≤ end }
    /// ensures err_len { OnErr result (slice_len self.new 0 ≡ slice_len self.old 0) }
    /// ```
    pub fn bitxor_assign<B: BitSetLike>(&mut self, other: &B) -> Result<(), AllocError> {
        self.reserve_for(other)?;
        self.merge_with::<Xor, B>(other);
        Ok(())
    }

    /// Takes out the members that are in the other set. It does not allocate.
    ///
    /// # Contract
    ///
    /// ```text
    /// ensures members { IsDifference (has self.old) (B.holds other.now) (has self.new) }
    /// ensures length { slice_len self.new 0 ≡ slice_len self.old 0 }
    /// ```
    pub fn subtract_assign<B: BitSetLike>(&mut self, other: &B) {
        self.merge_with::<Difference, B>(other);
    }
}

/// Takes out the members that are not in the other set. It does not allocate.
impl<B: BitSetLike> BitAndAssign<&B> for BitSet {
    fn bitand_assign(&mut self, other: &B) {
        self.merge_with::<And, B>(other);
    }
}

/// Takes out the members that are in the other set, as `subtract_assign` does. It does not allocate.
impl<B: BitSetLike> SubAssign<&B> for BitSet {
    fn sub_assign(&mut self, other: &B) {
        self.subtract_assign(other);
    }
}
