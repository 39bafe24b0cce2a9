// Derived from crates/hibitset_base/src/iter.rt by rust/derive.py, and never edited by hand.

//! Walks over a set, in ascending order.

use crate::support::rattle_std::prelude::*;

use crate::derived::hibitset_base::cursor::Cursor;
use crate::derived::hibitset_base::like::BitSetLike;
use crate::derived::hibitset_base::read_count::Reads;
use crate::derived::hibitset_base::util::{BITS, Index, LAYERS, MAX_EID};
use crate::support::rattle_std::alloc::AllocError;

/// A walk over the members of a set, in ascending order: `BitIter` of the original.
///
/// It gives first the indices of the bits that it has left in layer 0, and then the members under the bits that it has
/// left above.
#[derive(Debug)]
pub struct BitIter<T> {
    pub(crate) set: T,
    pub(crate) cursor: Cursor<LAYERS>,
    pub(crate) reads: Reads,
}

impl<T> BitIter<T> {
    /// A walk over `set` that goes on from the given state: `new` of the original. `masks` has the bits that are left
    /// of each layer, from the lowest up. `prefix` has the position of each mask's first bit in its layer, for the
    /// layers below the top.
    ///
    /// - The prefix of a nonzero mask is a multiple of 64 within the layer.
    /// - What is left in a layer lies in the range of one word of each layer above that has something left: the word
    ///   whose first bit is at that layer's prefix. There it lies before what is left of that word.
    ///
    /// # Contract
    ///
    /// ```text
    /// requires { IsWellFormed LAYERS masks prefix }
    /// ensures set { set_of result ≡ set }
    /// ensures items { (holds : T → ℕ → Bool)
    ///     → items_left holds result ≡ items_of (holds set) (places_left 0 masks prefix) }
    /// ensures from_set { (word : T → ℕ → ℕ → ℕ) → AllAreSet (word set) (places_left 0 masks prefix)
    ///     → BitsAreFromSet word result }
    /// ensures read { words_read result ≡ 0 }
    /// ensures masks { masks_left result ≡ masks }
    /// ensures ahead { (word : T → ℕ → ℕ → ℕ)
    ///     → words_ahead word result ≡ words_of (word set) (places_left 0 masks prefix) }
    /// ```
    #[inline]
    pub(crate) fn of_parts(set: T, masks: [usize; LAYERS], prefix: [u32; LAYERS - 1]) -> Self {
        BitIter {
            set,
            cursor: cursor_of(masks, prefix),
            reads: Reads::none(),
        }
    }
}

// The prefixes of all layers, where the top layer begins at 0.
#[inline]
fn with_top(prefix: [u32; LAYERS - 1]) -> [u32; LAYERS] {
    let mut all = [0; LAYERS];
    all[..LAYERS - 1].copy_from_slice(&prefix);
    all
}

// The cursor of given masks and prefixes.
#[inline]
pub(crate) fn cursor_of(masks: [usize; LAYERS], prefix: [u32; LAYERS - 1]) -> Cursor<LAYERS> {
    Cursor::new(masks, with_top(prefix))
}

// Reads the word of a layer at a position. Each read that a walk counts is made here.
#[inline]
pub(crate) fn read<T: BitSetLike>(set: &T, reads: &mut Reads, layer: usize, position: u32) -> usize {
    *reads = Reads::succ(reads);
    set.get_from_layer(layer, position as usize)
}

// Reads the top word of a set, and returns where a walk over it begins.
#[inline]
pub(crate) fn root_cursor<T: BitSetLike>(set: &T, reads: &mut Reads) -> Cursor<LAYERS> {
    Cursor::at_top(read(set, reads, LAYERS - 1, 0))
}

// Reads the word under the first bit of `layer`, to go on from there.
#[inline]
pub(crate) fn descend<T: BitSetLike>(
    set: &T,
    cursor: &mut Cursor<LAYERS>,
    reads: &mut Reads,
    layer: usize,
) {
    let position = cursor.take_first(layer);
    // Shift first: `get_from_layer` has two exits, and LLVM would copy the shift into both.
    let start = position << BITS;
    let word = read(set, reads, layer - 1, position);
    cursor.push_bits_from(layer - 1, start, word);
}

// Reads the word under the first bit of `layer`, to go on from there. False where no bit is left in `layer`.
#[inline]
pub(crate) fn try_descend<T: BitSetLike>(
    set: &T,
    cursor: &mut Cursor<LAYERS>,
    reads: &mut Reads,
    layer: usize,
) -> bool {
    if cursor.is_empty(layer) {
        return false;
    }
    descend(set, cursor, reads, layer);
    true
}

// Reads the word under the first bit that is left above layer 2. False where none is left.
#[inline]
fn load_next_from_layer3<T: BitSetLike>(
    set: &T,
    cursor: &mut Cursor<LAYERS>,
    reads: &mut Reads,
) -> bool {
    if try_descend(set, cursor, reads, 3) {
        return true;
    }
    try_descend(set, cursor, reads, 4)
}

// Reads the word under the first bit that is left above layer 1, and where layer 2 has bits only then, the word under
// its first one too. False where none is left.
#[inline]
pub(crate) fn load_next_from_layer2<T: BitSetLike>(
    set: &T,
    cursor: &mut Cursor<LAYERS>,
    reads: &mut Reads,
) -> bool {
    if cursor.is_empty(2) && !load_next_from_layer3(set, cursor, reads) {
        return false;
    }
    try_descend(set, cursor, reads, 2);
    true
}

// Reads the word under the first bit that is left above layer 0. False where none is left.
#[inline]
pub(crate) fn load_next_word<T: BitSetLike>(
    set: &T,
    cursor: &mut Cursor<LAYERS>,
    reads: &mut Reads,
) -> bool {
    if try_descend(set, cursor, reads, 1) {
        return true;
    }
    load_next_from_layer2(set, cursor, reads)
}

// Takes the next index. `inline(always)`: LLVM then inlines it before its callees; the other order spills registers in
// the caller's loop.
#[inline(always)]
pub(crate) fn next_index<T: BitSetLike>(
    set: &T,
    cursor: &mut Cursor<LAYERS>,
    reads: &mut Reads,
) -> Option<Index> {
    'layers: while cursor.is_empty(0) {
        if !load_next_word(set, cursor, reads) {
            return None;
        }
    }
    Some(cursor.take_first(0))
}

impl<T: BitSetLike> BitIter<T> {
    // Starts at the top of the set.
    #[inline]
    pub(crate) fn from_top(set: T) -> Self {
        let mut reads = Reads::none();
        let cursor = root_cursor(&set, &mut reads);
        BitIter { set, cursor, reads }
    }

    /// A walk over a clone of the set, with the same places left to visit, so with the same items left. It fails only
    /// if the clone of the set does, which is the same set.
    ///
    /// # Contract
    ///
    /// ```text
    /// requires { ClonesToSame T.is_clone T.holds (set_of self.now) }
    /// ensures set { IfOk result (λ copy. T.is_clone (set_of self.now) (set_of copy)) }
    /// ensures items { IfOk result (λ copy. items_left T.holds copy
    ///     ≡ items_left T.holds self.now) }
    /// ensures places { IfOk result (λ copy. places_ahead copy ≡ places_ahead self.now) }
    /// ensures masks { IfOk result (λ copy. masks_left copy ≡ masks_left self.now) }
    /// ensures ahead { IfOk result (λ copy. SameWords (T.word (set_of self.now))
    ///     (T.word (set_of copy)) → words_ahead T.word copy ≡ words_ahead T.word self.now) }
    /// ensures from_set { IfOk result (λ copy. SameWords (T.word (set_of self.now))
    ///     (T.word (set_of copy)) → BitsAreFromSet T.word self.now → BitsAreFromSet T.word copy) }
    /// ensures read { IfOk result (λ copy. words_read copy ≡ 0) }
    /// ensures succeeds { T.is_infallible (set_of self.now) → IsOk result }
    /// ```
    pub fn try_clone(&self) -> Result<Self, AllocError>
    where
        T: TryClone,
    {
        Ok(BitIter {
            set: self.set.try_clone()?,
            cursor: self.cursor.copied(),
            reads: Reads::none(),
        })
    }

    /// Returns whether an index is in the set that is walked over.
    ///
    /// # Contract
    ///
    /// ```text
    /// ensures { result ≡ T.holds (set_of self.now) i }
    /// ```
    #[inline]
    pub fn contains(&self, i: Index) -> bool {
        self.set.contains(i)
    }
}

// Workaround with no meaning; every type has it. The toolchain accepts `IntoIterator` for an owned set only if the
// iterator's impl also mentions how some other type is dropped, here `Index`.
pub(crate) trait CitesDropOf<I> {}

impl<T, I> CitesDropOf<I> for T {}

impl<T: BitSetLike + CitesDropOf<Index>> Iterator for BitIter<T> {
    type Item = Index;

    #[inline]
    fn next(&mut self) -> Option<Index> {
        next_index(&self.set, &mut self.cursor, &mut self.reads)
    }

    crate::beside::iterator_members! { BitIter }
}
