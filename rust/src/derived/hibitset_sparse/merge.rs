// Derived from crates/hibitset_sparse/src/merge.rt by rust/derive.py, and never edited by hand.

//! Two sparse sets put together, chunk beside chunk.

use crate::support::rattle_std::prelude::*;

use crate::derived::hibitset_sparse::chunk::Chunk;
use crate::derived::hibitset_sparse::gather::{ChunkSource, chunk_of, chunks_from};
use crate::derived::hibitset_sparse::group::Group;
use crate::derived::hibitset_sparse::group_view::GroupView;
use crate::derived::hibitset_sparse::kept::{AloneSparse, BothSparse};
use crate::derived::hibitset_sparse::packed_array::PackedArray;
use crate::derived::hibitset_sparse::rank::is_set;
use crate::derived::hibitset_sparse::set::SparseBitSet;
use crate::derived::hibitset_sparse::table::{GROUPS_PER_TABLE, PLACES_PER_TABLE, Table};
use crate::derived::hibitset_base::bits::{take_bit, with_bit};
use crate::derived::hibitset_base::like::BitSetLike;
use crate::support::rattle_std::alloc::{AllocError, Global};

/// A way to put two sets together, index by index.
pub(crate) trait Merge {
    /// The bits over which there may be something, of those of the two.
    ///
    /// # Contract
    ///
    /// ```text
    /// ensures { CoversTest test own other result }
    /// ```
    fn merged_bits(own: usize, other: usize) -> usize;

    /// The word that two words give.
    ///
    /// # Contract
    ///
    /// ```text
    /// ensures { result ≡ merged own other }
    /// ```
    fn merged_word(own: usize, other: usize) -> usize;
}

/// What is in one or both.
pub(crate) struct Union;

impl Merge for Union {
    #[inline]
    fn merged_bits(own: usize, other: usize) -> usize {
        own | other
    }

    #[inline]
    fn merged_word(own: usize, other: usize) -> usize {
        own | other
    }
}

/// What is in one alone.
pub(crate) struct SymmetricDifference;

impl Merge for SymmetricDifference {
    #[inline]
    fn merged_bits(own: usize, other: usize) -> usize {
        own | other
    }

    #[inline]
    fn merged_word(own: usize, other: usize) -> usize {
        own ^ other
    }
}

// The word of a bit of a group, which lies at `at` if the bit is set: then `at` moves behind it. Where set and clear bits
// are `mixed`, all take the same steps, with a word times 0 for a clear one: a branch would often be mispredicted.
#[inline]
fn take_word(view: &GroupView<'_>, bit: usize, at: &mut usize, mixed: bool) -> usize {
    if mixed {
        let times = view.word >> bit & 1;
        let word = match view.items.get(*at) {
            Some(word) => *word,
            None => 0,
        };
        *at += times;
        return word * times;
    }
    if !is_set(view.word, bit) {
        return 0;
    }
    let word = view.items[*at];
    *at += 1;
    word
}

// Appends the nonzero words that two groups give, and returns which of the 64 they are, as bits.
#[inline]
fn push_words<M: Merge>(
    items: &mut Vec<usize>,
    own: &GroupView<'_>,
    other: &GroupView<'_>,
) -> Result<usize, AllocError> {
    let mixed = own.word != other.word;
    let mut left = own.word | other.word;
    let mut own_at = own.start;
    let mut other_at = other.start;
    let mut bits = 0;
    'places: while left != 0 {
        let bit = take_bit(&mut left);
        let first = take_word(own, bit, &mut own_at, mixed);
        let second = take_word(other, bit, &mut other_at, mixed);
        let word = M::merged_word(first, second);
        if word != 0 {
            items.push(word)?;
            bits = with_bit(bits, bit, true);
        }
    }
    Ok(bits)
}

// Appends group q, made of a group of each, where no group is there from q on.
#[inline]
fn push_merged<M: Merge>(
    groups: &mut PackedArray<Group>,
    items: &mut Vec<usize>,
    own: &GroupView<'_>,
    other: &GroupView<'_>,
    q: usize,
) -> Result<(), AllocError> {
    let start = items.len();
    let word = push_words::<M>(items, own, other)?;
    if word == 0 {
        return Ok(());
    }
    groups.push(q, Group { word, start })
}

// In how many places two chunks have words.
fn count_places(own: &Chunk, other: &Chunk) -> usize {
    let mut in_both: u32 = 0;
    let mut left = own.layer2() & other.layer2();
    'groups: while left != 0 {
        let q = take_bit(&mut left);
        let places = own.layer1(q) & other.layer1(q);
        in_both = in_both.saturating_add(places.count_ones());
    }
    let words = own
        .words
        .items
        .len()
        .saturating_add(other.words.items.len());
    words.saturating_sub(in_both as usize)
}

// A chunk made of two.
fn merge_chunks<M: Merge>(alloc: Global, own: &Chunk, other: &Chunk) -> Result<Chunk, AllocError> {
    let mut groups = PackedArray::new(alloc);
    let mut items = Vec::new(alloc);
    let mut left = M::merged_bits(own.layer2(), other.layer2());
    groups.reserve(left.count_ones() as usize)?;
    items.reserve(count_places(own, other))?;
    'groups: while left != 0 {
        let q = take_bit(&mut left);
        let of_own = GroupView::of(own, q);
        let of_other = GroupView::of(other, q);
        push_merged::<M>(&mut groups, &mut items, &of_own, &of_other, q)?;
    }
    Ok(Chunk {
        words: Table { groups, items },
    })
}

// The chunk of a set, or this one, which is empty.
fn chunk_or<'a>(set: &'a SparseBitSet, c: usize, empty: &'a Chunk) -> &'a Chunk {
    match set.chunks.get(c) {
        Some(chunk) => chunk,
        None => empty,
    }
}

// The chunks of two sets put together.
struct Merged<'a, M: Merge> {
    own: &'a SparseBitSet,
    other: &'a SparseBitSet,
    by: M,
}

impl<M: Merge> ChunkSource for Merged<'_, M> {
    fn make_chunk(&self, alloc: Global, c: usize) -> Result<Chunk, AllocError> {
        let empty = Chunk::new(alloc);
        let own = chunk_or(self.own, c, &empty);
        let other = chunk_or(self.other, c, &empty);
        if own.layer2() == 0 {
            return other.try_clone();
        }
        merge_chunks::<M>(alloc, own, other)
    }
}

/// The chunks of a set put together with any other set.
pub(crate) struct MergedWith<'a, B: BitSetLike, M: Merge> {
    pub(crate) own: &'a SparseBitSet,
    pub(crate) other: &'a B,
    pub(crate) by: M,
}

impl<B: BitSetLike, M: Merge> ChunkSource for MergedWith<'_, B, M> {
    fn make_chunk(&self, alloc: Global, c: usize) -> Result<Chunk, AllocError> {
        let other = chunk_of(alloc, self.other, c)?;
        match self.own.chunks.get(c) {
            Some(own) => merge_chunks::<M>(alloc, own, &other),
            None => Ok(other),
        }
    }
}

impl SparseBitSet {
    /// Adds the members of another sparse set.
    ///
    /// # Errors
    ///
    /// An allocation fails: the members stay. It can't fail if the other has none.
    ///
    /// # Cost
    ///
    /// - It goes through the words of both sets in the chunks in which both have members, and copies the other chunks
    ///   of the other.
    /// - These are made anew, each beside its old form. If one of them is new, so is the list of all chunks, 56 bytes
    ///   each.
    ///
    /// # Contract
    ///
    /// ```text
    /// ensures members { OnOk result (IsUnion (has self.old) (has other.now) (has self.new)) }
    /// ensures err { OnErr result ((i : ℕ) → has self.new i ≡ has self.old i) }
    /// ensures succeeds_empty { members_below MAX_EID (has other.now) ≡ [] → IsOk result }
    /// ```
    pub fn union_with(&mut self, other: &SparseBitSet) -> Result<(), AllocError> {
        if other.is_empty() {
            return Ok(());
        }
        let alloc = self.allocator();
        let merged = Merged {
            own: &*self,
            other,
            by: Union,
        };
        let chunks = chunks_from(alloc, &merged, other)?;
        self.put_chunks(chunks)
    }

    /// Adds the members of another sparse set that were not there, and takes out those that were.
    ///
    /// # Errors
    ///
    /// An allocation fails: the members stay. It can't fail if the other has none.
    ///
    /// # Cost
    ///
    /// That of `union_with`.
    ///
    /// # Contract
    ///
    /// ```text
    /// ensures members { OnOk result (IsSymmetricDifference (has self.old) (has other.now)
    ///     (has self.new)) }
    /// ensures err { OnErr result ((i : ℕ) → has self.new i ≡ has self.old i) }
    /// ensures succeeds_empty { members_below MAX_EID (has other.now) ≡ [] → IsOk result }
    /// ```
    pub fn symmetric_difference_with(&mut self, other: &SparseBitSet) -> Result<(), AllocError> {
        if other.is_empty() {
            return Ok(());
        }
        let alloc = self.allocator();
        let merged = Merged {
            own: &*self,
            other,
            by: SymmetricDifference,
        };
        let chunks = chunks_from(alloc, &merged, other)?;
        self.put_chunks(chunks)
    }

    /// Takes out the members that are not in the other sparse set. It does not allocate.
    ///
    /// It goes through the words of this set once, in the chunks in which both have members. They are changed in place,
    /// and those that are left close up.
    ///
    /// # Contract
    ///
    /// ```text
    /// ensures { IsIntersection (has self.old) (has other.now) (has self.new) }
    /// ```
    pub fn intersect_with(&mut self, other: &SparseBitSet) {
        self.retain_chunks(&BothSparse(other));
    }

    /// Takes out the members that are in the other sparse set. It does not allocate, and goes through the words of this
    /// set as `intersect_with` does.
    ///
    /// # Contract
    ///
    /// ```text
    /// ensures { IsDifference (has self.old) (has other.now) (has self.new) }
    /// ```
    pub fn difference_with(&mut self, other: &SparseBitSet) {
        self.retain_chunks(&AloneSparse(other));
    }
}
