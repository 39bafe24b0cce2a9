// Derived from crates/hibitset_sparse/src/gather.rt by rust/derive.py, and never edited by hand.

//! Chunks made of the words of any set.

use crate::support::rattle_std::prelude::*;

use crate::derived::hibitset_sparse::chunk::Chunk;
use crate::derived::hibitset_sparse::group::Group;
use crate::derived::hibitset_sparse::packed_array::PackedArray;
use crate::derived::hibitset_sparse::table::{GROUPS_PER_TABLE, PLACES_PER_TABLE, Table};
use crate::derived::hibitset_base::bits::{take_bit, with_bit};
use crate::derived::hibitset_base::like::BitSetLike;
use crate::support::rattle_std::alloc::{AllocError, Global};

// Appends the nonzero words of a set under a word of its layer 1, and returns which of the 64 they are, as bits.
#[inline]
fn push_words<S: BitSetLike>(
    items: &mut Vec<usize>,
    set: &S,
    position: usize,
) -> Result<usize, AllocError> {
    let mut places = set.layer1(position);
    let mut bits = 0;
    'places: while places != 0 {
        let bit = take_bit(&mut places);
        let word = set.layer0(64 * position + bit);
        if word != 0 {
            items.push(word)?;
            bits = with_bit(bits, bit, true);
        }
    }
    Ok(bits)
}

/// Appends group q, with the words of a set under a word of its layer 1, if no group is there from q on.
///
/// # Contract
///
/// ```text
/// requires position { position < GROUPS_PER_TABLE * PLACES_PER_TABLE }
/// requires group { q < GROUPS_PER_TABLE }
/// requires made { IsMadeUpTo q (value_in groups.old) items.old.items }
/// ensures made { OnOk result (IsMadeUpTo (q + 1) (value_in groups.new) items.new.items) }
/// ensures pushed { OnOk result ((p b : ℕ) → p < PLACES_PER_TABLE → p / 64 ≡ q → b < 64
///     → bit_is_set (or_zero (value_of_place (value_in groups.new) items.new.items p)) b
///     ≡ S.holds set.now (64 * (64 * position + p % 64) + b)) }
/// ensures others { OnOk result ((p : ℕ) → p < PLACES_PER_TABLE → p / 64 ≢ q
///     → value_of_place (value_in groups.new) items.new.items p
///     ≡ value_of_place (value_in groups.old) items.old.items p) }
/// ```
#[inline]
pub(crate) fn push_group<S: BitSetLike>(
    groups: &mut PackedArray<Group>,
    items: &mut Vec<usize>,
    set: &S,
    position: usize,
    q: usize,
) -> Result<(), AllocError> {
    let start = items.len();
    let word = push_words(items, set, position)?;
    if word == 0 {
        return Ok(());
    }
    groups.push(q, Group { word, start })
}

// How many words a set may have that are nonzero, of those of chunk c.
fn count_places<S: BitSetLike>(set: &S, c: usize) -> usize {
    let mut count: u32 = 0;
    let mut left = set.layer2(c);
    'groups: while left != 0 {
        let places = set.layer1(GROUPS_PER_TABLE * c + take_bit(&mut left));
        count = count.saturating_add(places.count_ones());
    }
    count as usize
}

/// What a set has of the indices of chunk c.
///
/// # Contract
///
/// ```text
/// requires { c < PLACES_PER_TABLE }
/// ensures { IfOk result (IsChunkOf (S.holds set.now) c) }
/// ```
pub(crate) fn chunk_of<S: BitSetLike>(alloc: Global, set: &S, c: usize) -> Result<Chunk, AllocError> {
    let mut groups = PackedArray::new(alloc);
    let mut items = Vec::new(alloc);
    let mut left = set.layer2(c);
    groups.reserve(left.count_ones() as usize)?;
    items.reserve(count_places(set, c))?;
    'groups: while left != 0 {
        let q = take_bit(&mut left);
        push_group(&mut groups, &mut items, set, GROUPS_PER_TABLE * c + q, q)?;
    }
    Ok(Chunk {
        words: Table { groups, items },
    })
}

/// What chunks can be made of.
pub(crate) trait ChunkSource {
    /// Makes chunk c.
    ///
    /// # Contract
    ///
    /// ```text
    /// requires { c < PLACES_PER_TABLE }
    /// ensures { IfOk result (IsChunkOf (holds self.now) c) }
    /// ```
    fn make_chunk(&self, alloc: Global, c: usize) -> Result<Chunk, AllocError>;
}

/// The chunks of any set, made of its words.
struct ChunksOfSet<'a, S: BitSetLike>(&'a S);

impl<S: BitSetLike> ChunkSource for ChunksOfSet<'_, S> {
    #[inline]
    fn make_chunk(&self, alloc: Global, c: usize) -> Result<Chunk, AllocError> {
        chunk_of(alloc, self.0, c)
    }
}

// The chunks of a source in one group, put into a table that has none in this group: those in which `touched` has a
// member, and maybe others.
fn push_chunks<S: ChunkSource, T: BitSetLike>(
    chunks: &mut Table<Chunk>,
    alloc: Global,
    source: &S,
    touched: &T,
    q: usize,
) -> Result<(), AllocError> {
    let mut places = touched.layer3(q);
    'places: while places != 0 {
        let c = 64 * q + take_bit(&mut places);
        let chunk = source.make_chunk(alloc, c)?;
        chunks.insert(c, chunk)?;
    }
    Ok(())
}

/// The chunks of a source: those in which `touched` has a member, and maybe others.
///
/// # Contract
///
/// ```text
/// ensures { IfOk result (AreChunksOf (S.holds source.now) (T.holds touched.now)) }
/// ```
pub(crate) fn chunks_from<S: ChunkSource, T: BitSetLike>(
    alloc: Global,
    source: &S,
    touched: &T,
) -> Result<Table<Chunk>, AllocError> {
    let mut chunks = Table::new(alloc);
    let mut groups = touched.layer4();
    'groups: while groups != 0 {
        let q = take_bit(&mut groups);
        push_chunks(&mut chunks, alloc, source, touched, q)?;
    }
    Ok(chunks)
}

/// The chunks of a set: those in which it has a member, and maybe others.
///
/// # Contract
///
/// ```text
/// ensures { IfOk result (AreChunksOf (S.holds set.now) (S.holds set.now)) }
/// ```
pub(crate) fn chunks_of<S: BitSetLike>(alloc: Global, set: &S) -> Result<Table<Chunk>, AllocError> {
    chunks_from(alloc, &ChunksOfSet(set), set)
}
