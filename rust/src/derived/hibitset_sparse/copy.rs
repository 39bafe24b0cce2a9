// Derived from crates/hibitset_sparse/src/copy.rt by rust/derive.py, and never edited by hand.

//! Copies of sets, list by list.

use crate::support::rattle_std::prelude::*;

use crate::derived::hibitset_sparse::chunk::Chunk;
use crate::derived::hibitset_sparse::group::Group;
use crate::derived::hibitset_sparse::packed_array::PackedArray;
use crate::derived::hibitset_sparse::set::SparseBitSet;
use crate::derived::hibitset_sparse::table::Table;
use crate::support::rattle_std::alloc::AllocError;

// The same groups.
fn copy_groups(groups: &PackedArray<Group>) -> Result<PackedArray<Group>, AllocError> {
    let items = Vec::from_slice(*groups.items.allocator(), &groups.items)?;
    Ok(PackedArray {
        word: groups.word,
        items,
    })
}

// The same words in the same places.
fn copy_words(words: &Table<usize>) -> Result<Table<usize>, AllocError> {
    let groups = copy_groups(&words.groups)?;
    let items = Vec::from_slice(*words.items.allocator(), &words.items)?;
    Ok(Table { groups, items })
}

// The same words, in lists without spare capacity.
impl TryClone for Chunk {
    fn try_clone(&self) -> Result<Chunk, AllocError> {
        let words = copy_words(&self.words)?;
        Ok(Chunk { words })
    }
}

// Chunks with the same words in the same places.
fn copy_chunks(chunks: &Table<Chunk>) -> Result<Table<Chunk>, AllocError> {
    let groups = copy_groups(&chunks.groups)?;
    let items = Vec::from_clones(*chunks.items.allocator(), &chunks.items)?;
    Ok(Table { groups, items })
}

/// The copy has the same members and words. It fails only if an allocation fails.
///
/// It copies whole lists, into memory without spare capacity: two for each 262,144 indices among which there is a
/// member, and two more.
impl TryClone for SparseBitSet {
    fn try_clone(&self) -> Result<SparseBitSet, AllocError> {
        let chunks = copy_chunks(&self.chunks)?;
        Ok(SparseBitSet { chunks })
    }
}
