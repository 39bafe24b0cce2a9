// Derived from crates/hibitset_sparse/src/memory.rt by rust/derive.py, and never edited by hand.

//! How many bytes the words of a set and their tables take.

use crate::support::rattle_std::prelude::*;

use crate::derived::hibitset_sparse::chunk::Chunk;
use crate::derived::hibitset_sparse::set::SparseBitSet;
use crate::derived::hibitset_sparse::table::Table;

/// How many bytes a word of layer 0 takes.
const WORD_BYTES: usize = 8;

/// How many bytes the group of 64 words, or of 64 chunks, takes.
const GROUP_BYTES: usize = 16;

/// How many bytes a chunk takes beside its words and their groups.
const CHUNK_BYTES: usize = 56;

// The most bytes that the words of a chunk and their groups take: of 4,096 words and 64 groups.
const MOST_BYTES: usize = 33_792;

// How many bytes the words of a chunk and their groups take.
fn chunk_bytes(chunk: &Chunk) -> usize {
    let words = &chunk.words;
    WORD_BYTES * words.items.len() + GROUP_BYTES * words.groups.items.len()
}

// How many bytes the words of all chunks and their groups take.
fn all_chunk_bytes(chunks: &[Chunk]) -> usize {
    let mut bytes = 0;
    'chunks: for chunk in chunks {
        bytes += chunk_bytes(chunk);
    }
    bytes
}

// How many bytes chunks take, with the words of all and the groups.
fn table_bytes(chunks: &Table<Chunk>) -> usize {
    let own = CHUNK_BYTES * chunks.items.len() + GROUP_BYTES * chunks.groups.items.len();
    all_chunk_bytes(&chunks.items) + own
}

impl SparseBitSet {
    /// How many bytes its nonzero words and their tables take. The blocks of memory may be longer, for members to come.
    ///
    /// It reads a table's head for each 262,144 indices with members.
    ///
    /// # Contract
    ///
    /// ```text
    /// ensures { result ≡ memory_of (word_of self.now) }
    /// ```
    pub fn memory(&self) -> usize {
        table_bytes(&self.chunks)
    }
}
