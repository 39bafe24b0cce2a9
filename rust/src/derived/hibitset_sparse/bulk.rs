// Derived from crates/hibitset_sparse/src/bulk.rt by rust/derive.py, and never edited by hand.

//! Members counted and listed, by whole words.

use crate::support::rattle_std::prelude::*;

use crate::derived::hibitset_sparse::chunk::{Chunk, INDICES_PER_CHUNK};
use crate::derived::hibitset_sparse::rank::rank;
use crate::derived::hibitset_sparse::table::{PLACES_PER_TABLE, Table};
use crate::derived::hibitset_sparse::walk::WordIter;
use crate::derived::hibitset_base::bits::take_bit;
use crate::derived::hibitset_base::util::{Index, MAX_EID};
use crate::support::rattle_std::alloc::{AllocError, Global};

/// How many bits the words have that are set: how many members they have at any places of a chunk.
///
/// # Contract
///
/// ```text
/// requires { length words.now ≤ PLACES_PER_TABLE }
/// ensures counted { (base : ℕ) (places : List ℕ) → length places ≡ length words.now
///     → result ≡ length (in_words base (zip places words.now)) }
/// ensures max { result ≤ INDICES_PER_CHUNK }
/// ```
pub(crate) fn count_words(words: &[usize]) -> usize {
    let mut count = 0;
    'words: for word in words {
        count += word.count_ones() as usize;
    }
    count
}

// How many members the chunks have, at any places.
fn count_chunks(chunks: &[Chunk]) -> usize {
    let mut count = 0;
    'chunks: for chunk in chunks {
        count += count_words(&chunk.words.items);
    }
    count
}

/// How many members lie in the chunks. It reads each word once, and none above.
///
/// # Contract
///
/// ```text
/// ensures { result ≡ length (members_of chunks.now) }
/// ```
pub(crate) fn count_members(chunks: &Table<Chunk>) -> usize {
    count_chunks(&chunks.items)
}

// How many members a chunk with these words has before an index.
fn count_words_before(words: &Table<usize>, end: usize) -> usize {
    let place = end / 64;
    let count = count_words(&words.items[..words.rank(place)]);
    match words.get(place) {
        Some(word) => count + rank(*word, end % 64),
        None => count,
    }
}

/// How many members lie in the chunks before an index. It reads each word before the index once, 8 bytes.
///
/// # Contract
///
/// ```text
/// requires { end < MAX_EID }
/// ensures { result ≡ length (members_below end (holds_at (word_in chunks.now))) }
/// ```
pub(crate) fn count_before(chunks: &Table<Chunk>, end: usize) -> usize {
    let place = end / INDICES_PER_CHUNK;
    let count = count_chunks(&chunks.items[..chunks.rank(place)]);
    match chunks.get(place) {
        Some(chunk) => count + count_words_before(&chunk.words, end % INDICES_PER_CHUNK),
        None => count,
    }
}

// Puts the indices of a word with all bits set at the end of a list that has room for them. The loop is vectorized.
#[inline]
fn push_all(list: &mut Vec<Index>, first: Index) {
    'bits: for bit in 0..64u32 {
        list.push_reserved(first + bit);
    }
}

// Puts the indices of a word's bits at the end of a list that has room for them.
#[inline]
fn push_bits(list: &mut Vec<Index>, first: usize, word: usize) {
    if word == usize::MAX {
        return push_all(list, first as Index);
    }
    let mut rest = word;
    'bits: while rest != 0 {
        list.push_reserved((first + take_bit(&mut rest)) as Index);
    }
}

/// The members in the chunks, in ascending order, in memory that was allocated at once for all of them.
///
/// # Contract
///
/// ```text
/// ensures { IfOk result (λ v. v.items ≡ members_of chunks.now) }
/// ```
pub(crate) fn list_members(chunks: &Table<Chunk>, alloc: Global) -> Result<Vec<Index>, AllocError> {
    let mut list = Vec::with_capacity(alloc, count_members(chunks))?;
    let mut words = WordIter::new(chunks);
    'words: while let Some((first, word)) = words.next() {
        push_bits(&mut list, first, word);
    }
    Ok(list)
}
