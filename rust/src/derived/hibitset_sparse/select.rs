// Derived from crates/hibitset_sparse/src/select.rt by rust/derive.py, and never edited by hand.

//! The member at a position of the ascending list of all.

use crate::support::rattle_std::prelude::*;

use crate::derived::hibitset_sparse::bulk::count_words;
use crate::derived::hibitset_sparse::chunk::{Chunk, INDICES_PER_CHUNK};
use crate::derived::hibitset_sparse::table::Table;
use crate::derived::hibitset_sparse::table_iter::TableIter;
use crate::derived::hibitset_sparse::walk::{SparseIter, WordIter};
use crate::derived::hibitset_base::util::Index;

// The member at a position of those that a walk has left.
fn nth_of_walk(mut walk: SparseIter<'_>, at: usize) -> Option<Index> {
    let mut left = at;
    'items: while let Some(index) = walk.next() {
        if left == 0 {
            return Some(index);
        }
        left -= 1;
    }
    None
}

// The member at a position of those in the words that a walk has left.
fn nth_of_words(mut words: WordIter<'_>, at: usize) -> Option<Index> {
    let mut left = at;
    'words: while let Some((first, word)) = words.next() {
        let count = word.count_ones() as usize;
        if left < count {
            return nth_of_walk(SparseIter { words, word, first }, left);
        }
        left -= count;
    }
    None
}

/// The member at a position of those in the chunks. It counts the members of whole chunks, and looks at single words of
/// the last one alone.
///
/// # Contract
///
/// ```text
/// ensures { result ≡ slice_get (members_of chunks.now) at }
/// ```
pub(crate) fn nth_member(chunks: &Table<Chunk>, at: usize) -> Option<Index> {
    let mut walk = TableIter::new(chunks);
    let mut left = at;
    'chunks: while let Some((place, chunk)) = walk.next() {
        let count = count_words(&chunk.words.items);
        if left < count {
            let words = WordIter::of_chunk(chunk, INDICES_PER_CHUNK * place);
            return nth_of_words(words, left);
        }
        left -= count;
    }
    None
}
