// Derived from crates/hibitset_sparse/src/shrink.rt by rust/derive.py, and never edited by hand.

//! Giving back capacity that is not used.

use crate::support::rattle_std::prelude::*;

use crate::derived::hibitset_sparse::chunk::Chunk;
use crate::derived::hibitset_sparse::set::SparseBitSet;
use crate::derived::hibitset_sparse::table::Table;

// Gives back the capacity of a table that no value and no group uses.
fn shrink_table<T>(table: &mut Table<T>) {
    table.items.shrink_to_fit();
    table.groups.items.shrink_to_fit();
}

// Gives back the capacity of the chunks that no word and no group uses.
fn shrink_each(chunks: &mut Vec<Chunk>) {
    'chunks: for k in 0..chunks.len() {
        shrink_table(&mut chunks[k].words);
    }
}

// Gives back what the chunks and their table don't use.
fn shrink_chunks(chunks: &mut Table<Chunk>) {
    shrink_each(&mut chunks.items);
    shrink_table(chunks);
}

impl SparseBitSet {
    /// Gives back the capacity that no member uses. The members stay. It can't fail: a list whose smaller block can't
    /// be allocated keeps its old one.
    ///
    /// # Contract
    ///
    /// ```text
    /// ensures same { (i : ℕ) → has self.new i ≡ has self.old i }
    /// ```
    pub fn shrink_to_fit(&mut self) {
        shrink_chunks(&mut self.chunks);
    }
}
