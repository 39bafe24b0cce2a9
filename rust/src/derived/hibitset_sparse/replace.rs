// Derived from crates/hibitset_sparse/src/replace.rt by rust/derive.py, and never edited by hand.

//! Chunks that replace a set's own.

use crate::support::rattle_std::prelude::*;

use crate::derived::hibitset_sparse::chunk::Chunk;
use crate::derived::hibitset_sparse::set::SparseBitSet;
use crate::derived::hibitset_sparse::table::{GROUPS_PER_TABLE, PLACES_PER_TABLE, Table};
use crate::derived::hibitset_base::bits::take_bit;
use crate::support::rattle_std::alloc::AllocError;
use crate::support::rattle_std::mem;

// Takes the chunk of a place out, and leaves an empty one there.
fn take_chunk(chunks: &mut Table<Chunk>, c: usize) -> Option<Chunk> {
    let at = chunks.position(c)?;
    let empty = Chunk::new(*chunks.items.allocator());
    Some(mem::replace(&mut chunks.items[at], empty))
}

// What is there of two chunks: the second, unless it is empty, and the first where there is no second.
fn later_chunk(first: Option<Chunk>, second: Option<Chunk>) -> Option<Chunk> {
    let Some(chunk) = second else {
        return first;
    };
    if chunk.layer2() == 0 {
        return None;
    }
    Some(chunk)
}

// Puts the chunks of two tables in group q into a table that has none there. Where both have one it is that of the
// second, and an empty one of the second is left out.
fn join_group(
    table: &mut Table<Chunk>,
    first: &mut Table<Chunk>,
    second: &mut Table<Chunk>,
    q: usize,
) {
    let mut places = first.word(q) | second.word(q);
    'places: while places != 0 {
        let c = 64 * q + take_bit(&mut places);
        let before = take_chunk(first, c);
        let after = take_chunk(second, c);
        if let Some(chunk) = later_chunk(before, after) {
            let _put = table.insert(c, chunk);
        }
    }
}

// The chunks of two tables, put into a table that has none, in one ascending pass. Where both have one it is that of
// the second, and an empty one of the second is left out.
fn join_tables(empty: Table<Chunk>, first: Table<Chunk>, second: Table<Chunk>) -> Table<Chunk> {
    let mut table = empty;
    let mut left = first;
    let mut right = second;
    'groups: for q in 0..GROUPS_PER_TABLE {
        join_group(&mut table, &mut left, &mut right, q);
    }
    table
}

impl SparseBitSet {
    // Puts a chunk in the place of the set's own. An empty one is not kept.
    fn replace_chunk(&mut self, c: usize, chunk: Chunk) {
        let Some(at) = self.chunks.position(c) else {
            return;
        };
        if chunk.layer2() == 0 {
            let _chunk = self.chunks.remove(c);
            return;
        }
        self.chunks.write(c, at, chunk);
    }

    // Puts chunks in the place of the set's own. Empty ones are not kept.
    pub(crate) fn replace_chunks(&mut self, chunks: Table<Chunk>) {
        let mut left = chunks;
        'chunks: while let Some((c, chunk)) = left.pop() {
            self.replace_chunk(c, chunk);
        }
    }

    // Puts chunks beside the set's own and in their place, in a table that is made anew. Empty ones are not kept. If an
    // allocation fails, the members stay.
    fn join_chunks(&mut self, chunks: Table<Chunk>) -> Result<(), AllocError> {
        let alloc = self.allocator();
        let mut table = Table::new(alloc);
        table.reserve(self.chunks.items.len() + chunks.items.len())?;
        let own = mem::replace(&mut self.chunks, Table::new(alloc));
        self.chunks = join_tables(table, own, chunks);
        Ok(())
    }

    // Puts chunks beside the set's own and in their place. Empty ones are not kept. If an allocation fails, the members
    // stay. It does not allocate where the set has a chunk in the place of each.
    pub(crate) fn put_chunks(&mut self, chunks: Table<Chunk>) -> Result<(), AllocError> {
        if !self.chunks.covers(&chunks) {
            return self.join_chunks(chunks);
        }
        self.replace_chunks(chunks);
        Ok(())
    }
}
