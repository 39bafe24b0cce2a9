// Derived from crates/hibitset_sparse/src/kept.rt by rust/derive.py, and never edited by hand.

//! What is left of words and chunks if the indices stay that are in another set, or those that are not.

use crate::support::rattle_std::prelude::*;

use crate::derived::hibitset_sparse::chunk::Chunk;
use crate::derived::hibitset_sparse::group::Group;
use crate::derived::hibitset_sparse::group_view::GroupView;
use crate::derived::hibitset_sparse::retain::{Change, GroupChange, retain_group};
use crate::derived::hibitset_sparse::set::SparseBitSet;
use crate::derived::hibitset_sparse::table::{GROUPS_PER_TABLE, PLACES_PER_TABLE, Table};
use crate::derived::hibitset_base::like::BitSetLike;
use crate::derived::hibitset_base::virt::BitSetNot;
use crate::support::rattle_std::mem;

/// The words of chunk c, of which the indices stay that are in a set.
struct ChunkPart<'a, K: BitSetLike> {
    kept: &'a K,
    c: usize,
}

impl<K: BitSetLike> Change<usize> for ChunkPart<'_, K> {
    #[inline]
    fn places(&self, q: usize) -> usize {
        self.kept.layer1(GROUPS_PER_TABLE * self.c + q)
    }

    #[inline]
    fn change(&self, i: usize, value: &mut usize) -> bool {
        *value &= self.kept.layer0(PLACES_PER_TABLE * self.c + i);
        *value != 0
    }
}

impl<K: BitSetLike> GroupChange<usize> for ChunkPart<'_, K> {
    #[inline]
    fn groups(&self) -> usize {
        self.kept.layer2(self.c)
    }

    #[inline]
    fn retain_group(&self, items: &mut Vec<usize>, q: usize, group: Group, to: usize) -> usize {
        retain_group(items, self, q, group, to)
    }
}

/// The words of a group, of which the indices stay that are in a set of the group's own indices.
struct GroupPart<'a, K: BitSetLike>(&'a K);

impl<K: BitSetLike> Change<usize> for GroupPart<'_, K> {
    #[inline]
    fn places(&self, _q: usize) -> usize {
        self.0.layer1(0)
    }

    #[inline]
    fn change(&self, i: usize, value: &mut usize) -> bool {
        *value &= self.0.layer0(i % 64);
        *value != 0
    }
}

/// The words of a chunk, of which the indices stay that are in another chunk too.
struct ChunkBoth<'a>(&'a Chunk);

impl GroupChange<usize> for ChunkBoth<'_> {
    #[inline]
    fn groups(&self) -> usize {
        self.0.layer2()
    }

    #[inline]
    fn retain_group(&self, items: &mut Vec<usize>, q: usize, group: Group, to: usize) -> usize {
        let kept = GroupView::of(self.0, q);
        retain_group(items, &GroupPart(&kept), q, group, to)
    }
}

/// The words of a chunk, of which the indices stay that are not in another chunk.
struct ChunkAlone<'a>(&'a Chunk);

impl GroupChange<usize> for ChunkAlone<'_> {
    #[inline]
    fn groups(&self) -> usize {
        usize::MAX
    }

    #[inline]
    fn retain_group(&self, items: &mut Vec<usize>, q: usize, group: Group, to: usize) -> usize {
        let other = GroupView::of(self.0, q);
        if to == group.start && group.word & other.word == 0 {
            return group.word;
        }
        let kept = BitSetNot(other);
        retain_group(items, &GroupPart(&kept), q, group, to)
    }
}

/// The words of chunk c, of which the indices stay that are not in another set.
struct ChunkMinus<'a, B: BitSetLike> {
    other: &'a B,
    c: usize,
}

impl<B: BitSetLike> GroupChange<usize> for ChunkMinus<'_, B> {
    #[inline]
    fn groups(&self) -> usize {
        usize::MAX
    }

    #[inline]
    fn retain_group(&self, items: &mut Vec<usize>, q: usize, group: Group, to: usize) -> usize {
        let places = self.other.layer1(GROUPS_PER_TABLE * self.c + q);
        if to == group.start && group.word & places == 0 {
            return group.word;
        }
        let kept = BitSetNot(self.other);
        retain_group(
            items,
            &ChunkPart {
                kept: &kept,
                c: self.c,
            },
            q,
            group,
            to,
        )
    }
}

// Changes the words of a chunk, and returns whether it has any then.
fn retain_words<G: GroupChange<usize>>(chunk: &mut Chunk, by: &G) -> bool {
    let alloc = *chunk.words.items.allocator();
    let words = mem::replace(&mut chunk.words, Table::new(alloc));
    chunk.words = words.retain(by);
    chunk.layer2() != 0
}

/// The chunks of a set, of which the indices stay that are in any other set too.
pub(crate) struct Both<'a, B: BitSetLike>(pub(crate) &'a B);

impl<B: BitSetLike> Change<Chunk> for Both<'_, B> {
    #[inline]
    fn places(&self, q: usize) -> usize {
        self.0.layer3(q)
    }

    #[inline]
    fn change(&self, i: usize, value: &mut Chunk) -> bool {
        retain_words(value, &ChunkPart { kept: self.0, c: i })
    }
}

/// The chunks of a set, of which the indices stay that are not in any other set.
pub(crate) struct Alone<'a, B: BitSetLike>(pub(crate) &'a B);

impl<B: BitSetLike> Change<Chunk> for Alone<'_, B> {
    #[inline]
    fn places(&self, _q: usize) -> usize {
        usize::MAX
    }

    #[inline]
    fn change(&self, i: usize, value: &mut Chunk) -> bool {
        if self.0.layer2(i) == 0 {
            return value.layer2() != 0;
        }
        retain_words(
            value,
            &ChunkMinus {
                other: self.0,
                c: i,
            },
        )
    }
}

/// The chunks of a set, of which the indices stay that are in another sparse set too.
pub(crate) struct BothSparse<'a>(pub(crate) &'a SparseBitSet);

impl Change<Chunk> for BothSparse<'_> {
    #[inline]
    fn places(&self, q: usize) -> usize {
        self.0.chunks.word(q)
    }

    #[inline]
    fn change(&self, i: usize, value: &mut Chunk) -> bool {
        match self.0.chunks.get(i) {
            Some(other) => retain_words(value, &ChunkBoth(other)),
            None => false,
        }
    }
}

/// The chunks of a set, of which the indices stay that are not in another sparse set.
pub(crate) struct AloneSparse<'a>(pub(crate) &'a SparseBitSet);

impl Change<Chunk> for AloneSparse<'_> {
    #[inline]
    fn places(&self, _q: usize) -> usize {
        usize::MAX
    }

    #[inline]
    fn change(&self, i: usize, value: &mut Chunk) -> bool {
        match self.0.chunks.get(i) {
            Some(other) => retain_words(value, &ChunkAlone(other)),
            None => value.layer2() != 0,
        }
    }
}

// A change of each chunk by itself.
struct EachChunk<'a, C: Change<Chunk>>(&'a C);

impl<C: Change<Chunk>> GroupChange<Chunk> for EachChunk<'_, C> {
    #[inline]
    fn groups(&self) -> usize {
        usize::MAX
    }

    #[inline]
    fn retain_group(&self, items: &mut Vec<Chunk>, q: usize, group: Group, to: usize) -> usize {
        retain_group(items, self.0, q, group, to)
    }
}

// Each chunk that has members, as it is.
struct WithMembers;

impl Change<Chunk> for WithMembers {
    #[inline]
    fn places(&self, _q: usize) -> usize {
        usize::MAX
    }

    #[inline]
    fn change(&self, _i: usize, value: &mut Chunk) -> bool {
        value.layer2() != 0
    }
}

impl SparseBitSet {
    // The set of the members of chunks. Those without members are not kept. It does not allocate.
    pub(crate) fn of_chunks(chunks: Table<Chunk>) -> SparseBitSet {
        SparseBitSet {
            chunks: chunks.retain(&EachChunk(&WithMembers)),
        }
    }

    // Changes the chunks. None that stays is empty.
    pub(crate) fn retain_chunks<C: Change<Chunk>>(&mut self, by: &C) {
        let alloc = self.allocator();
        let chunks = mem::replace(&mut self.chunks, Table::new(alloc));
        self.chunks = chunks.retain(&EachChunk(by));
    }
}
