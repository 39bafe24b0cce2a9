// Derived from crates/hibitset_sparse/src/group_view.rt by rust/derive.py, and never edited by hand.

//! One group of a chunk, as a set of its own.

use crate::support::rattle_std::prelude::*;

use crate::derived::hibitset_sparse::chunk::Chunk;
use crate::derived::hibitset_sparse::rank::{is_set, rank};
use crate::derived::hibitset_base::like::BitSetLike;
use crate::derived::hibitset_base::util::Index;

/// One group of a chunk: a set of indices below 4,096. Its words lie in `items` from `start` on, one for each bit of
/// `word`.
#[derive(Clone, Copy)]
pub(crate) struct GroupView<'a> {
    pub(crate) word: usize,
    pub(crate) start: usize,
    pub(crate) items: &'a [usize],
}

impl<'a> GroupView<'a> {
    /// Group q of a chunk.
    ///
    /// # Contract
    ///
    /// ```text
    /// requires { q < 64 }
    /// ensures members { (i : ℕ) → i < 4096 → view_has result i ≡ has_in chunk.now (4096 * q + i) }
    /// ensures word { result.word ≡ group_word chunk.now.words q }
    /// ```
    #[inline]
    pub(crate) fn of(chunk: &'a Chunk, q: usize) -> GroupView<'a> {
        let items = chunk.words.items.as_slice();
        let Some(group) = chunk.words.groups.get(q) else {
            return GroupView {
                word: 0,
                start: 0,
                items,
            };
        };
        GroupView {
            word: group.word,
            start: group.start,
            items,
        }
    }
}

impl BitSetLike for GroupView<'_> {
    #[inline]
    fn layer4(&self) -> usize {
        1
    }

    #[inline]
    fn layer3(&self, i: usize) -> usize {
        if i == 0 { 1 } else { 0 }
    }

    #[inline]
    fn layer2(&self, i: usize) -> usize {
        if i == 0 { 1 } else { 0 }
    }

    #[inline]
    fn layer1(&self, i: usize) -> usize {
        if i == 0 { self.word } else { 0 }
    }

    // The address is chosen and then read, so that LLVM makes no branch of it.
    #[inline]
    fn layer0(&self, i: usize) -> usize {
        if i >= 64 {
            return 0;
        }
        let at = self.start + rank(self.word, i);
        let source = match self.items.get(at) {
            Some(value) if is_set(self.word, i) => value,
            _ => &0,
        };
        *source
    }

    #[inline]
    fn contains(&self, i: Index) -> bool {
        let i = i as usize;
        self.layer0(i / 64) >> (i % 64) & 1 == 1
    }
}
