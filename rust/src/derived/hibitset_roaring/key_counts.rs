// Derived from crates/hibitset_roaring/src/key_counts.rt by rust/derive.py, and never edited by hand.

//! Which containers a set has, and how many members each.

use crate::support::rattle_std::prelude::*;

use crate::derived::hibitset_roaring::header::KEYS;
use crate::derived::hibitset_roaring::layout::CONTAINER_WORDS;
use crate::derived::hibitset_roaring::nonzero_words::{CONTAINER_BLOCKS, blocks_over, slot_after, slot_from};
use crate::derived::hibitset_roaring::source::ContainerSource;
use crate::derived::hibitset_base::bits::word_or_zero;
use crate::support::rattle_std::alloc::{AllocError, Global};

// From this many nonzero words on, all words of a container are counted.
const MANY_WORDS: usize = 256;

// From this many nonzero words of layer 1 on, the nonzero words under them are counted first.
const MANY_BLOCKS: usize = 8;

/// The keys of the containers of a set, and how many members each has.
pub(crate) struct Heads {
    pub(crate) keys: Vec<usize>,
    pub(crate) counts: Vec<usize>,
}

// How many words of a container are not 0.
fn count_slots(above: &[usize], key: usize) -> usize {
    let mut slots = 0;
    'summaries: for block in 0..CONTAINER_BLOCKS {
        slots += word_or_zero(above, CONTAINER_BLOCKS * key + block).count_ones() as usize;
    }
    slots
}

// How many bits are set in 1,024 words.
fn count_whole(words: &[usize], base: usize) -> usize {
    let mut ones = 0;
    'words: for j in 0..CONTAINER_WORDS {
        ones += words[base + j].count_ones() as usize;
    }
    ones
}

// How many bits are set in the words of a container, of which those that are 0 are skipped.
fn count_some(words: &[usize], above: &[usize], key: usize, blocks: usize) -> usize {
    let base = CONTAINER_WORDS * key;
    let mut ones = 0;
    let mut rest = 0;
    let mut slot = slot_from(above, key, blocks, 0, &mut rest);
    'slots: while slot < CONTAINER_WORDS {
        ones += word_or_zero(words, base + slot).count_ones() as usize;
        slot = slot_after(above, key, blocks, slot, &mut rest);
    }
    ones
}

// Returns whether a container has many nonzero words, and all its words lie in `words`.
fn has_many(words: &[usize], above: &[usize], key: usize, blocks: usize) -> bool {
    CONTAINER_WORDS * key + CONTAINER_WORDS <= words.len()
        && blocks.count_ones() as usize >= MANY_BLOCKS
        && count_slots(above, key) >= MANY_WORDS
}

// How many members have these high bits.
pub(crate) fn count_members(words: &[usize], above: &[usize], key: usize) -> usize {
    let blocks = blocks_over(above, key);
    if has_many(words, above, key, blocks) {
        count_whole(words, CONTAINER_WORDS * key)
    } else {
        count_some(words, above, key, blocks)
    }
}

impl Heads {
    // Notes a container, if there are members for it.
    fn note<S: ContainerSource>(&mut self, source: &S, key: usize) -> Result<(), AllocError> {
        let count = source.count_under(key);
        if count == 0 {
            return Ok(());
        }
        self.keys.push(key)?;
        self.counts.push(count)?;
        Ok(())
    }

    /// The containers of a set.
    ///
    /// # Contract
    ///
    /// ```text
    /// ensures { IfOk result (λ heads. AreHeads (S.words source.now) heads.keys.items
    ///     heads.counts.items KEYS) }
    /// ```
    pub(crate) fn of<S: ContainerSource>(alloc: Global, source: &S) -> Result<Heads, AllocError> {
        let mut heads = Heads {
            keys: Vec::new(alloc),
            counts: Vec::new(alloc),
        };
        let mut key = source.next_key(0);
        'keys: while key < KEYS {
            heads.note(source, key)?;
            key = source.next_key(key + 1);
        }
        Ok(heads)
    }
}
