// Derived from crates/hibitset_base/src/ranked.rt by rust/derive.py, and never edited by hand.

//! Counts of members beside a set that does not change.

use crate::support::rattle_std::prelude::*;

use crate::derived::hibitset_base::iter::read;
use crate::derived::hibitset_base::like::BitSetLike;
use crate::derived::hibitset_base::ranks::{count_part, count_range, nth_under};
use crate::derived::hibitset_base::read_count::Reads;
use crate::derived::hibitset_base::util::Index;
use crate::support::rattle_std::alloc::{AllocError, Global};

// Number of indices under a word of layer 1.
const INDICES_PER_BLOCK: usize = 64 * 64;

/// A set that does not change, with the number of members before each 4,096th index: for many calls of `rank` and
/// `select`.
///
/// The counts take 4 bytes for each 4,096 indices up to the last member, which is 0.8 % of what the set takes. Give a
/// set that changes later as a reference: the borrow checker keeps it as it is.
pub struct Ranked<T: BitSetLike> {
    set: T,
    counts: Vec<u32>,
}

// Counts the members before each of so many blocks, and those before the end of the last one.
fn count_blocks<T: BitSetLike>(
    alloc: Global,
    set: &T,
    blocks: usize,
) -> Result<Vec<u32>, AllocError> {
    let mut counts = Vec::with_capacity(alloc, blocks + 1)?;
    counts.push(0)?;
    let mut count = 0;
    'starts: for block in 0..blocks {
        let from = 64 * block as u32;
        count += count_part(set, 1, from, from + 64) as u32;
        counts.push(count)?;
    }
    Ok(counts)
}

impl<T: BitSetLike> Ranked<T> {
    /// Counts the members of a set.
    ///
    /// # Errors
    ///
    /// The one allocation fails; a set that was given by value is gone then.
    ///
    /// # Cost
    ///
    /// It reads the words on the way to the last member, and then, for each 4,096 indices up to it, a word of layer 1
    /// and the words under its bits.
    ///
    /// # Contract
    ///
    /// ```text
    /// ensures set { IfOk result (λ ranked. counted_set ranked ≡ set) }
    /// ensures len_bound { IfOk result (λ ranked. counts_len ranked ≤ MAX_EID / block_size + 1) }
    /// ensures len_max { IfOk result (λ ranked. (blocks : ℕ)
    ///     → ((i : ℕ) → i < MAX_EID → T.holds set i ≡ true → i < block_size * blocks)
    ///     → counts_len ranked ≤ blocks + 1) }
    /// ```
    pub fn new(alloc: Global, set: T) -> Result<Ranked<T>, AllocError> {
        let blocks = match set.last() {
            Some(last) => last as usize / INDICES_PER_BLOCK + 1,
            None => 0,
        };
        let counts = count_blocks(alloc, &set, blocks)?;
        Ok(Ranked { set, counts })
    }

    /// The set.
    ///
    /// # Contract
    ///
    /// ```text
    /// ensures { result.now ≡ counted_set self.now }
    /// ```
    #[inline]
    pub fn set(&self) -> &T {
        &self.set
    }

    /// How many members lie before `end` and below `MAX_EID`, as `rank` of the set. It reads at most 64 words of layer
    /// 0, and one of layer 1.
    ///
    /// # Contract
    ///
    /// ```text
    /// ensures { result ≡ length (members_below (min end MAX_EID)
    ///     (T.holds (counted_set self.now))) }
    /// ```
    #[inline]
    pub fn rank(&self, end: Index) -> usize {
        let block = end as usize / INDICES_PER_BLOCK;
        if block + 1 >= self.counts.len() {
            return self.counts[self.counts.len() - 1] as usize;
        }
        let start = (INDICES_PER_BLOCK * block) as Index;
        self.counts[block] as usize + count_range(&self.set, start, end)
    }

    // The number of counts that are `at` or less.
    #[inline]
    fn counts_upto(&self, at: usize) -> usize {
        self.counts.partition_point(
            |count: &u32| -> bool { *count as usize <= at },
        )
    }

    /// The member at a position of the ascending list of all, as `select` of the set, or `None` past its end. It finds
    /// the block by a binary search over the counts, and reads at most 64 words of layer 0, and one of layer 1.
    ///
    /// # Contract
    ///
    /// ```text
    /// ensures { result ≡ slice_get (members_below MAX_EID (T.holds (counted_set self.now))) at }
    /// ```
    #[inline]
    pub fn select(&self, at: usize) -> Option<Index> {
        let next = self.counts_upto(at);
        if next == self.counts.len() {
            return None;
        }
        let block = next - 1;
        let before = self.counts[block] as usize;
        let position = block as u32;
        let word = read(&self.set, &mut Reads::none(), 1, position);
        nth_under(&self.set, 64 * position, word, at - before)
    }
}
