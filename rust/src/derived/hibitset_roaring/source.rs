// Derived from crates/hibitset_roaring/src/source.rt by rust/derive.py, and never edited by hand.

//! What the containers of a stream are written of.

use crate::support::rattle_std::prelude::*;

use crate::derived::hibitset_roaring::encode_container::write_kind;
use crate::derived::hibitset_roaring::header::KEYS;
use crate::derived::hibitset_roaring::key_counts::count_members;
use crate::derived::hibitset_roaring::layout::CONTAINER_WORDS;
use crate::derived::hibitset_roaring::runs::count_runs;
use crate::derived::hibitset::BitSet;

/// A set whose containers are counted and written.
pub(crate) trait ContainerSource {
    /// The first key from one on under which there may be members; or `KEYS`.
    ///
    /// # Contract
    ///
    /// ```text
    /// requires { from ≤ KEYS }
    /// ensures order { from ≤ result }
    /// ensures within { result ≤ KEYS }
    /// ensures skips { (key : ℕ) → from ≤ key → key < result
    ///     → ones_under (words self.now) key ≡ 0 }
    /// ```
    fn next_key(&self, from: usize) -> usize;

    /// How many members have these high bits.
    ///
    /// # Contract
    ///
    /// ```text
    /// requires { key < KEYS }
    /// ensures count { result ≡ ones_under (words self.now) key }
    /// ensures max { result ≤ 65536 }
    /// ```
    fn count_under(&self, key: usize) -> usize;

    /// How many runs the `count` members with these high bits form; or at least as many, if runs are no shorter.
    ///
    /// # Contract
    ///
    /// ```text
    /// requires { key < KEYS }
    /// ensures { IsRunCount (words self.now) key count result }
    /// ```
    fn count_runs(&self, key: usize, count: usize) -> usize;

    /// Writes a container of `count` members in `runs` runs, as runs if these are shorter.
    ///
    /// # Contract
    ///
    /// ```text
    /// requires long_enough { at + container_bytes count runs ≤ length out.old }
    /// requires key { key < KEYS }
    /// requires count { count ≡ ones_under (words self.now) key }
    /// requires runs { are_runs_shorter runs count ≡ true
    ///     → runs ≡ count_of_runs (members_under (stands_in (words self.now)) key) }
    /// ensures before { SameBefore at out.old out.new }
    /// ensures written { IsKindWritten (words self.now) out.new at key count runs }
    /// ```
    fn write_container(&self, out: &mut [u8], at: usize, key: usize, count: usize, runs: usize);
}

/// Words of layer 0, and those of layer 1 over them.
#[derive(Clone, Copy)]
pub(crate) struct WordSource<'a> {
    words: &'a [usize],
    above: &'a [usize],
}

impl<'a> WordSource<'a> {
    /// These words.
    ///
    /// # Contract
    ///
    /// ```text
    /// requires len_max { length words.now ≤ 16777216 }
    /// requires summaries { AreSummaries words.now above.now }
    /// ensures { result.words.now ≡ words.now }
    /// ```
    #[inline]
    pub(crate) fn new(words: &'a [usize], above: &'a [usize]) -> WordSource<'a> {
        WordSource { words, above }
    }

    /// The words of a set.
    ///
    /// # Contract
    ///
    /// ```text
    /// ensures { (i : ℕ) → has set.now i ≡ stands_in result.words.now i }
    /// ```
    #[inline]
    pub(crate) fn of(set: &'a BitSet) -> WordSource<'a> {
        WordSource::new(set.layer0_as_slice(), set.layer1_as_slice())
    }
}

impl ContainerSource for WordSource<'_> {
    #[inline]
    fn next_key(&self, from: usize) -> usize {
        if from < (self.words.len() + (CONTAINER_WORDS - 1)) / CONTAINER_WORDS {
            from
        } else {
            KEYS
        }
    }

    #[inline]
    fn count_under(&self, key: usize) -> usize {
        count_members(self.words, self.above, key)
    }

    #[inline]
    fn count_runs(&self, key: usize, count: usize) -> usize {
        count_runs(self.words, self.above, key, count)
    }

    #[inline]
    fn write_container(&self, out: &mut [u8], at: usize, key: usize, count: usize, runs: usize) {
        write_kind(out, at, self.words, self.above, key, count, runs);
    }
}
