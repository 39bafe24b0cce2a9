// Derived from crates/hibitset_sparse/src/set.rt by rust/derive.py, and never edited by hand.

//! The set that keeps its nonzero words alone.

use crate::support::rattle_std::prelude::*;

use crate::derived::hibitset_sparse::bulk::{count_before, count_members, list_members};
use crate::derived::hibitset_sparse::chunk::{Chunk, INDICES_PER_CHUNK};
use crate::derived::hibitset_sparse::select::nth_member;
use crate::derived::hibitset_sparse::table::{PLACES_PER_TABLE, Table};
use crate::derived::hibitset_sparse::walk::SparseIter;
use crate::derived::hibitset_base::like::{BitSetLike, DrainableBitSet};
use crate::derived::hibitset_base::util::{Index, LAYERS, MAX_EID};
use crate::support::rattle_std::alloc::{AllocError, Global};
use crate::support::rattle_std::fmt::{self, Debug, Formatter};

/// A set of indices below `MAX_EID` that keeps its nonzero words alone: its memory goes by its members, wherever they
/// lie.
pub struct SparseBitSet {
    pub(crate) chunks: Table<Chunk>,
}

impl SparseBitSet {
    /// The empty set, which does not allocate until the first `add`.
    ///
    /// # Contract
    ///
    /// ```text
    /// ensures { (i : ℕ) → has result i ≡ false }
    /// ```
    pub fn new(alloc: Global) -> SparseBitSet {
        SparseBitSet {
            chunks: Table::new(alloc),
        }
    }

    /// Adds an index below `MAX_EID`, and returns whether it was there.
    ///
    /// # Errors
    ///
    /// An allocation fails: the members stay. It does not allocate if one of the 64 indices that share its word is a
    /// member.
    ///
    /// # Contract
    ///
    /// ```text
    /// requires { id < MAX_EID }
    /// ensures was_member { IfOk result (λ was. was ≡ has self.old id) }
    /// ensures added { OnOk result ((i : ℕ) → has self.new i ≡ (has self.old i || i == id)) }
    /// ensures err { OnErr result ((i : ℕ) → has self.new i ≡ has self.old i) }
    /// ensures succeeds { 0 < word_of self.old 0 (id / 64) → IsOk result }
    /// ```
    pub fn add(&mut self, id: Index) -> Result<bool, AllocError> {
        let id = id as usize;
        if let Some(at) = self.chunks.position(id / INDICES_PER_CHUNK) {
            return self.chunks.items[at].add(id % INDICES_PER_CHUNK);
        }
        let mut chunk = Chunk::new(*self.chunks.items.allocator());
        chunk.add(id % INDICES_PER_CHUNK)?;
        self.chunks.insert(id / INDICES_PER_CHUNK, chunk)?;
        Ok(false)
    }

    /// Takes an index out, and returns whether it was there.
    ///
    /// # Contract
    ///
    /// ```text
    /// ensures was_member { result ≡ has self.old id }
    /// ensures removed { (i : ℕ) → has self.new i ≡ (has self.old i && not (i == id)) }
    /// ```
    pub fn remove(&mut self, id: Index) -> bool {
        let id = id as usize;
        if id >= MAX_EID {
            return false;
        }
        let Some(at) = self.chunks.position(id / INDICES_PER_CHUNK) else {
            return false;
        };
        let was = self.chunks.items[at].remove(id % INDICES_PER_CHUNK);
        if self.chunks.items[at].layer2() == 0 {
            let _chunk = self.chunks.remove(id / INDICES_PER_CHUNK);
            return was;
        }
        was
    }

    /// Returns whether an index is there.
    ///
    /// # Contract
    ///
    /// ```text
    /// ensures { result ≡ has self.now id }
    /// ```
    #[inline]
    pub fn contains(&self, id: Index) -> bool {
        let id = id as usize;
        self.layer0(id / 64) >> (id % 64) & 1 == 1
    }

    /// A walk over the members, in ascending order.
    ///
    /// It goes along the stored words and looks none up. It reads 8 bytes for each nonzero word, 16 more for each run
    /// of 4,096 indices with members, and a table's head for each of 262,144. The walk itself takes 136 bytes, and does
    /// not allocate.
    ///
    /// Where `BitSetLike` is in scope, `set.iter()` of an owned set is the trait's, which takes the set: write
    /// `(&set).iter()`, or `for index in &set`.
    ///
    /// # Contract
    ///
    /// ```text
    /// ensures items { items_left result ≡ members_below MAX_EID (has self.now) }
    /// ensures runs { YieldsInOrder (YieldsFirst items_left) items_left }
    /// ensures fits { length (items_left result) ≤ MAX_EID }
    /// ```
    #[inline]
    pub fn iter(&self) -> SparseIter<'_> {
        SparseIter::new(&self.chunks)
    }

    /// The members, in ascending order.
    ///
    /// # Errors
    ///
    /// The allocation fails.
    ///
    /// # Cost
    ///
    /// It reads each stored word twice, once to count its members and once to list them, and allocates once, for all of
    /// them.
    ///
    /// # Contract
    ///
    /// ```text
    /// ensures { IfOk result (λ v. v.items ≡ members_below MAX_EID (has self.now)) }
    /// ```
    pub fn try_to_vec(&self, alloc: Global) -> Result<Vec<Index>, AllocError> {
        list_members(&self.chunks, alloc)
    }

    /// How many members there are. It reads each stored word once, 8 bytes.
    ///
    /// # Contract
    ///
    /// ```text
    /// ensures { result ≡ length (members_below MAX_EID (has self.now)) }
    /// ```
    pub fn len(&self) -> usize {
        count_members(&self.chunks)
    }

    /// How many members lie before `end`: the position of `end` in the list of all, if it is a member. It reads each
    /// stored word before `end` once, 8 bytes.
    ///
    /// # Contract
    ///
    /// ```text
    /// ensures { result ≡ length (members_below (min end MAX_EID) (has self.now)) }
    /// ```
    pub fn rank(&self, end: Index) -> usize {
        let end = end as usize;
        if end >= MAX_EID {
            return self.len();
        }
        count_before(&self.chunks, end)
    }

    /// The member at a position of the ascending list of all, the least one at 0, or `None` past its end.
    ///
    /// It reads each stored word up to that member's once, 8 bytes, and those of its chunk up to it once more.
    ///
    /// # Contract
    ///
    /// ```text
    /// ensures { result ≡ slice_get (members_below MAX_EID (has self.now)) at }
    /// ```
    pub fn select(&self, at: usize) -> Option<Index> {
        nth_member(&self.chunks, at)
    }

    /// Takes all members out, and gives the memory back.
    ///
    /// # Contract
    ///
    /// ```text
    /// ensures { (i : ℕ) → has self.new i ≡ false }
    /// ```
    pub fn clear(&mut self) {
        let alloc = self.allocator();
        self.chunks = Table::new(alloc);
    }

    // What the set's memory comes from.
    pub(crate) fn allocator(&self) -> Global {
        *self.chunks.items.allocator()
    }
}

impl BitSetLike for SparseBitSet {
    #[inline]
    fn has_cheap_words(&self) -> bool {
        true
    }

    #[inline]
    fn layer4(&self) -> usize {
        self.chunks.groups.word
    }

    #[inline]
    fn layer3(&self, i: usize) -> usize {
        if i >= 64 {
            return 0;
        }
        self.chunks.word(i)
    }

    #[inline]
    fn layer2(&self, i: usize) -> usize {
        if i >= PLACES_PER_TABLE {
            return 0;
        }
        match self.chunks.get(i) {
            Some(chunk) => chunk.layer2(),
            None => 0,
        }
    }

    #[inline]
    fn layer1(&self, i: usize) -> usize {
        if i >= 64 * PLACES_PER_TABLE {
            return 0;
        }
        match self.chunks.get(i / 64) {
            Some(chunk) => chunk.layer1(i % 64),
            None => 0,
        }
    }

    #[inline]
    fn layer0(&self, i: usize) -> usize {
        if i >= 64 * 64 * PLACES_PER_TABLE {
            return 0;
        }
        match self.chunks.get(i / (64 * 64)) {
            Some(chunk) => chunk.layer0(i % (64 * 64)),
            None => 0,
        }
    }

    #[inline]
    fn contains(&self, i: Index) -> bool {
        SparseBitSet::contains(self, i)
    }
}

/// A removal gives the memory of an emptied part back, so no capacity is kept.
impl DrainableBitSet for SparseBitSet {
    #[inline]
    fn remove(&mut self, i: Index) -> bool {
        SparseBitSet::remove(self, i)
    }
}

/// The members, in ascending order, as `SparseBitSet::iter` gives them.
impl<'a> IntoIterator for &'a SparseBitSet {
    type Item = Index;

    type IntoIter = SparseIter<'a>;

    #[inline]
    fn into_iter(self) -> SparseIter<'a> {
        self.iter()
    }
}

/// It prints the members, in ascending order: `{5, 70000}`.
impl Debug for SparseBitSet {
    fn fmt(&self, f: &mut Formatter) -> fmt::Result {
        f.debug_set().entries(self.iter()).finish()
    }
}
