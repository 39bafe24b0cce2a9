//! The set that keeps its nonzero words alone.

use crate::derived::hibitset_sparse as proved;
use crate::face::limits::{range_to_add, range_within};
use crate::face::{index_out_of_range, out_of_memory};
use crate::support::rattle_std::clone::TryClone;
use crate::{
    AllocError, BitSet, BitSetLike, DrainBitIter, DrainableBitSet, Global, Index, MAX_EID,
};
use alloc::vec::Vec;
use core::cell::RefCell;
use core::fmt::{self, Debug, Formatter};
use core::iter::FusedIterator;
use core::ops::{BitAndAssign, BitOrAssign, BitXorAssign, RangeBounds, SubAssign};

/// A set of indices below [`MAX_EID`] whose memory goes by its members, wherever they lie. The crate `hibitset` 0.6.3
/// has no such type.
///
/// It keeps its nonzero words alone: 8 bytes for each 64 indices with a member, and 16 for each 4,096, 56 for each
/// 262,144 and 16 for each 16,777,216. As it grows it may reserve twice as much, until
/// [`shrink_to_fit`](SparseBitSet::shrink_to_fit). Where members lie close to each other, a [`BitSet`] is smaller and
/// faster. An index whose word has no member moves the words behind it, of the same 262,144 indices, so members are
/// best added in ascending order.
///
/// If there is no memory, a call that needs some ends the process, and its twin whose name begins with `try_` returns
/// [`AllocError`].
///
/// # Examples
///
/// ```
/// use hibitset::{BitSet, BitSetLike, SparseBitSet};
///
/// let mut seen = SparseBitSet::new();
/// assert!(!seen.add(1_000_000_000)); // it was not in the set, which takes some 400 bytes now
/// seen.add_range(100..104);
/// assert_eq!(seen.to_vec(), [100, 101, 102, 103, 1_000_000_000]);
///
/// // It mixes with sets of other types, and no index is copied.
/// let dirty = BitSet::from([7, 103]);
/// assert!((&dirty & &seen).into_iter().eq([103]));
/// seen -= &dirty;
/// assert_eq!((seen.len(), seen.first(), seen.last()), (4, Some(100), Some(1_000_000_000)));
/// ```
///
/// # Iteration
///
/// `for index in &set` goes over the members, ascending, along the words that the set keeps, and so does
/// [`iter`](SparseBitSet::iter). With [`BitSetLike`] in scope, `set.iter()` of an owned set is [`BitSetLike::iter`],
/// which takes the set; `(&set).into_iter()` is the iterator of the set in either case. The iterators of [`BitSetLike`]
/// look each word up:
///
/// ```
/// use hibitset::{BitSetLike, SparseBitSet};
///
/// let set = SparseBitSet::from([1, 20, 300]);
/// assert_eq!((&set).into_iter().count(), 3);
/// assert_eq!((&set).iter_from(2).next(), Some(20));
/// assert_eq!((&set).iter_rev().next(), Some(300));
/// ```
#[derive(PartialEq, Eq)]
#[repr(transparent)]
pub struct SparseBitSet(pub(crate) proved::SparseBitSet);

impl SparseBitSet {
    /// Returns the empty set, which has no memory.
    #[must_use]
    pub fn new() -> SparseBitSet {
        SparseBitSet(proved::SparseBitSet::new(Global))
    }

    /// Returns a set with the members of another one, of any type.
    ///
    /// ```
    /// use hibitset::{BitSet, SparseBitSet};
    ///
    /// let (a, b) = (BitSet::from([5, 70_000]), BitSet::from([7, 70_000]));
    /// assert_eq!(SparseBitSet::from_set(&(&a | &b)).to_vec(), [5, 7, 70_000]);
    /// assert_eq!(SparseBitSet::from(&a).to_vec(), [5, 70_000]);
    /// ```
    #[must_use]
    pub fn from_set<B: BitSetLike>(other: &B) -> SparseBitSet {
        SparseBitSet::try_from_set(other).unwrap_or_else(|error| out_of_memory(error))
    }

    /// Returns a set with the members of another one, as [`from_set`](SparseBitSet::from_set) does.
    ///
    /// # Errors
    ///
    /// [`AllocError`] if an allocation fails.
    pub fn try_from_set<B: BitSetLike>(other: &B) -> Result<SparseBitSet, AllocError> {
        proved::SparseBitSet::from_set(Global, other).map(SparseBitSet)
    }

    /// Adds an index. Returns whether it was in the set before.
    ///
    /// ```
    /// use hibitset::SparseBitSet;
    ///
    /// let mut set = SparseBitSet::new();
    /// assert!(!set.add(7)); // 7 was not in the set
    /// assert!(set.add(7));
    /// ```
    ///
    /// # Panics
    ///
    /// If `id` is not below [`MAX_EID`].
    #[inline]
    pub fn add(&mut self, id: Index) -> bool {
        match self.try_add(id) {
            Ok(was) => was,
            Err(error) => out_of_memory(error),
        }
    }

    /// Adds an index. Returns whether it was in the set before. It can't fail if one of the 64 indices that share its
    /// word is a member.
    ///
    /// # Errors
    ///
    /// [`AllocError`] if an allocation fails. The members are as they were.
    ///
    /// # Panics
    ///
    /// If `id` is not below [`MAX_EID`].
    #[inline]
    pub fn try_add(&mut self, id: Index) -> Result<bool, AllocError> {
        if id as usize >= MAX_EID {
            index_out_of_range(id, MAX_EID);
        }
        self.0.add(id)
    }

    /// Adds all indices in a range. An unbounded end is [`MAX_EID`]. A range of n indices takes n / 7 bytes at most,
    /// and what it touches is made anew, 262,144 indices at a time.
    ///
    /// ```
    /// use hibitset::SparseBitSet;
    ///
    /// let mut set = SparseBitSet::new();
    /// set.add_range(60..=70);
    /// set.add_range(5..5);
    /// assert_eq!(set.len(), 11);
    /// ```
    ///
    /// # Panics
    ///
    /// If an index in the range is not below [`MAX_EID`].
    pub fn add_range(&mut self, range: impl RangeBounds<Index>) {
        self.try_add_range(range)
            .unwrap_or_else(|error| out_of_memory(error))
    }

    /// Adds all indices in a range, as [`add_range`](SparseBitSet::add_range) does.
    ///
    /// # Errors
    ///
    /// [`AllocError`] if an allocation fails. The members are as they were.
    ///
    /// # Panics
    ///
    /// If an index in the range is not below [`MAX_EID`].
    pub fn try_add_range(&mut self, range: impl RangeBounds<Index>) -> Result<(), AllocError> {
        let (start, end) = range_to_add(&range);
        self.0.add_range(start, end)
    }

    /// Removes an index. Returns whether it was in the set.
    #[inline]
    pub fn remove(&mut self, id: Index) -> bool {
        self.0.remove(id)
    }

    /// Removes all indices in a range. It can't fail.
    ///
    /// ```
    /// use hibitset::SparseBitSet;
    ///
    /// let mut set: SparseBitSet = (0..10).collect();
    /// set.remove_range(3..);
    /// assert_eq!(set.to_vec(), [0, 1, 2]);
    /// ```
    pub fn remove_range(&mut self, range: impl RangeBounds<Index>) {
        let (start, end) = range_within(&range);
        self.0.remove_range(start, end);
    }

    /// Flips all indices in a range: members become none, and others members. An unbounded end is [`MAX_EID`].
    ///
    /// ```
    /// use hibitset::SparseBitSet;
    ///
    /// let mut set = SparseBitSet::from([2, 9]);
    /// set.flip_range(0..4);
    /// assert_eq!(set.to_vec(), [0, 1, 3, 9]);
    /// ```
    ///
    /// # Panics
    ///
    /// If an index in the range is not below [`MAX_EID`].
    pub fn flip_range(&mut self, range: impl RangeBounds<Index>) {
        self.try_flip_range(range)
            .unwrap_or_else(|error| out_of_memory(error))
    }

    /// Flips all indices in a range, as [`flip_range`](SparseBitSet::flip_range) does.
    ///
    /// # Errors
    ///
    /// [`AllocError`] if an allocation fails. The members are as they were.
    ///
    /// # Panics
    ///
    /// If an index in the range is not below [`MAX_EID`].
    pub fn try_flip_range(&mut self, range: impl RangeBounds<Index>) -> Result<(), AllocError> {
        let (start, end) = range_to_add(&range);
        self.0.flip_range(start, end)
    }

    /// Removes all members, and gives the memory back.
    pub fn clear(&mut self) {
        self.0.clear();
    }

    /// Gives back the memory that no member uses. It can't fail: if there is none for a smaller block, the old one
    /// stays.
    ///
    /// ```
    /// use hibitset::SparseBitSet;
    ///
    /// let mut set: SparseBitSet = (0..100).map(|i| i * 1_000_000).collect();
    /// set.shrink_to_fit();
    /// assert_eq!(set.len(), 100);
    /// ```
    pub fn shrink_to_fit(&mut self) {
        self.0.shrink_to_fit();
    }

    /// Returns how many bytes the words and the tables of the set take, without spare capacity and without the set itself.
    ///
    /// ```
    /// use hibitset::SparseBitSet;
    ///
    /// let set = SparseBitSet::from([1_000_000_000]);
    /// assert_eq!(set.memory(), 96);
    /// ```
    pub fn memory(&self) -> usize {
        self.0.memory()
    }

    /// Returns whether an index is in the set.
    #[inline]
    pub fn contains(&self, id: Index) -> bool {
        self.0.contains(id)
    }

    /// Returns whether all members of another set, of any type, are in this set.
    ///
    /// ```
    /// use hibitset::{BitSet, SparseBitSet};
    ///
    /// let all: SparseBitSet = (0..10).collect();
    /// let few = BitSet::from([2, 3]);
    /// assert!(all.contains_set(&few) && !all.contains_set(&!few));
    /// ```
    pub fn contains_set<B: BitSetLike>(&self, other: &B) -> bool {
        self.0.contains_set(other)
    }

    /// Returns whether the set has no member.
    #[inline]
    pub fn is_empty(&self) -> bool {
        BitSetLike::is_empty(&self.0)
    }

    /// Returns the number of members. It counts the words that the set keeps.
    pub fn len(&self) -> usize {
        self.0.len()
    }

    /// Returns the number of members in a range.
    ///
    /// ```
    /// use hibitset::SparseBitSet;
    ///
    /// let set = SparseBitSet::from([1, 20, 300]);
    /// assert_eq!((set.len_range(2..), set.len_range(..=20)), (2, 2));
    /// ```
    pub fn len_range(&self, range: impl RangeBounds<Index>) -> usize {
        let (start, end) = range_within(&range);
        self.0.len_range(start, end)
    }

    /// Returns an iterator over the members, ascending. With [`BitSetLike`] in scope write `(&set).into_iter()`, since
    /// that trait's [`iter`](BitSetLike::iter) takes the set.
    ///
    /// ```
    /// use hibitset::SparseBitSet;
    ///
    /// let set = SparseBitSet::from([1_000_000_000, 20, 300]);
    /// assert!(set.iter().eq([20, 300, 1_000_000_000]));
    /// ```
    #[inline]
    pub fn iter(&self) -> SparseIter<'_> {
        SparseIter {
            set: &self.0,
            left: proved::SparseBitSet::iter(&self.0),
        }
    }

    /// Returns an iterator over the members, ascending, that removes each one that it gives. Members that it has not
    /// given when it is dropped stay.
    pub fn drain(&mut self) -> DrainBitIter<'_, SparseBitSet> {
        DrainableBitSet::drain(self)
    }

    /// Removes the members for which `keep` returns false. It asks once for each, in ascending order.
    ///
    /// ```
    /// use hibitset::SparseBitSet;
    ///
    /// let mut set: SparseBitSet = (0..10).collect();
    /// set.retain(|index| index % 4 == 0);
    /// assert_eq!(set.to_vec(), [0, 4, 8]);
    /// ```
    pub fn retain(&mut self, mut keep: impl FnMut(Index) -> bool) {
        let keep = RefCell::new(&mut keep);
        DrainableBitSet::retain(self, |index| (**keep.borrow_mut())(index));
    }

    /// Removes the least member and returns it.
    pub fn pop_first(&mut self) -> Option<Index> {
        DrainableBitSet::pop_first(self)
    }

    /// Removes the greatest member and returns it.
    pub fn pop_last(&mut self) -> Option<Index> {
        DrainableBitSet::pop_last(self)
    }

    /// Adds the items of an iterator, up to the first one whose allocation fails.
    ///
    /// # Errors
    ///
    /// [`AllocError`] if an allocation fails. The set has its old members and the items before that one.
    ///
    /// # Panics
    ///
    /// At an item that is not below [`MAX_EID`]. The items before it are members then.
    pub fn try_extend<I: IntoIterator<Item = Index>>(&mut self, iter: I) -> Result<(), AllocError> {
        for index in iter {
            self.try_add(index)?;
        }
        Ok(())
    }

    /// Returns a copy, which has no more memory than its members use.
    ///
    /// # Errors
    ///
    /// [`AllocError`] if an allocation fails.
    pub fn try_clone(&self) -> Result<SparseBitSet, AllocError> {
        self.0.try_clone().map(SparseBitSet)
    }

    /// Adds all members of another set, as `|=` does. What the other set touches is made anew, 262,144 indices at a
    /// time: a few indices are better added by [`add`](SparseBitSet::add).
    ///
    /// # Errors
    ///
    /// [`AllocError`] if an allocation fails. The members are as they were.
    pub fn try_bitor_assign<B: BitSetLike>(&mut self, other: &B) -> Result<(), AllocError> {
        self.0.bitor_assign(other)
    }

    /// Removes the members that another set has too, and adds its others, as `^=` does.
    ///
    /// # Errors
    ///
    /// [`AllocError`] if an allocation fails. The members are as they were.
    pub fn try_bitxor_assign<B: BitSetLike>(&mut self, other: &B) -> Result<(), AllocError> {
        self.0.bitxor_assign(other)
    }

    /// Adds the members of another sparse set, chunk beside chunk: faster than `|=`, which looks each word up.
    ///
    /// ```
    /// use hibitset::SparseBitSet;
    ///
    /// let (a, b) = (SparseBitSet::from([5, 70_000]), SparseBitSet::from([7, 70_000]));
    /// let mut set = a.clone();
    /// set.union_with(&b);
    /// assert_eq!(set.to_vec(), [5, 7, 70_000]);
    /// set.intersect_with(&b);
    /// assert_eq!(set.to_vec(), [7, 70_000]);
    /// set.symmetric_difference_with(&a);
    /// assert_eq!(set.to_vec(), [5, 7]);
    /// set.difference_with(&b);
    /// assert_eq!(set.to_vec(), [5]);
    /// ```
    pub fn union_with(&mut self, other: &SparseBitSet) {
        self.try_union_with(other)
            .unwrap_or_else(|error| out_of_memory(error));
    }

    /// Adds the members of another sparse set, as [`union_with`](SparseBitSet::union_with) does.
    ///
    /// # Errors
    ///
    /// [`AllocError`] if an allocation fails. The members are as they were.
    pub fn try_union_with(&mut self, other: &SparseBitSet) -> Result<(), AllocError> {
        self.0.union_with(&other.0)
    }

    /// Adds the members of another sparse set that are not in the set, and takes out those that are, chunk beside
    /// chunk: faster than `^=`.
    pub fn symmetric_difference_with(&mut self, other: &SparseBitSet) {
        self.try_symmetric_difference_with(other)
            .unwrap_or_else(|error| out_of_memory(error));
    }

    /// Flips the members of another sparse set, as
    /// [`symmetric_difference_with`](SparseBitSet::symmetric_difference_with) does.
    ///
    /// # Errors
    ///
    /// [`AllocError`] if an allocation fails. The members are as they were.
    pub fn try_symmetric_difference_with(
        &mut self,
        other: &SparseBitSet,
    ) -> Result<(), AllocError> {
        self.0.symmetric_difference_with(&other.0)
    }

    /// Takes out the members that are not in another sparse set, chunk beside chunk: faster than `&=`.
    pub fn intersect_with(&mut self, other: &SparseBitSet) {
        self.0.intersect_with(&other.0);
    }

    /// Takes out the members that are in another sparse set, chunk beside chunk: faster than `-=`.
    pub fn difference_with(&mut self, other: &SparseBitSet) {
        self.0.difference_with(&other.0);
    }

    /// Removes all members of another set, as `-=` does. It can't fail.
    pub fn subtract_assign<B: BitSetLike>(&mut self, other: &B) {
        self.0.subtract_assign(other);
    }

    /// Returns the members, ascending.
    pub fn to_vec(&self) -> Vec<Index> {
        match self.0.try_to_vec(Global) {
            Ok(list) => list.into_rust(),
            Err(error) => out_of_memory(error),
        }
    }
}

// Calls that are the same in the derived set.
macro_rules! forwarded {
    ($($(#[$attribute:meta])* $name:ident($($argument:ident: $type:ty)?) -> $result:ty;)*) => {
        impl SparseBitSet {
            $($(#[$attribute])*
            #[inline]
            pub fn $name(&self, $($argument: $type)?) -> $result {
                self.0.$name($($argument)?)
            })*
        }
    };
}

forwarded! {
    /// Returns the least member.
    first() -> Option<Index>;
    /// Returns the greatest member.
    last() -> Option<Index>;
    /// Returns the least index from `start` on that lies below [`MAX_EID`] and is no member. It passes a full word
    /// whole.
    first_gap(start: Index) -> Option<Index>;
    /// Returns the number of members before `end`. [`Ranked`](crate::Ranked) serves many such calls.
    ///
    /// ```
    /// use hibitset::SparseBitSet;
    ///
    /// let set = SparseBitSet::from([5, 70, 1_000_000_000]);
    /// assert_eq!((set.rank(70), set.select(2)), (1, Some(1_000_000_000)));
    /// ```
    rank(end: Index) -> usize;
    /// Returns the member at a position of the ascending list of all, the least one at 0, or `None` past its end.
    select(at: usize) -> Option<Index>;
    /// Returns the greatest member before `end`.
    last_before(end: Index) -> Option<Index>;
}

crate::face::ops::words!(SparseBitSet);
crate::face::ops::collected!(SparseBitSet);

impl DrainableBitSet for SparseBitSet {
    #[inline]
    fn remove(&mut self, i: Index) -> bool {
        self.0.remove(i)
    }
}

impl Default for SparseBitSet {
    fn default() -> SparseBitSet {
        SparseBitSet::new()
    }
}

impl Clone for SparseBitSet {
    fn clone(&self) -> SparseBitSet {
        self.try_clone()
            .unwrap_or_else(|error| out_of_memory(error))
    }
}

/// Prints the members, as `{5, 70000}`.
impl Debug for SparseBitSet {
    fn fmt(&self, f: &mut Formatter<'_>) -> fmt::Result {
        Debug::fmt(&self.0, f)
    }
}

/// Makes a sparse set with the same members. [`to_bit_set`](crate::BitSetLikeExt::to_bit_set) makes a [`BitSet`] again.
impl From<&BitSet> for SparseBitSet {
    fn from(set: &BitSet) -> SparseBitSet {
        SparseBitSet::from_set(set)
    }
}

impl<B: BitSetLike> BitAndAssign<&B> for SparseBitSet {
    fn bitand_assign(&mut self, other: &B) {
        self.0 &= other;
    }
}

impl<B: BitSetLike> SubAssign<&B> for SparseBitSet {
    fn sub_assign(&mut self, other: &B) {
        self.0 -= other;
    }
}

impl<B: BitSetLike> BitOrAssign<&B> for SparseBitSet {
    fn bitor_assign(&mut self, other: &B) {
        self.try_bitor_assign(other)
            .unwrap_or_else(|error| out_of_memory(error))
    }
}

impl<B: BitSetLike> BitXorAssign<&B> for SparseBitSet {
    fn bitxor_assign(&mut self, other: &B) {
        self.try_bitxor_assign(other)
            .unwrap_or_else(|error| out_of_memory(error))
    }
}

impl<'a> IntoIterator for &'a SparseBitSet {
    type Item = Index;
    type IntoIter = SparseIter<'a>;

    #[inline]
    fn into_iter(self) -> SparseIter<'a> {
        self.iter()
    }
}

/// An iterator over the members of a [`SparseBitSet`], ascending, as [`SparseBitSet::iter`] makes. It goes along the
/// words that the set keeps, and looks none up.
pub struct SparseIter<'a> {
    set: &'a proved::SparseBitSet,
    left: proved::SparseIter<'a>,
}

impl Iterator for SparseIter<'_> {
    type Item = Index;

    #[inline]
    fn next(&mut self) -> Option<Index> {
        self.left.next()
    }

    fn size_hint(&self) -> (usize, Option<usize>) {
        let now = self.left.word.count_ones() as usize;
        // No word that is kept is 0, and no part of the set is without words.
        let words = self.left.words.words.items.len();
        let chunks = self.left.words.chunks.items.len();
        let most = BitSet::BITS_PER_USIZE * words + BitSet::LAYER3_GRANULARITY * chunks;
        (now + words + chunks, Some(now + most))
    }
}

impl FusedIterator for SparseIter<'_> {}

// Makes the state of one walk that of another.
macro_rules! go_to {
    ($walk:expr, $other:expr; $($($field:ident).+;)+) => {
        $($walk.$($field).+ = $other.$($field).+;)+
    };
}

impl Clone for SparseIter<'_> {
    fn clone(&self) -> Self {
        let mut left = self.set.iter();
        go_to! { left, self.left;
            word;
            first;
            words.base;
            words.words.word;
            words.words.first;
            words.words.groups;
            words.words.root;
            words.words.items;
            words.chunks.word;
            words.chunks.first;
            words.chunks.groups;
            words.chunks.root;
            words.chunks.items;
        }
        SparseIter {
            set: self.set,
            left,
        }
    }
}

/// Prints the members that are left, as `[5, 70000]`.
impl Debug for SparseIter<'_> {
    fn fmt(&self, f: &mut Formatter<'_>) -> fmt::Result {
        f.debug_list().entries(self.clone()).finish()
    }
}
