//! The set that keeps its words.

use crate::derived::hibitset as proved;
use crate::face::guard::guarded;
use crate::face::limits::{range_to_add, range_within};
use crate::face::{bound_out_of_range, index_out_of_range, out_of_memory};
use crate::support::rattle_std::clone::TryClone;
use crate::{AllocError, BitSetLike, DrainBitIter, DrainableBitSet, Global, Index, MAX_EID};
use alloc::vec::Vec;
use core::cell::RefCell;
use core::fmt::{self, Debug, Formatter};
use core::ops::{BitAndAssign, BitOrAssign, BitXorAssign, RangeBounds, SubAssign};

/// How many words layer 0 has at most.
const MAX_WORDS: usize = MAX_EID / BitSet::BITS_PER_USIZE;

/// A set of indices below [`MAX_EID`].
///
/// It takes no memory until the first member. Then it has one bit for each index up to the greatest member that it has
/// had, and 1/63 more. If there is no memory, a call that needs some ends the process, and its twin whose name begins
/// with `try_` returns [`AllocError`].
///
/// # Examples
///
/// ```
/// use hibitset::BitSet;
///
/// let mut set = BitSet::new();
/// assert!(!set.add(7)); // 7 was not in the set
/// assert!(set.add(7));
/// set.add_range(100..104);
/// assert_eq!(set.to_vec(), [7, 100, 101, 102, 103]);
///
/// assert!(set.remove(7));
/// assert_eq!((set.len(), set.first(), set.last()), (4, Some(100), Some(103)));
/// ```
///
/// # Iteration
///
/// `for index in &set` goes over the members, ascending. [`BitSetLike::iter`] takes its set, so it is called on a
/// reference, and so are [`BitSetLike::iter_from`] and [`BitSetLike::iter_rev`]:
///
/// ```
/// use hibitset::{BitSet, BitSetLike};
///
/// let set = BitSet::from([1, 20, 300]);
/// assert_eq!((&set).iter().count(), 3);
/// assert_eq!((&set).iter_from(2).next(), Some(20));
/// assert_eq!((&set).iter_rev().next(), Some(300));
/// ```
#[derive(PartialEq, Eq)]
#[repr(transparent)]
pub struct BitSet(pub(crate) proved::BitSet);

impl BitSet {
    /// The number of bits in a word.
    pub const BITS_PER_USIZE: usize = proved::BitSet::BITS_PER_USIZE;

    /// The number of indices under one bit of layer 1.
    pub const LAYER1_GRANULARITY: usize = proved::BitSet::LAYER1_GRANULARITY;

    /// The number of indices under one bit of layer 2.
    pub const LAYER2_GRANULARITY: usize = proved::BitSet::LAYER2_GRANULARITY;

    /// The number of indices under one bit of layer 3.
    pub const LAYER3_GRANULARITY: usize = proved::BitSet::LAYER3_GRANULARITY;

    /// Returns the empty set, which has no memory.
    #[must_use]
    pub fn new() -> BitSet {
        BitSet(proved::BitSet::new(Global))
    }

    /// Returns an empty set with capacity for every index below `max`: adding one of them needs no memory until
    /// [`clear`](BitSet::clear).
    ///
    /// # Panics
    ///
    /// If `max` is above [`MAX_EID`].
    #[must_use]
    pub fn with_capacity(max: Index) -> BitSet {
        BitSet::try_with_capacity(max).unwrap_or_else(|error| out_of_memory(error))
    }

    /// Returns an empty set with capacity for every index below `max`, as [`with_capacity`](BitSet::with_capacity) does.
    ///
    /// # Errors
    ///
    /// [`AllocError`] if an allocation fails.
    ///
    /// # Panics
    ///
    /// If `max` is above [`MAX_EID`].
    pub fn try_with_capacity(max: Index) -> Result<BitSet, AllocError> {
        if max as usize > MAX_EID {
            bound_out_of_range(max.into());
        }
        proved::BitSet::with_capacity(Global, max).map(BitSet)
    }

    /// Returns the set whose words of layer 0 are these: index `64 * w + b` is a member if bit `b` of `words[w]` is set.
    ///
    /// ```
    /// use hibitset::BitSet;
    ///
    /// let set = BitSet::from_words(&[0b101, 0, 1]);
    /// assert_eq!(set.to_vec(), [0, 2, 128]);
    /// assert_eq!(BitSet::from_words(set.layer0_as_slice()), set);
    /// ```
    ///
    /// # Panics
    ///
    /// If there are more than 16,777,216 words.
    #[must_use]
    pub fn from_words(words: &[usize]) -> BitSet {
        BitSet::try_from_words(words).unwrap_or_else(|error| out_of_memory(error))
    }

    /// Returns the set whose words of layer 0 are these, as [`from_words`](BitSet::from_words) does.
    ///
    /// # Errors
    ///
    /// [`AllocError`] if an allocation fails.
    ///
    /// # Panics
    ///
    /// If there are more than 16,777,216 words.
    pub fn try_from_words(words: &[usize]) -> Result<BitSet, AllocError> {
        assert!(
            words.len() <= MAX_WORDS,
            "layer 0 has at most {} words",
            MAX_WORDS
        );
        proved::BitSet::from_words(Global, words).map(BitSet)
    }

    /// Adds an index. Returns whether it was in the set before.
    ///
    /// # Panics
    ///
    /// If `id` is not below [`MAX_EID`].
    #[inline]
    pub fn add(&mut self, id: Index) -> bool {
        match self.try_add(id) {
            Ok(was) => was,
            Err(error) => out_of_memory(error),
        }
    }

    /// Adds an index. Returns whether it was in the set before.
    ///
    /// # Errors
    ///
    /// [`AllocError`] if an allocation fails. Members and capacity are as they were.
    ///
    /// # Panics
    ///
    /// If `id` is not below [`MAX_EID`].
    #[inline]
    pub fn try_add(&mut self, id: Index) -> Result<bool, AllocError> {
        if id as usize >= MAX_EID {
            index_out_of_range(id, MAX_EID);
        }
        self.0.add(id)
    }

    /// Adds all indices in a range. An unbounded end is [`MAX_EID`].
    ///
    /// ```
    /// use hibitset::BitSet;
    ///
    /// let mut set = BitSet::new();
    /// set.add_range(60..=70);
    /// set.add_range(5..5);
    /// assert_eq!(set.len(), 11);
    /// ```
    ///
    /// # Panics
    ///
    /// If an index in the range is not below [`MAX_EID`].
    pub fn add_range(&mut self, range: impl RangeBounds<Index>) {
        self.try_add_range(range)
            .unwrap_or_else(|error| out_of_memory(error))
    }

    /// Adds all indices in a range, as [`add_range`](BitSet::add_range) does.
    ///
    /// # Errors
    ///
    /// [`AllocError`] if an allocation fails. The members are as they were.
    ///
    /// # Panics
    ///
    /// If an index in the range is not below [`MAX_EID`].
    pub fn try_add_range(&mut self, range: impl RangeBounds<Index>) -> Result<(), AllocError> {
        let (start, end) = range_to_add(&range);
        self.0.add_range(start, end)
    }

    /// Removes an index. Returns whether it was in the set.
    #[inline]
    pub fn remove(&mut self, id: Index) -> bool {
        self.0.remove(id)
    }

    /// Removes all indices in a range. It keeps the capacity.
    ///
    /// ```
    /// use hibitset::BitSet;
    ///
    /// let mut set: BitSet = (0..10).collect();
    /// set.remove_range(3..);
    /// assert_eq!(set.to_vec(), [0, 1, 2]);
    /// ```
    pub fn remove_range(&mut self, range: impl RangeBounds<Index>) {
        let (start, end) = range_within(&range);
        self.0.remove_range(start, end);
    }

    /// Flips all indices in a range: members become none, and others members. An unbounded end is [`MAX_EID`].
    ///
    /// ```
    /// use hibitset::BitSet;
    ///
    /// let mut set = BitSet::from([2, 9]);
    /// set.flip_range(0..4);
    /// assert_eq!(set.to_vec(), [0, 1, 3, 9]);
    /// ```
    ///
    /// # Panics
    ///
    /// If an index in the range is not below [`MAX_EID`].
    pub fn flip_range(&mut self, range: impl RangeBounds<Index>) {
        self.try_flip_range(range)
            .unwrap_or_else(|error| out_of_memory(error))
    }

    /// Flips all indices in a range, as [`flip_range`](BitSet::flip_range) does.
    ///
    /// # Errors
    ///
    /// [`AllocError`] if an allocation fails. The members are as they were.
    ///
    /// # Panics
    ///
    /// If an index in the range is not below [`MAX_EID`].
    pub fn try_flip_range(&mut self, range: impl RangeBounds<Index>) -> Result<(), AllocError> {
        let (start, end) = range_to_add(&range);
        self.0.flip_range(start, end)
    }

    /// Removes all members. It keeps the memory for members to come, but [`capacity`](BitSet::capacity) is 0.
    pub fn clear(&mut self) {
        self.0.clear();
    }

    /// Returns whether an index is in the set.
    #[inline]
    pub fn contains(&self, id: Index) -> bool {
        self.0.contains(id)
    }

    /// Returns whether all members of the other set are in this set.
    ///
    /// ```
    /// use hibitset::BitSet;
    ///
    /// let all: BitSet = (0..10).collect();
    /// let few = BitSet::from([2, 3]);
    /// assert!(all.contains_set(&few) && !few.contains_set(&all));
    /// ```
    pub fn contains_set(&self, other: &BitSet) -> bool {
        self.0.contains_set(&other.0)
    }

    /// Returns a number below which each index can be added without an allocation.
    ///
    /// ```
    /// use hibitset::BitSet;
    ///
    /// assert!(BitSet::with_capacity(1000).capacity() >= 1000);
    /// assert_eq!(BitSet::new().capacity(), 0);
    /// ```
    pub fn capacity(&self) -> usize {
        self.layer0_as_slice().len() * BitSet::BITS_PER_USIZE
    }

    /// Returns the number of members in a range.
    ///
    /// ```
    /// use hibitset::BitSet;
    ///
    /// let set = BitSet::from([1, 20, 300]);
    /// assert_eq!((set.len_range(2..), set.len_range(..=20)), (2, 2));
    /// ```
    pub fn len_range(&self, range: impl RangeBounds<Index>) -> usize {
        let (start, end) = range_within(&range);
        self.0.len_range(start, end)
    }

    /// Returns an iterator over the members, ascending, that removes each one that it gives. Members that it has not
    /// given when it is dropped stay.
    pub fn drain(&mut self) -> DrainBitIter<'_, BitSet> {
        DrainableBitSet::drain(self)
    }

    /// Removes the members for which `keep` returns false. It asks once for each, in ascending order.
    ///
    /// ```
    /// use hibitset::BitSet;
    ///
    /// let mut set: BitSet = (0..10).collect();
    /// set.retain(|index| index % 4 == 0);
    /// assert_eq!(set.to_vec(), [0, 4, 8]);
    /// ```
    pub fn retain(&mut self, mut keep: impl FnMut(Index) -> bool) {
        let keep = RefCell::new(&mut keep);
        DrainableBitSet::retain(self, |index| (**keep.borrow_mut())(index));
    }

    /// Removes the least member and returns it.
    pub fn pop_first(&mut self) -> Option<Index> {
        DrainableBitSet::pop_first(self)
    }

    /// Removes the greatest member and returns it.
    pub fn pop_last(&mut self) -> Option<Index> {
        DrainableBitSet::pop_last(self)
    }

    /// Adds the items of an iterator, up to the first one whose allocation fails.
    ///
    /// # Errors
    ///
    /// [`AllocError`] if an allocation fails. The set has its old members and the items before that one.
    ///
    /// # Panics
    ///
    /// At an item that is not below [`MAX_EID`]. The items before it are members then.
    pub fn try_extend<I: IntoIterator<Item = Index>>(&mut self, iter: I) -> Result<(), AllocError> {
        for index in iter {
            self.try_add(index)?;
        }
        Ok(())
    }

    /// Returns a copy.
    ///
    /// # Errors
    ///
    /// [`AllocError`] if an allocation fails.
    pub fn try_clone(&self) -> Result<BitSet, AllocError> {
        self.0.try_clone().map(BitSet)
    }

    /// Adds all members of another set, as `|=` does.
    ///
    /// # Errors
    ///
    /// [`AllocError`] if an allocation fails. The members are as they were.
    pub fn try_bitor_assign<B: BitSetLike>(&mut self, other: &B) -> Result<(), AllocError> {
        guarded(&mut self.0, |set| set.bitor_assign(other))
    }

    /// Removes the members that another set has too, and adds its others, as `^=` does.
    ///
    /// # Errors
    ///
    /// [`AllocError`] if an allocation fails. The members are as they were.
    pub fn try_bitxor_assign<B: BitSetLike>(&mut self, other: &B) -> Result<(), AllocError> {
        guarded(&mut self.0, |set| set.bitxor_assign(other))
    }

    /// Removes all members of another set, as `-=` does.
    pub fn subtract_assign<B: BitSetLike>(&mut self, other: &B) {
        guarded(&mut self.0, |set| set.subtract_assign(other));
    }

    /// Returns the members, ascending.
    pub fn to_vec(&self) -> Vec<Index> {
        crate::BitSetLikeExt::to_vec(&self.0)
    }
}

// Calls that are the same in the derived set.
macro_rules! forwarded {
    ($($(#[$attribute:meta])* $name:ident($($argument:ident: $type:ty)?) -> $result:ty;)*) => {
        impl BitSet {
            $($(#[$attribute])*
            #[inline]
            pub fn $name(&self, $($argument: $type)?) -> $result {
                self.0.$name($($argument)?)
            })*
        }
    };
}

forwarded! {
    /// Returns whether the set has no member.
    is_empty() -> bool;
    /// Returns the number of members. It counts whole words.
    len() -> usize;
    /// Returns the least member.
    first() -> Option<Index>;
    /// Returns the greatest member.
    last() -> Option<Index>;
    /// Returns the least index from `start` on that lies below [`MAX_EID`] and is no member. It passes a full word whole.
    ///
    /// ```
    /// use hibitset::BitSet;
    ///
    /// let mut used: BitSet = (0..1000).collect();
    /// let free = used.first_gap(0).unwrap();
    /// assert_eq!(free, 1000);
    /// used.add(free);
    /// ```
    first_gap(start: Index) -> Option<Index>;
    /// Returns the number of members before `end`. [`Ranked`](crate::Ranked) serves many such calls.
    rank(end: Index) -> usize;
    /// Returns the member at a position of the ascending list of all, the least one at 0, or `None` past its end.
    ///
    /// ```
    /// use hibitset::BitSet;
    ///
    /// let set = BitSet::from([5, 70, 900]);
    /// assert_eq!((set.rank(70), set.select(1)), (1, Some(70)));
    /// ```
    select(at: usize) -> Option<Index>;
    /// Returns the greatest member before `end`.
    ///
    /// ```
    /// use hibitset::BitSet;
    ///
    /// let set = BitSet::from([5, 70, 900]);
    /// assert_eq!((set.last_before(900), set.last_before(5)), (Some(70), None));
    /// ```
    last_before(end: Index) -> Option<Index>;
    /// Returns the words of layer 0. Index `64 * w + b` is a member if bit `b` of word `w` is set. Indices past the slice
    /// are no members.
    ///
    /// ```
    /// use hibitset::BitSet;
    ///
    /// let set = BitSet::from([0, 2, 64]);
    /// assert_eq!(set.layer0_as_slice()[..2], [0b101, 1]);
    /// ```
    layer0_as_slice() -> &[usize];
    /// Returns the words of layer 1. Bit `b` of word `w` is set if word `64 * w + b` of layer 0 is nonzero. Words past the
    /// slice are 0.
    layer1_as_slice() -> &[usize];
    /// Returns the words of layer 2. Bit `b` of word `w` is set if word `64 * w + b` of layer 1 is nonzero. Words past the
    /// slice are 0.
    layer2_as_slice() -> &[usize];
    /// Returns the words of layer 3. Bit `b` of word `w` is set if word `64 * w + b` of layer 2 is nonzero. Words past the
    /// slice are 0.
    layer3_as_slice() -> &[usize];
}

crate::face::ops::words!(BitSet);
crate::face::ops::collected!(BitSet);

impl DrainableBitSet for BitSet {
    #[inline]
    fn remove(&mut self, i: Index) -> bool {
        self.0.remove(i)
    }
}

impl Default for BitSet {
    fn default() -> BitSet {
        BitSet::new()
    }
}

impl Clone for BitSet {
    fn clone(&self) -> BitSet {
        self.try_clone()
            .unwrap_or_else(|error| out_of_memory(error))
    }
}

/// Prints the members, as `{5, 70000}`.
impl Debug for BitSet {
    fn fmt(&self, f: &mut Formatter<'_>) -> fmt::Result {
        Debug::fmt(&self.0, f)
    }
}

impl<B: BitSetLike> BitAndAssign<&B> for BitSet {
    fn bitand_assign(&mut self, other: &B) {
        guarded(&mut self.0, |set| *set &= other);
    }
}

impl<B: BitSetLike> SubAssign<&B> for BitSet {
    fn sub_assign(&mut self, other: &B) {
        guarded(&mut self.0, |set| *set -= other);
    }
}

impl<B: BitSetLike> BitOrAssign<&B> for BitSet {
    fn bitor_assign(&mut self, other: &B) {
        self.try_bitor_assign(other)
            .unwrap_or_else(|error| out_of_memory(error))
    }
}

impl<B: BitSetLike> BitXorAssign<&B> for BitSet {
    fn bitxor_assign(&mut self, other: &B) {
        self.try_bitxor_assign(other)
            .unwrap_or_else(|error| out_of_memory(error))
    }
}
