// Derived from crates/hibitset_base/src/like.rt by rust/derive.py, and never edited by hand.

//! What every hierarchical bit set offers.
//!
//! The impls for `&T` and for `&mut T` are written out: the toolchain refuses impls that a macro of the repository
//! writes.

use crate::support::rattle_std::prelude::*;

use crate::derived::hibitset_base::bulk::count::count_members;
use crate::derived::hibitset_base::bulk::list::list_members;
use crate::derived::hibitset_base::cursor::Cursor;
use crate::derived::hibitset_base::drain::{DrainBitIter, retain_members};
use crate::derived::hibitset_base::ends::{find_first, find_last, find_last_below};
use crate::derived::hibitset_base::iter::BitIter;
use crate::derived::hibitset_base::parallel::BitParIter;
use crate::derived::hibitset_base::ranks::{count_range, find_nth};
use crate::derived::hibitset_base::read_count::Reads;
use crate::derived::hibitset_base::rev_iter::BitRevIter;
use crate::derived::hibitset_base::util::{Index, LAYERS, MAX_EID};
use crate::derived::hibitset_base::virt::{BitSetAnd, BitSetNot};
use crate::support::rattle_std::alloc::{AllocError, Global};

/// A set of indices that is kept, or made on demand, as words in five layers: `BitSetLike` of the original.
///
/// Bit `b` of word `w` of layer 0 stands for the index `64 * w + b`. A bit of layer 1, 2, 3 or 4 stands for one word of
/// the layer below, and layer 4 is one word. Over each nonzero word the bit in the layer above is set; it may also be
/// set over a zero word. Each implementation proves this, and all that is generic rests on it alone.
pub trait BitSetLike {
    /// The word of a layer, at most 4, at a position. `idx` is ignored in layer 4.
    ///
    /// # Contract
    ///
    /// ```text
    /// requires { layer < LAYERS }
    /// ensures below_top { layer + 1 < LAYERS → result ≡ word self.now layer idx }
    /// ensures top { layer + 1 ≡ LAYERS → result ≡ word self.now layer 0 }
    /// ```
    #[inline]
    fn get_from_layer(&self, layer: usize, idx: usize) -> usize {
        crate::beside::check_layer(layer);
        match layer {
            0 => self.layer0(idx),
            1 => self.layer1(idx),
            2 => self.layer2(idx),
            3 => self.layer3(idx),
            _ => self.layer4(),
        }
    }

    /// Returns whether there is no member below `MAX_EID`. It reads the words down to the first member, none twice.
    ///
    /// # Contract
    ///
    /// ```text
    /// ensures { IsTrue result ↔ (members_below MAX_EID (holds self.now) ≡ []) }
    /// ```
    #[inline]
    fn is_empty(&self) -> bool {
        let mut cursor = Cursor::<LAYERS>::at_top(self.layer4());
        'places: while let Some((layer, position)) = cursor.take_lowest() {
            if layer == 0 {
                return false;
            }
            let word = self.get_from_layer(layer - 1, position as usize);
            cursor.push_bits(layer - 1, position, word);
        }
        true
    }

    /// How many members there are below `MAX_EID`. It reads each word under a set bit once, and counts those of layer
    /// 0.
    ///
    /// # Contract
    ///
    /// ```text
    /// ensures { result ≡ length (members_below MAX_EID (holds self.now)) }
    /// ```
    #[inline]
    fn len(&self) -> usize
    where
        Self: Sized,
    {
        count_members(self)
    }

    /// The least member, or `None` if there is none below `MAX_EID`. Over a set with exact summaries it reads at most
    /// `LAYERS` words.
    ///
    /// # Contract
    ///
    /// ```text
    /// ensures { MatchOption result (HasNone MAX_EID (holds self.now))
    ///     (IsFirst MAX_EID (holds self.now)) }
    /// ```
    #[inline]
    fn first(&self) -> Option<Index>
    where
        Self: Sized,
    {
        find_first(self, &mut Reads::none())
    }

    /// The greatest member, or `None` if there is none below `MAX_EID`.
    ///
    /// It reads the last word of each layer from the top down: `LAYERS` words over a set with exact summaries. From a
    /// summary bit over a zero word it goes back to the bit before.
    ///
    /// # Contract
    ///
    /// ```text
    /// ensures { MatchOption result (HasNone MAX_EID (holds self.now))
    ///     (IsLast MAX_EID (holds self.now)) }
    /// ```
    #[inline]
    fn last(&self) -> Option<Index>
    where
        Self: Sized,
    {
        find_last(self, &mut Reads::none())
    }

    /// The greatest member before `end`, or `None` if there is none. From `MAX_EID` on it is `last`.
    ///
    /// It goes up from the word of layer 0 over `end` until a word has a bit before `end`, and then down as `last`
    /// does: over a set with exact summaries it reads at most `2 * LAYERS - 1` words.
    ///
    /// # Contract
    ///
    /// ```text
    /// ensures { MatchOption result (HasNone (min end MAX_EID) (holds self.now))
    ///     (IsLast (min end MAX_EID) (holds self.now)) }
    /// ```
    #[inline]
    fn last_before(&self, end: Index) -> Option<Index>
    where
        Self: Sized,
    {
        find_last_below(self, &mut Reads::none(), end)
    }

    /// How many members lie before `end` and below `MAX_EID`: the position of `end` in the list of all, if it is a
    /// member.
    ///
    /// ```text
    /// // set: {5, 9, 70000}
    /// set.rank(9)        // 1
    /// set.rank(1_000)    // 2
    /// ```
    ///
    /// It reads no word twice, and none that begins at `end` or after it.
    ///
    /// # Contract
    ///
    /// ```text
    /// ensures { result ≡ length (members_below (min end MAX_EID) (holds self.now)) }
    /// ```
    #[inline]
    fn rank(&self, end: Index) -> usize
    where
        Self: Sized,
    {
        count_range(self, 0, end.min(MAX_EID as Index))
    }

    /// The member at a position of the ascending list of all, the least one at 0, or `None` past its end.
    ///
    /// ```text
    /// // set: {5, 9, 70000}
    /// set.select(2)      // Some(70000)
    /// set.select(3)      // None
    /// ```
    ///
    /// It reads the words above and over the members up to that one, and those under the last word of layer 1 twice.
    ///
    /// # Contract
    ///
    /// ```text
    /// ensures { result ≡ slice_get (members_below MAX_EID (holds self.now)) at }
    /// ```
    #[inline]
    fn select(&self, at: usize) -> Option<Index>
    where
        Self: Sized,
    {
        find_nth(self, at)
    }

    /// How many members lie from `start` on before `end` and below `MAX_EID`. It reads no word without an index of the
    /// range.
    ///
    /// # Contract
    ///
    /// ```text
    /// ensures { result ≡ length (members (holds self.now) start (min end MAX_EID - start)) }
    /// ```
    #[inline]
    fn len_range(&self, start: Index, end: Index) -> usize
    where
        Self: Sized,
    {
        count_range(self, start, end.min(MAX_EID as Index))
    }

    /// The least index from `start` on below `MAX_EID` that is no member, or `None` if all are. It reads the words of
    /// layer 0 from that of `start` on, up to the first that is not full.
    ///
    /// # Contract
    ///
    /// ```text
    /// ensures { MatchOption result (HasNone MAX_EID (is_gap_from start (holds self.now)))
    ///     (IsFirst MAX_EID (is_gap_from start (holds self.now))) }
    /// ```
    #[inline]
    fn first_gap(&self, start: Index) -> Option<Index>
    where
        Self: Sized,
    {
        BitSetNot(self).iter_from(start).next()
    }

    /// Returns whether the two have no member in common. It reads the words of the intersection down to the first
    /// common member, none twice.
    ///
    /// # Contract
    ///
    /// ```text
    /// ensures { IsTrue result ↔ AreDisjoint MAX_EID (holds self.now) (B.holds other.now) }
    /// ```
    #[inline]
    fn is_disjoint<B: BitSetLike>(&self, other: &B) -> bool
    where
        Self: Sized,
    {
        BitSetAnd(self, other).first().is_none()
    }

    /// Returns whether each member is one of the other too. It reads the words of this set, and those of the other at
    /// the same positions of layer 0, down to the first member that the other lacks, none twice.
    ///
    /// # Contract
    ///
    /// ```text
    /// ensures { IsTrue result ↔ IsSubset MAX_EID (holds self.now) (B.holds other.now) }
    /// ```
    #[inline]
    fn is_subset<B: BitSetLike>(&self, other: &B) -> bool
    where
        Self: Sized,
    {
        BitSetAnd(self, BitSetNot(other)).first().is_none()
    }

    /// The members below `MAX_EID`, in ascending order.
    ///
    /// # Errors
    ///
    /// An allocation fails.
    ///
    /// # Cost
    ///
    /// - It allocates once, for exactly the members, after it has counted them.
    /// - If the first words have few members each, it does not count, and the list grows. If they have hardly more than
    ///   one each, it goes member by member.
    ///
    /// # Contract
    ///
    /// ```text
    /// ensures { IfOk result (λ v. v.items ≡ members_below MAX_EID (holds self.now)) }
    /// ```
    #[inline]
    fn try_to_vec(&self, alloc: Global) -> Result<Vec<Index>, AllocError>
    where
        Self: Sized,
    {
        list_members(self, alloc)
    }

    /// The one word of layer 4.
    ///
    /// # Contract
    ///
    /// ```text
    /// ensures { result ≡ word self.now 4 0 }
    /// ```
    fn layer4(&self) -> usize;

    /// The word of layer 3 at a position. Those from 64 on stand for no index.
    ///
    /// # Contract
    ///
    /// ```text
    /// ensures { result ≡ word self.now 3 i }
    /// ```
    fn layer3(&self, i: usize) -> usize;

    /// The word of layer 2 at a position. Those from 4,096 on stand for no index.
    ///
    /// # Contract
    ///
    /// ```text
    /// ensures { result ≡ word self.now 2 i }
    /// ```
    fn layer2(&self, i: usize) -> usize;

    /// The word of layer 1 at a position. Those from 262,144 on stand for no index.
    ///
    /// # Contract
    ///
    /// ```text
    /// ensures { result ≡ word self.now 1 i }
    /// ```
    fn layer1(&self, i: usize) -> usize;

    /// The word of layer 0 at a position. Those from 16,777,216 on stand for no index.
    ///
    /// # Contract
    ///
    /// ```text
    /// ensures { result ≡ word self.now 0 i }
    /// ```
    fn layer0(&self, i: usize) -> usize;

    /// Returns whether an index is in the set.
    ///
    /// # Contract
    ///
    /// ```text
    /// ensures { result ≡ holds self.now i }
    /// ```
    fn contains(&self, i: Index) -> bool;

    /// Returns whether a word takes a few loads alone, as a `BitSet`'s does. `count` and `collect` of a walk in parts
    /// then take threads only for many words. By default it is false, as for words that are computed or fetched. No
    /// clause speaks of it.
    #[inline]
    fn has_cheap_words(&self) -> bool {
        false
    }

    /// A walk over the members below `MAX_EID` that several threads make in parts.
    ///
    /// # Contract
    ///
    /// ```text
    /// ensures set { par_set result ≡ self }
    /// ensures members { par_members holds result ≡ members_below MAX_EID (holds self) }
    /// ensures layers { par_layers result ≡ LAYERS - 1 }
    /// ```
    #[inline]
    fn par_iter(self) -> BitParIter<Self>
    where
        Self: Sized,
    {
        BitParIter::new(self)
    }

    /// A walk over the members below `MAX_EID`, in ascending order: `iter` of the original.
    ///
    /// It reads one word of the set now, and the others as it goes. Over a set with exact summaries these are at most
    /// four for each member, and all in the ranges of members; so they are if the words lie within those of such a set,
    /// as an intersection's do.
    ///
    /// # Contract
    ///
    /// ```text
    /// ensures { StartsAtTop holds word self result }
    /// ```
    #[inline]
    fn iter(self) -> BitIter<Self>
    where
        Self: Sized,
    {
        BitIter::from_top(self)
    }

    /// A walk over the members from `start` on below `MAX_EID`, in ascending order.
    ///
    /// ```text
    /// // set: {5, 9, 70000}
    /// for index in (&set).iter_from(6) {
    ///     // 9, 70000
    /// }
    /// ```
    ///
    /// It reads the words over `start` now, at most `LAYERS`, and the others as it goes: of those that a walk by `iter`
    /// reads, the ones that begin after `start`. From `MAX_EID` on there is nothing to read or to give.
    ///
    /// # Contract
    ///
    /// ```text
    /// ensures { StartsAt holds word self start result }
    /// ```
    #[inline]
    fn iter_from(self, start: Index) -> BitIter<Self>
    where
        Self: Sized,
    {
        BitIter::from_index(self, start)
    }

    /// A walk over the members below `MAX_EID`, in descending order: the list of `iter` reversed.
    ///
    /// It reads one word of the set now, and the others as it goes: as many as `iter` in all, and over a set with exact
    /// summaries at most four for each member.
    ///
    /// # Contract
    ///
    /// ```text
    /// ensures { StartsAtEnd holds word self result }
    /// ```
    #[inline]
    fn iter_rev(self) -> BitRevIter<Self>
    where
        Self: Sized,
    {
        BitRevIter::from_end(self)
    }

    /// A walk over the members before `end` and below `MAX_EID`, in descending order.
    ///
    /// It reads the words over `end` now, at most `LAYERS`, and the others as it goes: over a set with exact summaries
    /// at most four for each member.
    ///
    /// # Contract
    ///
    /// ```text
    /// ensures { StartsBefore holds word self end result }
    /// ```
    #[inline]
    fn iter_rev_before(self, end: Index) -> BitRevIter<Self>
    where
        Self: Sized,
    {
        BitRevIter::from_before(self, end)
    }
}

/// A set that members can be taken out of.
pub trait DrainableBitSet: BitSetLike {
    /// Takes an index out, and returns whether it was there. The set keeps its capacity.
    ///
    /// # Contract
    ///
    /// ```text
    /// ensures was_member { result ≡ Self.holds self.old i }
    /// ensures keeps_room { keeps_room self.old self.new }
    /// ensures removed { (j : ℕ) → Self.holds self.new j
    ///     ≡ (Self.holds self.old j && not (j == i)) }
    /// ```
    fn remove(&mut self, i: Index) -> bool;

    /// A walk over the members below `MAX_EID`, in ascending order, that takes out of the set each one that it gives,
    /// and no other: `drain` of the original. The set keeps its capacity.
    ///
    /// ```text
    /// // set: {5, 9, 70000}
    /// let mut drain = set.drain();
    /// drain.next();      // Some(5)
    /// // dropped now, the drain leaves {9, 70000}
    /// ```
    ///
    /// # Contract
    ///
    /// ```text
    /// ensures lender { lender result ≡ self.entry.ghost_name }
    /// ensures set { drained_set result ≡ self.old }
    /// ensures items { items_to_drain Self.holds result
    ///     ≡ members_below MAX_EID (Self.holds self.old) }
    /// ensures runs { YieldsInOrder (DrainSteps Self.holds Self.keeps_room)
    ///     (items_to_drain Self.holds) }
    /// ensures fits { length (items_to_drain Self.holds result) ≤ MAX_EID }
    /// ```
    #[inline]
    fn drain(&mut self) -> DrainBitIter<'_, Self>
    where
        Self: Sized,
    {
        DrainBitIter::from_top(self)
    }

    /// Takes out each member below `MAX_EID` for which `keep` returns false. It calls `keep` once for each member. The
    /// set keeps its capacity.
    ///
    /// ```text
    /// set.retain(|index| index % 2 == 0);
    /// // even members alone
    /// ```
    ///
    /// # Contract
    ///
    /// ```text
    /// requires { F.IsAlwaysCallable keep }
    /// ensures kept { (i : ℕ) → i < MAX_EID → Self.holds self.old i ≡ true
    ///     → F.post keep i (Self.holds self.new i) }
    /// ensures others { (i : ℕ) → is_member (Self.holds self.old) i ≡ false
    ///     → Self.holds self.new i ≡ Self.holds self.old i }
    /// ensures keeps_room { keeps_room self.old self.new }
    /// ```
    #[inline]
    fn retain<F: Fn(Index) -> bool>(&mut self, keep: F)
    where
        Self: Sized,
    {
        retain_members(self, &keep)
    }

    /// Takes the least member out and returns it, or `None` if there is none. The set keeps its capacity.
    ///
    /// # Contract
    ///
    /// ```text
    /// ensures first { MatchOption result (HasNone MAX_EID (Self.holds self.old))
    ///     (IsFirst MAX_EID (Self.holds self.old)) }
    /// ensures without { IsWithout Self.holds self.old result self.new }
    /// ensures keeps_room { keeps_room self.old self.new }
    /// ```
    #[inline]
    fn pop_first(&mut self) -> Option<Index>
    where
        Self: Sized,
    {
        let first = self.first()?;
        self.remove(first);
        Some(first)
    }

    /// Takes the greatest member out and returns it, or `None` if there is none. The set keeps its capacity.
    ///
    /// # Contract
    ///
    /// ```text
    /// ensures last { MatchOption result (HasNone MAX_EID (Self.holds self.old))
    ///     (IsLast MAX_EID (Self.holds self.old)) }
    /// ensures without { IsWithout Self.holds self.old result self.new }
    /// ensures keeps_room { keeps_room self.old self.new }
    /// ```
    #[inline]
    fn pop_last(&mut self) -> Option<Index>
    where
        Self: Sized,
    {
        let last = self.last()?;
        self.remove(last);
        Some(last)
    }
}

impl<T: BitSetLike> BitSetLike for &T {
    #[inline]
    fn is_empty(&self) -> bool {
        (**self).is_empty()
    }

    #[inline]
    fn has_cheap_words(&self) -> bool {
        (**self).has_cheap_words()
    }

    #[inline]
    fn layer4(&self) -> usize {
        (**self).layer4()
    }

    #[inline]
    fn layer3(&self, i: usize) -> usize {
        (**self).layer3(i)
    }

    #[inline]
    fn layer2(&self, i: usize) -> usize {
        (**self).layer2(i)
    }

    #[inline]
    fn layer1(&self, i: usize) -> usize {
        (**self).layer1(i)
    }

    #[inline]
    fn layer0(&self, i: usize) -> usize {
        (**self).layer0(i)
    }

    #[inline]
    fn contains(&self, i: Index) -> bool {
        (**self).contains(i)
    }
}

impl<T: BitSetLike> BitSetLike for &mut T {
    #[inline]
    fn is_empty(&self) -> bool {
        (**self).is_empty()
    }

    #[inline]
    fn has_cheap_words(&self) -> bool {
        (**self).has_cheap_words()
    }

    #[inline]
    fn layer4(&self) -> usize {
        (**self).layer4()
    }

    #[inline]
    fn layer3(&self, i: usize) -> usize {
        (**self).layer3(i)
    }

    #[inline]
    fn layer2(&self, i: usize) -> usize {
        (**self).layer2(i)
    }

    #[inline]
    fn layer1(&self, i: usize) -> usize {
        (**self).layer1(i)
    }

    #[inline]
    fn layer0(&self, i: usize) -> usize {
        (**self).layer0(i)
    }

    #[inline]
    fn contains(&self, i: Index) -> bool {
        (**self).contains(i)
    }
}

impl<T: DrainableBitSet> DrainableBitSet for &mut T {
    #[inline]
    fn remove(&mut self, i: Index) -> bool {
        (**self).remove(i)
    }
}
