//! Beside the walks and virtual sets: traits of std, a set whose type is not known, and conditions that are checked.

use crate::derived::hibitset_base::drain::DrainBitIter;
use crate::derived::hibitset_base::iter::BitIter;
use crate::derived::hibitset_base::like::{BitSetLike, DrainableBitSet};
use crate::derived::hibitset_base::read_count::Reads;
use crate::derived::hibitset_base::rev_cursor::RevCursor;
use crate::derived::hibitset_base::rev_iter::BitRevIter;
use crate::derived::hibitset_base::util::{Index, BITS, LAYERS};
use crate::derived::hibitset_base::virt::{BitSetAll, BitSetAnd, BitSetNot, BitSetOr, BitSetXor};
use core::iter::FusedIterator;

macro_rules! copies {
    ($($set:ident<$($operand:ident $field:tt),*>;)*) => {$(
        impl<$($operand: BitSetLike + Clone),*> Clone for $set<$($operand),*> {
            #[inline]
            fn clone(&self) -> Self {
                $set($(self.$field.clone()),*)
            }
        }

        impl<$($operand: BitSetLike + Copy),*> Copy for $set<$($operand),*> {}
    )*};
}

copies! {
    BitSetAnd<A 0, B 1>;
    BitSetOr<A 0, B 1>;
    BitSetXor<A 0, B 1>;
    BitSetNot<A 0>;
}

impl Clone for BitSetAll {
    fn clone(&self) -> Self {
        *self
    }
}

impl Copy for BitSetAll {}

impl<T: Clone> Clone for BitIter<T> {
    #[inline]
    fn clone(&self) -> Self {
        BitIter {
            set: self.set.clone(),
            cursor: self.cursor.copied(),
            reads: Reads::none(),
        }
    }
}

impl<T: Clone> Clone for BitRevIter<T> {
    fn clone(&self) -> Self {
        BitRevIter {
            set: self.set.clone(),
            cursor: RevCursor {
                masks: self.cursor.masks,
                starts: self.cursor.starts,
            },
            reads: Reads::none(),
        }
    }
}

impl<T: BitSetLike> FusedIterator for BitIter<T> {}

impl<T: BitSetLike> FusedIterator for BitRevIter<T> {}

/// A set whose type is not known, behind a reference.
impl BitSetLike for &dyn BitSetLike {
    fn is_empty(&self) -> bool {
        (**self).is_empty()
    }

    fn has_cheap_words(&self) -> bool {
        (**self).has_cheap_words()
    }

    fn layer4(&self) -> usize {
        (**self).layer4()
    }

    fn layer3(&self, i: usize) -> usize {
        (**self).layer3(i)
    }

    fn layer2(&self, i: usize) -> usize {
        (**self).layer2(i)
    }

    fn layer1(&self, i: usize) -> usize {
        (**self).layer1(i)
    }

    fn layer0(&self, i: usize) -> usize {
        (**self).layer0(i)
    }

    fn contains(&self, i: Index) -> bool {
        (**self).contains(i)
    }
}

/// The masks of a walk: those of five layers, or those of four, as in the crate `hibitset` 0.6.3, whose top layer is this
/// crate's layer 3. Layer 4 has then no bit left.
pub trait Masks {
    /// The prefixes that go with the masks: one fewer.
    type Prefixes;

    /// Returns masks and prefixes of five layers.
    fn of_five(self, prefixes: Self::Prefixes) -> ([usize; LAYERS], [u32; LAYERS - 1]);
}

impl Masks for [usize; LAYERS] {
    type Prefixes = [u32; LAYERS - 1];

    #[inline]
    fn of_five(self, prefixes: [u32; LAYERS - 1]) -> ([usize; LAYERS], [u32; LAYERS - 1]) {
        (self, prefixes)
    }
}

impl Masks for [usize; 4] {
    type Prefixes = [u32; 3];

    #[inline]
    fn of_five(self, [a, b, c]: [u32; 3]) -> ([usize; LAYERS], [u32; LAYERS - 1]) {
        let [w, x, y, z] = self;
        ([w, x, y, z, 0], [a, b, c, 0])
    }
}

/// Whether what a mask has left in a layer lies in the range of the word of a layer above, and before its bits.
fn lies_before(layer: usize, first: u32, above: usize, mask: usize, prefix: u32) -> bool {
    let position = first >> (BITS * (above - layer));
    position & !63 == prefix && position - prefix < mask.trailing_zeros()
}

/// Panics if a walk can't go on from masks and prefixes: `IsWellFormed` of the proved source.
fn check_walk(masks: &[usize; LAYERS], prefixes: &[u32; LAYERS - 1]) {
    let prefix = |layer: usize| prefixes.get(layer).copied().unwrap_or(0);
    for layer in (0..LAYERS).filter(|&layer| masks[layer] != 0) {
        let first = prefix(layer);
        let end = 1 << (BITS * (LAYERS - layer));
        assert!(
            first % 64 == 0 && first < end,
            "the prefix {first} of layer {layer} is no multiple of 64 below {end}"
        );
        for above in (layer + 1..LAYERS).filter(|&above| masks[above] != 0) {
            assert!(
                lies_before(layer, first, above, masks[above], prefix(above)),
                "what is left of layer {layer}, from {first} on, does not lie before what is left of layer {above}"
            );
        }
    }
}

impl<T> BitIter<T> {
    /// Returns an iterator that goes on from a state: `masks` has the bits that are left of each layer, from the lowest
    /// up, and `prefix` the position of each mask's first bit in its layer. The top layer begins at 0 and has no prefix.
    ///
    /// Five masks and four prefixes are one for each layer. Four masks and three prefixes, as in the crate `hibitset`
    /// 0.6.3, leave nothing of layer 4: they are for indices below 2<sup>24</sup>.
    ///
    /// ```
    /// use hibitset::{BitIter, BitSet, BitSetLike};
    ///
    /// let set = BitSet::from([5, 70, 5000]);
    /// let members = BitIter::new(&set, [0, 0, 0, 0, set.layer4()], [0; 4]);
    /// assert!(members.eq([5, 70, 5000]));
    /// ```
    ///
    /// # Panics
    ///
    /// If the prefix of a mask that is not 0 is no multiple of 64 within its layer, or if what is left of a layer does not
    /// lie in the range of the words above of which something is left, and before that.
    #[inline]
    pub fn new<M: Masks>(set: T, masks: M, prefix: M::Prefixes) -> Self {
        let (masks, prefix) = masks.of_five(prefix);
        check_walk(&masks, &prefix);
        BitIter::of_parts(set, masks, prefix)
    }
}

impl<'a, T> DrainBitIter<'a, T> {
    /// Returns an iterator that goes on from a state, as [`BitIter::new`] does, and removes what it gives.
    ///
    /// # Panics
    ///
    /// As [`BitIter::new`].
    #[inline]
    pub fn new<M: Masks>(set: &'a mut T, masks: M, prefix: M::Prefixes) -> Self {
        let (masks, prefix) = masks.of_five(prefix);
        check_walk(&masks, &prefix);
        DrainBitIter::of_parts(set, masks, prefix)
    }
}

/// Limits of how many items the bits of masks have under them: a bit above layer 0 may have none.
#[inline]
pub(crate) fn size_hint(masks: &[usize; LAYERS]) -> (usize, Option<usize>) {
    let least = masks[0].count_ones() as usize;
    let most = masks.iter().rev().fold(0, |most: usize, mask| {
        64 * most + mask.count_ones() as usize
    });
    (least, Some(most))
}

impl<T: DrainableBitSet> FusedIterator for DrainBitIter<'_, T> {}

/// Members of the derived impls of Iterator, which Rattle's trait has not: an impl stands in one place.
macro_rules! iterator_members {
    (BitIter) => {
        crate::beside::iterator_members! { BitRevIter }

        #[inline]
        fn count(self) -> usize {
            crate::derived::hibitset_base::bulk::count::count_walk(&self)
        }
    };
    ($walk:ident) => {
        #[inline]
        fn size_hint(&self) -> (usize, Option<usize>) {
            crate::beside::size_hint(&self.cursor.masks)
        }
    };
}

pub(crate) use iterator_members;
