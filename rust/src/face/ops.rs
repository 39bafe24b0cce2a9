//! What the sets have alike: words, operators, and items of iterators.

use crate::{
    AtomicBitSet, BitIter, BitSet, BitSetAnd, BitSetLike, BitSetNot, BitSetOr, BitSetXor, Index,
    SparseBitSet,
};
use core::ops::{BitAnd, BitOr, BitXor, Not, Sub};

// The words are those of the set within.
macro_rules! words {
    ($set:ty) => {
        impl $crate::BitSetLike for $set {
            #[inline]
            fn is_empty(&self) -> bool {
                $crate::BitSetLike::is_empty(&self.0)
            }

            #[inline]
            fn has_cheap_words(&self) -> bool {
                $crate::BitSetLike::has_cheap_words(&self.0)
            }

            #[inline]
            fn layer4(&self) -> usize {
                $crate::BitSetLike::layer4(&self.0)
            }

            #[inline]
            fn layer3(&self, i: usize) -> usize {
                $crate::BitSetLike::layer3(&self.0, i)
            }

            #[inline]
            fn layer2(&self, i: usize) -> usize {
                $crate::BitSetLike::layer2(&self.0, i)
            }

            #[inline]
            fn layer1(&self, i: usize) -> usize {
                $crate::BitSetLike::layer1(&self.0, i)
            }

            #[inline]
            fn layer0(&self, i: usize) -> usize {
                $crate::BitSetLike::layer0(&self.0, i)
            }

            #[inline]
            fn contains(&self, i: $crate::Index) -> bool {
                $crate::BitSetLike::contains(&self.0, i)
            }
        }
    };
}

// Items are added one by one.
macro_rules! collected {
    ($set:ident) => {
        /// Adds the items. It panics at one that is out of range; the items before it are members then.
        impl Extend<$crate::Index> for $set {
            fn extend<I: IntoIterator<Item = $crate::Index>>(&mut self, iter: I) {
                for index in iter {
                    self.add(index);
                }
            }
        }

        /// Adds the items. It panics at one that is out of range; the items before it are members then.
        impl<'a> Extend<&'a $crate::Index> for $set {
            fn extend<I: IntoIterator<Item = &'a $crate::Index>>(&mut self, iter: I) {
                self.extend(iter.into_iter().copied());
            }
        }

        /// Makes the set of the items. It panics at one that is out of range.
        impl FromIterator<$crate::Index> for $set {
            fn from_iter<I: IntoIterator<Item = $crate::Index>>(iter: I) -> $set {
                let mut set = <$set>::new();
                set.extend(iter);
                set
            }
        }

        /// Makes the set of the items. It panics at one that is out of range.
        impl<'a> FromIterator<&'a $crate::Index> for $set {
            fn from_iter<I: IntoIterator<Item = &'a $crate::Index>>(iter: I) -> $set {
                iter.into_iter().copied().collect()
            }
        }

        /// Makes the set of the items. It panics at one that is out of range.
        impl<const N: usize> From<[$crate::Index; N]> for $set {
            fn from(list: [$crate::Index; N]) -> $set {
                list.into_iter().collect()
            }
        }
    };
}

pub(crate) use {collected, words};

macro_rules! iterated {
    ($($set:ty;)*) => {$(
        impl IntoIterator for $set {
            type Item = Index;
            type IntoIter = BitIter<Self>;

            #[inline]
            fn into_iter(self) -> BitIter<Self> {
                BitSetLike::iter(self)
            }
        }
    )*};
}

// A reference to a sparse set has an iterator of its own.
iterated! {
    BitSet;
    &BitSet;
    AtomicBitSet;
    &AtomicBitSet;
    SparseBitSet;
}

macro_rules! operators {
    ($($set:ty;)*) => {$(
        impl Not for $set {
            type Output = BitSetNot<Self>;

            #[inline]
            fn not(self) -> BitSetNot<Self> {
                BitSetNot(self)
            }
        }

        impl<T: BitSetLike> BitAnd<T> for $set {
            type Output = BitSetAnd<Self, T>;

            #[inline]
            fn bitand(self, other: T) -> BitSetAnd<Self, T> {
                BitSetAnd(self, other)
            }
        }

        impl<T: BitSetLike> BitOr<T> for $set {
            type Output = BitSetOr<Self, T>;

            #[inline]
            fn bitor(self, other: T) -> BitSetOr<Self, T> {
                BitSetOr(self, other)
            }
        }

        impl<T: BitSetLike> BitXor<T> for $set {
            type Output = BitSetXor<Self, T>;

            #[inline]
            fn bitxor(self, other: T) -> BitSetXor<Self, T> {
                BitSetXor(self, other)
            }
        }

        impl<T: BitSetLike> Sub<T> for $set {
            type Output = BitSetAnd<Self, BitSetNot<T>>;

            #[inline]
            fn sub(self, other: T) -> BitSetAnd<Self, BitSetNot<T>> {
                BitSetAnd(self, BitSetNot(other))
            }
        }
    )*};
}

operators! {
    BitSet;
    &BitSet;
    AtomicBitSet;
    &AtomicBitSet;
    SparseBitSet;
    &SparseBitSet;
}
