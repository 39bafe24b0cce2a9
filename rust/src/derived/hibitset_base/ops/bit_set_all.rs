// Derived from crates/hibitset_base/src/ops/bit_set_all.rt by rust/derive.py, and never edited by hand.

//! Operators over a set of all numbers.

use crate::support::rattle_std::prelude::*;

use crate::derived::hibitset_base::iter::BitIter;
use crate::derived::hibitset_base::like::BitSetLike;
use crate::derived::hibitset_base::util::Index;
use crate::derived::hibitset_base::virt::{BitSetAll, BitSetAnd, BitSetNot, BitSetOr, BitSetXor};
use crate::support::rattle_std::ops::{BitAnd, BitOr, BitXor, Not, Sub};

impl Not for BitSetAll {
    type Output = BitSetNot<Self>;

    #[inline]
    fn not(self) -> BitSetNot<Self> {
        BitSetNot(self)
    }
}

impl<T: BitSetLike> BitAnd<T> for BitSetAll {
    type Output = BitSetAnd<Self, T>;

    #[inline]
    fn bitand(self, rhs: T) -> BitSetAnd<Self, T> {
        BitSetAnd(self, rhs)
    }
}

impl<T: BitSetLike> BitOr<T> for BitSetAll {
    type Output = BitSetOr<Self, T>;

    #[inline]
    fn bitor(self, rhs: T) -> BitSetOr<Self, T> {
        BitSetOr(self, rhs)
    }
}

impl<T: BitSetLike> BitXor<T> for BitSetAll {
    type Output = BitSetXor<Self, T>;

    #[inline]
    fn bitxor(self, rhs: T) -> BitSetXor<Self, T> {
        BitSetXor(self, rhs)
    }
}

impl<T: BitSetLike> Sub<T> for BitSetAll {
    type Output = BitSetAnd<Self, BitSetNot<T>>;

    #[inline]
    fn sub(self, rhs: T) -> BitSetAnd<Self, BitSetNot<T>> {
        BitSetAnd(self, BitSetNot(rhs))
    }
}

impl IntoIterator for BitSetAll {
    type Item = Index;

    type IntoIter = BitIter<Self>;

    #[inline]
    fn into_iter(self) -> BitIter<Self> {
        self.iter()
    }
}

impl<'a> Not for &'a BitSetAll {
    type Output = BitSetNot<Self>;

    #[inline]
    fn not(self) -> BitSetNot<Self> {
        BitSetNot(self)
    }
}

impl<'a, T: BitSetLike> BitAnd<T> for &'a BitSetAll {
    type Output = BitSetAnd<Self, T>;

    #[inline]
    fn bitand(self, rhs: T) -> BitSetAnd<Self, T> {
        BitSetAnd(self, rhs)
    }
}

impl<'a, T: BitSetLike> BitOr<T> for &'a BitSetAll {
    type Output = BitSetOr<Self, T>;

    #[inline]
    fn bitor(self, rhs: T) -> BitSetOr<Self, T> {
        BitSetOr(self, rhs)
    }
}

impl<'a, T: BitSetLike> BitXor<T> for &'a BitSetAll {
    type Output = BitSetXor<Self, T>;

    #[inline]
    fn bitxor(self, rhs: T) -> BitSetXor<Self, T> {
        BitSetXor(self, rhs)
    }
}

impl<'a, T: BitSetLike> Sub<T> for &'a BitSetAll {
    type Output = BitSetAnd<Self, BitSetNot<T>>;

    #[inline]
    fn sub(self, rhs: T) -> BitSetAnd<Self, BitSetNot<T>> {
        BitSetAnd(self, BitSetNot(rhs))
    }
}

impl<'a> IntoIterator for &'a BitSetAll {
    type Item = Index;

    type IntoIter = BitIter<Self>;

    #[inline]
    fn into_iter(self) -> BitIter<Self> {
        self.iter()
    }
}
