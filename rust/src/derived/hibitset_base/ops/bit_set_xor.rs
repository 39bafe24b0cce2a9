// Derived from crates/hibitset_base/src/ops/bit_set_xor.rt by rust/derive.py, and never edited by hand.

//! Operators over a symmetric difference.

use crate::support::rattle_std::prelude::*;

use crate::derived::hibitset_base::iter::BitIter;
use crate::derived::hibitset_base::like::BitSetLike;
use crate::derived::hibitset_base::util::Index;
use crate::derived::hibitset_base::virt::{BitSetAnd, BitSetNot, BitSetOr, BitSetXor};
use crate::support::rattle_std::ops::{BitAnd, BitOr, BitXor, Not, Sub};

impl<A: BitSetLike, B: BitSetLike> Not for BitSetXor<A, B> {
    type Output = BitSetNot<Self>;

    #[inline]
    fn not(self) -> BitSetNot<Self> {
        BitSetNot(self)
    }
}

impl<A: BitSetLike, B: BitSetLike, T: BitSetLike> BitAnd<T> for BitSetXor<A, B> {
    type Output = BitSetAnd<Self, T>;

    #[inline]
    fn bitand(self, rhs: T) -> BitSetAnd<Self, T> {
        BitSetAnd(self, rhs)
    }
}

impl<A: BitSetLike, B: BitSetLike, T: BitSetLike> BitOr<T> for BitSetXor<A, B> {
    type Output = BitSetOr<Self, T>;

    #[inline]
    fn bitor(self, rhs: T) -> BitSetOr<Self, T> {
        BitSetOr(self, rhs)
    }
}

impl<A: BitSetLike, B: BitSetLike, T: BitSetLike> BitXor<T> for BitSetXor<A, B> {
    type Output = BitSetXor<Self, T>;

    #[inline]
    fn bitxor(self, rhs: T) -> BitSetXor<Self, T> {
        BitSetXor(self, rhs)
    }
}

impl<A: BitSetLike, B: BitSetLike, T: BitSetLike> Sub<T> for BitSetXor<A, B> {
    type Output = BitSetAnd<Self, BitSetNot<T>>;

    #[inline]
    fn sub(self, rhs: T) -> BitSetAnd<Self, BitSetNot<T>> {
        BitSetAnd(self, BitSetNot(rhs))
    }
}

impl<A: BitSetLike, B: BitSetLike> IntoIterator for BitSetXor<A, B> {
    type Item = Index;

    type IntoIter = BitIter<Self>;

    #[inline]
    fn into_iter(self) -> BitIter<Self> {
        self.iter()
    }
}

impl<'a, A: BitSetLike, B: BitSetLike> Not for &'a BitSetXor<A, B> {
    type Output = BitSetNot<Self>;

    #[inline]
    fn not(self) -> BitSetNot<Self> {
        BitSetNot(self)
    }
}

impl<'a, A: BitSetLike, B: BitSetLike, T: BitSetLike> BitAnd<T> for &'a BitSetXor<A, B> {
    type Output = BitSetAnd<Self, T>;

    #[inline]
    fn bitand(self, rhs: T) -> BitSetAnd<Self, T> {
        BitSetAnd(self, rhs)
    }
}

impl<'a, A: BitSetLike, B: BitSetLike, T: BitSetLike> BitOr<T> for &'a BitSetXor<A, B> {
    type Output = BitSetOr<Self, T>;

    #[inline]
    fn bitor(self, rhs: T) -> BitSetOr<Self, T> {
        BitSetOr(self, rhs)
    }
}

impl<'a, A: BitSetLike, B: BitSetLike, T: BitSetLike> BitXor<T> for &'a BitSetXor<A, B> {
    type Output = BitSetXor<Self, T>;

    #[inline]
    fn bitxor(self, rhs: T) -> BitSetXor<Self, T> {
        BitSetXor(self, rhs)
    }
}

impl<'a, A: BitSetLike, B: BitSetLike, T: BitSetLike> Sub<T> for &'a BitSetXor<A, B> {
    type Output = BitSetAnd<Self, BitSetNot<T>>;

    #[inline]
    fn sub(self, rhs: T) -> BitSetAnd<Self, BitSetNot<T>> {
        BitSetAnd(self, BitSetNot(rhs))
    }
}

impl<'a, A: BitSetLike, B: BitSetLike> IntoIterator for &'a BitSetXor<A, B> {
    type Item = Index;

    type IntoIter = BitIter<Self>;

    #[inline]
    fn into_iter(self) -> BitIter<Self> {
        self.iter()
    }
}
