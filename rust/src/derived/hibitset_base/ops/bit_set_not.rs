// Derived from crates/hibitset_base/src/ops/bit_set_not.rt by rust/derive.py, and never edited by hand.

//! Operators over a complement.

use crate::support::rattle_std::prelude::*;

use crate::derived::hibitset_base::iter::BitIter;
use crate::derived::hibitset_base::like::BitSetLike;
use crate::derived::hibitset_base::util::Index;
use crate::derived::hibitset_base::virt::{BitSetAnd, BitSetNot, BitSetOr, BitSetXor};
use crate::support::rattle_std::ops::{BitAnd, BitOr, BitXor, Not, Sub};

impl<A: BitSetLike> Not for BitSetNot<A> {
    type Output = BitSetNot<Self>;

    #[inline]
    fn not(self) -> BitSetNot<Self> {
        BitSetNot(self)
    }
}

impl<A: BitSetLike, T: BitSetLike> BitAnd<T> for BitSetNot<A> {
    type Output = BitSetAnd<Self, T>;

    #[inline]
    fn bitand(self, rhs: T) -> BitSetAnd<Self, T> {
        BitSetAnd(self, rhs)
    }
}

impl<A: BitSetLike, T: BitSetLike> BitOr<T> for BitSetNot<A> {
    type Output = BitSetOr<Self, T>;

    #[inline]
    fn bitor(self, rhs: T) -> BitSetOr<Self, T> {
        BitSetOr(self, rhs)
    }
}

impl<A: BitSetLike, T: BitSetLike> BitXor<T> for BitSetNot<A> {
    type Output = BitSetXor<Self, T>;

    #[inline]
    fn bitxor(self, rhs: T) -> BitSetXor<Self, T> {
        BitSetXor(self, rhs)
    }
}

impl<A: BitSetLike, T: BitSetLike> Sub<T> for BitSetNot<A> {
    type Output = BitSetAnd<Self, BitSetNot<T>>;

    #[inline]
    fn sub(self, rhs: T) -> BitSetAnd<Self, BitSetNot<T>> {
        BitSetAnd(self, BitSetNot(rhs))
    }
}

impl<A: BitSetLike> IntoIterator for BitSetNot<A> {
    type Item = Index;

    type IntoIter = BitIter<Self>;

    #[inline]
    fn into_iter(self) -> BitIter<Self> {
        self.iter()
    }
}

impl<'a, A: BitSetLike> Not for &'a BitSetNot<A> {
    type Output = BitSetNot<Self>;

    #[inline]
    fn not(self) -> BitSetNot<Self> {
        BitSetNot(self)
    }
}

impl<'a, A: BitSetLike, T: BitSetLike> BitAnd<T> for &'a BitSetNot<A> {
    type Output = BitSetAnd<Self, T>;

    #[inline]
    fn bitand(self, rhs: T) -> BitSetAnd<Self, T> {
        BitSetAnd(self, rhs)
    }
}

impl<'a, A: BitSetLike, T: BitSetLike> BitOr<T> for &'a BitSetNot<A> {
    type Output = BitSetOr<Self, T>;

    #[inline]
    fn bitor(self, rhs: T) -> BitSetOr<Self, T> {
        BitSetOr(self, rhs)
    }
}

impl<'a, A: BitSetLike, T: BitSetLike> BitXor<T> for &'a BitSetNot<A> {
    type Output = BitSetXor<Self, T>;

    #[inline]
    fn bitxor(self, rhs: T) -> BitSetXor<Self, T> {
        BitSetXor(self, rhs)
    }
}

impl<'a, A: BitSetLike, T: BitSetLike> Sub<T> for &'a BitSetNot<A> {
    type Output = BitSetAnd<Self, BitSetNot<T>>;

    #[inline]
    fn sub(self, rhs: T) -> BitSetAnd<Self, BitSetNot<T>> {
        BitSetAnd(self, BitSetNot(rhs))
    }
}

impl<'a, A: BitSetLike> IntoIterator for &'a BitSetNot<A> {
    type Item = Index;

    type IntoIter = BitIter<Self>;

    #[inline]
    fn into_iter(self) -> BitIter<Self> {
        self.iter()
    }
}
