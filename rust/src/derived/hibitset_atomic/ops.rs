// Derived from crates/hibitset_atomic/src/ops.rt by rust/derive.py, and never edited by hand.

//! Operators over atomic sets held alone:
//! `!`, `&`, `|`, `^` and `-` make a virtual set of their operands, and `into_iter` a walk.
//!
//! They are written out, for the set and for a reference to it: the toolchain refuses impls that a macro of the
//! repository writes.

use crate::support::rattle_std::prelude::*;

use crate::derived::hibitset_atomic::atomic::AtomicBitSet;
use crate::derived::hibitset_base::iter::BitIter;
use crate::derived::hibitset_base::like::BitSetLike;
use crate::derived::hibitset_base::util::Index;
use crate::derived::hibitset_base::virt::{BitSetAnd, BitSetNot, BitSetOr, BitSetXor};
use crate::support::rattle_std::ops::{BitAnd, BitOr, BitXor, Not, Sub};

impl Not for AtomicBitSet {
    type Output = BitSetNot<Self>;

    #[inline]
    fn not(self) -> BitSetNot<Self> {
        BitSetNot(self)
    }
}

impl<T: BitSetLike> BitAnd<T> for AtomicBitSet {
    type Output = BitSetAnd<Self, T>;

    #[inline]
    fn bitand(self, rhs: T) -> BitSetAnd<Self, T> {
        BitSetAnd(self, rhs)
    }
}

impl<T: BitSetLike> BitOr<T> for AtomicBitSet {
    type Output = BitSetOr<Self, T>;

    #[inline]
    fn bitor(self, rhs: T) -> BitSetOr<Self, T> {
        BitSetOr(self, rhs)
    }
}

impl<T: BitSetLike> BitXor<T> for AtomicBitSet {
    type Output = BitSetXor<Self, T>;

    #[inline]
    fn bitxor(self, rhs: T) -> BitSetXor<Self, T> {
        BitSetXor(self, rhs)
    }
}

impl<T: BitSetLike> Sub<T> for AtomicBitSet {
    type Output = BitSetAnd<Self, BitSetNot<T>>;

    #[inline]
    fn sub(self, rhs: T) -> BitSetAnd<Self, BitSetNot<T>> {
        BitSetAnd(self, BitSetNot(rhs))
    }
}

impl IntoIterator for AtomicBitSet {
    type Item = Index;

    type IntoIter = BitIter<AtomicBitSet>;

    #[inline]
    fn into_iter(self) -> BitIter<AtomicBitSet> {
        self.iter()
    }
}

impl<'a> Not for &'a AtomicBitSet {
    type Output = BitSetNot<Self>;

    #[inline]
    fn not(self) -> BitSetNot<Self> {
        BitSetNot(self)
    }
}

impl<'a, T: BitSetLike> BitAnd<T> for &'a AtomicBitSet {
    type Output = BitSetAnd<Self, T>;

    #[inline]
    fn bitand(self, rhs: T) -> BitSetAnd<Self, T> {
        BitSetAnd(self, rhs)
    }
}

impl<'a, T: BitSetLike> BitOr<T> for &'a AtomicBitSet {
    type Output = BitSetOr<Self, T>;

    #[inline]
    fn bitor(self, rhs: T) -> BitSetOr<Self, T> {
        BitSetOr(self, rhs)
    }
}

impl<'a, T: BitSetLike> BitXor<T> for &'a AtomicBitSet {
    type Output = BitSetXor<Self, T>;

    #[inline]
    fn bitxor(self, rhs: T) -> BitSetXor<Self, T> {
        BitSetXor(self, rhs)
    }
}

impl<'a, T: BitSetLike> Sub<T> for &'a AtomicBitSet {
    type Output = BitSetAnd<Self, BitSetNot<T>>;

    #[inline]
    fn sub(self, rhs: T) -> BitSetAnd<Self, BitSetNot<T>> {
        BitSetAnd(self, BitSetNot(rhs))
    }
}

impl<'a> IntoIterator for &'a AtomicBitSet {
    type Item = Index;

    type IntoIter = BitIter<Self>;

    #[inline]
    fn into_iter(self) -> BitIter<Self> {
        self.iter()
    }
}
