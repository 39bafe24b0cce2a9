// Derived from crates/hibitset_sparse/src/ops.rt by rust/derive.py, and never edited by hand.

//! Operators over sparse sets:
//! `!`, `&`, `|`, `^` and `-` make a virtual set of their operands, and `into_iter` a walk.
//!
//! They are written out, for the set and for a reference to it: the toolchain refuses impls that a macro of the
//! repository writes.

use crate::support::rattle_std::prelude::*;

use crate::derived::hibitset_sparse::set::SparseBitSet;
use crate::derived::hibitset_base::iter::BitIter;
use crate::derived::hibitset_base::like::BitSetLike;
use crate::derived::hibitset_base::util::Index;
use crate::derived::hibitset_base::virt::{BitSetAnd, BitSetNot, BitSetOr, BitSetXor};
use crate::support::rattle_std::ops::{BitAnd, BitOr, BitXor, Not, Sub};

impl Not for SparseBitSet {
    type Output = BitSetNot<Self>;

    #[inline]
    fn not(self) -> BitSetNot<Self> {
        BitSetNot(self)
    }
}

impl<T: BitSetLike> BitAnd<T> for SparseBitSet {
    type Output = BitSetAnd<Self, T>;

    #[inline]
    fn bitand(self, rhs: T) -> BitSetAnd<Self, T> {
        BitSetAnd(self, rhs)
    }
}

impl<T: BitSetLike> BitOr<T> for SparseBitSet {
    type Output = BitSetOr<Self, T>;

    #[inline]
    fn bitor(self, rhs: T) -> BitSetOr<Self, T> {
        BitSetOr(self, rhs)
    }
}

impl<T: BitSetLike> BitXor<T> for SparseBitSet {
    type Output = BitSetXor<Self, T>;

    #[inline]
    fn bitxor(self, rhs: T) -> BitSetXor<Self, T> {
        BitSetXor(self, rhs)
    }
}

impl<T: BitSetLike> Sub<T> for SparseBitSet {
    type Output = BitSetAnd<Self, BitSetNot<T>>;

    #[inline]
    fn sub(self, rhs: T) -> BitSetAnd<Self, BitSetNot<T>> {
        BitSetAnd(self, BitSetNot(rhs))
    }
}

impl IntoIterator for SparseBitSet {
    type Item = Index;

    type IntoIter = BitIter<SparseBitSet>;

    #[inline]
    fn into_iter(self) -> BitIter<SparseBitSet> {
        self.iter()
    }
}

impl<'a> Not for &'a SparseBitSet {
    type Output = BitSetNot<Self>;

    #[inline]
    fn not(self) -> BitSetNot<Self> {
        BitSetNot(self)
    }
}

impl<'a, T: BitSetLike> BitAnd<T> for &'a SparseBitSet {
    type Output = BitSetAnd<Self, T>;

    #[inline]
    fn bitand(self, rhs: T) -> BitSetAnd<Self, T> {
        BitSetAnd(self, rhs)
    }
}

impl<'a, T: BitSetLike> BitOr<T> for &'a SparseBitSet {
    type Output = BitSetOr<Self, T>;

    #[inline]
    fn bitor(self, rhs: T) -> BitSetOr<Self, T> {
        BitSetOr(self, rhs)
    }
}

impl<'a, T: BitSetLike> BitXor<T> for &'a SparseBitSet {
    type Output = BitSetXor<Self, T>;

    #[inline]
    fn bitxor(self, rhs: T) -> BitSetXor<Self, T> {
        BitSetXor(self, rhs)
    }
}

impl<'a, T: BitSetLike> Sub<T> for &'a SparseBitSet {
    type Output = BitSetAnd<Self, BitSetNot<T>>;

    #[inline]
    fn sub(self, rhs: T) -> BitSetAnd<Self, BitSetNot<T>> {
        BitSetAnd(self, BitSetNot(rhs))
    }
}
