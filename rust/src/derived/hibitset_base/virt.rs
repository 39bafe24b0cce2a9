// Derived from crates/hibitset_base/src/virt.rt by rust/derive.py, and never edited by hand.

//! Sets that are made of other sets without copying. Each word is made of the operands' words when it is asked for.
//!
//! A bit above layer 0 may be set over a zero word in `BitSetAnd`, `BitSetXor`, `BitSetNot` and whatever is built over
//! them. The impls are written out for each: the toolchain refuses impls that a macro of the repository writes.

use crate::support::rattle_std::prelude::*;

use crate::derived::hibitset_base::like::{BitSetLike, DrainableBitSet};
use crate::derived::hibitset_base::util::Index;
use crate::support::rattle_std::alloc::AllocError;

/// The intersection of two sets: the indices that are in both. `BitSetAnd` of the original.
#[derive(Debug)]
pub struct BitSetAnd<A: BitSetLike, B: BitSetLike>(pub A, pub B);

impl<A: BitSetLike + TryClone, B: BitSetLike + TryClone> BitSetAnd<A, B> {
    /// The same set over clones of the operands. It fails only if a clone of an operand does, which is the same set.
    ///
    /// # Contract
    ///
    /// ```text
    /// requires first { ClonesToSame A.is_clone A.holds self.now.0 }
    /// requires second { ClonesToSame B.is_clone B.holds self.now.1 }
    /// ensures same { IfOk result (λ copy. SameSet (⟦<Self as BitSetLike>⟧.holds self.now)
    ///     (⟦<Self as BitSetLike>⟧.holds copy)) }
    /// ensures first { IfOk result (λ copy. A.is_clone self.now.0 copy.0) }
    /// ensures second { IfOk result (λ copy. B.is_clone self.now.1 copy.1) }
    /// ensures succeeds { A.is_infallible self.now.0 → B.is_infallible self.now.1 → IsOk result }
    /// ```
    pub fn try_clone(&self) -> Result<Self, AllocError> {
        Ok(BitSetAnd(self.0.try_clone()?, self.1.try_clone()?))
    }
}

impl<A: BitSetLike, B: BitSetLike> BitSetLike for BitSetAnd<A, B> {
    #[inline]
    fn has_cheap_words(&self) -> bool {
        self.0.has_cheap_words() && self.1.has_cheap_words()
    }

    #[inline]
    fn layer4(&self) -> usize {
        self.0.layer4() & self.1.layer4()
    }

    #[inline]
    fn layer3(&self, i: usize) -> usize {
        self.0.layer3(i) & self.1.layer3(i)
    }

    #[inline]
    fn layer2(&self, i: usize) -> usize {
        self.0.layer2(i) & self.1.layer2(i)
    }

    #[inline]
    fn layer1(&self, i: usize) -> usize {
        self.0.layer1(i) & self.1.layer1(i)
    }

    #[inline]
    fn layer0(&self, i: usize) -> usize {
        self.0.layer0(i) & self.1.layer0(i)
    }

    #[inline]
    fn contains(&self, i: Index) -> bool {
        self.0.contains(i) && self.1.contains(i)
    }
}

impl<A: DrainableBitSet, B: DrainableBitSet> DrainableBitSet for BitSetAnd<A, B> {
    /// Takes an index out of both operands, if both have it. They keep their capacity.
    ///
    /// # Contract
    ///
    /// ```text
    /// ensures was_member { result ≡ (A.holds self.old.0 i && B.holds self.old.1 i) }
    /// ensures removed { (j : ℕ) → (A.holds self.new.0 j && B.holds self.new.1 j)
    ///     ≡ (A.holds self.old.0 j && B.holds self.old.1 j && not (j == i)) }
    /// ensures keeps_room { A.keeps_room self.old.0 self.new.0 × B.keeps_room self.old.1 self.new.1 }
    /// ensures first { (j : ℕ) → A.holds self.new.0 j
    ///     ≡ (A.holds self.old.0 j && not (result && j == i)) }
    /// ensures second { (j : ℕ) → B.holds self.new.1 j
    ///     ≡ (B.holds self.old.1 j && not (result && j == i)) }
    /// ```
    #[inline]
    fn remove(&mut self, i: Index) -> bool {
        if !self.contains(i) {
            return false;
        }
        self.0.remove(i);
        self.1.remove(i);
        true
    }
}

/// The union of two sets: the indices that are in at least one. `BitSetOr` of the original.
#[derive(Debug)]
pub struct BitSetOr<A: BitSetLike, B: BitSetLike>(pub A, pub B);

impl<A: BitSetLike + TryClone, B: BitSetLike + TryClone> BitSetOr<A, B> {
    /// The same set over clones of the operands. It fails only if a clone of an operand does, which is the same set.
    ///
    /// # Contract
    ///
    /// ```text
    /// requires first { ClonesToSame A.is_clone A.holds self.now.0 }
    /// requires second { ClonesToSame B.is_clone B.holds self.now.1 }
    /// ensures same { IfOk result (λ copy. SameSet (⟦<Self as BitSetLike>⟧.holds self.now)
    ///     (⟦<Self as BitSetLike>⟧.holds copy)) }
    /// ensures first { IfOk result (λ copy. A.is_clone self.now.0 copy.0) }
    /// ensures second { IfOk result (λ copy. B.is_clone self.now.1 copy.1) }
    /// ensures succeeds { A.is_infallible self.now.0 → B.is_infallible self.now.1 → IsOk result }
    /// ```
    pub fn try_clone(&self) -> Result<Self, AllocError> {
        Ok(BitSetOr(self.0.try_clone()?, self.1.try_clone()?))
    }
}

impl<A: BitSetLike, B: BitSetLike> BitSetLike for BitSetOr<A, B> {
    #[inline]
    fn has_cheap_words(&self) -> bool {
        self.0.has_cheap_words() && self.1.has_cheap_words()
    }

    #[inline]
    fn layer4(&self) -> usize {
        self.0.layer4() | self.1.layer4()
    }

    #[inline]
    fn layer3(&self, i: usize) -> usize {
        self.0.layer3(i) | self.1.layer3(i)
    }

    #[inline]
    fn layer2(&self, i: usize) -> usize {
        self.0.layer2(i) | self.1.layer2(i)
    }

    #[inline]
    fn layer1(&self, i: usize) -> usize {
        self.0.layer1(i) | self.1.layer1(i)
    }

    #[inline]
    fn layer0(&self, i: usize) -> usize {
        self.0.layer0(i) | self.1.layer0(i)
    }

    #[inline]
    fn contains(&self, i: Index) -> bool {
        self.0.contains(i) || self.1.contains(i)
    }
}

impl<A: DrainableBitSet, B: DrainableBitSet> DrainableBitSet for BitSetOr<A, B> {
    /// Takes an index out of each operand that has it. They keep their capacity.
    ///
    /// # Contract
    ///
    /// ```text
    /// ensures was_member { result ≡ (A.holds self.old.0 i || B.holds self.old.1 i) }
    /// ensures removed { (j : ℕ) → (A.holds self.new.0 j || B.holds self.new.1 j)
    ///     ≡ ((A.holds self.old.0 j || B.holds self.old.1 j) && not (j == i)) }
    /// ensures keeps_room { A.keeps_room self.old.0 self.new.0 × B.keeps_room self.old.1 self.new.1 }
    /// ensures first { (j : ℕ) → A.holds self.new.0 j ≡ (A.holds self.old.0 j && not (j == i)) }
    /// ensures second { (j : ℕ) → B.holds self.new.1 j ≡ (B.holds self.old.1 j && not (j == i)) }
    /// ```
    #[inline]
    fn remove(&mut self, i: Index) -> bool {
        let first = self.0.remove(i);
        let second = self.1.remove(i);
        first || second
    }
}

/// The symmetric difference of two sets: the indices that are in exactly one. `BitSetXor` of the original.
#[derive(Debug)]
pub struct BitSetXor<A: BitSetLike, B: BitSetLike>(pub A, pub B);

impl<A: BitSetLike + TryClone, B: BitSetLike + TryClone> BitSetXor<A, B> {
    /// The same set over clones of the operands. It fails only if a clone of an operand does, which is the same set.
    ///
    /// # Contract
    ///
    /// ```text
    /// requires first { ClonesToSame A.is_clone A.holds self.now.0 }
    /// requires second { ClonesToSame B.is_clone B.holds self.now.1 }
    /// ensures same { IfOk result (λ copy. SameSet (⟦<Self as BitSetLike>⟧.holds self.now)
    ///     (⟦<Self as BitSetLike>⟧.holds copy)) }
    /// ensures first { IfOk result (λ copy. A.is_clone self.now.0 copy.0) }
    /// ensures second { IfOk result (λ copy. B.is_clone self.now.1 copy.1) }
    /// ensures succeeds { A.is_infallible self.now.0 → B.is_infallible self.now.1 → IsOk result }
    /// ```
    pub fn try_clone(&self) -> Result<Self, AllocError> {
        Ok(BitSetXor(self.0.try_clone()?, self.1.try_clone()?))
    }
}

impl<A: BitSetLike, B: BitSetLike> BitSetLike for BitSetXor<A, B> {
    #[inline]
    fn has_cheap_words(&self) -> bool {
        self.0.has_cheap_words() && self.1.has_cheap_words()
    }

    #[inline]
    fn layer4(&self) -> usize {
        self.0.layer4() | self.1.layer4()
    }

    #[inline]
    fn layer3(&self, i: usize) -> usize {
        self.0.layer3(i) | self.1.layer3(i)
    }

    #[inline]
    fn layer2(&self, i: usize) -> usize {
        self.0.layer2(i) | self.1.layer2(i)
    }

    #[inline]
    fn layer1(&self, i: usize) -> usize {
        self.0.layer1(i) | self.1.layer1(i)
    }

    #[inline]
    fn layer0(&self, i: usize) -> usize {
        self.0.layer0(i) ^ self.1.layer0(i)
    }

    #[inline]
    fn contains(&self, i: Index) -> bool {
        self.0.contains(i) != self.1.contains(i)
    }
}

/// The complement of a set: the indices that are not in it, `BitSetNot` of the original. `contains` is also true from
/// `MAX_EID` on; walks, counts and lists stop there.
///
/// Above layer 0 it has every bit, so a walk over it reads all 2^24 words of layer 0. `&` with a set or a `BitSetRange`
/// bounds the walk.
#[derive(Debug)]
pub struct BitSetNot<A: BitSetLike>(pub A);

impl<A: BitSetLike + TryClone> BitSetNot<A> {
    /// The same set over a clone of the operand. It fails only if the clone of the operand does, which is the same set.
    ///
    /// # Contract
    ///
    /// ```text
    /// requires { ClonesToSame A.is_clone A.holds self.now.0 }
    /// ensures same { IfOk result (λ copy. SameSet (⟦<Self as BitSetLike>⟧.holds self.now)
    ///     (⟦<Self as BitSetLike>⟧.holds copy)) }
    /// ensures operand { IfOk result (λ copy. A.is_clone self.now.0 copy.0) }
    /// ensures succeeds { A.is_infallible self.now.0 → IsOk result }
    /// ```
    pub fn try_clone(&self) -> Result<Self, AllocError> {
        Ok(BitSetNot(self.0.try_clone()?))
    }
}

impl<A: BitSetLike> BitSetLike for BitSetNot<A> {
    #[inline]
    fn has_cheap_words(&self) -> bool {
        self.0.has_cheap_words()
    }

    #[inline]
    fn layer4(&self) -> usize {
        !0
    }

    #[inline]
    fn layer3(&self, _i: usize) -> usize {
        !0
    }

    #[inline]
    fn layer2(&self, _i: usize) -> usize {
        !0
    }

    #[inline]
    fn layer1(&self, _i: usize) -> usize {
        !0
    }

    #[inline]
    fn layer0(&self, i: usize) -> usize {
        !self.0.layer0(i)
    }

    #[inline]
    fn contains(&self, i: Index) -> bool {
        !self.0.contains(i)
    }
}

/// The set of all indices, `BitSetAll` of the original. A walk stops below `MAX_EID`.
#[derive(Debug)]
pub struct BitSetAll;

impl BitSetAll {
    /// The same set. It can't fail.
    ///
    /// # Contract
    ///
    /// ```text
    /// ensures { IsOk result }
    /// ```
    pub fn try_clone(&self) -> Result<Self, AllocError> {
        Ok(BitSetAll)
    }
}

impl BitSetLike for BitSetAll {
    #[inline]
    fn has_cheap_words(&self) -> bool {
        true
    }

    #[inline]
    fn layer4(&self) -> usize {
        !0
    }

    #[inline]
    fn layer3(&self, _i: usize) -> usize {
        !0
    }

    #[inline]
    fn layer2(&self, _i: usize) -> usize {
        !0
    }

    #[inline]
    fn layer1(&self, _i: usize) -> usize {
        !0
    }

    #[inline]
    fn layer0(&self, _i: usize) -> usize {
        !0
    }

    #[inline]
    fn contains(&self, _i: Index) -> bool {
        true
    }
}
