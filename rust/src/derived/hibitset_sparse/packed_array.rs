// Derived from crates/hibitset_sparse/src/packed_array.rt by rust/derive.py, and never edited by hand.

//! Values of the 64 bits of a word: one for each bit that is set.

use crate::support::rattle_std::prelude::*;

use crate::derived::hibitset_sparse::rank::{is_set, rank};
use crate::derived::hibitset_base::bits::with_bit;
use crate::support::rattle_std::alloc::{AllocError, Global};

/// A word, and a value for each of its bits that is set. The values lie side by side, in the order of their bits.
pub(crate) struct PackedArray<T> {
    pub(crate) word: usize,
    pub(crate) items: Vec<T>,
}

impl<T> PackedArray<T> {
    /// No bit is set. It does not allocate.
    ///
    /// # Contract
    ///
    /// ```text
    /// ensures word { result.word ≡ 0 }
    /// ensures empty { (bit : ℕ) → value_in result bit ≡ None }
    /// ```
    #[inline]
    pub(crate) fn new(alloc: Global) -> PackedArray<T> {
        PackedArray {
            word: 0,
            items: Vec::new(alloc),
        }
    }

    /// The value of a bit.
    ///
    /// # Contract
    ///
    /// ```text
    /// requires { bit < 64 }
    /// ensures { MatchOption result (value_in self.now bit ≡ None)
    ///     (λ value. value_in self.now bit ≡ Some value.now) }
    /// ```
    #[inline]
    pub(crate) fn get(&self, bit: usize) -> Option<&T> {
        if !is_set(self.word, bit) {
            return None;
        }
        Some(&self.items[rank(self.word, bit)])
    }

    /// Reserves capacity for `count` more values. Whatever it returns, the values are the same.
    ///
    /// # Contract
    ///
    /// ```text
    /// ensures word { self.new.word ≡ self.old.word }
    /// ensures items { self.new.items.items ≡ self.old.items.items }
    /// ```
    #[inline]
    pub(crate) fn reserve(&mut self, count: usize) -> Result<(), AllocError> {
        self.items.reserve(count)
    }

    /// Gives a value to a bit that has none. If an allocation fails, nothing changes.
    ///
    /// # Contract
    ///
    /// ```text
    /// requires bit { bit < 64 }
    /// requires free { bit_is_set self.old.word bit ≡ false }
    /// ensures put { OnOk result ((b : ℕ) → b < 64
    ///     → value_in self.new b ≡ (if b == bit then Some value else value_in self.old b)) }
    /// ensures word { OnOk result ((b : ℕ) → b < 64
    ///     → bit_is_set self.new.word b ≡ (if b == bit then true else bit_is_set self.old.word b)) }
    /// ensures err { OnErr result ((self.new.word ≡ self.old.word)
    ///     × (self.new.items.items ≡ self.old.items.items)) }
    /// ensures succeeds { (n : ℕ) → HasRoomFor (n + 1) self.old → IsOk result × HasRoomFor n self.new }
    /// ```
    pub(crate) fn insert(&mut self, bit: usize, value: T) -> Result<(), AllocError> {
        self.items.insert(rank(self.word, bit), value)?;
        self.word = with_bit(self.word, bit, true);
        Ok(())
    }

    /// Gives a value to a bit above all that have one. It moves no value.
    ///
    /// # Contract
    ///
    /// ```text
    /// requires bit { bit < 64 }
    /// requires none_above { (b : ℕ) → bit ≤ b → b < 64 → bit_at self.old.word b ≡ 0 }
    /// ensures put { OnOk result ((b : ℕ) → b < 64
    ///     → value_in self.new b ≡ (if b == bit then Some value else value_in self.old b)) }
    /// ```
    #[inline]
    pub(crate) fn push(&mut self, bit: usize, value: T) -> Result<(), AllocError> {
        self.items.push(value)?;
        self.word = with_bit(self.word, bit, true);
        Ok(())
    }

    /// Takes the value of a bit out.
    ///
    /// # Contract
    ///
    /// ```text
    /// requires bit { bit < 64 }
    /// requires taken { bit_is_set self.old.word bit ≡ true }
    /// ensures old_value { value_in self.old bit ≡ Some result }
    /// ensures put { (b : ℕ) → b < 64
    ///     → value_in self.new b ≡ (if b == bit then None else value_in self.old b) }
    /// ensures word { (b : ℕ) → b < 64
    ///     → bit_is_set self.new.word b ≡ (if b == bit then false else bit_is_set self.old.word b) }
    /// ensures capacity { (n : ℕ) → HasRoomFor n self.old → HasRoomFor n self.new }
    /// ```
    pub(crate) fn remove(&mut self, bit: usize) -> T {
        let value = self.items.remove(rank(self.word, bit));
        self.word = with_bit(self.word, bit, false);
        value
    }
}
