// Derived from crates/hibitset_atomic/src/steps/calls.rt by rust/derive.py, and never edited by hand.

//! The calls of a world, by their numbers.

use crate::support::rattle_std::prelude::*;

use crate::derived::hibitset_base::util::Index;
use crate::support::rattle_std::alloc::{AllocError, Global};
use crate::support::rattle_std::collections::BTreeMap;

/// A call that adds an index, and how many layers it has passed.
#[derive(Clone, Copy)]
pub struct Call {
    pub index: Index,
    pub passed: u32,
}

/// Calls by their numbers.
pub struct Calls {
    map: BTreeMap<u32, Call>,
}

impl Calls {
    /// No call has begun.
    ///
    /// # Contract
    ///
    /// ```text
    /// ensures { (c : ℕ) → call_in result c ≡ None }
    /// ```
    pub(crate) fn new(alloc: Global) -> Calls {
        Calls {
            map: BTreeMap::new(alloc),
        }
    }

    /// The call of a number.
    ///
    /// # Contract
    ///
    /// ```text
    /// ensures { result ≡ call_in self.now number }
    /// ```
    pub(crate) fn get(&self, number: u32) -> Option<Call> {
        self.map.get(&number).copied()
    }

    /// Puts a call under a number. It can't fail if a call has that number.
    ///
    /// # Contract
    ///
    /// ```text
    /// ensures put { OnOk result ((c : ℕ)
    ///     → call_in self.new c ≡ cond (number == c) (Some call) (call_in self.old c)) }
    /// ensures err { OnErr result ((c : ℕ) → call_in self.new c ≡ call_in self.old c) }
    /// ensures succeeds_made { IsSome (call_in self.old number) → IsOk result }
    /// ```
    pub(crate) fn put(&mut self, number: u32, call: Call) -> Result<(), AllocError> {
        match self.map.insert(number, call) {
            Ok(_) => Ok(()),
            Err(_) => Err(AllocError),
        }
    }

    /// Replaces the call that has this number.
    ///
    /// # Contract
    ///
    /// ```text
    /// requires { IsSome (call_in self.old number) }
    /// ensures { (c : ℕ) → call_in self.new c
    ///     ≡ cond (number == c) (Some call) (call_in self.old c) }
    /// ```
    pub(crate) fn set(&mut self, number: u32, call: Call) {
        self.put(number, call).unwrap();
    }

    /// Returns whether every call has passed `layers` layers.
    ///
    /// # Contract
    ///
    /// ```text
    /// ensures all { IsTrue result ↔ All (λ call. call.passed ≡ layers) (values self.now.map) }
    /// ensures ordered { IsOrdered nat_cmp self.now.map }
    /// ```
    pub(crate) fn all_passed(&self, layers: u32) -> bool {
        self.map.values().all(|call| call.passed == layers)
    }
}
