// Derived from crates/hibitset_base/src/read_count.rt by rust/derive.py, and never edited by hand.

//! How many words a walk has read. It takes no bytes, and contracts alone see it.

use crate::support::rattle_std::prelude::*;

use crate::support::rattle_std::marker::Model;

/// A count of words that were read.
#[derive(Debug)]
pub struct Reads {
}

impl Model for Reads {
}

impl Reads {
    /// No word.
    ///
    /// # Contract
    ///
    /// ```text
    /// ensures { result.count ≡ 0 }
    /// ```
    pub fn none() -> Reads {
        Reads {}
    }

    /// One word more.
    ///
    /// # Contract
    ///
    /// ```text
    /// ensures { result.count ≡ _before.now.count + 1 }
    /// ```
    pub fn succ(_before: &Reads) -> Reads {
        Reads {}
    }
}
