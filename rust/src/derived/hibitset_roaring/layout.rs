// Derived from crates/hibitset_roaring/src/layout.rt by rust/derive.py, and never edited by hand.

//! Where the containers of a stream lie.

use crate::support::rattle_std::prelude::*;

use crate::derived::hibitset_roaring::error::{Fault, Malformed};
use crate::derived::hibitset_roaring::header::Header;
use crate::derived::hibitset_roaring::number::read_u16;

/// How many members an array has at most.
pub(crate) const MAX_ARRAY_LEN: usize = 4096;

/// How many words the bits of a container are.
pub const CONTAINER_WORDS: usize = 1024;

// How many bytes a container takes that is no run.
#[inline]
pub(crate) fn flat_size(cardinality: usize) -> usize {
    if cardinality <= MAX_ARRAY_LEN {
        2 * cardinality
    } else {
        8 * CONTAINER_WORDS
    }
}

impl Header {
    // How many bytes a container takes. If it is runs, their number lies within the bytes.
    pub(crate) fn size(&self, bytes: &[u8], k: usize, at: usize) -> usize {
        if self.is_run(bytes, k) {
            return 2 + 4 * read_u16(bytes, at);
        }
        flat_size(self.cardinality(bytes, k))
    }

    // Returns whether a container lies within the bytes.
    fn is_within(&self, bytes: &[u8], k: usize, at: usize) -> bool {
        let left = bytes.len() - at;
        if left < 2 && self.is_run(bytes, k) {
            return false;
        }
        self.size(bytes, k, at) <= left
    }

    // Checks that a container begins where its offset says and lies within the bytes, and returns where it ends.
    fn check_container(&self, bytes: &[u8], k: usize, at: usize) -> Result<usize, Malformed> {
        self.check_offset(bytes, k, at)?;
        if !self.is_within(bytes, k, at) {
            return Err(Malformed {
                fault: Fault::TooShort,
                at,
            });
        }
        Ok(at + self.size(bytes, k, at))
    }

    // Checks that the containers begin where the offsets say, and that the bytes end with the last.
    pub(crate) fn check_layout(&self, bytes: &[u8]) -> Result<(), Malformed> {
        let mut at = self.first;
        'containers: for k in 0..self.count {
            at = self.check_container(bytes, k, at)?;
        }
        if at < bytes.len() {
            return Err(Malformed {
                fault: Fault::TooLong,
                at,
            });
        }
        Ok(())
    }
}
