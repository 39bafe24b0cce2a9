// Derived from crates/hibitset_roaring/src/header.rt by rust/derive.py, and never edited by hand.

//! The header of a stream.

use crate::support::rattle_std::prelude::*;

use crate::derived::hibitset_roaring::error::{Fault, Malformed};
use crate::derived::hibitset_roaring::number::{read_u16, read_u32};

/// The cookie of a stream without runs.
pub(crate) const NO_RUNS: usize = 12346;

/// The low half of the cookie of a stream with runs.
pub(crate) const RUNS: usize = 12347;

// A stream with runs has offsets if it has at least this many containers.
pub(crate) const LEAST_WITH_OFFSETS: usize = 4;

// How many containers there are at most, and how many numbers each has at most.
pub(crate) const CONTAINER_NUMBERS: usize = 65536;

/// How many keys the indices of a set have: those below `MAX_EID`, divided by 65,536.
pub const KEYS: usize = 16384;

/// What the header says, and where its parts are.
#[derive(Clone, Copy)]
pub(crate) struct Header {
    pub(crate) runs: bool,
    pub(crate) count: usize,
    pub(crate) keys: usize,
    pub(crate) offsets: bool,
    pub(crate) first: usize,
}

// Whether containers may be runs, and how many there are.
fn read_count(bytes: &[u8]) -> Result<(bool, usize), Malformed> {
    if bytes.len() < 8 {
        return Err(Malformed {
            fault: Fault::TooShort,
            at: 0,
        });
    }
    let low = read_u16(bytes, 0);
    let high = read_u16(bytes, 2);
    if low == RUNS {
        return Ok((true, high + 1));
    }
    if low != NO_RUNS || high != 0 {
        return Err(Malformed {
            fault: Fault::BadCookie,
            at: 0,
        });
    }
    let count = read_u32(bytes, 4);
    if count > CONTAINER_NUMBERS {
        return Err(Malformed {
            fault: Fault::TooManyContainers,
            at: 4,
        });
    }
    Ok((false, count))
}

// Where the keys begin.
pub(crate) fn keys_after(runs: bool, count: usize) -> usize {
    if runs { 4 + (count + 7) / 8 } else { 8 }
}

// Whether there are offsets.
pub(crate) fn offsets_are(runs: bool, count: usize) -> bool {
    !runs || count >= LEAST_WITH_OFFSETS
}

// Where the first container begins.
pub(crate) fn first_after(offsets: bool, keys: usize, count: usize) -> usize {
    if offsets {
        keys + 8 * count
    } else {
        keys + 4 * count
    }
}

impl Header {
    // The header, which lies within the bytes.
    pub(crate) fn read(bytes: &[u8]) -> Result<Header, Malformed> {
        let (runs, count) = read_count(bytes)?;
        let keys = keys_after(runs, count);
        let offsets = offsets_are(runs, count);
        let first = first_after(offsets, keys, count);
        if bytes.len() < first {
            return Err(Malformed {
                fault: Fault::TooShort,
                at: 0,
            });
        }
        Ok(Header {
            runs,
            count,
            keys,
            offsets,
            first,
        })
    }

    // The key of a container.
    #[inline]
    pub(crate) fn key(&self, bytes: &[u8], k: usize) -> usize {
        read_u16(bytes, self.keys + 4 * k)
    }

    // The number of members that the header gives for a container.
    #[inline]
    pub(crate) fn cardinality(&self, bytes: &[u8], k: usize) -> usize {
        read_u16(bytes, self.keys + 4 * k + 2) + 1
    }

    // Whether a container is made of runs.
    #[inline]
    pub(crate) fn is_run(&self, bytes: &[u8], k: usize) -> bool {
        self.runs && bytes[4 + k / 8] >> (k % 8) & 1 == 1
    }

    // Checks that the offset of a container, if there are offsets, is where it begins.
    #[inline]
    pub(crate) fn check_offset(&self, bytes: &[u8], k: usize, at: usize) -> Result<(), Malformed> {
        if !self.offsets {
            return Ok(());
        }
        let offset = self.keys + 4 * self.count + 4 * k;
        if read_u32(bytes, offset) == at {
            Ok(())
        } else {
            Err(Malformed {
                fault: Fault::WrongOffset,
                at: offset,
            })
        }
    }

    // Checks that the keys ascend and lie below `end`, and returns the number after the last.
    pub(crate) fn check_keys(&self, bytes: &[u8], end: usize) -> Result<usize, Malformed> {
        let mut next = 0;
        'keys: for k in 0..self.count {
            let key = self.key(bytes, k);
            if key < next {
                return Err(Malformed {
                    fault: Fault::KeysNotAscending,
                    at: self.keys + 4 * k,
                });
            }
            if key >= end {
                return Err(Malformed {
                    fault: Fault::OutOfRange,
                    at: self.keys + 4 * k,
                });
            }
            next = key + 1;
        }
        Ok(next)
    }
}
