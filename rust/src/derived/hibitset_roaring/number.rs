// Derived from crates/hibitset_roaring/src/number.rt by rust/derive.py, and never edited by hand.

//! Numbers in bytes, the lowest byte first.

use crate::support::rattle_std::prelude::*;

// The number of two bytes.
#[inline]
pub(crate) fn read_u16(bytes: &[u8], at: usize) -> usize {
    u16::from_le_bytes([bytes[at], bytes[at + 1]]) as usize
}

// The number of four bytes.
#[inline]
pub(crate) fn read_u32(bytes: &[u8], at: usize) -> usize {
    u32::from_le_bytes([bytes[at], bytes[at + 1], bytes[at + 2], bytes[at + 3]]) as usize
}

// The number of eight bytes.
#[inline]
pub(crate) fn read_u64(bytes: &[u8], at: usize) -> usize {
    // One look at the length serves all eight bytes.
    let bytes = &bytes[at..at + 8];
    usize::from_le_bytes([
        bytes[0], bytes[1], bytes[2], bytes[3], bytes[4], bytes[5], bytes[6], bytes[7],
    ])
}

// Writes a number in a byte.
#[inline]
pub(crate) fn put_u8(out: &mut [u8], at: usize, number: usize) {
    out[at] = number as u8;
}

// Writes a number in two bytes.
#[inline]
pub(crate) fn put_u16(out: &mut [u8], at: usize, number: usize) {
    out[at] = (number % 256) as u8;
    out[at + 1] = (number / 256) as u8;
}

// Writes a number in four bytes.
#[inline]
pub(crate) fn put_u32(out: &mut [u8], at: usize, number: usize) {
    put_u16(out, at, number % 65536);
    put_u16(out, at + 2, number / 65536);
}

// Writes a number in eight bytes.
#[inline]
pub(crate) fn put_u64(out: &mut [u8], at: usize, number: usize) {
    // One look at the length serves all eight bytes.
    let place = &mut out[at..at + 8];
    put_u32(place, 0, number % 4294967296);
    put_u32(place, 4, number / 4294967296);
}
