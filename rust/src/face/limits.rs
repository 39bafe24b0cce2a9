//! Limits of ranges, within the range of indices.

use crate::face::bound_out_of_range;
use crate::{Index, MAX_EID};
use core::ops::{Bound, RangeBounds};

/// The first index of a range, and the one after the last.
fn limits(range: &impl RangeBounds<Index>) -> (u64, u64) {
    let start = match range.start_bound() {
        Bound::Included(&start) => start.into(),
        Bound::Excluded(&before) => u64::from(before) + 1,
        Bound::Unbounded => 0,
    };
    let end = match range.end_bound() {
        Bound::Included(&last) => u64::from(last) + 1,
        Bound::Excluded(&end) => end.into(),
        Bound::Unbounded => MAX_EID as u64,
    };
    (start, end)
}

/// The limits of a range, as far as it lies below `MAX_EID`: no index from there on is in a set.
pub(crate) fn range_within(range: &impl RangeBounds<Index>) -> (Index, Index) {
    let (start, end) = limits(range);
    let max = MAX_EID as u64;
    (start.min(max) as Index, end.min(max) as Index)
}

/// The limits of a range whose indices are all to be below `MAX_EID`.
pub(crate) fn range_to_add(range: &impl RangeBounds<Index>) -> (Index, Index) {
    let (start, end) = limits(range);
    if start >= end {
        return (0, 0);
    }
    if end > MAX_EID as u64 {
        bound_out_of_range(end);
    }
    (start as Index, end as Index)
}
