// Derived from crates/hibitset_base/src/ends.rt by rust/derive.py, and never edited by hand.

//! The first member of a set, the last one, and the last one before an index.

use crate::support::rattle_std::prelude::*;

use crate::derived::hibitset_base::iter::{next_index, root_cursor, try_descend};
use crate::derived::hibitset_base::like::BitSetLike;
use crate::derived::hibitset_base::read_count::Reads;
use crate::derived::hibitset_base::rev_cursor::RevCursor;
use crate::derived::hibitset_base::rev_iter::{previous_index, put_head, start_at_end};
use crate::derived::hibitset_base::util::{Index, LAYERS, MAX_EID};

// The first member of a set. The masks below the top are empty, so the way down needs no test of them.
#[inline]
pub(crate) fn find_first<T: BitSetLike>(set: &T, reads: &mut Reads) -> Option<Index> {
    let mut cursor = root_cursor(set, reads);
    'looks: for look in 0..LAYERS - 2 {
        try_descend(set, &mut cursor, reads, LAYERS - 1 - look);
    }
    next_index(set, &mut cursor, reads)
}

// The last member of a set.
#[inline]
pub(crate) fn find_last<T: BitSetLike>(set: &T, reads: &mut Reads) -> Option<Index> {
    let mut cursor = start_at_end(set, reads);
    previous_index(set, &mut cursor, reads)
}

// The last member before an index. It begins with the word of layer 0 over the index, and goes up until a word has a
// bit before the index.
fn find_last_before<T: BitSetLike>(set: &T, reads: &mut Reads, end: Index) -> Option<Index> {
    'layers: for layer in 0..LAYERS {
        let mut cursor = RevCursor::<LAYERS>::empty();
        put_head(set, &mut cursor, reads, layer, end);
        if let Some(last) = previous_index(set, &mut cursor, reads) {
            return Some(last);
        }
    }
    None
}

// The last member before a number.
#[inline]
pub(crate) fn find_last_below<T: BitSetLike>(
    set: &T,
    reads: &mut Reads,
    end: Index,
) -> Option<Index> {
    if end as usize >= MAX_EID {
        return find_last(set, reads);
    }
    find_last_before(set, reads, end)
}
