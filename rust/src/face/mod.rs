//! What is written by hand over the derived sources: names, panics, and traits of std.

mod atomic_set;
mod both;
mod ext;
mod guard;
mod limits;
mod ops;
mod ranked;
mod roaring;
mod row;
mod seat;
#[cfg(feature = "serde")]
mod serde;
mod set;
mod sparse_set;
mod traits;

pub use atomic_set::AtomicBitSet;
pub use both::BitIterBoth;
pub use ext::BitSetLikeExt;
pub use ranked::Ranked;
pub use seat::Seat;
pub use set::BitSet;
pub use sparse_set::{SparseBitSet, SparseIter};

use crate::AllocError;

/// Ends the process, as a `Vec` does. The derived calls don't say how much they asked for: the layout is of one word.
#[cold]
#[inline(never)]
fn out_of_memory(_: AllocError) -> ! {
    alloc::alloc::handle_alloc_error(core::alloc::Layout::new::<usize>())
}

/// A panic for an index past the range.
#[cold]
#[inline(never)]
fn index_out_of_range(id: crate::Index, end: usize) -> ! {
    panic!("the index {id} is out of range: indices lie below {end}")
}

/// A panic for a bound past the range.
#[cold]
#[inline(never)]
fn bound_out_of_range(bound: u64) -> ! {
    panic!(
        "the bound {bound} is out of range: it is at most {}",
        crate::MAX_EID
    )
}
