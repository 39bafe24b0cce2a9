// Derived from crates/hibitset_roaring/src/laws.rt by rust/derive.py, and never edited by hand.

//! What holds of reading and writing together.

use crate::support::rattle_std::prelude::*;

use crate::derived::hibitset_roaring::decode::read;
use crate::derived::hibitset_roaring::encode::{write, write_run_optimized};
use crate::derived::hibitset_roaring::encode_like::write_like;
use crate::derived::hibitset_roaring::error::ReadError;
use crate::derived::hibitset_roaring::sparse::read_sparse;
use crate::derived::hibitset::BitSet;
use crate::derived::hibitset_sparse::SparseBitSet;
use crate::derived::hibitset_sparse::laws::sparse_laws;
use crate::support::rattle_std::alloc::Global;

/// A set, written and read again: it has the same members, and fails only if an allocation does.
///
/// # Contract
///
/// ```text
/// ensures members { IfOk result (λ copy. (i : ℕ) → has copy i ≡ has set.now i) }
/// ensures reason { IfErr result (λ error. error ≡ errors.Memory) }
/// ```
pub fn round_trip(alloc: Global, set: &BitSet) -> Result<BitSet, ReadError> {
    let bytes = write(alloc, set)?;
    read(alloc, &bytes)
}

/// A set, written with runs where these are shorter and read again: it has the same members, and fails only if an
/// allocation does.
///
/// # Contract
///
/// ```text
/// ensures members { IfOk result (λ copy. (i : ℕ) → has copy i ≡ has set.now i) }
/// ensures reason { IfErr result (λ error. error ≡ errors.Memory) }
/// ```
pub fn round_trip_optimized(alloc: Global, set: &BitSet) -> Result<BitSet, ReadError> {
    let bytes = write_run_optimized(alloc, set)?;
    read(alloc, &bytes)
}

/// A sparse set, written and read again: it has the same members, and fails only if an allocation does.
///
/// # Contract
///
/// ```text
/// ensures members { IfOk result (λ copy. (i : ℕ) → sparse_has copy i ≡ sparse_has set.now i) }
/// ensures reason { IfErr result (λ error. error ≡ errors.Memory) }
/// ```
pub fn round_trip_sparse(alloc: Global, set: &SparseBitSet) -> Result<SparseBitSet, ReadError> {
    sparse_laws();
    let bytes = write_like(alloc, set)?;
    read_sparse(alloc, &bytes)
}
