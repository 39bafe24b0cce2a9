// Derived from crates/hibitset_sparse/src/laws.rt by rust/derive.py, and never edited by hand.

//! Laws that users rely on.

use crate::support::rattle_std::prelude::*;

use crate::derived::hibitset_sparse::set::SparseBitSet;
use crate::derived::hibitset_base::util::{LAYERS, MAX_EID};

/// The laws of all sparse sets. The call does nothing, and its contract says them.
///
/// - No number past the range is in a set, and summaries are exact.
/// - The words of an intersection lie within those of the set. So a walk over one, beside any other type, reads at most
///   four words of the set for each of its members, and the top.
///
/// # Contract
///
/// ```text
/// ensures in_range { (set : SparseBitSet) (i : ℕ) → has set i ≡ true → i < MAX_EID }
/// ensures exact { (set : SparseBitSet) → SummariesExact LAYERS (word_of set) }
/// ensures intersection_covered { (set : SparseBitSet) (word : ℕ → ℕ → ℕ)
///     → CoversWords LAYERS (has set) (word_of set) (λ l p. bit_and (word_of set l p) (word l p)) }
/// ```
pub fn sparse_laws() {}
