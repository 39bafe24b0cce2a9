// Derived from crates/hibitset/src/laws.rt by rust/derive.py, and never edited by hand.

//! Laws that users rely on.

use crate::support::rattle_std::prelude::*;

use crate::derived::hibitset::set::BitSet;
pub use crate::derived::hibitset_atomic::laws::{atomic_laws, world_laws};
pub use crate::derived::hibitset_base::laws::{cover_laws, virtual_laws};
use crate::derived::hibitset_base::util::{LAYERS, MAX_EID};

/// The laws of all sets. The call does nothing, and its contract says them.
///
/// - No number past the range is in a set (`within`).
/// - Summaries are exact, so no part that a split gives is empty (`exact`).
/// - The words of an intersection lie within those of each operand (`intersection`), beside a set of any other type too
///   (`beside`). So by the clause `bound` of `iter`, a walk over it reads at most four words of each `BitSet` for every
///   member of that set, and the top.
/// - `==` is an equivalence (`equivalence`) and means the same members (`same_members`): it holds exactly if each set
///   contains the other (`both_contain`).
/// - Exclusive or with the same set, twice, restores the members (`twice`).
/// - To take a set away twice is to take it away once (`away`).
/// - The union of two disjoint sets has as many members as both (`apart`).
///
/// # Contract
///
/// ```text
/// ensures in_range { (set : BitSet) (i : ℕ) → has set i ≡ true → i < MAX_EID }
/// ensures members { (set : BitSet) (i : ℕ) → is_member (has set) i ≡ has set i }
/// ensures exact { (set : BitSet) → SummariesExact LAYERS (word_of set) × AreWords (word_of set) }
/// ensures intersection { (a b : BitSet)
///     → CoversWords LAYERS (has a) (word_of a) (intersection_word a b)
///     × CoversWords LAYERS (has b) (word_of b) (intersection_word a b) }
/// ensures intersection_covered { (a : BitSet) (word : ℕ → ℕ → ℕ)
///     → CoversWords LAYERS (has a) (word_of a) (λ l p. bit_and (word_of a l p) (word l p)) }
/// ensures equivalence { IsEquivalence ⟦<BitSet as PartialEq>⟧.eq }
/// ensures same_members { (a b : BitSet)
///     → (⟦<BitSet as PartialEq>⟧.eq a b ≡ true) ↔ HaveSameMembers a b }
/// ensures both_contain { (a b : BitSet)
///     → (ContainsSet a b × ContainsSet b a) ↔ (⟦<BitSet as PartialEq>⟧.eq a b ≡ true) }
/// ensures symmetric_difference_twice { (old middle new : BitSet) (other : ℕ → Bool)
///     → IsSymmetricDifference (has old) other (has middle)
///     → IsSymmetricDifference (has middle) other (has new) → HaveSameMembers old new }
/// ensures difference_twice { (old middle new : BitSet) (other : ℕ → Bool)
///     → IsDifference (has old) other (has middle) → IsDifference (has middle) other (has new)
///     → HaveSameMembers middle new }
/// ensures apart { (a b both : BitSet) → AreDisjoint MAX_EID (has a) (has b)
///     → IsUnion (has a) (has b) (has both)
///     → length (members_of both) ≡ length (members_of a) + length (members_of b) }
/// ```
pub fn laws() {}

/// The laws of the list of members, for any set. The call does nothing, and its contract says them.
///
/// - The least member, which `first` gives, is the head of the list (`first`). The greatest, which `last` gives, is its
///   end; before it come the members below it (`last`).
/// - Before the member that `select` gives come as many members as its position says, so `rank` of it is that position
///   (`nth`). From it on the list is that of `iter_from` it (`rest`).
/// - `select` of the rank of a member is the member (`place`). At a member the list falls into the members before it,
///   itself, and those after it (`parts`).
///
/// # Contract
///
/// ```text
/// ensures first { (holds : ℕ → Bool) (x : ℕ) → IsFirst MAX_EID holds x
///     → members_below MAX_EID holds ≡ x ∷ drop 1 (members_below MAX_EID holds) }
/// ensures last { (holds : ℕ → Bool) (x : ℕ) → IsLast MAX_EID holds x
///     → members_below MAX_EID holds ≡ members_below x holds ++ (x ∷ []) }
/// ensures nth { (holds : ℕ → Bool) (k x : ℕ) → slice_get (members_below MAX_EID holds) k ≡ Some x
///     → IsNth MAX_EID k holds x }
/// ensures position { (holds : ℕ → Bool) (x : ℕ) → x < MAX_EID → holds x ≡ true
///     → slice_get (members_below MAX_EID holds) (length (members_below x holds)) ≡ Some x }
/// ensures parts { (holds : ℕ → Bool) (x : ℕ) → x < MAX_EID → holds x ≡ true
///     → members_below MAX_EID holds ≡ members_below x holds
///     ++ (x ∷ members holds (x + 1) (MAX_EID - (x + 1))) }
/// ensures rest { (holds : ℕ → Bool) (k x : ℕ) → slice_get (members_below MAX_EID holds) k ≡ Some x
///     → drop k (members_below MAX_EID holds) ≡ members holds x (MAX_EID - x) }
/// ```
pub fn list_laws() {}

/// The laws of the slices of a set, by which `from_layers` takes them. The call does nothing, and its contract says
/// them.
///
/// Each slice is as long as the words of the one below need (`fitted`), and a bit of a layer above the lowest is set
/// exactly over a nonzero word (`summed`).
///
/// # Contract
///
/// ```text
/// ensures fitted { (set : BitSet) (l : ℕ) → l + 2 < LAYERS
///     → slice_len set (l + 1) ≡ (slice_len set l + 63) / 64 }
/// ensures summed { (set : BitSet) → SummariesExactEverywhere LAYERS (word_of set) }
/// ```
pub fn slice_laws() {}
