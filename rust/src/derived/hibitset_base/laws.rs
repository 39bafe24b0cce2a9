// Derived from crates/hibitset_base/src/laws.rt by rust/derive.py, and never edited by hand.

//! Laws of the virtual sets.

use crate::support::rattle_std::prelude::*;

use crate::derived::hibitset_base::like::BitSetLike;
use crate::derived::hibitset_base::virt::{BitSetAnd, BitSetNot, BitSetOr};

/// The laws of De Morgan and of distribution, at every number, for any three sets. The call does nothing, and its
/// contract says them.
///
/// # Contract
///
/// ```text
/// ensures not_and { (a : A) (b : B) (i : ℕ)
///     → ⟦<BitSetNot<BitSetAnd<A, B>> as BitSetLike>⟧.holds
///     (record { 0 = record { 0 = a; 1 = b } }) i
///     ≡ ⟦<BitSetOr<BitSetNot<A>, BitSetNot<B>> as BitSetLike>⟧.holds
///     (record { 0 = record { 0 = a }; 1 = record { 0 = b } }) i }
/// ensures not_or { (a : A) (b : B) (i : ℕ)
///     → ⟦<BitSetNot<BitSetOr<A, B>> as BitSetLike>⟧.holds
///     (record { 0 = record { 0 = a; 1 = b } }) i
///     ≡ ⟦<BitSetAnd<BitSetNot<A>, BitSetNot<B>> as BitSetLike>⟧.holds
///     (record { 0 = record { 0 = a }; 1 = record { 0 = b } }) i }
/// ensures and_over_or { (a : A) (b : B) (c : C) (i : ℕ)
///     → ⟦<BitSetAnd<A, BitSetOr<B, C>> as BitSetLike>⟧.holds
///     (record { 0 = a; 1 = record { 0 = b; 1 = c } }) i
///     ≡ ⟦<BitSetOr<BitSetAnd<A, B>, BitSetAnd<A, C>> as BitSetLike>⟧.holds
///     (record { 0 = record { 0 = a; 1 = b }; 1 = record { 0 = a; 1 = c } }) i }
/// ensures or_over_and { (a : A) (b : B) (c : C) (i : ℕ)
///     → ⟦<BitSetOr<A, BitSetAnd<B, C>> as BitSetLike>⟧.holds
///     (record { 0 = a; 1 = record { 0 = b; 1 = c } }) i
///     ≡ ⟦<BitSetAnd<BitSetOr<A, B>, BitSetOr<A, C>> as BitSetLike>⟧.holds
///     (record { 0 = record { 0 = a; 1 = b }; 1 = record { 0 = a; 1 = c } }) i }
/// ```
pub fn virtual_laws<A: BitSetLike, B: BitSetLike, C: BitSetLike>() {}

/// The laws of the words that a set covers. The call does nothing, and its contract says them. A set with exact
/// summaries covers words if each of their bits is set in its own.
///
/// - A set that covers words covers its own (`own`).
/// - What it covers, it covers also if bits are taken out, on either side of an intersection (`left`, `right`).
///
/// By the clause `bound` of `iter`, a walk over covered words reads at most four words for each member of the set, and
/// the top. So that bound holds in intersections and differences nested at will, for each operand with exact summaries
/// that is not subtracted.
///
/// # Contract
///
/// ```text
/// ensures own { (n : ℕ) (holds : ℕ → Bool) (own word : ℕ → ℕ → ℕ) → CoversWords n holds own word
///     → CoversWords n holds own own }
/// ensures left { (n : ℕ) (holds : ℕ → Bool) (own word other : ℕ → ℕ → ℕ)
///     → CoversWords n holds own word
///     → CoversWords n holds own (λ l p. bit_and (word l p) (other l p)) }
/// ensures right { (n : ℕ) (holds : ℕ → Bool) (own word other : ℕ → ℕ → ℕ)
///     → CoversWords n holds own word
///     → CoversWords n holds own (λ l p. bit_and (other l p) (word l p)) }
/// ```
pub fn cover_laws() {}
