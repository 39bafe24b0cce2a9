//! Hierarchical bit sets: fast sets of `u32` indices that skip empty regions and combine without copying.
//!
//! The crate has the names of the crate `hibitset` 0.6.3. Its code is derived from a proved source: the source is proved
//! to be safe, to return and to do what its contracts say, and the crate has the same tokens with the contracts left out.
//! The clauses of each derived call stand under it as `# Contract`. README says what is trusted beside the proofs.
//!
//! ```
//! use hibitset::{BitSet, BitSetLike};
//!
//! let mut dirty: BitSet = [5, 70_000].into_iter().collect();
//! let loaded: BitSet = [7, 70_000].into_iter().collect();
//!
//! // A virtual set: no index is copied, and the iteration skips what either lacks.
//! for page in &dirty & &loaded {
//!     assert_eq!(page, 70_000);
//! }
//! assert_eq!((&dirty | &loaded).len(), 3);
//!
//! dirty &= &loaded;
//! assert_eq!(dirty.to_vec(), [70_000]);
//! ```
//!
//! # Layers
//!
//! A set has five layers of 64-bit words. Layer 0 has one bit for each index. A bit of a layer above says whether a word
//! below it is nonzero, and layer 4 is one word. So an iteration never looks where no member is, and indices lie below
//! 64<sup>5</sup>: [`MAX_EID`] is 2<sup>30</sup>. One index near it makes a set of 136 MB. A [`SparseBitSet`] keeps the
//! nonzero words alone: one index takes some 400 bytes, wherever it lies. The two mix without a copy.
//!
//! ```
//! use hibitset::{BitSet, SparseBitSet};
//!
//! let dirty: BitSet = [5, 70_000].into_iter().collect();
//! let mut seen = SparseBitSet::from([70_000, 1_000_000_000]);
//! assert!((&dirty & &seen).into_iter().eq([70_000]));
//! seen |= &dirty;
//! assert_eq!(seen.to_vec(), [5, 70_000, 1_000_000_000]);
//! ```
//!
//! # If an allocation fails
//!
//! A call that needs memory ends the process by [`handle_alloc_error`](alloc::alloc::handle_alloc_error), as a `Vec`
//! does. Its twin whose name begins with `try_` returns [`AllocError`], and the members are then as they were;
//! [`BitSet::try_extend`] keeps the items that came before. The same holds of a [`SparseBitSet`].
//!
//! # If a set of another type panics
//!
//! An assignment (`|=`, `&=`, `^=`, `-=` and their twins) reads the words of its right operand while it writes. If the
//! operand's type is yours and it panics, the left set stays valid: each word of 64 indices is merged or as it was. If
//! there is no memory to sum its words again, it is empty. A left [`SparseBitSet`] has its old members; if there is no
//! memory for its new words, `&=` and `-=` may have removed some of those that they were to remove.
//!
//! # What Rust can't force
//!
//! In the source, each type with [`BitSetLike`] proves that a summary bit is set over each nonzero word, and the
//! provided methods of [`BitSetLike`] and [`DrainableBitSet`] are final. In Rust neither is checked. A type of yours that
//! breaks the law, or overrides a provided method, gets wrong answers or panics, and never undefined behaviour. The
//! members of a [`BitSet`] or a [`SparseBitSet`] that it is merged into are then what its words said, under exact
//! summaries.
#![no_std]
#![forbid(unsafe_code)]
#![warn(missing_docs)]

extern crate alloc;
#[cfg(feature = "std")]
extern crate std;

#[cfg(not(target_pointer_width = "64"))]
compile_error!("the words of a set have 64 bits, as `usize` must have: its source is proved for that width alone");

// What derived tests and programs call is there too.
#[allow(dead_code, unused_imports)]
#[macro_use]
mod support;
mod beside;
#[cfg(test)]
#[path = "beside/tests.rs"]
mod beside_tests;
// Its text is that of the sources. Proofs name loops (`unused_labels`), and clauses use names and parameters that no code
// does (`dead_code`, `unused_imports`, `unused_variables`). Where the prover excludes a case, an empty array is indexed
// (`unconditional_panic`). rustc 1.85 does not know the lint of lifetimes (`unknown_lints`).
#[rustfmt::skip]
#[allow(unknown_lints, dead_code, missing_docs, unused_imports, unused_labels, unused_variables, mismatched_lifetime_syntaxes, unconditional_panic, clippy::all)]
mod derived;
mod face;

pub use beside::Masks;
pub use derived::hibitset_atomic::ATOMIC_MAX_EID;
/// With the feature `parallel` it is a `ParallelIterator` of rayon, whose calls run in rayon's threads. It panics there if
/// the number of [`layers_split`](BitParIter::layers_split) is not 1, 2, 3 or 4. What follows of calls that start threads
/// is about the proved source, whose own calls this crate keeps for itself.
///
/// ---
pub use derived::hibitset_base::BitParIter;
/// Types of yours may have it: five words by position, and `contains`. Rust checks neither that a summary bit is set over
/// each nonzero word, nor that the provided methods, which are final in the proved source, are left alone.
/// [`get_from_layer`](BitSetLike::get_from_layer) panics at a layer above 4.
///
/// ---
pub use derived::hibitset_base::BitSetLike;
pub use derived::hibitset_base::{
    BitIter, BitProducer, BitRevIter, BitSetAll, BitSetAnd, BitSetNot, BitSetOr, BitSetRange,
    BitSetXor, DrainBitIter, DrainableBitSet, Index, LAYERS, MAX_EID,
};
pub use derived::hibitset_roaring::{Fault as RoaringFault, Malformed, ReadError as RoaringError};
pub use face::{
    AtomicBitSet, BitIterBoth, BitSet, BitSetLikeExt, Ranked, Seat, SparseBitSet, SparseIter,
};
pub use support::rattle_std::alloc::{AllocError, Global};

// The examples of README are compiled with those of the documentation.
#[cfg(doctest)]
#[doc = include_str!("../README.md")]
struct Readme;
