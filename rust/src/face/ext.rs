//! Sets and lists of their own, made of any set.

use crate::face::out_of_memory;
use crate::{AllocError, BitSet, BitSetLike, Global, Index};
use alloc::vec::Vec;

/// What every set can be made into. Each type with [`BitSetLike`] has it; the crate `hibitset` 0.6.3 has no such trait.
///
/// ```
/// use hibitset::{BitSet, BitSetLikeExt};
///
/// let (a, b) = (BitSet::from([1, 2, 300]), BitSet::from([2, 300, 4]));
/// assert_eq!((&a & &b).to_vec(), [2, 300]);
/// assert_eq!((&a & &b).to_bit_set(), BitSet::from([2, 300]));
/// ```
pub trait BitSetLikeExt: BitSetLike + Sized {
    /// Returns the members, ascending.
    fn to_vec(&self) -> Vec<Index> {
        match BitSetLike::try_to_vec(self, Global) {
            Ok(list) => list.into_rust(),
            Err(error) => out_of_memory(error),
        }
    }

    /// Returns a [`BitSet`] with the members.
    fn to_bit_set(&self) -> BitSet {
        self.try_to_bit_set()
            .unwrap_or_else(|error| out_of_memory(error))
    }

    /// Returns a [`BitSet`] with the members.
    ///
    /// # Errors
    ///
    /// [`AllocError`] if an allocation fails.
    fn try_to_bit_set(&self) -> Result<BitSet, AllocError> {
        let mut set = BitSet::new();
        set.try_bitor_assign(self)?;
        Ok(set)
    }
}

impl<T: BitSetLike> BitSetLikeExt for T {}
