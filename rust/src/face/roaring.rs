//! Sets as streams in the portable Roaring format.

use crate::derived::hibitset_roaring as roaring;
use crate::face::out_of_memory;
use crate::{AllocError, BitSet, Global, RoaringError, SparseBitSet};
use alloc::vec::Vec;

impl BitSet {
    /// Returns the set of a stream in the portable Roaring format, which the crate `roaring` and CRoaring have too.
    ///
    /// The whole slice is the stream. It is checked to the last byte; a stream of 18 bytes can make a set of 136 MB, so
    /// read what a stranger sends by [`from_roaring_below`](BitSet::from_roaring_below).
    ///
    /// ```
    /// use hibitset::{BitSet, Malformed, RoaringError, RoaringFault};
    ///
    /// let set = BitSet::from([1, 2, 65_539]);
    /// let bytes = set.to_roaring();
    /// assert_eq!(BitSet::from_roaring(&bytes), Ok(set));
    ///
    /// let cut = BitSet::from_roaring(&bytes[..29]);
    /// assert_eq!(cut, Err(RoaringError::Malformed(Malformed { fault: RoaringFault::TooShort, at: 28 })));
    /// ```
    ///
    /// # Errors
    ///
    /// [`RoaringError`] names the fault and the byte where it is, or says that an allocation failed.
    pub fn from_roaring(bytes: &[u8]) -> Result<BitSet, RoaringError> {
        roaring::read(Global, bytes).map(BitSet)
    }

    /// Returns the set of a stream, as [`from_roaring`](BitSet::from_roaring) does, whose members lie below
    /// `65,536 * end`: a set of 8.3 KB for each 65,536 indices at most. An `end` above 16,384 acts as 16,384.
    ///
    /// ```
    /// use hibitset::BitSet;
    ///
    /// let bytes = BitSet::from([65_536]).to_roaring();
    /// assert!(BitSet::from_roaring_below(&bytes, 1).is_err());
    /// assert!(BitSet::from_roaring_below(&bytes, 2).is_ok());
    /// ```
    ///
    /// # Errors
    ///
    /// As [`from_roaring`](BitSet::from_roaring); for a greater member the fault is
    /// [`OutOfRange`](crate::RoaringFault::OutOfRange).
    pub fn from_roaring_below(bytes: &[u8], end: u32) -> Result<BitSet, RoaringError> {
        roaring::read_below(Global, bytes, (end as usize).min(roaring::KEYS)).map(BitSet)
    }

    /// Returns the set as a stream in the portable Roaring format.
    #[must_use]
    pub fn to_roaring(&self) -> Vec<u8> {
        self.try_to_roaring()
            .unwrap_or_else(|error| out_of_memory(error))
    }

    /// Returns the set as a stream, as [`to_roaring`](BitSet::to_roaring) does.
    ///
    /// # Errors
    ///
    /// [`AllocError`] if an allocation fails.
    pub fn try_to_roaring(&self) -> Result<Vec<u8>, AllocError> {
        roaring::write(Global, &self.0).map(crate::support::rattle_std::vec::Vec::into_rust)
    }

    /// Returns the number of bytes of the stream that [`to_roaring`](BitSet::to_roaring) makes.
    #[must_use]
    pub fn roaring_len(&self) -> usize {
        roaring::serialized_len(&self.0)
    }
}

impl SparseBitSet {
    /// Returns the sparse set of a stream, as [`BitSet::from_roaring`] reads a dense one.
    ///
    /// Its memory goes by the stream, wherever the members lie: at most 8 KB of words for each container, of which each
    /// takes 10 bytes of the stream at least.
    ///
    /// ```
    /// use hibitset::SparseBitSet;
    ///
    /// let set = SparseBitSet::from([1, 2, 1_000_000_000]);
    /// let bytes = set.to_roaring();
    /// assert_eq!(SparseBitSet::from_roaring(&bytes), Ok(set));
    /// ```
    ///
    /// # Errors
    ///
    /// [`RoaringError`] names the fault and the byte where it is, or says that an allocation failed.
    pub fn from_roaring(bytes: &[u8]) -> Result<SparseBitSet, RoaringError> {
        roaring::read_sparse(Global, bytes).map(SparseBitSet)
    }

    /// Returns the sparse set of a stream, as [`from_roaring`](SparseBitSet::from_roaring) does, whose members lie below
    /// `65,536 * end`. An `end` above 16,384 acts as 16,384.
    ///
    /// ```
    /// use hibitset::SparseBitSet;
    ///
    /// let bytes = SparseBitSet::from([65_536]).to_roaring();
    /// assert!(SparseBitSet::from_roaring_below(&bytes, 1).is_err());
    /// assert!(SparseBitSet::from_roaring_below(&bytes, 2).is_ok());
    /// ```
    ///
    /// # Errors
    ///
    /// As [`from_roaring`](SparseBitSet::from_roaring); for a greater member the fault is
    /// [`OutOfRange`](crate::RoaringFault::OutOfRange).
    pub fn from_roaring_below(bytes: &[u8], end: u32) -> Result<SparseBitSet, RoaringError> {
        roaring::read_sparse_below(Global, bytes, (end as usize).min(roaring::KEYS))
            .map(SparseBitSet)
    }

    /// Returns the set as a stream in the portable Roaring format: the bytes that
    /// [`to_roaring`](BitSet::to_roaring) makes of a [`BitSet`] with the same members.
    #[must_use]
    pub fn to_roaring(&self) -> Vec<u8> {
        self.try_to_roaring()
            .unwrap_or_else(|error| out_of_memory(error))
    }

    /// Returns the set as a stream, as [`to_roaring`](SparseBitSet::to_roaring) does.
    ///
    /// # Errors
    ///
    /// [`AllocError`] if an allocation fails.
    pub fn try_to_roaring(&self) -> Result<Vec<u8>, AllocError> {
        roaring::write_like(Global, &self.0).map(crate::support::rattle_std::vec::Vec::into_rust)
    }

    /// Returns the number of bytes of the stream that [`to_roaring`](SparseBitSet::to_roaring) makes.
    #[must_use]
    pub fn roaring_len(&self) -> usize {
        roaring::serialized_len_like(&self.0)
    }
}
