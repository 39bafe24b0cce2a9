//! Sets by serde: the bytes of a portable Roaring stream in a binary format, and in one that people read the ascending
//! list of members.

use crate::derived::hibitset_roaring::write_like;
use crate::{
    AllocError, AtomicBitSet, BitSet, Global, Index, SparseBitSet, ATOMIC_MAX_EID, MAX_EID,
};
use ::serde::de::{Deserialize, Deserializer, Error as _, SeqAccess, Unexpected, Visitor};
use ::serde::ser::{Error as _, Serialize, Serializer};
use core::fmt::{self, Formatter};

/// How many indices have one key of a Roaring stream.
const INDICES_PER_KEY: usize = 1 << 16;

/// The bytes of [`BitSet::to_roaring`], or the ascending list of members where the format is human readable.
impl Serialize for BitSet {
    fn serialize<S: Serializer>(&self, serializer: S) -> Result<S::Ok, S::Error> {
        if serializer.is_human_readable() {
            return serializer.collect_seq(self);
        }
        serializer.serialize_bytes(&self.try_to_roaring().map_err(S::Error::custom)?)
    }
}

/// As a [`BitSet`] with the members. One iteration reads them, since threads may add meanwhile.
impl Serialize for AtomicBitSet {
    fn serialize<S: Serializer>(&self, serializer: S) -> Result<S::Ok, S::Error> {
        let mut set = BitSet::new();
        set.try_extend(self).map_err(S::Error::custom)?;
        set.serialize(serializer)
    }
}

/// As a [`BitSet`] with the members. A binary format makes one on the way: 8.3 KB for each 65,536 indices up to the
/// last member.
impl Serialize for SparseBitSet {
    fn serialize<S: Serializer>(&self, serializer: S) -> Result<S::Ok, S::Error> {
        if serializer.is_human_readable() {
            return serializer.collect_seq(self);
        }
        let bytes = write_like(Global, &self.0).map_err(S::Error::custom)?;
        serializer.serialize_bytes(&bytes)
    }
}

/// A set that members are read into.
trait Read: Default {
    fn try_add(&mut self, index: Index) -> Result<bool, AllocError>;
    fn try_of(set: BitSet) -> Result<Self, AllocError>;
}

impl Read for BitSet {
    fn try_add(&mut self, index: Index) -> Result<bool, AllocError> {
        BitSet::try_add(self, index)
    }

    fn try_of(set: BitSet) -> Result<BitSet, AllocError> {
        Ok(set)
    }
}

impl Read for SparseBitSet {
    fn try_add(&mut self, index: Index) -> Result<bool, AllocError> {
        SparseBitSet::try_add(self, index)
    }

    fn try_of(set: BitSet) -> Result<SparseBitSet, AllocError> {
        SparseBitSet::try_from_set(&set)
    }
}

/// Takes either form, if the format says which one it has.
struct Members<T> {
    /// Members lie below this bound.
    end: usize,
    set: T,
}

impl<'de, T: Read> Visitor<'de> for Members<T> {
    type Value = T;

    fn expecting(&self, f: &mut Formatter<'_>) -> fmt::Result {
        write!(
            f,
            "indices below {}, as a list or as a portable Roaring stream",
            self.end
        )
    }

    fn visit_seq<A: SeqAccess<'de>>(mut self, mut list: A) -> Result<T, A::Error> {
        // The list need not ascend. Nothing is reserved for the length that it announces.
        while let Some(index) = list.next_element::<Index>()? {
            if index as usize >= self.end {
                return Err(A::Error::invalid_value(
                    Unexpected::Unsigned(index.into()),
                    &self,
                ));
            }
            self.set.try_add(index).map_err(A::Error::custom)?;
        }
        Ok(self.set)
    }

    fn visit_bytes<E: ::serde::de::Error>(self, bytes: &[u8]) -> Result<T, E> {
        let keys = (self.end / INDICES_PER_KEY) as u32;
        let read = BitSet::from_roaring_below(bytes, keys).map_err(E::custom)?;
        T::try_of(read).map_err(E::custom)
    }
}

fn read<'de, T: Read, D: Deserializer<'de>>(deserializer: D, end: usize) -> Result<T, D::Error> {
    let set = T::default();
    if deserializer.is_human_readable() {
        deserializer.deserialize_seq(Members { end, set })
    } else {
        deserializer.deserialize_bytes(Members { end, set })
    }
}

/// Reads what a [`BitSet`] writes. A list need not ascend, and may have an index twice. What a stranger sends in some
/// bytes can make a set of 136 MB: serde gives no bound, as
/// [`from_roaring_below`](BitSet::from_roaring_below) does.
///
/// # Errors
///
/// The fault of a stream and the byte where it is, an index that is out of range, or a failed allocation.
impl<'de> Deserialize<'de> for BitSet {
    fn deserialize<D: Deserializer<'de>>(deserializer: D) -> Result<BitSet, D::Error> {
        read(deserializer, MAX_EID)
    }
}

/// As for a [`BitSet`], which a binary format makes on the way. A list makes none: its set goes by its members.
impl<'de> Deserialize<'de> for SparseBitSet {
    fn deserialize<D: Deserializer<'de>>(deserializer: D) -> Result<SparseBitSet, D::Error> {
        read(deserializer, MAX_EID)
    }
}

/// As for a [`BitSet`]. Members lie below [`ATOMIC_MAX_EID`].
impl<'de> Deserialize<'de> for AtomicBitSet {
    fn deserialize<D: Deserializer<'de>>(deserializer: D) -> Result<AtomicBitSet, D::Error> {
        let members: BitSet = read(deserializer, ATOMIC_MAX_EID)?;
        let mut set = AtomicBitSet::new();
        for index in &members {
            set.try_add(index).map_err(D::Error::custom)?;
        }
        Ok(set)
    }
}
