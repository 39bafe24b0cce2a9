//! The same members in sets of other kinds. `fixedbitset`, `bit-set` and CRoaring are left out where they are not found.
use std::collections::{BTreeSet, HashSet};

pub const END: usize = 1 << 24;

/// One list of indices in each kind of set.
pub struct Peers {
    #[cfg(fixedbitset)]
    pub fixed: fixedbitset::FixedBitSet,
    #[cfg(bit_set)]
    pub bits: bit_set::BitSet,
    #[cfg(roaring)]
    pub roaring: crate::roaring::Roaring,
    pub tree: BTreeSet<u32>,
    pub hash: HashSet<u32>,
}

impl Peers {
    /// Where instructions are counted, the peers have no part, and no members.
    pub fn of(ids: &[u32]) -> Peers {
        let ids = if crate::harness::counts() { &[] } else { ids };
        Peers {
            #[cfg(fixedbitset)]
            fixed: fixed_of(ids),
            #[cfg(bit_set)]
            bits: ids.iter().map(|id| *id as usize).collect(),
            #[cfg(roaring)]
            roaring: crate::roaring::Roaring::of(ids),
            tree: ids.iter().copied().collect(),
            hash: ids.iter().copied().collect(),
        }
    }
}

#[cfg(fixedbitset)]
pub fn fixed_of(ids: &[u32]) -> fixedbitset::FixedBitSet {
    let mut set = fixedbitset::FixedBitSet::with_capacity(END);
    ids.iter().for_each(|id| set.insert(*id as usize));
    set
}

pub fn sum(indices: impl Iterator<Item = u32>) -> u64 {
    let mut sum = 0u64;
    for index in indices {
        sum = sum.wrapping_add(index as u64);
    }
    sum
}

pub fn wide_sum(indices: impl Iterator<Item = usize>) -> u64 {
    let mut sum = 0u64;
    for index in indices {
        sum = sum.wrapping_add(index as u64);
    }
    sum
}

/// The peers that are there, as the table's columns.
pub fn names() -> Vec<&'static str> {
    let mut names = Vec::new();
    if cfg!(fixedbitset) {
        names.push("fixedbitset");
    }
    if cfg!(bit_set) {
        names.push("bit-set");
    }
    if cfg!(roaring) {
        names.push("CRoaring");
    }
    names.extend(["BTreeSet", "HashSet"]);
    names
}
