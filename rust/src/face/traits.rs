//! Traits of std's sets.

use crate::derived::hibitset_sparse::walk::WordIter;
use crate::{BitSet, BitSetLike, BitSetXor, SparseBitSet};
use core::cmp::Ordering;
use core::hash::{Hash, Hasher};

/// Hashes the words that are not 0, each behind its position, and then a position that no word has.
fn hash_words<H: Hasher>(words: impl Iterator<Item = (usize, usize)>, state: &mut H) {
    for (position, word) in words {
        state.write_u32(position as u32);
        state.write_usize(word);
    }
    state.write_u32(u32::MAX);
}

/// Equal sets have one hash, whatever their capacity is.
impl Hash for BitSet {
    fn hash<H: Hasher>(&self, state: &mut H) {
        let words = self.layer0_as_slice().iter().copied().enumerate();
        hash_words(words.filter(|&(_, word)| word != 0), state);
    }
}

/// The hash is that of a [`BitSet`] with the same members.
impl Hash for SparseBitSet {
    fn hash<H: Hasher>(&self, state: &mut H) {
        let mut words = WordIter::new(&self.0.chunks);
        let next = || words.next().map(|(first, word)| (first / 64, word));
        hash_words(core::iter::from_fn(next), state);
    }
}

/// The order of the ascending lists of members.
fn compare<T: BitSetLike>(a: &T, b: &T) -> Ordering {
    let Some(first) = BitSetXor(a, b).first() else {
        return Ordering::Equal;
    };
    // Before it the lists are alike. Who has it is less if the other's list goes on, with a greater one, else longer.
    let (lacks, order) = if a.contains(first) {
        (b, Ordering::Less)
    } else {
        (a, Ordering::Greater)
    };
    if lacks.last() > Some(first) {
        order
    } else {
        order.reverse()
    }
}

macro_rules! ordered {
    ($($set:ty;)*) => {$(
        /// The order is that of the ascending lists of members, as a `BTreeSet` has it: `{1, 9} < {2}`, and a set comes
        /// before one whose list it begins.
        impl Ord for $set {
            fn cmp(&self, other: &$set) -> Ordering {
                compare(self, other)
            }
        }

        impl PartialOrd for $set {
            fn partial_cmp(&self, other: &$set) -> Option<Ordering> {
                Some(self.cmp(other))
            }
        }
    )*};
}

ordered! {
    BitSet;
    SparseBitSet;
}
