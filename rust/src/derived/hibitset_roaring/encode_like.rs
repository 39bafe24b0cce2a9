// Derived from crates/hibitset_roaring/src/encode_like.rt by rust/derive.py, and never edited by hand.

//! Any set written as a stream.

use crate::support::rattle_std::prelude::*;

use crate::derived::hibitset_roaring::encode::{len_of_source, write_source};
use crate::derived::hibitset_roaring::encode_container::write_kind;
use crate::derived::hibitset_roaring::header::KEYS;
use crate::derived::hibitset_roaring::key_counts::count_members;
use crate::derived::hibitset_roaring::layout::CONTAINER_WORDS;
use crate::derived::hibitset_roaring::nonzero_words::CONTAINER_BLOCKS;
use crate::derived::hibitset_roaring::runs::count_runs;
use crate::derived::hibitset_roaring::source::ContainerSource;
use crate::derived::hibitset::BitSetLike;
use crate::derived::hibitset_base::bits::{next_bit, take_bit};
use crate::support::rattle_std::alloc::{AllocError, Global};

// How many words layer 2 has, each over four containers.
const UPPER_WORDS: usize = 4096;

// How many bits of a word of layer 2 lie over a container.
const CONTAINER_BITS: usize = 16;

// The first position of layer 2 from one on whose word may be nonzero; or `UPPER_WORDS`.
fn next_upper<T: BitSetLike>(set: &T, from: usize) -> usize {
    let mut position = from;
    'words: while position < UPPER_WORDS {
        let bit = next_bit(set.layer3(position / 64), position % 64);
        position = 64 * (position / 64) + bit;
        if bit < 64 {
            return position;
        }
    }
    position
}

// The first key from one on under which there may be members; or `KEYS`.
fn next_key_of<T: BitSetLike>(set: &T, from: usize) -> usize {
    let mut key = from;
    'keys: while key < KEYS {
        let position = key / 4;
        let bit = next_bit(set.layer2(position), CONTAINER_BITS * (key % 4));
        if bit < 64 {
            return 4 * position + bit / CONTAINER_BITS;
        }
        key = 4 * next_upper(set, position + 1);
    }
    key
}

// Puts the words of a set under a word of its layer 1 into 64 zero words, from one on.
fn gather_block<T: BitSetLike>(set: &T, position: usize, words: &mut [usize], base: usize) {
    let mut places = set.layer1(position);
    'places: while places != 0 {
        let bit = take_bit(&mut places);
        words[base + bit] = set.layer0(64 * position + bit);
    }
}

// Puts the words of a container, and those of layer 1 over them, into zero words.
fn gather<T: BitSetLike>(set: &T, key: usize, words: &mut [usize], above: &mut [usize]) {
    'parts: for b in 0..CONTAINER_BLOCKS {
        let position = CONTAINER_BLOCKS * key + b;
        above[b] = set.layer1(position);
        gather_block(set, position, words, 64 * b);
    }
}

/// Any set, whose containers are gathered by its words.
struct LikeSource<'a, T: BitSetLike>(&'a T);

impl<T: BitSetLike> ContainerSource for LikeSource<'_, T> {
    fn next_key(&self, from: usize) -> usize {
        next_key_of(self.0, from)
    }

    fn count_under(&self, key: usize) -> usize {
        let mut words = [0; CONTAINER_WORDS];
        let mut above = [0; CONTAINER_BLOCKS];
        gather(self.0, key, &mut words, &mut above);
        count_members(&words, &above, 0)
    }

    fn count_runs(&self, key: usize, count: usize) -> usize {
        let mut words = [0; CONTAINER_WORDS];
        let mut above = [0; CONTAINER_BLOCKS];
        gather(self.0, key, &mut words, &mut above);
        count_runs(&words, &above, 0, count)
    }

    fn write_container(&self, out: &mut [u8], at: usize, key: usize, count: usize, runs: usize) {
        let mut words = [0; CONTAINER_WORDS];
        let mut above = [0; CONTAINER_BLOCKS];
        gather(self.0, key, &mut words, &mut above);
        write_kind(out, at, &words, &above, 0, count, runs);
    }
}

/// Any set in the portable Roaring format, as `write` writes a `BitSet` of the same members: the one stream without
/// runs of the members below `MAX_EID`.
///
/// # Errors
///
/// An allocation fails.
///
/// # Cost
///
/// - It makes no copy of the set: it gathers the words of one container at a time, twice, once to count its members and
///   once to write them.
/// - It allocates 16 bytes for each 65,536 numbers with members, and the stream's bytes.
///
/// # Contract
///
/// ```text
/// ensures stream { IfOk result (λ out. IsCanonicalStream (is_member (T.holds set.now))
///     out.items) }
/// ensures keys_below { IfOk result (λ out. HasKeysBelow out.items KEYS) }
/// ```
pub fn write_like<T: BitSetLike>(alloc: Global, set: &T) -> Result<Vec<u8>, AllocError> {
    write_source(alloc, &LikeSource(set))
}

/// How many bytes `write_like` makes of a set.
///
/// # Contract
///
/// ```text
/// ensures { (bytes : List ℕ) → IsPlainStream (is_member (T.holds set.now)) bytes
///     → length bytes ≡ result }
/// ```
pub fn serialized_len_like<T: BitSetLike>(set: &T) -> usize {
    len_of_source(&LikeSource(set), false)
}
