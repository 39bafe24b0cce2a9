// Derived from crates/hibitset_roaring/src/decode_container.rt by rust/derive.py, and never edited by hand.

//! The containers of a stream, read into words.

use crate::support::rattle_std::prelude::*;

use crate::derived::hibitset_roaring::error::{Fault, Malformed, ReadError};
use crate::derived::hibitset_roaring::header::{CONTAINER_NUMBERS, Header};
use crate::derived::hibitset_roaring::layout::{CONTAINER_WORDS, MAX_ARRAY_LEN};
use crate::derived::hibitset_roaring::nonzero_words::CONTAINER_BLOCKS;
use crate::derived::hibitset_roaring::number::{read_u16, read_u64};
use crate::derived::hibitset_roaring::words::{lengthen, set_bit, set_range};
use crate::support::rattle_std::alloc::AllocError;

// How many words lie under a word of layer 1.
const BLOCK_WORDS: usize = 64;

// Adds the members of an array to words.
fn read_array(
    bytes: &[u8],
    at: usize,
    len: usize,
    words: &mut [usize],
    key: usize,
) -> Result<(), Malformed> {
    let mut next = 0;
    'numbers: for j in 0..len {
        let low = read_u16(bytes, at + 2 * j);
        if low < next {
            return Err(Malformed {
                fault: Fault::NotAscending,
                at: at + 2 * j,
            });
        }
        set_bit(words, CONTAINER_NUMBERS * key + low);
        next = low + 1;
    }
    Ok(())
}

// Puts words behind others, as many as lie under a word of layer 1, and returns how many bits they have.
fn append_block(bytes: &[u8], at: usize, words: &mut Vec<usize>) -> Result<usize, AllocError> {
    let mut block = [0; BLOCK_WORDS];
    let mut ones = 0;
    'words: for j in 0..BLOCK_WORDS {
        let word = read_u64(bytes, at + 8 * j);
        block[j] = word;
        ones += word.count_ones() as usize;
    }
    words.extend_from_slice(&block)?;
    Ok(ones)
}

// Puts the bits of a container behind words, and returns how many there are.
fn append_bits(bytes: &[u8], at: usize, words: &mut Vec<usize>) -> Result<usize, AllocError> {
    let mut ones = 0;
    'parts: for block in 0..CONTAINER_BLOCKS {
        ones += append_block(bytes, at + 8 * BLOCK_WORDS * block, words)?;
    }
    Ok(ones)
}

// Adds the members of runs to words, and returns how many there are.
fn read_runs(bytes: &[u8], at: usize, words: &mut [usize], key: usize) -> Result<usize, Malformed> {
    let count = read_u16(bytes, at);
    let mut next = 0;
    let mut total = 0;
    'runs: for r in 0..count {
        let start = at + 2 + 4 * r;
        let first = read_u16(bytes, start);
        let last = first + read_u16(bytes, start + 2);
        if first < next {
            return Err(Malformed {
                fault: Fault::RunsNotApart,
                at: start,
            });
        }
        if last >= CONTAINER_NUMBERS {
            return Err(Malformed {
                fault: Fault::RunPastEnd,
                at: start + 2,
            });
        }
        set_range(
            words,
            CONTAINER_NUMBERS * key + first,
            CONTAINER_NUMBERS * key + last + 1,
        );
        total += last + 1 - first;
        next = last + 2;
    }
    Ok(total)
}

// Checks that a container has as many members as the header says.
fn check_count(count: usize, cardinality: usize, at: usize) -> Result<(), Malformed> {
    if count == cardinality {
        Ok(())
    } else {
        Err(Malformed {
            fault: Fault::WrongCardinality,
            at,
        })
    }
}

// Adds the members of runs to words, and checks that they are as many as the header says.
fn read_runs_of(
    bytes: &[u8],
    at: usize,
    cardinality: usize,
    words: &mut [usize],
    key: usize,
) -> Result<(), Malformed> {
    let total = read_runs(bytes, at, words, key)?;
    check_count(total, cardinality, at)
}

// Adds the members of a container that is no bits to words, with other high bits.
fn read_numbers(
    bytes: &[u8],
    header: &Header,
    k: usize,
    at: usize,
    words: &mut [usize],
    key: usize,
) -> Result<(), Malformed> {
    let cardinality = header.cardinality(bytes, k);
    if header.is_run(bytes, k) {
        return read_runs_of(bytes, at, cardinality, words, key);
    }
    read_array(bytes, at, cardinality, words, key)
}

// Adds the members of a container to words, with other high bits. The words end before those of these high bits, and then
// with them.
pub(crate) fn read_container(
    bytes: &[u8],
    header: &Header,
    k: usize,
    at: usize,
    words: &mut Vec<usize>,
    key: usize,
) -> Result<(), ReadError> {
    let cardinality = header.cardinality(bytes, k);
    if header.is_run(bytes, k) || cardinality <= MAX_ARRAY_LEN {
        lengthen(words, CONTAINER_WORDS * (key + 1))?;
        return Ok(read_numbers(bytes, header, k, at, words, key)?);
    }
    lengthen(words, CONTAINER_WORDS * key)?;
    let count = append_bits(bytes, at, words)?;
    Ok(check_count(count, cardinality, at)?)
}
