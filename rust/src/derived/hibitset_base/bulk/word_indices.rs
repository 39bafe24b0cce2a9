// Derived from crates/hibitset_base/src/bulk/word_indices.rt by rust/derive.py, and never edited by hand.

//! The indices of one word's bits, written into a buffer or pushed onto a list.

use crate::support::rattle_std::prelude::*;

use crate::derived::hibitset_base::byte_table::BITS_OF;
use crate::derived::hibitset_base::util::Index;

// Writes the index of the lowest set bit of `rest` to `buffer[end]`, and returns `rest` without it. For `rest == 0` it
// writes garbage: no branch.
#[inline]
pub(crate) fn write_bit(buffer: &mut [Index], end: usize, start: Index, rest: usize) -> usize {
    buffer[end] = start | rest.trailing_zeros();
    rest & rest.wrapping_sub(1)
}

// Writes the indices of a word's first four bits into a buffer, from a place on, or what does not matter where it has
// fewer, and returns the word without them.
#[inline]
fn write_four(buffer: &mut [Index], at: usize, start: Index, word: usize) -> usize {
    let mut rest = word;
    'four: for bit in 0..4usize {
        rest = write_bit(buffer, at + bit, start, rest);
    }
    rest
}

// Writes the indices of a word's bits into a buffer, from a place on. It goes by eights, so it may write past them.
#[inline]
fn write_by_eights(buffer: &mut [Index], at: usize, start: Index, word: usize) {
    let mut rest = word;
    let mut end = at;
    'eights: while rest != 0 {
        'bits: for bit in 0..8usize {
            rest = write_bit(buffer, end + bit, start, rest);
        }
        end += 8;
    }
}

// Writes the indices of a word with all bits set into a buffer, from a place on. The loop is vectorized.
#[inline]
fn write_all(buffer: &mut [Index], at: usize, start: Index) {
    'bits: for bit in 0..64usize {
        buffer[at + bit] = start + bit as Index;
    }
}

// Writes the indices of a byte's bits into a buffer, from a place on, where the first is at `start`, and returns the
// place after them. It writes eight, so it may write past that place: the loop has no test and is vectorized. Where the
// row begins has as many bits as the byte, and is at hand.
#[inline]
pub(crate) fn write_byte(buffer: &mut [Index], at: usize, start: Index, byte: u8) -> usize {
    let row = 8 * byte as usize;
    'places: for place in 0..8usize {
        buffer[at + place] = start + BITS_OF[row + place];
    }
    at + row.count_ones() as usize
}

// Writes the indices of a word's bits into a buffer, from a place on, byte by byte, and returns the place after them.
// It is called where it pays: in line it would take registers from the loop around it.
#[inline(never)]
fn write_by_bytes(buffer: &mut [Index], at: usize, start: Index, word: usize) -> usize {
    let mut end = at;
    'bytes: for place in 0..8u32 {
        end = write_byte(
            buffer,
            end,
            start + 8 * place,
            (word >> (8 * place) & 255) as u8,
        );
    }
    end
}

/// How many bits a word has at most that are written four and then eight at a time. Where there are more, a table of
/// bytes is faster.
pub(crate) const MAX_BITS_BY_EIGHTS: usize = 12;

// Writes the indices of a word's bits into a buffer, from a place on, and returns the place after them. Most words of a
// sparse set have no more than four, and those of a dense one all. It may write past that place.
#[inline]
pub(crate) fn write_bits(buffer: &mut [Index], at: usize, start: Index, word: usize) -> usize {
    if word == usize::MAX {
        write_all(buffer, at, start);
        return at + 64;
    }
    let count = word.count_ones() as usize;
    if count > MAX_BITS_BY_EIGHTS {
        return write_by_bytes(buffer, at, start, word);
    }
    let rest = write_four(buffer, at, start, word);
    if count <= 4 {
        return at + count;
    }
    write_by_eights(buffer, at + 4, start, rest);
    at + count
}

// Puts the indices of a word's first `count` bits at the end of a list, or what does not matter where it has fewer, and
// returns the list and the word without them. The list is handed over and back, as each function here does that adds to
// one without a test, so that a loop has the place where it ends in a register.
#[inline]
fn push_first(list: Vec<Index>, start: Index, word: usize, count: usize) -> (Vec<Index>, usize) {
    let mut list = list;
    let mut rest = word;
    'bits: for _bit in 0..count {
        list.push_reserved(start | rest.trailing_zeros());
        rest &= rest.wrapping_sub(1);
    }
    (list, rest)
}

// Puts the indices of a word's bits, of which it has `count`, at most twelve, at the end of a list. It goes by four and
// then by eight, and cuts what is too much. Most words of a sparse set have no more than four.
#[inline]
fn push_few(list: Vec<Index>, start: Index, word: usize, count: usize) -> Vec<Index> {
    let end = list.len() + count;
    let (mut list, rest) = push_first(list, start, word, 4);
    if count > 4 {
        (list, _) = push_first(list, start, rest, 8);
    }
    list.truncate(end);
    list
}

// Puts the indices of a word with all bits set at the end of a list. The loop is vectorized.
#[inline]
fn push_all(list: Vec<Index>, start: Index) -> Vec<Index> {
    let mut list = list;
    'bits: for bit in 0..64u32 {
        list.push_reserved(start + bit);
    }
    list
}

// Puts the indices of a byte's bits, where the first is at `start`, at the end of a list with room for eight more. It
// writes eight and cuts what is too much, so the loop has no test and is vectorized. The list is handed over and back,
// so that a loop has the place where it ends in a register.
#[inline]
pub(crate) fn push_byte(list: Vec<Index>, start: Index, byte: u8) -> Vec<Index> {
    let row = 8 * byte as usize;
    let end = list.len() + row.count_ones() as usize;
    let mut list = list;
    'places: for place in 0..8usize {
        list.push_reserved(start + BITS_OF[row + place]);
    }
    list.truncate(end);
    list
}

// Puts the indices of a word's bits at the end of a list, byte by byte.
#[inline]
fn push_by_bytes(list: Vec<Index>, start: Index, word: usize) -> Vec<Index> {
    let mut list = list;
    'bytes: for place in 0..8u32 {
        list = push_byte(list, start + 8 * place, (word >> (8 * place) & 255) as u8);
    }
    list
}

// Puts the indices of a word's bits at the end of a list that has room for a whole word.
#[inline]
pub(crate) fn push_word(list: Vec<Index>, start: Index, word: usize) -> Vec<Index> {
    if word == usize::MAX {
        return push_all(list, start);
    }
    let count = word.count_ones() as usize;
    if count > MAX_BITS_BY_EIGHTS {
        return push_by_bytes(list, start, word);
    }
    push_few(list, start, word, count)
}
