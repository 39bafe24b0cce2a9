// Derived from crates/hibitset_base/src/bits.rt by rust/derive.py, and never edited by hand.

//! The bits of one word, and one word replaced by another.

use crate::support::rattle_std::prelude::*;

/// A word whose lowest `count` bits are set.
///
/// # Contract
///
/// ```text
/// requires { count ≤ 64 }
/// ensures { result ≡ 2 ^ count - 1 }
/// ```
#[inline]
pub fn low_bits(count: usize) -> usize {
    if count == 64 {
        usize::MAX
    } else {
        (1 << count) - 1
    }
}

/// The word whose bits stand for the numbers from `first` on, with those of the numbers from `start` on before `end`.
///
/// # Contract
///
/// ```text
/// ensures { (b : ℕ) → b < 64 → bit_at result b ≡ bit_of (in_range start end (first + b)) }
/// ```
#[inline]
pub fn bits_within(first: usize, start: usize, end: usize) -> usize {
    let before = low_bits(start.saturating_sub(first).min(64));
    low_bits(end.saturating_sub(first).min(64)) & !before
}

/// The bits of a word before a bit.
///
/// # Contract
///
/// ```text
/// requires { bit < 64 }
/// ensures { HasPart word 0 bit result }
/// ```
#[inline]
pub fn head(word: usize, bit: u32) -> usize {
    word & ((1usize << bit) - 1)
}

/// The bits of a word from a bit on.
///
/// # Contract
///
/// ```text
/// requires { bit < 64 }
/// ensures { HasPart word bit 64 result }
/// ```
#[inline]
pub fn tail(word: usize, bit: u32) -> usize {
    word & !((1usize << bit) - 1)
}

/// The bits of a word after a bit.
///
/// # Contract
///
/// ```text
/// requires { bit < 64 }
/// ensures { HasPart word (bit + 1) 64 result }
/// ```
#[inline]
pub fn tail_after(word: usize, bit: u32) -> usize {
    word & (!1usize << bit)
}

/// The bits of a word from one bit on before another.
///
/// # Contract
///
/// ```text
/// requires order { from ≤ to }
/// requires in_word { to ≤ 64 }
/// ensures { HasPart word from to result }
/// ```
#[inline]
pub fn part(word: usize, from: u32, to: u32) -> usize {
    let upto = low_bits(to as usize);
    let before = low_bits(from as usize);
    let ones = upto - before;
    word & ones
}

/// The lowest bit that is set in a word, from one on; or 64.
///
/// # Contract
///
/// ```text
/// requires { from < 64 }
/// ensures order { from ≤ result }
/// ensures within { result ≤ 64 }
/// ensures skips { (b : ℕ) → from ≤ b → b < result → bit_at word b ≡ 0 }
/// ensures found { result < 64 → bit_at word result ≡ 1 }
/// ```
#[inline]
pub fn next_bit(word: usize, from: usize) -> usize {
    let rest = word >> from;
    if rest == 0 {
        64
    } else {
        from + rest.trailing_zeros() as usize
    }
}

/// Takes the lowest bit out of a word, and returns its number.
///
/// # Contract
///
/// ```text
/// requires { 0 < word.old }
/// ensures in_word { result < 64 }
/// ensures bit_was_set { bit_at word.old result ≡ 1 }
/// ensures lowest { (b : ℕ) → b < result → bit_at word.old b ≡ 0 }
/// ensures bit_cleared { bit_at word.new result ≡ 0 }
/// ensures same { (b : ℕ) → b < 64 → b ≢ result → bit_at word.new b ≡ bit_at word.old b }
/// ensures first { (start : ℕ) → bits_from start word.old
///     ≡ (start + result) ∷ bits_from start word.new }
/// ensures fewer { count_ones word.old ≡ count_ones word.new + 1 }
/// ensures less { word.new < word.old }
/// ```
#[inline]
pub fn take_bit(word: &mut usize) -> usize {
    let bit = word.trailing_zeros();
    *word &= *word - 1;
    bit as usize
}

/// The number of the highest bit.
///
/// # Contract
///
/// ```text
/// requires { 0 < word }
/// ensures in_word { result < 64 }
/// ensures bit_was_set { bit_at word result ≡ 1 }
/// ensures highest { (b : ℕ) → bit_at word b ≡ 1 → b ≤ result }
/// ```
#[inline]
pub fn last_bit(word: usize) -> usize {
    63 - word.leading_zeros() as usize
}

/// Takes the highest bit out of a word, and returns its number.
///
/// # Contract
///
/// ```text
/// requires { 0 < word.old }
/// ensures in_word { result < 64 }
/// ensures bit_was_set { bit_at word.old result ≡ 1 }
/// ensures highest { (b : ℕ) → bit_at word.old b ≡ 1 → b ≤ result }
/// ensures bit_cleared { bit_at word.new result ≡ 0 }
/// ensures same { (b : ℕ) → b < 64 → b ≢ result → bit_at word.new b ≡ bit_at word.old b }
/// ensures less { word.new < word.old }
/// ```
#[inline]
pub fn take_last_bit(word: &mut usize) -> usize {
    let bit = last_bit(*word);
    // A rotation and not a shift: LLVM makes a shift one by the leading zeros, and counts these again.
    *word &= (!1usize).rotate_left(bit as u32);
    bit
}

/// The word with one bit set or cleared.
///
/// # Contract
///
/// ```text
/// requires { bit < 64 }
/// ensures same { (b : ℕ) → b < 64 → b ≢ bit → bit_at result b ≡ bit_at word b }
/// ensures here { bit_at result bit ≡ bit_of stands }
/// ```
#[inline]
pub fn with_bit(word: usize, bit: usize, stands: bool) -> usize {
    if stands {
        word | (1 << bit)
    } else {
        word & !(1 << bit)
    }
}

/// The word of a slice at a position, or 0 past its end.
///
/// # Contract
///
/// ```text
/// ensures { result ≡ get_or words.now position 0 }
/// ```
#[inline]
pub fn word_or_zero(words: &[usize], position: usize) -> usize {
    if position < words.len() {
        words[position]
    } else {
        0
    }
}

/// Stores `word` at `place`, where `before` was, and returns whether exactly one of the two is 0.
///
/// # Contract
///
/// ```text
/// requires in_range { place < length words.old.items }
/// requires before { before ≡ get_or words.old.items place 0 }
/// ensures length { length words.new.items ≡ length words.old.items }
/// ensures here { get_or words.new.items place 0 ≡ word }
/// ensures others { (p : ℕ) → p ≢ place → get_or words.new.items p 0 ≡ get_or words.old.items p 0 }
/// ensures same_summary { result ≡ false → (0 < get_or words.old.items place 0) ↔ (0 < word) }
/// ```
#[inline]
pub fn replace(words: &mut Vec<usize>, place: usize, before: usize, word: usize) -> bool {
    words[place] = word;
    (before == 0) != (word == 0)
}
