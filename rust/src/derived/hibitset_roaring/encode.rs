// Derived from crates/hibitset_roaring/src/encode.rt by rust/derive.py, and never edited by hand.

//! Sets written as streams.

use crate::support::rattle_std::prelude::*;

use crate::derived::hibitset_roaring::encode_container::container_size;
use crate::derived::hibitset_roaring::header::{KEYS, NO_RUNS, RUNS, first_after, keys_after, offsets_are};
use crate::derived::hibitset_roaring::key_counts::Heads;
use crate::derived::hibitset_roaring::number::{put_u8, put_u16, put_u32};
use crate::derived::hibitset_roaring::runs::are_shorter;
use crate::derived::hibitset_roaring::source::{ContainerSource, WordSource};
use crate::derived::hibitset::BitSet;
use crate::derived::hibitset_base::bits::{with_bit, word_or_zero};
use crate::support::rattle_std::alloc::{AllocError, Global};

// The number of runs that a container is written as; or as many as its members, if it is not to be runs.
fn kind_of<S: ContainerSource>(source: &S, optimized: bool, key: usize, count: usize) -> usize {
    if optimized {
        source.count_runs(key, count)
    } else {
        count
    }
}

// How many containers there are, whether some is runs, and how many bytes they take.
#[derive(Clone, Copy)]
struct Sizes {
    count: usize,
    some: bool,
    bytes: usize,
}

impl Sizes {
    // The sizes with the container that has a key, if there are members for it.
    fn with_container<S: ContainerSource>(self, source: &S, optimized: bool, key: usize) -> Sizes {
        let count = source.count_under(key);
        if count == 0 {
            return self;
        }
        let runs = kind_of(source, optimized, key, count);
        let shorter = are_shorter(runs, count);
        let size = container_size(count, runs);
        Sizes {
            count: self.count + 1,
            some: self.some | shorter,
            bytes: self.bytes + size,
        }
    }
}

// How many runs each container has.
fn runs_of<S: ContainerSource>(
    alloc: Global,
    keys: &[usize],
    counts: &[usize],
    source: &S,
) -> Result<Vec<usize>, AllocError> {
    let mut runs = Vec::new(alloc);
    'containers: for k in 0..keys.len() {
        runs.push(source.count_runs(keys[k], counts[k]))?;
    }
    Ok(runs)
}

// Returns whether some container is runs.
fn some_runs(counts: &[usize], runs: &[usize]) -> bool {
    'containers: for k in 0..counts.len() {
        if are_shorter(runs[k], counts[k]) {
            return true;
        }
    }
    false
}

// Where the first of `count` containers begins, in a stream with runs or without.
fn first_of(some: bool, count: usize) -> usize {
    first_after(offsets_are(some, count), keys_after(some, count), count)
}

// How many bytes a stream takes whose containers have these counts of members and of runs.
fn len_of(some: bool, counts: &[usize], runs: &[usize]) -> usize {
    let mut at = first_of(some, counts.len());
    'counts: for k in 0..counts.len() {
        at += container_size(counts[k], runs[k]);
    }
    at
}

// The flags of eight containers, from one on, as the bits of a byte.
fn flags_from(counts: &[usize], runs: &[usize], first: usize) -> usize {
    let mut byte = 0;
    'flags: for b in 0..8 {
        let flag = are_shorter(
            word_or_zero(runs, first + b),
            word_or_zero(counts, first + b),
        );
        byte = with_bit(byte, b, flag);
    }
    byte % 256
}

// Writes the flags. Those past the last container's are clear.
fn write_flags(out: &mut [u8], counts: &[usize], runs: &[usize]) {
    'bytes: for j in 0..(counts.len() + 7) / 8 {
        put_u8(out, 4 + j, flags_from(counts, runs, 8 * j));
    }
}

// Writes the cookie and the number of containers, and behind them the flags if some container is runs.
fn write_front(out: &mut [u8], some: bool, counts: &[usize], runs: &[usize]) {
    if some {
        put_u16(out, 0, RUNS);
        put_u16(out, 2, counts.len() - 1);
        write_flags(out, counts, runs);
    } else {
        put_u32(out, 0, NO_RUNS);
        put_u32(out, 4, counts.len());
    }
}

// Writes of each container its key and how many members it has.
fn write_fields(out: &mut [u8], at: usize, keys: &[usize], counts: &[usize]) {
    'keys: for k in 0..keys.len() {
        put_u16(out, at + 4 * k, keys[k]);
        put_u16(out, at + 4 * k + 2, counts[k] - 1);
    }
}

// Writes the header, up to the offsets.
fn write_header(out: &mut [u8], some: bool, keys: &[usize], counts: &[usize], runs: &[usize]) {
    write_front(out, some, counts, runs);
    write_fields(out, keys_after(some, counts.len()), keys, counts);
}

// Writes where the containers begin, if there are offsets.
fn write_offsets(
    out: &mut [u8],
    some: bool,
    at: usize,
    first: usize,
    counts: &[usize],
    runs: &[usize],
) {
    if !offsets_are(some, counts.len()) {
        return;
    }
    let mut start = first;
    'offsets: for k in 0..counts.len() {
        put_u32(out, at + 4 * k, start);
        start += container_size(counts[k], runs[k]);
    }
}

// Writes the containers, from a position on.
fn write_containers<S: ContainerSource>(
    out: &mut [u8],
    first: usize,
    keys: &[usize],
    counts: &[usize],
    runs: &[usize],
    source: &S,
) {
    let mut at = first;
    'containers: for k in 0..keys.len() {
        source.write_container(out, at, keys[k], counts[k], runs[k]);
        at += container_size(counts[k], runs[k]);
    }
}

// Writes a stream, with runs if some container is runs.
fn write_stream<S: ContainerSource>(
    out: &mut [u8],
    some: bool,
    keys: &[usize],
    counts: &[usize],
    runs: &[usize],
    source: &S,
) {
    let first = first_of(some, counts.len());
    let offsets = keys_after(some, counts.len()) + 4 * counts.len();
    write_header(out, some, keys, counts, runs);
    write_offsets(out, some, offsets, first, counts, runs);
    write_containers(out, first, keys, counts, runs, source);
}

// Writes a stream behind the first bytes.
fn write_behind<S: ContainerSource>(
    out: &mut [u8],
    from: usize,
    some: bool,
    heads: &Heads,
    runs: &[usize],
    source: &S,
) {
    write_stream(
        &mut out[from..],
        some,
        &heads.keys,
        &heads.counts,
        runs,
        source,
    );
}

// Writes a stream without runs into the first bytes.
fn write_first<S: ContainerSource>(out: &mut [u8], len: usize, heads: &Heads, source: &S) {
    write_stream(
        &mut out[..len],
        false,
        &heads.keys,
        &heads.counts,
        &heads.counts,
        source,
    );
}

// Writes a stream behind the bytes of `out`, with runs if some container is runs.
fn append_stream<S: ContainerSource>(
    some: bool,
    heads: &Heads,
    runs: &[usize],
    source: &S,
    out: &mut Vec<u8>,
) -> Result<(), AllocError> {
    let from = out.len();
    out.resize(from + len_of(some, &heads.counts, runs), 0)?;
    write_behind(out, from, some, heads, runs, source);
    Ok(())
}

// Writes a stream without runs behind the bytes of `out`.
fn write_source_to<S: ContainerSource>(
    alloc: Global,
    source: &S,
    out: &mut Vec<u8>,
) -> Result<(), AllocError> {
    let heads = Heads::of(alloc, source)?;
    append_stream(false, &heads, &heads.counts, source, out)
}

// The stream of a set.
pub(crate) fn write_source<S: ContainerSource>(
    alloc: Global,
    source: &S,
) -> Result<Vec<u8>, AllocError> {
    let mut out = Vec::new(alloc);
    write_source_to(alloc, source, &mut out)?;
    Ok(out)
}

// How many bytes the stream of a set takes, with runs where these are shorter or without.
pub(crate) fn len_of_source<S: ContainerSource>(source: &S, optimized: bool) -> usize {
    let mut sizes = Sizes {
        count: 0,
        some: false,
        bytes: 0,
    };
    let mut key = source.next_key(0);
    'keys: while key < KEYS {
        sizes = sizes.with_container(source, optimized, key);
        key = source.next_key(key + 1);
    }
    first_of(sizes.some, sizes.count) + sizes.bytes
}

/// How many bytes `write` makes of a set with these words of layer 0, over which those of layer 1 lie.
///
/// # Contract
///
/// ```text
/// requires len_max { length words.now ≤ 16777216 }
/// requires summaries { AreSummaries words.now above.now }
/// ensures { (bytes : List ℕ) → IsPlainStream (stands_in words.now) bytes → length bytes ≡ result }
/// ```
pub fn len_of_words(words: &[usize], above: &[usize]) -> usize {
    len_of_source(&WordSource::new(words, above), false)
}

/// Writes the set with these words of layer 0, over which those of layer 1 lie, into the first bytes of a buffer, as
/// `write` makes them. Returns how many bytes that takes. A buffer that has fewer is left as it was.
///
/// # Errors
///
/// An allocation fails; the buffer is as it was then.
///
/// # Cost
///
/// It allocates 16 bytes for each 65,536 numbers with members.
///
/// # Contract
///
/// ```text
/// requires len_max { length words.now ≤ 16777216 }
/// requires summaries { AreSummaries words.now above.now }
/// ensures len { IfOk result (λ len. (bytes : List ℕ) → IsPlainStream (stands_in words.now) bytes
///     → length bytes ≡ len) }
/// ensures stream { IfOk result (λ len. len ≤ length out.old
///     → IsCanonicalStream (stands_in words.now) (take len out.new)) }
/// ensures keys_below { IfOk result (λ len. len ≤ length out.old
///     → HasKeysBelow (take len out.new) KEYS) }
/// ensures rest { IfOk result (λ len. drop len out.new ≡ drop len out.old) }
/// ensures too_short { IfOk result (λ len. length out.old < len → out.new ≡ out.old) }
/// ensures err { OnErr result (out.new ≡ out.old) }
/// ```
pub fn write_words(
    alloc: Global,
    words: &[usize],
    above: &[usize],
    out: &mut [u8],
) -> Result<usize, AllocError> {
    let source = WordSource::new(words, above);
    let heads = Heads::of(alloc, &source)?;
    let len = len_of(false, &heads.counts, &heads.counts);
    if len <= out.len() {
        write_first(out, len, &heads, &source);
    }
    Ok(len)
}

/// How many bytes `write` makes of a set.
///
/// # Contract
///
/// ```text
/// ensures { (bytes : List ℕ) → IsPlainStream (has set.now) bytes → length bytes ≡ result }
/// ```
pub fn serialized_len(set: &BitSet) -> usize {
    len_of_source(&WordSource::of(set), false)
}

/// Writes a set in the portable Roaring format behind the bytes of `out`: the one stream without runs of its members.
/// At most 4,096 members with the same high 16 bits are an array, more are bits.
///
/// # Errors
///
/// An allocation fails; `out` is as it was then.
///
/// # Cost
///
/// It allocates 16 bytes for each 65,536 numbers with members, and the stream's bytes.
///
/// # Contract
///
/// ```text
/// ensures stream { OnOk result (Appends (IsCanonicalStream (has set.now)) out.old.items
///     out.new.items) }
/// ensures keys_below { OnOk result (HasKeysBelow (drop (vec_len out.old) out.new.items) KEYS) }
/// ensures err { OnErr result (out.new.items ≡ out.old.items) }
/// ```
pub fn write_to(alloc: Global, set: &BitSet, out: &mut Vec<u8>) -> Result<(), AllocError> {
    write_source_to(alloc, &WordSource::of(set), out)
}

/// A set in the portable Roaring format, as `write_to` writes it. It fails only if an allocation fails.
///
/// # Contract
///
/// ```text
/// ensures stream { IfOk result (λ out. IsCanonicalStream (has set.now) out.items) }
/// ensures keys_below { IfOk result (λ out. HasKeysBelow out.items KEYS) }
/// ```
pub fn write(alloc: Global, set: &BitSet) -> Result<Vec<u8>, AllocError> {
    let mut out = Vec::new(alloc);
    write_to(alloc, set, &mut out)?;
    Ok(out)
}

/// How many bytes `write_run_optimized` makes of a set.
///
/// # Contract
///
/// ```text
/// ensures { (bytes : List ℕ) → IsRunOptimizedStream (has set.now) bytes
///     → length bytes ≡ result }
/// ```
pub fn run_optimized_len(set: &BitSet) -> usize {
    len_of_source(&WordSource::of(set), true)
}

/// Writes a set in the portable Roaring format behind the bytes of `out`: the one stream of its members in which a
/// container is runs if these take fewer bytes than an array or bits. If none is, it is the stream that `write` makes.
///
/// # Errors
///
/// An allocation fails; `out` is as it was then.
///
/// # Cost
///
/// It allocates 24 bytes for each 65,536 numbers with members, and the stream's bytes.
///
/// # Contract
///
/// ```text
/// ensures stream { OnOk result
///     (Appends (IsCanonicalRunStream (has set.now)) out.old.items out.new.items) }
/// ensures keys_below { OnOk result (HasKeysBelow (drop (vec_len out.old) out.new.items) KEYS) }
/// ensures err { OnErr result (out.new.items ≡ out.old.items) }
/// ```
pub fn write_run_optimized_to(
    alloc: Global,
    set: &BitSet,
    out: &mut Vec<u8>,
) -> Result<(), AllocError> {
    let source = WordSource::of(set);
    let heads = Heads::of(alloc, &source)?;
    let runs = runs_of(alloc, &heads.keys, &heads.counts, &source)?;
    let some = some_runs(&heads.counts, &runs);
    append_stream(some, &heads, &runs, &source, out)
}

/// A set in the portable Roaring format with runs where these are shorter, as `write_run_optimized_to` writes it. It
/// fails only if an allocation fails.
///
/// # Contract
///
/// ```text
/// ensures stream { IfOk result (λ out. IsCanonicalRunStream (has set.now) out.items) }
/// ensures keys_below { IfOk result (λ out. HasKeysBelow out.items KEYS) }
/// ```
pub fn write_run_optimized(alloc: Global, set: &BitSet) -> Result<Vec<u8>, AllocError> {
    let mut out = Vec::new(alloc);
    write_run_optimized_to(alloc, set, &mut out)?;
    Ok(out)
}
