// Derived from crates/hibitset_roaring/src/decode.rt by rust/derive.py, and never edited by hand.

//! A set made of a stream.

use crate::support::rattle_std::prelude::*;

use crate::derived::hibitset_roaring::error::{Malformed, ReadError};
use crate::derived::hibitset_roaring::header::{Header, KEYS};
use crate::derived::hibitset_roaring::layout::CONTAINER_WORDS;
use crate::derived::hibitset_roaring::sink::ContainerSink;
use crate::derived::hibitset::BitSet;
use crate::support::rattle_std::alloc::Global;

// Takes all containers, where nothing was taken before.
pub(crate) fn read_containers<S: ContainerSink>(
    bytes: &[u8],
    header: &Header,
    sink: &mut S,
) -> Result<(), ReadError> {
    let mut at = header.first;
    'containers: for k in 0..header.count {
        sink.take_container(bytes, header, k, at)?;
        at += header.size(bytes, k, at);
    }
    Ok(())
}

// The header of a stream, whose keys ascend below `end` and whose containers lie where it says, and the number after its
// last key.
pub(crate) fn check_stream(bytes: &[u8], end: usize) -> Result<(Header, usize), Malformed> {
    let header = Header::read(bytes)?;
    let keys = header.check_keys(bytes, end)?;
    header.check_layout(bytes)?;
    Ok((header, keys))
}

/// The set whose members a stream in the portable Roaring format has, if each key is below `end`: a key is the high 16
/// bits of members. The stream is all of the bytes; it may have runs, and leave offsets out where the format does.
///
/// ```text
/// let set = read_below(alloc, bytes, 16)?;
/// // members below 16 * 65,536
/// ```
///
/// # Errors
///
/// - `Malformed`: a fault of the bytes and its position. Trailing bytes are a fault too (`TooLong`).
/// - `Memory`: the allocation failed.
///
/// # Cost
///
/// It allocates once, at most 8,192 bytes for each key below `end`, and a sixty-third more: if `end` is `KEYS`, 18
/// bytes can ask for 136 MB. Untrusted bytes are better read by `read_sparse`.
///
/// # Contract
///
/// ```text
/// requires { end ≤ KEYS }
/// ensures stream { OnOk result (IsStream bytes.now) }
/// ensures keys_below { OnOk result (HasKeysBelow bytes.now end) }
/// ensures members { IfOk result (λ set. (i : ℕ) → has set i ≡ holds bytes.now i) }
/// ensures length { IfOk result (λ set. slice_len set 0 ≤ CONTAINER_WORDS * end) }
/// ensures least_bound { IfOk result (λ set. (bound : ℕ) → HasKeysBelow bytes.now bound
///     → slice_len set 0 ≤ CONTAINER_WORDS * bound) }
/// ensures reason { IfErr result (λ error. IsReason bytes.now end error) }
/// ensures accepts { IsStream bytes.now → HasKeysBelow bytes.now end
///     → IfErr result (λ error. error ≡ errors.Memory) }
/// ```
pub fn read_below(alloc: Global, bytes: &[u8], end: usize) -> Result<BitSet, ReadError> {
    let (header, keys) = check_stream(bytes, end)?;
    let mut words = BitSet::vec_with_room(alloc, CONTAINER_WORDS * keys)?;
    read_containers(bytes, &header, &mut words)?;
    Ok(BitSet::from_vec(words)?)
}

/// The set whose members a stream has, as `read_below` reads it, if they are below `MAX_EID`. Untrusted bytes are
/// better read with a bound.
///
/// # Contract
///
/// ```text
/// ensures stream { OnOk result (IsStream bytes.now) }
/// ensures keys_below { OnOk result (HasKeysBelow bytes.now KEYS) }
/// ensures members { IfOk result (λ set. (i : ℕ) → has set i ≡ holds bytes.now i) }
/// ensures least_bound { IfOk result (λ set. (bound : ℕ) → HasKeysBelow bytes.now bound
///     → slice_len set 0 ≤ CONTAINER_WORDS * bound) }
/// ensures reason { IfErr result (λ error. IsReason bytes.now KEYS error) }
/// ensures accepts { IsStream bytes.now → HasKeysBelow bytes.now KEYS
///     → IfErr result (λ error. error ≡ errors.Memory) }
/// ```
pub fn read(alloc: Global, bytes: &[u8]) -> Result<BitSet, ReadError> {
    read_below(alloc, bytes, KEYS)
}
