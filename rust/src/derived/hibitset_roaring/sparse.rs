// Derived from crates/hibitset_roaring/src/sparse.rt by rust/derive.py, and never edited by hand.

//! Sparse sets made of streams.

use crate::support::rattle_std::prelude::*;

use crate::derived::hibitset_roaring::decode::{check_stream, read_containers};
use crate::derived::hibitset_roaring::error::{ReadError, ReadFromError};
use crate::derived::hibitset_roaring::from_reader::read_within;
use crate::derived::hibitset_roaring::header::KEYS;
use crate::derived::hibitset_roaring::sink::SparseSink;
use crate::derived::hibitset_sparse::SparseBitSet;
use crate::support::rattle_std::alloc::Global;
use crate::support::rattle_std::io::Read;

/// The sparse set whose members a stream has, as `read_below` reads a `BitSet`, if each key is below `end`.
///
/// # Errors
///
/// - `Malformed`: a fault of the bytes and its position.
/// - `Memory`: an allocation failed.
///
/// # Cost
///
/// Memory goes by the stream, wherever its members lie: 8,192 bytes for the words of one container at a time, and in
/// the set at most 1,024 words of 8 bytes for each container, with their tables. A container takes 10 bytes of the
/// stream at least.
///
/// # Contract
///
/// ```text
/// requires { end ≤ KEYS }
/// ensures stream { OnOk result (IsStream bytes.now) }
/// ensures keys_below { OnOk result (HasKeysBelow bytes.now end) }
/// ensures members { IfOk result (λ set. (i : ℕ) → has set i ≡ holds bytes.now i) }
/// ensures reason { IfErr result (λ error. IsReason bytes.now end error) }
/// ensures accepts { IsStream bytes.now → HasKeysBelow bytes.now end
///     → IfErr result (λ error. error ≡ errors.Memory) }
/// ```
pub fn read_sparse_below(alloc: Global, bytes: &[u8], end: usize) -> Result<SparseBitSet, ReadError> {
    let (header, _keys) = check_stream(bytes, end)?;
    let mut sink = SparseSink::new(alloc)?;
    read_containers(bytes, &header, &mut sink)?;
    Ok(sink.into_set())
}

/// The sparse set whose members a stream has, as `read_sparse_below` reads it, if they are below `MAX_EID`.
///
/// # Contract
///
/// ```text
/// ensures stream { OnOk result (IsStream bytes.now) }
/// ensures keys_below { OnOk result (HasKeysBelow bytes.now KEYS) }
/// ensures members { IfOk result (λ set. (i : ℕ) → has set i ≡ holds bytes.now i) }
/// ensures reason { IfErr result (λ error. IsReason bytes.now KEYS error) }
/// ensures accepts { IsStream bytes.now → HasKeysBelow bytes.now KEYS
///     → IfErr result (λ error. error ≡ errors.Memory) }
/// ```
pub fn read_sparse(alloc: Global, bytes: &[u8]) -> Result<SparseBitSet, ReadError> {
    read_sparse_below(alloc, bytes, KEYS)
}

/// The sparse set whose members a stream has, as `read_sparse_below` reads it. The stream is all bytes that the reader
/// gives up to its end, which are read and kept as by `read_from`, with the same errors.
///
/// # Contract
///
/// ```text
/// requires { end ≤ KEYS }
/// ensures stream { OnOk result (IfSome (R.remaining reader.old) IsStream) }
/// ensures keys_below { OnOk result (IfSome (R.remaining reader.old)
///     (λ bytes. HasKeysBelow bytes end)) }
/// ensures members { IfOk result (λ set. IfSome (R.remaining reader.old)
///     (λ bytes. (i : ℕ) → has set i ≡ holds bytes i)) }
/// ensures end { OnOk result (IsAtEnd (R.remaining reader.new)) }
/// ensures reason { IfErr result (λ error. IfSome (R.remaining reader.old)
///     (λ bytes. IsFromReason bytes end error)) }
/// ensures accepts { IfErr result (λ error. IfSome (R.remaining reader.old)
///     (λ bytes. IsStream bytes → HasKeysBelow bytes end → IsOutside error)) }
/// ensures reads_front { GivesFront (longest_below end + CHUNK) (R.remaining reader.old)
///     (R.remaining reader.new) }
/// ensures not_interrupted { IfErr result IsNoInterruption }
/// ```
pub fn read_sparse_from<R: Read>(
    alloc: Global,
    reader: &mut R,
    end: usize,
) -> Result<SparseBitSet, ReadFromError> {
    let bytes = read_within(alloc, reader, end)?;
    Ok(read_sparse_below(alloc, &bytes, end)?)
}
