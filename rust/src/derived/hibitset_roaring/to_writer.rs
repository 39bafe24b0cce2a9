// Derived from crates/hibitset_roaring/src/to_writer.rt by rust/derive.py, and never edited by hand.

//! A set written to a writer.

use crate::support::rattle_std::prelude::*;

use crate::derived::hibitset_roaring::encode::write;
use crate::derived::hibitset::BitSet;
use crate::support::rattle_std::alloc::Global;
use crate::support::rattle_std::io::{self, ErrorKind, Write};

/// Writes a set in the portable Roaring format behind what the writer holds, as `write` writes it. The writer is not
/// flushed. An interrupted write is made again.
///
/// # Errors
///
/// - `OutOfMemory`: an allocation fails. All bytes are made first, so nothing is written then.
/// - `WriteZero`: the writer takes no more. A prefix of the stream may be written.
/// - Any other error of the writer. A prefix of the stream may be written.
///
/// # Contract
///
/// ```text
/// ensures stream { OnOk result
///     (Writes (IsCanonicalStream (has set.now)) (W.contents writer.old) (W.contents writer.new)) }
/// ensures keys_below { OnOk result
///     (Writes (λ bytes. HasKeysBelow bytes KEYS) (W.contents writer.old)
///     (W.contents writer.new)) }
/// ensures err { OnErr result ((bytes : List ℕ) → IsPlainStream (has set.now) bytes
///     → WritesFront (W.contents writer.old) (W.contents writer.new) bytes) }
/// ensures not_interrupted { IfErr result (λ e. error_kind e ≢ ErrorKind.Interrupted) }
/// ```
pub fn write_into<W: Write>(alloc: Global, set: &BitSet, writer: &mut W) -> io::Result<()> {
    let bytes = write(alloc, set)?;
    put_bytes(writer, &bytes)
}

// Writes the bytes.
//
// `write_all` does not say what it wrote before it failed.
fn put_bytes<W: Write>(writer: &mut W, bytes: &[u8]) -> io::Result<()> {
    let mut rest = bytes;
    'rounds: for _round in 0..u64::MAX {
        if rest.is_empty() {
            return Ok(());
        }
        let count = put_some(writer, rest)?;
        rest = &rest[count..];
    }
    // It gave up, as std does where each write is interrupted.
    Err(io::Error::other("each write was interrupted"))
}

// Writes as many of the bytes as the writer takes at once, and none if it is interrupted.
fn put_some<W: Write>(writer: &mut W, bytes: &[u8]) -> io::Result<usize> {
    match writer.write(bytes) {
        Ok(0) => Err(ErrorKind::WriteZero.into()),
        Ok(count) => Ok(count),
        Err(error) if error.kind() == ErrorKind::Interrupted => Ok(0),
        Err(error) => Err(error),
    }
}
