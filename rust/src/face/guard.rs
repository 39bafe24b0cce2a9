//! What holds of a set if another one panics while it is merged in.

use crate::derived::hibitset::BitSet;
use crate::Global;

/// A set that is written to. If the writing unwinds, its words of layer 0 are some merged and some as they were, and the
/// summaries over them need not fit: dropped then, it makes the set of these words.
struct Unfinished<'a>(&'a mut BitSet);

impl Drop for Unfinished<'_> {
    #[cold]
    fn drop(&mut self) {
        // The empty set needs no memory.
        *self.0 = BitSet::from_words(Global, self.0.layer0_as_slice())
            .unwrap_or_else(|_| BitSet::new(Global));
    }
}

/// Makes a call that reads a set of another type while it writes to this one.
#[inline]
pub(crate) fn guarded<R>(set: &mut BitSet, call: impl FnOnce(&mut BitSet) -> R) -> R {
    let unfinished = Unfinished(set);
    let result = call(&mut *unfinished.0);
    core::mem::forget(unfinished);
    result
}
