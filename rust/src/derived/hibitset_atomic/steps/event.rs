// Derived from crates/hibitset_atomic/src/steps/event.rt by rust/derive.py, and never edited by hand.

//! What happens to a world, and what it returns.

use crate::support::rattle_std::prelude::*;

use crate::derived::hibitset_base::util::Index;

/// What happens next.
#[derive(Clone, Copy, Debug, PartialEq, Eq)]
pub enum Event {
    /// A call that adds an index begins, under a number that no call has. No word is touched.
    Begin { call: u32, id: Index },
    /// A call passes its next layer, from the lowest up: one exchange, which sets its bit there. After four it has
    /// ended.
    Step { call: u32 },
    /// A walk begins, under a number that no walk has. No word is read.
    Open { walk: u32 },
    /// A walk reads its next word, until none is left.
    Read { walk: u32 },
}

/// What an event returns.
#[derive(Clone, Copy, Debug, PartialEq, Eq)]
pub enum Reply {
    /// A call has begun.
    Begun,
    /// A call has passed layer 0. `there`: the index was there before, old or written by another call.
    First { there: bool },
    /// A call has passed a layer above, and has `left` layers still to pass: 2, 1, 0.
    Path { left: u8 },
    /// A walk has begun.
    Opened,
    /// A walk has read a word. `ended`: the walk has no word left to read.
    Word { word: usize, ended: bool },
}

/// Why an event does not happen, in the order of the tests. Nothing changes then.
#[derive(Clone, Copy, Debug, PartialEq, Eq)]
pub enum StepError {
    /// A step or a read under a number that never began.
    Unknown,
    /// A call or a walk that is to begin under a number that is taken.
    Used,
    /// A step of a call that has ended, or a read of a walk that has.
    Ended,
    /// A call that is to begin on an index not below `ATOMIC_MAX_EID`.
    Range,
    /// An allocation failed. It is tested last, so the event would have happened.
    Memory,
}
