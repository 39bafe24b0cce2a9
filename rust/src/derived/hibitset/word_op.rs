// Derived from crates/hibitset/src/word_op.rt by rust/derive.py, and never edited by hand.

//! How two sets are put together, a word at a time.

use crate::support::rattle_std::prelude::*;

// An operator on two sets, by its words.
pub(crate) trait Operator {
    fn merge(ours: usize, theirs: usize) -> usize;

    fn visit(ours: usize, theirs: usize) -> usize;
}

// The indices of both sets.
pub(crate) struct And;

impl Operator for And {
    #[inline]
    fn merge(ours: usize, theirs: usize) -> usize {
        ours & theirs
    }

    #[inline]
    fn visit(ours: usize, _theirs: usize) -> usize {
        ours
    }
}

// The indices of either set.
pub(crate) struct Or;

impl Operator for Or {
    #[inline]
    fn merge(ours: usize, theirs: usize) -> usize {
        ours | theirs
    }

    #[inline]
    fn visit(_ours: usize, theirs: usize) -> usize {
        theirs
    }
}

// The indices of one set alone.
pub(crate) struct Xor;

impl Operator for Xor {
    #[inline]
    fn merge(ours: usize, theirs: usize) -> usize {
        ours ^ theirs
    }

    #[inline]
    fn visit(_ours: usize, theirs: usize) -> usize {
        theirs
    }
}

// The indices of one set that the other lacks.
pub(crate) struct Difference;

impl Operator for Difference {
    #[inline]
    fn merge(ours: usize, theirs: usize) -> usize {
        ours ^ (ours & theirs)
    }

    #[inline]
    fn visit(ours: usize, theirs: usize) -> usize {
        ours & theirs
    }
}
