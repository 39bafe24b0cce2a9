// Derived from crates/hibitset_base/src/bulk/fold.rt by rust/derive.py, and never edited by hand.

//! Folds over members, by whole words.

use crate::support::rattle_std::prelude::*;

use crate::derived::hibitset_base::bulk::{take_child, take_index, take_lowest_word, take_next_block};
use crate::derived::hibitset_base::iter::BitIter;
use crate::derived::hibitset_base::like::BitSetLike;
use crate::derived::hibitset_base::util::Index;

// The indices of a word with all bits set, folded in order. The loop looks for no bit.
#[inline]
fn fold_all<R, F: Fn(R, Index) -> R>(start: Index, init: R, step: &F) -> R {
    let mut so_far = init;
    'bits: for bit in 0..64u32 {
        so_far = step(so_far, start + bit);
    }
    so_far
}

// The indices of a word's bits, folded in order.
#[inline]
fn fold_word<R, F: Fn(R, Index) -> R>(start: Index, word: usize, init: R, step: &F) -> R {
    if word == usize::MAX {
        return fold_all(start, init, step);
    }
    let mut so_far = init;
    let mut rest = word;
    'bits: while rest != 0 {
        so_far = step(so_far, take_index(start, &mut rest));
    }
    so_far
}

// The members in the words of layer 0 under the bits of a word of layer 1, whose first bit is at `start`, folded in
// order.
#[inline]
fn fold_subtree<T: BitSetLike, R, F: Fn(R, Index) -> R>(
    set: &T,
    start: u32,
    word: usize,
    init: R,
    step: &F,
) -> R {
    let mut so_far = init;
    let mut rest = word;
    'bits: while rest != 0 {
        let (first, lower) = take_child(set, start, &mut rest);
        so_far = fold_word(first, lower, so_far, step);
    }
    so_far
}

// The items of a walk, folded in order.
#[inline]
pub(crate) fn fold_walk<T: BitSetLike, R, F: Fn(R, Index) -> R>(
    walk: BitIter<T>,
    init: R,
    step: &F,
) -> R {
    let BitIter {
        set,
        mut cursor,
        mut reads,
    } = walk;
    let (first, word) = take_lowest_word(&mut cursor);
    let mut so_far = fold_word(first, word, init, step);
    'parts: while let Some((start, word)) = take_next_block(&set, &mut cursor, &mut reads) {
        so_far = fold_subtree(&set, start, word, so_far, step);
    }
    so_far
}

// The members of a set, folded in order one by one. It is not inlined and begins the walk, so that the loop has the
// registers to itself.
#[inline(never)]
pub(crate) fn fold_members<T: BitSetLike, R, F: Fn(R, Index) -> R>(set: &T, init: R, step: &F) -> R {
    let mut so_far = init;
    'items: for item in BitIter::from_top(set) {
        so_far = step(so_far, item);
    }
    so_far
}

// Calls `f` at each item of a walk.
#[inline]
pub(crate) fn visit_walk<T: BitSetLike, F: Fn(Index)>(walk: BitIter<T>, f: &F) {
    let visit = |_so_far: (), index: Index| { f(index) };
    fold_walk(walk, (), &visit);
}
