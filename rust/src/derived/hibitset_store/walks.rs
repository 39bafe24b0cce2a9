// Derived from crates/hibitset_store/src/walks.rt by rust/derive.py, and never edited by hand.

//! Iterators over what columns have.

use crate::support::rattle_std::prelude::*;

use crate::derived::hibitset_store::columns::Column;
use crate::derived::hibitset::{BitIter, BitSet, BitSetAnd, BitSetLike, Index};

// An index that two columns have, with its values in both.
#[inline]
fn pair_at<'a, V, W>(
    first: &'a Column<V>,
    second: &'a Column<W>,
    id: Index,
) -> (Index, &'a V, &'a W) {
    (id, first.value(id), second.value(id))
}

// The next index of a walk that gives no other than both columns have, with its values.
#[inline]
fn next_pair<'a, S: BitSetLike, V, W>(
    walk: &mut BitIter<S>,
    first: &'a Column<V>,
    second: &'a Column<W>,
) -> Option<(Index, &'a V, &'a W)> {
    let id = walk.next()?;
    Some(pair_at(first, second, id))
}

// The next index of a walk that gives no other than keys of a column, with its value.
#[inline]
fn next_entry<'a, V>(
    walk: &mut BitIter<&'a BitSet>,
    column: &'a Column<V>,
) -> Option<(Index, &'a V)> {
    let id = walk.next()?;
    Some((id, column.value(id)))
}

/// The indices that two columns have in common, ascending, with both values.
pub struct Join<'a, V, W> {
    pub(crate) walk: BitIter<BitSetAnd<&'a BitSet, &'a BitSet>>,
    pub(crate) first: &'a Column<V>,
    pub(crate) second: &'a Column<W>,
}

impl<'a, V, W> Iterator for Join<'a, V, W> {
    type Item = (Index, &'a V, &'a W);

    #[inline]
    fn next(&mut self) -> Option<(Index, &'a V, &'a W)> {
        next_pair(&mut self.walk, self.first, self.second)
    }
}

/// The indices that two columns have in common and a set holds too, ascending, with both values.
pub struct JoinMasked<'a, V, W, M: BitSetLike> {
    pub(crate) walk: BitIter<BitSetAnd<BitSetAnd<&'a BitSet, &'a BitSet>, M>>,
    pub(crate) first: &'a Column<V>,
    pub(crate) second: &'a Column<W>,
}

impl<'a, V, W, M: BitSetLike> Iterator for JoinMasked<'a, V, W, M> {
    type Item = (Index, &'a V, &'a W);

    #[inline]
    fn next(&mut self) -> Option<(Index, &'a V, &'a W)> {
        next_pair(&mut self.walk, self.first, self.second)
    }
}

/// The keys of a column, ascending, each with its value.
pub struct Iter<'a, V> {
    pub(crate) walk: BitIter<&'a BitSet>,
    pub(crate) column: &'a Column<V>,
}

impl<'a, V> Iterator for Iter<'a, V> {
    type Item = (Index, &'a V);

    #[inline]
    fn next(&mut self) -> Option<(Index, &'a V)> {
        next_entry(&mut self.walk, self.column)
    }
}
