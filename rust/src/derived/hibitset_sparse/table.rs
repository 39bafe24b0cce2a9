// Derived from crates/hibitset_sparse/src/table.rt by rust/derive.py, and never edited by hand.

//! A table of 4,096 places, of which those with a value lie side by side.

use crate::support::rattle_std::prelude::*;

use crate::derived::hibitset_sparse::group::Group;
use crate::derived::hibitset_sparse::packed_array::PackedArray;
use crate::derived::hibitset_sparse::rank::{is_set, rank};
use crate::derived::hibitset_base::bits::{last_bit, take_bit, with_bit};
use crate::support::rattle_std::alloc::{AllocError, Global};

/// How many places a table has.
pub(crate) const PLACES_PER_TABLE: usize = 4_096;

/// How many groups the places of a table lie in.
pub(crate) const GROUPS_PER_TABLE: usize = 64;

/// A table of 4,096 places. Bit q of `groups.word` is set if one of the 64 places of group q has a value, and bit b of
/// the group's word if its place b has: two layers of a set of places. Values lie in `items`, in the order of their
/// places.
pub(crate) struct Table<T> {
    pub(crate) groups: PackedArray<Group>,
    pub(crate) items: Vec<T>,
}

// Moves the starts of the groups from one on up by one place.
#[inline]
fn move_up(groups: &mut Vec<Group>, from: usize) {
    'groups: for k in from..groups.len() {
        groups[k].start += 1;
    }
}

// Gives group q one place more, at `bit`, and moves no other. If it is new, it begins at `start`. If an allocation
// fails, nothing changes.
#[inline]
fn set_place(
    groups: &mut PackedArray<Group>,
    q: usize,
    bit: usize,
    start: usize,
) -> Result<(), AllocError> {
    if !is_set(groups.word, q) {
        let word = with_bit(0, bit, true);
        groups.insert(q, Group { word, start })?;
        return Ok(());
    }
    let k = rank(groups.word, q);
    let word = with_bit(groups.items[k].word, bit, true);
    groups.items[k] = Group { word, start };
    Ok(())
}

// Gives group q one place more, at `bit`, and moves the groups after it up. If it is new, it begins at `start`. If an
// allocation fails, nothing changes.
#[inline]
fn widen(
    groups: &mut PackedArray<Group>,
    q: usize,
    bit: usize,
    start: usize,
) -> Result<(), AllocError> {
    set_place(groups, q, bit, start)?;
    let next = rank(groups.word, q) + 1;
    move_up(&mut groups.items, next);
    Ok(())
}

// Moves the starts of the groups from one on down by one place.
fn move_down(groups: &mut Vec<Group>, from: usize) {
    'groups: for k in from..groups.len() {
        groups[k].start -= 1;
    }
}

// Takes the place at `bit` out of group q, and moves the groups after it down. A group without values is taken out.
fn narrow(groups: &mut PackedArray<Group>, q: usize, bit: usize) {
    let k = rank(groups.word, q);
    let group = &groups.items[k];
    let start = group.start;
    let word = with_bit(group.word, bit, false);
    move_down(&mut groups.items, k + 1);
    if word == 0 {
        let _group = groups.remove(q);
        return;
    }
    groups.items[k] = Group { word, start };
}

// Puts a value at a place of a list that has room for it.
#[inline]
fn put<T>(items: &mut Vec<T>, at: usize, value: T) {
    let _put = items.insert(at, value);
}

impl<T> Table<T> {
    /// No place has a value. It does not allocate.
    ///
    /// # Contract
    ///
    /// ```text
    /// ensures { (i : ℕ) → value_at result i ≡ None }
    /// ```
    #[inline]
    pub(crate) fn new(alloc: Global) -> Table<T> {
        Table {
            groups: PackedArray::new(alloc),
            items: Vec::new(alloc),
        }
    }

    /// The word of a group.
    ///
    /// # Contract
    ///
    /// ```text
    /// requires { q < 64 }
    /// ensures { result ≡ group_word self.now q }
    /// ```
    #[inline]
    pub(crate) fn word(&self, q: usize) -> usize {
        match self.groups.get(q) {
            Some(group) => group.word,
            None => 0,
        }
    }

    /// Where the value of a place lies.
    ///
    /// # Contract
    ///
    /// ```text
    /// requires { i < PLACES_PER_TABLE }
    /// ensures absent { IfNone result (value_at self.now i ≡ None) }
    /// ensures found { IfSome result (λ at. (at < length self.now.items.items)
    ///     × (value_at self.now i ≡ slice_get self.now.items.items at)) }
    /// ensures is_place { IfSome result (IsPlace (value_in self.now.groups) i) }
    /// ```
    #[inline]
    pub(crate) fn position(&self, i: usize) -> Option<usize> {
        let group = self.groups.get(i / 64)?;
        if !is_set(group.word, i % 64) {
            return None;
        }
        Some(group.start + rank(group.word, i % 64))
    }

    /// The value of a place.
    ///
    /// # Contract
    ///
    /// ```text
    /// requires { i < PLACES_PER_TABLE }
    /// ensures { MatchOption result (value_at self.now i ≡ None)
    ///     (λ value. value_at self.now i ≡ Some value.now) }
    /// ```
    #[inline]
    pub(crate) fn get(&self, i: usize) -> Option<&T> {
        let at = self.position(i)?;
        Some(&self.items[at])
    }

    /// Writes a value over that of a place, which lies at this position.
    ///
    /// # Contract
    ///
    /// ```text
    /// requires in_range { i < PLACES_PER_TABLE }
    /// requires in_length { at < length self.old.items.items }
    /// requires of { IsPlace (value_in self.old.groups) i at }
    /// ensures put { (j : ℕ) → j < PLACES_PER_TABLE
    ///     → value_at self.new j ≡ (if j == i then Some value else value_at self.old j) }
    /// ensures root { self.new.groups.word ≡ self.old.groups.word }
    /// ensures length { length self.new.items.items ≡ length self.old.items.items }
    /// ensures capacity { (n : ℕ) → HasCapacityFor n self.old → HasCapacityFor n self.new }
    /// ```
    #[inline]
    pub(crate) fn write(&mut self, i: usize, at: usize, value: T) {
        self.items[at] = value;
    }

    // Where the values of a group begin that has none yet.
    #[inline]
    fn start_of_new(&self, q: usize) -> usize {
        let above = self.groups.word >> q;
        if above == 0 {
            return self.items.len();
        }
        match self.groups.get(q + above.trailing_zeros() as usize) {
            Some(group) => group.start,
            None => self.items.len(),
        }
    }

    // Where the values of a group begin.
    #[inline]
    fn start(&self, q: usize) -> usize {
        match self.groups.get(q) {
            Some(group) => group.start,
            None => self.start_of_new(q),
        }
    }

    /// How many values lie before a place.
    ///
    /// # Contract
    ///
    /// ```text
    /// requires { i < PLACES_PER_TABLE }
    /// ensures rank { result ≡ values_before_place self.now i }
    /// ensures within { result ≤ length self.now.items.items }
    /// ```
    #[inline]
    pub(crate) fn rank(&self, i: usize) -> usize {
        self.start(i / 64) + rank(self.word(i / 64), i % 64)
    }

    /// Whether each place that has a value in another table has one here too.
    ///
    /// # Contract
    ///
    /// ```text
    /// ensures { result ≡ true → (i : ℕ) (x : T) → i < PLACES_PER_TABLE
    ///     → value_at other.now i ≡ Some x → HasValue self.now i }
    /// ```
    pub(crate) fn covers(&self, other: &Table<T>) -> bool {
        let mut left = other.groups.word;
        'groups: while left != 0 {
            let q = take_bit(&mut left);
            let word = self.word(q);
            if other.word(q) | word != word {
                return false;
            }
        }
        true
    }

    /// Reserves capacity for `count` more values. Whatever it returns, the table is the same.
    ///
    /// # Contract
    ///
    /// ```text
    /// ensures same { IsSameTable self.old self.new }
    /// ensures reserved { OnOk result (HasCapacityFor count self.new) }
    /// ```
    pub(crate) fn reserve(&mut self, count: usize) -> Result<(), AllocError> {
        self.items.reserve(count)?;
        self.groups.items.reserve(count.min(GROUPS_PER_TABLE))
    }

    /// Gives a value to a place that has none. If an allocation fails, nothing changes.
    ///
    /// # Contract
    ///
    /// ```text
    /// requires in_range { i < PLACES_PER_TABLE }
    /// requires free { value_at self.old i ≡ None }
    /// ensures put { OnOk result ((j : ℕ) → j < PLACES_PER_TABLE
    ///     → value_at self.new j ≡ (if j == i then Some value else value_at self.old j)) }
    /// ensures err { OnErr result (IsSameTable self.old self.new) }
    /// ensures succeeds { (n : ℕ) → HasCapacityFor (n + 1) self.old
    ///     → IsOk result × HasCapacityFor n self.new }
    /// ```
    pub(crate) fn insert(&mut self, i: usize, value: T) -> Result<(), AllocError> {
        let q = i / 64;
        let bit = i % 64;
        self.items.reserve(1)?;
        let start = self.start(q);
        let at = start + rank(self.word(q), bit);
        widen(&mut self.groups, q, bit, start)?;
        put(&mut self.items, at, value);
        Ok(())
    }

    /// Takes the value of a place out.
    ///
    /// # Contract
    ///
    /// ```text
    /// requires in_range { i < PLACES_PER_TABLE }
    /// ensures old_value { result ≡ value_at self.old i }
    /// ensures put { (j : ℕ) → j < PLACES_PER_TABLE
    ///     → value_at self.new j ≡ (if j == i then None else value_at self.old j) }
    /// ensures length { IfSome result (λ _. length self.old.items.items
    ///     ≡ length self.new.items.items + 1) }
    /// ensures capacity { (n : ℕ) → HasCapacityFor n self.old → HasCapacityFor n self.new }
    /// ```
    pub(crate) fn remove(&mut self, i: usize) -> Option<T> {
        let at = self.position(i)?;
        narrow(&mut self.groups, i / 64, i % 64);
        Some(self.items.remove(at))
    }

    /// Takes the value of the last place that has one out, and returns it with its place.
    ///
    /// # Contract
    ///
    /// ```text
    /// ensures empty { IfNone result ((i : ℕ) → i < PLACES_PER_TABLE → value_at self.old i ≡ None) }
    /// ensures in_range { IfSome result (λ last. last.0 < PLACES_PER_TABLE) }
    /// ensures old_value { IfSome result (λ last. value_at self.old last.0 ≡ Some last.1) }
    /// ensures put { IfSome result (λ last. (j : ℕ) → j < PLACES_PER_TABLE
    ///     → value_at self.new j ≡ (if j == last.0 then None else value_at self.old j)) }
    /// ensures length { IfSome result (λ last. length self.old.items.items
    ///     ≡ length self.new.items.items + 1) }
    /// ```
    pub(crate) fn pop(&mut self) -> Option<(usize, T)> {
        if self.groups.word == 0 {
            return None;
        }
        let q = last_bit(self.groups.word);
        let place = 64 * q + last_bit(self.word(q));
        let value = self.remove(place)?;
        Some((place, value))
    }
}
