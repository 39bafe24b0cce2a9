// Derived from crates/hibitset_atomic/src/steps/walks.rt by rust/derive.py, and never edited by hand.

//! The walks of a world, by their numbers.

use crate::support::rattle_std::prelude::*;

use crate::derived::hibitset_atomic::layers::{ATOMIC_LAYERS, Layers};
use crate::derived::hibitset_base::cursor::Cursor;
use crate::derived::hibitset_base::util::Index;
use crate::support::rattle_std::alloc::{AllocError, Global};
use crate::support::rattle_std::collections::BTreeMap;

/// A walk's items, and the places that it has still to read. A new walk has the top word to read, which no bit stands
/// for.
pub(crate) struct Progress {
    pub(crate) items: Vec<Index>,
    pub(crate) is_new: bool,
    pub(crate) cursor: Cursor<ATOMIC_LAYERS>,
}

// Appends the positions of the bits of a word, where bit 0 is at `start`.
fn push_bits(items: &mut Vec<Index>, word: usize, start: Index) {
    for bit in 0..64 {
        if (word >> bit) & 1 != 0 {
            items.push_reserved(start + bit);
        }
    }
}

impl Progress {
    /// Nothing is read.
    ///
    /// # Contract
    ///
    /// ```text
    /// ensures items { result.items.items ≡ [] }
    /// ensures left { left_of result ≡ top_word ATOMIC_LAYERS ∷ [] }
    /// ```
    pub(crate) fn new(alloc: Global) -> Progress {
        Progress {
            items: Vec::new(alloc),
            is_new: true,
            cursor: Cursor::at_top(0),
        }
    }

    /// Returns whether no word is left.
    ///
    /// # Contract
    ///
    /// ```text
    /// ensures { IsTrue result ↔ (left_of self.now ≡ []) }
    /// ```
    pub(crate) fn is_done(&self) -> bool {
        !self.is_new && self.cursor.is_done()
    }

    /// Reads the next word, and returns it, and whether none is left.
    ///
    /// # Contract
    ///
    /// ```text
    /// ensures items { OnOk result (self.new.items.items
    ///     ≡ (read_first (layer_bit (layer_word layers.now)) self.old.items.items 0
    ///     (left_of self.old)).items) }
    /// ensures left { OnOk result (left_of self.new
    ///     ≡ (read_first (layer_bit (layer_word layers.now)) self.old.items.items 0
    ///     (left_of self.old)).left) }
    /// ensures word { IfOk result (λ r. FirstWord (layer_word layers.now) (left_of self.old) r.0) }
    /// ensures end { IfOk result (λ r. IsTrue r.1 ↔ (left_of self.new ≡ [])) }
    /// ensures err { OnErr result ((self.new.items.items ≡ self.old.items.items)
    ///     × (left_of self.new ≡ left_of self.old)) }
    /// ```
    pub(crate) fn read(&mut self, layers: &Layers) -> Result<(usize, bool), AllocError> {
        self.items.reserve(64)?;
        if self.is_new {
            let word = layers.word(ATOMIC_LAYERS - 1, 0);
            self.cursor = Cursor::at_top(word);
            self.is_new = false;
            return Ok((word, self.cursor.is_done()));
        }
        let Some((layer, position)) = self.cursor.take_lowest() else {
            return Ok((0, true));
        };
        let word = layers.word(layer - 1, position as usize);
        if layer == 1 {
            push_bits(&mut self.items, word, position * 64);
            return Ok((word, self.cursor.is_done()));
        }
        self.cursor.push_bits(layer - 1, position, word);
        Ok((word, self.cursor.is_done()))
    }
}

/// Walks by their numbers.
pub(crate) struct Walks {
    map: BTreeMap<u32, Progress>,
}

impl Walks {
    /// No walk has begun.
    ///
    /// # Contract
    ///
    /// ```text
    /// ensures { (w : ℕ) → shown_in result w ≡ None }
    /// ```
    pub(crate) fn new(alloc: Global) -> Walks {
        Walks {
            map: BTreeMap::new(alloc),
        }
    }

    /// Returns whether a walk has ended, or `None` if the number is unknown.
    ///
    /// # Contract
    ///
    /// ```text
    /// ensures { MatchOption result (shown_in self.now number ≡ None)
    ///     (λ done. (shown : Shown) × (shown_in self.now number ≡ Some shown)
    ///     × (IsTrue done ↔ (shown.left ≡ []))) }
    /// ```
    pub(crate) fn is_done(&self, number: u32) -> Option<bool> {
        match self.map.get(&number) {
            None => None,
            Some(walk) => Some(walk.is_done()),
        }
    }

    /// The items of a walk so far.
    ///
    /// # Contract
    ///
    /// ```text
    /// ensures { MatchOption result (shown_in self.now number ≡ None)
    ///     (λ items. (shown : Shown) × (shown_in self.now number ≡ Some shown)
    ///     × (shown.items ≡ items.now)) }
    /// ```
    pub(crate) fn items(&self, number: u32) -> Option<&[Index]> {
        match self.map.get(&number) {
            None => None,
            Some(walk) => Some(walk.items.as_slice()),
        }
    }

    /// Begins a walk.
    ///
    /// # Contract
    ///
    /// ```text
    /// requires { shown_in self.old number ≡ None }
    /// ensures opened { OnOk result ((w : ℕ)
    ///     → shown_in self.new w ≡ cond (number == w)
    ///     (Some (record { items = []; left = top_word ATOMIC_LAYERS ∷ [] }))
    ///     (shown_in self.old w)) }
    /// ensures err { OnErr result ((w : ℕ) → shown_in self.new w ≡ shown_in self.old w) }
    /// ```
    pub(crate) fn open(&mut self, alloc: Global, number: u32) -> Result<(), AllocError> {
        match self.map.insert(number, Progress::new(alloc)) {
            Ok(_) => Ok(()),
            Err(_) => Err(AllocError),
        }
    }

    /// A walk reads its next word.
    ///
    /// # Contract
    ///
    /// ```text
    /// ensures read { OnOk result ((w : ℕ)
    ///     → shown_in self.new w ≡ cond (number == w)
    ///     (read_shown (layer_bit (layer_word layers.now)) (shown_in self.old w))
    ///     (shown_in self.old w)) }
    /// ensures answer { IfOk result (λ r. Told (layer_word layers.now) (shown_in self.old number)
    ///     (shown_in self.new number) r.0 r.1) }
    /// ensures err { OnErr result ((w : ℕ) → shown_in self.new w ≡ shown_in self.old w) }
    /// ```
    pub(crate) fn read(&mut self, number: u32, layers: &Layers) -> Result<(usize, bool), AllocError> {
        match self.map.get_mut(&number) {
            None => Ok((0, true)),
            Some(walk) => walk.read(layers),
        }
    }
}
