// Derived from crates/hibitset_store/src/columns.rt by rust/derive.py, and never edited by hand.

//! Values by index, beside the set of the indices that have one.

use crate::support::rattle_std::prelude::*;

use crate::derived::hibitset_store::pages::Pages;
use crate::derived::hibitset::{BitSet, BitSetLike, Index};
use crate::support::rattle_std::alloc::Global;

/// A finite map from indices below `MAX_EID` to values, with the set of its keys.
///
/// Values lie in pages of 64 slots, and a page is made when one of its indices first gets a value. Each call on one
/// index looks at most at one word of the keys, one entry of the table of pages and one slot. Of values of four bytes
///
/// - a page takes 512 bytes, and the table four bytes for each 64 indices up to the highest key, beside the words of
///   the set of keys;
/// - keys that lie near each other cost little: those of the indices 0 to 99,999 take about 1 MB;
/// - keys that lie far apart cost most: 100,000 at random below 2^30 take some 250 MB.
///
/// There are at most four times as many slots as those of the pages made, and capacity for up to twice as many.
pub struct Column<V> {
    mask: BitSet,
    pages: Pages<V>,
    count: usize,
}

impl<V> Column<V> {
    /// The empty map, which does not allocate until the first `insert`.
    ///
    /// # Contract
    ///
    /// ```text
    /// ensures empty { (i : ℕ) → value_of result i ≡ None }
    /// ensures pages { (p : ℕ) → slots result p ≡ 0 }
    /// ensures table { table_len result ≡ 0 }
    /// ensures list { list_len result ≡ 0 }
    /// ensures words { words_len result ≡ 0 }
    /// ```
    pub fn new(alloc: Global) -> Column<V> {
        Column {
            mask: BitSet::new(alloc),
            pages: Pages::new(alloc),
            count: 0,
        }
    }

    /// The set of the keys, all of which lie below `MAX_EID`.
    ///
    /// # Contract
    ///
    /// ```text
    /// ensures keys { (i : ℕ) → has result.now i ≡ is_some (value_of self.now i) }
    /// ensures in_range { (i : ℕ) → MAX_EID ≤ i → value_of self.now i ≡ None }
    /// ensures words { slice_len result.now 0 ≡ words_len self.now }
    /// ```
    #[inline]
    pub fn mask(&self) -> &BitSet {
        &self.mask
    }

    /// How many keys there are.
    ///
    /// # Contract
    ///
    /// ```text
    /// ensures { result ≡ length (keys_of (value_of self.now)) }
    /// ```
    #[inline]
    pub fn len(&self) -> usize {
        self.count
    }

    /// Returns whether there is no key.
    ///
    /// # Contract
    ///
    /// ```text
    /// ensures { IsTrue result ↔ ((i : ℕ) → value_of self.now i ≡ None) }
    /// ```
    #[inline]
    pub fn is_empty(&self) -> bool {
        self.mask.is_empty()
    }

    /// The value of an index.
    ///
    /// # Contract
    ///
    /// ```text
    /// ensures { MatchOption result (value_of self.now id ≡ None)
    ///     (λ value. value_of self.now id ≡ Some value.now) }
    /// ```
    #[inline]
    pub fn get(&self, id: Index) -> Option<&V> {
        self.pages.get(id)
    }

    // The value of a key.
    #[inline]
    pub(crate) fn value(&self, id: Index) -> &V {
        self.pages.value(id)
    }

    /// The value of an index, to be changed. Once the loan ends, the index has the value that was left there, and no
    /// other has changed.
    ///
    /// # Contract
    ///
    /// ```text
    /// ensures* writes_back { sem 𝓛 (LendsValue V.row self.entry id result) }
    /// ensures value { option_copied_mut result ≡ value_of self.old id }
    /// ```
    #[inline]
    pub fn get_mut(&mut self, id: Index) -> Option<&mut V> {
        self.pages.get_mut(id)
    }

    /// Gives an index below `MAX_EID` a value, and returns the value that it had.
    ///
    /// # Errors
    ///
    /// An allocation fails: it returns the new value, and no value has changed.
    ///
    /// # Cost
    ///
    /// - It does not allocate if the page of the index is made and the mask has its word, as it is for an index that
    ///   has a value, or had one before `remove`.
    /// - Else it makes that page, and the table of pages and the mask as long as the index needs and no longer.
    ///
    /// # Contract
    ///
    /// ```text
    /// requires { id < MAX_EID }
    /// ensures old_value { IfOk result (λ was. was ≡ value_of self.old id) }
    /// ensures inserted { OnOk result (IsWith (value_of self.old) id (Some value)
    ///     (value_of self.new)) }
    /// ensures value_returned { IfErr result (λ back. back ≡ value) }
    /// ensures err { OnErr result ((i : ℕ) → value_of self.new i ≡ value_of self.old i) }
    /// ensures succeeds { IsSome (value_of self.old id) → IsOk result }
    /// ensures succeeds_with_room { HasRoom self.old id → IsOk result }
    /// ensures keeps_room { HasRoom self.old id → KeepsRoom self.old self.new }
    /// ensures keeps_room_at_value { IsSome (value_of self.old id) → KeepsRoom self.old self.new }
    /// ensures has_room { OnOk result (HasRoom self.new id) }
    /// ensures makes_room { MakesRoom id self.old self.new }
    /// ensures list { list_len self.new ≤ MAX_SLOTS_PER_MADE_SLOT * (PAGE * made_pages self.new) }
    /// ensures err_len { OnErr result (words_len self.new ≡ words_len self.old) }
    /// ```
    #[inline]
    pub fn insert(&mut self, id: Index, value: V) -> Result<Option<V>, V> {
        if self.mask.contains(id) {
            return Ok(self.write_over(id, value));
        }
        self.insert_new(id, value)?;
        Ok(None)
    }

    // Gives a key another value, and gives back the one that it had. The column keeps its room.
    #[inline]
    fn write_over(&mut self, id: Index, value: V) -> Option<V> {
        let slot = self.pages.slot_of_key(id);
        self.pages.swap_value(slot, Some(value))
    }

    // Gives an index below `MAX_EID` its first value. Refused memory, it hands the value back, and no value has
    // changed.
    #[inline]
    fn insert_new(&mut self, id: Index, value: V) -> Result<(), V> {
        let Ok(slot) = self.pages.make_slot(id, &self.mask) else {
            return Err(value);
        };
        let Ok(_) = self.mask.add(id) else {
            return Err(value);
        };
        self.count += 1;
        self.pages.swap_value(slot, Some(value));
        Ok(())
    }

    /// Takes the value of an index out. The column keeps its capacity.
    ///
    /// # Contract
    ///
    /// ```text
    /// ensures old_value { result ≡ value_of self.old id }
    /// ensures removed { IsWith (value_of self.old) id None (value_of self.new) }
    /// ensures keeps_room { KeepsRoom self.old self.new }
    /// ensures has_room { IsSome result → HasRoom self.new id }
    /// ```
    #[inline]
    pub fn remove(&mut self, id: Index) -> Option<V> {
        let slot = self.pages.slot(id);
        if !self.mask.remove(id) {
            return None;
        }
        self.count -= 1;
        self.pages.swap_value(slot, None)
    }

    /// Takes all values out. It does not allocate. The memory of the pages, the table and the mask is kept, but no
    /// contract says that it is enough for values to come.
    ///
    /// # Contract
    ///
    /// ```text
    /// ensures empty { (i : ℕ) → value_of self.new i ≡ None }
    /// ensures pages { (p : ℕ) → slots self.new p ≡ 0 }
    /// ensures table { table_len self.new ≡ 0 }
    /// ensures list { list_len self.new ≡ 0 }
    /// ensures words { words_len self.new ≡ 0 }
    /// ```
    pub fn clear(&mut self) {
        self.mask.clear();
        self.pages.clear();
        self.count = 0;
    }
}
