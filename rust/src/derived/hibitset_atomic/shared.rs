// Derived from crates/hibitset_atomic/src/shared.rt by rust/derive.py, and never edited by hand.

//! A set that threads add to.
//!
//! `AtomicBitSet::share` gives the set and a seat; `divide` gives seats for further threads, each of which adds and
//! asks with its own; `join` puts seats together, and `settle` ends it. A call on the shared set takes no lock and
//! tries nothing again: it makes at most eleven atomic steps, each of them sequentially consistent. Loads and exchanges
//! are counted where the words are touched, and its seat tells how many it has made (`loads_by`, `exchanges_by`).

use crate::support::rattle_std::prelude::*;

use crate::derived::hibitset_atomic::atomic::{ATOMIC_MAX_EID, AtomicBitSet};
use crate::derived::hibitset_atomic::layers::ATOMIC_LAYERS;
use crate::derived::hibitset_atomic::shared::atomic_ops::mark_of;
use crate::derived::hibitset_atomic::shared::layout::{LAYER1_START, LAYER2_START, LAYER3_START, ROW_WORDS};
use crate::derived::hibitset_atomic::shared::rule::{JoinSeats, SplitSeat};
use crate::support::atomic_table::{Closed, Table};
use crate::derived::hibitset_base::util::Index;
use crate::support::rattle_std::alloc::{AllocError, Global};
use crate::support::rattle_std::snapshot::Snapshot;

mod atomic_ops;
mod divide;
pub(crate) mod layout;
pub mod rule;
pub(crate) mod types;
pub mod view;
pub mod walk;

pub use layout::SHARES;
pub use types::{Seat, SharedBitSet};
pub use walk::SharedWalk;

// The word at a place of the row of all words, layer 0 first.
fn row_word(set: &AtomicBitSet, place: usize) -> u64 {
    let word = if place < LAYER1_START {
        set.layers.layer0(place)
    } else if place < LAYER2_START {
        set.layers.layer1(place - LAYER1_START)
    } else if place < LAYER3_START {
        set.layers.layer2(place - LAYER2_START)
    } else {
        set.layers.layer3
    };
    word as u64
}

// The words of all layers in one row.
fn row_of(set: &AtomicBitSet) -> Result<Vec<u64>, AllocError> {
    let mut row = Vec::with_capacity(set.allocator(), ROW_WORDS)?;
    for place in 0..ROW_WORDS {
        row.push(row_word(set, place))?;
    }
    Ok(row)
}

// Puts the words of layer 0 into a set that has none, and so the summaries.
fn fill(closed: &Closed<(), Global>, set: &mut AtomicBitSet) {
    for place in 0..LAYER1_START {
        let word = closed.word(place) as usize;
        if word != 0 {
            set.store_word(place, word);
        }
    }
}

impl AtomicBitSet {
    /// Hands the set over to many threads: returns the set that they add to, and its opening seat. The members are old
    /// from then on.
    ///
    /// The opening seat has all shares, weight `SHARES`, no reports, and knows nothing.
    ///
    /// ```text
    /// let (shared, seat) = set.share().ok()?;
    /// let (mine, theirs) = shared.divide(seat);
    /// ```
    ///
    /// # Errors
    ///
    /// An allocation fails: the set comes back unchanged.
    ///
    /// # Cost
    ///
    /// It makes all words of the four layers, 2 MB, so that no call on the shared set allocates until `settle`.
    ///
    /// # Contract
    ///
    /// ```text
    /// ensures value_returned { IfErr result (λ set. set ≡ self) }
    /// ensures belongs { IfOk result (λ r. BelongsTo r.0 r.1) }
    /// ensures opening { IfOk result (λ r. (weight_of r.1 ≡ SHARES) × (reports_of r.1 ≡ [])
    ///     × ((i : ℕ) → ¬ IsKnown r.1 i)) }
    /// ensures steps { IfOk result (λ r. (loads_by r.1 ≡ 0) × (exchanges_by r.1 ≡ 0)) }
    /// ensures old { IfOk result (λ r. (i : ℕ) → (has self i ≡ true) ↔ IsOld r.0 i) }
    /// ```
    pub fn share(self) -> Result<(SharedBitSet, Seat), AtomicBitSet> {
        let alloc = self.allocator();
        let Ok(row) = row_of(&self) else {
            return Err(self);
        };
        let about = Snapshot::of(&row);
        let Ok((table, pass)) = Table::of_words(alloc, row.as_slice(), &about) else {
            return Err(self);
        };
        Ok((
            SharedBitSet { table, alloc },
            Seat {
                pass,
                weight: SHARES,
            },
        ))
    }
}

impl SharedBitSet {
    /// Adds an index below `ATOMIC_MAX_EID`, and returns whether it was there: `AtomicBitSet::add_atomic` of the
    /// original, which takes no seat.
    ///
    /// It returns false exactly if its own exchange put the index in, which is then the newest of the seat's reports.
    /// So it never does for an index from before `share`, and two seats that are joined have no report in common
    /// (`join`). When it returns, the seat knows the index: all four bits on the way to it are set, and stay.
    ///
    /// # Cost
    ///
    /// - It loads those four bits first. If all are set, as for an index that is old or known to the seat, it writes
    ///   nothing and returns true.
    /// - Else it exchanges in layer 0, and above it, from the lowest up, in each layer whose bit is still clear: at
    ///   most seven loads and four exchanges in all.
    /// - If an old or known index has the same bit in some layer, it makes at most as many exchanges as there are
    ///   layers below that one.
    /// - It does not allocate, and waits for no other thread.
    ///
    /// # Contract
    ///
    /// ```text
    /// requires id { id < ATOMIC_MAX_EID }
    /// requires belongs { BelongsTo self.now seat.old }
    /// ensures belongs { BelongsTo self.now seat.new }
    /// ensures weight { weight_of seat.new ≡ weight_of seat.old }
    /// ensures known { IsKnown seat.new id }
    /// ensures keeps_known { (i : ℕ) → IsKnown seat.old i → IsKnown seat.new i }
    /// ensures no_report { result ≡ true → reports_of seat.new ≡ reports_of seat.old }
    /// ensures new { result ≡ false → (reports_of seat.new ≡ id ∷ reports_of seat.old)
    ///     × ¬ IsOld self.now id × ¬ IsKnown seat.old id }
    /// ensures not_reported { result ≡ false → ¬ Contains (reports_of seat.old) id }
    /// ensures loads { loads_by seat.new ≤ loads_by seat.old + (2 * ATOMIC_LAYERS - 1) }
    /// ensures exchanges { exchanges_by seat.new ≤ exchanges_by seat.old + ATOMIC_LAYERS }
    /// ensures known_cost { IsOld self.now id ⊎ IsKnown seat.old id
    ///     → (loads_by seat.new ≤ loads_by seat.old + ATOMIC_LAYERS)
    ///     × (exchanges_by seat.new ≡ exchanges_by seat.old) }
    /// ensures spares_shared { SparesSharedBits self.now seat.old seat.new id }
    /// ```
    #[inline]
    pub fn add_atomic(&self, seat: &mut Seat, id: Index) -> bool {
        if self.contains(seat, id) {
            return true;
        }
        self.exchange(seat, id)
    }

    // The exchanges, from layer 0 up, for an index that is neither old nor known to the seat: that of layer 0 always,
    // and above it those whose bits are clear by then.
    #[inline(never)]
    fn exchange(&self, seat: &mut Seat, id: Index) -> bool {
        let there = self.fetch_or_layer0(&mut seat.pass, id);
        self.set_summary(&mut seat.pass, id, 0);
        self.set_summary(&mut seat.pass, id, 1);
        self.set_summary(&mut seat.pass, id, 2);
        there
    }

    /// Returns whether an index is there: `AtomicBitSet::contains` of the original, which takes no seat.
    ///
    /// - It is true of each index from before `share`, and of each that the seat knows.
    /// - Of another it is true only if all four bits on the way to it were seen set; the seat knows it from then on.
    /// - It is false from `ATOMIC_MAX_EID` on.
    ///
    /// It makes at most four loads, writes nothing, does not allocate, and waits for no other thread.
    ///
    /// # Contract
    ///
    /// ```text
    /// requires belongs { BelongsTo self.now seat.old }
    /// ensures belongs { BelongsTo self.now seat.new }
    /// ensures weight { weight_of seat.new ≡ weight_of seat.old }
    /// ensures reports { reports_of seat.new ≡ reports_of seat.old }
    /// ensures keeps_known { (i : ℕ) → IsKnown seat.old i → IsKnown seat.new i }
    /// ensures if_true { result ≡ true → (id < ATOMIC_MAX_EID) × IsKnown seat.new id }
    /// ensures if_false { result ≡ false → ¬ IsOld self.now id × ¬ IsKnown seat.new id }
    /// ensures steps { (loads_by seat.new ≤ loads_by seat.old + ATOMIC_LAYERS)
    ///     × (exchanges_by seat.new ≡ exchanges_by seat.old) }
    /// ```
    #[inline]
    pub fn contains(&self, seat: &mut Seat, id: Index) -> bool {
        if id as usize >= ATOMIC_MAX_EID {
            return false;
        }
        self.load_bit(&mut seat.pass, mark_of(id, 0))
            && self.load_bit(&mut seat.pass, mark_of(id, 1))
            && self.load_bit(&mut seat.pass, mark_of(id, 2))
            && self.load_bit(&mut seat.pass, mark_of(id, 3))
    }

    /// Makes two seats of one: of weight w, the first has weight w - w / 2 and the second w / 2, rounded down. There is
    /// no second exactly if w is 1.
    ///
    /// The reports stay with the first, and so does the count of its steps; both know what the seat knew. It makes no
    /// step, does not allocate, and waits for no other thread.
    ///
    /// # Contract
    ///
    /// ```text
    /// requires { BelongsTo self.now seat }
    /// ensures belongs { BelongsTo self.now result.0
    ///     × IfSome result.1 (λ second. BelongsTo self.now second) }
    /// ensures weights { (weight_of result.0 ≡ weight_of seat - weight_of seat / 2)
    ///     × IfSome result.1 (λ second. weight_of second ≡ weight_of seat / 2) }
    /// ensures reports { (reports_of result.0 ≡ reports_of seat)
    ///     × IfSome result.1 (λ second. reports_of second ≡ []) }
    /// ensures known { (i : ℕ) → IsKnown seat i
    ///     → IsKnown result.0 i × IfSome result.1 (λ second. IsKnown second i) }
    /// ensures one_share { IsNone result.1 ↔ (weight_of seat ≡ 1) }
    /// ensures steps { (loads_by result.0 ≡ loads_by seat)
    ///     × (exchanges_by result.0 ≡ exchanges_by seat)
    ///     × IfSome result.1 (λ second. (loads_by second ≡ 0) × (exchanges_by second ≡ 0)) }
    /// ```
    pub fn divide(&self, seat: Seat) -> (Seat, Option<Seat>) {
        let Seat { mut pass, weight } = seat;
        if weight == 1 {
            return (Seat { pass, weight }, None);
        }
        let other = self.table.shared.split_seat::<SplitSeat>(&mut pass);
        let given = weight / 2;
        (
            Seat {
                pass,
                weight: weight - given,
            },
            Some(Seat {
                pass: other,
                weight: given,
            }),
        )
    }

    /// Makes one seat of two seats of this set: their weights, their reports and what they know, together.
    ///
    /// No index is reported by both, none that was there before `share` is reported, and the weight is at most
    /// `SHARES`. It makes one load, does not allocate, and waits for no other thread.
    ///
    /// # Contract
    ///
    /// ```text
    /// requires { BelongsTo self.now a × BelongsTo self.now b }
    /// ensures belongs { BelongsTo self.now result }
    /// ensures weight { (weight_of result ≡ weight_of a + weight_of b)
    ///     × (weight_of a + weight_of b ≤ SHARES) }
    /// ensures reports { reports_of result ≡ reports_of a ++ reports_of b }
    /// ensures apart { (i : ℕ) → Contains (reports_of a) i → ¬ Contains (reports_of b) i }
    /// ensures distinct { IsDistinct nat_eq (reports_of result) }
    /// ensures honest { (i : ℕ) → Contains (reports_of result) i → ¬ IsOld self.now i }
    /// ensures known { (i : ℕ) → IsKnown a i ⊎ IsKnown b i → IsKnown result i }
    /// ensures steps { (loads_by result ≡ loads_by a + loads_by b + 1)
    ///     × (exchanges_by result ≡ exchanges_by a + exchanges_by b) }
    /// ```
    pub fn join(&self, a: Seat, b: Seat) -> Seat {
        let Seat { mut pass, weight } = a;
        let Seat {
            pass: other,
            weight: others,
        } = b;
        self.table.shared.join_seat::<JoinSeats>(&mut pass, other);
        // The value is not used. The proof needs one step of the table here, to learn that the invariant holds for the
        // joined seat.
        self.load(&mut pass, LAYER3_START);
        Seat {
            pass,
            weight: weight + others,
        }
    }

    /// The set held alone again, with exact summaries. It has each index from before `share`, and each that this seat
    /// knows or reported; with a whole seat, no others.
    ///
    /// With a seat that is not whole, the members are those of some state of all seats that the rule admits beside this
    /// one (`all`). That these are what the other seats did report is tested, and in no clause. No seat is whole once
    /// another was dropped.
    ///
    /// # Errors
    ///
    /// An allocation fails. It allocates before it changes anything: both come back unchanged, and it can be called
    /// again.
    ///
    /// # Cost
    ///
    /// The new set has capacity for all its blocks, so no `add` to it allocates.
    ///
    /// # Contract
    ///
    /// ```text
    /// requires { BelongsTo self seat }
    /// ensures value_returned { IfErr result (λ r. (r.0 ≡ self) × (r.1 ≡ seat)) }
    /// ensures exact { IfOk result (λ set. SummariesExactEverywhere ATOMIC_LAYERS (word_of set)) }
    /// ensures old { IfOk result (λ set. (i : ℕ) → IsOld self i → has set i ≡ true) }
    /// ensures known { IfOk result (λ set. (i : ℕ) → IsKnown seat i → has set i ≡ true) }
    /// ensures reported { IfOk result (λ set. (i : ℕ) → Contains (reports_of seat) i
    ///     → has set i ≡ true) }
    /// ensures all { IfOk result (λ set. HasAllReports self seat (has set)) }
    /// ensures complete { IfOk result (λ set. weight_of seat ≡ SHARES → (i : ℕ) → has set i ≡ true
    ///     → IsOld self i ⊎ Contains (reports_of seat) i) }
    /// ensures distinct { IsOk result → IsDistinct nat_eq (reports_of seat)
    ///     × ((i : ℕ) → Contains (reports_of seat) i → ¬ IsOld self i) }
    /// ensures all_reserved { IfOk result (λ set. AllBlocksReserved set) }
    /// ```
    pub fn settle(self, seat: Seat) -> Result<AtomicBitSet, (SharedBitSet, Seat)> {
        let Ok(mut set) = AtomicBitSet::with_room(self.alloc) else {
            return Err((self, seat));
        };
        let SharedBitSet { table, alloc: _ } = self;
        let Seat { pass, weight: _ } = seat;
        let closed = table.close_with(pass);
        fill(&closed, &mut set);
        closed.free();
        Ok(set)
    }
}

impl Seat {
    /// How many shares of its set the seat has, of `SHARES` in all: at least one.
    ///
    /// # Contract
    ///
    /// ```text
    /// ensures weight { result ≡ weight_of self.now }
    /// ensures in_range { (0 < result) × (result ≤ SHARES) }
    /// ```
    pub fn weight(&self) -> u32 {
        self.weight
    }

    /// Returns whether the seat has all `SHARES` shares of its set. A set that settles with such a seat has the old
    /// indices and this seat's reports, and no others.
    ///
    /// # Contract
    ///
    /// ```text
    /// ensures if_true { result ≡ true → weight_of self.now ≡ SHARES }
    /// ensures if_false { result ≡ false → weight_of self.now ≢ SHARES }
    /// ```
    pub fn is_whole(&self) -> bool {
        self.weight == SHARES
    }
}
