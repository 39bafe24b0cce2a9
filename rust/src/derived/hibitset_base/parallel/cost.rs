// Derived from crates/hibitset_base/src/parallel/cost.rt by rust/derive.py, and never edited by hand.

//! Which sets are large enough for threads.
//!
//! Nothing is promised of the choice, which is between two ways to the same result. Threads are started anew at each
//! call, and until they run, a walk in one thread has gone over some hundred thousand members. What a closure does at a
//! member is not known, so for `for_each` and `fold` the members alone decide. `count` and `collect` go by the words of
//! layer 0 that are read and the members that are listed if words are cheap, and else by the members. bench/README.md
//! has the times on either side of these numbers.

use crate::support::rattle_std::prelude::*;

use crate::derived::hibitset_base::bits::take_bit;
use crate::derived::hibitset_base::bulk::word_indices::MAX_BITS_BY_EIGHTS;
use crate::derived::hibitset_base::like::BitSetLike;
use crate::derived::hibitset_base::util::{LAYERS, average_ones};
use crate::support::rayon::current_num_threads;
use crate::support::rattle_std::cmp::min;
use crate::support::rattle_std::thread::Threads;

/// An estimate: `full` words of layer 0, other nonzero `words`, their `members`, and the cost of listing those
/// (`listing`), under the `seen` bits of the top word, of which others are `left`.
#[derive(Clone, Copy)]
pub(super) struct Estimate {
    full: usize,
    words: usize,
    members: usize,
    listing: usize,
    seen: usize,
    left: usize,
}

// How many members a word has at least, all in all, where a fold gains by going over whole words.
const MIN_MEMBERS_PER_WORD: usize = 3;

impl Estimate {
    // About how many members there are.
    fn members(self) -> usize {
        self.full.saturating_mul(64).saturating_add(self.members)
    }

    // About how many there are in all, as if there were as many under each bit of the top word.
    fn members_in_all(self) -> usize {
        let bits = self.seen.saturating_add(self.left);
        self.members().saturating_mul(bits) / self.seen.max(1)
    }

    // Returns whether a fold gains nothing by going over whole words.
    pub(super) fn is_sparse(self) -> bool {
        self.full == 0 && self.members < self.words.saturating_mul(MIN_MEMBERS_PER_WORD)
    }
}

const EMPTY: Estimate = Estimate {
    full: 0,
    words: 0,
    members: 0,
    listing: 0,
    seen: 0,
    left: 0,
};

// How many members of a word count where it is listed. The others are written beside these.
const COUNTED_MEMBERS: usize = 6;

// What it takes to list the members of a word. Those of one with many are written nearly as fast as one thread could
// make their room in a list, so that several save nothing.
fn listing_cost(members: usize) -> usize {
    if members > MAX_BITS_BY_EIGHTS {
        return 0;
    }
    2 + min(members, COUNTED_MEMBERS)
}

/// What a call has to do at each word of layer 0 with all bits set, and at each of the others, at each of their
/// members, and for each unit of what it takes to list them; from how much of it on threads save more than it takes to
/// start them; and how many members take a hundred times as long as cutting a part does.
#[derive(Clone, Copy)]
pub(super) struct CostModel {
    full: usize,
    word: usize,
    member: usize,
    listing: usize,
    worth: usize,
    members_per_part: usize,
}

// To count is to look at words, many of them in a row.
pub(super) const COUNT_COST: CostModel = CostModel {
    full: 1,
    word: 1,
    member: 0,
    listing: 0,
    worth: 700_000,
    members_per_part: 1 << 20,
};

// To collect is to write down each member.
pub(super) const COLLECT_COST: CostModel = CostModel {
    full: 0,
    word: 0,
    member: 0,
    listing: 1,
    worth: 500_000,
    members_per_part: 1 << 16,
};

// Where a word may take long, threads save time wherever they don't take longer to start than to go over the members.
pub(super) const READ_COST: CostModel = CostModel {
    full: 64,
    word: 0,
    member: 1,
    listing: 0,
    worth: 100_000,
    members_per_part: 1 << 15,
};

// What a closure does may take any time.
pub(super) const CALL_COST: CostModel = CostModel {
    full: 0,
    word: 0,
    member: 0,
    listing: 0,
    worth: 0,
    members_per_part: 1 << 15,
};

// What it takes to count.
pub(super) fn cost_of_count<T: BitSetLike>(set: &T) -> CostModel {
    if set.has_cheap_words() {
        COUNT_COST
    } else {
        READ_COST
    }
}

// What it takes to collect.
pub(super) fn cost_of_collect<T: BitSetLike>(set: &T) -> CostModel {
    if set.has_cheap_words() {
        COLLECT_COST
    } else {
        READ_COST
    }
}

// Returns whether a set of this size has about so many members and so much to do that several threads save time: never
// where there is one processor.
pub(super) fn use_threads<R: Threads>(
    rt: &R,
    size: Estimate,
    work: CostModel,
    least: usize,
) -> bool {
    is_enough(size, work, least) && current_num_threads(rt) > 1
}

// Returns whether there is so much to do, at about so many members.
fn is_enough(size: Estimate, work: CostModel, least: usize) -> bool {
    exceeds_cost(size, work) && size.members() >= least
}

// Returns whether there is so much to do.
pub(super) fn exceeds_cost(size: Estimate, work: CostModel) -> bool {
    let full = size.full.saturating_mul(work.full);
    let words = size.words.saturating_mul(work.word);
    let members = size.members.saturating_mul(work.member);
    let listing = size.listing.saturating_mul(work.listing);
    full.saturating_add(words)
        .saturating_add(members)
        .saturating_add(listing)
        >= work.worth
}

// How many parts a walk is cut into, at most, unless it is large. Each costs the thread that cuts them some hundred
// nanoseconds.
const USUAL_PARTS: usize = 512;

// How many there are at most.
const MAX_PARTS: usize = 4_096;

/// Into how many parts a walk over a set of this size is cut at most: more than the usual number if the set is so large
/// that cutting them takes less than a hundredth of the walk.
pub(super) fn max_parts(size: Estimate, work: CostModel) -> usize {
    (size.members_in_all() / work.members_per_part.max(1)).clamp(USUAL_PARTS, MAX_PARTS)
}

// The size of both.
fn sum_of_estimates(size: Estimate, other: Estimate) -> Estimate {
    Estimate {
        full: size.full.saturating_add(other.full),
        words: size.words.saturating_add(other.words),
        members: size.members.saturating_add(other.members),
        listing: size.listing.saturating_add(other.listing),
        seen: size.seen.saturating_add(other.seen),
        left: size.left.saturating_add(other.left),
    }
}

/// About how large the set is. It reads a few words under each bit of the layer below the top, until this much work, at
/// about this many members, is found.
pub(super) fn estimate_set<T: BitSetLike>(set: &T, work: CostModel, least: usize) -> Estimate {
    let mut left = set.get_from_layer(LAYERS - 1, 0);
    let mut size = EMPTY;
    'bits: while left != 0 && !is_enough(size, work, least) {
        let position = take_bit(&mut left);
        size = sum_of_estimates(size, estimate_below(set, position));
        size.seen = size.seen.saturating_add(1);
    }
    size.left = left.count_ones() as usize;
    size
}

// About how large the part under a word of the layer below the top is.
fn estimate_below<T: BitSetLike>(set: &T, position: usize) -> Estimate {
    let mut left = set.get_from_layer(LAYERS - 2, position);
    let first = position.wrapping_mul(64);
    let mut size = EMPTY;
    'bits: while left != 0 {
        let bit = take_bit(&mut left);
        size = sum_of_estimates(size, estimate_subtree(set, first.wrapping_add(bit)));
    }
    size
}

// About how large the part under a word of the layer below that is: as if there were as much under each of its bits as
// under the middle one.
fn estimate_subtree<T: BitSetLike>(set: &T, position: usize) -> Estimate {
    let mut middle = position;
    let mut words = 1usize;
    for layer in (1..LAYERS - 2).rev() {
        let word = set.get_from_layer(layer, middle);
        let bit = average_ones(word).unwrap_or(word.trailing_zeros() as usize);
        words = words.saturating_mul(word.count_ones() as usize);
        middle = middle.wrapping_mul(64).wrapping_add(bit);
    }
    let word = set.get_from_layer(0, middle);
    if word == usize::MAX {
        return Estimate {
            full: words,
            ..EMPTY
        };
    }
    let members = word.count_ones() as usize;
    Estimate {
        words,
        members: words.saturating_mul(members),
        listing: words.saturating_mul(listing_cost(members)),
        ..EMPTY
    }
}
