// Derived from crates/hibitset/src/layout.rt by rust/derive.py, and never edited by hand.

//! How the layers below the top lie in one vector, one behind the other.

use crate::support::rattle_std::prelude::*;

use crate::derived::hibitset_base::util::{BITS, LAYERS};
use crate::support::rattle_std::alloc::AllocError;

// How many words of layer 0 there is room for at least, where there is any.
const MIN_CAPACITY_WORDS: usize = 4;

// How many words of layer 0 there is room for at most.
const MAX_CAPACITY_WORDS: usize = 1 << (BITS * (LAYERS - 1));

// How many words each layer has over `len` words of layer 0.
pub(crate) fn lens_over(len: usize) -> [usize; LAYERS - 1] {
    let mut lens = [0; LAYERS - 1];
    let mut words = len;
    let mut layer = 0;
    while layer < LAYERS - 1 {
        lens[layer] = words;
        words = (words + 63) / 64;
        layer += 1;
    }
    lens
}

// Where the layers begin in a vector with room for `room` words of layer 0, and where the last one ends.
pub(crate) fn starts_over(room: usize) -> ([usize; LAYERS - 1], usize) {
    let mut starts = [0; LAYERS - 1];
    let mut at = 0;
    let mut words = room;
    let mut layer = 0;
    while layer < LAYERS - 1 {
        starts[layer] = at;
        at += words;
        words = (words + 63) / 64;
        layer += 1;
    }
    (starts, at)
}

// Room for `len` words of layer 0, and for as many as there is to be room for, where that is not too much.
pub(crate) fn next_capacity(capacity: usize, len: usize) -> usize {
    capacity
        .max(MIN_CAPACITY_WORDS)
        .min(MAX_CAPACITY_WORDS)
        .max(len)
}

// Lengthens a list by zero words. It allocates at most once, for no more than it needs; refused, nothing
// changes.
pub(crate) fn lengthen_to(words: &mut Vec<usize>, end: usize) -> Result<(), AllocError> {
    words.reserve_exact(end - words.len())?;
    words.resize(end, 0)
}

// Makes the words from one place to another 0.
fn clear_range(words: &mut Vec<usize>, from: usize, to: usize) {
    let mut at = from;
    while at < to {
        words[at] = 0;
        at += 1;
    }
}

// Moves `count` words from one place up to another, and makes 0 what they leave behind.
fn move_up(words: &mut Vec<usize>, from: usize, count: usize, to: usize) {
    if count == 0 {
        return;
    }
    words.copy_within(from..from + count, to);
    clear_range(words, from, to.min(from + count));
}

// Moves the layers to where they begin in more room, from the last one down, and makes 0 what they leave behind. Layer
// 0 begins at 0 and stays.
pub(crate) fn move_layers(
    words: &mut Vec<usize>,
    lens: [usize; LAYERS - 1],
    from: [usize; LAYERS - 1],
    to: [usize; LAYERS - 1],
) {
    let mut layer = LAYERS - 1;
    while layer > 1 {
        layer -= 1;
        let start = from[layer];
        let count = lens[layer];
        move_up(words, start, count, to[layer]);
    }
}
