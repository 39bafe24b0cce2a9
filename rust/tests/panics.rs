//! Indices and bounds past the range end the call by a panic, and leave the set as it was.

use std::panic::{catch_unwind, AssertUnwindSafe};

use hibitset::{BitIter, BitSet, BitSetLike, DrainBitIter, Index, SparseBitSet, MAX_EID};

const MAX: Index = MAX_EID as Index;

/// Returns what the call panics with.
fn message_of<S>(set: &mut S, call: impl FnOnce(&mut S)) -> String {
    let panic = catch_unwind(AssertUnwindSafe(|| call(set))).expect_err("the call returned");
    *panic.downcast::<String>().expect("the panic has a text")
}

fn assert_names_the_index(message: &str, index: Index) {
    assert!(
        message.contains(&format!("the index {index} is out of range")),
        "{message}"
    );
    assert!(
        message.ends_with("indices lie below 1073741824"),
        "{message}"
    );
}

#[test]
fn an_index_past_the_range_panics() {
    let mut set = BitSet::from_iter([1, 2]);
    for index in [MAX, MAX + 1, Index::MAX] {
        let calls: [fn(&mut BitSet, Index); 5] = [
            |set, index| _ = set.add(index),
            |set, index| _ = set.try_add(index),
            |set, index| set.extend([2, index, 3]),
            |set, index| _ = set.try_extend([2, index, 3]),
            |_, index| drop(BitSet::from_iter([2, index, 3])),
        ];
        for call in calls {
            assert_names_the_index(&message_of(&mut set, |set| call(set, index)), index);
            assert_eq!(set.to_vec(), [1, 2]);
        }
    }
}

#[test]
fn an_index_past_the_range_of_a_sparse_set_panics() {
    let mut set = SparseBitSet::from([1, 2]);
    for index in [MAX, Index::MAX] {
        let calls: [fn(&mut SparseBitSet, Index); 2] = [
            |set, index| _ = set.add(index),
            |set, index| _ = set.try_add(index),
        ];
        for call in calls {
            assert_names_the_index(&message_of(&mut set, |set| call(set, index)), index);
            assert_eq!(set.to_vec(), [1, 2]);
        }
    }
}

#[test]
fn a_bound_past_the_range_panics() {
    let mut set = BitSet::from_iter([1, 2]);
    let calls: [fn(&mut BitSet); 6] = [
        |_| drop(BitSet::with_capacity(MAX + 1)),
        |_| drop(BitSet::try_with_capacity(Index::MAX)),
        |set| set.add_range(5..MAX + 1),
        |set| set.add_range(MAX..=MAX),
        |set| set.add_range(0..=Index::MAX),
        |set| _ = set.try_add_range(5..=MAX),
    ];
    for call in calls {
        let message = message_of(&mut set, call);
        assert!(
            message.contains("is out of range: it is at most 1073741824"),
            "{message}"
        );
        assert_eq!(set.to_vec(), [1, 2]);
    }
}

#[test]
fn an_empty_range_past_the_range_adds_nothing() {
    let mut set = BitSet::new();
    #[allow(clippy::reversed_empty_ranges)]
    set.add_range(Index::MAX..5);
    set.add_range(Index::MAX..Index::MAX);
    set.add_range(MAX..);
    assert!(set.is_empty());
}

#[test]
fn too_many_words_panic() {
    let words = vec![0; MAX_EID / 64 + 1];
    assert!(catch_unwind(|| BitSet::from_words(&words)).is_err());
    assert!(catch_unwind(|| BitSet::try_from_words(&words)).is_err());
    assert!(BitSet::from_words(&words[1..]).is_empty());
}

#[test]
fn a_layer_above_the_top_panics() {
    let set = BitSet::from_iter([0]);
    assert!((0..5).all(|layer| set.get_from_layer(layer, 0) == 1));
    for layer in [5, usize::MAX] {
        let message = message_of(&mut set.clone(), |set| _ = set.get_from_layer(layer, 0));
        assert_eq!(
            message,
            format!("a set has 5 layers, and none with number {layer}")
        );
        assert!(catch_unwind(|| (&set | !&set).get_from_layer(layer, 0)).is_err());
    }
}

#[test]
fn items_before_a_panic_are_added() {
    let mut set = BitSet::new();
    for len in [0, 1, 127, 128, 129, 1000] {
        let items = (0..len).chain([Index::MAX, 5_000]);
        assert!(message_of(&mut set, |set| set.extend(items)).contains("out of range"));
        assert!((&set).iter().eq(0..len));
    }
    let mut set = BitSet::new();
    let items = (0..1000).inspect(|i| assert!(*i < 600, "no more of {i} items"));
    assert!(message_of(&mut set, |set| set.extend(items)).contains("no more"));
    assert!((&set).iter().eq(0..600));
}

/// A state of an iteration of `set`, after so many items have been given: masks and prefixes.
fn state_after(members: &[Index], given: usize) -> ([usize; 5], [u32; 4]) {
    let (mut masks, mut prefixes) = ([0; 5], [0; 4]);
    let first_left = members[given];
    for layer in 0..5 {
        let word = |index: Index| u64::from(index) >> (6 * (layer + 1));
        // What is left of the word over the first member that is left, and above layer 0 only behind it.
        let own = first_left >> (6 * layer);
        let bits = members[given..]
            .iter()
            .filter(|&&index| word(index) == word(first_left));
        let bits = bits
            .map(|index| index >> (6 * layer))
            .filter(|&bit| layer == 0 || bit > own);
        masks[layer] = bits.fold(0, |mask, bit| mask | 1 << (bit % 64));
        if layer < 4 {
            prefixes[layer] = (own / 64) * 64;
        }
    }
    (masks, prefixes)
}

#[test]
fn an_iteration_goes_on_from_a_state() {
    let members = [
        5,
        7,
        63,
        64,
        130,
        5_000,
        300_000,
        300_001,
        20_000_000,
        MAX - 1,
    ];
    let set = BitSet::from(members);
    for given in 0..members.len() {
        let (masks, prefixes) = state_after(&members, given);
        assert!(BitIter::new(&set, masks, prefixes).eq(members[given..].iter().copied()));
        let mut drained = set.clone();
        assert!(
            DrainBitIter::new(&mut drained, masks, prefixes).eq(members[given..].iter().copied())
        );
        assert!((&drained).iter().eq(members[..given].iter().copied()));
    }
    let small = BitSet::from([5, 70]);
    assert!(BitIter::new(&small, [0, 0, 0, small.layer3(0)], [0; 3]).eq([5, 70]));
    let wide = BitSet::from([5, 1 << 20]);
    assert!(BitIter::new(&wide, [0, 0, 0, wide.layer3(0)], [0; 3]).eq([5, 1 << 20]));
    assert!(BitIter::new(&wide, [0, 0, 0, wide.layer3(0) & !1], [0; 3]).eq([1 << 20]));
}

#[test]
fn a_state_of_no_iteration_panics() {
    let set = BitSet::from([5, 70, 5_000]);
    let states: [([usize; 5], [u32; 4], &str); 7] = [
        ([!0, 0, 0, 0, 0], [Index::MAX, 0, 0, 0], "no multiple of 64"),
        ([1, 0, 0, 0, 0], [63, 0, 0, 0], "no multiple of 64"),
        ([1, 0, 0, 0, 0], [1 << 30, 0, 0, 0], "below 1073741824"),
        ([0, 1, 0, 0, 0], [0, 1 << 24, 0, 0], "below 16777216"),
        // The word of layer 0 is under the bit that layer 1 has left, or behind it, or under another word.
        ([1, 1, 0, 0, 0], [0, 0, 0, 0], "does not lie before"),
        ([1, 1, 0, 0, 0], [128, 0, 0, 0], "does not lie before"),
        (
            [1, 1 << 63, 0, 0, 0],
            [4096, 0, 0, 0],
            "does not lie before",
        ),
    ];
    for (masks, prefixes, text) in states {
        let result = catch_unwind(|| BitIter::new(&set, masks, prefixes).count());
        let message = *result
            .expect_err("it panics")
            .downcast::<String>()
            .expect("the panic has a text");
        assert!(message.contains(text), "{message}");
        let mut drained = set.clone();
        let message = message_of(&mut drained, |set| {
            _ = DrainBitIter::new(set, masks, prefixes)
        });
        assert!(message.contains(text) && drained == set, "{message}");
    }
}
