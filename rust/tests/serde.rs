//! Sets by serde: in a format that people read, and in a binary one.
#![cfg(feature = "serde")]

use hibitset::{AtomicBitSet, BitSet, BitSetLikeExt, SparseBitSet, ATOMIC_MAX_EID, MAX_EID};
use serde::{Deserialize, Serialize};

fn sets() -> Vec<BitSet> {
    let mut full = BitSet::new();
    full.add_range(0..200_000);
    vec![
        BitSet::new(),
        BitSet::from([0]),
        BitSet::from([MAX_EID as u32 - 1]),
        BitSet::from([1, 2, 65_539]),
        (0..100_000).step_by(3).collect(),
        full,
    ]
}

#[test]
fn a_binary_format_has_the_bytes_of_a_stream() {
    for set in sets() {
        let bytes = bincode::serialize(&set).expect("it is written");
        // Behind their number.
        assert_eq!(&bytes[8..], set.to_roaring());
        assert_eq!(
            bincode::deserialize::<BitSet>(&bytes).expect("it is read"),
            set
        );
        // From a reader, whose bytes are not borrowed.
        assert_eq!(
            bincode::deserialize_from::<_, BitSet>(&bytes[..]).expect("it is read"),
            set
        );
    }
}

#[test]
fn a_text_has_the_list_of_members() {
    for set in sets() {
        let text = serde_json::to_string(&set).expect("it is written");
        assert_eq!(
            text,
            serde_json::to_string(&set.to_vec()).expect("it is written")
        );
        assert_eq!(
            serde_json::from_str::<BitSet>(&text).expect("it is read"),
            set
        );
        let value = serde_json::to_value(&set).expect("it is written");
        assert_eq!(
            serde_json::from_value::<BitSet>(value).expect("it is read"),
            set
        );
    }
    let unordered = serde_json::from_str::<BitSet>("[7, 5, 7]").expect("it is read");
    assert_eq!(unordered.to_vec(), [5, 7]);
}

#[test]
fn an_atomic_set_has_the_same_form() {
    for set in sets() {
        if set.last() >= Some(ATOMIC_MAX_EID as u32) {
            continue;
        }
        let atomic: AtomicBitSet = (&set).into_iter().collect();
        let bytes = bincode::serialize(&atomic).expect("it is written");
        let text = serde_json::to_string(&atomic).expect("it is written");
        assert_eq!(bytes, bincode::serialize(&set).expect("it is written"));
        assert_eq!(text, serde_json::to_string(&set).expect("it is written"));
        let read: AtomicBitSet = bincode::deserialize(&bytes).expect("it is read");
        assert!(read.into_iter().eq(&set));
        let read: AtomicBitSet = serde_json::from_str(&text).expect("it is read");
        assert!(read.into_iter().eq(&set));
    }
}

#[test]
fn a_sparse_set_has_the_same_form() {
    for set in sets() {
        let sparse = SparseBitSet::from(&set);
        let bytes = bincode::serialize(&sparse).expect("it is written");
        let text = serde_json::to_string(&sparse).expect("it is written");
        assert_eq!(bytes, bincode::serialize(&set).expect("it is written"));
        assert_eq!(text, serde_json::to_string(&set).expect("it is written"));
        let read: SparseBitSet = bincode::deserialize(&bytes).expect("it is read");
        assert_eq!(read, sparse);
        let read: SparseBitSet = serde_json::from_str(&text).expect("it is read");
        assert_eq!((read.to_bit_set(), read), (set, sparse));
    }
    let unordered = serde_json::from_str::<SparseBitSet>("[1000000000, 5, 1000000000]");
    assert_eq!(unordered.expect("it is read").to_vec(), [5, 1_000_000_000]);
}

#[test]
fn a_field_comes_back() {
    #[derive(Serialize, Deserialize, PartialEq, Debug)]
    struct World {
        alive: BitSet,
        name: String,
        dead: Option<BitSet>,
    }
    let world = World {
        alive: BitSet::from([5, 70_000]),
        name: "a".into(),
        dead: Some(BitSet::new()),
    };
    let text = serde_json::to_string(&world).expect("it is written");
    assert_eq!(text, r#"{"alive":[5,70000],"name":"a","dead":[]}"#);
    assert_eq!(
        serde_json::from_str::<World>(&text).expect("it is read"),
        world
    );
    let bytes = bincode::serialize(&world).expect("it is written");
    assert_eq!(
        bincode::deserialize::<World>(&bytes).expect("it is read"),
        world
    );
}

fn error_of<'a, T: Deserialize<'a> + std::fmt::Debug>(text: &'a str) -> String {
    serde_json::from_str::<T>(text)
        .expect_err("it is refused")
        .to_string()
}

#[test]
fn what_is_no_list_of_indices_is_refused() {
    for text in [
        "[-1]",
        "[4294967296]",
        "[1.5]",
        "[\"5\"]",
        "{}",
        "5",
        "[5",
        "null",
        "\"abc\"",
    ] {
        error_of::<BitSet>(text);
    }
    assert_eq!(
        error_of::<BitSet>("[1073741824]"),
        "invalid value: integer `1073741824`, expected indices below 1073741824, as a list or as a portable Roaring stream \
         at line 1 column 12"
    );
    assert_eq!(
        error_of::<SparseBitSet>("[1073741824]"),
        error_of::<BitSet>("[1073741824]")
    );
    assert!(error_of::<AtomicBitSet>("[16777216]").contains("expected indices below 16777216"));
}

#[test]
fn what_is_no_stream_is_refused() {
    let set = BitSet::from([1, 2, 65_539]);
    let good = bincode::serialize(&set).expect("it is written");
    for at in 8..good.len() {
        for bit in 0..8 {
            let mut bad = good.clone();
            bad[at] ^= 1 << bit;
            // It is refused, or the stream of another set.
            assert!(bincode::deserialize::<BitSet>(&bad).map_or(true, |read| read != set));
        }
    }
    let cut = bincode::serialize(&good[8..good.len() - 1]).expect("it is written");
    let error = bincode::deserialize::<BitSet>(&cut)
        .expect_err("it is refused")
        .to_string();
    assert!(error.contains("at byte"), "{error}");
    let sparse = bincode::deserialize::<SparseBitSet>(&cut).expect_err("it is refused");
    assert_eq!(sparse.to_string(), error);
    let far = bincode::serialize(&BitSet::from([1 << 24])).expect("it is written");
    let error = bincode::deserialize::<AtomicBitSet>(&far)
        .expect_err("it is refused")
        .to_string();
    assert!(error.contains("a key is out of range at byte 8"), "{error}");
}
