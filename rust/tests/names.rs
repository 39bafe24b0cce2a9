//! Code that was written for the original crate, in the ways that its users write it.

use hibitset::*;

/// What a user is generic over.
fn sum<B: BitSetLike>(set: B) -> u64 {
    set.iter().map(u64::from).sum()
}

fn drained<B: DrainableBitSet>(mut set: B) -> Vec<u32> {
    set.drain().collect()
}

#[test]
fn sets_are_passed_by_value_and_by_reference() {
    let mut set: BitSet = (0..100).collect();
    assert_eq!(sum(&set), 4950);
    assert_eq!(sum(&mut set), 4950);
    assert_eq!(sum::<&&BitSet>(&&set), 4950);
    assert_eq!(sum(BitSetAnd(&set, BitSetNot(&set))), 0);
    assert_eq!(drained(&mut set).len(), 100);
    assert_eq!(sum(set), 0);
}

#[test]
fn the_trait_walks_what_it_takes() {
    let set = BitSet::from_iter(&[1, 2, 3]);
    assert!(BitSetLike::iter(set.clone()).eq([1, 2, 3]));
    assert!((&set).into_iter().eq([1, 2, 3]));
    let mut walked = Vec::new();
    for index in &set {
        walked.push(index);
    }
    for index in set {
        walked.push(index);
    }
    assert_eq!(walked, [1, 2, 3, 1, 2, 3]);
}

#[test]
fn tuples_of_a_virtual_set_are_its_operands() {
    let (a, b) = (BitSet::from_iter([1, 2]), BitSet::from_iter([2, 3]));
    let BitSetAnd(left, BitSetNot(right)) = &a & !&b;
    assert!(left == &a && right == &b);
    assert_eq!(BitSetXor(a.clone(), b.clone()).clone().0, a);
    assert_eq!(BitSetOr(&a, &b).1, &b);
    assert_eq!(
        format!("{:?}", BitSetOr(&a, BitSetAll)),
        "BitSetOr({1, 2}, BitSetAll)"
    );
}

#[test]
fn the_trait_looks_for_members() {
    fn looks<B: BitSetLike>(set: &B) -> (bool, bool, bool) {
        (set.is_empty(), set.contains(5), set.contains(6))
    }
    assert_eq!(looks(&BitSet::from([5])), (false, true, false));
    assert_eq!(looks(&AtomicBitSet::from([5])), (false, true, false));
    assert_eq!(
        looks(&hibitset::SparseBitSet::from([5])),
        (false, true, false)
    );
    assert!(BitSetLike::is_empty(&BitSet::new()) && BitSetLike::is_empty(&AtomicBitSet::new()));
    assert!(BitSet::default().is_empty() && AtomicBitSet::default().is_empty());
}

#[test]
fn words_are_read_by_layer() {
    let set = BitSet::from_iter([0, 64, 5_000, 300_000]);
    for (layer, words) in [vec![1, 1], vec![0b11, 1 << 14], vec![0b11], vec![0b11]]
        .iter()
        .enumerate()
    {
        assert_eq!(set.get_from_layer(layer, 0), words[0]);
        if let Some(second) = words.get(1) {
            assert_eq!(set.get_from_layer(layer, 1), *second);
        }
        assert_eq!(set.get_from_layer(layer, 1 << 24), 0);
    }
    assert_eq!(
        (set.layer0(5_000 / 64), set.layer1(1), set.layer2(0)),
        (1 << (5_000 % 64), 1 << 14, 0b11)
    );
    assert_eq!((set.layer3(0), set.layer4()), (0b11, 1));
    assert!(set.layer1_as_slice().len() > 300_000 / 4096);
    let wide = BitSet::from_iter([0, 1 << 24]);
    assert_eq!(
        (wide.get_from_layer(4, 7), wide.get_from_layer(3, 0)),
        (0b11, 1)
    );
}
