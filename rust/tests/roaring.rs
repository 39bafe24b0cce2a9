//! Sets as streams in the portable Roaring format.

mod common;

use common::{assert_members, Numbers};
use hibitset::{BitSet, Index, RoaringError, RoaringFault, SparseBitSet, MAX_EID};

/// {1, 2, 65539}, as CRoaring writes it.
const ARRAYS: [u8; 30] = [
    0x3a, 0x30, 0, 0, 2, 0, 0, 0, 0, 0, 1, 0, 1, 0, 0, 0, 24, 0, 0, 0, 28, 0, 0, 0, 1, 0, 2, 0, 3,
    0,
];

/// 0 to 99, as a run.
const ONE_RUN: [u8; 15] = [0x3b, 0x30, 0, 0, 1, 0, 0, 99, 0, 1, 0, 0, 0, 99, 0];

/// 0 and 1, 3 and 4, as two runs.
const TWO_RUNS: [u8; 19] = [
    0x3b, 0x30, 0, 0, 1, 0, 0, 3, 0, 2, 0, 0, 0, 1, 0, 3, 0, 1, 0,
];

#[test]
fn streams_of_another_library_are_read() {
    let set = BitSet::from_iter([1, 2, 65_539]);
    assert_eq!(set.to_roaring(), ARRAYS);
    assert_eq!(BitSet::from_roaring(&ARRAYS), Ok(set));
    assert_eq!(BitSet::from_roaring(&ONE_RUN), Ok((0..100).collect()));
    let two_runs = BitSet::from_iter([0, 1, 3, 4]);
    assert_eq!(BitSet::from_roaring(&TWO_RUNS), Ok(two_runs));
}

#[test]
fn a_set_is_written_and_read() {
    let mut numbers = Numbers::new(11);
    for (len, bound) in [
        (0, 1),
        (3, 100),
        (5_000, 20_000),
        (20_000, 60_000),
        (9_000, 1 << 24),
    ] {
        let (mut set, mut model) = numbers.set_of(len, bound);
        set.add_range(bound..bound + 5_000);
        model.extend(bound..bound + 5_000);
        let bytes = set.to_roaring();
        assert_eq!(bytes.len(), set.roaring_len());
        let copy = BitSet::from_roaring(&bytes).unwrap();
        assert_eq!(copy, set);
        assert_members(&copy, &model);
        assert_eq!(copy.to_roaring(), bytes);
    }
    let last = BitSet::from_iter([MAX_EID as Index - 1]);
    assert_eq!(BitSet::from_roaring(&last.to_roaring()), Ok(last));
}

/// The error for a fault at a position.
fn malformed(fault: RoaringFault, at: usize) -> Result<BitSet, RoaringError> {
    Err(RoaringError::Malformed(hibitset::Malformed { fault, at }))
}

#[test]
fn every_prefix_is_refused() {
    for len in 0..ARRAYS.len() {
        let at = match len {
            0..24 => 0,
            24..28 => 24,
            _ => 28,
        };
        let read = BitSet::from_roaring(&ARRAYS[..len]);
        assert_eq!(read, malformed(RoaringFault::TooShort, at), "{len}");
    }
}

/// The bytes with some of them changed.
fn changed(bytes: &[u8], changes: &[(usize, u8)]) -> Vec<u8> {
    let mut bytes = bytes.to_vec();
    for &(at, byte) in changes {
        bytes[at] = byte;
    }
    bytes
}

#[test]
fn a_fault_is_named_with_its_position() {
    use RoaringFault::*;
    for (bytes, fault, at) in [
        (changed(&ARRAYS, &[(0, 0)]), BadCookie, 0),
        (changed(&ARRAYS, &[(6, 1)]), TooManyContainers, 4),
        (changed(&ARRAYS, &[(12, 0)]), KeysNotAscending, 12),
        (changed(&ARRAYS, &[(13, 0x40)]), OutOfRange, 12),
        (changed(&ARRAYS, &[(16, 25)]), WrongOffset, 16),
        (changed(&ARRAYS, &[(26, 1)]), NotAscending, 26),
        (changed(&ONE_RUN, &[(7, 98)]), WrongCardinality, 9),
        (changed(&ONE_RUN, &[(11, 0xc0), (12, 0xff)]), RunPastEnd, 13),
        (changed(&TWO_RUNS, &[(15, 2)]), RunsNotApart, 15),
        ([&ARRAYS[..], &[0]].concat(), TooLong, 30),
    ] {
        assert_eq!(
            BitSet::from_roaring(&bytes),
            malformed(fault, at),
            "{fault}"
        );
    }
}

#[test]
fn a_bound_is_kept() {
    let set = BitSet::from_iter([1, 2, 65_539]);
    let refused = malformed(RoaringFault::OutOfRange, 12);
    assert_eq!(BitSet::from_roaring_below(&ARRAYS, 1), refused);
    assert_eq!(BitSet::from_roaring_below(&ARRAYS, 2), Ok(set.clone()));
    assert_eq!(BitSet::from_roaring_below(&ARRAYS, u32::MAX), Ok(set));
}

#[test]
fn an_error_is_printed() {
    let error = BitSet::from_roaring(&ARRAYS[..29]).unwrap_err();
    assert_eq!(error.to_string(), "the bytes end too soon at byte 28");
    let error: Box<dyn std::error::Error> = Box::new(RoaringError::Memory);
    assert_eq!(error.to_string(), "an allocation failed");
}

#[test]
fn sparse_sets_have_the_same_streams() {
    let mut numbers = Numbers::new(7);
    for members in [0, 1, 100, 5_000, 40_000] {
        let dense: BitSet = (0..members).map(|_| numbers.below(300_000)).collect();
        let sparse = SparseBitSet::from_set(&dense);
        let bytes = dense.to_roaring();
        assert_eq!(sparse.to_roaring(), bytes);
        assert_eq!(sparse.roaring_len(), bytes.len());
        assert_eq!(SparseBitSet::from_roaring(&bytes), Ok(sparse));
    }
    let runs = SparseBitSet::from_roaring(&ONE_RUN);
    assert_eq!(runs, Ok((0..100).collect()));
}

#[test]
fn a_sparse_set_is_read_with_a_bound() {
    let last = SparseBitSet::from([MAX_EID as Index - 1]);
    let bytes = last.to_roaring();
    assert_eq!(bytes.len(), 18);
    let refused = SparseBitSet::from_roaring_below(&bytes, 16_383).unwrap_err();
    assert_eq!(refused.to_string(), "a key is out of range at byte 8");
    assert_eq!(SparseBitSet::from_roaring_below(&bytes, u32::MAX), Ok(last));
    let cut = SparseBitSet::from_roaring(&bytes[..17]).unwrap_err();
    assert_eq!(cut.to_string(), "the bytes end too soon at byte 16");
}
