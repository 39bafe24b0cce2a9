//! Virtual sets, nested at will, beside the same connectives over std's sets.

mod common;

use std::collections::BTreeSet;

use common::{assert_at, assert_members, Numbers};
use hibitset::{BitIter, BitSet, BitSetAll, BitSetAnd, BitSetLike, BitSetNot, BitSetOr, BitSetXor};
use hibitset::{BitSetLikeExt, DrainableBitSet, Index};

type Model = BTreeSet<Index>;

fn three_sets(seed: u64, bound: Index) -> ([BitSet; 3], [Model; 3]) {
    let mut numbers = Numbers::new(seed);
    let [(a, x), (b, y), (c, z)] = [3_000, 500, 8_000].map(|len| numbers.set_of(len, bound));
    ([a, b, c], [x, y, z])
}

fn assert_set<T: BitSetLike>(set: &T, model: &Model) {
    assert_members(set, model);
    for index in [0, 1, 63, 64, 4_095, 4_096, 262_143, 262_144] {
        assert_at(set, model, index);
    }
    let copy = set.to_bit_set();
    assert_members(&copy, model);
    assert!(copy.is_subset(set) && set.is_subset(&copy));
    assert_eq!(copy.is_disjoint(set), model.is_empty());
    assert!(set.is_disjoint(&BitSetNot(set)) && set.is_subset(&BitSetAll));
}

#[test]
fn two_sets_are_put_together() {
    for bound in [5_000, 300_000, 1 << 22] {
        let ([a, b, _], [x, y, _]) = three_sets(1, bound);
        assert_set(&(&a & &b), &(&x & &y));
        assert_set(&(&a | &b), &(&x | &y));
        assert_set(&(&a ^ &b), &(&x ^ &y));
        assert_set(&(&a - &b), &(&x - &y));
        assert_set(&(&a & !&b), &(&x - &y));
        assert_set(&(!&a & &b), &(&y - &x));
    }
}

#[test]
fn nested_sets_are_put_together() {
    for bound in [5_000, 300_000, 1 << 22] {
        let ([a, b, c], [x, y, z]) = three_sets(2, bound);
        assert_set(&(&a & &b & &c), &(&(&x & &y) & &z));
        assert_set(&(&a & (&b | &c)), &(&x & &(&y | &z)));
        assert_set(&((&a & &b) | &c), &(&(&x & &y) | &z));
        assert_set(&(&a ^ &b ^ &c), &(&(&x ^ &y) ^ &z));
        assert_set(&(&a - (&b | &c)), &(&(&x - &y) - &z));
        assert_set(&(&a & !(&b & &c)), &(&x - &(&y & &z)));
        assert_set(&((&a | &b) & !&c), &(&(&x | &y) - &z));
        assert_set(&(&c & !!&a), &(&z & &x));
        assert_set(&(&a & BitSetAll), &x);
        assert_set(&((&a - &b) ^ (&b - &a)), &(&x ^ &y));
        assert_set(&(&c & !(!&a | !&b)), &(&(&x & &y) & &z));
    }
}

#[test]
fn operands_are_owned_or_borrowed() {
    let ([a, b, _], [x, y, _]) = three_sets(3, 5_000);
    let both = &x & &y;
    assert_set(&(a.clone() & b.clone()), &both);
    assert_set(&(a.clone() & &b), &both);
    let (left, right) = (a.clone() & &b, b.clone() & &a);
    assert_set(&(&left & &right), &both);
    let dynamic: &dyn BitSetLike = &a;
    assert_set(&BitSetAnd(dynamic, &b), &both);
    assert!((a & b).into_iter().eq(both));
}

#[test]
fn a_virtual_set_is_taken_away() {
    let (mut set, other) = (BitSet::from([5, 6, 70_000]), BitSet::from([6, 70_000]));
    set.subtract_assign(&(&other & &BitSet::from([6])));
    assert_eq!(set.to_vec(), [5, 70_000]);
}

#[test]
fn a_set_of_any_type_has_all_layers() {
    let set = BitSet::from([5, 70_000, 1 << 19, 1 << 25, (1 << 30) - 1]);
    let any: &dyn BitSetLike = &set;
    assert!((&any).iter().eq(&set));
    assert!((&any)
        .iter_rev()
        .eq([(1 << 30) - 1, 1 << 25, 1 << 19, 70_000, 5]));
    assert_eq!(((&any).len(), (&any).is_empty()), (5, false));
}

#[test]
fn assignments_take_any_set() {
    let ([a, b, c], [x, y, z]) = three_sets(4, 10_000);
    let changed = |change: &dyn Fn(&mut BitSet)| {
        let mut set = a.clone();
        change(&mut set);
        set
    };
    assert_members(&changed(&|set| *set &= &(&b | &c)), &(&x & &(&y | &z)));
    assert_members(&changed(&|set| *set &= &(&b & &c)), &(&(&x & &y) & &z));
    assert_members(&changed(&|set| *set &= &(&c - &b)), &(&(&x & &z) - &y));
    assert_members(&changed(&|set| *set &= &!&b), &(&x - &y));
    assert_members(&changed(&|set| *set &= &!(&b | &c)), &(&(&x - &y) - &z));
    assert_members(&changed(&|set| *set &= &BitSetAll), &x);
    assert_members(&changed(&|set| *set |= &(&b & &c)), &(&x | &(&y & &z)));
    assert_members(&changed(&|set| *set |= &(&b & !&c)), &(&x | &(&y - &z)));
    assert_members(
        &changed(&|set| *set |= &(&b & &c & !&a)),
        &(&x | &(&(&y & &z) - &x)),
    );
    assert_members(&changed(&|set| *set ^= &(&b | &c)), &(&x ^ &(&y | &z)));
    assert_members(&changed(&|set| *set ^= &(&b ^ &c)), &(&x ^ &(&y ^ &z)));
    assert_members(&changed(&|set| *set -= &(&b | &c)), &(&x - &(&y | &z)));
    assert_members(&changed(&|set| *set -= &(&b & &c)), &(&x - &(&y & &z)));
    assert_members(&changed(&|set| *set -= &!&b), &(&x & &y));
    assert_members(&changed(&|set| *set -= &!(&b & &c)), &(&(&x & &y) & &z));
    assert_members(&changed(&|set| *set &= &(&b ^ &c)), &(&x & &(&y ^ &z)));
    assert_members(&changed(&|set| *set -= &(&b ^ &c)), &(&x - &(&y ^ &z)));
    assert_members(&changed(&|set| *set -= &(&b - &c)), &(&x - &(&y - &z)));
    assert_members(&changed(&|set| *set -= &(&b | &c | &c)), &(&(&x - &y) - &z));
    let mut set = BitSet::new();
    set |= &(&a & &b);
    assert_members(&set, &(&x & &y));
    set ^= &(&a & &b);
    assert!(set.is_empty());
}

/// Is given a nest, which indices below a bound it has, and whether it has those above.
type Check<'a> = dyn FnMut(&mut Numbers, &dyn BitSetLike, &[bool], bool) + 'a;

/// Makes a random nest over the leaves.
fn with_nest(
    depth: u32,
    numbers: &mut Numbers,
    leaves: &[(BitSet, Vec<bool>)],
    then: &mut Check<'_>,
) {
    let (leaf, has) = &leaves[numbers.below(leaves.len() as Index) as usize];
    if depth == 0 {
        return then(numbers, leaf, has, false);
    }
    let kind = numbers.below(5);
    with_nest(
        depth - 1,
        numbers,
        leaves,
        &mut |numbers, a, a_has, a_rest| {
            if kind == 0 {
                let not: Vec<bool> = a_has.iter().map(|has| !has).collect();
                return then(numbers, &BitSetNot(a), &not, !a_rest);
            }
            let b_depth = numbers.below(depth);
            with_nest(
                b_depth,
                numbers,
                leaves,
                &mut |numbers, b, b_has, b_rest| {
                    let holds: fn(bool, bool) -> bool = match kind {
                        1 => |a, b| a && b,
                        2 => |a, b| a || b,
                        3 => |a, b| a != b,
                        _ => |a, b| a && !b,
                    };
                    let has: Vec<bool> = a_has
                        .iter()
                        .zip(b_has)
                        .map(|(a, b)| holds(*a, *b))
                        .collect();
                    let rest = holds(a_rest, b_rest);
                    match kind {
                        1 => then(numbers, &BitSetAnd(a, b), &has, rest),
                        2 => then(numbers, &BitSetOr(a, b), &has, rest),
                        3 => then(numbers, &BitSetXor(a, b), &has, rest),
                        _ => then(numbers, &BitSetAnd(a, BitSetNot(b)), &has, rest),
                    }
                },
            );
        },
    );
}

#[test]
fn random_nests_have_what_their_connectives_say() {
    const BOUND: Index = 9_000;
    let mut numbers = Numbers::new(5);
    let leaves: Vec<(BitSet, Vec<bool>)> = [10, 100, 1_000, 4_000, 20_000]
        .map(|len| {
            let (set, model) = numbers.set_of(len, BOUND);
            (set, (0..BOUND).map(|i| model.contains(&i)).collect())
        })
        .into();
    for round in 0..300 {
        with_nest(
            round % 5,
            &mut numbers,
            &leaves,
            &mut |numbers, set, has, rest| {
                let set = &set;
                assert!((0..BOUND).all(|i| set.contains(i) == has[i as usize]));
                assert_eq!(set.contains(BOUND + 5), rest);
                let start = numbers.below(BOUND);
                for start in [0, start] {
                    let members: Vec<Index> = (start..BOUND).filter(|i| has[*i as usize]).collect();
                    assert!(set.iter_from(start).take(members.len()).eq(members));
                    let gap = (start..BOUND).find(|i| !has[*i as usize]);
                    assert!(gap.is_none() || set.first_gap(start) == gap);
                }
                let first = (0..BOUND).find(|i| has[*i as usize]);
                if first.is_some() || rest {
                    assert_eq!(
                        (set.first(), set.is_empty()),
                        (first.or(Some(BOUND)), false)
                    );
                }
                assert_eq!(rest, rest && set.layer4() == usize::MAX);
                // Where all summary bits are set, a whole walk reads each word of layer 0.
                if set.layer4() != usize::MAX {
                    let members: Vec<Index> = (0..BOUND).filter(|i| has[*i as usize]).collect();
                    assert_eq!(set.to_vec(), members);
                    assert_eq!(
                        (set.len(), set.last()),
                        (members.len(), members.last().copied())
                    );
                    assert_eq!(set.is_empty(), members.is_empty());
                    assert!(set.to_bit_set().iter().eq(members));
                }
            },
        );
    }
}

#[test]
fn a_drain_removes_from_both() {
    let mut a: BitSet = (0..1000).filter(|i| i % 2 == 0).collect();
    let mut b: BitSet = (0..1000).filter(|i| i % 3 == 0).collect();
    let drained: Vec<Index> = BitSetAnd(&mut a, &mut b).drain().take(100).collect();
    assert!(drained.iter().copied().eq((0..600).step_by(6)));
    assert!(drained.iter().all(|i| !a.contains(*i) && !b.contains(*i)));
    assert!(a.contains(600) && b.contains(600));
    assert!(BitSetOr(&mut a, &mut b).remove(2) && !BitSetOr(&mut a, &mut b).remove(2));
    assert_eq!(
        BitSetOr(&mut a, &mut b).drain().count(),
        500 + 334 - 167 - 100 - 1
    );
    assert!(a.is_empty() && b.is_empty());
}

/// A set of someone else's, all of whose summary bits are set.
struct Multiples(Index);

impl BitSetLike for Multiples {
    fn layer4(&self) -> usize {
        usize::MAX
    }

    fn layer3(&self, _: usize) -> usize {
        usize::MAX
    }

    fn layer2(&self, _: usize) -> usize {
        usize::MAX
    }

    fn layer1(&self, _: usize) -> usize {
        usize::MAX
    }

    fn layer0(&self, i: usize) -> usize {
        (0..64)
            .filter(|bit| self.contains(64 * i as Index + bit))
            .fold(0, |word, bit| word | 1 << bit)
    }

    fn contains(&self, i: Index) -> bool {
        i % self.0 == 0
    }
}

#[test]
fn a_type_of_the_users_own_is_a_set() {
    let set: BitSet = (0..1000).collect();
    let tens = Multiples(10);
    assert!((&set & &tens).into_iter().eq((0..1000).step_by(10)));
    assert!((&tens).iter().take(3).eq([0, 10, 20]));
    assert!(tens.iter_from(64_001).take(2).eq([64_010, 64_020]));
    let mut kept = set.clone();
    kept &= &Multiples(300);
    assert_eq!(kept.to_vec(), [0, 300, 600, 900]);
    kept -= &Multiples(200);
    assert_eq!(kept.to_vec(), [300, 900]);
}

#[test]
fn an_iterator_is_made_of_masks() {
    let set: BitSet = (0..10_000).collect();
    let whole = BitIter::new(&set, [0, 0, 0, 0, 1], [0; 4]);
    assert!(whole.eq(0..10_000));
    let rest = BitIter::new(&set, [0b11 << 62, 0b10 << 61, 0, 0, 0], [64, 0, 0, 0]);
    assert!(rest.eq([126, 127].into_iter().chain(62 * 64..63 * 64)));
    assert_eq!(BitIter::new(&set, [0; 5], [0; 4]).next(), None);
}
