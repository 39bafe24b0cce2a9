//! Bytes and times of sparse sets beside other sets: a table of each kind of members.
//!
//! sparse [REPEATS [WORDS]]: medians of REPEATS repeats, by the thread's own clock; the tables whose names have WORDS.
use hibitset::{BitSet, SparseBitSet};
use std::collections::BTreeSet;
use std::ffi::c_void;
use std::hint::black_box;

extern "C" {
    fn bytes_in_use() -> usize;
    fn thread_seconds() -> f64;
}

/// A set of any kind, and what is done with it.
trait Set: Sized {
    const NAME: &'static str;
    /// Whether its memory goes by its members, or reaches up to the last one.
    const IS_SPARSE: bool = true;
    fn new() -> Self;
    fn add_all(&mut self, ids: &[u32]);
    fn remove_all(&mut self, ids: &[u32]);
    fn count_there(&self, ids: &[u32]) -> u64;
    fn sum(&self) -> u64;
    fn sum_of_both(&self, other: &Self) -> u64;
    fn copy(&self) -> Self;
    fn or(&mut self, other: &Self);
    fn and(&mut self, other: &Self);
    fn minus(&mut self, other: &Self);
}

macro_rules! of_ours {
    ($type:ty, $name:expr, $is_sparse:expr, $or:expr, $and:expr, $minus:expr) => {
        impl Set for $type {
            const NAME: &'static str = $name;
            const IS_SPARSE: bool = $is_sparse;
            fn new() -> Self {
                <$type>::new()
            }
            fn add_all(&mut self, ids: &[u32]) {
                for id in ids {
                    self.add(*id);
                }
            }
            fn remove_all(&mut self, ids: &[u32]) {
                for id in ids {
                    self.remove(*id);
                }
            }
            fn count_there(&self, ids: &[u32]) -> u64 {
                ids.iter().filter(|id| self.contains(**id)).count() as u64
            }
            fn sum(&self) -> u64 {
                self.into_iter().map(u64::from).sum()
            }
            fn sum_of_both(&self, other: &Self) -> u64 {
                (self & other).into_iter().map(u64::from).sum()
            }
            fn copy(&self) -> Self {
                self.clone()
            }
            fn or(&mut self, other: &Self) {
                $or(self, other)
            }
            fn and(&mut self, other: &Self) {
                $and(self, other)
            }
            fn minus(&mut self, other: &Self) {
                $minus(self, other)
            }
        }
    };
}
of_ours!(SparseBitSet, "SparseBitSet", true, SparseBitSet::union_with, SparseBitSet::intersect_with, SparseBitSet::difference_with);
of_ours!(BitSet, "BitSet", false, |set: &mut BitSet, other| *set |= other, |set: &mut BitSet, other| *set &= other, |set: &mut BitSet, other| *set -= other);

impl Set for BTreeSet<u32> {
    const NAME: &'static str = "BTreeSet";
    fn new() -> Self {
        BTreeSet::new()
    }
    fn add_all(&mut self, ids: &[u32]) {
        self.extend(ids);
    }
    fn remove_all(&mut self, ids: &[u32]) {
        for id in ids {
            self.remove(id);
        }
    }
    fn count_there(&self, ids: &[u32]) -> u64 {
        ids.iter().filter(|id| self.contains(id)).count() as u64
    }
    fn sum(&self) -> u64 {
        self.iter().map(|id| u64::from(*id)).sum()
    }
    fn sum_of_both(&self, other: &Self) -> u64 {
        self.intersection(other).map(|id| u64::from(*id)).sum()
    }
    fn copy(&self) -> Self {
        self.clone()
    }
    fn or(&mut self, other: &Self) {
        self.extend(other);
    }
    fn and(&mut self, other: &Self) {
        self.retain(|id| other.contains(id));
    }
    fn minus(&mut self, other: &Self) {
        self.retain(|id| !other.contains(id));
    }
}

#[cfg(fixedbitset)]
impl Set for fixedbitset::FixedBitSet {
    const NAME: &'static str = "fixedbitset";
    const IS_SPARSE: bool = false;
    fn new() -> Self {
        fixedbitset::FixedBitSet::with_capacity(0)
    }
    fn add_all(&mut self, ids: &[u32]) {
        for id in ids {
            if self.len() <= *id as usize {
                self.grow(*id as usize + 1);
            }
            self.insert(*id as usize);
        }
    }
    fn remove_all(&mut self, ids: &[u32]) {
        for id in ids {
            self.set(*id as usize, false);
        }
    }
    fn count_there(&self, ids: &[u32]) -> u64 {
        ids.iter().filter(|id| self.contains(**id as usize)).count() as u64
    }
    fn sum(&self) -> u64 {
        self.ones().map(|id| id as u64).sum()
    }
    fn sum_of_both(&self, other: &Self) -> u64 {
        self.intersection(other).map(|id| id as u64).sum()
    }
    fn copy(&self) -> Self {
        self.clone()
    }
    fn or(&mut self, other: &Self) {
        self.union_with(other);
    }
    fn and(&mut self, other: &Self) {
        self.intersect_with(other);
    }
    fn minus(&mut self, other: &Self) {
        self.difference_with(other);
    }
}

#[cfg(roaring)]
mod roaring {
    use super::{c_void, Set};

    extern "C" {
        fn roaring_bitmap_create_with_capacity(capacity: u32) -> *mut c_void;
        fn roaring_bitmap_copy(set: *const c_void) -> *mut c_void;
        fn roaring_bitmap_free(set: *mut c_void);
        fn roaring_bitmap_or_inplace(set: *mut c_void, other: *const c_void);
        fn roaring_bitmap_and_inplace(set: *mut c_void, other: *const c_void);
        fn roaring_bitmap_andnot_inplace(set: *mut c_void, other: *const c_void);
        fn roaring_add_all(set: *mut c_void, ids: *const u32, count: usize);
        fn roaring_remove_all(set: *mut c_void, ids: *const u32, count: usize);
        fn roaring_count_there(set: *const c_void, ids: *const u32, count: usize) -> u64;
        fn roaring_sum(set: *const c_void) -> u64;
        fn roaring_sum_of_both(a: *const c_void, b: *const c_void) -> u64;
    }

    pub struct Roaring(*mut c_void);

    impl Drop for Roaring {
        fn drop(&mut self) {
            unsafe { roaring_bitmap_free(self.0) }
        }
    }

    impl Set for Roaring {
        const NAME: &'static str = "CRoaring";
        fn new() -> Self {
            Roaring(unsafe { roaring_bitmap_create_with_capacity(0) })
        }
        fn add_all(&mut self, ids: &[u32]) {
            unsafe { roaring_add_all(self.0, ids.as_ptr(), ids.len()) }
        }
        fn remove_all(&mut self, ids: &[u32]) {
            unsafe { roaring_remove_all(self.0, ids.as_ptr(), ids.len()) }
        }
        fn count_there(&self, ids: &[u32]) -> u64 {
            unsafe { roaring_count_there(self.0, ids.as_ptr(), ids.len()) }
        }
        fn sum(&self) -> u64 {
            unsafe { roaring_sum(self.0) }
        }
        fn sum_of_both(&self, other: &Self) -> u64 {
            unsafe { roaring_sum_of_both(self.0, other.0) }
        }
        fn copy(&self) -> Self {
            Roaring(unsafe { roaring_bitmap_copy(self.0) })
        }
        fn or(&mut self, other: &Self) {
            unsafe { roaring_bitmap_or_inplace(self.0, other.0) }
        }
        fn and(&mut self, other: &Self) {
            unsafe { roaring_bitmap_and_inplace(self.0, other.0) }
        }
        fn minus(&mut self, other: &Self) {
            unsafe { roaring_bitmap_andnot_inplace(self.0, other.0) }
        }
    }
}

/// A fixed sequence of numbers that look random.
struct Numbers(u64);

impl Numbers {
    fn below(&mut self, bound: u64) -> u32 {
        self.0 = self.0.wrapping_mul(6364136223846793005).wrapping_add(1442695040888963407);
        ((self.0 >> 32) * bound >> 32) as u32
    }

    fn shuffle(&mut self, ids: &mut [u32]) {
        for last in (1..ids.len()).rev() {
            ids.swap(last, self.below(last as u64 + 1) as usize);
        }
    }
}

/// `count` runs of `long` consecutive indices below a bound, ascending, each index once.
fn runs(numbers: &mut Numbers, count: usize, long: u32, bound: u64) -> Vec<u32> {
    let mut found = BTreeSet::new();
    while found.len() < count * long as usize {
        let start = numbers.below(bound - u64::from(long) + 1);
        found.extend(start..start + long);
    }
    found.into_iter().take(count * long as usize).collect()
}

/// What the sets of a table have, below which bound.
struct Members {
    name: String,
    bound: u64,
    ids: Vec<u32>,
    mixed: Vec<u32>,
    others: Vec<u32>,
    asked: Vec<u32>,
}

impl Members {
    fn new(name: String, count: usize, long: u32, bound: u64) -> Members {
        let mut numbers = Numbers(count as u64 + bound);
        let ids = runs(&mut numbers, count, long, bound);
        let others = runs(&mut numbers, count, long, bound);
        let asked = ids.iter().map(|_| numbers.below(bound)).collect();
        let mut mixed = ids.clone();
        numbers.shuffle(&mut mixed);
        Members { name, bound, ids, mixed, others, asked }
    }
}

/// The kinds of members: a share of all indices below 2^24 and below 2^30, clusters, runs.
fn kinds(smaller: u32) -> Vec<(String, usize, u32, u64)> {
    let shares = [(24, 1, 1_000_000), (24, 1, 10_000), (24, 1, 1_000), (24, 1, 100), (24, 1, 10), (24, 1, 2), (30, 1, 1_000_000), (30, 1, 10_000), (30, 1, 1_000)];
    let mut kinds: Vec<_> = shares
        .iter()
        .map(|(bits, part, of)| {
            let count = ((1u64 << bits) * part / of).max(1) as usize >> smaller;
            (format!("{} % below 2^{bits}", 100.0 * *part as f64 / *of as f64), count.max(1), 1, 1u64 << bits)
        })
        .collect();
    kinds.push(("100 clusters of 1,000 below 2^30".into(), 100 >> smaller.min(6), 1_000, 1 << 30));
    kinds.push(("10,000 runs of 10 below 2^30".into(), 10_000 >> smaller, 10, 1 << 30));
    kinds
}

fn median(mut all: Vec<f64>) -> f64 {
    all.sort_by(f64::total_cmp);
    all[all.len() / 2]
}

fn seconds(work: &mut dyn FnMut() -> u64) -> f64 {
    let start = unsafe { thread_seconds() };
    black_box(work());
    unsafe { thread_seconds() - start }
}

/// Seconds of a turn of work that changes nothing, on sets of `members` members. With one repeat it is done once.
fn turn(repeats: usize, members: usize, mut work: impl FnMut() -> u64) -> f64 {
    let turns = if repeats == 1 { 1 } else { 200_000 / members + 1 };
    median((0..repeats).map(|_| seconds(&mut || (0..turns).fold(0, |sum, _| sum ^ work())) / turns as f64).collect())
}

/// Microseconds of work on a copy, which does not count.
fn on_copies<S: Set>(repeats: usize, set: &S, work: impl Fn(&mut S)) -> f64 {
    let one = |_| {
        let mut copy = set.copy();
        let taken = seconds(&mut || {
            work(&mut copy);
            0
        });
        drop(copy);
        taken * 1e6
    };
    median((0..repeats).map(one).collect())
}

/// A row of a table, and a number that is the same for every kind of set.
fn row<S: Set>(members: &Members, repeats: usize) -> (String, u64) {
    let made = |ids: &[u32]| {
        let mut set = S::new();
        set.add_all(ids);
        set
    };
    let count = members.ids.len();
    let each = |seconds: f64| seconds * 1e9 / count as f64;
    let before = unsafe { bytes_in_use() };
    let set = made(&members.mixed);
    let bytes = (unsafe { bytes_in_use() } - before) as f64 / count as f64;
    let other = made(&members.others);
    let (mut either, mut both, mut alone) = (set.copy(), set.copy(), set.copy());
    either.or(&other);
    both.and(&other);
    alone.minus(&other);
    let check = either.sum() ^ both.sum().rotate_left(1) ^ alone.sum().rotate_left(2) ^ set.count_there(&members.asked);
    assert_eq!(both.sum(), set.sum_of_both(&other));
    let cells = [
        bytes,
        each(turn(repeats, count, || set.count_there(&members.mixed))),
        each(turn(repeats, count, || set.count_there(&members.asked))),
        each(turn(repeats, count, || made(&members.mixed).count_there(&[0]))),
        each(turn(repeats, count, || made(&members.ids).count_there(&[0]))),
        on_copies(repeats, &set, |copy| copy.remove_all(&members.mixed)) * 1e3 / count as f64,
        each(turn(repeats, count, || set.sum())),
        turn(repeats, count, || set.sum_of_both(&other)) * 1e6,
        on_copies(repeats, &set, |copy| copy.or(&other)),
        on_copies(repeats, &set, |copy| copy.and(&other)),
        on_copies(repeats, &set, |copy| copy.minus(&other)),
        turn(repeats, count, || set.copy().count_there(&[0])) * 1e6,
    ];
    let said: Vec<String> = cells.iter().map(|cell| if *cell < 100.0 { format!("{cell:.1}") } else { format!("{cell:.0}") }).collect();
    (format!("| {} | {} |", S::NAME, said.join(" | ")), check)
}

fn table(members: &Members, repeats: usize) {
    println!("**{}** ({} members)\n", members.name, members.ids.len());
    println!("| set | bytes a member | contains, there | contains, any | add, random | add, ascending | remove, random | walk | `a & b`, µs | `a \\|= b`, µs | `a &= b`, µs | `a -= b`, µs | clone, µs |");
    println!("|---|---|---|---|---|---|---|---|---|---|---|---|---|");
    let mut checks = Vec::new();
    let mut print = |(row, check): (String, u64)| {
        println!("{row}");
        checks.push(check);
    };
    print(row::<SparseBitSet>(members, repeats));
    #[cfg(roaring)]
    print(row::<roaring::Roaring>(members, repeats));
    print(row::<BTreeSet<u32>>(members, repeats));
    if members.bound <= 1 << 24 || !BitSet::IS_SPARSE && members.ids.len() > 1_000_000 {
        print(row::<BitSet>(members, repeats));
        #[cfg(fixedbitset)]
        print(row::<fixedbitset::FixedBitSet>(members, repeats));
    }
    println!();
    assert!(checks.iter().all(|check| *check == checks[0]), "the sets differ");
}

fn main() {
    let words: Vec<String> = std::env::args().collect();
    let repeats = words.get(1).map_or(5, |word| word.parse().expect("a number of repeats"));
    let wanted = words.get(2).map_or("", |word| word);
    let smaller = if std::env::var_os("SMALL").is_some() { 8 } else { 0 };
    for (name, count, long, bound) in kinds(smaller) {
        if name.contains(wanted) {
            table(&Members::new(name, count, long, bound), repeats);
        }
    }
}
