//! Each allocation of each call fails in turn.
//!
//! The allocator of this test refuses what one thread has named in `REFUSED`, and passes all else on to the system's.

use std::alloc::{GlobalAlloc, Layout, System};
use std::cell::Cell;
use std::env;
use std::fmt::Debug;
use std::panic::{catch_unwind, resume_unwind, AssertUnwindSafe};
use std::process::Command;
use std::ptr::null_mut;

use hibitset::{
    AllocError, AtomicBitSet, BitSet, BitSetLike, BitSetLikeExt, Index, Ranked, RoaringError,
    SparseBitSet, MAX_EID,
};

thread_local! {
    // How many requests are let through before one is refused; none is refused if it is negative.
    static REFUSED: Cell<i64> = const { Cell::new(-1) };
    static REQUESTS: Cell<u64> = const { Cell::new(0) };
}

struct Refusing;

#[global_allocator]
static ALLOCATOR: Refusing = Refusing;

/// Counts a request, and returns whether it is the one to be refused.
fn is_refused() -> bool {
    REQUESTS.set(REQUESTS.get() + 1);
    let left = REFUSED.get();
    if left >= 0 {
        REFUSED.set(left - 1);
    }
    left == 0
}

// SAFETY: each block is the system's, and null is an answer that a caller has to take.
unsafe impl GlobalAlloc for Refusing {
    unsafe fn alloc(&self, layout: Layout) -> *mut u8 {
        if is_refused() {
            return null_mut();
        }
        System.alloc(layout)
    }

    unsafe fn alloc_zeroed(&self, layout: Layout) -> *mut u8 {
        if is_refused() {
            return null_mut();
        }
        System.alloc_zeroed(layout)
    }

    unsafe fn realloc(&self, block: *mut u8, layout: Layout, size: usize) -> *mut u8 {
        if is_refused() {
            return null_mut();
        }
        System.realloc(block, layout, size)
    }

    unsafe fn dealloc(&self, block: *mut u8, layout: Layout) {
        System.dealloc(block, layout);
    }
}

/// Makes the call with each of its requests refused in turn, until none is.
///
/// Each refused call must return the error and leave the members; then it must pass when made again. Returns how many
/// requests the call makes.
fn refuse_each<S: Clone + PartialEq + Debug>(
    start: &S,
    call: impl Fn(&mut S) -> Result<(), AllocError>,
) -> u64 {
    for refused in 0.. {
        let mut set = start.clone();
        REQUESTS.set(0);
        REFUSED.set(refused);
        let result = call(&mut set);
        let was_refused = REFUSED.replace(-1) < 0;
        let requests = REQUESTS.get();
        if !was_refused {
            assert!(result.is_ok());
            return requests;
        }
        assert_eq!(result, Err(AllocError), "request {refused}");
        assert_eq!(set, *start, "request {refused}");
        assert!(call(&mut set).is_ok(), "request {refused}");
    }
    unreachable!("a call makes fewer requests")
}

fn sets() -> [BitSet; 3] {
    [
        BitSet::new(),
        BitSet::from_iter([5, 70]),
        (0..5_000).filter(|i| i % 3 == 0).collect(),
    ]
}

#[test]
fn a_refused_change_leaves_the_members() {
    let other: BitSet = (0..50_000).filter(|i| i % 7 == 0).collect();
    for set in sets() {
        assert!(refuse_each(&set, |set| set.try_add(300_000).map(drop)) > 0);
        assert!(refuse_each(&set, |set| set.try_add_range(4_000..70_000)) > 0);
        assert!(refuse_each(&set, |set| set.try_flip_range(4_000..70_000)) > 0);
        assert!(refuse_each(&set, |set| set.try_bitor_assign(&other)) > 0);
        assert!(refuse_each(&set, |set| set.try_bitxor_assign(&other)) > 0);
        assert!(
            refuse_each(&set, |set| set
                .try_bitor_assign(&(&other & !(&other & !&other))))
                > 0
        );
        assert!(refuse_each(&set, |set| set.try_bitxor_assign(&(&other | &other))) > 0);
    }
}

#[test]
fn a_refused_set_is_not_made() {
    let a: BitSet = (0..50_000).filter(|i| i % 7 == 0).collect();
    let b: BitSet = (0..40_000).filter(|i| i % 5 == 0).collect();
    let none = BitSet::new();
    assert!(refuse_each(&none, |_| BitSet::try_with_capacity(5_000).map(drop)) > 0);
    assert!(refuse_each(&none, |_| BitSet::try_from_words(&[1, 2, 3]).map(drop)) > 0);
    assert!(refuse_each(&none, |_| a.try_clone().map(drop)) > 0);
    assert!(refuse_each(&none, |_| Ranked::try_new(&a).map(drop)) > 0);
    assert!(refuse_each(&none, |_| (&a & &b).try_to_bit_set().map(drop)) > 0);
    assert!(refuse_each(&none, |_| (&a | &b).try_to_bit_set().map(drop)) > 0);
    assert!(refuse_each(&none, |_| (&a ^ &b).try_to_bit_set().map(drop)) > 0);
    assert!(refuse_each(&none, |_| (&a - &b).try_to_bit_set().map(drop)) > 0);
    assert!(refuse_each(&none, |_| (&a & !(&b & !&a)).try_to_bit_set().map(drop)) > 0);
}

fn sparse_sets() -> [SparseBitSet; 3] {
    [
        SparseBitSet::new(),
        SparseBitSet::from_iter([5, 70, MAX_EID as Index - 1]),
        (0..3_000).map(|i| i * 311).collect(),
    ]
}

#[test]
fn a_refused_change_leaves_the_members_of_a_sparse_set() {
    let other: SparseBitSet = (0..600).map(|i| i * 1_777).collect();
    let dense = other.to_bit_set();
    let far = MAX_EID as Index / 2;
    for set in sparse_sets() {
        assert!(refuse_each(&set, |set| set.try_add(far).map(drop)) > 1);
        assert!(refuse_each(&set, |set| set.try_add_range(4_000..270_000)) > 0);
        assert!(refuse_each(&set, |set| set.try_flip_range(4_000..270_000)) > 0);
        assert!(refuse_each(&set, |set| set.try_bitor_assign(&other)) > 0);
        assert!(refuse_each(&set, |set| set.try_bitxor_assign(&dense)) > 0);
        assert!(refuse_each(&set, |set| set.try_bitor_assign(&(&dense & &other))) > 0);
        // Each part with members has two lists of its own.
        assert!(set.is_empty() || refuse_each(&set, |set| set.try_clone().map(drop)) > 3);
        assert!(refuse_each(&set, |_| SparseBitSet::try_from_set(&other).map(drop)) > 3);
        assert!(refuse_each(&set, |_| SparseBitSet::try_from_set(&dense).map(drop)) > 3);
        assert!(refuse_each(&set, |_| other.try_to_bit_set().map(drop)) > 0);
    }
    // Where the word has a member, and from the second time on, nothing is allocated.
    let set = SparseBitSet::from([64, far]);
    assert_eq!(refuse_each(&set, |set| set.try_add(127).map(drop)), 0);
    assert_eq!(refuse_each(&set, |set| set.try_add(far).map(drop)), 0);
}

/// Makes the call with each of its requests refused in turn, until none is: it gives the same set then.
///
/// Returns how many requests the call makes.
fn ignores_refusals(start: &SparseBitSet, call: impl Fn(&mut SparseBitSet)) -> u64 {
    let mut wanted = start.clone();
    call(&mut wanted);
    for refused in 0.. {
        let mut set = start.clone();
        REQUESTS.set(0);
        let ((), was_refused) = with_refused(refused, || call(&mut set));
        let requests = REQUESTS.get();
        assert_eq!(set, wanted, "request {refused}");
        if !was_refused {
            return requests;
        }
    }
    unreachable!("a call makes fewer requests")
}

#[test]
fn removals_from_a_sparse_set_allocate_nothing() {
    let other: SparseBitSet = (0..600).map(|i| i * 1_777).collect();
    let dense = other.to_bit_set();
    for set in sparse_sets() {
        assert_eq!(ignores_refusals(&set, |set| *set &= &other), 0);
        assert_eq!(ignores_refusals(&set, |set| *set &= &!&dense), 0);
        assert_eq!(ignores_refusals(&set, |set| *set -= &(&other | &dense)), 0);
        assert_eq!(ignores_refusals(&set, |set| set.subtract_assign(&dense)), 0);
        assert_eq!(
            ignores_refusals(&set, |set| set.remove_range(40..200_000)),
            0
        );
        assert_eq!(ignores_refusals(&set, |set| set.retain(|i| i % 2 == 0)), 0);
        assert_eq!(ignores_refusals(&set, |set| _ = set.drain().count()), 0);
        assert_eq!(ignores_refusals(&set, |set| _ = set.remove(70)), 0);
        assert_eq!(ignores_refusals(&set, SparseBitSet::clear), 0);
    }
}

#[test]
fn a_refused_shrinking_keeps_the_memory() {
    let shrinks = |set: &mut SparseBitSet| {
        // Copies have no more than their members use, so the set grows first.
        let refused = REFUSED.replace(-1);
        set.extend((0..50).map(|i| i * 100_000));
        REFUSED.set(refused);
        REQUESTS.set(0);
        set.shrink_to_fit();
    };
    assert!(ignores_refusals(&SparseBitSet::from([7]), shrinks) > 4);
    let set: SparseBitSet = (0..50).map(|i| i * 100_000).collect();
    assert_eq!(ignores_refusals(&set, SparseBitSet::shrink_to_fit), 0);
}

#[test]
fn a_sparse_set_takes_the_memory_of_its_members() {
    let empty = with_refused(0, || SparseBitSet::new().clone().is_empty());
    assert_eq!(empty, (true, false));
    let mut set = SparseBitSet::new();
    REQUESTS.set(0);
    set.add(MAX_EID as Index - 1);
    // The words and the groups of one part, and those of the set.
    assert_eq!(REQUESTS.get(), 4);
}

#[test]
fn a_refused_item_ends_the_extension_of_a_sparse_set() {
    let mut set = SparseBitSet::from([5]);
    let mut items = [5, 6, 7_000_000, 8].into_iter();
    let (refused, _) = with_refused(0, || set.try_extend(&mut items));
    assert_eq!((refused, set.to_vec()), (Err(AllocError), vec![5, 6]));
    assert_eq!(
        (set.try_extend(items), set.to_vec()),
        (Ok(()), vec![5, 6, 8])
    );
}

#[test]
fn a_refused_stream_is_neither_read_nor_written() {
    let set: BitSet = (0..50_000).filter(|i| i % 7 == 0).collect();
    let bytes = set.to_roaring();
    let read = |bytes: &[u8]| match BitSet::from_roaring(bytes) {
        Ok(read) => {
            assert_eq!(read, set);
            Ok(())
        }
        Err(RoaringError::Memory) => Err(AllocError),
        Err(error) => panic!("{error}"),
    };
    let none = BitSet::new();
    assert!(refuse_each(&none, |_| read(&bytes)) > 0);
    assert!(refuse_each(&none, |_| set.try_to_roaring().map(drop)) > 1);
    assert_eq!(
        refuse_each(&none, |_| {
            let _ = set.roaring_len();
            Ok(())
        }),
        0
    );
}

#[test]
fn a_refused_item_ends_an_extension() {
    let mut set = BitSet::new();
    let mut items = [5, 6, 7_000_000, 8].into_iter();
    set.add(5);
    REFUSED.set(0);
    let refused = set.try_extend(&mut items);
    REFUSED.set(-1);
    assert_eq!((refused, set.to_vec()), (Err(AllocError), vec![5, 6]));
    assert_eq!(
        (set.try_extend(items), set.to_vec()),
        (Ok(()), vec![5, 6, 8])
    );
}

/// What `call` answers if request `refused` is refused, and whether it came so far.
fn with_refused<T>(refused: i64, call: impl FnOnce() -> T) -> (T, bool) {
    REFUSED.set(refused);
    let answer = call();
    (answer, REFUSED.replace(-1) < 0)
}

// Without std, `new` takes the memory.
#[cfg(feature = "std")]
#[test]
fn a_refused_call_leaves_an_atomic_set() {
    for refused in 0.. {
        let mut set = AtomicBitSet::new();
        let (added, was_refused) = with_refused(refused, || set.try_add(70_000));
        assert_eq!(
            added,
            if was_refused {
                Err(AllocError)
            } else {
                Ok(false)
            }
        );
        assert_eq!(
            (set.contains(70_000), set.is_empty()),
            (!was_refused, was_refused)
        );
        assert_eq!(set.add(70_000), !was_refused);
        let (made, was_refused_too) = with_refused(refused, || AtomicBitSet::try_new().map(drop));
        assert_eq!((made.is_err(), was_refused_too), (was_refused, was_refused));
        let (shared, _) = with_refused(if was_refused { refused } else { -1 }, || {
            AtomicBitSet::new().try_share()
        });
        match shared {
            Ok(seat) => assert!(!was_refused && seat.is_whole()),
            Err(set) => assert!(was_refused && set.is_empty()),
        }
        if !was_refused {
            assert!(refused > 0);
            return;
        }
    }
}

#[test]
fn an_atomic_set_takes_memory_once() {
    let mut set = AtomicBitSet::new();
    REFUSED.set(0);
    // An empty set has none, whatever is asked of it.
    let is_empty =
        set.is_empty() && !set.contains(5) && (&set).iter().next().is_none() && !set.remove(5);
    set.clear();
    assert_eq!(REFUSED.replace(-1), 0);
    assert!(is_empty);
    set.add_atomic(3);
    REFUSED.set(0);
    let fresh = (0..70_000).filter(|&i| !set.add_atomic(i)).count();
    let removed = (0..70_000).step_by(2).filter(|&i| set.remove(i)).count();
    set.clear();
    let was = set.add(16_000_000);
    assert_eq!(REFUSED.replace(-1), 0);
    assert_eq!((fresh, removed, was), (69_999, 35_000, false));
}

#[test]
fn a_seat_takes_no_memory() {
    let seat = AtomicBitSet::from_iter([5]).share();
    REFUSED.set(0);
    let fresh = (0..70_000).filter(|&i| !seat.add_atomic(i)).count();
    let there = (0..80_000).filter(|&i| seat.contains(i)).count();
    let other = seat.divide().expect("the seat has more than one share");
    drop(other);
    let mut set = seat.settle().expect("it is the only seat");
    let was = set.add(16_000_000);
    assert_eq!(REFUSED.replace(-1), 0);
    assert_eq!((fresh, there, was), (69_999, 70_000, false));
}

#[test]
fn a_refused_copy_of_a_shared_set_leaves_both() {
    let seat = AtomicBitSet::from_iter([5]).share();
    let mut set = BitSet::from_iter([1]);
    let (copied, was_refused) = with_refused(0, || seat.try_collect_into(&mut set));
    assert!(!was_refused && copied.is_ok() && set.to_vec() == [1, 5]);
    seat.add_atomic(70_000);
    let (copied, was_refused) = with_refused(0, || seat.try_collect_into(&mut set));
    assert!(was_refused && copied == Err(AllocError) && set.to_vec() == [1, 5]);
    assert!(seat.try_collect_into(&mut set).is_ok() && set.to_vec() == [1, 5, 70_000]);
}

#[test]
fn calls_within_the_capacity_take_no_memory() {
    let other: BitSet = (0..50_000).filter(|i| i % 7 == 0).collect();
    let none = BitSet::new();
    let mut set = BitSet::with_capacity(50_000);
    REFUSED.set(0);
    set.add(49_999);
    set.add_range(100..40_000);
    set.remove_range(200..300);
    set |= &other;
    set ^= &other;
    set |= &other;
    set &= &other;
    set &= &!&none;
    set &= &(&other & &other);
    set &= &(&other & !&none);
    set -= &(&none | &none);
    set -= &!&other;
    let same = set == other && set.last() == other.last();
    let walked = (&set & &other).into_iter().count() + (!&set).iter_from(5).take(100).count();
    let drained = set.drain().count();
    // Before any assertion, whose message takes memory.
    assert_eq!(REFUSED.replace(-1), 0);
    assert!(same && drained == other.len() && walked == drained + 100 && set.is_empty());
}

#[test]
fn an_empty_set_takes_no_memory() {
    REFUSED.set(0);
    let set = BitSet::new();
    let copy = set.clone();
    assert!(set == copy && set.layer0_as_slice().is_empty() && (&set).iter().next().is_none());
    drop((set, copy));
    assert_eq!(REFUSED.replace(-1), 0);
}

#[test]
fn the_error_has_a_text() {
    let error: Box<dyn std::error::Error> = Box::new(AllocError);
    assert_eq!(error.to_string(), "memory allocation failed");
}

/// What the test below has its child do.
fn call_refused(call: &str) {
    let mut set = BitSet::from_iter([5]);
    let other = BitSet::from_iter([70_000]);
    let seat = AtomicBitSet::from_iter([70_000]).share();
    let (mut sparse, far) = (SparseBitSet::from([5]), SparseBitSet::from([70_000]));
    REFUSED.set(0);
    match call {
        "collect_into" => drop(seat.to_bit_set()),
        "add" => _ = set.add(70_000),
        "extend" => set.extend([6, 70_000]),
        "collect" => drop(BitSet::from_iter([1])),
        "add_range" => set.add_range(5..70_000),
        "flip_range" => set.flip_range(5..70_000),
        "to_vec" => drop(set.to_vec()),
        "to_roaring" => drop(set.to_roaring()),
        "ranked" => drop(Ranked::new(&other)),
        "or" => set |= &other,
        "xor" => set ^= &other,
        "clone" => drop(other.clone()),
        "with_capacity" => drop(BitSet::with_capacity(MAX_EID as Index)),
        "from_words" => drop(BitSet::from_words(&[1])),
        "to_bit_set" => drop((&set | &other).to_bit_set()),
        "add_atomic" => _ = AtomicBitSet::new().add_atomic(5),
        "share" => drop(AtomicBitSet::new().share()),
        "sparse_add" => _ = sparse.add(70_000),
        "sparse_add_range" => sparse.add_range(5..70_000),
        "sparse_clone" => drop(sparse.clone()),
        "sparse_collect" => drop(SparseBitSet::from_iter([1])),
        "sparse_extend" => sparse.extend([6, 70_000]),
        "sparse_flip_range" => sparse.flip_range(5..70_000),
        "sparse_to_roaring" => drop(sparse.to_roaring()),
        "sparse_union_with" => sparse.union_with(&far),
        "sparse_symmetric_difference_with" => sparse.symmetric_difference_with(&far),
        "sparse_from_set" => drop(SparseBitSet::from_set(&other)),
        "sparse_or" => sparse |= &other,
        "sparse_to_vec" => drop(sparse.to_vec()),
        "sparse_xor" => sparse ^= &other,
        _ => unreachable!("no call has this name"),
    }
}

#[test]
fn a_call_without_an_error_ends_the_process() {
    if let Ok(call) = env::var("HIBITSET_REFUSED_CALL") {
        return call_refused(&call);
    }
    for call in [
        "add",
        "extend",
        "collect",
        "add_range",
        "flip_range",
        "to_vec",
        "to_roaring",
        "ranked",
        "or",
        "xor",
        "clone",
        "with_capacity",
        "from_words",
        "to_bit_set",
        "add_atomic",
        "share",
        "collect_into",
        "sparse_add",
        "sparse_add_range",
        "sparse_clone",
        "sparse_collect",
        "sparse_extend",
        "sparse_flip_range",
        "sparse_to_roaring",
        "sparse_union_with",
        "sparse_symmetric_difference_with",
        "sparse_from_set",
        "sparse_or",
        "sparse_to_vec",
        "sparse_xor",
    ] {
        let child = Command::new(env::current_exe().expect("the test has a path"))
            .args([
                "--exact",
                "a_call_without_an_error_ends_the_process",
                "--nocapture",
            ])
            .env("HIBITSET_REFUSED_CALL", call)
            .output()
            .expect("the test runs");
        let text = String::from_utf8_lossy(&child.stderr);
        assert!(
            !child.status.success() && text.contains("memory allocation of"),
            "{call}: {text}"
        );
    }
}

/// A set whose words of layer 0 can't be read: the panic's own allocation passes, and the next one is refused.
struct Unreadable<'a>(&'a BitSet);

impl BitSetLike for Unreadable<'_> {
    fn layer4(&self) -> usize {
        self.0.layer4()
    }

    fn layer3(&self, i: usize) -> usize {
        self.0.layer3(i)
    }

    fn layer2(&self, i: usize) -> usize {
        self.0.layer2(i)
    }

    fn layer1(&self, i: usize) -> usize {
        self.0.layer1(i)
    }

    fn layer0(&self, _: usize) -> usize {
        REFUSED.set(1);
        resume_unwind(Box::new(()))
    }

    fn contains(&self, i: Index) -> bool {
        self.0.contains(i)
    }
}

#[test]
fn a_set_without_memory_to_sum_it_again_is_empty() {
    let start: BitSet = (0..5_000).collect();
    let mut set = start.clone();
    let result = catch_unwind(AssertUnwindSafe(|| set &= &Unreadable(&start)));
    assert!(result.is_err() && REFUSED.replace(-1) < 0);
    assert!(set.is_empty() && set == BitSet::new() && set.layer0_as_slice().is_empty());
    assert!(!set.add(5) && set.to_vec() == [5]);
}
