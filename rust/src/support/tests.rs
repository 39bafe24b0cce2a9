//! Tests of what stands in for Rattle's library, where no test of the crate calls it.

use super::atomic_table::{Play, Split, Table, TableRule};
use super::rattle_std::alloc::{AllocError, AllocFailed, Global};
use super::rattle_std::clone::TryClone;
use super::rattle_std::collections::BTreeMap;
use super::rattle_std::io::{Error, ErrorKind, OfRust, Read, Write};
use super::rattle_std::rt::host;
use super::rattle_std::snapshot::Snapshot;
use super::rattle_std::vec::Vec;
use super::rayon::{current_num_threads, join, join_mut};
use std::format;
use std::string::ToString;
use std::sync::{Arc, Barrier};
use std::vec::Vec as Inner;

fn list(items: &[u32]) -> Vec<u32> {
    Vec::from_slice(Global, items).unwrap()
}

#[test]
fn a_list_is_taken_from_rust_and_given_back() {
    assert_eq!(*Vec::from_rust(std::vec![5, 6]), [5, 6]);
    assert_eq!(list(&[5, 6]).into_rust(), [5, 6]);
    assert_eq!(list(&[5, 6]).try_clone().unwrap(), list(&[5, 6]));
    assert_eq!(*Vec::from_clones(Global, &[&5, &6]).unwrap(), [&5, &6]);
    assert_eq!(format!("{:?}", list(&[5, 6])), "[5, 6]");
}

#[test]
fn items_are_seen_from_each_side() {
    let mut items = list(&[5, 6, 7]);
    assert_eq!(
        (items.as_slice(), items.len(), &items[1..]),
        (&[5, 6, 7][..], 3, &[6, 7][..])
    );
    items.as_mut_slice()[0] += 10;
    items[1] += 20;
    for item in &mut items {
        *item += 1;
    }
    assert_eq!(items, list(&[16, 27, 8]));
    assert!((&items).into_iter().eq(&[16, 27, 8]));
    assert!(items.into_iter().eq([16, 27, 8]));
}

#[test]
fn one_item_is_put_in_and_taken_out() {
    let mut items = list(&[5, 6, 7]);
    items.insert(1, 9).unwrap();
    assert_eq!(*items, [5, 9, 6, 7]);
    assert_eq!(items.remove(0), 5);
    assert_eq!(*items, [9, 6, 7]);
    assert_eq!(
        (items.pop(), items.pop(), items.pop(), items.pop()),
        (Some(7), Some(6), Some(9), None)
    );
}

#[test]
fn the_capacity_is_kept_until_it_is_given_back() {
    let mut items = Vec::with_capacity(Global, 8).unwrap();
    assert!(items.capacity() >= 8 && items.is_empty());
    items.extend(0..5).unwrap();
    items.truncate(2);
    assert_eq!(*items, [0, 1]);
    items.clear();
    assert!(items.capacity() >= 8 && items.is_empty());
    items.shrink_to_fit();
    assert_eq!(items.capacity(), 0);
    items.reserve(1).unwrap();
    assert!(items.capacity() >= 1);
    let mut bytes = Vec::<u8>::new(Global);
    bytes.reserve_exact(9).unwrap();
    assert_eq!(bytes.capacity(), 9);
}

#[test]
fn too_many_items_are_refused() {
    let mut items = list(&[5]);
    assert_eq!(items.reserve(usize::MAX), Err(AllocError));
    assert_eq!(items.reserve_exact(usize::MAX), Err(AllocError));
    assert_eq!(items.resize(usize::MAX, 0), Err(AllocError));
    assert!(Vec::<u32>::with_capacity(Global, usize::MAX).is_err());
    let mut units = Vec::from_slice(Global, &[()]).unwrap();
    let many = [(); usize::MAX];
    assert_eq!(units.extend_from_slice(&many), Err(AllocError));
    assert_eq!(*items, [5]);
}

#[test]
fn lists_grow_by_others() {
    let (mut items, mut more) = (list(&[5]), list(&[6, 7]));
    items.append(&mut more).unwrap();
    assert!(more.is_empty());
    items.extend_from_slice(&[8, 9]).unwrap();
    assert_eq!(*items, [5, 6, 7, 8, 9]);
    items.resize(6, 1).unwrap();
    items.resize(2, 1).unwrap();
    assert_eq!(*items, [5, 6]);
}

#[test]
fn a_map_says_what_was_there() {
    let mut map = BTreeMap::new(Global);
    assert_eq!(map.insert(5, 'a').unwrap(), None);
    assert_eq!(map.insert(5, 'b').unwrap(), Some('a'));
    *map.get_mut(&5).unwrap() = 'c';
    assert_eq!(map.get(&5), Some(&'c'));
}

#[test]
fn errors_have_kinds_and_texts() {
    let failed = AllocFailed { value: 5 };
    assert_eq!(
        (format!("{failed:?}"), failed.to_string()),
        (
            "AllocFailed".to_string(),
            "memory allocation failed".to_string()
        )
    );
    assert_eq!(AllocError::from(failed), AllocError);
    let kinds = [
        (ErrorKind::Interrupted, "interrupted"),
        (ErrorKind::OutOfMemory, "out of memory"),
        (ErrorKind::WriteZero, "nothing was written"),
        (ErrorKind::UnexpectedEof, "unexpected end"),
        (ErrorKind::TimedOut, "timed out"),
        (ErrorKind::WouldBlock, "would block"),
        (ErrorKind::BrokenPipe, "broken pipe"),
        (ErrorKind::Other, "other error"),
    ];
    for (kind, text) in kinds {
        let error = Error::from(kind);
        assert_eq!((error.kind(), error.to_string().as_str()), (kind, text));
    }
    assert_eq!(Error::from(AllocError).kind(), ErrorKind::OutOfMemory);
    let other = Error::other("why");
    assert_eq!(
        (other.kind(), other.to_string().as_str()),
        (ErrorKind::Other, "why")
    );
}

#[test]
fn bytes_are_read_and_written() {
    let (mut bytes, mut buffer) = (&[1, 2, 3][..], [0; 2]);
    assert_eq!((bytes.read(&mut buffer).unwrap(), buffer), (2, [1, 2]));
    assert_eq!((bytes.read(&mut buffer).unwrap(), buffer), (1, [3, 2]));
    assert_eq!(bytes.read(&mut buffer).unwrap(), 0);
    let mut written = Vec::new(Global);
    assert_eq!(Write::write(&mut written, &[4, 5]).unwrap(), 2);
    written.flush().unwrap();
    assert_eq!(*written, [4, 5]);
}

/// A reader and writer of Rust's library, which takes three bytes at once and fails at each second call.
#[derive(Default)]
struct Halting {
    taken: Inner<u8>,
    calls: usize,
}

impl Halting {
    fn call(&mut self) -> std::io::Result<()> {
        self.calls += 1;
        if self.calls % 2 == 0 {
            return Err(std::io::Error::new(
                std::io::ErrorKind::UnexpectedEof,
                "why",
            ));
        }
        Ok(())
    }
}

impl std::io::Read for Halting {
    fn read(&mut self, buffer: &mut [u8]) -> std::io::Result<usize> {
        self.call()?;
        buffer[0] = 9;
        Ok(1)
    }
}

impl std::io::Write for Halting {
    fn write(&mut self, bytes: &[u8]) -> std::io::Result<usize> {
        self.call()?;
        self.taken.extend(&bytes[..3]);
        Ok(3)
    }

    fn flush(&mut self) -> std::io::Result<()> {
        self.call()
    }
}

#[test]
fn readers_and_writers_of_rust_keep_their_errors() {
    let (mut halting, mut buffer) = (OfRust::new(Halting::default()), [0; 2]);
    assert_eq!((halting.read(&mut buffer).unwrap(), buffer), (1, [9, 0]));
    assert_eq!(
        halting.read(&mut buffer).unwrap_err().kind(),
        ErrorKind::UnexpectedEof
    );
    assert_eq!(halting.error.take().unwrap().to_string(), "why");
    assert_eq!(halting.write(&[1, 2, 3, 4]).unwrap(), 3);
    assert_eq!(
        halting.write(&[1, 2, 3, 4]).unwrap_err().kind(),
        ErrorKind::UnexpectedEof
    );
    halting.flush().unwrap();
    assert_eq!(
        halting.flush().unwrap_err().kind(),
        ErrorKind::UnexpectedEof
    );
    assert_eq!(
        (halting.inner.calls, halting.inner.taken),
        (6, std::vec![1, 2, 3])
    );
}

struct Any;
impl TableRule<(), (), ()> for Any {}
impl Play<(), ()> for Any {}
impl Split<()> for Any {}

#[test]
fn a_table_has_its_words_until_it_is_freed() {
    let (mut table, mut seat) =
        Table::<(), (), (), Any, ()>::of_words((), &[5, 6, 7], &()).unwrap();
    let _second = table.shared.split_seat::<Any>(&mut seat);
    assert_eq!(table.shared.fetch_or::<Any>(&mut seat, 1, 9), 6);
    assert_eq!(table.shared.load::<Any>(&mut seat, 1), 15);
    *table.shared.word_mut(0) = 4;
    table.shared.zero(2..3);
    let closed = table.close_with(seat);
    assert_eq!([closed.word(0), closed.word(1), closed.word(2)], [4, 15, 0]);
    closed.free();
    let zeros = Table::<(), (), (), Any, ()>::of_zeros(3);
    assert_eq!(
        zeros
            .shared
            .load::<Any>(&mut super::atomic_table::Seat::erased(), 2),
        0
    );
    let _ = Snapshot::of(&5);
}

#[test]
fn closures_run_side_by_side() {
    let rt = host();
    let processors = std::thread::available_parallelism().unwrap().get();
    assert_eq!(
        (current_num_threads(&rt), current_num_threads(&rt)),
        (processors, processors)
    );
    let (barrier, mut sums) = (Arc::new(Barrier::new(2)), [0, 0]);
    let [a, b] = [barrier.clone(), barrier];
    // Each waits for the other, so they end only if they run at once.
    assert_eq!(
        join(&rt, move || (a.wait(), 5).1, move || (b.wait(), 6).1),
        (5, 6)
    );
    let [first, second] = &mut sums;
    join_mut(&rt, &mut || *first += 1, &mut || *second += 2);
    assert_eq!(sums, [1, 2]);
}

#[test]
fn a_panic_of_either_closure_reaches_the_caller() {
    for fails in ["first", "second"] {
        let end = |own: &'static str| assert_ne!(own, fails, "{fails} ends");
        let ended = std::panic::catch_unwind(|| join(&host(), || end("first"), || end("second")));
        let said = ended
            .unwrap_err()
            .downcast::<std::string::String>()
            .unwrap();
        assert!(said.contains(&format!("{fails} ends")), "{said}");
    }
}
