//! Sets with indices up to 2^30, where the original has no answer: beside the flat set and CRoaring alone.
use std::time::Duration;

use crate::harness::{timed, Answer, Bench, Kernel, Numbers, Row, SMALLER};
use crate::ours;

const END: usize = 1 << 30 >> SMALLER;

/// A list of indices, ascending, with a name, and its members in the peers.
struct Wide {
    name: &'static str,
    ids: Vec<u32>,
    #[cfg(fixedbitset)]
    fixed: fixedbitset::FixedBitSet,
    #[cfg(roaring)]
    roaring: crate::roaring::Roaring,
}

impl Wide {
    fn new(name: &'static str, ids: Vec<u32>) -> Wide {
        Wide {
            name,
            #[cfg(fixedbitset)]
            fixed: {
                let mut set = fixedbitset::FixedBitSet::with_capacity(END);
                ids.iter().for_each(|id| set.insert(*id as usize));
                set
            },
            #[cfg(roaring)]
            roaring: crate::roaring::Roaring::of(&ids),
            ids,
        }
    }

    /// How much memory its members take in each kind of set.
    fn memory(&self) -> String {
        let mut line = format!("Memory of {}: {} here (8 bytes for each word of a set's slices)", self.name, megabytes(8 * ours::words(&self.ids, 1) as usize));
        if cfg!(fixedbitset) {
            line += &format!(", {} in fixedbitset", megabytes(END / 8));
        }
        #[cfg(roaring)]
        {
            line += &format!(", {} in CRoaring", megabytes(self.roaring.bytes()));
        }
        line + "."
    }
}

fn megabytes(bytes: usize) -> String {
    format!("{:.1} MB", bytes as f64 / 1e6)
}

/// The same indices in another order, which is always the same.
fn shuffled(ids: &[u32]) -> Vec<u32> {
    let (mut ids, mut numbers) = (ids.to_vec(), Numbers(7));
    for at in (1..ids.len()).rev() {
        ids.swap(at, numbers.below(at as u64 + 1) as usize);
    }
    ids
}

fn of<'a>(work: impl Fn(usize) -> u64 + 'a) -> Kernel<'a> {
    Box::new(work)
}

type Work<'a> = Box<dyn FnMut() -> (Duration, u64) + 'a>;

/// A row with the flat set and CRoaring beside it, where they are there.
fn row<'a>(name: String, ops: usize, ours: Kernel<'a>, peers: Vec<(&'static str, Work<'a>)>) -> Row<'a> {
    peers.into_iter().fold(Row::alone(name, ops, ours), |row, (who, work)| row.peer(who, work))
}

macro_rules! peers {
    ($fixed:expr, $roaring:expr) => {{
        let mut peers: Vec<(&'static str, Work)> = Vec::new();
        #[cfg(fixedbitset)]
        peers.push(("fixedbitset", Box::new($fixed)));
        #[cfg(roaring)]
        peers.push(("CRoaring", Box::new($roaring)));
        peers
    }};
}

fn rows_of(bench: &mut Bench, a: &Wide, b: &Wide) {
    let (name, ids, count) = (a.name, &a.ids[..], a.ids.len());
    let asked = &shuffled(ids)[..];
    bench.run(row(format!("walk, {name}"), count, of(|times| ours::walk(ids, times)),
        peers!(|| timed(|| crate::peers::wide_sum(a.fixed.ones())), || timed(|| a.roaring.sum()))));
    bench.run(row(format!("contains, hit, {name}"), count, of(|times| ours::contains(ids, asked, times)),
        peers!(|| timed(|| asked.iter().filter(|i| a.fixed.contains(**i as usize)).count() as u64), || timed(|| asked.iter().filter(|i| a.roaring.contains(**i)).count() as u64))));
    bench.run(row(format!("len, {name}"), count, of(|times| ours::len(ids, times)),
        peers!(|| timed(|| a.fixed.count_ones(..) as u64), || timed(|| a.roaring.len()))));
    bench.run(row(format!("to_vec, {name}"), count, of(|times| ours::to_vec(ids, times)),
        peers!(|| timed(|| { let list: Vec<usize> = a.fixed.ones().collect(); (list.len() + list.last().copied().unwrap_or(0)) as u64 }), || timed(|| a.roaring.list()))));
    let others = &b.ids[..];
    bench.run(row(format!("a &= b, {name} and {}", b.name), count + others.len(), of(|times| ours::and_assign(ids, others, times)),
        peers!(
            || { let mut set = a.fixed.clone(); let took = timed(|| set.intersect_with(&b.fixed)).0; (took, crate::peers::wide_sum(set.ones())) },
            || { let mut set = a.roaring.clone(); let took = timed(|| set.intersect_with(&b.roaring)).0; (took, set.sum()) }
        )).on_copies_alone(of(|times| ours::clone(ids, times))).answer(Answer::Last));
    bench.note(a.memory());
}

pub fn rows(bench: &mut Bench) {
    bench.part("indices below 2^30, which the original does not have (ns per member)");
    let mut numbers = Numbers(3);
    let mut spread = |name| {
        let mut ids = numbers.many(1_000_000 >> SMALLER, END as u64);
        ids.sort();
        ids.dedup();
        Wide::new(name, ids)
    };
    let (one, other) = (spread("1M spread over 2^30"), spread("another 1M"));
    rows_of(bench, &one, &other);
    drop((one, other));
    let clusters = |name, shift: u32| {
        Wide::new(name, (0..100).flat_map(|cluster| (0..10_000 >> SMALLER).map(move |i| cluster * (10_700_000 >> SMALLER) + shift + i)).collect())
    };
    let (one, other) = (clusters("100 clusters of 10,000 below 2^30", 0), clusters("the same, 5,000 further", 5_000 >> SMALLER));
    rows_of(bench, &one, &other);
}
