//! Columns of values by index, and joins of two, beside the original's set with a flat vector and std's map.
use std::collections::{HashMap, HashSet};

use crate::harness::{timed, Bench, Both, Numbers, Row, SMALLER};
use crate::{on_copy, original, ours};

const KEYS: usize = 100_000 >> SMALLER;

macro_rules! both {
    ($ours:ident, $original:ident, $($list:expr),*) => {
        Both { ours: Box::new(|times| ours::$ours($($list,)* times)), original: Box::new(|times| original::$original($($list,)* times)), derived: None }
    };
}

/// Where the keys of a row end, with the aim of `insert` and `get` there.
#[derive(Clone, Copy)]
struct Range {
    name: &'static str,
    end: u64,
    aim: f64,
}

const RANGES: [Range; 2] = [
    Range { name: "below 1,000,000", end: 1_000_000, aim: 1.5 },
    Range { name: "below 2^24", end: 1 << 24, aim: 1.0 },
];

/// Random numbers below the end, none of them twice.
fn distinct(count: usize, end: u64) -> Vec<u32> {
    let (mut numbers, mut seen) = (Numbers(5), HashSet::new());
    std::iter::from_fn(|| Some(numbers.below(end))).filter(|id| seen.insert(*id)).take(count).collect()
}

type Map = HashMap<u32, u32>;

fn insert_all(map: &mut Map, ids: &[u32]) -> u64 {
    ids.iter().map(|id| map.insert(*id, !*id).unwrap_or(0) as u64).sum()
}

fn remove_all(map: &mut Map, ids: &[u32]) -> u64 {
    ids.iter().map(|id| map.remove(id).unwrap_or(0) as u64).sum()
}

fn map_of(ids: &[u32]) -> Map {
    let mut map = Map::new();
    insert_all(&mut map, ids);
    map
}

fn value_in(map: &Map, id: u32) -> u64 {
    map.get(&id).copied().unwrap_or(0) as u64
}

/// Goes over the keys of the first map, ascending, and looks each up in the second, and where that has it, in the first.
fn sum_of_join(keys: &[u32], first: &Map, second: &Map) -> u64 {
    let mut sum = 0;
    for id in keys {
        if let Some(value) = second.get(id) {
            sum += *id as u64 + first[id] as u64 + *value as u64;
        }
    }
    sum
}

fn calls(bench: &mut Bench, range: Range) {
    let keys = distinct(2 * KEYS, range.end);
    let (ids, absent) = keys.split_at(KEYS);
    let map = &map_of(ids);
    let name = |call: &str| format!("column {call}, 100,000 random {}", range.name);
    bench.run(Row::new(name("insert, from empty"), KEYS, range.aim, both!(column_insert, column_insert, ids))
        .peer("HashMap", || timed(|| { let mut map = Map::new(); insert_all(&mut map, ids) + value_in(&map, ids[0]) })));
    bench.run(Row::new(name("insert, where there is a value"), KEYS, range.aim, both!(column_insert_again, column_insert_again, ids))
        .peer("HashMap", || on_copy(map, |map| insert_all(map, ids))));
    for (call, asked) in [("get, hit", ids), ("get, miss", absent)] {
        bench.run(Row::new(name(call), KEYS, range.aim, both!(column_get, column_get, ids, asked))
            .peer("HashMap", || timed(|| asked.iter().map(|id| value_in(map, *id)).sum())));
    }
    bench.run(Row::new(name("remove, then insert"), 2 * KEYS, 1.0, both!(column_remove_and_insert, column_remove_and_insert, ids))
        .peer("HashMap", || on_copy(map, |map| remove_all(map, ids) + insert_all(map, ids))));
}

/// Two lists of keys, of which so many are in both.
struct Pair {
    name: String,
    keys: Vec<u32>,
    common: usize,
}

impl Pair {
    fn all() -> Vec<Pair> {
        let of = |range: Range, percent: usize| Pair {
            name: format!("{percent} % in common, {}", range.name),
            keys: distinct(2 * KEYS, range.end),
            common: KEYS * percent / 100,
        };
        RANGES.iter().flat_map(|range| [1, 10, 100].map(|percent| of(*range, percent))).collect()
    }

    fn first(&self) -> &[u32] {
        &self.keys[..KEYS]
    }

    fn second(&self) -> &[u32] {
        &self.keys[KEYS - self.common..][..KEYS]
    }

    fn in_order(&self) -> Vec<u32> {
        let mut keys = self.first().to_vec();
        keys.sort();
        keys
    }
}

pub fn rows(bench: &mut Bench) {
    bench.part("one index at a time (ns per call)");
    for range in RANGES {
        calls(bench, range);
    }
    let pairs = &Pair::all()[..];
    bench.part("joins of two columns of 100,000 keys (ns per key of either column)");
    for pair in pairs {
        let (a, b, keys) = (pair.first(), pair.second(), pair.in_order());
        let (first, second) = (map_of(a), map_of(b));
        bench.run(Row::new(format!("column join, {}", pair.name), 2 * KEYS, 1.0, both!(column_join, column_join, a, b))
            .peer("HashMap", || timed(|| sum_of_join(&keys, &first, &second))));
    }
    bench.part("the same, beside a walk over one mask with look-ups in the other vector (ns per key of either column)");
    for pair in pairs {
        let (a, b) = (pair.first(), pair.second());
        bench.run(Row::new(format!("column join or look-ups, {}", pair.name), 2 * KEYS, 0.5, both!(column_join, column_join_by_one_mask, a, b)));
    }
}
