//! Medians of interleaved repeats. In each round every contender of a row runs once, so that a disturbance of the machine
//! falls on all alike; ours and the original take turns in going first, and the ratio is the median of the rounds' own.
//!
//! A kernel makes its sets, does its work so many times, and answers a sum. What one turn of the work takes is the time
//! of `1 + turns` turns less the time of one, shared out. Where each turn works on a copy, the time of the copy alone,
//! taken in the same way, is taken off.
//!
//! The clock is the thread's own, which stands still while other programs have the processor.
use std::hint::black_box;
use std::time::Duration;

use crate::callgrind::counted;

/// How many turns are counted or tried, beyond the first: an even number, since each second turn of some kernels undoes the first.
const TURNS: usize = 2;

/// By how many bits sizes are cut where each row is only tried.
pub const SMALLER: u32 = if cfg!(smallest) { 8 } else { 0 };

/// Whether instructions are counted, and nothing is timed.
pub fn counts() -> bool {
    std::env::args().nth(1).as_deref() == Some("count")
}

/// A fixed sequence of numbers that look random: a 64 bit congruential generator, of whose state the high half is used.
pub struct Numbers(pub u64);

impl Numbers {
    pub fn below(&mut self, bound: u64) -> u32 {
        self.0 = self.0.wrapping_mul(6364136223846793005).wrapping_add(1442695040888963407);
        ((self.0 >> 32) * bound >> 32) as u32
    }

    pub fn many(&mut self, count: usize, bound: u64) -> Vec<u32> {
        (0..count).map(|_| self.below(bound)).collect()
    }

    /// Each number below the bound with a chance of one in `one_in`, ascending.
    pub fn one_in(&mut self, one_in: u64, bound: u32) -> Vec<u32> {
        (0..bound).filter(|_| self.below(one_in) == 0).collect()
    }
}

pub type Kernel<'a> = Box<dyn Fn(usize) -> u64 + 'a>;

/// One piece of work as our library does it, as the original does it, and as the crate of rust/ does it, where the driver has that.
pub struct Both<'a> {
    pub ours: Kernel<'a>,
    pub original: Kernel<'a>,
    pub derived: Option<Kernel<'a>>,
}

impl<'a> Both<'a> {
    fn all(self) -> Vec<Kernel<'a>> {
        [self.ours, self.original].into_iter().chain(self.derived).collect()
    }
}

/// The place of each contender in a row's work.
const OURS: usize = 0;
const ORIGINAL: usize = 1;
const DERIVED: usize = 2;

/// What a peer's answer is compared with: the original's for one turn, or for the set that it ends with. Where the original
/// has no answer, it is compared with ours.
#[derive(Clone, Copy)]
pub enum Answer {
    Turn,
    Last,
}

type Peer<'a> = Box<dyn FnMut() -> (Duration, u64) + 'a>;

pub struct Row<'a> {
    name: String,
    ops: f64,
    aim: Option<f64>,
    answer: Answer,
    /// Ours, the original's where it has the work, and then that of the crate of rust/.
    work: Vec<Kernel<'a>>,
    /// As many, or none.
    copy: Vec<Kernel<'a>>,
    peers: Vec<(&'static str, Peer<'a>)>,
}

impl<'a> Row<'a> {
    pub fn new(name: impl Into<String>, ops: usize, aim: f64, work: Both<'a>) -> Row<'a> {
        let work = work.all();
        Row { name: name.into(), ops: ops.max(1) as f64, aim: Some(aim), answer: Answer::Turn, work, copy: Vec::new(), peers: Vec::new() }
    }
    /// Work that the original does not have.
    pub fn alone(name: impl Into<String>, ops: usize, ours: Kernel<'a>) -> Row<'a> {
        Row { name: name.into(), ops: ops.max(1) as f64, aim: None, answer: Answer::Turn, work: vec![ours], copy: Vec::new(), peers: Vec::new() }
    }
    /// Each turn of the work makes a copy first, as this does.
    pub fn on_copies(mut self, copy: Both<'a>) -> Row<'a> {
        self.copy = copy.all();
        self
    }
    /// The same of work that the original does not have.
    pub fn on_copies_alone(mut self, ours: Kernel<'a>) -> Row<'a> {
        self.copy = vec![ours];
        self
    }
    pub fn answer(mut self, answer: Answer) -> Row<'a> {
        self.answer = answer;
        self
    }
    /// A peer, which sets up what it needs, and hands the work itself to `timed`.
    pub fn peer(mut self, who: &'static str, run: impl FnMut() -> (Duration, u64) + 'a) -> Row<'a> {
        self.peers.push((who, Box::new(run)));
        self
    }

    /// Has each kernel's turns counted, and gives the line that the script fills with what was counted.
    fn counted(&self, place: usize) -> String {
        for (kernels, what) in [(&self.work, "work"), (&self.copy, "copy")] {
            for (kernel, who) in kernels.iter().zip(["ours", "original", "derived"]) {
                for turns in [1, 1 + TURNS] {
                    counted(&format!("{} {who} {what} {turns}", self.key(place)), || kernel(turns));
                }
            }
        }
        format!("{}\t{}\t{}", self.key(place), self.ops * TURNS as f64, self.name)
    }

    fn key(&self, place: usize) -> String {
        format!("{place}-{}", self.name.bytes().fold(0u32, |sum, byte| sum.wrapping_mul(31).wrapping_add(byte as u32)))
    }
}

#[repr(C)]
struct Timespec {
    seconds: i64,
    nanoseconds: i64,
}

unsafe extern "C" {
    fn clock_gettime(clock: i32, at: *mut Timespec) -> i32;
}

/// How long this thread has had a processor.
fn now() -> Duration {
    const THREAD_TIME: i32 = 3;
    let mut at = Timespec { seconds: 0, nanoseconds: 0 };
    // SAFETY: the type is C's of 64 bit Linux, and the call writes it alone.
    let failed = unsafe { clock_gettime(THREAD_TIME, &mut at) };
    assert_eq!(failed, 0, "no clock");
    Duration::new(at.seconds as u64, at.nanoseconds as u32)
}

pub fn timed<R>(work: impl FnOnce() -> R) -> (Duration, R) {
    let start = now();
    let result = black_box(work());
    (now() - start, result)
}

/// What one turn takes, in nanoseconds, and the sum of all turns.
fn turn(kernel: &Kernel, turns: usize) -> (f64, u64) {
    let (one, _) = timed(|| kernel(black_box(1)));
    let (all, sum) = timed(|| kernel(black_box(1 + turns)));
    ((all.as_nanos() as f64 - one.as_nanos() as f64) / turns as f64, sum)
}

/// So many turns that they take as long as wanted, and twice as long as all that is not measured: the noise of making the
/// sets then counts for little.
fn turns_for(kernel: &Kernel, wanted: Duration) -> usize {
    if cfg!(smallest) {
        return TURNS;
    }
    let one = timed(|| kernel(black_box(1))).0.min(timed(|| kernel(black_box(1))).0);
    let wanted = wanted.max(2 * one);
    let mut turns = 3;
    while turns < 1 << 24 {
        let (all, _) = timed(|| kernel(black_box(1 + turns)));
        let work = all.saturating_sub(one);
        if work >= wanted {
            break;
        }
        let missing = wanted.as_nanos() as f64 / work.as_nanos().max(1) as f64;
        turns = ((turns as f64 * missing.clamp(1.5, 16.0)) as usize).max(turns + 1);
    }
    turns
}

/// So many turns that what they do to their copies takes as long as wanted by itself, but at most so many times what they would be with the copies.
fn turns_on_copies(kernel: &Kernel, copy: &Kernel, wanted: Duration) -> usize {
    const MOST: f64 = 8.0;
    let turns = turns_for(kernel, wanted);
    let whole = turn(kernel, turns).0;
    let work = whole - turn(copy, turns).0;
    (turns as f64 * (whole / work.max(1.0)).clamp(1.0, MOST)) as usize
}

fn median(values: &mut [f64]) -> f64 {
    values.sort_by(f64::total_cmp);
    values[values.len() / 2]
}

/// The median of what the first list has as parts of the second's, place by place: a machine that changes its pace from one round to another changes both.
fn median_ratio(times: &[f64], others: &[f64]) -> f64 {
    let mut ratios: Vec<f64> = times.iter().zip(others).map(|(time, other)| time / other).collect();
    median(&mut ratios)
}

fn shown(ns: f64) -> String {
    if ns < 10.0 {
        format!("{ns:.2}")
    } else if ns < 1000.0 {
        format!("{ns:.1}")
    } else {
        format!("{ns:.0}")
    }
}

/// A ratio, with a star where it is above its aim.
fn with_star(ratio: Option<f64>, aim: Option<f64>) -> String {
    match (ratio, aim) {
        (Some(ratio), Some(aim)) => format!("{ratio:.2}{}", if ratio > aim { " *" } else { "" }),
        _ => "-".to_string(),
    }
}

pub struct Bench {
    /// Whether the crate of rust/ has columns.
    derived: bool,
    peers: Vec<&'static str>,
    repeats: usize,
    wanted: Duration,
    only: String,
    table: Vec<String>,
    notes: Vec<String>,
}

impl Bench {
    pub fn new(derived: bool, peers: &[&'static str], repeats: usize, wanted: Duration, only: &str) -> Bench {
        Bench { derived, peers: peers.to_vec(), repeats, wanted, only: only.to_string(), table: Vec::new(), notes: Vec::new() }
    }

    pub fn run(&mut self, row: Row) {
        if !row.name.contains(&self.only) {
            return;
        }
        if counts() {
            self.table.push(row.counted(self.table.len()));
            return;
        }
        let Row { name, ops, aim, answer, work, copy, mut peers } = row;
        let judge = work.get(ORIGINAL).unwrap_or(&work[OURS]);
        let expected = match answer {
            Answer::Turn => judge(2).wrapping_sub(judge(1)),
            Answer::Last => judge(0),
        };
        for kernel in &work {
            assert_eq!(kernel(0), judge(0), "{name}: another answer than the original's");
        }
        let turns: Vec<usize> = work.iter().enumerate().map(|(who, kernel)| match copy.get(who) {
            Some(copy) => turns_on_copies(kernel, copy, self.wanted),
            None => turns_for(kernel, self.wanted),
        }).collect();
        let sums: Vec<u64> = work.iter().zip(&turns).map(|(kernel, turns)| kernel(1 + turns)).collect();
        for (kernel, who) in work.iter().zip(0..).filter(|(_, who)| *who != ORIGINAL && work.len() > 1) {
            assert_eq!(kernel(1 + turns[ORIGINAL]), sums[ORIGINAL], "{name}: contender {who} has another answer than the original");
        }
        let mut times: Vec<Vec<f64>> = work.iter().map(|_| Vec::new()).collect();
        let mut peer_times: Vec<Vec<f64>> = peers.iter().map(|_| Vec::new()).collect();
        for round in 0..self.repeats + 1 {
            for place in 0..work.len() {
                let who = (round + place) % work.len();
                let (mut took, sum) = turn(&work[who], turns[who]);
                if let Some(copy) = copy.get(who) {
                    took -= turn(copy, turns[who]).0;
                }
                assert_eq!(sum, sums[who], "{name}: another answer than before");
                if round > 0 {
                    times[who].push(took / ops);
                }
            }
            for ((who, run), times) in peers.iter_mut().zip(&mut peer_times) {
                if cfg!(beside) || round % 3 > 1 {
                    continue; // They are slow, and no ratio rests on them.
                }
                let (took, sum) = run();
                assert_eq!(sum, expected, "{name}: {who} has another answer than the original");
                if round > 0 {
                    times.push(took.as_nanos() as f64 / ops);
                }
            }
        }
        let ratio = |who: usize| Some(median_ratio(times.get(who)?, times.get(ORIGINAL)?));
        let ratios = [ratio(OURS), ratio(DERIVED)];
        let medians: Vec<f64> = times.iter_mut().map(|times| median(times)).collect();
        let cells: String = self.peers.iter().map(|peer| {
            let at = peers.iter().position(|(who, _)| who == peer).filter(|at| !peer_times[*at].is_empty());
            at.map_or(" - |".to_string(), |at| format!(" {} |", shown(median(&mut peer_times[at]))))
        }).collect();
        let time = |who: usize| medians.get(who).map_or("-".to_string(), |time| shown(*time));
        let [ours, derived] = ratios.map(|ratio| with_star(ratio, aim));
        let aim = aim.map_or("-".to_string(), |aim| format!("{aim:.2}"));
        let line = if self.derived {
            format!("| {name} | {} | {} | {derived} | {} | {ours} | {aim} |{cells}", time(DERIVED), time(ORIGINAL), time(OURS))
        } else {
            format!("| {name} | {} | {} | {ours} | {aim} |{cells}", time(OURS), time(ORIGINAL))
        };
        eprintln!("{line}");
        self.table.push(line);
    }

    fn columns(&self) -> &[&'static str] {
        if self.derived { &["crate", "original", "ratio", "Rattle", "its ratio", "aim"] } else { &["ours", "original", "ratio", "aim"] }
    }

    /// A line below the table.
    pub fn note(&mut self, line: String) {
        self.notes.push(line);
    }

    /// A heading between rows.
    pub fn part(&mut self, title: &str) {
        let others = if counts() { 8 } else { self.columns().len() + self.peers.len() };
        let title = if counts() { title.replace("(ns per", "(per") } else { title.to_string() };
        self.table.push(format!("| **{title}** |{}", " |".repeat(others)));
    }

    pub fn print(&self) {
        if counts() {
            self.table.iter().for_each(|line| println!("{line}"));
            return;
        }
        let peers: String = self.peers.iter().map(|peer| format!(" {peer} |")).collect();
        let columns = self.columns();
        println!("| workload | {} |{peers}\n|---{}|", columns.join(" | "), "|---:".repeat(columns.len() + self.peers.len()));
        self.table.iter().for_each(|line| println!("{line}"));
        self.notes.iter().for_each(|line| println!("\n{line}"));
    }
}
