// Derived from crates/hibitset_base/src/parallel/workers.rt by rust/derive.py, and never edited by hand.

//! What a function answers at each part of a list, from several threads.
//!
//! There is a worker for each processor. Each takes the next part that none has taken, by a counter that they share, so
//! that no processor is idle while parts are left. An answer keeps the number of its part, by which the answers are
//! brought in order.

use crate::support::rattle_std::prelude::*;

use crate::support::rayon::{current_num_threads, join};
use crate::support::rattle_std::alloc::{AllocError, Global};
use crate::support::rattle_std::sync::atomic::{AtomicUsize, Ordering};
use crate::support::rattle_std::thread::Threads;

// No pool keeps threads, so each worker but one costs a new one, and there are no more than this.
const MAX_WORKERS: usize = 32;

// An answer, and the number of the part that it is to.
struct Answer<U> {
    part: usize,
    value: U,
}

// The answers of one worker: it takes the next part that none has taken, until there is no more. Its list has room for
// all parts, so that what is allocated does not depend on which worker takes which.
fn work<P, U, F: Fn(&P) -> U>(
    alloc: Global,
    parts: &[P],
    next: &AtomicUsize,
    f: &F,
) -> Result<Vec<Answer<U>>, AllocError> {
    let mut answers = Vec::with_capacity(alloc, parts.len())?;
    for _ in 0..parts.len() {
        let part = next.fetch_add(1, Ordering::SeqCst);
        let Some(taken) = parts.get(part) else {
            break;
        };
        answers.push(Answer {
            part,
            value: f(taken),
        })?;
    }
    Ok(answers)
}

// The answers of so many workers, each in a thread of its own where one can be made.
fn workers<R: Threads + Sync, P: Sync, U: Send, F: Fn(&P) -> U + Sync>(
    rt: &R,
    alloc: Global,
    count: usize,
    parts: &[P],
    next: &AtomicUsize,
    f: &F,
) -> Result<Vec<Answer<U>>, AllocError> {
    if count < 2 {
        return work(alloc, parts, next, f);
    }
    let half = count / 2;
    let other_half = count - half;
    let (first, second) = join(
        rt,
        || -> Result<Vec<Answer<U>>, AllocError> { workers(rt, alloc, half, parts, next, f) },
        || -> Result<Vec<Answer<U>>, AllocError> { workers(rt, alloc, other_half, parts, next, f) },
    );
    let mut answers = first?;
    let mut others = second?;
    answers.append(&mut others)?;
    Ok(answers)
}

// How many workers there are for so many parts.
fn count_for<R: Threads>(rt: &R, parts: usize) -> usize {
    current_num_threads(rt).min(MAX_WORKERS).min(parts)
}

// So many slots without an answer.
fn empty_slots<U>(alloc: Global, count: usize) -> Result<Vec<Option<U>>, AllocError> {
    let mut slots = Vec::with_capacity(alloc, count)?;
    for _ in 0..count {
        slots.push(None)?;
    }
    Ok(slots)
}

// The slots with each answer in that of its part.
fn filled_slots<U>(mut slots: Vec<Option<U>>, answers: Vec<Answer<U>>) -> Vec<Option<U>> {
    for answer in answers {
        if answer.part < slots.len() {
            slots[answer.part] = Some(answer.value);
        }
    }
    slots
}

// Takes the answer in a slot.
fn take_from<U>(slots: &mut [Option<U>], part: usize) -> Option<U> {
    if part < slots.len() {
        slots[part].take()
    } else {
        None
    }
}

// The answers in order. A part whose slot is empty is answered here: the workers leave none, which no clause says.
fn in_order<P, U, F: Fn(&P) -> U>(
    alloc: Global,
    parts: &[P],
    mut slots: Vec<Option<U>>,
    f: &F,
) -> Result<Vec<U>, AllocError> {
    let slots = slots.as_mut_slice();
    let mut answers = Vec::with_capacity(alloc, parts.len())?;
    for part in 0..parts.len() {
        let answer = match take_from(slots, part) {
            Some(answer) => answer,
            None => f(&parts[part]),
        };
        answers.push(answer)?;
    }
    Ok(answers)
}

/// What `f` returns at each part, in order, from several threads.
pub(super) fn map_parts<R: Threads + Sync, P: Sync, U: Send, F: Fn(&P) -> U + Sync>(
    rt: &R,
    alloc: Global,
    parts: &[P],
    f: &F,
) -> Result<Vec<U>, AllocError> {
    let next = AtomicUsize::new(0);
    let answers = workers(rt, alloc, count_for(rt, parts.len()), parts, &next, f)?;
    let slots = filled_slots(empty_slots(alloc, parts.len())?, answers);
    in_order(alloc, parts, slots, f)
}
