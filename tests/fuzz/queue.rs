//! What a step must leave of the queue and answer of it, read off the state
//! before it. Written from request L9 of document 02 and the layout: the jobs lie
//! in a ring of 32 places, from the oldest one's on; an enqueue closes and adds the
//! value with the clock, a dequeue closes, removes the oldest job, which leaves
//! value and clock in its place, and learns that clock.

use crate::answers::{DEQUEUE, ENQUEUE};
use crate::areas::*;
use crate::closing::{clock_due, closed_pages, collects};
use crate::library::Step;
use crate::state::State;

/// "answers its value": the oldest job's.
pub fn value(was: State) -> u32 {
    was.job_value(was.first())
}

/// The place of the next job.
fn free_place(was: State) -> usize {
    (was.first() + was.jobs()) % JOBS
}

/// The values of all places after an accepted step.
fn values_due(was: State, step: Step) -> Vec<u32> {
    let mut values = was.0.words[JOB_WORDS].to_vec();
    if step.kind == ENQUEUE {
        values[free_place(was)] = step.value;
    }
    values
}

/// The oldest job's place, and how many jobs wait.
fn marks_due(was: State, step: Step) -> [usize; 2] {
    match step.kind {
        ENQUEUE => [was.first(), was.jobs() + 1],
        DEQUEUE => [(was.first() + 1) % JOBS, was.jobs() - 1],
        _ => [was.first(), was.jobs()],
    }
}

/// All clocks after an enqueue or a dequeue: what is closed keeps the clock before
/// anything is learnt.
fn clocks_due(was: State, step: Step) -> Vec<u8> {
    let p = step.processor as usize;
    let pages = closed_pages(was, step);
    let interval = was.own(p) + usize::from(!pages.is_empty());
    let closed = clock_due(was, p, interval);
    let mut clocks = was.0.clocks.to_vec();
    let mut put = |row: usize, clock: &[u8]| clocks[8 * row..8 * row + 8].copy_from_slice(clock);
    if !pages.is_empty() {
        put(kept_row(p, interval), &closed);
    }
    put(processor_row(p), &closed);
    if step.kind == ENQUEUE {
        put(job_row(free_place(was)), &closed);
    } else {
        let told = was.clock(job_row(was.first())).iter();
        let joined: Vec<u8> = closed.iter().zip(told).map(|(a, b)| *a.max(b)).collect();
        put(processor_row(p), &joined);
    }
    clocks
}

/// What is wrong with the queue after an accepted step, or with any clock after a
/// step on it.
pub fn wrong(was: State, is: State, step: Step) -> Option<&'static str> {
    if is.0.words[JOB_WORDS] != values_due(was, step) {
        return Some("leaves other values of jobs");
    }
    if [is.first(), is.jobs()] != marks_due(was, step) {
        return Some("leaves another oldest job or number of jobs");
    }
    let clocks = match step.kind {
        ENQUEUE | DEQUEUE => is.0.clocks == clocks_due(was, step),
        _ if collects(was, step) => is.0.clocks[JOB_CLOCKS].iter().all(|entry| *entry == 0),
        _ => is.0.clocks[JOB_CLOCKS] == was.0.clocks[JOB_CLOCKS],
    };
    (!clocks).then_some("leaves other clocks of jobs, or learns something else")
}
