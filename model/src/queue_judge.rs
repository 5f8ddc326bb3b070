//! What the lines must say of the queue (document 02, request L9), from the
//! accepted steps alone: "first in first out" makes the job of the k-th accepted
//! enqueue the one that the k-th accepted dequeue returns. The order between the
//! two is in `judge.rs`.

use crate::judge::Accepted;
use crate::model::{Step, DEQUEUE, ENQUEUE};
use crate::queue::MOST_JOBS;
use crate::stepfile::{record_at, Line};
use std::collections::VecDeque;

/// For each place in the list: if it is an enqueue, the place of the dequeue that
/// returns its job, if there is one.
pub fn returned_at(list: &[Accepted]) -> Vec<Option<usize>> {
    let places = |kind| (0..list.len()).filter(move |place| list[*place].step.kind == kind);
    let mut returned = vec![None; list.len()];
    for (enqueue, dequeue) in places(ENQUEUE).zip(places(DEQUEUE)) {
        returned[enqueue] = Some(dequeue);
    }
    returned
}

/// The value due at the place of a dequeue, from the places of the list.
pub fn job_due(list: &[Accepted], returned: &[Option<usize>], dequeue: usize) -> u32 {
    let job = returned.iter().position(|place| *place == Some(dequeue));
    job.map_or(0, |enqueue| list[enqueue].step.value)
}

/// The same with the jobs that wait kept along the list.
#[derive(Default)]
pub struct Waiting(VecDeque<u32>);

impl Waiting {
    /// Takes a step; the value due if it is a dequeue.
    pub fn take(&mut self, step: &Step) -> Option<u32> {
        match step.kind {
            ENQUEUE => self.0.push_back(step.value),
            DEQUEUE => return Some(self.0.pop_front().unwrap_or(0)),
            _ => {}
        }
        None
    }
}

/// The first line that is wrong about the space of the queue, in words: an
/// enqueue is refused 19 exactly with 32 jobs waiting where it would be accepted
/// else, a dequeue 20 exactly with none, and no other step is.
pub fn queue_fits(file: &[u8], lines: &[Line]) -> Result<(), String> {
    let mut waiting = 0;
    for line in lines.iter().skip(1) {
        let Some(step) = record_at(file, line.number).map(Step::from_bytes) else {
            continue;
        };
        let full = step.kind == ENQUEUE && waiting == MOST_JOBS;
        let empty = step.kind == DEQUEUE && waiting == 0;
        match line.refusal {
            0 if full => return Err(wrong(line, "enqueues with 32 jobs waiting")),
            0 if empty => return Err(wrong(line, "dequeues with no job waiting")),
            19 if !full => return Err(wrong(line, "is no enqueue with 32 jobs waiting")),
            20 if !empty => return Err(wrong(line, "is no dequeue with no job waiting")),
            0 if step.kind == ENQUEUE => waiting += 1,
            0 if step.kind == DEQUEUE => waiting -= 1,
            _ => {}
        }
    }
    Ok(())
}

fn wrong(line: &Line, what: &str) -> String {
    format!("record {} {what}: {}", line.number, line.text())
}
