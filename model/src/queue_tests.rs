//! Tests of the queue of jobs (document 02, request L9): the rule, its refusals and
//! the state in order. Those of the judge, of the generator and of the faults are in
//! `queue_judge_tests.rs`.

use crate::case::{acquire, any, arrive, dequeue, enqueue, read, want, write};
use crate::clock::{IntervalId, ProcId};
use crate::generate::generate;
use crate::in_order::broken_clause;
use crate::model::{Model, Step, ARRIVE, DEQUEUE, ENQUEUE};
use crate::queue::{Job, MOST_JOBS};
use crate::stepfile::{record_at, run, run_watched, Line, REFUSALS};
use crate::tests::{case, entries, state_after};
use std::collections::VecDeque;

/// The profiles that use the queue, with some seeds.
pub fn queue_files(seeds: u64, steps: usize) -> impl Iterator<Item = (&'static str, u64, Vec<u8>)> {
    let names = ["racy", "damaged", "blend", "jobs"];
    let names = names
        .into_iter()
        .flat_map(move |p| (0..seeds).map(move |s| (p, s)));
    names.map(move |(p, s)| (p, s, generate(p, s, steps).expect("profile")))
}

fn opened(cards: u8) -> Model {
    Model::open([0, cards, 1, 1, 0, 0, 0, 0], None).expect("opening")
}

/// Takes steps that are accepted, and gives their values.
fn take(model: &mut Model, steps: &[Step]) -> Vec<u32> {
    let mut value = |step: &Step| {
        let answer = model.step(step);
        assert_eq!((answer.refusal, answer.count, answer.words), (0, 0, 0));
        answer.value
    };
    steps.iter().map(&mut value).collect()
}

/// The values and clocks of the jobs that wait.
fn jobs(model: &Model, cards: u8) -> Vec<(u32, Vec<u32>)> {
    let job = |job: &Job| (job.value, entries(&job.clock, cards));
    model.queue.jobs.iter().map(job).collect()
}

fn clock(model: &Model, card: u8, cards: u8) -> Vec<u32> {
    entries(&model.processors[&ProcId(card)].clock, cards)
}

#[test]
fn an_opening_has_no_jobs() {
    for counts in [[1, 1, 1], [3, 5, 7], [8, 8, 16]] {
        let [cards, pages, locks] = counts;
        let opening = [0, cards, pages, locks, 0, 0, 0, 0];
        let mut model = Model::open(opening, None).expect("opening");
        assert!(model.queue.jobs.is_empty());
        assert_eq!(model.step(&dequeue(cards)).refusal, 20);
    }
}

/// "closes the card's interval and adds the value with the card's clock"
#[test]
fn a_job_has_the_clock_after_closing() {
    let mut model = opened(2);
    take(&mut model, &[write(1, 0, 5), enqueue(1, 77), enqueue(2, 8)]);
    assert_eq!(jobs(&model, 2), [(77, vec![1, 0]), (8, vec![0, 0])]);
    assert_eq!((model.records.len(), model.records_and_dirty()), (1, 1));
}

/// "closes, removes the oldest job, learns its clock and answers its value": the
/// interval keeps the clock before what is learnt.
#[test]
fn a_dequeue_closes_and_then_learns() {
    let mut model = opened(3);
    take(&mut model, &[write(1, 0, 5), enqueue(1, 7), enqueue(3, 8)]);
    take(&mut model, &[write(2, 1, 6)]);
    assert_eq!(take(&mut model, &[dequeue(2)]), [7]);
    assert_eq!(clock(&model, 2, 3), [1, 1, 0]);
    assert_eq!(jobs(&model, 3), [(8, vec![0, 0, 0])]);
    let kept = &model.intervals[&(ProcId(2), IntervalId(1))];
    assert_eq!(entries(kept, 3), [0, 1, 0]);
    assert_eq!(clock(&model, 1, 3), [1, 0, 0]);
}

/// "A collecting round sets the clocks of queued jobs to zeros." Another round
/// leaves them, and neither takes a job away.
#[test]
fn rounds_keep_jobs() {
    let steps = [write(1, 0, 5), enqueue(1, 7), write(1, 0, 6), enqueue(1, 8)];
    let mut model = opened(2);
    take(&mut model, &steps);
    take(&mut model, &[arrive(1), arrive(2)]);
    assert_eq!(jobs(&model, 2), [(7, vec![1, 0]), (8, vec![2, 0])]);
    take(&mut model, &[want(1), arrive(1)]);
    assert_eq!(model.step(&arrive(2)).count, 1);
    assert_eq!(jobs(&model, 2), [(7, vec![0, 0]), (8, vec![0, 0])]);
}

/// "first in first out": in every run the k-th accepted dequeue answers the value
/// of the k-th accepted enqueue.
#[test]
fn jobs_leave_in_their_order() {
    let mut left = 0;
    for (profile, seed, file) in queue_files(12, 1200) {
        let (mut added, mut removed) = (Vec::new(), Vec::new());
        for line in accepted(&file) {
            let step = step_of(&file, &line);
            match step.kind {
                ENQUEUE => added.push(step.value),
                DEQUEUE => removed.push(line.value),
                _ => {}
            }
        }
        assert_eq!(added[..removed.len()], removed, "{profile} {seed}");
        left += removed.len();
    }
    assert!(left > 3000, "{left}");
}

/// The accepted lines behind the opening.
fn accepted(file: &[u8]) -> Vec<Line> {
    let lines = run(file, None).lines.into_iter().skip(1);
    lines.filter(|line| line.refusal == 0).collect()
}

fn step_of(file: &[u8], line: &Line) -> Step {
    Step::from_bytes(record_at(file, line.number).expect("a record"))
}

/// After each step, what an enqueue and a dequeue of each card would be answered:
/// 6 if it has arrived, 17 if it waits; else 19 exactly with 32 jobs waiting, 20
/// exactly with none, and 0.
#[test]
fn every_job_is_answered_by_the_table() {
    let mut times = [0; REFUSALS];
    for (profile, seed, file) in queue_files(3, 400) {
        run_watched(&file, None, &mut |model, number| {
            for card in model.processors.keys() {
                for step in [enqueue(card.0, 9), dequeue(card.0)] {
                    let due = due(model, *card, step.kind);
                    let found = model.clone().step(&step).refusal;
                    assert_eq!(found, due, "{profile} {seed}: {number}, {step:?}");
                    times[due as usize] += 1;
                }
            }
        });
    }
    let met = [0, 6, 17, 19, 20];
    assert!(met.iter().all(|n| times[*n] > 100), "{times:?}");
}

fn due(model: &Model, card: ProcId, kind: u8) -> u32 {
    let in_line = model.locks.values().any(|lock| lock.line.contains(&card));
    match (kind, model.queue.jobs.len()) {
        _ if model.barrier.arrived[&card] => 6,
        _ if in_line => 17,
        (ENQUEUE, MOST_JOBS) => 19,
        (DEQUEUE, 0) => 20,
        _ => 0,
    }
}

/// 3 to 6 and 17 come in the table's order, and a refused step changes nothing.
#[test]
fn refusals_of_jobs() {
    for full in [false, true] {
        let mut model = opened(4);
        if full {
            take(&mut model, &[enqueue(1, 1); MOST_JOBS]);
        }
        take(&mut model, &[acquire(1, 0), acquire(2, 0), arrive(3)]);
        take(&mut model, &[write(1, 0, 5), write(4, 0, 6)]);
        let before = jobs(&model, 4);
        let last = if full { (ENQUEUE, 19) } else { (DEQUEUE, 20) };
        for (kind, card, object, refusal) in [
            (12, 1, 0, 3),
            (last.0, 5, 1, 4),
            (last.0, 3, 1, 5),
            (last.0, 2, 256, 5),
            (last.0, 3, 0, 6),
            (last.0, 2, 0, 17),
            (last.0, 1, 0, last.1),
            (last.0, 4, 0, last.1),
        ] {
            let answer = model.step(&any(kind, card, object, 0));
            assert_eq!(answer.refusal, refusal);
        }
        assert_eq!(model.step(&any(DEQUEUE, 1, 0, 1)).refusal, 5);
        assert_eq!(jobs(&model, 4), before);
        assert_eq!((model.records.len(), model.records_and_dirty()), (0, 2));
    }
}

/// Only an enqueue adds a job, at the end, and only a dequeue removes one, the
/// first; a collecting round sets clocks to zeros. Nothing else changes a job.
#[test]
fn nothing_else_changes_the_queue() {
    let (mut changed, mut collected) = (0, 0);
    for (profile, seed, file) in queue_files(6, 800) {
        let mut before: Option<Model> = None;
        run_watched(&file, None, &mut |model, number| {
            if let Some(was) = &before {
                let step = Step::from_bytes(record_at(&file, number).expect("a record"));
                let jobs = |model: &Model| jobs(model, 8);
                let (was_jobs, is) = (jobs(was), jobs(model));
                let added = step.kind == ENQUEUE && is.split_last().map(|s| s.1) == Some(&was_jobs);
                let removed = step.kind == DEQUEUE && was_jobs.get(1..) == Some(&is[..]);
                let zeroed = step.kind == ARRIVE && was.barrier.wanted && !model.barrier.wanted;
                let same_values = values(&was_jobs).eq(values(&is));
                let all_zeros = is.iter().all(|(_, clock)| clock == &[0; 8]);
                let fits = added || removed || zeroed && same_values && all_zeros;
                assert!(was_jobs == is || fits, "{profile} {seed}: record {number}");
                changed += usize::from(added || removed);
                collected += usize::from(was_jobs != is && zeroed);
            }
            before = Some(model.clone());
        });
    }
    assert!(changed > 2000 && collected > 20, "{changed} {collected}");
}

fn values(jobs: &[(u32, Vec<u32>)]) -> impl Iterator<Item = u32> + '_ {
    jobs.iter().map(|(value, _)| *value)
}

/// "A state in order has at most 32 jobs, and their clocks keep the bound of every
/// clock."
#[test]
fn jobs_out_of_order_are_found() {
    let mut sound = opened(2);
    take(&mut sound, &[write(1, 0, 5), enqueue(1, 7)]);
    let again = sound.queue.jobs[0].clone();
    sound.queue.jobs.extend(vec![again; MOST_JOBS - 1]);
    assert_eq!(broken_clause(&sound), None);
    let broken = |spoil: fn(&mut VecDeque<Job>)| {
        let mut model = sound.clone();
        spoil(&mut model.queue.jobs);
        broken_clause(&model)
    };
    let one_more = broken(|jobs| jobs.push_back(jobs[0].clone()));
    assert_eq!(one_more, Some("at most 32 jobs"));
    let bound = Some("no entry exceeds the own entry");
    for spoil in [
        (|jobs| jobs[0].clock.raise(ProcId(1))) as fn(&mut VecDeque<Job>),
        |jobs| jobs[31].clock.raise(ProcId(2)),
        |jobs| jobs[16].clock.raise(ProcId(3)),
    ] {
        assert_eq!(broken(spoil), bound);
    }
}

/// The files that were stored before the queue and have kinds 10 or 11 in them:
/// what was 3 is what the table says now.
#[test]
fn files_stored_before() {
    for (name, due) in [
        ("tally-refusals", vec!["4 3 0 0", "5 0 0 0", "6 4 0 0"]),
        ("refusal-17-tally", vec!["7 5 0 0", "8 5 0 0", "9 0 0 0"]),
        (
            "refusal-3-beside-tallies",
            vec!["4 3 0 0", "5 0 0 0", "6 4 0 0", "7 0 0 0", "8 4 0 0"],
        ),
        (
            "refusal-3-beside-tallies",
            vec!["9 3 0 0", "23 3 0 0", "24 6 0 0", "25 17 0 0"],
        ),
    ] {
        let printed = run(&case(name).file, None).texts();
        for line in due {
            assert!(printed.iter().any(|found| found == line), "{name}: {line}");
        }
    }
}

/// A job that no card dequeues tells nobody, and the state after a named file is
/// what it must be.
#[test]
fn a_job_that_waits_tells_nobody() {
    let mut model = state_after("queue-first-in-first-out");
    assert!(model.queue.jobs.is_empty());
    take(&mut model, &[write(3, 5, 9), enqueue(3, 1)]);
    assert_eq!(model.step(&read(1, 5)).value, 0);
    assert_eq!(jobs(&model, 3).len(), 1);
}
