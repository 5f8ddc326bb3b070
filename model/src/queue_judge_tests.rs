//! Tests of what the judge asks of jobs (document 02, request L9), of the files
//! that the generator makes with them, and of the faults against the queue.

use crate::case::any;
use crate::coverage::Seen;
use crate::fault::Fault;
use crate::generate::{generate, PROFILES};
use crate::in_order::broken_clause;
use crate::judge::{jobs_returned, judge, Broken, Rule};
use crate::model::{DEQUEUE, ENQUEUE};
use crate::queue::MOST_JOBS;
use crate::queue_tests::queue_files;
use crate::stepfile::{run, run_watched, Printed, REFUSALS};
use crate::tests::{case, with_value};
use std::collections::VecDeque;

/// "An enqueue precedes in happens-before-1 the dequeue that returns its job": the
/// read behind it has one value that is due.
#[test]
fn a_job_orders_a_read() {
    for (name, number, due) in [
        ("queue-job-tells", 4, 5),
        ("queue-first-in-first-out", 6, 1),
        ("queue-first-in-first-out", 9, 2),
        ("queue-first-in-first-out", 14, 3),
        ("queue-chain", 7, 1),
        ("queue-eight-cards", 25, 80),
    ] {
        assert_eq!(with_value(name, number, due), Ok(0), "{name} {number}");
        for wrong in [0, due + 1] {
            assert_eq!(with_value(name, number, wrong), Ok(1), "{name} {number}");
        }
    }
}

/// "and of itself no other": a read that another job would have to order may
/// answer 0 or what was written.
#[test]
fn a_job_orders_no_other_read() {
    for (name, number, written) in [
        ("queue-job-tells", 5, 5),
        ("queue-first-in-first-out", 7, 2),
        ("queue-no-other-job", 6, 5),
    ] {
        for fine in [0, written] {
            assert_eq!(with_value(name, number, fine), Ok(0), "{name} {number}");
        }
        assert_eq!(with_value(name, number, 9), Ok(1), "{name} {number}");
    }
    let strong = |name: &str| {
        let case = case(name);
        let verdict = judge(&case.file, &case.printed()).expect("fits");
        verdict.strong_numbers
    };
    assert_eq!(strong("queue-job-tells"), [4]);
    assert_eq!(strong("queue-no-other-job"), []);
    assert_eq!(strong("queue-race"), []);
    assert_eq!(strong("queue-closes-before-learning"), []);
}

/// Which dequeue returns whose job is counted off from the accepted steps.
#[test]
fn jobs_are_counted_off() {
    let returned = |name: &str| {
        let case = case(name);
        jobs_returned(&case.file, &case.printed()).expect("fits")
    };
    assert_eq!(returned("listing-a"), []);
    assert_eq!(returned("queue-job-tells"), [(2, 3)]);
    assert_eq!(
        returned("queue-first-in-first-out"),
        [(2, 5), (4, 8), (12, 13)]
    );
    assert_eq!(returned("queue-refusals"), [(11, 15), (18, 19)]);
    assert_eq!(
        returned("queue-round-keeps-jobs"),
        [(2, 9), (5, 10), (8, 12)]
    );
}

/// What is counted off is what the model's queue does: each job, with its value
/// and its clock, leaves at the dequeue that is said to return it.
#[test]
fn jobs_counted_are_jobs_returned() {
    for (profile, seed, file) in queue_files(4, 1500) {
        let (mut waiting, mut left) = (VecDeque::new(), Vec::new());
        let mut before = 0;
        let answers = run_watched(&file, None, &mut |model, number| {
            let now = model.queue.jobs.len();
            if now > before {
                waiting.push_back(number);
            } else if now < before {
                left.push((waiting.pop_front().expect("a job"), number));
            }
            before = now;
        });
        let counted = jobs_returned(&file, &Printed::of(&answers));
        assert_eq!(counted, Ok(left), "{profile} {seed}");
    }
}

/// The judge has one value for each dequeue.
#[test]
fn the_judge_sees_wrong_jobs() {
    for (name, number, due) in [
        ("queue-job-tells", 3, 77),
        ("queue-space-used-again", 34, 100),
        ("queue-space-used-again", 70, 133),
        ("queue-collected", 7, 1),
        ("queue-refusals", 19, u32::MAX),
    ] {
        assert_eq!(with_value(name, number, due), Ok(0), "{name} {number}");
        for wrong in [due.wrapping_add(1), due.wrapping_sub(1)] {
            assert_eq!(with_value(name, number, wrong), Ok(1), "{name} {number}");
        }
    }
    let case = case("queue-race");
    let mut printed = case.printed();
    printed.lines[7].value = 1;
    let verdict = judge(&case.file, &printed).expect("fits");
    let broken = Broken {
        number: 7,
        object: 0,
        answered: 1,
        rule: Rule::Job(2),
    };
    assert_eq!((verdict.reads, verdict.dequeues), (2, 2));
    assert_eq!(broken.text(), "record 7: dequeue answered 1; 2 is due");
    assert_eq!(verdict.broken, [broken]);
}

/// The judge sees an accepted enqueue with 32 jobs waiting, an accepted dequeue
/// with none, and 19 and 20 for anything else.
#[test]
fn the_judge_sees_wrong_space() {
    let judged = |name: &str, number: usize, refusal: u32| {
        let case = case(name);
        let mut printed = case.printed();
        printed.lines[number].refusal = refusal;
        judge(&case.file, &printed).is_ok()
    };
    let name = "queue-space-used-again";
    assert!(judged(name, 33, 19) && !judged(name, 33, 0) && !judged(name, 33, 20));
    assert!(judged(name, 71, 20) && !judged(name, 71, 0) && !judged(name, 71, 19));
    // The 32nd enqueue and the last dequeue with a job waiting.
    assert!(!judged(name, 32, 19) && !judged(name, 70, 20));
    // A store and a read.
    assert!(!judged("queue-job-tells", 1, 19) && !judged("queue-job-tells", 5, 20));
}

/// A refused enqueue has no job: with its line changed to an accepted one, other
/// values are due behind it.
#[test]
fn the_judge_counts_accepted_jobs_alone() {
    let case = case("refusal-6-job");
    let mut printed = case.printed();
    assert_eq!(printed.lines[2].refusal, 6);
    printed.lines[2].refusal = 0;
    // Now a job waits, so 20 is wrong behind it.
    assert!(judge(&case.file, &printed).is_err());
    printed.lines[4].refusal = 0;
    let broken = judge(&case.file, &printed).expect("fits").broken;
    let due: Vec<(usize, Rule)> = broken.into_iter().map(|b| (b.number, b.rule)).collect();
    assert_eq!(due, [(4, Rule::Job(1))]);
}

/// Every run of five steps of two cards and of four steps of three: reads and
/// writes of word 0, enqueues and dequeues. Each state is in order, and both
/// judges find every read and every job as it must be.
#[test]
fn every_short_run_is_sound() {
    let mut strong = 0;
    for (cards, length) in [(2, 5), (3, 4)] {
        let kinds: Vec<(u8, u8)> = (1..=cards)
            .flat_map(|card| [1, 2, ENQUEUE, DEQUEUE].map(|kind| (kind, card)))
            .collect();
        for number in 0..kinds.len().pow(length) {
            let mut file = vec![0, cards, 1, 1, 0, 0, 0, 0];
            for place in 0..length {
                let (kind, card) = kinds[number / kinds.len().pow(place) % kinds.len()];
                let value = if matches!(kind, 2 | ENQUEUE) {
                    place + 1
                } else {
                    0
                };
                file.extend(any(kind, card, 0, value).to_bytes());
            }
            let answers = run_watched(&file, None, &mut |model, _| {
                assert_eq!(broken_clause(model), None, "{file:?}");
            });
            let verdict = judge(&file, &Printed::of(&answers)).expect("fits");
            assert_eq!(verdict.broken, [], "{file:?}");
            strong += verdict.strong_written;
        }
    }
    assert!(strong > 5000, "{strong}");
}

/// Each fault of the queue shows in a named file made for it and in generated
/// files, and in none without jobs.
#[test]
fn each_fault_of_the_queue_shows() {
    for (name, fault) in NAMED_FAULTS {
        let file = case(name).file;
        assert_ne!(
            run(&file, None),
            run(&file, Some(fault)),
            "{name} {fault:?}"
        );
    }
    for (_, fault) in NAMED_FAULTS {
        let files = queue_files(20, 800);
        let shows = |file: &[u8]| run(file, Some(fault)) != run(file, None);
        let shown = files.filter(|(_, _, file)| shows(file)).count();
        assert!(shown >= 3, "{fault:?}: {shown}");
        for profile in ["mixed", "locks", "rounds", "soak", "chains", "triggers"] {
            let file = generate(profile, 1, 800).expect("profile");
            assert_eq!(run(&file, Some(fault)), run(&file, None), "{profile}");
        }
    }
}

const NAMED_FAULTS: [(&str, Fault); 18] = [
    ("queue-first-in-first-out", Fault::JobNewest),
    ("queue-job-tells", Fault::JobSilent),
    ("queue-job-tells", Fault::JobEarly),
    ("queue-enqueue-closes", Fault::JobEarly),
    ("queue-chain", Fault::JobOwn),
    ("queue-closes-before-learning", Fault::JobLearnFirst),
    ("queue-dequeue-closes", Fault::DequeueOpen),
    ("queue-no-other-job", Fault::JobsHeard),
    ("queue-first-in-first-out", Fault::JobsAll),
    ("queue-each-job-tells", Fault::JobsAll),
    ("queue-collected-clock", Fault::JobClocksKept),
    ("queue-over-collections", Fault::JobsCollected),
    ("queue-space-used-again", Fault::FullAt31),
    ("queue-space-used-again", Fault::FullAt33),
    ("queue-space-used-again", Fault::FullForGood),
    ("refusal-19", Fault::QueueFirst),
    ("refusal-20", Fault::QueueFirst),
    ("queue-job-tells", Fault::EmptyPasses),
];

/// The faults that lose news or jobs are found by the judge, and those against the
/// space give lines that it does not take.
#[test]
fn the_judge_finds_faults_of_the_queue() {
    let found = |name: &str, fault: Fault| {
        let file = case(name).file;
        judge(&file, &run(&file, Some(fault))).map(|verdict| verdict.broken.len())
    };
    for (name, fault) in [
        ("queue-first-in-first-out", Fault::JobNewest),
        ("queue-job-tells", Fault::JobSilent),
        ("queue-job-tells", Fault::JobEarly),
        ("queue-chain", Fault::JobOwn),
    ] {
        assert!(found(name, fault).is_ok_and(|broken| broken > 0), "{name}");
    }
    for fault in [Fault::FullAt31, Fault::FullAt33, Fault::FullForGood] {
        assert!(found("queue-space-used-again", fault).is_err());
    }
    assert!(found("queue-job-tells", Fault::EmptyPasses).is_err());
    assert!(found("queue-over-collections", Fault::JobsCollected).is_err());
}

/// A collection that keeps the clocks of jobs leaves states that are not in order.
#[test]
fn kept_clocks_are_out_of_order() {
    let file = case("queue-collected").file;
    let mut broken = None;
    run_watched(&file, Some(Fault::JobClocksKept), &mut |model, _| {
        broken = broken.or(broken_clause(model));
    });
    assert_eq!(broken, Some("no entry exceeds the own entry"));
}

/// What jobs files have: the queue filled and emptied, each refusal that a step on
/// it can have, and every read with one value that is due.
#[test]
fn a_jobs_file_has_all_of_the_queue() {
    let mut seen = Seen::default();
    let mut refusals = [0; REFUSALS];
    for seed in 0..10 {
        let file = generate("jobs", seed, 2000).expect("profile");
        let printed = run(&file, None);
        for line in &printed.lines[1..] {
            if matches!(file[8 * line.number], ENQUEUE | DEQUEUE) {
                refusals[line.refusal as usize] += 1;
            }
        }
        let verdict = judge(&file, &printed).expect("fits");
        assert_eq!(verdict.strong, verdict.reads, "{seed}");
        assert!(verdict.broken.is_empty(), "{seed}");
        seen.add_file(&file, &printed);
    }
    assert!(seen.enqueues > 2500 && seen.dequeues > 2500 && seen.jobs_of_others > 1000);
    assert!(seen.filled > 20 && seen.waits > 0 && seen.collections > 0);
    assert!(seen.read_values > 500 && seen.refusals[18] > 0);
    for (refusal, times) in refusals.into_iter().enumerate() {
        let may = matches!(refusal, 0 | 4 | 5 | 6 | 17 | 19 | 20);
        assert_eq!(times > 0, may, "{refusal}");
    }
}

/// The queue goes round its ring of 32 places many times, at every level.
#[test]
fn a_jobs_file_goes_around_the_ring() {
    let mut levels = [0; MOST_JOBS + 1];
    for seed in 0..10 {
        let file = generate("jobs", seed, 2000).expect("profile");
        let (mut removed, mut before) = (0, 0);
        run_watched(&file, None, &mut |model, _| {
            let now = model.queue.jobs.len();
            removed += usize::from(now < before);
            before = now;
            levels[now] += 1;
        });
        assert!(removed > 4 * MOST_JOBS, "{seed}: {removed}");
    }
    assert!(levels.iter().all(|times| *times > 0), "{levels:?}");
}

/// The files of the benchmark's profiles have no step on the queue, accepted or
/// not.
#[test]
fn the_benchmark_profiles_use_no_queue() {
    for profile in ["mixed", "locks", "rounds", "soak", "chains", "quiet"] {
        assert!(PROFILES.contains(&profile));
        for seed in 1..=4 {
            let file = generate(profile, seed, 3000).expect("profile");
            let kinds = file.chunks(8).skip(1).map(|record| record[0]);
            let on_queue = kinds.filter(|kind| matches!(*kind, ENQUEUE | DEQUEUE));
            assert_eq!(on_queue.count(), 0, "{profile} {seed}");
        }
    }
}
