//! Jobs in words and in pictures: what a dequeue answers, the chain over a job,
//! what is missing, the arrow from an enqueue to its dequeue.

use crate::steps::explain::explain;
use crate::steps::input::Range;
use crate::steps::pack::pack;
use crate::steps::progress::Progress;
use crate::steps::proved::{parse, Run};
use crate::steps::scene::{Goal, Mark, Scene, Time};
use crate::steps::walk::Walk;

/// A text, and the lines of a run of it.
const TEXT: &str = "open 3 cards, 1 page, 1 lock
card 1 writes 5 to word 0
card 1 enqueues 77
card 1 writes 6 to word 0
card 2 dequeues
card 2 reads word 0
card 1 enqueues 78
card 3 reads word 0
card 1 dequeues
card 3 dequeues
";
const LINES: &str = "0 0 0 0
1 0 0 0
2 0 0 0
3 0 0 0
4 0 77 0
5 0 5 1
6 0 0 0
7 0 0 0
8 0 78 0
9 20 0 0
words 1
";

const SAID: &str = "0 open 3 cards, 1 page, 1 lock: opened
1 card 1 writes 5 to word 0: stored, 0 records applied
2 card 1 enqueues 77: added; 1 job waits
3 card 1 writes 6 to word 0: stored, 0 records applied
4 card 2 dequeues: 77, which card 1 enqueued at 2; no job waits
5 card 2 reads word 0: 5, 1 record applied
    not ordered: 0 or any value written to word 0 before may stand here; 5 is what write 1 stored
        write 3 of card 1: no release, arrival or enqueue of card 1 after 3 reaches card 2 before 5
            card 1 releases no lock, does not arrive and enqueues no job between 3 and 5
6 card 1 enqueues 78: added; 1 job waits
7 card 3 reads word 0: 0, 0 records applied
    not ordered: 0 or any value written to word 0 before may stand here; 0 is what the opening gave
        writes 1 and 3 of card 1: no release, arrival or enqueue of card 1 after 3 reaches card 3 before 7
            card 1 enqueues a job at 6, but nobody dequeues it before 7
8 card 1 dequeues: 78, which card 1 enqueued at 6; no job waits
9 card 3 dequeues: refused (20): no job waits; a card would have to enqueue one first
";

fn file() -> Vec<u8> {
    pack(TEXT).expect("a text")
}

fn run(lines: &str) -> Run {
    parse(lines).expect("a run")
}

/// What is said, and whether every answer is one that may be.
fn explained(file: &[u8], run: &Run) -> (String, bool) {
    let mut said = Vec::new();
    let range = Range {
        from: 0,
        to: run.last(),
    };
    let fine = explain(file, run, range, &mut Progress::new(), &mut said);
    (
        String::from_utf8(said).expect("a text"),
        fine.expect("printed"),
    )
}

#[test]
fn jobs_are_explained() {
    let (said, fine) = explained(&file(), &run(LINES));
    assert!(fine);
    let (records, summary) = said.split_once("the whole run").expect("a summary");
    assert_eq!(records, SAID);
    assert!(summary.contains("\n    jobs: 2 enqueued, 2 dequeued\n"));
    assert!(summary.contains("\n        20, the queue is empty: 1\n"));
}

#[test]
fn the_chain_over_a_job() {
    let text = "open 3 cards, 1 page, 1 lock
card 1 writes 5 to word 0
card 1 enqueues 1
card 2 dequeues
card 2 enqueues 2
card 3 dequeues
card 3 reads word 0
";
    let lines = "0 0 0 0\n1 0 0 0\n2 0 0 0\n3 0 1 0\n4 0 0 0\n5 0 2 0\n6 0 5 1\nwords 1\n";
    let (said, _) = explained(&pack(text).expect("a text"), &run(lines));
    let due = "write 1 is due: 1 -> enqueue 2 -> dequeue 3 -> enqueue 4 -> dequeue 5 -> 6\n";
    assert!(said.contains(due), "{said}");
}

#[test]
fn a_wrong_job_is_broken() {
    let (said, fine) = explained(&file(), &run(&LINES.replace("4 0 77 0", "4 0 78 0")));
    assert!(!fine && said.contains("\n    BROKEN: 77 is due\n"));
}

#[test]
fn a_job_that_waits_at_the_end() {
    let whole = file();
    let lines = "0 0 0 0\n1 0 0 0\n2 0 0 0\nwords 0\n";
    let (said, _) = explained(&whole[..24], &run(lines));
    assert!(said.contains("\n    at the end: 1 record standing, 0 dirty pages, 1 job waits\n"));
}

/// An arrow leads to a dequeue of another card's job, and to no other.
#[test]
fn a_picture_has_an_arrow_for_a_job() {
    let (file, run) = (file(), run(LINES));
    let drawn = |from, to| {
        let walk = Walk::new(&file, &run, &mut Progress::new());
        Scene::of(walk, Range { from, to })
    };
    let scene = drawn(0, 9);
    let arrows: Vec<_> = scene
        .arrows
        .iter()
        .map(|arrow| (arrow.from, arrow.to, arrow.at, arrow.goal))
        .collect();
    assert_eq!(arrows, [(Some((1, 2)), 2, Time::At(4), Goal::Mark)]);
    let marked = scene.rows.iter().filter(|row| row.mark == Some(Mark::Job));
    let marked: Vec<usize> = marked.map(|row| row.number).collect();
    assert_eq!(marked, [2, 4, 6, 8]);
    assert_eq!(scene.rows[4].label, "dequeues: 77");
    // The enqueue is before the picture.
    assert_eq!(drawn(3, 9).arrows[0].from, None);
}
