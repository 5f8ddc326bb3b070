//! Refusals in words, on mainframes made by accepted steps, and that what is
//! said of the proved program's refusals is so.

use super::corpus;
use crate::model::Step;
use crate::steps::ledger::Ledger;
use crate::steps::pack::pack;
use crate::steps::progress::Progress;
use crate::steps::refusal::{in_short, of_opening, of_step};
use crate::steps::walk::Walk;
use std::collections::BTreeSet;
use std::sync::Mutex;

/// The records of a text, all but the last of them taken as accepted; what the
/// refusal of the last one says.
fn said(refusal: u32, text: &str) -> String {
    let file = pack(text).expect("a text");
    let records: Vec<&[u8]> = file.chunks(8).collect();
    let record = |number: usize| <[u8; 8]>::try_from(records[number]).expect("a record");
    let last = records.len() - 1;
    let mut ledger = Ledger::opened(record(0));
    for number in 1..last {
        ledger.take(number, &Step::from_bytes(record(number)));
    }
    of_step(refusal, last, records[last], &ledger)
}

const TWO: &str = "open 2 cards, 1 page, 2 locks\n";

#[test]
fn an_arrival_with_locks_in_hand() {
    let one = format!("{TWO}card 2 acquires lock 1\ncard 2 arrives");
    assert_eq!(
        said(18, &one),
        "it holds lock 1, since 1; it would have to release it first"
    );
    let two = format!("{TWO}card 2 acquires lock 1\ncard 2 acquires lock 0\ncard 2 arrives");
    let due = "it holds lock 0, since 2; lock 1, since 1; it would have to release them first";
    assert_eq!(said(18, &two), due);
}

#[test]
fn locks() {
    let held = format!("{TWO}card 1 acquires lock 0\n");
    let again = format!("{held}card 1 acquires lock 0");
    let due = "it holds lock 0 already, since 1; it would have to release it first";
    assert_eq!(said(7, &again), due);
    let other = format!("{held}card 2 releases lock 0");
    assert_eq!(
        said(8, &other),
        "card 2 does not hold lock 0: card 1 holds it, since 1"
    );
    let free = format!("{held}card 1 releases lock 1");
    assert_eq!(
        said(8, &free),
        "card 1 does not hold lock 1: nobody holds it"
    );
    let waits = format!("{held}card 2 acquires lock 0\ncard 2 reads word 0");
    let due = "it has waited for lock 0 since 2; card 1, holder since 1, would have to release it";
    assert_eq!(said(17, &waits), due);
}

#[test]
fn a_line() {
    let line = "open 4 cards, 1 page, 1 lock\ncard 1 acquires lock 0\ncard 2 acquires lock 0\ncard 3 acquires lock 0\n";
    let due = "it has waited for lock 0 since 3; card 1, holder since 1, and then card 2, which waited before it, would have to release it";
    assert_eq!(said(17, &format!("{line}card 3 arrives")), due);
    let due =
        "card 4 does not hold lock 0: card 1 holds it, since 1, and cards 2 and 3 wait for it";
    assert_eq!(said(8, &format!("{line}card 4 releases lock 0")), due);
    let due = "it holds lock 0, since 1, and cards 2 and 3 wait for it; it would have to release it first";
    assert_eq!(said(18, &format!("{line}card 1 arrives")), due);
}

#[test]
fn a_hang() {
    let taken = format!("{TWO}card 1 acquires lock 0\ncard 2 acquires lock 1\n");
    let text = format!("{taken}card 1 acquires lock 1\ncard 2 acquires lock 0\ncard 1 arrives");
    assert!(said(17, &text).ends_with("they wait for each other for good"));
}

#[test]
fn the_barrier() {
    let text = format!("{TWO}card 1 arrives\ncard 1 reads word 0");
    assert_eq!(
        said(6, &text),
        "it has arrived, at 1; card 2 would have to arrive first"
    );
}

#[test]
fn fields() {
    let cases = [
        (3, "raw 07 01 00 00 00 00 00 00", "7 is no kind of step: they are 1 to 6 and 8 to 11"),
        (4, "card 3 arrives", "there is no card 3: the opening has cards 1 to 2"),
        (5, "card 1 reads word 32", "there is no word 32: they are 0 to 31"),
        (5, "card 1 acquires lock 2", "there is no lock 2: they are 0 to 1"),
        (5, "card 1 reads tally 16", "there is no tally 16: they are 0 to 15"),
        (5, "raw 0a 01 01 00 02 00 00 00", "its object is 1, and must be 0: it is not used"),
        (5, "raw 0b 01 00 00 02 00 00 00", "its value is 2, and must be 0: it is not used"),
        (5, "raw 05 01 01 00 02 00 00 00", "its object is 1, and must be 0: it is not used; its value is 2, and must be 0: it is not used"),
    ];
    for (refusal, step, due) in cases {
        assert_eq!(said(refusal, &format!("{TWO}{step}")), due);
    }
}

#[test]
fn the_space() {
    let text = format!("{TWO}card 2 writes 1 to word 0\ncard 2 releases lock 0\ncard 1 writes 1 to word 0\ncard 2 writes 1 to word 0");
    let due = "1 record (1 of card 2) and 1 dirty page (0 of card 1) fill the 128 places since the opening";
    assert!(said(10, &text).starts_with(due));
    assert!(said(9, &text).starts_with("card 2 has made 1 of 63 intervals since the opening"));
}

#[test]
fn the_queue() {
    let jobs = "card 2 enqueues 5\n".repeat(32);
    let due = "32 jobs wait, the oldest of card 2, since 1; a card would have to dequeue one first";
    assert_eq!(said(19, &format!("{TWO}{jobs}card 1 enqueues 6")), due);
    let due = "no job waits; a card would have to enqueue one first";
    assert_eq!(said(20, &format!("{TWO}card 1 dequeues")), due);
}

#[test]
fn openings() {
    let due = "its first byte is 1, and must be 0; 0 cards, and there can be 1 to 8; 17 locks, and there can be 1 to 16; its last four bytes are not all 0; the run stops";
    assert_eq!(of_opening(&[1, 0, 1, 17, 0, 0, 0, 9]), due);
    assert_eq!(
        of_opening(&[0, 1]),
        "the file ends within record 0, 2 bytes of eight; the run stops"
    );
}

#[test]
fn a_text_in_the_place_of_a_step_file() {
    assert!(of_opening(b"open 2 c").contains("is this a text?"));
}

/// Each number that a line may have is known.
#[test]
fn every_refusal_has_its_words() {
    for refusal in (2..=10).chain(15..=20) {
        assert_ne!(in_short(refusal), "unknown");
    }
}

/// Each refusal of the proved program is one that the accepted steps before it
/// lead to.
#[test]
fn refusals_are_as_the_ledger_has_it() {
    let met = Mutex::new(BTreeSet::new());
    corpus::each(corpus::all(), |tried| {
        let mut walk = Walk::new(&tried.file, &tried.run, &mut Progress::new());
        while let Some(told) = walk.next() {
            let (Some(ledger), Some(step)) = (&walk.ledger, &told.step) else {
                continue;
            };
            let refusal = told.reply.refusal;
            let (name, number) = (&tried.name, told.number);
            assert!(
                holds(refusal, step, ledger),
                "{name}: {number} by {refusal}"
            );
            met.lock().expect("no panic").insert(refusal);
        }
    });
    let met = met.into_inner().expect("no panic");
    let due = BTreeSet::from([0, 3, 4, 5, 6, 7, 8, 9, 10, 16, 17, 18, 19, 20]);
    assert!(met.is_superset(&due), "{met:?}");
}

/// Whether the condition of a refusal holds.
fn holds(refusal: u32, step: &Step, ledger: &Ledger) -> bool {
    let card = usize::from(step.card);
    let holder = || {
        ledger.locks[usize::from(step.object)]
            .holder
            .map(|turn| turn.card)
    };
    match refusal {
        6 => ledger.arrived[card].is_some(),
        7 => holder() == Some(step.card),
        8 => holder() != Some(step.card),
        9 => ledger.intervals[card] == 63,
        10 => ledger.standing() + ledger.dirty.len() == 128,
        17 => ledger.awaited_by(step.card).is_some(),
        18 => !ledger.held_by(step.card).is_empty(),
        19 => ledger.jobs.len() == 32,
        20 => ledger.jobs.is_empty(),
        _ => true,
    }
}
