//! Closing through the library: a store of the value that a word has makes an interval and a record like any other, every byte of the
//! records is as it must be, and where nothing is dirty there is neither.

use crate::damage::{dirty, interval_row, slot};
use crate::library::{in_order, open, step, Answer, Areas, Step, DONE, RECORDS, UNANSWERED};
use crate::Tally;

/// How a processor closes: the steps before its stores, and the step that closes.
type Closing = (&'static str, &'static [Step], Step);

const CLOSINGS: [Closing; 6] = [
    ("a release", &[(3, 1, 0, 0)], (4, 1, 0, 0)),
    ("an acquire", &[], (3, 1, 0, 0)),
    ("an acquire that waits", &[(3, 2, 0, 0)], (3, 1, 0, 0)),
    ("an arrival", &[], (5, 1, 0, 0)),
    ("an enqueue", &[], (10, 1, 0, 7)),
    ("a dequeue", &[(10, 2, 0, 0)], (11, 1, 0, 0)),
];

pub fn check(tally: &mut Tally) {
    for closing in CLOSINGS {
        equal_store(tally, closing);
        store_put_back(tally, closing);
        equal_and_altered(tally, closing);
        nothing_dirty(tally, closing);
    }
    fetched(tally);
    rest_of_the_slot(tally);
}

/// Two processors, three pages, one lock; the closing's first steps and these stores are done.
fn stored(tally: &mut Tally, (name, before, _): Closing, stores: &[Step]) -> Areas {
    let mut areas = Areas::garbage(6);
    let mut fine = open(&[0, 2, 3, 1, 0, 0, 0, 0], &mut areas) == 0;
    for fields in before.iter().chain(stores) {
        let mut answer = UNANSWERED;
        fine &= step(*fields, &mut answer, &mut areas) == 0 && answer == DONE;
    }
    tally.check(&format!("closing by {name}: before"), fine);
    areas
}

/// After the closing: processor 1's own entry, the clocks of its intervals, the records' bytes, and that no page is dirty.
fn closed(
    tally: &mut Tally,
    case: &str,
    (name, _, last): Closing,
    mut areas: Areas,
    records: &[&[u8]],
) {
    let mut answer = UNANSWERED;
    let refusal = step(last, &mut answer, &mut areas);
    let case = format!("{case}, closed by {name}");
    tally.check(
        &format!("{case}: accepted"),
        refusal == 0 && answer == DONE && in_order(&areas),
    );
    let own = u8::from(!records.is_empty());
    tally.check(&format!("{case}: own entry {own}"), areas.clocks[8] == own);
    let kept = 8 * interval_row(1, 1);
    let clocks = [&[own, 0, 0, 0, 0, 0, 0, 0], &[0; 8][..]].concat();
    tally.check(
        &format!("{case}: the intervals' clocks"),
        areas.clocks[kept..kept + 16] == clocks,
    );
    let standing = [records.len() as u8, 0];
    tally.check(
        &format!("{case}: records standing, {}", records.len()),
        areas.marks[3..5] == standing,
    );
    let mut bytes = vec![0; RECORDS];
    for (i, record) in records.iter().enumerate() {
        bytes[slot(i)..slot(i) + record.len()].copy_from_slice(record);
    }
    tally.check(
        &format!("{case}: the records' bytes"),
        areas.records == bytes,
    );
    let clean = areas.marks[dirty(1, 0)..dirty(2, 0)]
        .iter()
        .all(|&mark| mark == 0);
    tally.check(&format!("{case}: no page is dirty"), clean);
}

/// Document 02's case F: one interval, one record; its change is the byte 0.
fn equal_store(tally: &mut Tally, closing: Closing) {
    let areas = stored(tally, closing, &[(2, 1, 0, 0)]);
    closed(tally, "0 over 0", closing, areas, &[&[1, 1, 0, 1, 0]]);
    let areas = stored(tally, closing, &[(2, 1, 40, 0), (2, 1, 41, 0)]);
    closed(
        tally,
        "0 over 0 twice on page 1",
        closing,
        areas,
        &[&[1, 1, 1, 1, 0]],
    );
}

/// A store put back to what was there: the page is dirty, no word differs.
fn store_put_back(tally: &mut Tally, closing: Closing) {
    let areas = stored(tally, closing, &[(2, 1, 95, 8), (2, 1, 95, 0)]);
    closed(
        tally,
        "a store put back",
        closing,
        areas,
        &[&[1, 1, 2, 1, 0]],
    );
}

/// Three dirty pages of which the middle one differs: one interval, a record each, by rising page.
fn equal_and_altered(tally: &mut Tally, closing: Closing) {
    let areas = stored(
        tally,
        closing,
        &[(2, 1, 64, 0), (2, 1, 33, 0x0102_0304), (2, 1, 0, 0)],
    );
    let records: [&[u8]; 3] = [
        &[1, 1, 0, 1, 0],
        &[1, 1, 1, 7, 1, 1, 1, 4, 3, 2, 1],
        &[1, 1, 2, 1, 0],
    ];
    closed(tally, "equal, altered, equal", closing, areas, &records);
}

/// Reads dirty nothing: no interval, no record.
fn nothing_dirty(tally: &mut Tally, closing: Closing) {
    let areas = stored(tally, closing, &[(1, 1, 0, 0), (1, 1, 40, 0)]);
    closed(tally, "nothing dirty", closing, areas, &[]);
}

/// Another processor learns of the interval, and its fetch skips the record, which has no words: it counts 0, and its copy is as it was.
fn fetched(tally: &mut Tally) {
    let mut areas = stored(tally, CLOSINGS[0], &[(2, 1, 0, 0)]);
    let steps: [(Step, Answer); 4] = [
        ((4, 1, 0, 0), DONE),
        ((3, 2, 0, 0), DONE),
        ((1, 2, 0, 0), DONE),
        ((1, 2, 1, 0), DONE),
    ];
    for (fields, expected) in steps {
        let mut answer = UNANSWERED;
        let refusal = step(fields, &mut answer, &mut areas);
        tally.check(
            &format!("0 over 0, then step {fields:?}"),
            refusal == 0 && answer == expected && in_order(&areas),
        );
    }
    tally.check(
        "0 over 0: no word anywhere",
        areas.words.iter().all(|&word| word == 0),
    );
    tally.check(
        "0 over 0: both clocks know the interval",
        areas.clocks[8] == 1 && areas.clocks[16] == 1,
    );
}

/// What a slot holds behind the change is kept.
fn rest_of_the_slot(tally: &mut Tally) {
    let mut areas = stored(tally, CLOSINGS[0], &[(2, 1, 0, 0)]);
    areas.records.fill(0x5a);
    let refusal = step((4, 1, 0, 0), &mut { UNANSWERED }, &mut areas);
    let kept = areas.records[5..].iter().all(|&byte| byte == 0x5a);
    tally.check(
        "0 over 0: five bytes of the slot are written",
        refusal == 0 && areas.records[..5] == [1, 1, 0, 1, 0] && kept,
    );
}
