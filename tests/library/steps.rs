//! A state reached by steps, and steps that are refused in it: every byte is left as it was.

use crate::library::{in_order, open, step, Answer, Areas, Step, DONE, UNANSWERED};
use crate::Tally;

pub fn check(tally: &mut Tally, reached: &Areas) {
    answers_of_wrong_lengths(tally, reached);
    refused_steps(tally, reached);
}

/// Five processors, two pages, two locks: processor 1 has made an interval with a record for each page, processor 2 holds lock 0, knows
/// that interval and has page 0 dirty, processor 3 has arrived, processors 4 and 5 wait for lock 0 in this order.
pub fn reached(tally: &mut Tally) -> Areas {
    let mut areas = Areas::garbage(5);
    let opened = open(&[0, 5, 2, 2, 0, 0, 0, 0], &mut areas);
    tally.check("reached state: opened", opened == 0);
    let steps: [(Step, Answer); 10] = [
        ((3, 1, 0, 0), DONE),
        ((2, 1, 0, 7), DONE),
        ((2, 1, 40, 0xffff_fffe), DONE),
        ((4, 1, 0, 0), DONE),
        ((3, 2, 0, 0), DONE),
        ((1, 2, 40, 0), [0, 0xffff_fffe, 1, 1]),
        ((2, 2, 1, 9), [0, 0, 1, 1]),
        ((5, 3, 0, 0), DONE),
        ((3, 4, 0, 0), DONE),
        ((3, 5, 0, 0), DONE),
    ];
    for (fields, expected) in steps {
        let mut answer = UNANSWERED;
        let refusal = step(fields, &mut answer, &mut areas);
        tally.check(
            &format!("reached state: step {fields:?}"),
            refusal == 0 && answer == expected && in_order(&areas),
        );
    }
    areas
}

/// An answer that has not four words: 1, and it too is left as it was, on areas in order or not.
fn answers_of_wrong_lengths(tally: &mut Tally, reached: &Areas) {
    let mut damaged = reached.clone();
    damaged.marks[0] = 9;
    for before in [reached, &damaged] {
        for length in [0, 1, 2, 3, 5] {
            let mut areas = before.clone();
            let mut answer = vec![77; length];
            let refusal = step((2, 1, 0, 5), &mut answer, &mut areas);
            tally.check(
                &format!("an answer of {length} words: 1, untouched"),
                refusal == 1 && answer == vec![77; length] && areas == *before,
            );
        }
    }
}

/// The refusals 3 to 8, 17, 18 and 20, each in its place of the table: every byte is left as it was.
fn refused_steps(tally: &mut Tally, reached: &Areas) {
    let steps: [(u8, Step); 88] = [
        (3, (0, 1, 0, 0)),
        (3, (7, 1, 0, 0)),
        (3, (257, 1, 0, 0)),
        (3, (u32::MAX, u32::MAX, u32::MAX, u32::MAX)),
        (4, (1, 0, 0, 0)),
        (4, (2, 6, 0, 5)),
        (4, (3, 257, 0, 0)),
        (4, (6, u32::MAX, 1, 1)),
        (5, (1, 1, 64, 0)),
        (5, (1, 1, 0, 1)),
        (5, (1, 1, 65_536, 0)),
        (5, (2, 1, 64, 5)),
        (5, (2, 1, u32::MAX, 5)),
        (5, (3, 1, 2, 0)),
        (5, (3, 1, 1, 1)),
        (5, (4, 2, 2, 0)),
        (5, (4, 2, 0, 1)),
        (5, (5, 1, 1, 0)),
        (5, (5, 1, 0, 1)),
        (5, (6, 3, 1, 0)),
        (5, (6, 3, 0, 1)),
        (6, (1, 3, 0, 0)),
        (6, (2, 3, 0, 5)),
        (6, (3, 3, 0, 0)),
        (6, (4, 3, 0, 0)),
        (6, (5, 3, 0, 0)),
        (6, (6, 3, 0, 0)),
        (3, (7, 4, 0, 0)),
        (5, (1, 4, 64, 0)),
        (5, (3, 5, 2, 0)),
        (17, (1, 4, 0, 0)),
        (17, (2, 4, 0, 5)),
        (17, (3, 4, 0, 0)),
        (17, (3, 4, 1, 0)),
        (17, (3, 5, 0, 0)),
        (17, (4, 4, 0, 0)),
        (17, (4, 5, 1, 0)),
        (17, (5, 4, 0, 0)),
        (17, (6, 5, 0, 0)),
        (18, (5, 2, 0, 0)),
        (5, (5, 2, 1, 0)),
        (5, (5, 2, 0, 1)),
        (7, (3, 2, 0, 0)),
        (8, (4, 1, 0, 0)),
        (8, (4, 2, 1, 0)),
        (3, (12, 1, 0, 0)),
        (3, (13, 4, 16, 1)),
        (3, (264, 1, 0, 0)),
        (3, (265, 1, 0, 0)),
        (4, (8, 0, 0, 1)),
        (4, (8, 6, 16, 1)),
        (4, (9, 6, 0, 0)),
        (4, (9, 257, 0, 1)),
        (5, (8, 1, 16, 1)),
        (5, (8, 1, 65_536, 1)),
        (5, (8, 3, 16, 1)),
        (5, (8, 4, 4_294_967_280, 1)),
        (5, (9, 1, 16, 0)),
        (5, (9, 1, 256, 0)),
        (5, (9, 1, 0, 1)),
        (5, (9, 1, 15, 0x8000_0000)),
        (5, (9, 3, 0, 1)),
        (5, (9, 4, 16, 0)),
        (6, (8, 3, 0, 1)),
        (6, (9, 3, 15, 0)),
        (17, (8, 4, 0, 1)),
        (17, (8, 5, 15, 0)),
        (17, (9, 4, 0, 0)),
        (17, (9, 5, 15, 0)),
        (3, (266, 1, 0, 0)),
        (3, (267, 1, 0, 0)),
        (4, (10, 0, 0, 1)),
        (4, (10, 6, 1, 1)),
        (4, (11, 6, 0, 0)),
        (4, (11, 257, 0, 1)),
        (5, (10, 1, 1, 0)),
        (5, (10, 1, 65_536, 7)),
        (5, (10, 3, u32::MAX, 0)),
        (5, (11, 1, 1, 0)),
        (5, (11, 1, 0, 1)),
        (5, (11, 4, 0, 0x8000_0000)),
        (6, (10, 3, 0, 1)),
        (6, (11, 3, 0, 0)),
        (17, (10, 4, 0, 1)),
        (17, (10, 5, 0, 0)),
        (17, (11, 4, 0, 0)),
        (20, (11, 1, 0, 0)),
        (20, (11, 2, 0, 0)),
    ];
    for (refusal, fields) in steps {
        let mut areas = reached.clone();
        tally.check(
            &format!("step {fields:?}: {refusal}, untouched"),
            refused_as(refusal, fields, &mut areas) && areas == *reached,
        );
    }
}

/// Whether a step returns the refusal and answers refusal, 0, 0, 0.
pub fn refused_as(refusal: u8, fields: Step, areas: &mut Areas) -> bool {
    let mut answer = UNANSWERED;
    let returned = step(fields, &mut answer, areas);
    returned == refusal && answer == [u32::from(refusal), 0, 0, 0]
}
