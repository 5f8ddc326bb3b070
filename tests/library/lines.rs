//! The line of a lock through the library: what asking and releasing leave in the marks, and what the waiter is told.

use crate::damage::{awaited, holder, turn};
use crate::library::{in_order, step, Answer, Areas, Step, DONE, UNANSWERED};
use crate::Tally;

/// A step, its answer, and after it: lock 0's holder, for each processor the lock that it waits for plus 1, and its turn.
type Row = (Step, Answer, u8, [u8; 5], [u8; 5]);

/// From the reached state, in which processor 2 holds lock 0 and processors 4 and 5 wait for it.
pub fn check(tally: &mut Tally, reached: &Areas) {
    let rows: [Row; 10] = [
        ((3, 1, 0, 0), DONE, 2, [1, 0, 0, 1, 1], [2, 0, 0, 0, 1]),
        ((3, 2, 1, 0), DONE, 2, [1, 0, 0, 1, 1], [2, 0, 0, 0, 1]),
        ((4, 2, 0, 0), DONE, 4, [1, 0, 0, 0, 1], [1, 0, 0, 0, 0]),
        (
            (1, 4, 1, 0),
            [0, 9, 2, 2],
            4,
            [1, 0, 0, 0, 1],
            [1, 0, 0, 0, 0],
        ),
        ((4, 2, 1, 0), DONE, 4, [1, 0, 0, 0, 1], [1, 0, 0, 0, 0]),
        ((3, 2, 0, 0), DONE, 4, [1, 1, 0, 0, 1], [1, 2, 0, 0, 0]),
        ((4, 4, 0, 0), DONE, 5, [1, 1, 0, 0, 0], [0, 1, 0, 0, 0]),
        ((4, 5, 0, 0), DONE, 1, [0, 1, 0, 0, 0], [0, 0, 0, 0, 0]),
        ((4, 1, 0, 0), DONE, 2, [0, 0, 0, 0, 0], [0, 0, 0, 0, 0]),
        ((4, 2, 0, 0), DONE, 0, [0, 0, 0, 0, 0], [0, 0, 0, 0, 0]),
    ];
    let mut areas = reached.clone();
    for (fields, expected, held, lines, turns) in rows {
        let mut answer = UNANSWERED;
        let refusal = step(fields, &mut answer, &mut areas);
        tally.check(
            &format!("lines: step {fields:?}"),
            refusal == 0 && answer == expected && in_order(&areas),
        );
        tally.check(
            &format!("lines: step {fields:?}: the marks"),
            areas.marks[holder(0)] == held
                && areas.marks[awaited(1)..=awaited(5)] == lines
                && areas.marks[turn(1)..=turn(5)] == turns,
        );
    }
    told(tally, reached);
}

/// The release closes processor 2's interval; processor 4 learns it in that step, and processor 5, which waits on, nothing.
fn told(tally: &mut Tally, reached: &Areas) {
    let mut areas = reached.clone();
    let refusal = step((4, 2, 0, 0), &mut { UNANSWERED }, &mut areas);
    let clock = |row: usize| &areas.clocks[8 * row..8 * row + 8];
    let known = [1, 1, 0, 0, 0, 0, 0, 0];
    tally.check(
        "lines: the first waiter is told",
        refusal == 0 && clock(2) == known && clock(4) == known && clock(5) == [0; 8],
    );
    tally.check("lines: the lock is told", clock(9) == known);
}
