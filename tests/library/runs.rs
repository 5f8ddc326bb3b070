//! Every step file of tests/files in one call: the same answers and areas as step by step, whatever the sizes of the bytes and the answers.

use crate::files::{names, read_file};
use crate::library::{fields_of, open, run, step, Areas, ANSWER, UNANSWERED};
use crate::Tally;

pub fn check(tally: &mut Tally) {
    for name in names() {
        let bytes = read_file(&name).unwrap_or_default();
        tally.check(
            &format!("{name}: in one call"),
            same(&bytes, bytes.len() / 8),
        );
        tally.check(
            &format!("{name}: room for fewer answers"),
            same(&bytes, bytes.len() / 16),
        );
    }
    sizes(tally);
}

/// Whether a run with room for so many answers, and three words more, gives what single calls give, and leaves the rest of the answers.
fn same(bytes: &[u8], room: usize) -> bool {
    let (expected, after) = one_by_one(bytes, room);
    let mut areas = Areas::garbage(1);
    let mut answers = vec![77; ANSWER * room + 3];
    let done = run(bytes, &mut answers, &mut areas);
    done == expected.len() / ANSWER
        && areas == after
        && answers[..expected.len()] == expected[..]
        && answers[expected.len()..].iter().all(|&word| word == 77)
}

/// The answers of the first records, and the areas behind them.
fn one_by_one(bytes: &[u8], room: usize) -> (Vec<u32>, Areas) {
    let mut areas = Areas::garbage(1);
    let mut answers = Vec::new();
    for (i, r) in bytes.chunks_exact(8).take(room).enumerate() {
        if i == 0 {
            let refusal = open(r, &mut areas);
            answers.extend([u32::from(refusal), 0, 0, 0]);
            if refusal != 0 {
                break;
            }
            continue;
        }
        let mut answer = UNANSWERED;
        step(fields_of(r), &mut answer, &mut areas);
        answers.extend(answer);
    }
    (answers, areas)
}

/// No bytes, a part of an opening, no room, and areas of a wrong size.
fn sizes(tally: &mut Tally) {
    let opening = [0, 2, 1, 1, 0, 0, 0, 0];
    for (name, bytes, room) in [
        ("no bytes", &opening[..0], 9),
        ("seven bytes", &opening[..7], 9),
        ("room for three words", &opening[..], 3),
    ] {
        let mut areas = Areas::garbage(2);
        let before = areas.clone();
        let mut answers = vec![77; room];
        let done = run(bytes, &mut answers, &mut areas);
        tally.check(
            &format!("run: {name}: nothing is done"),
            done == 0 && areas == before && answers == vec![77; room],
        );
    }
    let mut areas = Areas::garbage(3);
    areas.marks.pop();
    let before = areas.clone();
    let mut answers = UNANSWERED;
    let done = run(&opening, &mut answers, &mut areas);
    tally.check(
        "run: areas of a wrong size: 1",
        done == 1 && areas == before && answers == [1, 0, 0, 0],
    );
}
