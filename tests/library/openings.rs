//! Openings: what is refused leaves every byte, what is accepted gives exactly the opened state, whatever the areas held.

use crate::library::{in_order, open, Areas, CLOCKS, MARKS, RECORDS, WORDS};
use crate::Tally;

pub fn check(tally: &mut Tally) {
    accepted(tally);
    wrong_sizes(tally);
    bad_openings(tally);
}

fn accepted(tally: &mut Tally) {
    for counts in [[1, 1, 1], [2, 1, 1], [3, 5, 7], [8, 8, 16]] {
        let opening = [0, counts[0], counts[1], counts[2], 0, 0, 0, 0];
        let mut one = Areas::garbage(1);
        let mut other = Areas::garbage(2);
        let answers = (open(&opening, &mut one), open(&opening, &mut other));
        let mut marks = vec![0; MARKS];
        marks[..3].copy_from_slice(&counts);
        let opened = Areas {
            clocks: vec![0; CLOCKS],
            words: vec![0; WORDS],
            records: vec![0; RECORDS],
            marks,
        };
        tally.check(&format!("opening {counts:?}: accepted"), answers == (0, 0));
        tally.check(
            &format!("opening {counts:?}: over other garbage"),
            one == other,
        );
        tally.check(
            &format!("opening {counts:?}: the opened state"),
            one == opened,
        );
        tally.check(&format!("opening {counts:?}: in order"), in_order(&one));
    }
}

fn wrong_sizes(tally: &mut Tally) {
    for (name, areas) in of_wrong_sizes(&Areas::garbage(3)) {
        for opening in [[0, 2, 1, 1, 0, 0, 0, 0], [9; 8]] {
            let mut lent = areas.clone();
            let refusal = open(&opening, &mut lent);
            tally.check(
                &format!("opening {opening:?}, {name}: 1, untouched"),
                refusal == 1 && lent == areas,
            );
        }
    }
}

fn bad_openings(tally: &mut Tally) {
    let good = [0, 2, 1, 1, 0, 0, 0, 0];
    let mut bad: Vec<Vec<u8>> = vec![vec![], good[..7].to_vec(), [good.as_slice(), &[0]].concat()];
    let wrong: [(usize, u8); 15] = [
        (0, 1),
        (0, 255),
        (1, 0),
        (1, 9),
        (1, 255),
        (2, 0),
        (2, 9),
        (2, 255),
        (3, 0),
        (3, 17),
        (3, 255),
        (4, 1),
        (5, 1),
        (6, 1),
        (7, 128),
    ];
    for (place, byte) in wrong {
        let mut opening = good.to_vec();
        opening[place] = byte;
        bad.push(opening);
    }
    for opening in bad {
        let before = Areas::garbage(4);
        let mut areas = before.clone();
        let refusal = open(&opening, &mut areas);
        tally.check(
            &format!("opening {opening:?}: 2, untouched"),
            refusal == 2 && areas == before,
        );
    }
}

/// The areas with each area in turn empty, too short by one and too long by one.
pub fn of_wrong_sizes(right: &Areas) -> Vec<(String, Areas)> {
    let mut wrong = Vec::new();
    for (name, length) in [
        ("clocks", CLOCKS),
        ("words", WORDS),
        ("records", RECORDS),
        ("marks", MARKS),
    ] {
        for size in [0, length - 1, length + 1] {
            let mut areas = right.clone();
            match name {
                "clocks" => areas.clocks.resize(size, 0),
                "words" => areas.words.resize(size, 0),
                "records" => areas.records.resize(size, 0),
                _ => areas.marks.resize(size, 0),
            }
            wrong.push((format!("{size} of {name}"), areas));
        }
    }
    wrong
}
