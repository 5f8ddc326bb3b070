//! Tallies through the library: the exact words of the tally part after adds, rounds and collections, that no other byte is written, and what
//! an opening and damage make of that part.

use crate::damage::job_word;
use crate::library::{in_order, open, step, Answer, Areas, Step, DONE, UNANSWERED, WORDS};
use crate::Tally;

/// Behind the twins: 16 posted totals, then 16 adds of each of the eight processors. The values of jobs lie behind them.
const TALLIES: usize = 4096;
const END: usize = TALLIES + 9 * 16;

/// The posted total of a tally.
pub fn posted(t: usize) -> usize {
    TALLIES + t
}

/// What a processor has added to a tally since the last completed round.
pub fn added(p: usize, t: usize) -> usize {
    TALLIES + 16 * p + t
}

/// A word of the tally part that is not 0, and its place.
type Word = (usize, u32);

/// A step, its answer, and the words of the tally part that are not 0 after it.
type Row = (Step, Answer, Vec<Word>);

pub fn check(tally: &mut Tally, reached: &Areas) {
    tally.check(
        "tallies: the last word",
        added(8, 15) == END - 1 && END == job_word(0),
    );
    one_round(tally);
    collecting(tally);
    one_processor(tally);
    eight_processors(tally);
    on_the_reached_state(tally, reached);
    openings(tally, reached);
    each_word_turned(tally, reached);
}

fn opened(tally: &mut Tally, counts: [u8; 3]) -> Areas {
    let mut areas = Areas::garbage(7);
    let [processors, pages, locks] = counts;
    let opened = open(&[0, processors, pages, locks, 0, 0, 0, 0], &mut areas);
    tally.check(
        &format!("tallies: opened {counts:?}, all 0"),
        opened == 0 && areas.words[TALLIES..].iter().all(|&word| word == 0),
    );
    areas
}

/// The tally part with these words in it, and 0 everywhere else.
fn tally_part(words: &[Word]) -> Vec<u32> {
    let mut part = vec![0; END - TALLIES];
    words
        .iter()
        .for_each(|&(place, word)| part[place - TALLIES] = word);
    part
}

/// Takes the steps; after each the answer and the whole tally part are as given. A step on a tally writes nothing else.
fn rows(tally: &mut Tally, name: &str, areas: &mut Areas, rows: Vec<Row>) {
    for (n, (fields, expected, words)) in rows.into_iter().enumerate() {
        let before = areas.clone();
        let mut answer = UNANSWERED;
        let refusal = step(fields, &mut answer, areas);
        tally.check(
            &format!("tallies: {name}, {n}: step {fields:?}"),
            u32::from(refusal) == expected[0] && answer == expected && in_order(areas),
        );
        tally.check(
            &format!("tallies: {name}, {n}: the words"),
            areas.words[TALLIES..END] == tally_part(&words),
        );
        if matches!(fields.0, 8 | 9) {
            tally.check(
                &format!("tallies: {name}, {n}: nothing else"),
                same_but_tallies(areas, &before),
            );
        }
    }
}

fn same_but_tallies(areas: &Areas, before: &Areas) -> bool {
    areas.clocks == before.clocks
        && areas.words[..TALLIES] == before.words[..TALLIES]
        && areas.words[END..] == before.words[END..]
        && areas.records == before.records
        && areas.marks == before.marks
}

/// Adds stand by processor until the round is complete; then they are 0 and the total is posted, which wraps.
fn one_round(tally: &mut Tally) {
    let mut areas = opened(tally, [2, 1, 1]);
    let most = u32::MAX;
    let (first, second) = (added(1, 0), added(2, 0));
    rows(
        tally,
        "one round",
        &mut areas,
        vec![
            ((8, 1, 0, most), DONE, vec![(first, most)]),
            ((8, 2, 0, 2), DONE, vec![(first, most), (second, 2)]),
            (
                (9, 1, 0, 0),
                [0, most, 0, 0],
                vec![(first, most), (second, 2)],
            ),
            ((9, 2, 0, 0), [0, 2, 0, 0], vec![(first, most), (second, 2)]),
            (
                (8, 1, 16, 1),
                [5, 0, 0, 0],
                vec![(first, most), (second, 2)],
            ),
            ((5, 1, 0, 0), DONE, vec![(first, most), (second, 2)]),
            ((8, 1, 0, 1), [6, 0, 0, 0], vec![(first, most), (second, 2)]),
            ((5, 2, 0, 0), DONE, vec![(posted(0), 1)]),
            ((9, 1, 0, 0), [0, 1, 0, 0], vec![(posted(0), 1)]),
            ((9, 2, 0, 0), [0, 1, 0, 0], vec![(posted(0), 1)]),
            ((8, 2, 0, 5), DONE, vec![(posted(0), 1), (second, 5)]),
            (
                (9, 2, 0, 0),
                [0, 6, 0, 0],
                vec![(posted(0), 1), (second, 5)],
            ),
            (
                (9, 1, 0, 0),
                [0, 1, 0, 0],
                vec![(posted(0), 1), (second, 5)],
            ),
            // The adds wrap in their own place.
            ((8, 2, 0, most - 4), DONE, vec![(posted(0), 1)]),
            ((8, 2, 0, most), DONE, vec![(posted(0), 1), (second, most)]),
            ((9, 2, 0, 0), DONE, vec![(posted(0), 1), (second, most)]),
            ((5, 2, 0, 0), DONE, vec![(posted(0), 1), (second, most)]),
            // 1 and 4,294,967,295: the total is 0.
            ((5, 1, 0, 0), DONE, vec![]),
        ],
    );
}

/// A collecting round posts as any other, and takes no total away.
fn collecting(tally: &mut Tally) {
    let mut areas = opened(tally, [2, 2, 1]);
    let adds = vec![(added(1, 3), 10), (added(2, 15), 4)];
    let totals = vec![(posted(3), 10), (posted(15), 4)];
    let more = vec![(posted(3), 10), (posted(15), 4), (added(2, 3), 7)];
    rows(
        tally,
        "collecting",
        &mut areas,
        vec![
            ((8, 1, 3, 10), DONE, vec![adds[0]]),
            ((2, 1, 0, 6), DONE, vec![adds[0]]),
            ((8, 2, 15, 4), DONE, adds.clone()),
            ((6, 2, 0, 0), DONE, adds.clone()),
            ((5, 2, 0, 0), DONE, adds),
            ((5, 1, 0, 0), [0, 0, 1, 1], totals.clone()),
            ((1, 2, 0, 0), [0, 6, 0, 0], totals.clone()),
            ((8, 2, 3, 7), DONE, more.clone()),
            ((6, 1, 0, 0), DONE, more.clone()),
            ((5, 1, 0, 0), DONE, more),
            ((5, 2, 0, 0), DONE, vec![(posted(3), 17), totals[1]]),
            // A round without adds, and one that collects, leave the totals.
            ((5, 1, 0, 0), DONE, vec![(posted(3), 17), totals[1]]),
            ((5, 2, 0, 0), DONE, vec![(posted(3), 17), totals[1]]),
            ((6, 1, 0, 0), DONE, vec![(posted(3), 17), totals[1]]),
            ((5, 1, 0, 0), DONE, vec![(posted(3), 17), totals[1]]),
            ((5, 2, 0, 0), DONE, vec![(posted(3), 17), totals[1]]),
            (
                (9, 1, 3, 0),
                [0, 17, 0, 0],
                vec![(posted(3), 17), totals[1]],
            ),
        ],
    );
}

/// With one processor each arrival posts.
fn one_processor(tally: &mut Tally) {
    let mut areas = opened(tally, [1, 1, 1]);
    rows(
        tally,
        "one processor",
        &mut areas,
        vec![
            ((8, 1, 15, 3), DONE, vec![(added(1, 15), 3)]),
            ((5, 1, 0, 0), DONE, vec![(posted(15), 3)]),
            (
                (8, 1, 15, 4),
                DONE,
                vec![(posted(15), 3), (added(1, 15), 4)],
            ),
            (
                (9, 1, 15, 0),
                [0, 7, 0, 0],
                vec![(posted(15), 3), (added(1, 15), 4)],
            ),
            ((6, 1, 0, 0), DONE, vec![(posted(15), 3), (added(1, 15), 4)]),
            ((5, 1, 0, 0), DONE, vec![(posted(15), 7)]),
            ((8, 2, 15, 1), [4, 0, 0, 0], vec![(posted(15), 7)]),
        ],
    );
}

/// Every processor adds another number to every tally: each add has its own place, and each total is the sum of its eight.
fn eight_processors(tally: &mut Tally) {
    let mut areas = opened(tally, [8, 8, 16]);
    let number = |p: usize, t: usize| (p as u32) << 28 | 1 << t;
    let mut words = Vec::new();
    let mut fine = true;
    for p in 1..=8 {
        for t in 0..16 {
            let mut answer = UNANSWERED;
            let fields = (8, p as u32, t as u32, number(p, t));
            fine &= step(fields, &mut answer, &mut areas) == 0 && answer == DONE;
            words.push((added(p, t), number(p, t)));
        }
    }
    tally.check("tallies: eight processors add", fine && in_order(&areas));
    tally.check(
        "tallies: eight processors' adds",
        areas.words[TALLIES..END] == tally_part(&words),
    );
    for p in (1..=8).rev() {
        fine &= step((5, p, 0, 0), &mut { UNANSWERED }, &mut areas) == 0;
    }
    let totals: Vec<Word> = (0..16)
        .map(|t| {
            let adds = (1..=8).map(|p| number(p, t));
            (posted(t), adds.fold(0, u32::wrapping_add))
        })
        .collect();
    tally.check(
        "tallies: the totals of eight processors",
        fine && in_order(&areas) && areas.words[TALLIES..END] == tally_part(&totals),
    );
}

/// In the reached state processor 1 may act, 2 holds a lock and has a dirty page, 3 has arrived, 4 and 5 wait.
fn on_the_reached_state(tally: &mut Tally, reached: &Areas) {
    let mut areas = reached.clone();
    let adds = vec![(added(1, 2), 8), (added(2, 2), 9)];
    rows(
        tally,
        "the reached state",
        &mut areas,
        vec![
            ((8, 1, 2, 8), DONE, vec![adds[0]]),
            ((8, 2, 2, 9), DONE, adds.clone()),
            ((9, 1, 2, 0), [0, 8, 0, 0], adds.clone()),
            ((9, 2, 2, 0), [0, 9, 0, 0], adds.clone()),
            ((8, 3, 2, 1), [6, 0, 0, 0], adds.clone()),
            ((9, 4, 2, 0), [17, 0, 0, 0], adds.clone()),
            // Neither the release nor the grant carries adds.
            ((4, 2, 0, 0), DONE, adds.clone()),
            ((9, 4, 2, 0), DONE, adds.clone()),
            ((1, 4, 1, 0), [0, 9, 2, 2], adds),
        ],
    );
}

/// An accepted opening sets the tally part to 0, a refused one leaves it.
fn openings(tally: &mut Tally, reached: &Areas) {
    let mut full = reached.clone();
    full.words[TALLIES..].fill(u32::MAX);
    for (name, opening, refusal) in [
        ("nine processors", [0, 9, 1, 1, 0, 0, 0, 0], 2),
        ("a step's kind", [8, 1, 1, 1, 0, 0, 0, 0], 2),
        ("an opening", [0, 3, 1, 1, 0, 0, 0, 0], 0),
    ] {
        let mut areas = full.clone();
        let answered = open(&opening, &mut areas);
        let due = match refusal {
            0 => vec![0; WORDS],
            _ => full.words.clone(),
        };
        tally.check(
            &format!("tallies: {name}: {refusal}"),
            answered == refusal && areas.words == due,
        );
    }
    // The areas as they were without tallies.
    let mut short = reached.clone();
    short.words.truncate(TALLIES);
    let before = short.clone();
    let refusal = open(&[0, 2, 1, 1, 0, 0, 0, 0], &mut short);
    tally.check(
        "tallies: areas without them: 1, untouched",
        refusal == 1 && short == before && !in_order(&short),
    );
}

/// Each word of the tally part, one after the other: not in order exactly where it is an add of one of the three absent processors.
fn each_word_turned(tally: &mut Tally, reached: &Areas) {
    let mut agree = true;
    for place in TALLIES..END {
        let mut areas = reached.clone();
        areas.words[place] ^= u32::MAX;
        agree &= in_order(&areas) == (place < added(6, 0));
    }
    tally.check("tallies: adds of absent processors are 0", agree);
}
