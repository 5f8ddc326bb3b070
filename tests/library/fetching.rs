//! Fetching through the library: which records are applied and counted, how many words they set, every word of the copy afterwards, and the applied clock, which moves
//! though every record is skipped. Nothing else is written.

use crate::damage::{applied_row, copy, dirty, twin};
use crate::library::{in_order, open, step, Areas, Step, UNANSWERED};
use crate::Tally;

/// An offset on the page, and the word there.
type Word = (usize, u32);

/// What a fetch moves: the records that it applies, and the words that they set.
type Moved = (u32, u32);

const NOTHING: Moved = (0, 0);

/// A processor takes lock 0, stores and frees the lock: the processor, what its first store moves, and the words and values stored.
type Turn<'a> = (u32, Moved, &'a [(u32, u32)]);

pub fn check(tally: &mut Tally) {
    under_one_lock(tally);
    no_words(tally);
    by_a_write(tally);
    in_a_race(tally);
    whole_page(tally);
    collected(tally);
}

fn opened(tally: &mut Tally, name: &str, [processors, pages, locks]: [u8; 3]) -> Areas {
    let mut areas = Areas::garbage(8);
    let opened = open(&[0, processors, pages, locks, 0, 0, 0, 0], &mut areas);
    tally.check(&format!("fetching: {name}: opened"), opened == 0);
    areas
}

/// Takes steps with their values and what they move.
fn take(tally: &mut Tally, name: &str, areas: &mut Areas, steps: &[(Step, u32, Moved)]) {
    for &(fields, value, (count, words)) in steps {
        let mut answer = UNANSWERED;
        let refusal = step(fields, &mut answer, areas);
        tally.check(
            &format!("fetching: {name}: step {fields:?}"),
            refusal == 0 && answer == [0, value, count, words] && in_order(areas),
        );
    }
}

fn turn(tally: &mut Tally, name: &str, areas: &mut Areas, (p, moved, stores): Turn) {
    take(tally, name, areas, &[((3, p, 0, 0), 0, NOTHING)]);
    for (nth, &(word, value)) in stores.iter().enumerate() {
        let moved = if nth == 0 { moved } else { NOTHING };
        take(tally, name, areas, &[((2, p, word, value), 0, moved)]);
    }
    take(tally, name, areas, &[((4, p, 0, 0), 0, NOTHING)]);
}

/// Processor p reads a word of page 0, on which it has stored nothing: its copy has these words and 0 beside them, its applied clock is its
/// clock, and every other byte is as it was. The same read again moves and writes nothing.
fn read(
    tally: &mut Tally,
    name: &str,
    areas: &mut Areas,
    (p, word): (usize, usize),
    moved: Moved,
    words: &[Word],
) {
    let mut due = areas.clone();
    let page = page_of(words);
    due.words[copy(p, 0)..copy(p, 1)].copy_from_slice(&page);
    applied(&mut due, p, 0);
    let fields = (1, p as u32, word as u32, 0);
    for moved in [moved, NOTHING] {
        take(tally, name, areas, &[(fields, page[word], moved)]);
        tally.check(
            &format!("fetching: {name}: what processor {p} has, moved {moved:?}"),
            *areas == due,
        );
    }
}

/// A page with these words and 0 beside them.
fn page_of(words: &[Word]) -> [u32; 32] {
    let mut page = [0; 32];
    words.iter().for_each(|&(at, word)| page[at] = word);
    page
}

/// The applied clock becomes the processor's.
fn applied(areas: &mut Areas, p: usize, page: usize) {
    let at = 8 * applied_row(p, page);
    areas.clocks.copy_within(8 * p..8 * p + 8, at);
}

/// The turns, then a processor without a store that takes the lock and reads; what that moves, and the words it has.
type UnderOneLock<'a> = (&'a str, &'a [Turn<'a>], (usize, usize), Moved, &'a [Word]);

fn under_one_lock(tally: &mut Tally) {
    let cases: [UnderOneLock; 7] = [
        (
            "case D",
            &[(1, NOTHING, &[(0, 11)]), (2, (1, 1), &[(0, 22)])],
            (3, 0),
            (1, 1),
            &[(0, 22)],
        ),
        (
            "case E",
            &[(2, NOTHING, &[(0, 22)]), (1, (1, 1), &[(0, 11)])],
            (3, 0),
            (1, 1),
            &[(0, 11)],
        ),
        (
            "partly replaced",
            &[(1, NOTHING, &[(0, 11), (1, 12)]), (2, (1, 2), &[(1, 22)])],
            (3, 0),
            (2, 3),
            &[(0, 11), (1, 22)],
        ),
        (
            "replaced by two together",
            &[
                (1, NOTHING, &[(0, 11), (1, 12)]),
                (2, (1, 2), &[(0, 21)]),
                (3, (2, 3), &[(1, 32)]),
            ],
            (4, 0),
            (2, 2),
            &[(0, 21), (1, 32)],
        ),
        (
            "not by the next",
            &[
                (1, NOTHING, &[(31, 11)]),
                (2, (1, 1), &[(9, 22)]),
                (3, (2, 2), &[(31, 33)]),
            ],
            (4, 9),
            (2, 2),
            &[(9, 22), (31, 33)],
        ),
        (
            "a chain",
            &[
                (1, NOTHING, &[(3, 1)]),
                (2, (1, 1), &[(3, 2), (4, 2)]),
                (3, (1, 2), &[(4, 3)]),
                (4, (2, 3), &[(3, 4)]),
            ],
            (5, 3),
            (2, 2),
            &[(3, 4), (4, 3)],
        ),
        (
            "set back to 0",
            &[(1, NOTHING, &[(0, 5)]), (2, (1, 1), &[(0, 0), (1, 6)])],
            (3, 1),
            (1, 2),
            &[(1, 6)],
        ),
    ];
    for (name, turns, (p, word), moved, words) in cases {
        let mut areas = opened(tally, name, [5, 1, 1]);
        turns
            .iter()
            .for_each(|&of_one| turn(tally, name, &mut areas, of_one));
        take(
            tally,
            name,
            &mut areas,
            &[((3, p as u32, 0, 0), 0, NOTHING)],
        );
        read(tally, name, &mut areas, (p, word), moved, words);
    }
}

/// Records without words: all are skipped, as the last one too, and the applied clock moves.
fn no_words(tally: &mut Tally) {
    let name = "no words";
    let mut areas = opened(tally, name, [3, 1, 1]);
    turn(tally, name, &mut areas, (1, NOTHING, &[(0, 0)]));
    turn(tally, name, &mut areas, (2, NOTHING, &[(5, 0)]));
    take(tally, name, &mut areas, &[((3, 3, 0, 0), 0, NOTHING)]);
    let at = 8 * applied_row(3, 0);
    tally.check(
        "fetching: no words: nothing is applied before",
        areas.clocks[at..at + 8] == [0; 8],
    );
    read(tally, name, &mut areas, (3, 0), NOTHING, &[]);
    tally.check(
        "fetching: no words: the applied clock moves",
        areas.clocks[at..at + 8] == [1, 1, 0, 0, 0, 0, 0, 0],
    );
    take(tally, name, &mut areas, &[((4, 3, 0, 0), 0, NOTHING)]);
    turn(tally, name, &mut areas, (1, NOTHING, &[(0, 7)]));
    turn(tally, name, &mut areas, (2, (1, 1), &[(0, 7)]));
    take(tally, name, &mut areas, &[((3, 3, 0, 0), 0, NOTHING)]);
    read(tally, name, &mut areas, (3, 0), (1, 1), &[(0, 7)]);
}

/// A write's fetch skips as a read's does; the twin is the fetched copy.
fn by_a_write(tally: &mut Tally) {
    let name = "a write";
    let mut areas = opened(tally, name, [3, 1, 1]);
    turn(tally, name, &mut areas, (1, NOTHING, &[(0, 11), (1, 12)]));
    turn(
        tally,
        name,
        &mut areas,
        (2, (1, 2), &[(0, 21), (1, 22), (2, 23)]),
    );
    take(tally, name, &mut areas, &[((3, 3, 0, 0), 0, NOTHING)]);
    let mut due = areas.clone();
    let page = page_of(&[(0, 21), (1, 22), (2, 23)]);
    due.words[copy(3, 0)..copy(3, 1)].copy_from_slice(&page);
    due.words[twin(3, 0)..twin(3, 1)].copy_from_slice(&page);
    due.words[copy(3, 0) + 1] = 32;
    due.marks[dirty(3, 0)] = 1;
    applied(&mut due, 3, 0);
    take(tally, name, &mut areas, &[((2, 3, 1, 32), 0, (1, 3))]);
    tally.check("fetching: a write: what processor 3 has", areas == due);
}

/// A race of equal sums: the copies are those of applying all, smaller processor first.
fn in_a_race(tally: &mut Tally) {
    let name = "a race";
    let mut areas = opened(tally, name, [3, 1, 1]);
    let steps = [
        ((2, 1, 0, 5), 0, NOTHING),
        ((2, 2, 0, 6), 0, NOTHING),
        ((2, 2, 1, 7), 0, NOTHING),
        ((5, 1, 0, 0), 0, NOTHING),
        ((5, 2, 0, 0), 0, NOTHING),
        ((5, 3, 0, 0), 0, NOTHING),
    ];
    take(tally, name, &mut areas, &steps);
    read(tally, name, &mut areas, (3, 0), (1, 2), &[(0, 6), (1, 7)]);
    read(tally, name, &mut areas, (1, 0), (1, 2), &[(0, 6), (1, 7)]);
    read(tally, name, &mut areas, (2, 0), (1, 1), &[(0, 5), (1, 7)]);
}

/// A record of all 32 words is skipped when the last of them is set again, and not before.
fn whole_page(tally: &mut Tally) {
    let name = "a whole page";
    let mut areas = opened(tally, name, [4, 1, 1]);
    let stores: Vec<(u32, u32)> = (0..32).map(|word| (word, 100 + word)).collect();
    turn(tally, name, &mut areas, (1, NOTHING, &stores));
    let mut words: Vec<Word> = (0..32).map(|at| (at, 100 + at as u32)).collect();
    for at in 0..32 {
        if at == 31 {
            take(tally, name, &mut areas, &[((3, 3, 0, 0), 0, NOTHING)]);
            read(tally, name, &mut areas, (3, 31), (32, 63), &words);
            take(tally, name, &mut areas, &[((4, 3, 0, 0), 0, NOTHING)]);
        }
        let moved = if at == 0 { (1, 32) } else { NOTHING };
        turn(tally, name, &mut areas, (2, moved, &[(at as u32, 200)]));
        words[at] = (at, 200);
    }
    take(tally, name, &mut areas, &[((3, 4, 0, 0), 0, NOTHING)]);
    read(tally, name, &mut areas, (4, 31), (32, 32), &words);
}

/// A collecting round: each page's fetch is one of its own, so the same offset on another page replaces nothing; what one processor skips
/// another has applied before. All copies are alike after it, and all clocks are zeros.
fn collected(tally: &mut Tally) {
    let name = "a collection";
    let mut areas = opened(tally, name, [4, 2, 1]);
    turn(tally, name, &mut areas, (1, NOTHING, &[(0, 5), (32, 6)]));
    take(
        tally,
        name,
        &mut areas,
        &[
            ((3, 3, 0, 0), 0, NOTHING),
            ((1, 3, 0, 0), 5, (1, 1)),
            ((4, 3, 0, 0), 0, NOTHING),
        ],
    );
    turn(tally, name, &mut areas, (2, (1, 1), &[(0, 7)]));
    let arrivals = [
        ((6, 3, 0, 0), 0, NOTHING),
        ((5, 1, 0, 0), 0, NOTHING),
        ((5, 2, 0, 0), 0, NOTHING),
        ((5, 3, 0, 0), 0, NOTHING),
        // Page 0: processor 2's record by 1, 3 and 4. Page 1: processor 1's by 2, 3 and 4.
        ((5, 4, 0, 0), 0, (6, 6)),
    ];
    take(tally, name, &mut areas, &arrivals);
    for p in 1..=4 {
        let pages = [page_of(&[(0, 7)]), page_of(&[(0, 6)])].concat();
        tally.check(
            &format!("fetching: {name}: what processor {p} has"),
            areas.words[copy(p, 0)..copy(p, 2)] == pages,
        );
    }
    tally.check(
        "fetching: a collection: no records, all clocks are zeros",
        areas.marks[3..5] == [0, 0] && areas.clocks.iter().all(|&entry| entry == 0),
    );
}
