//! The reached state, damaged: it is not in order, and a step of any kind answers 1, 0, 0, 0 and leaves every byte.

use crate::library::{in_order, step, Areas, CLOCKS, DONE, MARKS, RECORDS, UNANSWERED, WORDS};
use crate::openings::of_wrong_sizes;
use crate::steps::refused_as;
use crate::tallies::{added, posted};
use crate::Tally;

pub fn check(tally: &mut Tally, reached: &Areas) {
    for (name, damaged) in damages(reached) {
        not_in_order(tally, &name, &damaged);
    }
    for (name, damaged) in of_wrong_sizes(reached) {
        not_in_order(tally, &name, &damaged);
    }
    every_byte(tally, reached);
    harmless(tally, reached);
}

// ---- where things lie (crates/layout/specs/Areas.antt)

/// The entry of processor q in a row of clocks; row 0 is the barrier's, row p processor p's.
pub fn entry(row: usize, q: usize) -> usize {
    8 * row + q - 1
}

fn lock_row(l: usize) -> usize {
    9 + l
}

pub fn applied_row(p: usize, g: usize) -> usize {
    25 + (p - 1) * 8 + g
}

pub fn interval_row(p: usize, i: usize) -> usize {
    89 + (p - 1) * 63 + i - 1
}

/// The clock of a place of the queue.
pub fn job_row(place: usize) -> usize {
    593 + place
}

/// The first word of a processor's copy of a page.
pub fn copy(p: usize, g: usize) -> usize {
    32 * ((p - 1) * 8 + g)
}

pub fn twin(p: usize, g: usize) -> usize {
    32 * 64 + copy(p, g)
}

/// The value of a place of the queue.
pub fn job_word(place: usize) -> usize {
    4240 + place
}

pub fn slot(i: usize) -> usize {
    135 * i
}

fn arrived(p: usize) -> usize {
    5 + p
}

pub fn holder(l: usize) -> usize {
    14 + l
}

pub fn dirty(p: usize, g: usize) -> usize {
    30 + (p - 1) * 8 + g
}

/// The lock that a processor waits for, plus 1.
pub fn awaited(p: usize) -> usize {
    93 + p
}

/// How many of that lock's waiters stand before it.
pub fn turn(p: usize) -> usize {
    101 + p
}

/// The high byte of the number of standing records.
const STANDING_HIGH: usize = 4;
/// The place of the oldest job, and how many jobs wait.
pub const FIRST_JOB: usize = 110;
pub const JOBS: usize = 111;

// ---- damage

/// The reached state with one condition of "in order" broken.
fn damages(reached: &Areas) -> Vec<(String, Areas)> {
    let mut all = Vec::new();
    let clocks: [(&str, usize, u8); 21] = [
        ("an entry for an absent processor", entry(1, 6), 1),
        ("a clock of an absent processor", entry(6, 1), 1),
        ("a clock of an absent lock", entry(lock_row(2), 1), 1),
        (
            "an applied clock of an absent page",
            entry(applied_row(1, 2), 1),
            1,
        ),
        (
            "an applied clock of an absent processor",
            entry(applied_row(8, 0), 1),
            1,
        ),
        (
            "an interval's clock of an absent processor",
            entry(interval_row(6, 1), 1),
            1,
        ),
        (
            "a clock kept for an interval not made",
            entry(interval_row(1, 2), 1),
            1,
        ),
        (
            "the last interval's clock",
            entry(interval_row(8, 63), 8),
            1,
        ),
        ("a processor's entry above the own entry", entry(2, 1), 2),
        ("the barrier's entry above the own entry", entry(0, 1), 2),
        (
            "a lock's entry above the own entry",
            entry(lock_row(0), 1),
            2,
        ),
        (
            "an interval's entry above the own entry",
            entry(interval_row(1, 1), 1),
            2,
        ),
        ("an own entry of 64", entry(1, 1), 64),
        ("an own entry below what others know", entry(1, 1), 0),
        (
            "an applied clock above its processor's clock",
            entry(applied_row(3, 0), 1),
            1,
        ),
        ("own entry 63 with a dirty page", entry(2, 2), 63),
        (
            "an applied clock above the own entry",
            entry(applied_row(2, 0), 1),
            255,
        ),
        ("a job's entry above the own entry", entry(job_row(0), 1), 2),
        (
            "a job's entry for one that made no interval",
            entry(job_row(16), 2),
            1,
        ),
        (
            "a job's entry for an absent processor",
            entry(job_row(0), 6),
            1,
        ),
        ("the last job's clock", entry(job_row(31), 8), 1),
    ];
    for (name, place, byte) in clocks {
        let mut areas = reached.clone();
        areas.clocks[place] = byte;
        all.push((name.to_string(), areas));
    }
    let words = [
        ("a word of an absent page", copy(1, 2)),
        ("the last word of an absent page", copy(2, 7) + 31),
        ("a word of an absent processor", copy(6, 0)),
        ("the last word of an absent processor", copy(8, 7) + 31),
        ("a twin's word of an absent page", twin(1, 2)),
        ("the last twin's word of an absent page", twin(2, 7) + 31),
        ("a twin's word of an absent processor", twin(6, 0)),
        ("the last word of all the twins", twin(8, 7) + 31),
        ("an add of an absent processor", added(6, 0)),
        ("the last add of an absent processor", added(7, 15)),
        ("the last add of all", added(8, 15)),
    ];
    for (name, place) in words {
        let mut areas = reached.clone();
        areas.words[place] = 0x8000_0000;
        all.push((name.to_string(), areas));
    }
    let records: [(&str, usize, u8); 13] = [
        ("a record of nobody", slot(0), 0),
        ("a record of an absent processor", slot(0), 6),
        ("a record of a processor that made no interval", slot(0), 2),
        ("a record's interval 0", slot(0) + 1, 0),
        ("a record's interval above the own entry", slot(0) + 1, 2),
        ("a record's interval of 255", slot(1) + 1, 255),
        ("a record of an absent page", slot(0) + 2, 2),
        (
            "two records of one processor, interval and page",
            slot(1) + 2,
            0,
        ),
        ("a diff's length beyond its slot", slot(0) + 3, 132),
        ("a diff's length that is not exact", slot(0) + 3, 8),
        ("a diff of 17 runs", slot(0) + 4, 17),
        ("a diff whose pair leaves the page", slot(0) + 5, 32),
        ("a diff whose run is empty", slot(1) + 6, 0),
    ];
    for (name, place, byte) in records {
        let mut areas = reached.clone();
        areas.records[place] = byte;
        all.push((name.to_string(), areas));
    }
    let marks: [(&str, usize, u8); 39] = [
        ("no processors", 0, 0),
        ("nine processors", 0, 9),
        ("fewer processors than are used", 0, 2),
        ("no pages", 1, 0),
        ("nine pages", 1, 9),
        ("fewer pages than are used", 1, 1),
        ("no locks", 2, 0),
        ("seventeen locks", 2, 17),
        ("a record standing that is none", 3, 3),
        ("129 records standing", 3, 129),
        ("an absent processor has arrived", arrived(6), 1),
        ("an absent lock has a holder", holder(2), 1),
        ("a lock held by an absent processor", holder(0), 6),
        ("a lock held by processor 255", holder(1), 255),
        ("a lock held by one that has arrived", holder(1), 3),
        ("a lock taken by one that has arrived", holder(0), 3),
        ("a holder that has arrived", arrived(2), 1),
        ("an absent page is dirty", dirty(1, 2), 1),
        ("a page of an absent processor is dirty", dirty(6, 0), 1),
        ("the last dirty mark", dirty(8, 7), 1),
        ("258 records standing", STANDING_HIGH, 1),
        ("an absent processor waits", awaited(6), 1),
        ("the last processor waits", awaited(8), 1),
        ("an absent processor has a turn", turn(6), 1),
        ("the last turn", turn(8), 255),
        ("a waiter of an absent lock", awaited(4), 3),
        ("a waiter of lock 254", awaited(5), 255),
        ("a waiter of a free lock", awaited(4), 2),
        ("a line at a free lock", holder(0), 0),
        ("a waiter that holds the lock", holder(0), 4),
        ("a waiter that has arrived", arrived(5), 1),
        ("two waiters with the first turn", turn(5), 0),
        ("two waiters with the second turn", turn(4), 1),
        ("a gap between two turns", turn(5), 2),
        ("a first turn that nobody has", awaited(4), 0),
        ("the oldest job at place 32", FIRST_JOB, 32),
        ("the oldest job at place 255", FIRST_JOB, 255),
        ("33 jobs", JOBS, 33),
        ("255 jobs", JOBS, 255),
    ];
    for (name, place, byte) in marks {
        let mut areas = reached.clone();
        areas.marks[place] = byte;
        all.push((name.to_string(), areas));
    }
    let many: [(&str, &[(usize, u8)]); 3] = [
        (
            "all have arrived",
            &[
                (awaited(4), 0),
                (awaited(5), 0),
                (arrived(1), 1),
                (arrived(2), 1),
                (arrived(4), 1),
                (arrived(5), 1),
            ],
        ),
        (
            "the holder waits for its own lock",
            &[(awaited(2), 1), (turn(2), 2)],
        ),
        (
            "one that has arrived waits",
            &[(awaited(3), 1), (turn(3), 2)],
        ),
    ];
    for (name, places) in many {
        let mut areas = reached.clone();
        places
            .iter()
            .for_each(|&(place, byte)| areas.marks[place] = byte);
        all.push((name.to_string(), areas));
    }
    all
}

/// Areas that are not in order: a step of any kind answers 1, 0, 0, 0 and leaves every byte.
fn not_in_order(tally: &mut Tally, name: &str, damaged: &Areas) {
    tally.check(&format!("{name}: not in order"), !in_order(damaged));
    let steps = [
        (1, 1, 0, 0),
        (2, 1, 0, 5),
        (3, 1, 1, 0),
        (4, 2, 0, 0),
        (5, 1, 0, 0),
        (6, 1, 0, 0),
        (8, 1, 0, 5),
        (9, 1, 0, 0),
        (10, 1, 0, 5),
        (11, 1, 0, 0),
        (0, 0, 0, 0),
    ];
    let refused = steps.iter().all(|&fields| {
        let mut areas = damaged.clone();
        refused_as(1, fields, &mut areas) && areas == *damaged
    });
    tally.check(&format!("{name}: 1, untouched"), refused);
}

/// Every byte and word of every area, one after the other, with all its bits turned: a step is refused by 1 exactly where the areas are
/// not in order, and then leaves every byte.
fn every_byte(tally: &mut Tally, reached: &Areas) {
    sweep(tally, "clocks", CLOCKS, reached, |areas, i| {
        areas.clocks[i] ^= 0xff
    });
    sweep(tally, "words", WORDS, reached, |areas, i| {
        areas.words[i] ^= 0xffff_ffff
    });
    sweep(tally, "records", RECORDS, reached, |areas, i| {
        areas.records[i] ^= 0xff
    });
    sweep(tally, "marks", MARKS, reached, |areas, i| {
        areas.marks[i] ^= 0xff
    });
}

fn sweep(
    tally: &mut Tally,
    name: &str,
    length: usize,
    reached: &Areas,
    turn: fn(&mut Areas, usize),
) {
    let mut found = 0;
    let mut agree = true;
    let mut untouched = true;
    for i in 0..length {
        let mut damaged = reached.clone();
        turn(&mut damaged, i);
        let mut areas = damaged.clone();
        let fine = in_order(&areas);
        untouched &= areas == damaged;
        let mut answer = UNANSWERED;
        let refused = step((2, 2, 33, 5), &mut answer, &mut areas) == 1;
        agree &= refused != fine;
        if refused {
            found += 1;
            untouched &= areas == damaged && answer == [1, 0, 0, 0];
        } else {
            agree &= in_order(&areas);
        }
    }
    tally.check(
        &format!("each of {name} turned: some are not in order"),
        found > 0,
    );
    tally.check(
        &format!("each of {name} turned: 1 where not in order, and only then"),
        agree,
    );
    tally.check(&format!("each of {name} turned: untouched"), untouched);
}

/// Changes of which "in order" says nothing: the step is done.
fn harmless(tally: &mut Tally, reached: &Areas) {
    let changes: [(&str, fn(&mut Areas)); 17] = [
        ("a word of a copy", |a| a.words[copy(3, 1)] = 1),
        ("a twin of a clean page", |a| a.words[twin(1, 0)] = 1),
        ("a slot behind the standing records", |a| {
            a.records[slot(2)] = 255
        }),
        ("the rest of a slot", |a| a.records[slot(0) + 134] = 255),
        ("a record without words", |a| {
            (a.records[slot(0) + 3], a.records[slot(0) + 4]) = (1, 0)
        }),
        ("a wish of 255", |a| a.marks[5] = 255),
        ("own entry 62 with a dirty page", |a| {
            a.clocks[entry(2, 2)] = 62
        }),
        ("the turn of one who does not wait", |a| {
            a.marks[turn(1)] = 255
        }),
        ("a waiter with a dirty page", |a| a.marks[dirty(4, 1)] = 1),
        ("the line in another order", |a| {
            (a.marks[turn(4)], a.marks[turn(5)]) = (1, 0)
        }),
        ("a posted total", |a| a.words[posted(15)] = u32::MAX),
        ("an add of one who waits", |a| a.words[added(5, 15)] = 1),
        ("a value in a free place of the queue", |a| {
            a.words[job_word(31)] = u32::MAX
        }),
        ("a job's clock within the own entries", |a| {
            a.clocks[entry(job_row(31), 1)] = 1
        }),
        ("an empty queue at its last place", |a| {
            a.marks[FIRST_JOB] = 31
        }),
        ("32 jobs from the last place on", |a| {
            (a.marks[FIRST_JOB], a.marks[JOBS]) = (31, 32)
        }),
        ("two that wait for each other", |a| {
            a.marks[holder(1)] = 4;
            a.marks[awaited(2)] = 2;
        }),
    ];
    for (name, change) in changes {
        let mut areas = reached.clone();
        change(&mut areas);
        let fine = in_order(&areas);
        let mut answer = UNANSWERED;
        let refusal = step((6, 1, 0, 0), &mut answer, &mut areas);
        tally.check(
            &format!("{name}: in order"),
            fine && refusal == 0 && answer == DONE && in_order(&areas),
        );
    }
}
