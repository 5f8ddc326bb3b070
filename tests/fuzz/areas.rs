//! The four areas, each between two margins that no call may touch, and where
//! everything lies in them.

use crate::library::{Lent, Shown, CLOCKS, MARKS, RECORDS, WORDS};
use std::ops::Range;

pub const PROCESSORS: usize = 8;
pub const PAGES: usize = 8;
pub const LOCKS: usize = 16;
pub const INTERVALS: usize = 63;
pub const SLOTS: usize = 128;
pub const SLOT: usize = 135;
pub const PAGE_WORDS: usize = 32;
pub const TALLIES: usize = 16;
pub const JOBS: usize = 32;
/// Rows of eight entries in the clocks.
pub const ROWS: usize = CLOCKS / 8;

// Rows of the clocks. Processors and intervals count from 1, pages and locks
// from 0.

pub const BARRIER_ROW: usize = 0;

pub fn processor_row(p: usize) -> usize {
    p
}

pub fn lock_row(lock: usize) -> usize {
    9 + lock
}

pub fn applied_row(p: usize, page: usize) -> usize {
    25 + 8 * (p - 1) + page
}

pub fn kept_row(p: usize, interval: usize) -> usize {
    89 + INTERVALS * (p - 1) + (interval - 1)
}

/// The clock of a place of the queue.
pub fn job_row(place: usize) -> usize {
    593 + place
}

/// The entries of all applied clocks, and of the clocks of jobs.
pub const APPLIED: Range<usize> = 8 * 25..8 * 89;
pub const JOB_CLOCKS: Range<usize> = 8 * 593..CLOCKS;

/// The first of the 32 words of a processor's copy of a page.
pub fn copy_at(p: usize, page: usize) -> usize {
    PAGE_WORDS * (8 * (p - 1) + page)
}

/// The first of all the twins' words.
pub const TWINS_AT: usize = PAGE_WORDS * 64;

/// The first of the 32 words of a page's twin.
pub fn twin_at(p: usize, page: usize) -> usize {
    TWINS_AT + copy_at(p, page)
}

/// The words of the tallies, behind the twins: the posted totals, then the adds
/// of each processor.
pub const TALLY_WORDS: Range<usize> = 2 * TWINS_AT..2 * TWINS_AT + TALLIES * (1 + PROCESSORS);

/// The words of the queue, behind the tallies: a value for each of its places.
pub const JOB_WORDS: Range<usize> = TALLY_WORDS.end..WORDS;

/// The posted total of a tally.
pub fn posted_at(tally: usize) -> usize {
    TALLY_WORDS.start + tally
}

/// What a processor has added to a tally since the last completed round.
pub fn added_at(p: usize, tally: usize) -> usize {
    posted_at(tally) + TALLIES * p
}

/// The value of a place of the queue.
pub fn job_at(place: usize) -> usize {
    JOB_WORDS.start + place
}

// Marks.

pub const PROCESSORS_AT: usize = 0;
pub const PAGES_AT: usize = 1;
pub const LOCKS_AT: usize = 2;
/// The number of standing records: its low byte, and its high byte.
pub const STANDING_AT: usize = 3;
pub const STANDING_HIGH_AT: usize = 4;
pub const WISH_AT: usize = 5;
/// The place of the oldest job, and how many jobs wait.
pub const FIRST_JOB_AT: usize = 110;
pub const JOBS_AT: usize = 111;

/// All dirty marks, and the marks that say who holds and who waits.
pub const DIRTY: Range<usize> = 30..94;
pub const HOLDERS: Range<usize> = 14..30;
pub const LINES: Range<usize> = 94..110;

pub fn arrived_at(p: usize) -> usize {
    6 + (p - 1)
}

pub fn holder_at(lock: usize) -> usize {
    14 + lock
}

pub fn dirty_at(p: usize, page: usize) -> usize {
    30 + 8 * (p - 1) + page
}

/// The lock that a processor waits for, plus 1; 0 where it waits for none.
pub fn awaited_at(p: usize) -> usize {
    94 + (p - 1)
}

/// How many of that lock's waiters stand before the processor.
pub fn turn_at(p: usize) -> usize {
    102 + (p - 1)
}

/// Elements lent to a call, with a margin before and behind them.
#[derive(Clone, PartialEq)]
pub struct Area<T> {
    all: Vec<T>,
    len: usize,
}

const MARGIN: usize = 8;

impl<T: Copy + PartialEq> Area<T> {
    /// `len` elements `inside` between margins of `outside`.
    fn new(len: usize, inside: T, outside: T) -> Area<T> {
        let mut all = vec![outside; len + 2 * MARGIN];
        all[MARGIN..MARGIN + len].fill(inside);
        Area { all, len }
    }

    pub fn part(&self) -> &[T] {
        &self.all[MARGIN..MARGIN + self.len]
    }

    pub fn part_mut(&mut self) -> &mut [T] {
        &mut self.all[MARGIN..MARGIN + self.len]
    }

    fn same_margins(&self, other: &Area<T>) -> bool {
        let behind = MARGIN + self.len;
        self.all[..MARGIN] == other.all[..MARGIN] && self.all[behind..] == other.all[behind..]
    }

    fn copy_from(&mut self, other: &Area<T>) {
        self.all.clear();
        self.all.extend_from_slice(&other.all);
        self.len = other.len;
    }
}

#[derive(Clone, PartialEq)]
pub struct Areas {
    pub clocks: Area<u8>,
    pub words: Area<u32>,
    pub records: Area<u8>,
    pub marks: Area<u8>,
}

/// The lengths of clocks, words, records and marks that are right.
pub const LENGTHS: [usize; 4] = [CLOCKS, WORDS, RECORDS, MARKS];

impl Areas {
    /// Areas of these lengths, all zeros.
    pub fn zeros(lengths: [usize; 4]) -> Areas {
        let [clocks, words, records, marks] = lengths;
        Areas {
            clocks: Area::new(clocks, 0, 0xa5),
            words: Area::new(words, 0, 0xa5a5_a5a5),
            records: Area::new(records, 0, 0xa5),
            marks: Area::new(marks, 0, 0xa5),
        }
    }

    pub fn lend(&mut self) -> Lent<'_> {
        Lent {
            clocks: self.clocks.part_mut(),
            words: self.words.part_mut(),
            records: self.records.part_mut(),
            marks: self.marks.part_mut(),
        }
    }

    pub fn shown(&self) -> Shown<'_> {
        Shown {
            clocks: self.clocks.part(),
            words: self.words.part(),
            records: self.records.part(),
            marks: self.marks.part(),
        }
    }

    pub fn same_margins(&self, other: &Areas) -> bool {
        self.clocks.same_margins(&other.clocks)
            && self.words.same_margins(&other.words)
            && self.records.same_margins(&other.records)
            && self.marks.same_margins(&other.marks)
    }

    pub fn copy_from(&mut self, other: &Areas) {
        self.clocks.copy_from(&other.clocks);
        self.words.copy_from(&other.words);
        self.records.copy_from(&other.records);
        self.marks.copy_from(&other.marks);
    }

    // Shorthands for making and damaging states.

    pub fn mark(&mut self, at: usize) -> &mut u8 {
        &mut self.marks.part_mut()[at]
    }

    /// The entry of a row of the clocks for a processor.
    pub fn entry(&mut self, row: usize, processor: usize) -> &mut u8 {
        &mut self.clocks.part_mut()[8 * row + processor - 1]
    }

    /// The bytes of a record's slot.
    pub fn slot(&mut self, slot: usize) -> &mut [u8] {
        &mut self.records.part_mut()[SLOT * slot..SLOT * (slot + 1)]
    }
}
