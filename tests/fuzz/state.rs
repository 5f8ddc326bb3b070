//! A state read off the four areas, when these have their lengths. Written
//! from the layout alone.

use crate::areas::*;
use crate::library::Shown;

#[derive(Clone, Copy)]
pub struct State<'a>(pub Shown<'a>);

/// A change record.
#[derive(Clone, Copy)]
pub struct Record<'a> {
    pub processor: usize,
    pub interval: usize,
    pub page: usize,
    /// The stored length of the diff.
    pub length: usize,
    /// The place for the diff, 131 bytes.
    pub place: &'a [u8],
}

impl<'a> State<'a> {
    pub fn processors(self) -> usize {
        self.0.marks[PROCESSORS_AT].into()
    }

    pub fn pages(self) -> usize {
        self.0.marks[PAGES_AT].into()
    }

    pub fn locks(self) -> usize {
        self.0.marks[LOCKS_AT].into()
    }

    pub fn standing(self) -> usize {
        let high = usize::from(self.0.marks[STANDING_HIGH_AT]);
        usize::from(self.0.marks[STANDING_AT]) + 256 * high
    }

    pub fn wish(self) -> bool {
        self.0.marks[WISH_AT] != 0
    }

    pub fn has_processor(self, p: usize) -> bool {
        1 <= p && p <= self.processors()
    }

    pub fn has_page(self, page: usize) -> bool {
        page < self.pages()
    }

    pub fn has_lock(self, lock: usize) -> bool {
        lock < self.locks()
    }

    pub fn arrived(self, p: usize) -> bool {
        self.0.marks[arrived_at(p)] != 0
    }

    pub fn holder(self, lock: usize) -> usize {
        self.0.marks[holder_at(lock)].into()
    }

    /// Whether a processor holds any lock.
    pub fn holds_any(self, p: usize) -> bool {
        (0..LOCKS).any(|lock| self.holder(lock) == p)
    }

    pub fn dirty(self, p: usize, page: usize) -> bool {
        self.0.marks[dirty_at(p, page)] != 0
    }

    /// How many pages are dirty, counted over all processors.
    pub fn dirty_pages(self) -> usize {
        let marks = &self.0.marks[DIRTY];
        marks.iter().filter(|mark| **mark != 0).count()
    }

    /// The lock that a processor waits for, present or not.
    pub fn awaited(self, p: usize) -> Option<usize> {
        usize::from(self.0.marks[awaited_at(p)]).checked_sub(1)
    }

    pub fn turn(self, p: usize) -> usize {
        self.0.marks[turn_at(p)].into()
    }

    /// The present processors that wait for a lock.
    pub fn waiters(self, lock: usize) -> impl Iterator<Item = usize> + 'a {
        let present = 1..=self.processors().min(PROCESSORS);
        present.filter(move |p| self.awaited(*p) == Some(lock))
    }

    /// Whether a processor has not arrived and waits for no lock.
    pub fn acts(self, p: usize) -> bool {
        !self.arrived(p) && self.awaited(p).is_none()
    }

    /// Whether no processor acts: each step is refused for good.
    pub fn hangs(self) -> bool {
        !(1..=self.processors().min(PROCESSORS)).any(|p| self.acts(p))
    }

    pub fn clock(self, row: usize) -> &'a [u8] {
        &self.0.clocks[8 * row..8 * row + 8]
    }

    /// The entry of a row for a processor.
    pub fn entry(self, row: usize, p: usize) -> usize {
        self.clock(row)[p - 1].into()
    }

    /// A processor's own entry in its own clock.
    pub fn own(self, p: usize) -> usize {
        self.entry(processor_row(p), p)
    }

    pub fn copy(self, p: usize, page: usize) -> &'a [u32] {
        &self.0.words[copy_at(p, page)..copy_at(p, page) + PAGE_WORDS]
    }

    pub fn twin(self, p: usize, page: usize) -> &'a [u32] {
        &self.0.words[twin_at(p, page)..twin_at(p, page) + PAGE_WORDS]
    }

    /// The posted total of a tally.
    pub fn posted(self, tally: usize) -> u32 {
        self.0.words[posted_at(tally)]
    }

    /// What a processor has added to a tally since the last completed round.
    pub fn added(self, p: usize, tally: usize) -> u32 {
        self.0.words[added_at(p, tally)]
    }

    /// The place of the oldest job.
    pub fn first(self) -> usize {
        self.0.marks[FIRST_JOB_AT].into()
    }

    /// How many jobs wait.
    pub fn jobs(self) -> usize {
        self.0.marks[JOBS_AT].into()
    }

    /// The value of a place of the queue.
    pub fn job_value(self, place: usize) -> u32 {
        self.0.words[job_at(place)]
    }

    /// The records that stand, as far as there are slots for them.
    pub fn records(self) -> impl Iterator<Item = Record<'a>> {
        let slots = self.0.records.chunks_exact(SLOT);
        slots.take(self.standing()).map(|slot| Record {
            processor: slot[0].into(),
            interval: slot[1].into(),
            page: slot[2].into(),
            length: slot[3].into(),
            place: &slot[4..],
        })
    }
}
