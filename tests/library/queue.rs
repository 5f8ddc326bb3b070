//! The queue through the library: the exact bytes of its places, of the oldest place and of the number of jobs after enqueues, dequeues, rounds
//! and collections, that no other byte is written, and what an opening and damage make of that part.

use crate::damage::{entry, job_row, job_word, FIRST_JOB, JOBS};
use crate::library::{in_order, open, step, Answer, Areas, Step, DONE, UNANSWERED};
use crate::library::{CLOCKS, MARKS, WORDS};
use crate::steps::refused_as;
use crate::Tally;

const PLACES: usize = 32;

/// The part of the areas that is the queue's: a value and a clock for each place, the oldest job's place, how many jobs wait.
#[derive(Clone, Debug, PartialEq)]
struct Queue {
    values: [u32; PLACES],
    clocks: [[u8; 8]; PLACES],
    first: u8,
    jobs: u8,
}

const EMPTY: Queue = Queue {
    values: [0; PLACES],
    clocks: [[0; 8]; PLACES],
    first: 0,
    jobs: 0,
};

impl Queue {
    fn of(areas: &Areas) -> Queue {
        let clock = |place| {
            let row = entry(job_row(place), 1);
            areas.clocks[row..row + 8].try_into().unwrap_or_default()
        };
        Queue {
            values: std::array::from_fn(|place| areas.words[job_word(place)]),
            clocks: std::array::from_fn(clock),
            first: areas.marks[FIRST_JOB],
            jobs: areas.marks[JOBS],
        }
    }

    /// The areas with this as their queue.
    fn within(&self, areas: &Areas) -> Areas {
        let mut areas = areas.clone();
        for place in 0..PLACES {
            let row = entry(job_row(place), 1);
            areas.clocks[row..row + 8].copy_from_slice(&self.clocks[place]);
            areas.words[job_word(place)] = self.values[place];
        }
        (areas.marks[FIRST_JOB], areas.marks[JOBS]) = (self.first, self.jobs);
        areas
    }

    /// A job goes to the place behind the youngest one.
    fn add(&mut self, value: u32, clock: [u8; 8]) {
        let place = (usize::from(self.first) + usize::from(self.jobs)) % PLACES;
        (self.values[place], self.clocks[place]) = (value, clock);
        self.jobs += 1;
    }

    /// The oldest job goes; what is in its place stays.
    fn remove(&mut self) {
        self.first = (self.first + 1) % PLACES as u8;
        self.jobs -= 1;
    }
}

pub fn check(tally: &mut Tally, reached: &Areas) {
    tally.check(
        "queue: the last places",
        entry(job_row(31), 8) == CLOCKS - 1 && job_word(31) == WORDS - 1 && JOBS == MARKS - 1,
    );
    one_job(tally);
    around_the_ring(tally);
    rounds(tally);
    on_the_reached_state(tally, reached);
    openings(tally, reached);
    each_byte(tally, reached);
}

fn opened(tally: &mut Tally, counts: [u8; 3]) -> Areas {
    let mut areas = Areas::garbage(8);
    let [processors, pages, locks] = counts;
    let opened = open(&[0, processors, pages, locks, 0, 0, 0, 0], &mut areas);
    tally.check(
        &format!("queue: opened {counts:?}, no jobs"),
        opened == 0 && Queue::of(&areas) == EMPTY,
    );
    areas
}

/// A step is accepted, answers this, and leaves this queue.
fn taken(tally: &mut Tally, areas: &mut Areas, fields: Step, expected: Answer, due: &Queue) {
    let mut answer = UNANSWERED;
    let refusal = step(fields, &mut answer, areas);
    tally.check(
        &format!("queue: step {fields:?}"),
        refusal == 0 && answer == expected && in_order(areas),
    );
    tally.check(
        &format!("queue: step {fields:?}: its part of the areas"),
        Queue::of(areas) == *due,
    );
}

fn clock(areas: &Areas, row: usize) -> &[u8] {
    &areas.clocks[entry(row, 1)..entry(row, 1) + 8]
}

/// The job has the clock after the closing; the dequeue learns it, and leaves value and clock in the place. Where nothing is dirty no other
/// byte is written.
fn one_job(tally: &mut Tally) {
    let mut areas = opened(tally, [3, 1, 1]);
    let mut queue = EMPTY;
    taken(tally, &mut areas, (2, 1, 0, 5), DONE, &queue);
    let known = [1, 0, 0, 0, 0, 0, 0, 0];
    queue.add(77, known);
    taken(tally, &mut areas, (10, 1, 0, 77), DONE, &queue);
    let before = areas.clone();
    queue.remove();
    taken(tally, &mut areas, (11, 2, 0, 0), [0, 77, 0, 0], &queue);
    tally.check("queue: processor 2 has learnt", clock(&areas, 2) == known);
    let mut due = queue.within(&before);
    due.clocks[entry(2, 1)] = 1;
    tally.check("queue: a dequeue writes nothing else", areas == due);
    queue.add(u32::MAX, known);
    taken(tally, &mut areas, (10, 2, 0, u32::MAX), DONE, &queue);
    tally.check(
        "queue: an enqueue writes nothing else",
        areas == queue.within(&due),
    );
    taken(tally, &mut areas, (1, 2, 0, 0), [0, 5, 1, 1], &queue);
    taken(tally, &mut areas, (1, 3, 0, 0), DONE, &queue);
    queue.remove();
    taken(
        tally,
        &mut areas,
        (11, 1, 0, 0),
        [0, u32::MAX, 0, 0],
        &queue,
    );
    let empty = areas.clone();
    tally.check(
        "queue: no job waits: 20, untouched",
        refused_as(20, (11, 3, 0, 0), &mut areas) && areas == empty,
    );
}

/// Every place is used, and used again from the front on; with 32 jobs waiting an enqueue is refused and leaves every byte.
fn around_the_ring(tally: &mut Tally) {
    let mut areas = opened(tally, [2, 1, 1]);
    let mut queue = EMPTY;
    for value in 100..132 {
        queue.add(value, [0; 8]);
        taken(tally, &mut areas, (10, 1, 0, value), DONE, &queue);
    }
    full(tally, &areas);
    for value in 100..140 {
        queue.remove();
        taken(tally, &mut areas, (11, 2, 0, 0), [0, value, 0, 0], &queue);
        queue.add(value + 32, [0; 8]);
        taken(tally, &mut areas, (10, 2, 0, value + 32), DONE, &queue);
    }
    full(tally, &areas);
    for value in 140..172 {
        queue.remove();
        taken(tally, &mut areas, (11, 1, 0, 0), [0, value, 0, 0], &queue);
    }
    tally.check(
        "queue: empty at place 8",
        queue.first == 8 && queue.jobs == 0,
    );
}

/// 32 jobs wait: 19 for either processor, a dirty page stays dirty.
fn full(tally: &mut Tally, full: &Areas) {
    let mut dirty = full.clone();
    let refusal = step((2, 1, 0, 9), &mut { UNANSWERED }, &mut dirty);
    tally.check("queue: a store with the queue full", refusal == 0);
    for before in [full, &dirty] {
        for processor in [1, 2] {
            let mut areas = before.clone();
            tally.check(
                "queue: 32 jobs wait: 19, untouched",
                refused_as(19, (10, processor, 0, 1), &mut areas) && areas == *before,
            );
        }
    }
}

/// A round leaves the queue as it is; one that collects sets the clocks of all places to zeros and leaves values and jobs.
fn rounds(tally: &mut Tally) {
    let mut areas = opened(tally, [2, 1, 1]);
    let mut queue = EMPTY;
    for (word, value) in (0..5).zip(1..) {
        taken(tally, &mut areas, (2, 1, word, value), DONE, &queue);
        queue.add(value, [value as u8, 0, 0, 0, 0, 0, 0, 0]);
        taken(tally, &mut areas, (10, 1, 0, value), DONE, &queue);
    }
    queue.remove();
    taken(tally, &mut areas, (11, 1, 0, 0), [0, 1, 0, 0], &queue);
    taken(tally, &mut areas, (5, 1, 0, 0), DONE, &queue);
    taken(tally, &mut areas, (5, 2, 0, 0), DONE, &queue);
    taken(tally, &mut areas, (6, 2, 0, 0), DONE, &queue);
    taken(tally, &mut areas, (5, 2, 0, 0), DONE, &queue);
    queue.clocks = [[0; 8]; PLACES];
    taken(tally, &mut areas, (5, 1, 0, 0), [0, 0, 5, 5], &queue);
    queue.remove();
    taken(tally, &mut areas, (11, 2, 0, 0), [0, 2, 0, 0], &queue);
    tally.check(
        "queue: a job tells nothing then",
        clock(&areas, 2) == [0; 8],
    );
}

/// In the reached state processor 1 may act, 2 holds a lock, knows processor 1's interval and has a dirty page.
fn on_the_reached_state(tally: &mut Tally, reached: &Areas) {
    let mut areas = reached.clone();
    let mut queue = EMPTY;
    queue.add(6, [1, 1, 0, 0, 0, 0, 0, 0]);
    taken(tally, &mut areas, (10, 2, 0, 6), DONE, &queue);
    tally.check(
        "queue: processor 1 is told nothing",
        clock(&areas, 1)[1] == 0,
    );
    queue.remove();
    taken(tally, &mut areas, (11, 1, 0, 0), [0, 6, 0, 0], &queue);
    tally.check("queue: then it is told", clock(&areas, 1)[..2] == [1, 1]);
    taken(tally, &mut areas, (1, 1, 1, 0), [0, 9, 1, 1], &queue);
}

/// An accepted opening empties the queue, a refused one leaves it; areas of the sizes without a queue are refused.
fn openings(tally: &mut Tally, reached: &Areas) {
    let full = Queue {
        values: [u32::MAX; PLACES],
        clocks: [[255; 8]; PLACES],
        first: 255,
        jobs: 255,
    };
    for (name, opening, refusal, due) in [
        ("nine processors", [0, 9, 1, 1, 0, 0, 0, 0], 2, &full),
        ("a step's kind", [10, 1, 1, 1, 0, 0, 0, 0], 2, &full),
        ("an opening", [0, 3, 1, 1, 0, 0, 0, 0], 0, &EMPTY),
    ] {
        let mut areas = full.within(reached);
        let answered = open(&opening, &mut areas);
        tally.check(
            &format!("queue: {name}: {refusal}"),
            answered == refusal && Queue::of(&areas) == *due,
        );
    }
    let mut short = reached.clone();
    short.clocks.truncate(entry(job_row(0), 1));
    short.words.truncate(job_word(0));
    short.marks.truncate(FIRST_JOB);
    let before = short.clone();
    let refusal = open(&[0, 2, 1, 1, 0, 0, 0, 0], &mut short);
    tally.check(
        "queue: areas without it: 1, untouched",
        refusal == 1 && short == before && !in_order(&short),
    );
}

/// Each place, one after the other: any value is in order, a clock's entry exactly up to that processor's own entry, in free places too; the
/// oldest place up to 31, as many as 32 jobs.
fn each_byte(tally: &mut Tally, reached: &Areas) {
    let mut own = [0; 8];
    (1..=8).for_each(|q| own[q - 1] = reached.clocks[entry(q, q)]);
    let (mut values, mut clocks) = (true, true);
    for place in 0..PLACES {
        let mut areas = reached.clone();
        areas.words[job_word(place)] = u32::MAX;
        values &= in_order(&areas);
        for q in 1..=8 {
            for byte in [0, 1, 2, 63, 64, 255] {
                let mut areas = reached.clone();
                areas.clocks[entry(job_row(place), q)] = byte;
                clocks &= in_order(&areas) == (byte <= own[q - 1]);
            }
        }
    }
    tally.check("queue: any values are in order", values);
    tally.check("queue: clocks of all places keep the bound", clocks);
    let (mut firsts, mut jobs) = (true, true);
    for byte in 0..=255 {
        let mut areas = reached.clone();
        areas.marks[FIRST_JOB] = byte;
        firsts &= in_order(&areas) == (byte < 32);
        areas.marks[FIRST_JOB] = 31;
        areas.marks[JOBS] = byte;
        jobs &= in_order(&areas) == (byte <= 32);
    }
    tally.check("queue: the oldest place is one of the 32", firsts);
    tally.check("queue: at most 32 jobs", jobs);
}
