//! Random steps: mostly ones that fit the state, some with any fields.

use crate::answers::{ACQUIRE, ARRIVE, DEQUEUE, ENQUEUE, READ, RELEASE, WANT, WRITE};
use crate::answers::{TALLY_ADD, TALLY_READ};
use crate::areas::*;
use crate::library::Step;
use crate::random::Random;
use crate::state::State;

/// How often of 100 each kind comes in a run where no tally and no job is used:
/// read, write, lock, arrive; the rest wants collection. And how many of 100 steps
/// on the queue are enqueues.
#[derive(Clone, Copy)]
pub struct Habits([usize; 4], usize);

/// Runs that fill the records and the queue, mixed runs, runs of many rounds.
const HABITS: [Habits; 4] = [
    Habits([15, 45, 40, 0], 75),
    Habits([30, 35, 32, 2], 50),
    Habits([25, 35, 30, 8], 60),
    Habits([30, 30, 10, 25], 45),
];

pub fn any_habits(random: &mut Random) -> Habits {
    random.pick(&HABITS)
}

/// A step for a state of the right sizes, whatever is in it.
pub fn any_step(random: &mut Random, s: State, habits: Habits) -> Step {
    if random.percent(8) {
        return wild_step(random, s);
    }
    if random.percent(12) {
        return use_tally(random, s);
    }
    let Habits([read, write, lock, arrive], enqueues) = habits;
    if random.percent(12) {
        return use_queue(random, s, enqueues);
    }
    let turn = random.below(100);
    if turn < read {
        use_word(random, s, READ)
    } else if turn < read + write {
        use_word(random, s, WRITE)
    } else if turn < read + write + lock {
        use_lock(random, s)
    } else if turn < read + write + lock + arrive {
        any_arrival(random, s)
    } else {
        step(WANT, any_processor(random, s), 0, 0)
    }
}

fn step(kind: u32, processor: usize, object: usize, value: u32) -> Step {
    let (processor, object) = (processor as u32, object as u32);
    Step {
        kind,
        processor,
        object,
        value,
    }
}

/// A present processor, most often one that may act.
fn any_processor(random: &mut Random, s: State) -> usize {
    let mut p = 1;
    for _ in 0..4 {
        p = random.within(1, s.processors().clamp(1, PROCESSORS));
        if s.acts(p) {
            break;
        }
    }
    p
}

/// A word, often one of the first four on its page. Some stores are of what
/// the copy has.
fn use_word(random: &mut Random, s: State, kind: u32) -> Step {
    let page = random.below(s.pages().clamp(1, PAGES));
    let few = if random.percent(60) { 4 } else { PAGE_WORDS };
    let at = random.below(few);
    let p = any_processor(random, s);
    let value = match kind {
        WRITE if random.percent(20) => random.below(3) as u32,
        WRITE if random.percent(10) => s.copy(p, page)[at],
        WRITE => random.word(),
        _ => 0,
    };
    step(kind, p, PAGE_WORDS * page + at, value)
}

/// An add to a tally, often of little or of so much that the total wraps, or a
/// read of one. Seldom the tally is just not there, or a read has a value.
fn use_tally(random: &mut Random, s: State) -> Step {
    let p = any_processor(random, s);
    let tally = match random.below(20) {
        0 => TALLIES,
        1..=3 => TALLIES - 1,
        4..=6 => 0,
        _ => random.below(TALLIES),
    };
    if random.percent(40) {
        return step(TALLY_READ, p, tally, random.percent(3).into());
    }
    let value = match random.below(4) {
        0 => random.word(),
        1 => u32::MAX - random.below(3) as u32,
        _ => random.below(3) as u32,
    };
    step(TALLY_ADD, p, tally, value)
}

/// An enqueue of any value or a dequeue. Seldom there is an object, or a dequeue
/// has a value.
fn use_queue(random: &mut Random, s: State, enqueues: usize) -> Step {
    let p = any_processor(random, s);
    let object = match random.below(40) {
        0 => random.pick(&[1, JOBS - 1, JOBS, 256, 65536]),
        _ => 0,
    };
    if !random.percent(enqueues) {
        return step(DEQUEUE, p, object, random.percent(3).into());
    }
    let value = match random.below(4) {
        0 => 0,
        1 => u32::MAX - random.below(3) as u32,
        _ => random.word(),
    };
    step(ENQUEUE, p, object, value)
}

/// Mostly a free lock is taken, and one that is held is asked for or freed,
/// in such a way that nobody hangs.
fn use_lock(random: &mut Random, s: State) -> Step {
    let lock = random.below(s.locks().clamp(1, LOCKS));
    let p = any_processor(random, s);
    match (keeper(s, lock), random.below(100)) {
        (_, 0) => step(ACQUIRE, p, lock, 0),
        (_, 1..=4) => step(RELEASE, p, lock, 0),
        (None, _) => step(ACQUIRE, p, lock, 0),
        (Some((keeper, held)), 5..=7) => step(ACQUIRE, keeper, held, 0),
        (Some((keeper, _)), 8..=50) if keeper != p && s.acts(keeper) => step(ACQUIRE, p, lock, 0),
        (Some((keeper, held)), _) => step(RELEASE, keeper, held, 0),
    }
}

/// On whom a lock depends, and by which lock: its holder, or whom that one
/// waits for, and so on. Where processors wait in a ring, one of them.
fn keeper(s: State, mut lock: usize) -> Option<(usize, usize)> {
    let mut found = None;
    for _ in 0..PROCESSORS {
        let holder = s.holder(lock);
        if !(1..=PROCESSORS).contains(&holder) {
            break;
        }
        found = Some((holder, lock));
        match s.awaited(holder) {
            Some(next) if next < LOCKS => lock = next,
            _ => break,
        }
    }
    found
}

/// An arrival, mostly after the processor's locks are freed.
fn any_arrival(random: &mut Random, s: State) -> Step {
    let p = any_processor(random, s);
    let held = (0..LOCKS).find(|lock| s.holder(*lock) == p);
    match held {
        Some(lock) if random.percent(90) => step(RELEASE, p, lock, 0),
        _ => step(ARRIVE, p, 0, 0),
    }
}

/// Fields at the edges of their ranges, or anywhere.
fn wild_step(random: &mut Random, s: State) -> Step {
    let (processors, locks) = (s.processors() as u32, s.locks() as u32);
    let words = 32 * s.pages() as u32;
    let edges = [
        0,
        1,
        processors,
        processors + 1,
        locks.saturating_sub(1),
        locks,
        words.saturating_sub(1),
        words,
        15,
        16,
        17,
        255,
        256,
        257,
        65535,
        65536,
        65537,
        u32::MAX,
    ];
    let mut field = |most: usize| match random.below(10) {
        0 => random.word(),
        1..=3 => random.pick(&edges),
        _ => random.below(most) as u32,
    };
    Step {
        kind: field(14),
        processor: field(10),
        object: field(20),
        value: field(2),
    }
}
