//! What a step on a state in order must be answered and leave, read off the
//! state before: the refusal, who holds and who waits. Written from document
//! 01's table, and from requests L1, L4, L7 and L9 of document 02.

use crate::areas::*;
use crate::library::Step;
use crate::state::State;

pub const READ: u32 = 1;
pub const WRITE: u32 = 2;
pub const ACQUIRE: u32 = 3;
pub const RELEASE: u32 = 4;
pub const ARRIVE: u32 = 5;
pub const WANT: u32 = 6;
pub const TALLY_ADD: u32 = 8;
pub const TALLY_READ: u32 = 9;
pub const ENQUEUE: u32 = 10;
pub const DEQUEUE: u32 = 11;

/// The refusal or 0, "the first that applies ... and only then".
pub fn refusal(s: State, step: Step) -> u8 {
    let (p, object) = (step.processor as usize, step.object as usize);
    if !matches!(step.kind, READ..=WANT | TALLY_ADD..=DEQUEUE) {
        return 3;
    }
    if !s.has_processor(p) {
        return 4;
    }
    let object_fits = match step.kind {
        READ | WRITE => s.has_page(object / PAGE_WORDS),
        ACQUIRE | RELEASE => s.has_lock(object),
        TALLY_ADD | TALLY_READ => object < TALLIES,
        _ => object == 0,
    };
    let has_value = matches!(step.kind, WRITE | TALLY_ADD | ENQUEUE);
    if !object_fits || !has_value && step.value != 0 {
        return 5;
    }
    if s.arrived(p) {
        return 6;
    }
    if s.awaited(p).is_some() {
        return 17;
    }
    match step.kind {
        ARRIVE if s.holds_any(p) => 18,
        ENQUEUE if s.jobs() == JOBS => 19,
        DEQUEUE if s.jobs() == 0 => 20,
        ACQUIRE if s.holder(object) == p => 7,
        RELEASE if s.holder(object) != p => 8,
        WRITE if s.dirty(p, object / PAGE_WORDS) => 0,
        WRITE if s.own(p) == INTERVALS => 9,
        WRITE if s.standing() + s.dirty_pages() == SLOTS => 10,
        _ => 0,
    }
}

/// The marks that say who holds and who waits: holders, locks waited for,
/// turns.
pub fn line_marks(marks: &[u8]) -> Vec<u8> {
    [&marks[HOLDERS], &marks[LINES]].concat()
}

/// Those marks after an accepted step. An asker goes to the line's end; at a
/// release the first of the line becomes the holder and the others move up.
pub fn line_marks_after(s: State, step: Step) -> Vec<u8> {
    let (p, lock) = (step.processor as usize, step.object as usize);
    let mut marks = s.0.marks.to_vec();
    match step.kind {
        ACQUIRE if s.holder(lock) == 0 => marks[holder_at(lock)] = p as u8,
        ACQUIRE => {
            marks[awaited_at(p)] = lock as u8 + 1;
            marks[turn_at(p)] = s.waiters(lock).count() as u8;
        }
        RELEASE => {
            marks[holder_at(lock)] = 0;
            for waiter in s.waiters(lock) {
                match s.turn(waiter).checked_sub(1) {
                    Some(turn) => marks[turn_at(waiter)] = turn as u8,
                    None => {
                        marks[holder_at(lock)] = waiter as u8;
                        marks[awaited_at(waiter)] = 0;
                    }
                }
            }
        }
        _ => {}
    }
    line_marks(&marks)
}
