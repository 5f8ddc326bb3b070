//! What a step must leave of the tallies and answer of them, read off the state
//! before it. Written from request L4 of document 02: an add goes to the
//! processor's own adds, a completed round posts those of all, and both wrap;
//! no other step touches them, and adds and reads touch nothing else.

use crate::answers::{TALLY_ADD, TALLY_READ};
use crate::areas::*;
use crate::closing::completes;
use crate::library::Step;
use crate::state::State;

/// "Totals wrap at 4,294,967,296."
fn wrapped(sum: u64) -> u32 {
    (sum % 4_294_967_296) as u32
}

/// "the posted total plus the card's own adds since, wrapped"
pub fn value(was: State, step: Step) -> u32 {
    let (p, tally) = (step.processor as usize, step.object as usize);
    let (posted, added) = (was.posted(tally), was.added(p, tally));
    wrapped(u64::from(posted) + u64::from(added))
}

/// A tally's total with the adds of all the processors there are.
fn total(was: State, tally: usize) -> u64 {
    let adds = (1..=was.processors()).map(|p| u64::from(was.added(p, tally)));
    u64::from(was.posted(tally)) + adds.sum::<u64>()
}

/// How many tallies the step posts something to, and how many of them wrap.
pub fn postings(was: State, step: Step) -> (u64, u64) {
    if !completes(was, step) {
        return (0, 0);
    }
    let totals: Vec<(u64, u64)> = (0..TALLIES)
        .map(|tally| (u64::from(was.posted(tally)), total(was, tally)))
        .filter(|(posted, total)| posted != total)
        .collect();
    let wrap = totals.iter().filter(|(_, total)| *total > u32::MAX.into());
    (totals.len() as u64, wrap.count() as u64)
}

/// The words of the tallies after an accepted step.
fn words_due(was: State, step: Step) -> Vec<u32> {
    let mut words = was.0.words[TALLY_WORDS].to_vec();
    let first = TALLY_WORDS.start;
    let (p, object) = (step.processor as usize, step.object as usize);
    if step.kind == TALLY_ADD {
        let sum = u64::from(was.added(p, object)) + u64::from(step.value);
        words[added_at(p, object) - first] = wrapped(sum);
    }
    if completes(was, step) {
        for tally in 0..TALLIES {
            words[posted_at(tally) - first] = wrapped(total(was, tally));
            (1..=PROCESSORS).for_each(|p| words[added_at(p, tally) - first] = 0);
        }
    }
    words
}

/// What is wrong with the tallies after an accepted step, or with anything else
/// after a step on a tally.
pub fn wrong(was: State, is: State, step: Step) -> Option<&'static str> {
    if is.0.words[TALLY_WORDS] != words_due(was, step) {
        return Some("leaves other tallies");
    }
    let (pages, jobs) = (..TALLY_WORDS.start, TALLY_WORDS.end..);
    let same = was.0.clocks == is.0.clocks
        && was.0.words[pages] == is.0.words[pages]
        && was.0.words[jobs.clone()] == is.0.words[jobs]
        && was.0.records == is.0.records
        && was.0.marks == is.0.marks;
    let on_tally = matches!(step.kind, TALLY_ADD | TALLY_READ);
    (on_tally && !same).then_some("writes more than a tally")
}
