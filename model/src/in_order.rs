//! "A state is in order when": document 01's list, and what requests L1, L4, L7
//! and L9 of document 02 add of lines, tallies, holders and jobs, asked of the model's
//! state as a check on the model itself. What the model's types exclude (sizes, absent
//! cards and pages) is not asked.

use crate::clock::{IntervalId, ProcId, VectorClock};
use crate::model::{Lock, Model, Processor, Record, Tally};
use crate::model::{MOST_INTERVALS, MOST_RECORDS, TALLIES};
use crate::queue::MOST_JOBS;

/// The first clause that does not hold, if any.
pub fn broken_clause(model: &Model) -> Option<&'static str> {
    let clauses = [
        (counts_fit(model), "counts of cards, pages and locks"),
        (intervals_made(model), "clock kept above the own entry"),
        (entries_known(model), "no entry exceeds the own entry"),
        (own_entries_fit(model), "own entry at most 63"),
        (applied_below(model), "no applied clock exceeds the card's"),
        (records_fit(model), "each record"),
        (records_differ(model), "no other record the same"),
        (room_kept(model), "records plus dirty pages"),
        (dirty_have_room(model), "dirty page, own entry at most 62"),
        (holders_present(model), "holders are present cards or 0"),
        (round_open(model), "not all cards have arrived"),
        (waiters_present(model), "only present cards in lines"),
        (waiters_differ(model), "each card at most once in all"),
        (lines_held(model), "no line at a free lock"),
        (waiters_not_arrived(model), "no waiter that has arrived"),
        (waiters_not_holders(model), "no waiter that holds the lock"),
        (tallies_fit(model), "16 tallies, adds of present cards"),
        (holders_not_arrived(model), "no arrived card holds a lock"),
        (jobs_fit(model), "at most 32 jobs"),
    ];
    let broken = clauses.iter().find(|(holds, _)| !holds);
    broken.map(|(_, clause)| *clause)
}

fn counts_fit(model: &Model) -> bool {
    let same_pages = |p: &Processor| (1..=8).contains(&p.pages.len());
    (1..=8).contains(&model.processors.len())
        && model.processors.values().all(same_pages)
        && (1..=16).contains(&model.locks.len())
}

fn intervals_made(model: &Model) -> bool {
    let made = |(card, interval): &(ProcId, IntervalId)| {
        (1..=model.own_entry(*card)).contains(&interval.0)
    };
    model.intervals.keys().all(made)
}

fn all_clocks(model: &Model) -> Vec<&VectorClock> {
    let mut clocks = vec![&model.barrier.clock];
    clocks.extend(model.intervals.values());
    clocks.extend(model.locks.values().map(|lock| &lock.clock));
    clocks.extend(model.queue.jobs.iter().map(|job| &job.clock));
    for processor in model.processors.values() {
        clocks.push(&processor.clock);
        clocks.extend(processor.pages.values().map(|page| &page.applied));
    }
    clocks
}

/// "no clock entry exceeds that card's own entry in its own clock"; entries
/// for absent cards are 0. L9: the jobs' "clocks keep the bound of every clock".
fn entries_known(model: &Model) -> bool {
    let own = |card: ProcId| match model.processors.get(&card) {
        Some(processor) => processor.clock.entry(card),
        None => 0,
    };
    let known = |clock: &&VectorClock| clock.entries().all(|(card, n)| n <= own(card));
    all_clocks(model).iter().all(known)
}

fn own_entries_fit(model: &Model) -> bool {
    let fits = |card: &ProcId| model.own_entry(*card) <= MOST_INTERVALS;
    model.processors.keys().all(fits)
}

fn applied_below(model: &Model) -> bool {
    let below = |p: &Processor| p.pages.values().all(|page| p.clock.covers(&page.applied));
    model.processors.values().all(below)
}

fn records_fit(model: &Model) -> bool {
    let fits = |record: &Record| {
        let present = model.processors.get(&record.card);
        let present = present.is_some_and(|p| p.pages.contains_key(&record.page));
        present
            && (1..=model.own_entry(record.card)).contains(&record.interval.0)
            && legal_change(record)
    };
    model.records.iter().all(fits)
}

/// The change as bytes is legal, reads back and is at most 131 bytes.
fn legal_change(record: &Record) -> bool {
    let bytes = record.diff.to_bytes();
    bytes.len() <= 131 && crate::diff::read(&bytes).as_ref() == Ok(&record.diff)
}

fn records_differ(model: &Model) -> bool {
    let name = |r: &Record| (r.card, r.interval, r.page);
    let mut names: Vec<_> = model.records.iter().map(name).collect();
    names.sort();
    names.windows(2).all(|two| two[0] != two[1])
}

fn room_kept(model: &Model) -> bool {
    model.records_and_dirty() <= MOST_RECORDS
}

fn dirty_have_room(model: &Model) -> bool {
    let dirty = |p: &Processor| p.pages.values().any(|page| page.twin.is_some());
    let fine =
        |(card, p): (&ProcId, &Processor)| !dirty(p) || p.clock.entry(*card) < MOST_INTERVALS;
    model.processors.iter().all(fine)
}

fn holders_present(model: &Model) -> bool {
    let mut holders = model.locks.values().filter_map(|lock| lock.holder);
    holders.all(|card| model.processors.contains_key(&card))
}

/// L7: "A state that has an arrived card holding a lock is no longer in order."
fn holders_not_arrived(model: &Model) -> bool {
    let mut holders = model.locks.values().filter_map(|lock| lock.holder);
    !holders.any(|card| model.barrier.arrived.get(&card) == Some(&true))
}

fn round_open(model: &Model) -> bool {
    model.barrier.arrived.values().any(|mark| !mark)
}

fn waiters(model: &Model) -> Vec<ProcId> {
    let lines = model.locks.values().map(|lock| &lock.line);
    lines.flatten().copied().collect()
}

fn waiters_present(model: &Model) -> bool {
    let present = |card: &ProcId| model.processors.contains_key(card);
    waiters(model).iter().all(present)
}

fn waiters_differ(model: &Model) -> bool {
    let mut waiters = waiters(model);
    waiters.sort();
    waiters.windows(2).all(|two| two[0] != two[1])
}

fn lines_held(model: &Model) -> bool {
    let held = |lock: &Lock| lock.holder.is_some() || lock.line.is_empty();
    model.locks.values().all(held)
}

fn waiters_not_arrived(model: &Model) -> bool {
    let arrived = |card: &ProcId| model.barrier.arrived.get(card) == Some(&true);
    !waiters(model).iter().any(arrived)
}

fn waiters_not_holders(model: &Model) -> bool {
    let fine = |lock: &Lock| lock.line.iter().all(|card| lock.holder != Some(*card));
    model.locks.values().all(fine)
}

/// Each of the 16 tallies has adds of the present cards and of no other.
fn tallies_fit(model: &Model) -> bool {
    let fits = |tally: &Tally| tally.since.keys().eq(model.processors.keys());
    model.tallies.len() == usize::from(TALLIES) && model.tallies.values().all(fits)
}

/// L9: "A state in order has at most 32 jobs".
fn jobs_fit(model: &Model) -> bool {
    model.queue.jobs.len() <= MOST_JOBS
}
