//! The engine's areas, read by name, against the second model and against what
//! the explanation has kept along the way: a wrong place is found.

use super::corpus::{self, Tried};
use crate::clock::{IntervalId, LockId, PageId, ProcId, TallyId, VectorClock};
use crate::model::Model;
use crate::stepfile::run_watched;
use crate::steps::areas::Areas;
use crate::steps::ledger::Ledger;
use crate::steps::progress::Progress;
use crate::steps::proved;
use crate::steps::state;
use crate::steps::walk::Walk;

/// Files that were opened, each with the number of a record to look behind: the
/// last one, or one in the middle.
fn looked_at() -> Vec<(&'static Tried, usize)> {
    let opened = corpus::short(8001).filter(|tried| tried.run.is_opened());
    let whole = |tried: &Tried| (tried.file.len() / 8).min(tried.run.replies.len()) - 1;
    let pick = |(nth, tried): (usize, &'static Tried)| match nth % 2 {
        0 => (tried, whole(tried)),
        _ => (tried, whole(tried) / 2),
    };
    opened.enumerate().map(pick).collect()
}

fn areas_after(tried: &Tried, number: usize) -> Areas {
    let bytes = proved::areas(&corpus::home(), &tried.file[..8 * number + 8]);
    Areas::from_bytes(&bytes.expect("areas")).expect("areas of the right sizes")
}

fn model_after(tried: &Tried, number: usize) -> Model {
    let mut kept = None;
    run_watched(&tried.file[..8 * number + 8], None, &mut |model, at| {
        if at == number {
            kept = Some(model.clone());
        }
    });
    kept.expect("a model")
}

fn ledger_after(tried: &Tried, number: usize) -> Ledger {
    let mut walk = Walk::new(&tried.file, &tried.run, &mut Progress::new());
    walk.by_ref().take(number + 1).for_each(drop);
    walk.ledger.expect("an opened mainframe")
}

fn entries(clock: &VectorClock, cards: u8) -> Vec<u8> {
    (1..=cards)
        .map(|card| clock.entry(ProcId(card)) as u8)
        .collect()
}

#[test]
fn areas_are_the_models() {
    let all = looked_at();
    assert!(all.len() > 2000);
    corpus::each(&all, |(tried, number)| {
        let (areas, model) = (areas_after(tried, *number), model_after(tried, *number));
        let name = format!("{} after {number}", tried.name);
        assert_eq!(usize::from(areas.cards()), model.processors.len(), "{name}");
        assert_eq!(usize::from(areas.locks()), model.locks.len(), "{name}");
        cards_agree(&name, &areas, &model);
        locks_agree(&name, &areas, &model);
        records_agree(&name, &areas, &model);
        tallies_agree(&name, &areas, &model);
        jobs_agree(&name, &areas, &model);
        assert_eq!(areas.is_wanted(), model.barrier.wanted, "{name}");
        assert_eq!(
            areas.barrier_clock(),
            entries(&model.barrier.clock, areas.cards()),
            "{name}"
        );
    });
}

fn cards_agree(name: &str, areas: &Areas, model: &Model) {
    let cards = areas.cards();
    for (ProcId(card), processor) in &model.processors {
        assert_eq!(
            areas.card_clock(*card),
            entries(&processor.clock, cards),
            "{name}"
        );
        assert_eq!(
            areas.has_arrived(*card),
            model.has_arrived(ProcId(*card)),
            "{name}"
        );
        let awaited = model
            .awaited_by(ProcId(*card))
            .map(|LockId(lock)| lock as u8);
        assert_eq!(areas.awaited(*card), awaited, "{name}");
        assert_eq!(usize::from(areas.pages()), processor.pages.len(), "{name}");
        for (PageId(page), copy) in &processor.pages {
            let page = *page as u8;
            assert_eq!(
                areas.applied_clock(*card, page),
                entries(&copy.applied, cards),
                "{name}"
            );
            assert_eq!(areas.is_dirty(*card, page), copy.twin.is_some(), "{name}");
        }
    }
}

fn locks_agree(name: &str, areas: &Areas, model: &Model) {
    for (LockId(number), lock) in &model.locks {
        let number = *number as u8;
        assert_eq!(
            areas.holder(number),
            lock.holder.map(|ProcId(card)| card),
            "{name}"
        );
        let line: Vec<u8> = lock.line.iter().map(|ProcId(card)| *card).collect();
        assert_eq!(areas.line(number), line, "{name}");
        assert_eq!(
            areas.lock_clock(number),
            entries(&lock.clock, areas.cards()),
            "{name}"
        );
    }
}

fn records_agree(name: &str, areas: &Areas, model: &Model) {
    let records = areas.records();
    assert_eq!(records.len(), model.records.len(), "{name}");
    for (mine, theirs) in records.iter().zip(&model.records) {
        let (ProcId(card), IntervalId(interval), PageId(page)) =
            (theirs.card, theirs.interval, theirs.page);
        assert_eq!(
            (mine.card, mine.interval as u32, mine.page as u16),
            (card, interval, page),
            "{name}"
        );
        let sets: Vec<(u8, u32)> = theirs
            .diff
            .0
            .iter()
            .map(|(at, word)| (*at as u8, *word))
            .collect();
        assert_eq!(mine.sets, sets, "{name}");
        let kept = entries(
            &model.intervals[&(theirs.card, theirs.interval)],
            areas.cards(),
        );
        assert_eq!(
            areas.interval_clock(mine.card, mine.interval),
            kept,
            "{name}"
        );
    }
}

fn tallies_agree(name: &str, areas: &Areas, model: &Model) {
    for (TallyId(number), tally) in &model.tallies {
        let number = *number as u8;
        assert_eq!(areas.posted(number), tally.posted, "{name}");
        for (ProcId(card), since) in &tally.since {
            assert_eq!(areas.added(number, *card), *since, "{name}");
        }
    }
}

fn jobs_agree(name: &str, areas: &Areas, model: &Model) {
    let mine = areas.jobs();
    assert_eq!(mine.len(), model.queue.jobs.len(), "{name}");
    for (mine, theirs) in mine.iter().zip(&model.queue.jobs) {
        assert_eq!(mine.value, theirs.value, "{name}");
        assert_eq!(mine.clock, entries(&theirs.clock, areas.cards()), "{name}");
    }
}

/// What the explanation says of holders, waiters, jobs and space is what the engine
/// has.
#[test]
fn ledgers_are_the_engines() {
    corpus::each(&looked_at(), |(tried, number)| {
        let (areas, ledger) = (areas_after(tried, *number), ledger_after(tried, *number));
        let name = format!("{} after {number}", tried.name);
        for (number, lock) in ledger.locks.iter().enumerate() {
            let number = number as u8;
            assert_eq!(
                lock.holder.map(|turn| turn.card),
                areas.holder(number),
                "{name}"
            );
            let line: Vec<u8> = lock.line.iter().map(|turn| turn.card).collect();
            assert_eq!(line, areas.line(number), "{name}");
        }
        for card in 1..=ledger.cards {
            let index = usize::from(card);
            assert_eq!(
                ledger.arrived[index].is_some(),
                areas.has_arrived(card),
                "{name}"
            );
            let own = areas.card_clock(card)[index - 1];
            assert_eq!(ledger.intervals[index], usize::from(own), "{name}");
            for page in 0..ledger.pages {
                let dirty = ledger.dirty.contains(&(card, page.into()));
                assert_eq!(dirty, areas.is_dirty(card, page), "{name}");
            }
            let of_card = areas
                .records()
                .iter()
                .filter(|record| record.card == card)
                .count();
            assert_eq!(
                ledger.records.get(&card).copied().unwrap_or(0),
                of_card,
                "{name}"
            );
        }
        assert_eq!(ledger.wanted, areas.is_wanted(), "{name}");
        let values = areas.jobs().into_iter().map(|job| job.value);
        assert!(values.eq(ledger.jobs.iter().map(|job| job.value)), "{name}");
    });
}

/// Where the clocks, words, records and marks begin and end in the bytes of the
/// areas.
const WORDS_AT: usize = 5000;
const RECORDS_AT: usize = WORDS_AT + 4 * 4272;
const MARKS_AT: usize = RECORDS_AT + 17280;
const END: usize = MARKS_AT + 112;

/// Two cards, one page, one lock, and three jobs from the last place of the ring
/// on, each with its value and its clock.
#[test]
fn jobs_lie_in_a_ring() {
    let mut bytes = vec![0; END];
    bytes[MARKS_AT..MARKS_AT + 3].copy_from_slice(&[2, 1, 1]);
    bytes[MARKS_AT + 110..].copy_from_slice(&[31, 3]);
    for (nth, place) in [31, 0, 1].into_iter().enumerate() {
        bytes[WORDS_AT + 4 * (4240 + place)] = 70 + nth as u8;
        bytes[8 * (593 + place) + 1] = nth as u8;
    }
    // What is left in the place of a job that was removed.
    bytes[WORDS_AT + 4 * (4240 + 30)] = 99;
    let areas = Areas::from_bytes(&bytes).expect("areas of the right sizes");
    let jobs: Vec<(u32, &[u8])> = areas
        .jobs()
        .into_iter()
        .map(|job| (job.value, job.clock))
        .collect();
    assert_eq!(jobs, [(70, &[0, 0][..]), (71, &[0, 1]), (72, &[0, 2])]);
    let text = state::text(&areas);
    let due = "job, the oldest first   value   its clock
job 1                   70      0, 0
job 2                   71      0, 1
job 3                   72      0, 2
";
    assert!(text.ends_with(due), "{text}");
    bytes[MARKS_AT + 111] = 0;
    let areas = Areas::from_bytes(&bytes).expect("areas of the right sizes");
    assert!(state::text(&areas).ends_with("\nno jobs wait\n"));
    assert!(Areas::from_bytes(&bytes[1..]).is_err());
}
