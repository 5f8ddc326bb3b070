//! What a step must fetch, read off the state before it. Written from document
//! 01's "Pending" and "Fetch" and request L5 of document 02: a record each of
//! whose words is set again by later records of the fetch is skipped, one with
//! no words always; the count is of those applied, and the copy is that of
//! applying all. By request L6 the words are all those of the records applied.

use crate::answers::{ARRIVE, READ, WRITE};
use crate::areas::*;
use crate::closing::{clock_due, closed_pages, collects, records_due};
use crate::library::{Shown, Step};
use crate::state::{Record, State};

/// One fetch: whose, of which page, how many records were pending, how many of
/// them are applied, how many words these set, and the copy after it.
pub struct Fetched {
    p: usize,
    page: usize,
    pub pending: usize,
    pub applied: usize,
    pub words: usize,
    copy: Vec<u32>,
}

/// The fetches of an accepted step: one of a read or a write, one of each
/// present processor and page of an arrival that collects.
pub fn fetches(was: State, step: Step) -> Vec<Fetched> {
    let page = step.object as usize / PAGE_WORDS;
    match step.kind {
        READ | WRITE => vec![fetch(was, step.processor as usize, page)],
        ARRIVE if collects(was, step) => collection(was, step),
        _ => Vec::new(),
    }
}

/// The fetches after the closing, when each clock has joined the barrier's.
fn collection(was: State, step: Step) -> Vec<Fetched> {
    let p = step.processor as usize;
    let pages = closed_pages(was, step);
    let interval = was.own(p) + usize::from(!pages.is_empty());
    let closed = clock_due(was, p, interval);
    let joined = |one: &[u8], other: &[u8]| -> Vec<u8> {
        let pairs = one.iter().zip(other);
        pairs.map(|(one, other)| *one.max(other)).collect()
    };
    let barrier = joined(was.clock(BARRIER_ROW), &closed);
    let mut clocks = was.0.clocks.to_vec();
    let mut put = |row: usize, clock: &[u8]| clocks[8 * row..8 * row + 8].copy_from_slice(clock);
    if !pages.is_empty() {
        put(kept_row(p, interval), &closed);
    }
    for q in 1..=was.processors() {
        put(
            processor_row(q),
            &joined(was.clock(processor_row(q)), &barrier),
        );
    }
    let records = records_due(was, p, interval, &pages);
    let mut marks = was.0.marks.to_vec();
    marks[STANDING_AT] += pages.len() as u8;
    let then = State(Shown {
        clocks: &clocks,
        records: &records,
        marks: &marks,
        ..was.0
    });
    let all = (1..=was.processors()).flat_map(|q| (0..was.pages()).map(move |page| (q, page)));
    all.map(|(q, page)| fetch(then, q, page)).collect()
}

fn fetch(s: State, p: usize, page: usize) -> Fetched {
    let pending = pending(s, p, page);
    let mut copy = s.copy(p, page).to_vec();
    let changes: Vec<Change> = pending.iter().map(|record| words(record)).collect();
    changes
        .iter()
        .flatten()
        .for_each(|(at, word)| copy[*at] = *word);
    let applied = applied(&changes);
    Fetched {
        p,
        page,
        pending: pending.len(),
        applied: applied.len(),
        words: applied.iter().map(|change| change.len()).sum(),
        copy,
    }
}

/// "records of g by another card q, with interval above q's entry in the
/// applied clock and not above q's entry in p's clock", by "the smallest sum of
/// its interval's clock (then smaller card, then smaller interval)"
fn pending(s: State, p: usize, page: usize) -> Vec<Record> {
    let (applied, known) = (applied_row(p, page), processor_row(p));
    let is_pending = |r: &Record| {
        r.page == page
            && r.processor != p
            && r.interval > s.entry(applied, r.processor)
            && r.interval <= s.entry(known, r.processor)
    };
    let mut pending: Vec<Record> = s.records().filter(is_pending).collect();
    pending.sort_by_key(|r| {
        let clock = s.clock(kept_row(r.processor, r.interval)).iter();
        let sum: u32 = clock.map(|entry| u32::from(*entry)).sum();
        (sum, r.processor, r.interval)
    });
    pending
}

/// The words of a record's change, with their offsets.
fn words(record: &Record) -> Change {
    let runs = usize::from(record.place[0]);
    let (pairs, words) = record.place[1..record.length].split_at(2 * runs);
    let offsets = pairs.chunks_exact(2).flat_map(|pair| {
        let (start, length) = (usize::from(pair[0]), usize::from(pair[1]));
        start..start + length
    });
    let word = |four: &[u8]| u32::from_le_bytes([four[0], four[1], four[2], four[3]]);
    offsets.zip(words.chunks_exact(4).map(word)).collect()
}

/// A change as its words, with their offsets.
type Change = Vec<(usize, u32)>;

/// The changes with a word that none of the later ones sets.
fn applied(changes: &[Change]) -> Vec<&Change> {
    let is_applied = |nth: &usize| {
        let mut later = [false; PAGE_WORDS];
        let words = changes[nth + 1..].iter().flatten();
        words.for_each(|(at, _)| later[*at] = true);
        changes[*nth].iter().any(|(at, _)| !later[*at])
    };
    let nths = (0..changes.len()).filter(is_applied);
    nths.map(|nth| &changes[nth]).collect()
}

/// The count and the words of an accepted step.
pub fn moved(fetches: &[Fetched]) -> [usize; 2] {
    let sum = |number: fn(&Fetched) -> usize| fetches.iter().map(number).sum();
    [sum(|fetch| fetch.applied), sum(|fetch| fetch.words)]
}

/// What is wrong with copies, twins or applied clocks after an accepted step.
pub fn wrong(was: State, is: State, step: Step, fetches: &[Fetched]) -> Option<&'static str> {
    if is.0.words[..TWINS_AT] != copies_due(was, step, fetches) {
        return Some("leaves other copies");
    }
    // A closing leaves whatever it likes in the twins of clean pages.
    let uses_word = matches!(step.kind, READ | WRITE);
    let twins = TWINS_AT..TALLY_WORDS.start;
    if uses_word && is.0.words[twins] != twins_due(was, step, fetches) {
        return Some("leaves other twins");
    }
    let clocks = match step.kind {
        READ | WRITE => is.0.clocks == clocks_due(was, fetches),
        ARRIVE if collects(was, step) => is.0.clocks.iter().all(|entry| *entry == 0),
        _ => is.0.clocks[APPLIED] == was.0.clocks[APPLIED],
    };
    (!clocks).then_some("leaves other clocks")
}

/// All copies: those fetched, with what a write stores.
fn copies_due(was: State, step: Step, fetches: &[Fetched]) -> Vec<u32> {
    let mut words = was.0.words[..TWINS_AT].to_vec();
    for fetch in fetches {
        let at = copy_at(fetch.p, fetch.page);
        words[at..at + PAGE_WORDS].copy_from_slice(&fetch.copy);
    }
    if step.kind == WRITE {
        let (p, object) = (step.processor as usize, step.object as usize);
        words[copy_at(p, object / PAGE_WORDS) + object % PAGE_WORDS] = step.value;
    }
    words
}

/// "if the page is clean, take the twin", after the fetch; a dirty page's twin
/// is left, as records are applied "to the copy alone".
fn twins_due(was: State, step: Step, fetches: &[Fetched]) -> Vec<u32> {
    let mut words = was.0.words[TWINS_AT..TALLY_WORDS.start].to_vec();
    for fetch in fetches {
        if step.kind == WRITE && !was.dirty(fetch.p, fetch.page) {
            let at = copy_at(fetch.p, fetch.page);
            words[at..at + PAGE_WORDS].copy_from_slice(&fetch.copy);
        }
    }
    words
}

/// "then the applied clock becomes p's clock", though all were skipped.
fn clocks_due(was: State, fetches: &[Fetched]) -> Vec<u8> {
    let mut clocks = was.0.clocks.to_vec();
    for fetch in fetches {
        let at = 8 * applied_row(fetch.p, fetch.page);
        clocks[at..at + 8].copy_from_slice(was.clock(processor_row(fetch.p)));
    }
    clocks
}
