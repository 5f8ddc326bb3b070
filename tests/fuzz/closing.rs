//! What a closing must leave, read off the states before and after an
//! accepted step. Written from document 01's "Close" and request L2 of
//! document 02: each dirty page of the processor gets a record, which is the
//! byte 0 where no word differs, and any dirty page makes an interval.

use crate::answers::{ACQUIRE, ARRIVE, DEQUEUE, ENQUEUE, RELEASE};
use crate::areas::*;
use crate::library::Step;
use crate::state::State;

/// The pages that the step closes: the processor's dirty ones, upwards.
pub fn closed_pages(was: State, step: Step) -> Vec<usize> {
    match step.kind {
        ACQUIRE | RELEASE | ARRIVE | ENQUEUE | DEQUEUE => {
            let p = step.processor as usize;
            (0..PAGES).filter(|page| was.dirty(p, *page)).collect()
        }
        _ => Vec::new(),
    }
}

/// How many of them have no word that differs.
pub fn equal_pages(was: State, step: Step) -> usize {
    let p = step.processor as usize;
    let pages = closed_pages(was, step).into_iter();
    pages
        .filter(|page| was.copy(p, *page) == was.twin(p, *page))
        .count()
}

/// Whether the step completes a round.
pub fn completes(was: State, step: Step) -> bool {
    let mut others = (1..=was.processors()).filter(|p| *p != step.processor as usize);
    step.kind == ARRIVE && others.all(|p| was.arrived(p))
}

/// Whether the step completes a round with collection wanted.
pub fn collects(was: State, step: Step) -> bool {
    was.wish() && completes(was, step)
}

/// What is wrong with the records, the own entry, the interval's clock or the
/// dirty marks after an accepted step.
pub fn wrong(was: State, is: State, step: Step) -> Option<&'static str> {
    let p = step.processor as usize;
    let pages = closed_pages(was, step);
    if pages.iter().any(|page| is.dirty(p, *page)) {
        return Some("leaves a closed page dirty");
    }
    if collects(was, step) {
        return (is.standing() > 0 || is.own(p) > 0).then_some("leaves what it collects");
    }
    let interval = was.own(p) + usize::from(!pages.is_empty());
    if is.own(p) != interval {
        return Some("another own entry");
    }
    if is.standing() != was.standing() + pages.len() {
        return Some("another number of records");
    }
    if is.0.records != records_due(was, p, interval, &pages) {
        return Some("other bytes of records");
    }
    if !pages.is_empty() && is.clock(kept_row(p, interval)) != clock_due(was, p, interval) {
        return Some("keeps another clock for the interval");
    }
    None
}

/// The records' bytes with one record more for each page, behind those that
/// stand: processor, interval, page, the change's length, the change. All other
/// bytes are kept.
pub fn records_due(was: State, p: usize, interval: usize, pages: &[usize]) -> Vec<u8> {
    let mut records = was.0.records.to_vec();
    for (nth, page) in pages.iter().enumerate() {
        let change = change(was.twin(p, *page), was.copy(p, *page));
        let head = [p, interval, *page, change.len()].map(|number| number as u8);
        let record = [&head, &change[..]].concat();
        let at = SLOT * (was.standing() + nth);
        records[at..at + record.len()].copy_from_slice(&record);
    }
    records
}

/// "the interval keeps the card's clock": as before the step, with the own
/// entry risen.
pub fn clock_due(was: State, p: usize, interval: usize) -> Vec<u8> {
    let mut clock = was.clock(processor_row(p)).to_vec();
    clock[p - 1] = interval as u8;
    clock
}

/// "One byte n ...; n pairs of bytes, offset and length, sorted by offset; then
/// the words of the runs, four bytes each, low byte first. ... runs hold
/// exactly the differing words." No run at all is the byte 0.
fn change(twin: &[u32], copy: &[u32]) -> Vec<u8> {
    let mut runs: Vec<[u8; 2]> = Vec::new();
    let mut words = Vec::new();
    for at in (0..PAGE_WORDS).filter(|at| twin[*at] != copy[*at]) {
        words.extend(copy[at].to_le_bytes());
        match runs.last_mut() {
            Some([start, length]) if usize::from(*start + *length) == at => *length += 1,
            _ => runs.push([at as u8, 1]),
        }
    }
    [&[runs.len() as u8], runs.as_flattened(), &words].concat()
}
