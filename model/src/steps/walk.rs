//! A run, record after record: what each was, what was answered, what it did.

use super::ledger::{Deed, Ledger};
use super::order::Order;
use super::progress::Progress;
use super::proved::{Reply, Run};
use super::writes::{Finding, Writes};
use crate::judge::Accepted;
use crate::model::{Step, READ, WRITE};
use crate::stepfile::record_at;

/// One record with its answer.
pub struct Told {
    pub number: usize,
    pub reply: Reply,
    /// The fields of a whole record behind the opening.
    pub step: Option<Step>,
    /// Its place among the accepted steps, and what it did.
    pub accepted: Option<(usize, Deed)>,
    /// Which of the three an accepted read is.
    pub finding: Option<Finding>,
}

pub struct Walk<'a> {
    pub file: &'a [u8],
    pub run: &'a Run,
    pub order: Order,
    /// After the records told so far; nothing where the opening was refused.
    pub ledger: Option<Ledger>,
    writes: Writes,
    next: usize,
    place: usize,
}

impl<'a> Walk<'a> {
    pub fn new(file: &'a [u8], run: &'a Run, progress: &mut Progress) -> Walk<'a> {
        let opening = record_at(file, 0).filter(|_| run.is_opened());
        let cards = opening.map_or(1, |opening| opening[1].into());
        Walk {
            file,
            run,
            order: Order::of(cards, accepted(file, run), progress),
            ledger: opening.map(Ledger::opened),
            writes: Writes::default(),
            next: 0,
            place: 0,
        }
    }

    /// The bytes of a record, fewer than eight if the file ends within it.
    pub fn bytes(&self, number: usize) -> &'a [u8] {
        let end = self.file.len().min(8 * number + 8);
        self.file.get(8 * number..end).unwrap_or(&[])
    }

    fn take(&mut self, number: usize, step: &Step) -> (usize, Deed, Option<Finding>) {
        let place = self.place;
        self.place += 1;
        let mut finding = None;
        match step.kind {
            READ => finding = Some(self.writes.found_by(&self.order, place)),
            WRITE => self.writes.add(&self.order, place),
            _ => {}
        }
        let ledger = self.ledger.as_mut();
        let deed = ledger.map_or(Deed::Read, |ledger| ledger.take(number, step));
        (place, deed, finding)
    }
}

impl Iterator for Walk<'_> {
    type Item = Told;

    fn next(&mut self) -> Option<Told> {
        let number = self.next;
        let reply = *self.run.replies.get(number)?;
        self.next += 1;
        let record = record_at(self.file, number).filter(|_| number > 0);
        let step = record.map(Step::from_bytes);
        let mut told = Told {
            number,
            reply,
            step,
            accepted: None,
            finding: None,
        };
        if let Some(step) = step.filter(|_| reply.refusal == 0) {
            let (place, deed, finding) = self.take(number, &step);
            told.accepted = Some((place, deed));
            told.finding = finding;
        }
        Some(told)
    }
}

/// "A step is accepted exactly when its refusal is 0; a refused one has no
/// place in the order."
fn accepted(file: &[u8], run: &Run) -> Vec<Accepted> {
    let replies = run.replies.iter().enumerate().skip(1);
    let accepted = replies.filter(|(_, reply)| reply.refusal == 0);
    let step = |(number, reply): (usize, &Reply)| {
        Some(Accepted {
            number,
            step: Step::from_bytes(record_at(file, number)?),
            answered: reply.value,
        })
    };
    accepted.filter_map(step).collect()
}
