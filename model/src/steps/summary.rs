//! What a whole run came to.

use super::ledger::Deed;
use super::refusal;
use super::sentence::{counted, jobs_waiting};
use super::walk::{Told, Walk};
use super::writes::Finding;
use std::collections::BTreeMap;

/// So many reads that are not ordered are named.
const MOST_NAMED: usize = 10;

#[derive(Default)]
pub struct Summary {
    ordered: usize,
    none_written: usize,
    not_ordered: usize,
    /// The first reads that are not ordered.
    named: Vec<String>,
    tally_reads: usize,
    enqueues: usize,
    dequeues: usize,
    refusals: BTreeMap<u32, usize>,
    /// Reads that answered what they may not.
    pub broken: usize,
}

impl Summary {
    pub fn take(&mut self, told: &Told, broken: bool) {
        self.broken += usize::from(broken);
        if told.reply.refusal != 0 {
            *self.refusals.entry(told.reply.refusal).or_insert(0) += 1;
        }
        match (&told.finding, &told.accepted) {
            (Some(Finding::NoneWritten), _) => self.none_written += 1,
            (Some(Finding::Ordered { .. }), _) => self.ordered += 1,
            (Some(Finding::NotOrdered(_)), _) => self.count_not_ordered(told.number),
            (_, Some((_, Deed::TallyRead { .. }))) => self.tally_reads += 1,
            (_, Some((_, Deed::Enqueued { .. }))) => self.enqueues += 1,
            (_, Some((_, Deed::Dequeued { .. }))) => self.dequeues += 1,
            _ => {}
        }
    }

    fn count_not_ordered(&mut self, number: usize) {
        self.not_ordered += 1;
        if self.named.len() < MOST_NAMED {
            self.named.push(number.to_string());
        }
    }

    pub fn text(&self, walk: &Walk) -> String {
        let last = walk.run.last();
        let mut lines = vec![
            format!("the whole run, records 0 to {last}:"),
            format!("    reads ordered: {}", self.ordered),
            format!("    reads ordered, none written: {}", self.none_written),
            format!(
                "    reads not ordered: {}{}",
                self.not_ordered,
                self.which()
            ),
        ];
        if self.tally_reads > 0 {
            lines.push(format!("    reads of tallies: {}", self.tally_reads));
        }
        if self.enqueues > 0 {
            let (added, removed) = (self.enqueues, self.dequeues);
            lines.push(format!("    jobs: {added} enqueued, {removed} dequeued"));
        }
        lines.push(format!(
            "    refusals: {}",
            self.refusals.values().sum::<usize>()
        ));
        for (number, count) in &self.refusals {
            lines.push(format!(
                "        {number}, {}: {count}",
                refusal::in_short(*number)
            ));
        }
        if let Some(ledger) = &walk.ledger {
            let (standing, dirty) = (ledger.standing(), ledger.dirty.len());
            let (records, pages) = (counted(standing, "record"), counted(dirty, "dirty page"));
            let jobs = match ledger.jobs.len() {
                0 => String::new(),
                waiting => format!(", {}", jobs_waiting(waiting)),
            };
            lines.push(format!("    at the end: {records} standing, {pages}{jobs}"));
        }
        lines.push(format!("    words moved: {}", self.words(walk)));
        if self.broken > 0 {
            lines.push(format!(
                "    BROKEN: {} answered what they may not",
                counted(self.broken, "read")
            ));
        }
        lines.join("\n") + "\n"
    }

    fn which(&self) -> String {
        if self.named.is_empty() {
            return String::new();
        }
        let more = if self.not_ordered > self.named.len() {
            " and more"
        } else {
            ""
        };
        format!(" ({}{more})", self.named.join(", "))
    }

    /// The run program tells them where it did not stop before the end.
    fn words(&self, walk: &Walk) -> String {
        let stopped = [2, 15, 16]
            .iter()
            .any(|refusal| self.refusals.contains_key(refusal));
        match walk.run.words {
            Some(words) => words.to_string(),
            None if stopped => format!("not told, since the run stopped at {}", walk.run.last()),
            None => "not told by this run program".to_string(),
        }
    }
}
