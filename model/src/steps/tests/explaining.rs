//! The explanation against the judge: which of the three each read is, the
//! chains, and what is said to be missing.

use super::corpus::{self, Tried};
use crate::judge::{directly_before, judge, Ties};
use crate::stepfile::{Line, Printed};
use crate::steps::explain::explain;
use crate::steps::input::Range;
use crate::steps::order::Order;
use crate::steps::progress::Progress;
use crate::steps::proved::Reply;
use crate::steps::walk::Walk;
use crate::steps::writes::Finding;
use std::io::{self, Write};

fn walk(tried: &Tried) -> Walk<'_> {
    Walk::new(&tried.file, &tried.run, &mut Progress::new())
}

fn printed(tried: &Tried) -> Printed {
    let replies = tried.run.replies.iter().enumerate();
    let line = |(number, reply): (usize, &Reply)| {
        let text = format!("{number} {} {} {}", reply.refusal, reply.value, reply.count);
        Line::parse(&text).expect("a line")
    };
    Printed {
        lines: replies.map(line).collect(),
        words: tried.run.words,
    }
}

/// Reads and their findings, by record number and place.
fn findings(tried: &Tried) -> Vec<(usize, usize, Finding)> {
    let reads = walk(tried).filter_map(|told| Some((told.number, told.accepted?.0, told.finding?)));
    reads.collect()
}

#[test]
fn reads_are_as_the_judge_finds_them() {
    corpus::each(corpus::all(), |tried| {
        let verdict = judge(&tried.file, &printed(tried)).expect("a verdict");
        let found = findings(tried);
        let is_ordered = |finding: &Finding| !matches!(finding, Finding::NotOrdered(_));
        let ordered = found.iter().filter(|(.., finding)| is_ordered(finding));
        let ordered: Vec<usize> = ordered.map(|(number, ..)| *number).collect();
        let written = found
            .iter()
            .filter(|(.., finding)| matches!(finding, Finding::Ordered { .. }));
        let name = &tried.name;
        assert!(
            ordered == verdict.strong_numbers,
            "{name}: other reads are ordered"
        );
        assert_eq!(found.len(), verdict.reads, "{name}: reads");
        assert_eq!(
            written.count(),
            verdict.strong_written,
            "{name}: ordered and written"
        );
    });
}

#[test]
fn every_explanation_is_free_of_broken_reads() {
    corpus::each(corpus::all(), |tried| {
        let range = Range {
            from: 0,
            to: tried.run.last(),
        };
        let mut lines = Lines::default();
        let fine = explain(
            &tried.file,
            &tried.run,
            range,
            &mut Progress::new(),
            &mut lines,
        );
        assert!(fine.expect("printed"), "{}: a read is broken", tried.name);
        assert_eq!(lines.numbered, tried.run.replies.len(), "{}", tried.name);
    });
}

/// Counts the lines that begin with a number, and keeps nothing.
#[derive(Default)]
struct Lines {
    numbered: usize,
    within: bool,
}

impl Write for Lines {
    fn write(&mut self, bytes: &[u8]) -> io::Result<usize> {
        for byte in bytes {
            self.numbered += usize::from(!self.within && byte.is_ascii_digit());
            self.within = *byte != b'\n';
        }
        Ok(bytes.len())
    }

    fn flush(&mut self) -> io::Result<()> {
        Ok(())
    }
}

/// Each step of a chain is directly before the next, by the judge's code.
#[test]
fn chains_are_steps_directly_before_one_another() {
    let mut chains = 0;
    for tried in corpus::short(8001) {
        let order = walk(tried).order;
        let cards = tried.file.get(1).copied().unwrap_or(1);
        let ties = Ties::of(cards.max(1).into(), &order.list);
        for (number, read, finding) in findings(tried) {
            let Finding::Ordered { write } = finding else {
                continue;
            };
            let chain = order.chain(write, read).expect("a chain");
            let ends = (chain.first().copied(), chain.last().copied());
            assert_eq!(ends, (Some(write), Some(read)), "{}: {number}", tried.name);
            let tied = |two: &[usize]| {
                two[0] < two[1] && directly_before(&order.list, &ties, two[0], two[1])
            };
            assert!(
                chain.windows(2).all(tied),
                "{}: {number}: {chain:?}",
                tried.name
            );
            chains += 1;
        }
    }
    assert!(chains > 10_000, "{chains} chains");
}

/// Where a write is said not to be before a read, nothing that a card with the
/// news of it hands on is directly before a step of the reader until then.
#[test]
fn what_is_missing_is_missing() {
    let mut looked_at = 0;
    for tried in corpus::short(400) {
        let order = walk(tried).order;
        let cards = tried.file.get(1).copied().unwrap_or(1);
        let ties = Ties::of(cards.max(1).into(), &order.list);
        for (_, read, finding) in findings(tried) {
            let Finding::NotOrdered(disorder) = finding else {
                continue;
            };
            let unknown = disorder.unknown.iter().map(|unknown| (unknown.last, read));
            for (write, step) in unknown.chain(disorder.pair) {
                assert!(!order.before(write, step), "{}", tried.name);
                looked_at += handed_on_in_vain(&order, &ties, write, step);
            }
        }
    }
    assert!(
        looked_at > 5_000,
        "{looked_at} releases, arrivals and enqueues"
    );
}

fn handed_on_in_vain(order: &Order, ties: &Ties, write: usize, step: usize) -> usize {
    let reader = order.card(step);
    let mut looked_at = 0;
    for card in (1..=8).filter(|card| *card != reader) {
        let Some(known) = order
            .first_knowing(card, write)
            .filter(|known| *known < step)
        else {
            continue;
        };
        for handed in order.handed_on(card, known, step) {
            let mut later = (handed + 1..=step).filter(|place| order.card(*place) == reader);
            assert!(!later.any(|place| directly_before(&order.list, ties, *handed, place)));
            looked_at += 1;
        }
    }
    looked_at
}
