//! `./steps explain`: each record in words with its answer, and why.

use super::input::Range;
use super::ledger::{Deed, Job};
use super::progress::Progress;
use super::proved::Run;
use super::reading::Readings;
use super::refusal;
use super::sentence::{self, cards_listed, counted, jobs_waiting};
use super::summary::Summary;
use super::walk::{Told, Walk};
use super::writes::Finding;
use std::io::{self, Write};

/// Prints the records of the range, then the summary of the whole run. Answers
/// whether every read answered what it may.
pub fn explain(
    file: &[u8],
    run: &Run,
    range: Range,
    progress: &mut Progress,
    out: &mut dyn Write,
) -> io::Result<bool> {
    let mut walk = Walk::new(file, run, progress);
    let mut summary = Summary::default();
    let mut readings = Readings::default();
    progress.quiet_for_terminal_output();
    while let Some(told) = walk.next() {
        progress.at("explaining", told.number, run.last());
        let broken = broken(&walk, &told);
        summary.take(&told, broken.is_some());
        if range.has(told.number) {
            record(&walk, &told, &mut readings, out)?;
            if let Some(rule) = broken {
                writeln!(out, "    BROKEN: {rule}")?;
            }
        }
    }
    out.write_all(summary.text(&walk).as_bytes())?;
    Ok(summary.broken == 0)
}

fn record(
    walk: &Walk,
    told: &Told,
    readings: &mut Readings,
    out: &mut dyn Write,
) -> io::Result<()> {
    let sentence = sentence::of_record(told.number, walk.bytes(told.number));
    writeln!(out, "{} {sentence}: {}", told.number, answer(walk, told))?;
    if let (Some((place, _)), Some(finding)) = (&told.accepted, &told.finding) {
        for line in readings.tell(&walk.order, *place, finding) {
            writeln!(out, "{line}")?;
        }
    }
    Ok(())
}

/// The rule that a read breaks: demand 3, or what a tally or a job must show.
fn broken(walk: &Walk, told: &Told) -> Option<String> {
    let value = told.reply.value;
    let due = match (&told.finding, &told.accepted) {
        (Some(Finding::NoneWritten), _) => 0,
        (Some(Finding::Ordered { write }), _) => walk.order.list[*write].step.value,
        (Some(Finding::NotOrdered(disorder)), _) => {
            let may = disorder.like.is_some() || value == 0;
            return (!may).then(|| "neither 0 nor a value written before".to_string());
        }
        (_, Some((_, Deed::TallyRead { posted, own }))) => posted.wrapping_add(*own),
        (_, Some((_, Deed::Dequeued { job, .. }))) => job.map_or(0, |job| job.value),
        _ => return None,
    };
    (value != due).then(|| format!("{due} is due"))
}

/// What came of a record.
fn answer(walk: &Walk, told: &Told) -> String {
    if told.reply.refusal != 0 {
        return refused(walk, told);
    }
    let Some((_, deed)) = &told.accepted else {
        return "opened".to_string();
    };
    let value = told.reply.value;
    let applied = counted(told.reply.count as usize, "record");
    match deed {
        Deed::Read => format!("{value}, {applied} applied"),
        Deed::Stored => format!("stored, {applied} applied"),
        Deed::Holds => "holds it".to_string(),
        Deed::Waits { holder, before } => {
            let behind = match before.len() {
                0 => String::new(),
                _ => format!(" behind {}", cards_listed(before)),
            };
            let (card, since) = (holder.card, holder.since);
            format!("waits{behind}; card {card} holds it, since {since}")
        }
        Deed::Freed => "it is free".to_string(),
        Deed::HandedTo(turn) => {
            let (card, since) = (turn.card, turn.since);
            format!("it goes to card {card}, which has waited since {since}")
        }
        Deed::Arrived { so_far } => {
            let cards = walk.ledger.as_ref().map_or(0, |ledger| ledger.cards);
            format!("{so_far} of {cards} cards have arrived")
        }
        Deed::RoundComplete { collected: false } => "the round is complete".to_string(),
        Deed::RoundComplete { collected: true } => {
            format!("the round is complete, collection, {applied} applied")
        }
        Deed::Wanted => "at the end of this round".to_string(),
        Deed::Added => "added".to_string(),
        Deed::TallyRead { posted, own } => format!("{value}; {}", tally(walk, *posted, *own)),
        Deed::Enqueued { waiting } => format!("added; {}", jobs_waiting(*waiting)),
        Deed::Dequeued { job, waiting } => {
            let (by, left) = (enqueued_by(job), jobs_waiting(*waiting));
            format!("{value}, {by}; {left}")
        }
    }
}

fn refused(walk: &Walk, told: &Told) -> String {
    let refusal = told.reply.refusal;
    let bytes = walk.bytes(told.number);
    let why = match &walk.ledger {
        Some(ledger) if told.number > 0 => refusal::of_step(refusal, told.number, bytes, ledger),
        _ => refusal::of_opening(bytes),
    };
    format!("refused ({refusal}): {why}")
}

/// Where the value of a dequeue comes from.
fn enqueued_by(job: &Option<Job>) -> String {
    match job {
        Some(Job { card, since, .. }) => format!("which card {card} enqueued at {since}"),
        None => "which nobody enqueued".to_string(),
    }
}

/// Of what the answer to a read of a tally is the sum.
fn tally(walk: &Walk, posted: u32, own: u32) -> String {
    let round = walk.ledger.as_ref().and_then(|ledger| ledger.round);
    let posted = match round {
        Some(at) => format!("posted {posted} (round complete at {at})"),
        None => "posted nothing yet".to_string(),
    };
    format!("{posted}, own adds since {own}")
}
