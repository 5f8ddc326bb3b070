//! A refusal in words, with what would have to be different.

use super::hindrance;
use super::ledger::Ledger;
use super::sentence::{counted, listed};
use crate::model::{Step, ACQUIRE, ARRIVE, DEQUEUE, ENQUEUE, READ, RELEASE, WANT, WRITE};
use crate::model::{MOST_INTERVALS, MOST_RECORDS, TALLIES, TALLY_ADD, TALLY_READ};
use crate::stepfile::MOST_STEPS;

/// Why the opening was refused, from its bytes.
pub fn of_opening(bytes: &[u8]) -> String {
    let Ok([first, cards, pages, locks, rest @ ..]) = <[u8; 8]>::try_from(bytes) else {
        return cut(0, bytes);
    };
    let mut wrong = Vec::new();
    if first != 0 {
        wrong.push(format!("its first byte is {first}, and must be 0"));
    }
    for (count, most, what) in [(cards, 8, "card"), (pages, 8, "page"), (locks, 16, "lock")] {
        if !(1..=most).contains(&count) {
            wrong.push(format!(
                "{}, and there can be 1 to {most}",
                counted(count.into(), what)
            ));
        }
    }
    if rest != [0; 4] {
        wrong.push("its last four bytes are not all 0".to_string());
    }
    if bytes
        .iter()
        .all(|byte| matches!(byte, b'\t' | b'\n' | b'\r' | b' '..=b'~'))
    {
        wrong.push("is this a text? ./steps pack makes a step file of it".to_string());
    }
    format!("{}; the run stops", wrong.join("; "))
}

/// 15: what is left of the file is no record.
fn cut(number: usize, bytes: &[u8]) -> String {
    if number == 0 && bytes.is_empty() {
        return "the file is empty, and must begin with an opening of eight bytes".to_string();
    }
    let there = counted(bytes.len(), "byte");
    format!("the file ends within record {number}, {there} of eight; the run stops")
}

/// Why a step was refused, by what the accepted steps before it have left.
pub fn of_step(refusal: u32, number: usize, bytes: &[u8], ledger: &Ledger) -> String {
    match refusal {
        15 => return cut(number, bytes),
        16 => return format!("{MOST_STEPS} steps are the most in a file; the run stops"),
        _ => {}
    }
    let Ok(record) = bytes.try_into() else {
        return "the record is not whole".to_string();
    };
    let step = Step::from_bytes(record);
    match refusal {
        3 => format!(
            "{} is no kind of step: they are 1 to 6 and 8 to 11",
            step.kind
        ),
        4 => no_card(&step, ledger),
        5 => wrong_field(&step, ledger),
        6 => hindrance::has_arrived(&step, ledger),
        17 => hindrance::waits(&step, ledger),
        18 => hindrance::arrives_holding(&step, ledger),
        19 => hindrance::queue_is_full(ledger),
        20 => hindrance::queue_is_empty(),
        7 => hindrance::holds_already(&step, ledger),
        8 => hindrance::not_holder(&step, ledger),
        9 => no_interval(&step, ledger),
        10 => no_space(ledger),
        _ => "for a reason that these tools do not know".to_string(),
    }
}

fn no_card(step: &Step, ledger: &Ledger) -> String {
    let there = match ledger.cards {
        1 => "the opening has card 1 alone".to_string(),
        cards => format!("the opening has cards 1 to {cards}"),
    };
    format!("there is no card {}: {there}", step.card)
}

fn wrong_field(step: &Step, ledger: &Ledger) -> String {
    let (what, there) = match step.kind {
        READ | WRITE => ("word", 32 * u16::from(ledger.pages)),
        ACQUIRE | RELEASE => ("lock", ledger.locks.len() as u16),
        TALLY_ADD | TALLY_READ => ("tally", TALLIES),
        ARRIVE | WANT | ENQUEUE | DEQUEUE => ("", 1),
        _ => ("", u16::MAX),
    };
    let mut wrong = Vec::new();
    if step.object >= there {
        wrong.push(match (what, there) {
            ("", _) => format!(
                "its object is {}, and must be 0: it is not used",
                step.object
            ),
            (_, 1) => format!(
                "there is no {what} {}: there is {what} 0 alone",
                step.object
            ),
            _ => format!(
                "there is no {what} {}: they are 0 to {}",
                step.object,
                there - 1
            ),
        });
    }
    if step.value != 0 && !matches!(step.kind, WRITE | TALLY_ADD | ENQUEUE) {
        wrong.push(format!(
            "its value is {}, and must be 0: it is not used",
            step.value
        ));
    }
    wrong.join("; ")
}

fn no_interval(step: &Step, ledger: &Ledger) -> String {
    let made = ledger.intervals[usize::from(step.card)];
    format!(
        "card {} has made {made} of {MOST_INTERVALS} intervals {}; {HELPS}",
        step.card,
        since_collection(ledger)
    )
}

/// What fills the space: records by card, and dirty pages.
fn no_space(ledger: &Ledger) -> String {
    let of_card = |(card, count): (&u8, &usize)| format!("{count} of card {card}");
    let records = ledger.records.iter().map(of_card).collect();
    let pages_of = |card: u8| {
        let dirty = ledger.dirty.iter().filter(move |(owner, _)| *owner == card);
        let pages: Vec<String> = dirty.map(|(_, page)| page.to_string()).collect();
        (!pages.is_empty()).then(|| format!("{} of card {card}", listed(&pages)))
    };
    let dirty = (1..=ledger.cards).filter_map(pages_of).collect();
    format!(
        "{}{} and {}{} fill the {MOST_RECORDS} places {}; {HELPS}",
        counted(ledger.standing(), "record"),
        in_brackets(records),
        counted(ledger.dirty.len(), "dirty page"),
        in_brackets(dirty),
        since_collection(ledger)
    )
}

fn in_brackets(items: Vec<String>) -> String {
    if items.is_empty() {
        return String::new();
    }
    format!(" ({})", items.join("; "))
}

/// A refusal in a few words, by its number.
pub fn in_short(refusal: u32) -> &'static str {
    match refusal {
        2 => "the opening",
        3 => "no such kind of step",
        4 => "no such card",
        5 => "no such word, lock or tally, or a field not used",
        6 => "the card has arrived",
        17 => "the card waits for a lock",
        18 => "an arrival by a holder",
        19 => "the queue is full",
        20 => "the queue is empty",
        7 => "the card holds the lock already",
        8 => "the card does not hold the lock",
        9 => "no interval left",
        10 => "no space left",
        15 => "the file ends within a record",
        16 => "a step too many",
        _ => "unknown",
    }
}

const HELPS: &str = "a collecting round would help: want collection, then each card arrives";

fn since_collection(ledger: &Ledger) -> String {
    match ledger.collection {
        None => "since the opening".to_string(),
        Some(at) => format!("since the collecting round of {at}"),
    }
}
