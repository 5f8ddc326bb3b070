//! A record as a sentence, in the words of the documents. `pack.rs` reads what
//! is written here.

use crate::model::{Step, ACQUIRE, ARRIVE, DEQUEUE, ENQUEUE, READ, RELEASE, WANT, WRITE};
use crate::model::{TALLY_ADD, TALLY_READ};

/// The sentence of record `number`. Bytes for which there is none, an odd
/// record or one that is cut, are written as they are.
pub fn of_record(number: usize, bytes: &[u8]) -> String {
    let sentence = match bytes.try_into() {
        Ok(record) if number == 0 => opening(record),
        Ok(record) => step(&Step::from_bytes(record)),
        Err(_) => None,
    };
    sentence.unwrap_or_else(|| raw(bytes))
}

/// None where a byte that an opening does not use is not 0.
fn opening([first, cards, pages, locks, rest @ ..]: [u8; 8]) -> Option<String> {
    let used_alone = first == 0 && rest == [0; 4];
    used_alone.then(|| {
        let cards = counted(cards.into(), "card");
        let pages = counted(pages.into(), "page");
        format!("open {cards}, {pages}, {}", counted(locks.into(), "lock"))
    })
}

/// None for an unknown kind, and where a field that the kind does not use is
/// not 0.
fn step(step: &Step) -> Option<String> {
    Some(format!("card {} {}", step.card, deed(step)?))
}

/// What the card does, without the card.
pub fn deed(step: &Step) -> Option<String> {
    let Step { object, value, .. } = step;
    match (step.kind, *object, *value) {
        (READ, _, 0) => Some(format!("reads word {object}")),
        (WRITE, _, _) => Some(format!("writes {value} to word {object}")),
        (ACQUIRE, _, 0) => Some(format!("acquires lock {object}")),
        (RELEASE, _, 0) => Some(format!("releases lock {object}")),
        (ARRIVE, 0, 0) => Some("arrives".to_string()),
        (WANT, 0, 0) => Some("wants collection".to_string()),
        (TALLY_ADD, _, _) => Some(format!("adds {value} to tally {object}")),
        (TALLY_READ, _, 0) => Some(format!("reads tally {object}")),
        (ENQUEUE, 0, _) => Some(format!("enqueues {value}")),
        (DEQUEUE, 0, 0) => Some("dequeues".to_string()),
        _ => None,
    }
}

fn raw(bytes: &[u8]) -> String {
    if bytes.is_empty() {
        return "the end of the file".to_string();
    }
    let mut text = "raw".to_string();
    for byte in bytes {
        text.push_str(&format!(" {byte:02x}"));
    }
    text
}

/// `1 page`, `2 pages`.
pub fn counted(count: usize, what: &str) -> String {
    let ending = if count == 1 { "" } else { "s" };
    format!("{count} {what}{ending}")
}

/// `no job waits`, `1 job waits`, `2 jobs wait`.
pub fn jobs_waiting(count: usize) -> String {
    match count {
        0 => "no job waits".to_string(),
        1 => "1 job waits".to_string(),
        _ => format!("{count} jobs wait"),
    }
}

/// `1`, `1 and 2`, `1, 2 and 3`.
pub fn listed(items: &[String]) -> String {
    match items {
        [] => "none".to_string(),
        [one] => one.clone(),
        [all @ .., last] => format!("{} and {last}", all.join(", ")),
    }
}

/// `card 2`, `cards 2 and 3`.
pub fn cards_listed(cards: &[u8]) -> String {
    let names: Vec<String> = cards.iter().map(u8::to_string).collect();
    let ending = if cards.len() == 1 { "" } else { "s" };
    format!("card{ending} {}", listed(&names))
}
