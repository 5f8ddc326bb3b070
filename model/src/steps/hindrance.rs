//! Refusals by what other cards do, in words: who holds a lock, who waits for
//! it, who has arrived, which jobs wait.

use super::ledger::Ledger;
use super::sentence::{cards_listed, jobs_waiting};
use crate::model::Step;

/// 6: the card has arrived, and others have not.
pub fn has_arrived(step: &Step, ledger: &Ledger) -> String {
    let since = ledger.arrived[usize::from(step.card)];
    let arrived = since.map_or("it has arrived".to_string(), |at| {
        format!("it has arrived, at {at}")
    });
    let missing = ledger.missing();
    let hindered: Vec<String> = missing
        .iter()
        .filter_map(|card| waits_itself(*card, ledger))
        .collect();
    let mut why = format!(
        "{arrived}; {} would have to arrive first",
        cards_listed(&missing)
    );
    if !hindered.is_empty() {
        why.push_str(&format!(" ({})", hindered.join("; ")));
    }
    why
}

/// What keeps a card that has not arrived from doing so.
fn waits_itself(card: u8, ledger: &Ledger) -> Option<String> {
    let (lock, _) = ledger.awaited_by(card)?;
    let holder = ledger.locks[lock].holder?.card;
    Some(format!(
        "card {card} waits for lock {lock}, which card {holder} holds"
    ))
}

/// 17: the card waits for a lock.
pub fn waits(step: &Step, ledger: &Ledger) -> String {
    let Some((lock, turn)) = ledger.awaited_by(step.card) else {
        return "it waits for a lock".to_string();
    };
    let waited = format!("it has waited for lock {lock} since {}", turn.since);
    let Some(holder) = ledger.locks[lock].holder else {
        return waited;
    };
    let line = ledger.locks[lock].line.iter().map(|turn| turn.card);
    let before: Vec<u8> = line.take_while(|card| *card != step.card).collect();
    let then = match before.len() {
        0 => String::new(),
        _ => format!(
            " and then {}, which waited before it,",
            cards_listed(&before)
        ),
    };
    let first = format!("card {}, holder since {},", holder.card, holder.since);
    let stuck = stuck(holder.card, ledger);
    format!("{waited}; {first}{then} would have to release it{stuck}")
}

/// Why a holder cannot release its lock: it has arrived, or waits itself for
/// one that waits.
fn stuck(holder: u8, ledger: &Ledger) -> String {
    let mut met = Vec::new();
    let mut why = String::new();
    let mut card = holder;
    while !met.contains(&card) {
        met.push(card);
        if let Some(at) = ledger.arrived[usize::from(card)] {
            why.push_str(&format!("; card {card} has arrived, at {at}"));
            return why;
        }
        let Some((lock, _)) = ledger.awaited_by(card) else {
            return why;
        };
        let Some(next) = ledger.locks[lock].holder else {
            return why;
        };
        why.push_str(&format!(
            "; card {card} waits for lock {lock} of card {}",
            next.card
        ));
        card = next.card;
    }
    format!("{why}: they wait for each other for good")
}

/// 18: an arrival with a lock in hand.
pub fn arrives_holding(step: &Step, ledger: &Ledger) -> String {
    let held = ledger.held_by(step.card);
    let name = |(lock, since): &(usize, usize)| {
        let waiting = waiting(*lock, ledger);
        format!("lock {lock}, since {since}{waiting}")
    };
    let names: Vec<String> = held.iter().map(name).collect();
    let it = if held.len() == 1 { "it" } else { "them" };
    let holds = format!("it holds {}", names.join("; "));
    format!("{holds}; it would have to release {it} first")
}

/// 19: an enqueue with as many jobs waiting as the queue holds.
pub fn queue_is_full(ledger: &Ledger) -> String {
    let waiting = jobs_waiting(ledger.jobs.len());
    let oldest = ledger.jobs.front().map_or(String::new(), |job| {
        format!(", the oldest of card {}, since {}", job.card, job.since)
    });
    format!("{waiting}{oldest}; a card would have to dequeue one first")
}

/// 20: a dequeue with no job waiting.
pub fn queue_is_empty() -> String {
    format!(
        "{}; a card would have to enqueue one first",
        jobs_waiting(0)
    )
}

/// 7: the card is the holder.
pub fn holds_already(step: &Step, ledger: &Ledger) -> String {
    let lock = usize::from(step.object);
    let holder = ledger.locks.get(lock).and_then(|lock| lock.holder);
    let since = holder.map_or(String::new(), |turn| format!(", since {}", turn.since));
    let waiting = waiting(lock, ledger);
    format!("it holds lock {lock} already{since}{waiting}; it would have to release it first")
}

/// 8: the card is not the holder.
pub fn not_holder(step: &Step, ledger: &Ledger) -> String {
    let lock = usize::from(step.object);
    let who = match ledger.locks.get(lock).and_then(|lock| lock.holder) {
        Some(holder) => {
            let waiting = waiting(lock, ledger);
            format!(
                "card {} holds it, since {}{waiting}",
                holder.card, holder.since
            )
        }
        None => "nobody holds it".to_string(),
    };
    format!("card {} does not hold lock {lock}: {who}", step.card)
}

/// Who waits for a lock, if anybody does.
fn waiting(lock: usize, ledger: &Ledger) -> String {
    let line = ledger.locks.get(lock).map(|lock| &lock.line);
    let cards: Vec<u8> = line.into_iter().flatten().map(|turn| turn.card).collect();
    match cards.len() {
        0 => String::new(),
        1 => format!(", and {} waits for it", cards_listed(&cards)),
        _ => format!(", and {} wait for it", cards_listed(&cards)),
    }
}
