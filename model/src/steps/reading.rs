//! A read in words: ordered, with the chain of steps that orders it behind the
//! write that is due; or not ordered, and how far the news of writes had come.

use super::order::Order;
use super::sentence::counted;
use super::writes::{Disorder, Finding, Unknown};
use crate::model::{ACQUIRE, ARRIVE, DEQUEUE, ENQUEUE, RELEASE};
use std::collections::BTreeMap;

/// Of so many writing cards it is said how far their news had come.
const MOST_DETAILED: usize = 2;
/// So many releases, arrivals and enqueues of a card are named.
const MOST_HANDED_ON: usize = 2;

/// Tells of reads one after another, and why two writes are not ordered once.
#[derive(Default)]
pub struct Readings {
    /// For two writes that are not ordered, the read at which it was said why.
    said: BTreeMap<(usize, usize), usize>,
}

impl Readings {
    /// The lines on an accepted read.
    pub fn tell(&mut self, order: &Order, read: usize, finding: &Finding) -> Vec<String> {
        match finding {
            Finding::NoneWritten => vec!["    ordered, none written: 0 is due".to_string()],
            Finding::Ordered { write } => vec![ordered(order, *write, read)],
            Finding::NotOrdered(disorder) => self.not_ordered(order, read, disorder),
        }
    }

    fn not_ordered(&mut self, order: &Order, read: usize, disorder: &Disorder) -> Vec<String> {
        let answered = order.list[read].answered;
        let word = order.list[read].step.object;
        let may = format!("0 or any value written to word {word} before may stand here");
        let mut lines = vec![match disorder.like {
            Some(write) => {
                let write = order.number(write);
                format!("    not ordered: {may}; {answered} is what write {write} stored")
            }
            None => format!("    not ordered: {may}; {answered} is what the opening gave"),
        }];
        for (nth, unknown) in disorder.unknown.iter().enumerate() {
            let (writes, why) = (
                named(order, unknown),
                not_reached(order, unknown.last, read),
            );
            lines.push(format!("        {writes}: {why}"));
            if nth < MOST_DETAILED {
                lines.extend(news_of(order, unknown.last, read));
            }
        }
        if let Some(pair) = disorder.pair {
            lines.extend(self.pair(order, order.number(read), pair, disorder.more_pairs));
        }
        lines
    }

    /// Two writes that are not ordered with one another, and how many more
    /// such there are.
    fn pair(
        &mut self,
        order: &Order,
        read: usize,
        pair: (usize, usize),
        more: usize,
    ) -> Vec<String> {
        let (first, second) = pair;
        let numbers = format!("{} and {}", order.number(first), order.number(second));
        let cards = format!("{} and {}", order.card(first), order.card(second));
        let names = format!("writes {numbers} of cards {cards}, with one another");
        let more = match more {
            0 => String::new(),
            _ => format!("; so it is with {} more", counted(more, "write")),
        };
        if let Some(said) = self.said.get(&pair) {
            return vec![format!("        {names}: see {said}{more}")];
        }
        self.said.insert(pair, read);
        let why = not_reached(order, first, second);
        let mut lines = vec![format!("        {names}: {why}{more}")];
        lines.extend(news_of(order, first, second));
        lines
    }
}

fn ordered(order: &Order, write: usize, read: usize) -> String {
    let own = order.card(write) == order.card(read);
    let whose = if own { "its own write" } else { "write" };
    let chain = order.chain(write, read).unwrap_or_default();
    let links: Vec<String> = chain.iter().map(|place| link(order, *place)).collect();
    format!(
        "    ordered: {whose} {} is due: {}",
        order.number(write),
        links.join(" -> ")
    )
}

/// A step of a chain, as in `2 -> release 5 -> acquire 6 -> 7`.
fn link(order: &Order, place: usize) -> String {
    let number = order.number(place);
    match order.list[place].step.kind {
        RELEASE => format!("release {number}"),
        ACQUIRE => format!("acquire {number}"),
        ENQUEUE => format!("enqueue {number}"),
        DEQUEUE => format!("dequeue {number}"),
        ARRIVE => match order.round_end(place).map(|end| order.number(end)) {
            Some(end) if end != number => format!("arrival {number} (round complete at {end})"),
            _ => format!("arrival {number}"),
        },
        _ => number.to_string(),
    }
}

fn named(order: &Order, unknown: &Unknown) -> String {
    let (first, last) = (order.number(unknown.first), order.number(unknown.last));
    let card = order.card(unknown.last);
    match unknown.count {
        1 => format!("write {last} of card {card}"),
        2 => format!("writes {first} and {last} of card {card}"),
        count => format!("{count} writes of card {card}, {first} to {last}"),
    }
}

/// That the step at `s` is not before that at `t`.
fn not_reached(order: &Order, s: usize, t: usize) -> String {
    let (from, to) = (order.card(s), order.card(t));
    let (first, second) = (order.number(s), order.number(t));
    let none = format!("no release, arrival or enqueue of card {from} after {first}");
    format!("{none} reaches card {to} before {second}")
}

/// How far the news of the step at `s` had come before `t`: each card that had
/// it, the writer first, and what it handed on.
fn news_of(order: &Order, s: usize, t: usize) -> Vec<String> {
    let (writer, asker) = (order.card(s), order.card(t));
    let mut cards: Vec<u8> = (1..=8).filter(|card| *card != asker).collect();
    cards.sort_by_key(|card| *card != writer);
    let line = |card: u8| {
        let known = order.first_knowing(card, s).filter(|place| *place < t)?;
        let since = match card == writer {
            true => String::new(),
            false => format!(", which knows of it at {},", order.number(known)),
        };
        let handed = handed_on(order, card, known, t);
        Some(format!("            card {card}{since} {handed}"))
    };
    cards.into_iter().filter_map(line).collect()
}

/// What a card handed on from one place to another, and why it did not come to
/// the card at the second.
fn handed_on(order: &Order, card: u8, from: usize, t: usize) -> String {
    let asker = order.card(t);
    let places = order.handed_on(card, from, t);
    let (first, second) = (order.number(from), order.number(t));
    if places.is_empty() {
        let nothing = "releases no lock, does not arrive and enqueues no job";
        return format!("{nothing} between {first} and {second}");
    }
    let one = |place: &usize| {
        let number = order.number(*place);
        let step = order.list[*place].step;
        let lock = step.object;
        match step.kind {
            RELEASE => format!("releases lock {lock} at {number}, but card {asker} does not acquire lock {lock} between {number} and {second}"),
            ENQUEUE => format!("enqueues a job at {number}, but {}", taken_by(order, *place, t)),
            _ => format!("arrives at {number}, but the round is not complete before {second}"),
        }
    };
    let mut said: Vec<String> = places.iter().take(MOST_HANDED_ON).map(one).collect();
    if places.len() > MOST_HANDED_ON {
        said.push(format!(
            "and so on, {} releases, arrivals and enqueues in all",
            places.len()
        ));
    }
    said.join("; ")
}

/// Who took the job of an enqueue before `t`.
fn taken_by(order: &Order, enqueue: usize, t: usize) -> String {
    match order.returned(enqueue).filter(|dequeue| *dequeue < t) {
        Some(dequeue) => {
            let (card, number) = (order.card(dequeue), order.number(dequeue));
            format!("card {card} dequeues it, at {number}")
        }
        None => format!("nobody dequeues it before {}", order.number(t)),
    }
}
