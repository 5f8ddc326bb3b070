//! What a picture of a run has in it: a row for each record, the times for
//! which cards hold and await locks, the releases and jobs that reach somebody,
//! rounds.

use super::input::Range;
use super::ledger::{Deed, Job};
use super::sentence;
use super::walk::{Told, Walk};
use super::writes::Finding;
use crate::model::Step;

/// How a record is marked in its card's lane.
#[derive(Clone, Copy, Debug, PartialEq, Eq)]
pub enum Mark {
    ReadOrdered,
    ReadNoneWritten,
    ReadNotOrdered,
    Write,
    Lock,
    Arrival,
    Job,
    Other,
    Refused,
}

/// A record.
pub struct Row {
    pub number: usize,
    /// The card in whose lane it stands, if there is such a card.
    pub card: Option<u8>,
    pub mark: Option<Mark>,
    pub label: String,
}

/// When something begins or ends, by record number: at the record's row, or
/// just behind it, where the step of another card brings it about.
#[derive(Clone, Copy, Debug, PartialEq, PartialOrd)]
pub enum Time {
    At(usize),
    Behind(usize),
}

/// A card holds or awaits a lock. A time that is not in the picture is none.
pub struct Bar {
    pub card: u8,
    pub lock: u16,
    pub waiting: bool,
    pub from: Option<Time>,
    pub to: Option<Time>,
}

/// A release that reaches an acquire or a waiter of another card, or an enqueue
/// whose job another card dequeues.
pub struct Arrow {
    /// Its card and record; none where that is before the picture.
    pub from: Option<(u8, usize)>,
    pub to: u8,
    pub at: Time,
    pub goal: Goal,
}

/// Where an arrow leads: to the bar of a lock that begins then, or to the mark of
/// a dequeue.
#[derive(Clone, Copy, Debug, PartialEq, Eq)]
pub enum Goal {
    Bar,
    Mark,
}

/// A card that has arrived rests until the round is complete.
pub struct Rest {
    pub card: u8,
    pub from: Option<usize>,
    pub to: Option<usize>,
}

pub struct Scene {
    pub range: Range,
    pub cards: u8,
    pub rows: Vec<Row>,
    pub bars: Vec<Bar>,
    pub arrows: Vec<Arrow>,
    pub rests: Vec<Rest>,
    /// The records that complete a round.
    pub rounds: Vec<usize>,
}

impl Scene {
    pub fn of(mut walk: Walk, range: Range) -> Scene {
        let cards = walk.ledger.as_ref().map_or(1, |ledger| ledger.cards);
        let mut stage = Stage {
            scene: Scene {
                range,
                cards,
                rows: Vec::new(),
                bars: Vec::new(),
                arrows: Vec::new(),
                rests: Vec::new(),
                rounds: Vec::new(),
            },
            bars: Vec::new(),
            rests: Vec::new(),
            releases: [None; 16],
        };
        while let Some(told) = walk.next() {
            if told.number > range.to {
                break;
            }
            if range.has(told.number) {
                stage.scene.rows.push(row(&walk, &told));
            }
            if let (Some(step), Some((_, deed))) = (&told.step, &told.accepted) {
                stage.act(told.number, step, deed);
            }
        }
        stage.end()
    }
}

/// A scene that is being made, with what is still open.
struct Stage {
    scene: Scene,
    bars: Vec<Bar>,
    rests: Vec<Rest>,
    /// Of each free lock the release that freed it.
    releases: [Option<(u8, usize)>; 16],
}

impl Stage {
    fn act(&mut self, number: usize, step: &Step, deed: &Deed) {
        let (card, lock) = (step.card, step.object);
        match deed {
            Deed::Holds => {
                let release = self.releases[usize::from(lock)];
                self.reach(release, card, Time::At(number), Goal::Bar);
                self.open_bar(card, lock, false, Time::At(number));
            }
            Deed::Waits { .. } => self.open_bar(card, lock, true, Time::At(number)),
            Deed::Freed => {
                self.close_bar(card, lock, Time::At(number));
                self.releases[usize::from(lock)] = Some((card, number));
            }
            Deed::HandedTo(turn) => {
                let behind = Time::Behind(number);
                self.close_bar(card, lock, Time::At(number));
                self.close_bar(turn.card, lock, behind);
                self.open_bar(turn.card, lock, false, behind);
                self.reach(Some((card, number)), turn.card, behind, Goal::Bar);
            }
            Deed::Arrived { .. } => self.rests.push(Rest {
                card,
                from: self.seen(number),
                to: None,
            }),
            Deed::RoundComplete { .. } => self.complete_round(number),
            Deed::Dequeued { job: Some(job), .. } => {
                let Job {
                    card: by, since, ..
                } = *job;
                self.reach(Some((by, since)), card, Time::At(number), Goal::Mark);
            }
            _ => {}
        }
    }

    /// A record number, if it is in the picture.
    fn seen(&self, number: usize) -> Option<usize> {
        Some(number).filter(|number| self.scene.range.has(*number))
    }

    fn seen_time(&self, time: Time) -> Option<Time> {
        let (Time::At(number) | Time::Behind(number)) = time;
        self.seen(number).map(|_| time)
    }

    fn open_bar(&mut self, card: u8, lock: u16, waiting: bool, from: Time) {
        self.bars.push(Bar {
            card,
            lock,
            waiting,
            from: self.seen_time(from),
            to: None,
        });
    }

    /// The card's open bar for the lock ends.
    fn close_bar(&mut self, card: u8, lock: u16, to: Time) {
        let is_it = |bar: &Bar| bar.card == card && bar.lock == lock;
        let Some(at) = self.bars.iter().position(is_it) else {
            return;
        };
        let mut bar = self.bars.remove(at);
        bar.to = self.seen_time(to);
        if bar.to.is_some() {
            self.scene.bars.push(bar);
        }
    }

    /// What a step of another card hands on reaches this one.
    fn reach(&mut self, from: Option<(u8, usize)>, to: u8, at: Time, goal: Goal) {
        let Some((card, number)) = from.filter(|(card, _)| *card != to) else {
            return;
        };
        if self.seen_time(at).is_some() {
            let from = self.seen(number).map(|number| (card, number));
            self.scene.arrows.push(Arrow { from, to, at, goal });
        }
    }

    fn complete_round(&mut self, number: usize) {
        let rests = std::mem::take(&mut self.rests);
        if self.seen(number).is_none() {
            return;
        }
        self.scene.rounds.push(number);
        for mut rest in rests {
            rest.to = Some(number);
            self.scene.rests.push(rest);
        }
    }

    /// What is open at the end of the picture goes on to its edge.
    fn end(mut self) -> Scene {
        self.scene.bars.append(&mut self.bars);
        self.scene.rests.append(&mut self.rests);
        self.scene
    }
}

fn row(walk: &Walk, told: &Told) -> Row {
    let cards = walk.ledger.as_ref().map_or(0, |ledger| ledger.cards);
    let card = told
        .step
        .map(|step| step.card)
        .filter(|card| (1..=cards).contains(card));
    let deed = told
        .step
        .filter(|_| card.is_some())
        .and_then(|step| sentence::deed(&step));
    let whole = || sentence::of_record(told.number, walk.bytes(told.number));
    Row {
        number: told.number,
        card,
        mark: mark(told),
        label: label(told, deed.unwrap_or_else(whole)),
    }
}

fn label(told: &Told, said: String) -> String {
    let refusal = told.reply.refusal;
    let value = told.reply.value;
    match (&told.accepted, &told.finding) {
        _ if refusal != 0 => format!("{said}: refused ({refusal})"),
        (_, Some(Finding::NotOrdered(_))) => format!("{said}: {value}, not ordered"),
        (Some((_, Deed::Read | Deed::TallyRead { .. } | Deed::Dequeued { .. })), _) => {
            format!("{said}: {value}")
        }
        (Some((_, Deed::Waits { .. })), _) => format!("{said}: waits"),
        (Some((_, Deed::RoundComplete { collected })), _) => match collected {
            true => format!("{said}: round complete, collection"),
            false => format!("{said}: round complete"),
        },
        _ => said,
    }
}

fn mark(told: &Told) -> Option<Mark> {
    if told.reply.refusal != 0 {
        return Some(Mark::Refused);
    }
    let (_, deed) = told.accepted.as_ref()?;
    Some(match (deed, &told.finding) {
        (_, Some(Finding::Ordered { .. })) => Mark::ReadOrdered,
        (_, Some(Finding::NoneWritten)) => Mark::ReadNoneWritten,
        (_, Some(Finding::NotOrdered(_))) => Mark::ReadNotOrdered,
        (Deed::Stored, _) => Mark::Write,
        (Deed::Holds | Deed::Waits { .. } | Deed::Freed | Deed::HandedTo(_), _) => Mark::Lock,
        (Deed::Arrived { .. } | Deed::RoundComplete { .. }, _) => Mark::Arrival,
        (Deed::Enqueued { .. } | Deed::Dequeued { .. }, _) => Mark::Job,
        _ => Mark::Other,
    })
}
