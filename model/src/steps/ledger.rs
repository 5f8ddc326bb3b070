//! What the accepted steps leave behind them, with the records that brought it
//! about: who holds and awaits which lock, who has arrived, which pages are
//! dirty, how many records stand, what is in the tallies, which jobs wait.

use super::order::CARDS;
use crate::model::{Step, ACQUIRE, ARRIVE, DEQUEUE, ENQUEUE, READ, RELEASE, WANT, WRITE};
use crate::model::{TALLIES, TALLY_ADD, TALLY_READ};
use std::collections::{BTreeMap, BTreeSet, VecDeque};

/// A card that holds or awaits a lock, from this record on.
#[derive(Clone, Copy, Debug, PartialEq, Eq)]
pub struct Turn {
    pub card: u8,
    pub since: usize,
}

#[derive(Clone, Default)]
pub struct Lock {
    pub holder: Option<Turn>,
    /// Those who wait, the longest first.
    pub line: VecDeque<Turn>,
}

/// A job, and who enqueued it at which record.
#[derive(Clone, Copy, Debug, PartialEq, Eq)]
pub struct Job {
    pub card: u8,
    pub since: usize,
    pub value: u32,
}

/// What an accepted step did.
#[derive(Clone, Debug, PartialEq, Eq)]
pub enum Deed {
    Read,
    Stored,
    Holds,
    /// Who holds the lock, and who waits for it already.
    Waits {
        holder: Turn,
        before: Vec<u8>,
    },
    Freed,
    /// The lock goes to one who has waited since then.
    HandedTo(Turn),
    Arrived {
        so_far: usize,
    },
    RoundComplete {
        collected: bool,
    },
    Wanted,
    Added,
    /// The posted total, where it was posted, and the own adds since.
    TallyRead {
        posted: u32,
        own: u32,
    },
    /// How many jobs wait then.
    Enqueued {
        waiting: usize,
    },
    /// The job, where there was one, and how many wait then.
    Dequeued {
        job: Option<Job>,
        waiting: usize,
    },
}

pub struct Ledger {
    pub cards: u8,
    pub pages: u8,
    pub locks: Vec<Lock>,
    /// For each card the record of its arrival in the open round.
    pub arrived: [Option<usize>; CARDS],
    pub wanted: bool,
    /// The record that completed the last round.
    pub round: Option<usize>,
    /// The record that completed the last collecting round.
    pub collection: Option<usize>,
    /// Card and page.
    pub dirty: BTreeSet<(u8, u16)>,
    /// How many records of each card stand.
    pub records: BTreeMap<u8, usize>,
    /// How many intervals each card has made since the last collection.
    pub intervals: [usize; CARDS],
    posted: [u32; TALLIES as usize],
    adds: BTreeMap<(u16, u8), u32>,
    /// The jobs that wait, the oldest first.
    pub jobs: VecDeque<Job>,
}

impl Ledger {
    /// After an accepted opening.
    pub fn opened([_, cards, pages, locks, ..]: [u8; 8]) -> Ledger {
        Ledger {
            cards,
            pages,
            locks: vec![Lock::default(); locks.into()],
            arrived: [None; CARDS],
            wanted: false,
            round: None,
            collection: None,
            dirty: BTreeSet::new(),
            records: BTreeMap::new(),
            intervals: [0; CARDS],
            posted: [0; TALLIES as usize],
            adds: BTreeMap::new(),
            jobs: VecDeque::new(),
        }
    }

    pub fn standing(&self) -> usize {
        self.records.values().sum()
    }

    /// The lock that a card waits for, and since when.
    pub fn awaited_by(&self, card: u8) -> Option<(usize, Turn)> {
        let waits = |lock: &Lock| lock.line.iter().copied().find(|turn| turn.card == card);
        let mut locks = self.locks.iter().enumerate();
        locks.find_map(|(number, lock)| Some((number, waits(lock)?)))
    }

    /// The locks that a card holds, and since when.
    pub fn held_by(&self, card: u8) -> Vec<(usize, usize)> {
        let locks = self.locks.iter().enumerate();
        let held = locks.filter_map(|(number, lock)| Some((number, lock.holder?)));
        let held = held.filter(|(_, turn)| turn.card == card);
        held.map(|(number, turn)| (number, turn.since)).collect()
    }

    /// The cards that have not arrived.
    pub fn missing(&self) -> Vec<u8> {
        let cards = 1..=self.cards;
        cards
            .filter(|card| self.arrived[usize::from(*card)].is_none())
            .collect()
    }

    /// Takes an accepted step.
    pub fn take(&mut self, number: usize, step: &Step) -> Deed {
        let turn = Turn {
            card: step.card,
            since: number,
        };
        if matches!(step.kind, ACQUIRE | RELEASE | ARRIVE | ENQUEUE | DEQUEUE) {
            self.close(step.card);
        }
        match step.kind {
            READ => Deed::Read,
            WRITE => self.write(step),
            ACQUIRE => self.acquire(step.object, turn),
            RELEASE => self.release(step.object, turn),
            ARRIVE => self.arrive(turn),
            TALLY_ADD => self.add(step),
            TALLY_READ => self.read_tally(step),
            ENQUEUE => self.enqueue(number, step),
            DEQUEUE => self.dequeue(),
            WANT => {
                self.wanted = true;
                Deed::Wanted
            }
            _ => Deed::Read,
        }
    }

    /// "each dirty page now gets a record at closing", and an interval is made
    /// for any.
    fn close(&mut self, card: u8) {
        let before = self.dirty.len();
        self.dirty.retain(|(owner, _)| *owner != card);
        let closed = before - self.dirty.len();
        if closed > 0 {
            self.intervals[usize::from(card)] += 1;
            *self.records.entry(card).or_insert(0) += closed;
        }
    }

    fn write(&mut self, step: &Step) -> Deed {
        self.dirty.insert((step.card, step.object / 32));
        Deed::Stored
    }

    fn acquire(&mut self, lock: u16, turn: Turn) -> Deed {
        let lock = &mut self.locks[usize::from(lock)];
        let Some(holder) = lock.holder else {
            lock.holder = Some(turn);
            return Deed::Holds;
        };
        let before = lock.line.iter().map(|turn| turn.card).collect();
        lock.line.push_back(turn);
        Deed::Waits { holder, before }
    }

    fn release(&mut self, lock: u16, turn: Turn) -> Deed {
        let lock = &mut self.locks[usize::from(lock)];
        let next = lock.line.pop_front();
        lock.holder = next.map(|waiter| Turn {
            card: waiter.card,
            since: turn.since,
        });
        next.map_or(Deed::Freed, Deed::HandedTo)
    }

    fn arrive(&mut self, turn: Turn) -> Deed {
        self.arrived[usize::from(turn.card)] = Some(turn.since);
        let missing = self.missing().len();
        if missing > 0 {
            let so_far = usize::from(self.cards) - missing;
            return Deed::Arrived { so_far };
        }
        self.complete_round(turn.since)
    }

    fn complete_round(&mut self, number: usize) -> Deed {
        self.arrived = [None; CARDS];
        self.round = Some(number);
        for ((tally, _), sum) in std::mem::take(&mut self.adds) {
            let posted = &mut self.posted[usize::from(tally)];
            *posted = posted.wrapping_add(sum);
        }
        let collected = std::mem::take(&mut self.wanted);
        if collected {
            self.collection = Some(number);
            self.records.clear();
            self.intervals = [0; CARDS];
        }
        Deed::RoundComplete { collected }
    }

    fn add(&mut self, step: &Step) -> Deed {
        let sum = self.adds.entry((step.object, step.card)).or_insert(0);
        *sum = sum.wrapping_add(step.value);
        Deed::Added
    }

    fn read_tally(&self, step: &Step) -> Deed {
        Deed::TallyRead {
            posted: self.posted[usize::from(step.object)],
            own: self
                .adds
                .get(&(step.object, step.card))
                .copied()
                .unwrap_or(0),
        }
    }

    fn enqueue(&mut self, number: usize, step: &Step) -> Deed {
        self.jobs.push_back(Job {
            card: step.card,
            since: number,
            value: step.value,
        });
        Deed::Enqueued {
            waiting: self.jobs.len(),
        }
    }

    fn dequeue(&mut self) -> Deed {
        let job = self.jobs.pop_front();
        Deed::Dequeued {
            job,
            waiting: self.jobs.len(),
        }
    }
}
