//! A step file in the making. Each step is tried on the model as it is
//! written, so that a profile can see what was refused and steer. Nobody
//! hangs: no card waits for one that waits for it, over any number of locks, and
//! no holder arrives. So there is always a card that may act.

use crate::clock::{LockId, ProcId};
use crate::model::{Answer, Model, Step, ACQUIRE, ARRIVE, READ, RELEASE, WANT, WRITE};
use crate::model::{DEQUEUE, ENQUEUE, TALLIES, TALLY_ADD, TALLY_READ};
use crate::rng::Rng;

pub struct Script {
    pub rng: Rng,
    pub model: Model,
    pub cards: u8,
    pub pages: u16,
    pub locks: u16,
    /// Whether a card may ask for a lock that another card holds.
    pub waiting: bool,
    /// Whether stretches that are not about tallies or jobs have turns with them.
    pub mixed_in: bool,
    bytes: Vec<u8>,
    steps: usize,
    fresh: u32,
}

impl Script {
    /// Opens with the given counts, which are in range.
    pub fn new(rng: Rng, counts: [usize; 3], steps: usize) -> Script {
        let [cards, pages, locks] = counts.map(|n| n as u8);
        let opening = [0, cards, pages, locks, 0, 0, 0, 0];
        Script {
            rng,
            model: Model::open(opening, None).expect("counts in range"),
            cards,
            pages: pages.into(),
            locks: locks.into(),
            waiting: true,
            mixed_in: false,
            bytes: opening.to_vec(),
            steps,
            fresh: 0,
        }
    }

    /// How many records there are, the opening among them.
    pub fn written(&self) -> usize {
        self.bytes.len() / 8
    }

    pub fn full(&self) -> bool {
        self.written() > self.steps
    }

    pub fn finish(mut self) -> Vec<u8> {
        self.bytes.truncate(8 * (self.steps + 1));
        self.bytes
    }

    pub fn put(&mut self, kind: u8, card: u8, object: u16, value: u32) -> Answer {
        let step = Step {
            kind,
            card,
            object,
            value,
        };
        self.bytes.extend(step.to_bytes());
        self.model.step(&step)
    }

    pub fn read(&mut self, card: u8, word: u16) -> Answer {
        self.put(READ, card, word, 0)
    }

    /// Writes mostly a value never written before, at times 0, a repeat, or
    /// what the card's copy has: a store that alters nothing, as long as no
    /// other card's store comes with the fetch.
    pub fn write(&mut self, card: u8, word: u16) -> Answer {
        let value = self.value(card, word);
        self.put(WRITE, card, word, value)
    }

    pub fn acquire(&mut self, card: u8, lock: u16) -> Answer {
        self.put(ACQUIRE, card, lock, 0)
    }

    pub fn release(&mut self, card: u8, lock: u16) -> Answer {
        self.put(RELEASE, card, lock, 0)
    }

    /// The card arrives; before that it frees its locks. Now and then it tries
    /// with a lock in hand first, which is refused.
    pub fn arrive(&mut self, card: u8) -> Answer {
        if self.acts(card) {
            for lock in self.held_by(card) {
                if self.rng.percent(10) {
                    self.put(ARRIVE, card, 0, 0);
                }
                self.release(card, lock);
            }
        }
        self.put(ARRIVE, card, 0, 0)
    }

    pub fn want(&mut self) -> Answer {
        let card = self.any_card();
        self.put(WANT, card, 0, 0)
    }

    /// Adds to a tally, mostly 1 or another small number; now and then so much
    /// that the total wraps, or nothing.
    pub fn add(&mut self, card: u8, tally: u16) -> Answer {
        let value = match self.rng.below(20) {
            0 => 0,
            1 => u32::MAX - self.rng.below(3) as u32,
            2..=3 => self.rng.next() as u32,
            4..=7 => self.rng.within(2, 9) as u32,
            _ => 1,
        };
        self.put(TALLY_ADD, card, tally, value)
    }

    /// Reads a tally.
    pub fn look(&mut self, card: u8, tally: u16) -> Answer {
        self.put(TALLY_READ, card, tally, 0)
    }

    /// Enqueues a job, mostly with a value never used before.
    pub fn enqueue(&mut self, card: u8) -> Answer {
        let value = match self.rng.below(20) {
            0 => 0,
            1 => u32::MAX - self.rng.below(3) as u32,
            2 => self.rng.next() as u32,
            3 => self.fresh,
            _ => {
                self.fresh += 1;
                self.fresh
            }
        };
        self.put(ENQUEUE, card, 0, value)
    }

    pub fn dequeue(&mut self, card: u8) -> Answer {
        self.put(DEQUEUE, card, 0, 0)
    }

    /// How many jobs wait.
    pub fn waiting_jobs(&self) -> usize {
        self.model.queue.jobs.len()
    }

    fn value(&mut self, card: u8, word: u16) -> u32 {
        match self.rng.below(100) {
            0..=4 => 0,
            5..=6 => self.fresh,
            7..=9 => self.model.word(ProcId(card), word),
            10..=14 => self.rng.next() as u32,
            _ => {
                self.fresh += 1;
                self.fresh
            }
        }
    }

    /// Whether the card has not arrived and waits for no lock.
    pub fn acts(&self, card: u8) -> bool {
        let card = ProcId(card);
        !self.model.has_arrived(card) && self.model.awaited_by(card).is_none()
    }

    /// Any card, most often one that may act.
    pub fn any_card(&mut self) -> u8 {
        let acting: Vec<u8> = (1..=self.cards).filter(|card| self.acts(*card)).collect();
        if self.rng.percent(85) {
            self.rng.pick(&acting)
        } else {
            self.rng.within(1, self.cards.into()) as u8
        }
    }

    pub fn any_word(&mut self) -> u16 {
        self.rng.below(usize::from(self.pages) * 32) as u16
    }

    pub fn any_lock(&mut self) -> u16 {
        self.rng.below(self.locks.into()) as u16
    }

    /// A tally, often the first or the last.
    pub fn any_tally(&mut self) -> u16 {
        match self.rng.below(4) {
            0 => 0,
            1 => TALLIES - 1,
            _ => self.rng.below(TALLIES.into()) as u16,
        }
    }

    pub fn holder(&self, lock: u16) -> Option<u8> {
        self.model.locks[&LockId(lock)].holder.map(|card| card.0)
    }

    pub fn held_by(&self, card: u8) -> Vec<u16> {
        let held = |lock: &u16| self.holder(*lock) == Some(card);
        (0..self.locks).filter(held).collect()
    }

    /// How many cards wait for the lock.
    fn waiters(&self, lock: u16) -> usize {
        self.model.locks[&LockId(lock)].line.len()
    }

    /// On whom the lock depends, and by which lock: its holder, or whom that
    /// one waits for, and so on to a card that does not wait.
    fn keeper(&self, mut lock: u16) -> Option<(u8, u16)> {
        loop {
            let holder = self.holder(lock)?;
            match self.model.awaited_by(ProcId(holder)) {
                Some(next) => lock = next.0,
                None => return Some((holder, lock)),
            }
        }
    }

    /// Whether the card may ask for the lock and nobody hangs by it.
    pub fn may_ask(&self, card: u8, lock: u16) -> bool {
        match self.keeper(lock) {
            None => true,
            Some((keeper, _)) => self.waiting && keeper != card,
        }
    }

    /// The card asks for a lock, more often a free one than one that is held.
    /// If it may not, the keeper should free what it holds.
    pub fn ask(&mut self, card: u8) {
        let is_free = |lock: &u16| self.holder(*lock).is_none();
        let (free, held): (Vec<u16>, Vec<u16>) = (0..self.locks).partition(is_free);
        let wait = self.waiting && !held.is_empty() && self.rng.percent(40);
        let list = if free.is_empty() || wait { held } else { free };
        let lock = self.rng.pick(&list);
        match self.keeper(lock) {
            Some((keeper, held)) if !self.may_ask(card, lock) => self.release(keeper, held),
            _ => self.acquire(card, lock),
        };
    }

    /// Releases a lock the card holds, most often one for which others wait;
    /// without one it tries any lock.
    pub fn release_some(&mut self, card: u8) -> Answer {
        let held = self.held_by(card);
        if held.is_empty() || self.rng.percent(4) {
            let lock = self.any_lock();
            return self.release(card, lock);
        }
        let is_awaited = |lock: &u16| self.waiters(*lock) > 0;
        let awaited: Vec<u16> = held.iter().copied().filter(is_awaited).collect();
        let lock = match awaited.is_empty() || self.rng.percent(30) {
            true => self.rng.pick(&held),
            false => self.rng.pick(&awaited),
        };
        self.release(card, lock)
    }

    /// Closes the card's interval, if it may act, by freeing a lock or asking
    /// for one.
    pub fn close_by_lock(&mut self, card: u8) {
        match self.held_by(card).first() {
            Some(lock) => {
                self.release(card, *lock);
            }
            None => self.ask(card),
        }
    }

    /// Locks are freed until the card waits no more.
    pub fn serve(&mut self, card: u8) {
        while let Some(lock) = self.model.awaited_by(ProcId(card)) {
            if let Some((keeper, held)) = self.keeper(lock.0) {
                self.release(keeper, held);
            }
        }
    }

    /// Everybody arrives, in any order, with other turns in between (none
    /// after the last arrival).
    pub fn round(&mut self, between: &mut dyn FnMut(&mut Script)) {
        let mut order: Vec<u8> = (1..=self.cards).collect();
        self.rng.shuffle(&mut order);
        for card in order {
            while self.rng.percent(30) {
                between(self);
            }
            self.serve(card);
            self.arrive(card);
        }
    }

    /// How full the space for records is.
    pub fn standing(&self) -> usize {
        self.model.records_and_dirty()
    }
}
