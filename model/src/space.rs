//! What a forecast keeps of the mainframe (document 02, request L8), and what a
//! step does to it: no page contents, no values, and of a clock only the card's
//! own entry. No clock entry exceeds that one, so nothing that a card learns
//! alters it.
//!
//! Written from the documents alone and apart from `model.rs`, as a second
//! opinion on it too: shared are the fields of a step and the names of its kinds.

use crate::forecast_lines::Figures;
use crate::model::{Step, ACQUIRE, ARRIVE, DEQUEUE, ENQUEUE, READ, RELEASE, WANT, WRITE};
use crate::model::{TALLY_ADD, TALLY_READ};
use crate::space_fault::SpaceFault;
use std::collections::VecDeque;

/// "Cards 1 to 8", "Pages 1 to 8, locks 1 to 16"
const MOST_OF_EACH: [u8; 3] = [8, 8, 16];
/// "A page is 32 words"
const PAGE_WORDS: usize = 32;
/// L4: "there are 16 tallies"
const TALLIES: usize = 16;
/// "an interval number 1 to 63"
const INTERVALS: usize = 63;
/// "At most 128 stand."
const ROOM: usize = 128;
/// L9: "One queue holds up to 32 jobs"
const JOBS: usize = 32;

/// What is kept of a card.
struct Card {
    /// Its own entry: the intervals it has made since the last collection.
    own: usize,
    /// A mark for each page.
    dirty: Vec<bool>,
    arrived: bool,
}

/// The mainframe, without its words and clocks.
pub struct Space {
    /// Card n is at n - 1.
    cards: Vec<Card>,
    /// For each lock who is in turn: the holder, then those who wait, the
    /// longest first. A free lock has nobody.
    locks: Vec<VecDeque<u8>>,
    records: usize,
    wanted: bool,
    /// How many jobs wait: their values and clocks are left out.
    jobs: usize,
    fault: Option<SpaceFault>,
}

// Opening, and questions about the state.
impl Space {
    /// "The opening record holds 0, cards, pages, locks, four zeros." Nothing if
    /// it is refused.
    pub fn open(record: [u8; 8], fault: Option<SpaceFault>) -> Option<Space> {
        let [0, counts @ .., 0, 0, 0, 0] = record else {
            return None;
        };
        let mut in_range = counts.iter().zip(MOST_OF_EACH);
        if !in_range.all(|(count, most)| (1..=most).contains(count)) {
            return None;
        }
        let [cards, pages, locks] = counts.map(usize::from);
        let card = || Card {
            own: 0,
            dirty: vec![false; pages],
            arrived: false,
        };
        Some(Space {
            cards: (0..cards).map(|_| card()).collect(),
            locks: vec![VecDeque::new(); locks],
            records: 0,
            wanted: false,
            jobs: 0,
            fault,
        })
    }

    pub fn figures(&self) -> Figures {
        let pages = self.cards.iter().flat_map(|card| &card.dirty);
        let dirty = match self.has(SpaceFault::DirtyOnce) {
            false => pages.filter(|mark| **mark).count(),
            true => self.dirty_by_any(),
        };
        Figures {
            records: self.records,
            dirty,
        }
    }

    fn dirty_by_any(&self) -> usize {
        let is_dirty = |page: &usize| self.cards.iter().any(|card| card.dirty[*page]);
        (0..self.pages()).filter(is_dirty).count()
    }

    fn has(&self, fault: SpaceFault) -> bool {
        self.fault == Some(fault)
    }

    fn pages(&self) -> usize {
        self.cards[0].dirty.len()
    }

    fn card(&mut self, number: u8) -> &mut Card {
        &mut self.cards[usize::from(number) - 1]
    }
}

// Refusals: the first that applies, or 0.
impl Space {
    fn refusal(&self, step: &Step) -> u32 {
        let by_name = &[(3, !is_kind(step.kind)), (4, !self.is_card(step.card))];
        if let Some(refusal) = first_of(by_name) {
            return refusal;
        }
        let at_barrier = self.cards[usize::from(step.card) - 1].arrived;
        // L1: "17, a step by a waiting card, after 6"; L7: "18, an arrival by a
        // holder, after 17"; L9: "19, enqueue with 32 jobs waiting; 20, dequeue
        // with none; both after 18"
        let by_state = &[
            (5, !self.fields_fit(step)),
            (6, at_barrier),
            (17, self.waits(step.card)),
            (18, step.kind == ARRIVE && self.holds_any(step.card)),
            (19, step.kind == ENQUEUE && self.jobs == JOBS),
            (20, step.kind == DEQUEUE && self.jobs == 0),
        ];
        first_of(by_state).unwrap_or_else(|| self.refusal_by_kind(step))
    }

    fn is_card(&self, number: u8) -> bool {
        (1..=self.cards.len()).contains(&number.into())
    }

    /// Object: a word, a lock, a tally, else 0. Value: any for a write, for an add
    /// to a tally and for an enqueue, else 0.
    fn fields_fit(&self, step: &Step) -> bool {
        let objects = match step.kind {
            READ | WRITE => PAGE_WORDS * self.pages(),
            ACQUIRE | RELEASE => self.locks.len(),
            TALLY_ADD | TALLY_READ => TALLIES,
            _ => 1,
        };
        let has_value = matches!(step.kind, WRITE | TALLY_ADD | ENQUEUE);
        usize::from(step.object) < objects && (has_value || step.value == 0)
    }

    fn waits(&self, card: u8) -> bool {
        let mut waiting = self.locks.iter().flat_map(|turn| turn.iter().skip(1));
        waiting.any(|waiter| *waiter == card)
    }

    fn holds_any(&self, card: u8) -> bool {
        self.locks.iter().any(|turn| turn.front() == Some(&card))
    }

    fn refusal_by_kind(&self, step: &Step) -> u32 {
        let object = usize::from(step.object);
        let holds = |lock: usize| self.locks[lock].front() == Some(&step.card);
        match step.kind {
            ACQUIRE if holds(object) => 7,
            RELEASE if !holds(object) => 8,
            WRITE => self.refusal_of_store(step.card, object / PAGE_WORDS),
            _ => 0,
        }
    }

    /// "Write, clean page 9: own entry is 63", "10: records plus dirty pages
    /// are 128"
    fn refusal_of_store(&self, card: u8, page: usize) -> u32 {
        let card = &self.cards[usize::from(card) - 1];
        if card.dirty[page] {
            return 0;
        }
        let Figures { records, dirty } = self.figures();
        let used = match self.has(SpaceFault::TenByRecords) {
            false => records + dirty,
            true => records,
        };
        let mut rows = [(9, card.own == INTERVALS), (10, used == ROOM)];
        if self.has(SpaceFault::TenFirst) {
            rows.reverse();
        }
        first_of(&rows).unwrap_or(0)
    }
}

/// "3: kind not 1 to 6"; L4: "kinds 8 and 9 leave the reach of 3"; L9: so do "kinds
/// 10 and 11"
fn is_kind(kind: u8) -> bool {
    matches!(kind, 1..=6 | 8..=11)
}

fn first_of(rows: &[(u32, bool)]) -> Option<u32> {
    let mut applying = rows.iter().filter(|(_, applies)| *applies);
    applying.next().map(|(refusal, _)| *refusal)
}

// Steps.
impl Space {
    /// Takes a step, or answers its refusal and leaves everything as it is.
    pub fn step(&mut self, step: &Step) -> u32 {
        let refusal = self.refusal(step);
        if refusal == 0 || (self.has(SpaceFault::RefusedStores) && matches!(refusal, 9 | 10)) {
            self.take(step);
        }
        if self.has(SpaceFault::RefusedJobs) && matches!(refusal, 19 | 20) {
            self.close(step.card);
        }
        refusal
    }

    /// Reads, and both kinds of step on tallies, use no space.
    fn take(&mut self, step: &Step) {
        let object = usize::from(step.object);
        match step.kind {
            WRITE => self.card(step.card).dirty[object / PAGE_WORDS] = true,
            ACQUIRE => self.ask(step.card, object),
            RELEASE => self.release(step.card, object),
            ARRIVE => self.arrive(step.card),
            WANT => self.wanted = true,
            ENQUEUE => self.enqueue(step.card),
            DEQUEUE => self.dequeue(step.card),
            _ => {}
        }
    }

    /// L2: "each dirty page now gets a record at closing", and "an interval is
    /// made for any dirty page".
    fn close(&mut self, card: u8) {
        let clean = vec![false; self.pages()];
        let before = std::mem::replace(&mut self.card(card).dirty, clean);
        let made = before.iter().filter(|mark| **mark).count();
        if made > 0 || self.has(SpaceFault::CloseClean) {
            self.card(card).own += 1;
        }
        self.records += match self.has(SpaceFault::CloseOne) {
            false => made,
            true => made.min(1),
        };
    }

    /// L1: at a free lock the card is the holder, at a held one "the asker's
    /// interval closes and the card waits".
    fn ask(&mut self, card: u8, lock: usize) {
        let held = !self.locks[lock].is_empty();
        if !(held && self.has(SpaceFault::AskerOpen)) {
            self.close(card);
        }
        self.locks[lock].push_back(card);
    }

    /// L1: "At a release the lock goes to the longest waiter".
    fn release(&mut self, card: u8, lock: usize) {
        self.close(card);
        self.locks[lock].pop_front();
        if self.has(SpaceFault::LineForgotten) {
            self.locks[lock].clear();
        }
    }

    /// "Arrive: close; ... mark the card. When the last card arrives ... marks
    /// clear."
    fn arrive(&mut self, card: u8) {
        self.close(card);
        self.card(card).arrived = true;
        if self.cards.iter().all(|card| card.arrived) {
            self.complete_round();
        } else if self.has(SpaceFault::MarkForgotten) {
            self.card(card).arrived = false;
        }
    }

    /// L9: "Kind 10 closes the card's interval and adds".
    fn enqueue(&mut self, card: u8) {
        if !self.has(SpaceFault::EnqueueOpen) {
            self.close(card);
        }
        self.jobs += 1;
    }

    /// L9: "kind 11 closes, removes the oldest job".
    fn dequeue(&mut self, card: u8) {
        if !self.has(SpaceFault::DequeueOpen) {
            self.close(card);
        }
        if !self.has(SpaceFault::JobsKept) {
            self.jobs -= 1;
        }
    }

    /// "If collection is wanted ... records go, all clocks ... become zeros, and
    /// the wish clears." L9: the jobs stay.
    fn complete_round(&mut self) {
        self.cards.iter_mut().for_each(|card| card.arrived = false);
        if !self.wanted && !self.has(SpaceFault::EveryRound) {
            return;
        }
        self.wanted = self.has(SpaceFault::WishKept);
        if !self.has(SpaceFault::RecordsKept) {
            self.records = 0;
        }
        if !self.has(SpaceFault::EntriesKept) {
            self.cards.iter_mut().for_each(|card| card.own = 0);
        }
        if self.has(SpaceFault::JobsCollected) {
            self.jobs = 0;
        }
    }
}
