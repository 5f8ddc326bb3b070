//! The rules of document 01 with requests L1, L2, L4 to L7 and L9 of document
//! 02: opening, the ten kinds of step, their refusals, the lines of cards that
//! wait for locks, a record for each dirty page at closing, tallies, fetches
//! that skip what later records replace (`skip.rs`), the words that they set
//! (`moved.rs`), and the queue of jobs (`queue.rs`).
//!
//! Written from the documents alone, as plainly as they state them. Quoted
//! text is theirs; "L1", "L2" or so stands before that of document 02.
//! A card is a processor here; nothing is encoded.

use crate::clock::{IntervalId, LockId, PageId, ProcId, TallyId, VectorClock};
use crate::diff::{Diff, PAGE_WORDS};
use crate::fault::Fault;
use crate::moved::{handed_on_faulty, words_faulty, Moved};
use crate::queue::{Job, Queue};
use crate::skip::{unreplaced, unreplaced_faulty};
use std::collections::{BTreeMap, VecDeque};

pub const READ: u8 = 1;
pub const WRITE: u8 = 2;
pub const ACQUIRE: u8 = 3;
pub const RELEASE: u8 = 4;
pub const ARRIVE: u8 = 5;
pub const WANT: u8 = 6;
/// L4: "Kind 8 adds the value to the tally named by the object; kind 9 reads
/// it."
pub const TALLY_ADD: u8 = 8;
pub const TALLY_READ: u8 = 9;
/// L9: "Kind 10 closes the card's interval and adds the value with the card's
/// clock; kind 11 closes, removes the oldest job, learns its clock and answers
/// its value."
pub const ENQUEUE: u8 = 10;
pub const DEQUEUE: u8 = 11;

/// "an interval number 1 to 63"
pub const MOST_INTERVALS: u32 = 63;
/// "At most 128 stand."
pub const MOST_RECORDS: usize = 128;
/// L4: "there are 16 tallies", whatever the opening says.
pub const TALLIES: u16 = 16;
/// L4: "Totals wrap at 4,294,967,296."
pub const WRAP: u64 = 4_294_967_296;

/// A step with any fields: "kind, card, object, value".
#[derive(Clone, Copy, Debug, PartialEq, Eq)]
pub struct Step {
    pub kind: u8,
    pub card: u8,
    pub object: u16,
    pub value: u32,
}

/// "refusal or 0, value, count", and L6's number of words set.
#[derive(Clone, Copy, Debug, PartialEq, Eq)]
pub struct Answer {
    pub refusal: u32,
    pub value: u32,
    pub count: u32,
    pub words: u32,
}

impl Answer {
    /// A refusal: "Value 0, count 0", and no words.
    pub fn refused(refusal: u32) -> Answer {
        Answer {
            refusal,
            ..Answer::accepted(0, Moved::NOTHING)
        }
    }

    pub fn accepted(value: u32, moved: Moved) -> Answer {
        let Moved { count, words } = moved;
        Answer {
            refusal: 0,
            value,
            count,
            words,
        }
    }

    /// "Where no count is named it is 0."
    pub fn done() -> Answer {
        Answer::accepted(0, Moved::NOTHING)
    }

    /// The four numbers, as a line.
    pub fn text(&self) -> String {
        let Answer {
            refusal,
            value,
            count,
            words,
        } = self;
        format!("{refusal} {value} {count} {words}\n")
    }
}

/// One card's copy of one page.
#[derive(Clone)]
pub struct PageCopy {
    pub words: Vec<u32>,
    /// "a dirty one has a twin, its 32 words before the first store"
    pub twin: Option<Vec<u32>>,
    /// "for each page an applied clock"
    pub applied: VectorClock,
}

/// One card.
#[derive(Clone)]
pub struct Processor {
    pub clock: VectorClock,
    pub pages: BTreeMap<PageId, PageCopy>,
}

/// "A change record has a card, an interval number 1 to 63, a page and a
/// change."
#[derive(Clone)]
pub struct Record {
    pub card: ProcId,
    pub interval: IntervalId,
    pub page: PageId,
    pub diff: Diff,
}

/// "A lock has a holder and a clock." L1: "The lock's record gains its line of
/// waiters."
#[derive(Clone)]
pub struct Lock {
    pub holder: Option<ProcId>,
    pub clock: VectorClock,
    /// The cards that wait, the longest first.
    pub line: VecDeque<ProcId>,
}

/// "The barrier has an arrived mark for each card, a clock and a mark that
/// collection is wanted."
#[derive(Clone)]
pub struct Barrier {
    pub arrived: BTreeMap<ProcId, bool>,
    pub clock: VectorClock,
    pub wanted: bool,
}

/// L4: "the total posted at the last completed round", and for each card its
/// "own adds since".
#[derive(Clone)]
pub struct Tally {
    pub posted: u32,
    pub since: BTreeMap<ProcId, u32>,
}

/// The mainframe.
#[derive(Clone)]
pub struct Model {
    pub processors: BTreeMap<ProcId, Processor>,
    pub records: Vec<Record>,
    /// "Each interval keeps the clock of its card just after closing"
    pub intervals: BTreeMap<(ProcId, IntervalId), VectorClock>,
    pub locks: BTreeMap<LockId, Lock>,
    pub barrier: Barrier,
    pub tallies: BTreeMap<TallyId, Tally>,
    pub queue: Queue,
    fault: Option<Fault>,
}

/// Word w lies on page w / 32, at offset w % 32.
fn place(word: u16) -> (PageId, usize) {
    let word = usize::from(word);
    (PageId((word / PAGE_WORDS) as u16), word % PAGE_WORDS)
}

fn fresh_page() -> PageCopy {
    PageCopy {
        words: vec![0; PAGE_WORDS],
        twin: None,
        applied: VectorClock::zeros(),
    }
}

fn fresh_processor(pages: u8) -> Processor {
    let page = |number| (PageId(number), fresh_page());
    Processor {
        clock: VectorClock::zeros(),
        pages: (0..u16::from(pages)).map(page).collect(),
    }
}

fn fresh_lock() -> Lock {
    Lock {
        holder: None,
        clock: VectorClock::zeros(),
        line: VecDeque::new(),
    }
}

fn fresh_tally(cards: impl Iterator<Item = ProcId>) -> Tally {
    Tally {
        posted: 0,
        since: cards.map(|card| (card, 0)).collect(),
    }
}

// Opening.
impl Model {
    /// "The opening record holds 0, cards, pages, locks, four zeros."
    /// Otherwise refusal 2: "first byte not 0, a count out of range, or
    /// bytes 4 to 7 not all 0".
    pub fn open(record: [u8; 8], fault: Option<Fault>) -> Result<Model, Answer> {
        let [first, cards, pages, locks, rest @ ..] = record;
        let counts = (1..=8).contains(&cards) && (1..=8).contains(&pages);
        let counts = counts && (1..=16).contains(&locks);
        if first != 0 || !counts || rest != [0; 4] {
            return Err(Answer::refused(2));
        }
        Ok(Model::fresh(cards, pages, locks, fault))
    }

    fn fresh(cards: u8, pages: u8, locks: u8, fault: Option<Fault>) -> Model {
        let cards = (1..=cards).map(ProcId);
        let locks = (0..u16::from(locks)).map(LockId);
        let tallies = (0..TALLIES).map(TallyId);
        Model {
            processors: cards.clone().map(|p| (p, fresh_processor(pages))).collect(),
            records: Vec::new(),
            intervals: BTreeMap::new(),
            locks: locks.map(|l| (l, fresh_lock())).collect(),
            barrier: Barrier {
                arrived: cards.clone().map(|p| (p, false)).collect(),
                clock: VectorClock::zeros(),
                wanted: false,
            },
            tallies: tallies.map(|t| (t, fresh_tally(cards.clone()))).collect(),
            queue: Queue::default(),
            fault,
        }
    }
}

// Questions about the state.
impl Model {
    fn cards(&self) -> Vec<ProcId> {
        self.processors.keys().copied().collect()
    }

    /// Pages are the same for each card.
    fn pages(&self) -> Vec<PageId> {
        let first = &self.processors[&ProcId(1)];
        first.pages.keys().copied().collect()
    }

    fn page_present(&self, page: PageId) -> bool {
        self.processors[&ProcId(1)].pages.contains_key(&page)
    }

    pub fn own_entry(&self, card: ProcId) -> u32 {
        self.processors[&card].clock.entry(card)
    }

    fn page(&self, card: ProcId, page: PageId) -> &PageCopy {
        &self.processors[&card].pages[&page]
    }

    /// The word as it stands in a present card's copy, without a fetch.
    pub fn word(&self, card: ProcId, word: u16) -> u32 {
        let (page, offset) = place(word);
        self.page(card, page).words[offset]
    }

    fn page_mut(&mut self, card: ProcId, page: PageId) -> &mut PageCopy {
        let processor = self.processors.get_mut(&card).expect("present card");
        processor.pages.get_mut(&page).expect("present page")
    }

    fn processor_mut(&mut self, card: ProcId) -> &mut Processor {
        self.processors.get_mut(&card).expect("present card")
    }

    fn lock_mut(&mut self, lock: LockId) -> &mut Lock {
        self.locks.get_mut(&lock).expect("present lock")
    }

    fn is_dirty(&self, card: ProcId, page: PageId) -> bool {
        self.page(card, page).twin.is_some()
    }

    /// "records plus dirty pages, counted over all cards"
    pub fn records_and_dirty(&self) -> usize {
        let pages = self.processors.values().flat_map(|p| p.pages.values());
        self.records.len() + pages.filter(|page| page.twin.is_some()).count()
    }

    /// "for intervals not made that clock is zeros"
    fn interval_clock(&self, card: ProcId, interval: IntervalId) -> VectorClock {
        let kept = self.intervals.get(&(card, interval));
        kept.cloned().unwrap_or(VectorClock::zeros())
    }

    pub fn has_arrived(&self, card: ProcId) -> bool {
        self.barrier.arrived[&card]
    }

    /// Whether the card is the holder of any lock, waited for or not.
    fn holds_any(&self, card: ProcId) -> bool {
        self.locks.values().any(|lock| lock.holder == Some(card))
    }

    /// The lock in whose line the card stands.
    pub fn awaited_by(&self, card: ProcId) -> Option<LockId> {
        let mut locks = self.locks.iter();
        let found = locks.find(|(_, lock)| lock.line.contains(&card));
        found.map(|(name, _)| *name)
    }
}

// Refusals, "top to bottom ... the first that applies is given, and only
// then."
impl Model {
    fn refusal(&self, step: &Step) -> Option<u32> {
        // "3: kind not 1 to 6"; L4: "kinds 8 and 9 leave the reach of 3"; L9:
        // "kinds 10 and 11 leave the reach of 3"
        if !matches!(step.kind, READ..=WANT | TALLY_ADD..=DEQUEUE) {
            return Some(3);
        }
        // "4: card absent"
        let card = ProcId(step.card);
        if !self.processors.contains_key(&card) {
            return Some(4);
        }
        if self.fault == Some(Fault::HolderFirst) && step.kind == ARRIVE && self.holds_any(card) {
            return Some(18);
        }
        if self.fault == Some(Fault::QueueFirst) && self.refusal_by_queue(step).is_some() {
            return self.refusal_by_queue(step);
        }
        // "5: word or lock absent, or an unused field not 0"; L4: "an absent
        // tally is 5"
        if !self.fields_fit(step) {
            return Some(5);
        }
        // "6: card has arrived, round not complete"
        if self.has_arrived(card) {
            return Some(6);
        }
        // L1: "17, a step by a waiting card, after 6"
        if self.awaited_by(card).is_some() {
            return Some(17);
        }
        // L7: "18, an arrival by a holder, after 17"
        if step.kind == ARRIVE && self.found_holding(card) {
            return Some(18);
        }
        let by_queue = self.refusal_by_queue(step);
        by_queue.or_else(|| self.refusal_by_kind(step, card))
    }

    /// L9: "19, enqueue with 32 jobs waiting; 20, dequeue with none; both after
    /// 18"
    fn refusal_by_queue(&self, step: &Step) -> Option<u32> {
        let never = self.fault == Some(Fault::EmptyPasses);
        match step.kind {
            ENQUEUE if self.queue.is_full(self.fault) => Some(19),
            DEQUEUE if self.queue.is_empty() && !never => Some(20),
            _ => None,
        }
    }

    /// Whether a card that arrives is found to be a holder.
    fn found_holding(&self, card: ProcId) -> bool {
        match self.fault {
            None => self.holds_any(card),
            Some(fault) => self.found_holding_faulty(fault, card),
        }
    }

    /// "Object is the word (kinds 1, 2) or lock (3, 4), else 0; value is used
    /// by kind 2 alone." L4: the object of kinds 8 and 9 is the tally, and kind
    /// 8 has a value. L9: "The object of both kinds is 0, and kind 11 has no value
    /// field in use."
    fn fields_fit(&self, step: &Step) -> bool {
        let object_fits = match step.kind {
            READ | WRITE => self.page_present(place(step.object).0),
            ACQUIRE | RELEASE => self.locks.contains_key(&LockId(step.object)),
            TALLY_ADD | TALLY_READ => self.tallies.contains_key(&TallyId(step.object)),
            _ => step.object == 0,
        };
        object_fits && (matches!(step.kind, WRITE | TALLY_ADD | ENQUEUE) || step.value == 0)
    }

    fn refusal_by_kind(&self, step: &Step, card: ProcId) -> Option<u32> {
        match step.kind {
            // L1: "7 remains for the holder's own acquire"
            ACQUIRE if self.locks[&LockId(step.object)].holder == Some(card) => Some(7),
            // "Release 8: this card is not the holder"
            RELEASE if self.locks[&LockId(step.object)].holder != Some(card) => Some(8),
            WRITE if !self.is_dirty(card, place(step.object).0) => self.refusal_on_clean(card),
            _ => None,
        }
    }

    fn refusal_on_clean(&self, card: ProcId) -> Option<u32> {
        // "Write, clean page 9: own entry is 63"
        if self.own_entry(card) == MOST_INTERVALS {
            return Some(9);
        }
        // "Write, clean page 10: records plus dirty pages are 128"
        if self.records_and_dirty() == MOST_RECORDS {
            return Some(10);
        }
        None
    }
}

// The ten kinds of step.
impl Model {
    /// Takes or refuses one step. A refused step changes nothing.
    pub fn step(&mut self, step: &Step) -> Answer {
        if let Some(number) = self.refusal(step) {
            return Answer::refused(number);
        }
        let answer = self.take(step);
        match self.fault {
            None => answer,
            Some(fault) => handed_on_faulty(fault, step.kind, answer),
        }
    }

    fn take(&mut self, step: &Step) -> Answer {
        let card = ProcId(step.card);
        match step.kind {
            READ => self.read(card, step.object),
            WRITE => self.write(card, step.object, step.value),
            ACQUIRE => self.acquire(card, LockId(step.object)),
            RELEASE => self.release(card, LockId(step.object)),
            ARRIVE => self.arrive(card),
            TALLY_ADD => self.add_to_tally(card, TallyId(step.object), step.value),
            TALLY_READ => self.read_tally(card, TallyId(step.object)),
            ENQUEUE => self.enqueue(card, step.value),
            DEQUEUE => self.dequeue(card),
            _ => self.want_collection(),
        }
    }

    /// "Read: fetch, then answer the word."
    fn read(&mut self, card: ProcId, word: u16) -> Answer {
        let moved = self.fetch(card, place(word).0);
        Answer::accepted(self.word(card, word), moved)
    }

    /// "Write: fetch; if the page is clean, take the twin; store."
    fn write(&mut self, card: ProcId, word: u16, value: u32) -> Answer {
        let (page, offset) = place(word);
        let moved = self.fetch(card, page);
        let copy = self.page_mut(card, page);
        if copy.twin.is_none() {
            copy.twin = Some(copy.words.clone());
        }
        copy.words[offset] = value;
        Answer::accepted(0, moved)
    }

    /// "Acquire: close; the card becomes holder; its clock joins the lock's."
    /// L1: "An acquire of a lock held by another card is now accepted: the
    /// asker's interval closes and the card waits."
    fn acquire(&mut self, card: ProcId, lock: LockId) -> Answer {
        if self.fault == Some(Fault::LearnFirst) {
            self.learn(card, lock);
        }
        self.close(card);
        match self.locks[&lock].holder {
            None => self.hand_to(card, lock),
            Some(_) => self.lock_mut(lock).line.push_back(card),
        }
        Answer::done()
    }

    /// "Release: close; holder becomes 0; the lock's clock becomes the
    /// card's." L1: "At a release the lock goes to the longest waiter, which
    /// becomes holder and learns the lock's clock in that same step."
    fn release(&mut self, card: ProcId, lock: LockId) -> Answer {
        self.close(card);
        let mut clock = self.processors[&card].clock.clone();
        if self.fault == Some(Fault::LockOwn) {
            clock = clock.with_entry_alone(card);
        }
        self.lock_mut(lock).holder = None;
        self.lock_mut(lock).clock = clock;
        if let Some(waiter) = self.lock_mut(lock).line.pop_front() {
            self.hand_to(waiter, lock);
        }
        Answer::done()
    }

    /// "the card becomes holder; its clock joins the lock's"
    fn hand_to(&mut self, card: ProcId, lock: LockId) {
        self.lock_mut(lock).holder = Some(card);
        self.learn(card, lock);
    }

    fn learn(&mut self, card: ProcId, lock: LockId) {
        let news = self.locks[&lock].clock.clone();
        self.processor_mut(card).clock.join(&news);
    }

    /// "Arrive: close; the barrier's clock joins the card's; mark the card."
    fn arrive(&mut self, card: ProcId) -> Answer {
        self.close(card);
        self.barrier.clock.join(&self.processors[&card].clock);
        self.barrier.arrived.insert(card, true);
        let complete = self.barrier.arrived.values().all(|mark| *mark);
        match complete {
            true => Answer::accepted(0, self.complete_round()),
            false => Answer::done(),
        }
    }

    /// "When the last card arrives, each card's clock joins the barrier's,
    /// which returns to zeros, and marks clear." L4: totals are posted, whether
    /// collection is wanted or not; a collection leaves them alone.
    fn complete_round(&mut self) -> Moved {
        if self.barrier.wanted || self.fault != Some(Fault::PostWanted) {
            self.post_tallies();
        }
        for processor in self.processors.values_mut() {
            processor.clock.join(&self.barrier.clock);
        }
        self.barrier.clock = VectorClock::zeros();
        for mark in self.barrier.arrived.values_mut() {
            *mark = false;
        }
        match self.barrier.wanted {
            true => self.collect(),
            false => Moved::NOTHING,
        }
    }

    /// "If collection is wanted, each card upwards fetches each page upwards;
    /// then records go, all clocks (of cards, applied, of locks, of
    /// intervals) become zeros, and the wish clears. The count is the sum of
    /// these fetches." L6: so are the words.
    fn collect(&mut self) -> Moved {
        let mut moved = Moved::NOTHING;
        for card in self.cards() {
            for page in self.pages() {
                moved.add(self.fetch(card, page));
            }
        }
        self.records.clear();
        self.zero_clocks();
        self.barrier.wanted = false;
        moved
    }

    fn zero_clocks(&mut self) {
        for processor in self.processors.values_mut() {
            processor.clock = VectorClock::zeros();
            for copy in processor.pages.values_mut() {
                copy.applied = VectorClock::zeros();
            }
        }
        for lock in self.locks.values_mut() {
            lock.clock = VectorClock::zeros();
        }
        self.intervals.clear();
        match self.fault {
            None => self.queue.zero_clocks(),
            Some(fault) => self.queue.collect_faulty(fault),
        }
    }

    /// "Want collection: set the wish; setting it again changes nothing."
    fn want_collection(&mut self) -> Answer {
        self.barrier.wanted = true;
        Answer::done()
    }
}

// Tallies (L4). They close nothing and fetch nothing.
impl Model {
    /// "Kind 8 adds the value to the tally named by the object": to the card's
    /// own adds.
    fn add_to_tally(&mut self, card: ProcId, tally: TallyId, value: u32) -> Answer {
        let added = self.sum([self.tallies[&tally].since[&card], value]);
        self.tally_mut(tally).since.insert(card, added);
        Answer::done()
    }

    /// "Kind 9 answers the posted total plus the card's own adds since,
    /// wrapped, as its value."
    fn read_tally(&self, card: ProcId, tally: TallyId) -> Answer {
        let Tally { posted, since } = &self.tallies[&tally];
        Answer::accepted(self.sum([*posted, since[&card]]), Moved::NOTHING)
    }

    /// "The posted total is the sum of all accepted adds of finished rounds":
    /// at the end of a round each tally takes in what each card has added.
    fn post_tallies(&mut self) {
        let cards = self.cards_posted();
        let names: Vec<TallyId> = self.tallies.keys().copied().collect();
        for name in names {
            let Tally { posted, since } = &self.tallies[&name];
            let adds = cards.iter().map(|card| since[card]);
            let total = self.sum([*posted].into_iter().chain(adds));
            let keep = self.fault == Some(Fault::AddsKept);
            let tally = self.tally_mut(name);
            tally.posted = total;
            if !keep {
                tally.since.values_mut().for_each(|added| *added = 0);
            }
        }
    }

    /// The cards whose adds are posted: all, unless there is a fault.
    fn cards_posted(&self) -> Vec<ProcId> {
        let mut cards = self.cards();
        match self.fault {
            Some(Fault::PostShort) => cards.truncate(cards.len() - 1),
            Some(Fault::PostFirst) => cards.fill(ProcId(1)),
            _ => {}
        }
        cards
    }

    /// "Totals wrap at 4,294,967,296."
    fn sum(&self, numbers: impl IntoIterator<Item = u32>) -> u32 {
        let sum: u64 = numbers.into_iter().map(u64::from).sum();
        match self.fault {
            Some(Fault::Saturate) => sum.min(WRAP - 1) as u32,
            _ => (sum % WRAP) as u32,
        }
    }

    fn tally_mut(&mut self, tally: TallyId) -> &mut Tally {
        self.tallies.get_mut(&tally).expect("present tally")
    }
}

// The queue of jobs (L9).
impl Model {
    /// "Kind 10 closes the card's interval and adds the value with the card's
    /// clock": that after the closing.
    fn enqueue(&mut self, card: ProcId, value: u32) -> Answer {
        let before = self.processors[&card].clock.clone();
        self.close(card);
        let after = self.processors[&card].clock.clone();
        let clock = match self.fault {
            Some(Fault::JobEarly) => before,
            Some(Fault::JobOwn) => after.with_entry_alone(card),
            _ => after,
        };
        self.queue.add(Job { value, clock });
        Answer::done()
    }

    /// "kind 11 closes, removes the oldest job, learns its clock and answers its
    /// value."
    fn dequeue(&mut self, card: ProcId) -> Answer {
        match self.fault {
            None => self.close(card),
            Some(fault) => self.close_for_job_faulty(fault, card),
        }
        // There is none only under a fault.
        let Some(job) = self.queue.remove(self.fault) else {
            return Answer::done();
        };
        let told = match self.fault {
            None => job.clock,
            Some(fault) => self.told_by_job_faulty(fault, job.clock),
        };
        self.processor_mut(card).clock.join(&told);
        Answer::accepted(job.value, Moved::NOTHING)
    }
}

// Close, pending and fetch.
impl Model {
    /// "for each dirty page, upwards, compare twin and copy; the page becomes
    /// clean. ... the card's own entry rises by 1, the interval keeps the
    /// card's clock". L2: "each dirty page now gets a record at closing ...
    /// and an interval is made for any dirty page". With no dirty page "no
    /// interval is made."
    fn close(&mut self, card: ProcId) {
        let diffs = self.take_diffs(card);
        if diffs.is_empty() {
            return;
        }
        let clock = &mut self.processor_mut(card).clock;
        clock.raise(card);
        let kept = clock.clone();
        let interval = IntervalId(kept.entry(card));
        self.intervals.insert((card, interval), kept);
        for (page, diff) in diffs {
            self.records.push(Record {
                card,
                interval,
                page,
                diff,
            });
        }
    }

    /// Makes each page of the card clean; gives the diff of each that was
    /// dirty. L2: "the change that is the single byte 0 where nothing
    /// differs" is the empty diff.
    fn take_diffs(&mut self, card: ProcId) -> Vec<(PageId, Diff)> {
        let mut diffs = Vec::new();
        for (page, copy) in &mut self.processor_mut(card).pages {
            if let Some(twin) = copy.twin.take() {
                diffs.push((*page, Diff::between(&twin, &copy.words)));
            }
        }
        if self.fault == Some(Fault::SkipEqual) {
            diffs.retain(|(_, diff)| !diff.is_empty());
        }
        diffs
    }

    /// "Pending for card p and page g: records of g by another card q, with
    /// interval above q's entry in the applied clock and not above q's entry
    /// in p's clock."
    pub fn pending(&self, card: ProcId, page: PageId) -> Vec<Record> {
        let known = &self.processors[&card].clock;
        let applied = &self.page(card, page).applied;
        let is_pending = |record: &&Record| {
            let IntervalId(interval) = record.interval;
            record.page == page
                && record.card != card
                && interval > applied.entry(record.card)
                && interval <= known.entry(record.card)
        };
        self.records.iter().filter(is_pending).cloned().collect()
    }

    /// "the smallest sum of its interval's clock (then smaller card, then
    /// smaller interval)"
    fn rank(&self, record: &Record) -> (u32, ProcId, IntervalId) {
        let clock = self.interval_clock(record.card, record.interval);
        (clock.sum(), record.card, record.interval)
    }

    /// "Fetch: the pending record with the smallest sum ... is applied to the
    /// copy alone, until no record is pending, each once; then the applied
    /// clock becomes p's clock." L5: a record that later ones replace, or one
    /// with no words, is skipped; "The count becomes the records applied". The
    /// applied clock becomes p's clock where all are skipped, too. L6: the words
    /// are those that the records applied set.
    fn fetch(&mut self, card: ProcId, page: PageId) -> Moved {
        let mut pending = self.pending(card, page);
        pending.sort_by_key(|record| self.rank(record));
        let moved = match self.fault {
            None => self.apply_all(card, page, &unreplaced(&pending)),
            Some(fault) => self.apply_faulty(fault, card, page, pending),
        };
        let known = self.processors[&card].clock.clone();
        self.page_mut(card, page).applied = known;
        moved
    }

    fn apply_all(&mut self, card: ProcId, page: PageId, records: &[Record]) -> Moved {
        let copy = self.page_mut(card, page);
        let mut moved = Moved::NOTHING;
        for record in records {
            let words = record.diff.apply(&mut copy.words);
            moved.add(Moved { count: 1, words });
        }
        moved
    }
}

// The faulty ways to refuse, to learn and to apply, for `model run --fault NAME`
// alone.
impl Model {
    fn close_for_job_faulty(&mut self, fault: Fault, card: ProcId) {
        match (fault, self.queue.jobs.front()) {
            (Fault::DequeueOpen, _) => return,
            (Fault::JobLearnFirst, Some(job)) => {
                let told = job.clock.clone();
                self.processor_mut(card).clock.join(&told);
            }
            _ => {}
        }
        self.close(card);
    }

    /// What a dequeue learns of a job with this clock, which is removed.
    fn told_by_job_faulty(&mut self, fault: Fault, mut clock: VectorClock) -> VectorClock {
        match fault {
            Fault::JobSilent => clock = VectorClock::zeros(),
            Fault::JobsAll => clock.join(&self.queue.all_clocks()),
            Fault::JobsHeard => self.queue.hear(&clock),
            // The others show elsewhere.
            _ => {}
        }
        clock
    }

    fn found_holding_faulty(&self, fault: Fault, card: ProcId) -> bool {
        let holds = |lock: &&Lock| lock.holder == Some(card);
        let mut held = self.locks.values().filter(holds);
        match fault {
            Fault::ArriveHolding => false,
            Fault::LockZeroAlone => self.locks[&LockId(0)].holder == Some(card),
            Fault::AwaitedAlone => held.any(|lock| !lock.line.is_empty()),
            // The others show elsewhere.
            _ => self.holds_any(card),
        }
    }

    /// What is told to be moved is what the records not skipped come to, unless
    /// the fault is one of words.
    fn apply_faulty(
        &mut self,
        fault: Fault,
        card: ProcId,
        page: PageId,
        pending: Vec<Record>,
    ) -> Moved {
        let taken = unreplaced_faulty(fault, &pending);
        let before = &self.page(card, page).words;
        let moved = Moved {
            count: taken.len() as u32,
            words: words_faulty(fault, &pending, &taken, before),
        };
        match fault {
            Fault::WholePage => self.copy_whole_page(card, page, &pending),
            _ => {
                let records = self.records_faulty(fault, card, pending, taken);
                self.apply_all(card, page, &records);
            }
        }
        moved
    }

    /// The records that are applied, in their order.
    fn records_faulty(
        &self,
        fault: Fault,
        card: ProcId,
        mut pending: Vec<Record>,
        taken: Vec<Record>,
    ) -> Vec<Record> {
        match fault {
            Fault::ByCard => {
                pending.sort_by_key(|record| (record.card, record.interval));
                pending
            }
            Fault::Join => Model::joined(&pending),
            Fault::JoinAll => self.joined_with_applied(card, &pending),
            // The others show elsewhere, or in what is skipped.
            _ => taken,
        }
    }

    /// Puts all the changes of a card into the place of its last one. Later
    /// words go last in the list, so they win.
    fn joined(right: &[Record]) -> Vec<Record> {
        let mut joined: Vec<Record> = Vec::new();
        for record in right {
            let mut whole = record.clone();
            if let Some(at) = joined.iter().position(|r| r.card == record.card) {
                let mut words = joined.remove(at).diff.0;
                words.append(&mut whole.diff.0);
                whole.diff = Diff(words);
            }
            joined.push(whole);
        }
        joined
    }

    /// As figure 2.16: the writer joins all its changes of the page, also
    /// those that this card has applied before.
    fn joined_with_applied(&self, card: ProcId, right: &[Record]) -> Vec<Record> {
        let known = &self.processors[&card].clock;
        let is_known = |r: &&Record| r.interval.0 <= known.entry(r.card);
        let in_play = |r: &&Record| right.iter().any(|x| x.card == r.card && x.page == r.page);
        let all = self.records.iter().filter(is_known).filter(in_play);
        let mut all: Vec<Record> = all.cloned().collect();
        all.sort_by_key(|record| self.rank(record));
        Model::joined(&all)
    }

    /// Takes the last writer's whole page.
    fn copy_whole_page(&mut self, card: ProcId, page: PageId, right: &[Record]) {
        if let Some(last) = right.last() {
            let whole = self.page(last.card, page).words.clone();
            self.page_mut(card, page).words = whole;
        }
    }
}
