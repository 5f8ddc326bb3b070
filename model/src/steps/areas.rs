//! The engine's four areas, read by name. Where each thing lies is said here
//! and nowhere else (crates/limits/src/lib.rt, crates/layout/specs/Areas.antt).

const CARDS: usize = 8;
const PAGES: usize = 8;
const PAGE_WORDS: usize = 32;
const LOCKS: usize = 16;
const INTERVALS: usize = 63;
const TALLIES: usize = 16;
const JOBS: usize = 32;
const SLOTS: usize = 128;
const SLOT: usize = 135;

// Rows of clocks, eight entries each: the barrier's, those of cards, locks,
// pages of each card (applied), intervals of each card, and jobs.
const FIRST_LOCK_ROW: usize = 1 + CARDS;
const FIRST_APPLIED_ROW: usize = FIRST_LOCK_ROW + LOCKS;
const FIRST_INTERVAL_ROW: usize = FIRST_APPLIED_ROW + CARDS * PAGES;
const FIRST_JOB_ROW: usize = FIRST_INTERVAL_ROW + CARDS * INTERVALS;
const CLOCK_ROWS: usize = FIRST_JOB_ROW + JOBS;

// Words: the copies, the twins, then the tallies, posted and of each card, then
// the values of jobs.
const FIRST_TALLY: usize = 2 * CARDS * PAGES * PAGE_WORDS;
const FIRST_JOB_WORD: usize = FIRST_TALLY + (CARDS + 1) * TALLIES;

// Marks.
const CARDS_PLACE: usize = 0;
const PAGES_PLACE: usize = 1;
const LOCKS_PLACE: usize = 2;
const STANDING_PLACE: usize = 3;
const STANDING_HIGH: usize = 4;
const WANTED_PLACE: usize = 5;
const FIRST_ARRIVED: usize = 6;
const FIRST_HOLDER: usize = FIRST_ARRIVED + CARDS;
const FIRST_DIRTY: usize = FIRST_HOLDER + LOCKS;
const FIRST_AWAITED: usize = FIRST_DIRTY + CARDS * PAGES;
const FIRST_TURN: usize = FIRST_AWAITED + CARDS;
const OLDEST_JOB_PLACE: usize = FIRST_TURN + CARDS;
const JOBS_PLACE: usize = OLDEST_JOB_PLACE + 1;

// The bytes of each area.
const CLOCK_BYTES: usize = CARDS * CLOCK_ROWS;
const WORD_BYTES: usize = 4 * (FIRST_JOB_WORD + JOBS);
const RECORD_BYTES: usize = SLOT * SLOTS;
const MARK_BYTES: usize = JOBS_PLACE + 1;

/// The areas of a mainframe in order.
pub struct Areas {
    clocks: Vec<u8>,
    words: Vec<u32>,
    records: Vec<u8>,
    marks: Vec<u8>,
}

/// A change record that stands.
#[derive(Debug, PartialEq, Eq)]
pub struct Record {
    pub card: u8,
    pub interval: u8,
    pub page: u8,
    /// The words that it sets, as offsets on the page, with their values.
    pub sets: Vec<(u8, u32)>,
}

/// A job that waits.
#[derive(Debug, PartialEq, Eq)]
pub struct Job<'a> {
    pub value: u32,
    pub clock: &'a [u8],
}

impl Areas {
    /// From what `areas_main.rs` prints: clocks, words, records, marks.
    pub fn from_bytes(bytes: &[u8]) -> Result<Areas, String> {
        if bytes.len() != CLOCK_BYTES + WORD_BYTES + RECORD_BYTES + MARK_BYTES {
            return Err("the areas of the static library have other sizes".to_string());
        }
        let (clocks, rest) = bytes.split_at(CLOCK_BYTES);
        let (words, rest) = rest.split_at(WORD_BYTES);
        let (records, marks) = rest.split_at(RECORD_BYTES);
        Ok(Areas {
            clocks: clocks.to_vec(),
            words: words.chunks_exact(4).map(word).collect(),
            records: records.to_vec(),
            marks: marks.to_vec(),
        })
    }

    pub fn cards(&self) -> u8 {
        self.marks[CARDS_PLACE]
    }

    pub fn pages(&self) -> u8 {
        self.marks[PAGES_PLACE]
    }

    pub fn locks(&self) -> u8 {
        self.marks[LOCKS_PLACE]
    }

    pub fn is_wanted(&self) -> bool {
        self.marks[WANTED_PLACE] != 0
    }

    pub fn has_arrived(&self, card: u8) -> bool {
        self.marks[FIRST_ARRIVED + index(card)] != 0
    }

    /// The holder of a lock, if it has one.
    pub fn holder(&self, lock: u8) -> Option<u8> {
        let holder = self.marks[FIRST_HOLDER + usize::from(lock)];
        (holder != 0).then_some(holder)
    }

    /// The lock that a card waits for.
    pub fn awaited(&self, card: u8) -> Option<u8> {
        self.marks[FIRST_AWAITED + index(card)].checked_sub(1)
    }

    /// The cards that wait for a lock, the longest first.
    pub fn line(&self, lock: u8) -> Vec<u8> {
        let mut line: Vec<u8> = (1..=self.cards())
            .filter(|card| self.awaited(*card) == Some(lock))
            .collect();
        line.sort_by_key(|card| self.marks[FIRST_TURN + index(*card)]);
        line
    }

    pub fn is_dirty(&self, card: u8, page: u8) -> bool {
        self.marks[FIRST_DIRTY + of_page(card, page)] != 0
    }

    /// The entries for the cards that there are.
    fn clock(&self, row: usize) -> &[u8] {
        &self.clocks[CARDS * row..CARDS * row + usize::from(self.cards())]
    }

    pub fn barrier_clock(&self) -> &[u8] {
        self.clock(0)
    }

    pub fn card_clock(&self, card: u8) -> &[u8] {
        self.clock(card.into())
    }

    pub fn lock_clock(&self, lock: u8) -> &[u8] {
        self.clock(FIRST_LOCK_ROW + usize::from(lock))
    }

    pub fn applied_clock(&self, card: u8, page: u8) -> &[u8] {
        self.clock(FIRST_APPLIED_ROW + of_page(card, page))
    }

    /// The clock that an interval, from 1, keeps.
    pub fn interval_clock(&self, card: u8, interval: u8) -> &[u8] {
        self.clock(FIRST_INTERVAL_ROW + INTERVALS * index(card) + usize::from(interval) - 1)
    }

    pub fn standing(&self) -> usize {
        usize::from(self.marks[STANDING_PLACE]) + 256 * usize::from(self.marks[STANDING_HIGH])
    }

    /// The records in the order of their slots, which is that of their making.
    pub fn records(&self) -> Vec<Record> {
        let slots = self.records.chunks_exact(SLOT).take(self.standing());
        let record = |slot: &[u8]| Record {
            card: slot[0],
            interval: slot[1],
            page: slot[2],
            sets: settings(&slot[4..4 + usize::from(slot[3])]),
        };
        slots.map(record).collect()
    }

    /// The total of a tally posted at the last completed round.
    pub fn posted(&self, tally: u8) -> u32 {
        self.words[FIRST_TALLY + usize::from(tally)]
    }

    /// What a card has added to a tally since.
    pub fn added(&self, tally: u8, card: u8) -> u32 {
        self.words[FIRST_TALLY + TALLIES * usize::from(card) + usize::from(tally)]
    }

    /// The jobs that wait, the oldest first: they lie in a ring of places.
    pub fn jobs(&self) -> Vec<Job<'_>> {
        let oldest = usize::from(self.marks[OLDEST_JOB_PLACE]);
        let waiting = usize::from(self.marks[JOBS_PLACE]);
        let places = (oldest..oldest + waiting).map(|place| place % JOBS);
        let job = |place| Job {
            value: self.words[FIRST_JOB_WORD + place],
            clock: self.clock(FIRST_JOB_ROW + place),
        };
        places.map(job).collect()
    }
}

/// Cards are numbered from 1.
fn index(card: u8) -> usize {
    usize::from(card) - 1
}

/// A place for each page of each card.
fn of_page(card: u8, page: u8) -> usize {
    PAGES * index(card) + usize::from(page)
}

fn word(bytes: &[u8]) -> u32 {
    bytes
        .iter()
        .rev()
        .fold(0, |word, byte| word << 8 | u32::from(*byte))
}

/// The words that a change sets: "One byte n; n pairs of bytes, offset and
/// length; then the words of the runs, four bytes each, low byte first."
fn settings(change: &[u8]) -> Vec<(u8, u32)> {
    let Some((runs, rest)) = change.split_first() else {
        return Vec::new();
    };
    let (pairs, words) = rest.split_at(2 * usize::from(*runs));
    let offsets = pairs
        .chunks_exact(2)
        .flat_map(|pair| pair[0]..pair[0] + pair[1]);
    offsets.zip(words.chunks_exact(4).map(word)).collect()
}
