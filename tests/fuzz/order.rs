//! "A state is in order when: ..." of document 01 and, of lines, tallies, holders
//! and jobs, requests L1, L4, L7 and L9 of document 02, clause by clause, in plain
//! Rust. It is written from the documents and the layout alone, and is what the library's
//! `in_order` is compared with.

use crate::areas::*;
use crate::library::Shown;
use crate::state::{Record, State};

type Clause = (&'static str, fn(State) -> bool);

/// The clauses after the first (the sizes), in the documents' order. That a
/// card waits at most once in all holds by the layout: it has one place for
/// the lock it waits for. Turns number the waiters of a lock from 0. The clocks of
/// all places of the queue are clocks as any other, those of free places too.
pub const CLAUSES: [Clause; 31] = [
    ("counts in range", counts_in_range),
    ("absent entries are 0", absent_entries_zero),
    ("absent copies' words are 0", absent_copies_zero),
    ("absent twins' words are 0", absent_twins_zero),
    ("absent arrived marks are 0", absent_arrived_zero),
    ("absent dirty marks are 0", absent_dirty_zero),
    ("absent holders are 0", absent_holders_zero),
    ("clocks of intervals not made are zeros", not_made_zero),
    ("no entry above the own entry", entries_within_own),
    ("own entries at most 63", own_at_most_63),
    ("applied clocks within the processor's", applied_within),
    ("records of present processors and pages", records_present),
    ("records have legal changes", records_legal),
    ("records of intervals made", records_made),
    ("no two records alike", records_unlike),
    ("records plus dirty pages at most 128", space_holds),
    ("own entry at most 62 with a dirty page", dirty_leaves_one),
    ("holders present or 0", holders_present),
    ("not all have arrived", not_all_arrived),
    ("absent processors wait for nothing", absent_awaited_zero),
    ("absent processors' turns are 0", absent_turns_zero),
    ("locks waited for are present", awaited_present),
    ("no line at a free lock", lines_held),
    ("no waiter holds the lock", waiters_hold_not),
    ("no waiter has arrived", waiters_arrived_not),
    ("no two waiters have one turn", turns_unlike),
    ("turns count those before", turns_count),
    ("absent processors have added 0", absent_adds_zero),
    ("no holder has arrived", holders_arrived_not),
    ("the oldest job is in one of 32 places", oldest_in_ring),
    ("at most 32 jobs", at_most_32_jobs),
];

pub fn sizes_hold(areas: Shown) -> bool {
    areas.clocks.len() == (593 + 32) * 8
        && areas.words.len() == 128 * 32 + 9 * 16 + 32
        && areas.records.len() == 128 * 135
        && areas.marks.len() == 110 + 2
}

pub fn in_order(areas: Shown) -> bool {
    sizes_hold(areas) && CLAUSES.iter().all(|(_, holds)| holds(State(areas)))
}

/// The clauses, by their places in the table, that a state of the right sizes
/// breaks.
pub fn broken(areas: Shown) -> Vec<usize> {
    let breaks = |n: &usize| !CLAUSES[*n].1(State(areas));
    (0..CLAUSES.len()).filter(breaks).collect()
}

fn all_processors() -> std::ops::RangeInclusive<usize> {
    1..=PROCESSORS
}

/// "counts of cards, pages and locks are in range"
fn counts_in_range(s: State) -> bool {
    (1..=8).contains(&s.processors())
        && (1..=8).contains(&s.pages())
        && (1..=16).contains(&s.locks())
}

fn is_zeros(clock: &[u8]) -> bool {
    clock.iter().all(|entry| *entry == 0)
}

/// "entries ... for absent cards, pages and locks are 0": no clock has an
/// entry for an absent processor, and clocks of absent things are zeros.
fn absent_entries_zero(s: State) -> bool {
    let present = s.processors().min(8);
    let no_absent = |row: usize| is_zeros(&s.clock(row)[present..]);
    let of_processor = |p| {
        let applied = (0..PAGES).all(|page| is_zeros(s.clock(applied_row(p, page))));
        let kept = (1..=INTERVALS).all(|i| is_zeros(s.clock(kept_row(p, i))));
        s.has_processor(p) || is_zeros(s.clock(processor_row(p))) && applied && kept
    };
    let of_page = |page| {
        let mut applied = all_processors().map(|p| s.clock(applied_row(p, page)));
        s.has_page(page) || applied.all(is_zeros)
    };
    let of_lock = |lock| s.has_lock(lock) || is_zeros(s.clock(lock_row(lock)));
    (0..ROWS).all(no_absent)
        && all_processors().all(of_processor)
        && (0..PAGES).all(of_page)
        && (0..LOCKS).all(of_lock)
}

/// "words ... for absent cards, pages": those of the copies
fn absent_copies_zero(s: State) -> bool {
    absent_words_zero(s, |p, page| s.copy(p, page))
}

/// "words ... for absent cards, pages": those of the twins
fn absent_twins_zero(s: State) -> bool {
    absent_words_zero(s, |p, page| s.twin(p, page))
}

fn absent_words_zero<'a>(s: State, words: impl Fn(usize, usize) -> &'a [u32]) -> bool {
    let zero = |p, page| words(p, page).iter().all(|word| *word == 0);
    let fine = |p, page| s.has_processor(p) && s.has_page(page) || zero(p, page);
    all_processors().all(|p| (0..PAGES).all(|page| fine(p, page)))
}

/// "marks ... for absent cards"
fn absent_arrived_zero(s: State) -> bool {
    all_processors().all(|p| s.has_processor(p) || !s.arrived(p))
}

/// "marks ... for absent cards, pages"
fn absent_dirty_zero(s: State) -> bool {
    let fine = |p, page| s.has_processor(p) && s.has_page(page) || !s.dirty(p, page);
    all_processors().all(|p| (0..PAGES).all(|page| fine(p, page)))
}

/// "holders for absent ... locks are 0"
fn absent_holders_zero(s: State) -> bool {
    (0..LOCKS).all(|lock| s.has_lock(lock) || s.holder(lock) == 0)
}

/// "the clock kept for an interval above its card's own entry is zeros"
fn not_made_zero(s: State) -> bool {
    let zero = |p, i| is_zeros(s.clock(kept_row(p, i)));
    all_processors().all(|p| (s.own(p) + 1..=INTERVALS).all(|i| zero(p, i)))
}

/// "no clock entry exceeds that card's own entry in its own clock"
fn entries_within_own(s: State) -> bool {
    let own: Vec<u8> = all_processors().map(|p| s.own(p) as u8).collect();
    let within = |row| {
        s.clock(row)
            .iter()
            .zip(&own)
            .all(|(entry, own)| entry <= own)
    };
    (0..ROWS).all(within)
}

/// "at most 63"
fn own_at_most_63(s: State) -> bool {
    all_processors().all(|p| s.own(p) <= 63)
}

/// "no applied clock exceeds its card's clock"
fn applied_within(s: State) -> bool {
    let within = |p, page| {
        let mut pairs = s
            .clock(applied_row(p, page))
            .iter()
            .zip(s.clock(processor_row(p)));
        pairs.all(|(applied, known)| applied <= known)
    };
    all_processors().all(|p| (0..PAGES).all(|page| within(p, page)))
}

/// "each record has a present card and page"
fn records_present(s: State) -> bool {
    s.records()
        .all(|r| s.has_processor(r.processor) && s.has_page(r.page))
}

/// "a legal change"
fn records_legal(s: State) -> bool {
    s.records().all(|r| change_is_legal(&r))
}

fn change_is_legal(record: &Record) -> bool {
    match record.place.get(..record.length) {
        Some(change) => is_change(change),
        None => false,
    }
}

/// "One byte n, 0 to 16; n pairs of bytes, offset (0 to 31) and length (1 to
/// 32) ... then the words of the runs, four bytes each. Offset plus length is
/// at most 32. Each offset exceeds the previous offset plus length."
fn is_change(bytes: &[u8]) -> bool {
    let Some((n, rest)) = bytes.split_first() else {
        return false;
    };
    let n = usize::from(*n);
    if n > 16 || rest.len() < 2 * n {
        return false;
    }
    let (pairs, words) = rest.split_at(2 * n);
    let mut due = 0;
    let mut end_before: Option<usize> = None;
    for pair in pairs.chunks_exact(2) {
        let (offset, length) = (usize::from(pair[0]), usize::from(pair[1]));
        if offset > 31 || length < 1 || length > 32 || offset + length > 32 {
            return false;
        }
        if end_before.is_some_and(|end| offset <= end) {
            return false;
        }
        end_before = Some(offset + length);
        due += 4 * length;
    }
    words.len() == due
}

/// "an interval from 1 to its card's own entry" (an absent processor has
/// none)
fn records_made(s: State) -> bool {
    let made = |r: Record| {
        let absent = r.processor < 1 || r.processor > PROCESSORS;
        !absent && r.interval >= 1 && r.interval <= s.own(r.processor)
    };
    s.records().all(made)
}

/// "no other record has the same card, interval and page"
fn records_unlike(s: State) -> bool {
    let names = s.records().map(|r| (r.processor, r.interval, r.page));
    let mut names: Vec<_> = names.collect();
    names.sort_unstable();
    names.windows(2).all(|two| two[0] != two[1])
}

/// "records plus dirty pages, counted over all cards, are at most 128"
fn space_holds(s: State) -> bool {
    s.standing() + s.dirty_pages() <= 128
}

/// "a card with a dirty page has own entry at most 62"
fn dirty_leaves_one(s: State) -> bool {
    let any_dirty = |p| (0..PAGES).any(|page| s.dirty(p, page));
    all_processors().all(|p| !any_dirty(p) || s.own(p) <= 62)
}

/// "holders are present cards or 0"
fn holders_present(s: State) -> bool {
    let fine = |holder| holder == 0 || s.has_processor(holder);
    (0..LOCKS).all(|lock| fine(s.holder(lock)))
}

/// "not all cards have arrived"
fn not_all_arrived(s: State) -> bool {
    !(1..=s.processors().min(8)).all(|p| s.arrived(p))
}

/// "only present cards in lines"
fn absent_awaited_zero(s: State) -> bool {
    all_processors().all(|p| s.has_processor(p) || s.awaited(p).is_none())
}

/// "marks ... for absent cards"
fn absent_turns_zero(s: State) -> bool {
    all_processors().all(|p| s.has_processor(p) || s.turn(p) == 0)
}

/// Each present processor that waits, with its lock.
fn waiters(s: State<'_>) -> impl Iterator<Item = (usize, usize)> + '_ {
    let present = all_processors().filter(move |p| s.has_processor(*p));
    present.filter_map(move |p| Some((p, s.awaited(p)?)))
}

/// A line is a present lock's.
fn awaited_present(s: State) -> bool {
    waiters(s).all(|(_, lock)| s.has_lock(lock))
}

/// "no line at a free lock"
fn lines_held(s: State) -> bool {
    waiters(s).all(|(_, lock)| lock >= LOCKS || s.holder(lock) != 0)
}

/// "no waiter that ... holds the lock it waits for"
fn waiters_hold_not(s: State) -> bool {
    waiters(s).all(|(p, lock)| lock >= LOCKS || s.holder(lock) != p)
}

/// "no waiter that has arrived"
fn waiters_arrived_not(s: State) -> bool {
    waiters(s).all(|(p, _)| !s.arrived(p))
}

/// No two waiters stand at one place of a line.
fn turns_unlike(s: State) -> bool {
    let mut turns: Vec<_> = waiters(s).map(|(p, lock)| (lock, s.turn(p))).collect();
    turns.sort_unstable();
    turns.windows(2).all(|two| two[0] != two[1])
}

/// A waiter's turn is how many of its lock's waiters stand before it.
fn turns_count(s: State) -> bool {
    waiters(s).all(|(p, lock)| {
        let before = s.waiters(lock).filter(|q| s.turn(*q) < s.turn(p));
        before.count() == s.turn(p)
    })
}

/// L7: "A state that has an arrived card holding a lock is no longer in order."
fn holders_arrived_not(s: State) -> bool {
    !all_processors().any(|p| s.arrived(p) && s.holds_any(p))
}

/// "words ... for absent cards": those of their adds. Posted totals are nobody's
/// and may be anything.
fn absent_adds_zero(s: State) -> bool {
    let zero = |p| (0..TALLIES).all(|tally| s.added(p, tally) == 0);
    all_processors().all(|p| s.has_processor(p) || zero(p))
}

/// The place of the oldest job is one of the queue's, also where none waits.
fn oldest_in_ring(s: State) -> bool {
    s.first() < JOBS
}

/// L9: "A state in order has at most 32 jobs".
fn at_most_32_jobs(s: State) -> bool {
    s.jobs() <= JOBS
}
