//! The records standing and the dirty pages after each record of those named
//! files that have a forecast beside them, set down by hand from documents 01
//! and 02.

use crate::forecast_lines::Figures;

/// The figures of a named file, a pair for each line; nothing if it has no
/// forecast beside it.
pub fn figures(name: &str) -> Option<Vec<Figures>> {
    let Rows(figures) = match name {
        "listing-a" => opened().stay(1, 0, 0).stay(3, 0, 1).stay(8, 1, 0),
        "case-n" => case_n(),
        "case-o" => case_o().stay(5, 128, 0),
        "case-o-equal" => case_o_records().stay(2, 127, 1).stay(3, 128, 0),
        "case-o-collected" => case_o().stay(3, 128, 0).stay(1, 0, 0).stay(2, 0, 1),
        "refusal-10" => refusal_10(),
        "refusal-2" | "refusal-15-empty" | "opening-alone" => opened(),
        "refusal-15-step" => opened().stay(2, 0, 1),
        "refusal-order-freed" => refusal_order_freed(),
        "collect-count" => collect_count(),
        "wait-in-line" => wait_in_line(),
        "asker-closes" => asker_closes(),
        "nothing-dirty" => opened().stay(96, 0, 0).stay(1, 0, 1).stay(4, 1, 0),
        "tally-without-space" => tally_without_space(),
        "equal-stores-until-10" => equal_stores_until_10(),
        "space-refused-opening" => opened(),
        "space-closed-and-collected" => closed_and_collected(),
        "space-cut-while-dirty" => opened().stay(2, 0, 1),
        "space-most-is-not-last" => most_is_not_last(),
        "space-nine-until-collected" => nine_until_collected(),
        "space-tallies-use-none" => opened().stay(6, 0, 0),
        "space-refusals-use-none" => opened().stay(1, 0, 1).stay(1, 1, 0).stay(11, 1, 1),
        "space-dirty-of-each-card" => dirty_of_each_card(),
        "space-jobs-close" => jobs_close(),
        "space-jobs-stay" => jobs_stay(),
        "queue-equal-store" => queue_equal_store(),
        "queue-refused-untouched" => queue_refused_untouched(),
        "queue-space-used-again" => opened().stay(71, 0, 0),
        "queue-without-space" => queue_without_space(),
        _ => return None,
    };
    Some(figures)
}

/// A pair for each line so far.
struct Rows(Vec<Figures>);

/// Record 0, accepted or not: "0 and 0 before an accepted opening", and no store
/// has come before the end of it.
fn opened() -> Rows {
    Rows(Vec::new()).stay(1, 0, 0)
}

impl Rows {
    /// So many lines with the same figures.
    fn stay(mut self, lines: usize, records: usize, dirty: usize) -> Rows {
        let figures = Figures { records, dirty };
        self.0.extend(vec![figures; lines]);
        self
    }

    /// From no record on: a store to a clean page and a closing, by turns, until
    /// so many records stand.
    fn intervals(mut self, count: usize) -> Rows {
        for made in 1..=count {
            self = self.stay(1, made - 1, 1).stay(1, made, 0);
        }
        self
    }

    /// With so many records: stores to so many clean pages, then a closing.
    fn pages(mut self, records: usize, pages: usize) -> Rows {
        for dirty in 1..=pages {
            self = self.stay(1, records, dirty);
        }
        self.stay(1, records + pages, 0)
    }
}

fn case_n() -> Rows {
    let full = opened().intervals(63).stay(3, 63, 0);
    let round = full.stay(3, 63, 1).stay(5, 64, 0);
    let collected = round.stay(1, 0, 0);
    collected.stay(1, 0, 1).stay(4, 1, 0)
}

/// 15 closings of eight pages and one of seven.
fn case_o_records() -> Rows {
    let closings = (0..15).fold(opened(), |rows, n| rows.pages(8 * n, 8));
    closings.pages(120, 7)
}

/// The last room taken by a page, on which two further stores find room where
/// two on others do not, and then by its record.
fn case_o() -> Rows {
    case_o_records().stay(5, 127, 1).stay(4, 128, 0)
}

/// 112 records, then both cards have each of the eight pages dirty; card 1
/// closes.
fn refusal_10() -> Rows {
    let mut rows = (0..14).fold(opened(), |rows, n| rows.pages(8 * n, 8));
    for dirty in 1..=16 {
        rows = rows.stay(1, 112, dirty);
    }
    rows.stay(1, 112, 16).stay(4, 120, 8)
}

/// 62 intervals of one record and one of eight by card 1, then 58 records by
/// card 2.
fn refusal_order_freed() -> Rows {
    let one = opened().stay(11, 0, 0).intervals(62).pages(62, 8);
    let other = (0..7).fold(one, |rows, n| rows.pages(70 + 8 * n, 8));
    other.pages(126, 2).stay(3, 128, 0)
}

fn collect_count() -> Rows {
    let dirty = opened().stay(1, 0, 1).stay(1, 0, 2).stay(3, 0, 3);
    let collected = dirty.stay(1, 2, 1).stay(1, 3, 0).stay(3, 0, 0);
    collected.stay(3, 0, 1).stay(5, 1, 0).stay(1, 0, 0)
}

/// Records 16 and 20 are the stores, 17 and 21 the releases behind them.
fn wait_in_line() -> Rows {
    let one = opened().stay(15, 0, 0).stay(1, 0, 1).stay(3, 1, 0);
    one.stay(1, 1, 1).stay(8, 2, 0)
}

/// Record 3 asks, which closes; record 6 releases.
fn asker_closes() -> Rows {
    let asked = opened().stay(1, 0, 0).stay(1, 0, 1).stay(2, 1, 0);
    asked.stay(1, 1, 1).stay(3, 2, 0)
}

fn tally_without_space() -> Rows {
    let nine = opened().intervals(63).stay(3, 63, 0);
    let closings = (0..8).fold(nine, |rows, n| rows.pages(63 + 8 * n, 8));
    closings.stay(1, 127, 1).stay(5, 128, 0)
}

/// Eight rounds of 16 stores; each of the two arrivals closes eight pages.
fn equal_stores_until_10() -> Rows {
    let mut rows = opened();
    for round in 0..8 {
        for dirty in 1..=16 {
            rows = rows.stay(1, 16 * round, dirty);
        }
        rows = rows.stay(1, 16 * round + 8, 8);
        rows = rows.stay(1, 16 * round + 16, 0);
    }
    rows.stay(3, 128, 0).stay(1, 0, 0).stay(1, 0, 1)
}

fn closed_and_collected() -> Rows {
    let asked = opened().stay(2, 0, 1).stay(2, 0, 2).stay(4, 2, 0);
    let arrived = asked.stay(1, 2, 1).stay(3, 3, 0);
    arrived.stay(1, 0, 0).stay(1, 0, 1)
}

fn most_is_not_last() -> Rows {
    let dirty = opened().stay(1, 0, 1).stay(1, 0, 2).stay(2, 0, 3);
    dirty.stay(1, 2, 1).stay(2, 0, 0)
}

fn nine_until_collected() -> Rows {
    let mut rows = opened();
    for made in 1..=63 {
        rows = rows.stay(1, made - 1, 1).stay(2, made, 0);
    }
    rows.stay(5, 63, 0).stay(1, 0, 0).stay(1, 0, 1)
}

fn dirty_of_each_card() -> Rows {
    let dirty = opened().stay(1, 0, 1).stay(1, 0, 2).stay(2, 0, 3);
    dirty.stay(2, 1, 2).stay(3, 2, 1).stay(1, 3, 0)
}

/// Records 2 and 4 close, 5 and 7 are refused.
fn jobs_close() -> Rows {
    let one = opened().stay(1, 0, 1).stay(1, 1, 0);
    one.stay(1, 1, 1).stay(4, 2, 0)
}

/// Two pages, their closing and collection; then a dirty page, 31 enqueues and a
/// refused one, and the dequeue that closes it; a second store, which 31 dequeues
/// and a refused one leave dirty, and the enqueue that closes it.
fn jobs_stay() -> Rows {
    let one = opened().stay(1, 0, 1).stay(1, 0, 2).stay(3, 2, 0);
    let collected = one.stay(1, 0, 0);
    let other = collected.stay(1, 0, 1).stay(32, 0, 1).stay(1, 1, 0);
    other.stay(1, 1, 1).stay(32, 1, 1).stay(1, 2, 0)
}

fn queue_equal_store() -> Rows {
    let one = opened().stay(1, 0, 1).stay(1, 1, 0);
    one.stay(1, 1, 1).stay(5, 2, 0)
}

/// The refused dequeue and enqueue, records 2 and 40, leave the page dirty.
fn queue_refused_untouched() -> Rows {
    let one = opened().stay(3, 0, 1).stay(1, 1, 0);
    let full = one.stay(2, 1, 0).stay(32, 1, 0);
    full.stay(3, 1, 1).stay(5, 2, 0)
}

fn queue_without_space() -> Rows {
    let nine = opened().intervals(63).stay(2, 63, 0);
    let closings = (0..8).fold(nine, |rows, n| rows.pages(63 + 8 * n, 8));
    closings.stay(1, 127, 1).stay(13, 128, 0)
}
