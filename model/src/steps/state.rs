//! `./steps state`: what the engine holds after a record, as tables.

use super::areas::{Areas, Record};
use super::sentence::{counted, listed};

/// At most so many words of a record are shown.
const MOST_SET: usize = 8;
const TALLIES: u8 = 16;

/// The tables, from the engine's areas.
pub fn text(areas: &Areas) -> String {
    let parts = [
        head(areas),
        clocks(areas),
        applied(areas),
        locks(areas),
        cards(areas),
        records(areas),
        tallies(areas),
        jobs(areas),
    ];
    parts.join("\n")
}

fn head(areas: &Areas) -> String {
    let counts = [
        counted(areas.cards().into(), "card"),
        counted(areas.pages().into(), "page"),
        counted(areas.locks().into(), "lock"),
    ];
    let standing = counted(areas.standing(), "record");
    let all_dirty = (1..=areas.cards())
        .map(|card| dirty_pages(areas, card).len())
        .sum();
    let dirty = counted(all_dirty, "dirty page");
    let wanted = if areas.is_wanted() {
        "wanted"
    } else {
        "not wanted"
    };
    format!(
        "{}; {standing} standing, {dirty}; collection is {wanted}\n",
        counts.join(", ")
    )
}

/// Rows under a head, in columns as wide as their longest text.
fn table(rows: &[Vec<String>]) -> String {
    let columns = rows.iter().map(Vec::len).max().unwrap_or(0);
    let width = |column: usize| {
        let lengths = rows
            .iter()
            .filter_map(|row| row.get(column))
            .map(String::len);
        lengths.max().unwrap_or(0)
    };
    let widths: Vec<usize> = (0..columns).map(width).collect();
    let line = |row: &Vec<String>| {
        let cells = row
            .iter()
            .zip(&widths)
            .map(|(cell, width)| format!("{cell:<width$}"));
        let line = cells.collect::<Vec<_>>().join("   ");
        line.trim_end().to_string() + "\n"
    };
    rows.iter().map(line).collect()
}

fn row<const N: usize>(cells: [&str; N]) -> Vec<String> {
    cells.map(str::to_string).to_vec()
}

/// `1, 0, 0`: an entry for each card.
fn entries(clock: &[u8]) -> String {
    let entries: Vec<String> = clock.iter().map(u8::to_string).collect();
    entries.join(", ")
}

fn clocks(areas: &Areas) -> String {
    let mut rows = vec![row(["of", "clock"])];
    for card in 1..=areas.cards() {
        rows.push(vec![
            format!("card {card}"),
            entries(areas.card_clock(card)),
        ]);
    }
    for lock in 0..areas.locks() {
        rows.push(vec![
            format!("lock {lock}"),
            entries(areas.lock_clock(lock)),
        ]);
    }
    rows.push(vec!["barrier".to_string(), entries(areas.barrier_clock())]);
    table(&rows)
}

/// The applied clocks that are not all 0.
fn applied(areas: &Areas) -> String {
    let mut rows = vec![row(["applied to", "clock"])];
    for card in 1..=areas.cards() {
        for page in 0..areas.pages() {
            let clock = areas.applied_clock(card, page);
            if clock.iter().any(|entry| *entry != 0) {
                rows.push(vec![format!("card {card}, page {page}"), entries(clock)]);
            }
        }
    }
    let all = usize::from(areas.cards()) * usize::from(areas.pages());
    match (rows.len() - 1, all) {
        (0, _) => "nothing is applied to any page: all these clocks are 0\n".to_string(),
        (some, all) if some < all => table(&rows) + "the others are 0\n",
        _ => table(&rows),
    }
}

fn locks(areas: &Areas) -> String {
    let mut rows = vec![row(["lock", "holder", "line, the longest waiter first"])];
    for lock in 0..areas.locks() {
        let holder = areas
            .holder(lock)
            .map_or("nobody".to_string(), |card| format!("card {card}"));
        let line: Vec<String> = areas
            .line(lock)
            .iter()
            .map(|card| format!("card {card}"))
            .collect();
        rows.push(vec![
            format!("lock {lock}"),
            holder,
            or_dash(line.join(", ")),
        ]);
    }
    table(&rows)
}

fn cards(areas: &Areas) -> String {
    let mut rows = vec![row(["card", "arrived", "waits for", "dirty pages"])];
    for card in 1..=areas.cards() {
        let arrived = if areas.has_arrived(card) { "yes" } else { "no" };
        let awaited = areas
            .awaited(card)
            .map_or("-".to_string(), |lock| format!("lock {lock}"));
        let dirty = dirty_pages(areas, card).join(", ");
        rows.push(vec![
            format!("card {card}"),
            arrived.to_string(),
            awaited,
            or_dash(dirty),
        ]);
    }
    table(&rows)
}

fn dirty_pages(areas: &Areas, card: u8) -> Vec<String> {
    let pages = (0..areas.pages()).filter(|page| areas.is_dirty(card, *page));
    pages.map(|page| page.to_string()).collect()
}

fn records(areas: &Areas) -> String {
    let records = areas.records();
    if records.is_empty() {
        return "no records stand\n".to_string();
    }
    let mut rows = vec![row([
        "record of",
        "interval",
        "page",
        "its clock",
        "words set",
    ])];
    for record in &records {
        rows.push(vec![
            format!("card {}", record.card),
            record.interval.to_string(),
            record.page.to_string(),
            entries(areas.interval_clock(record.card, record.interval)),
            words_set(record),
        ]);
    }
    table(&rows)
}

/// `word 3 to 700 and word 4 to 1`
fn words_set(record: &Record) -> String {
    let first = 32 * u16::from(record.page);
    let one =
        |(offset, value): &(u8, u32)| format!("word {} to {value}", first + u16::from(*offset));
    let mut shown: Vec<String> = record.sets.iter().take(MOST_SET).map(one).collect();
    if record.sets.len() > MOST_SET {
        shown.push(format!("{} more", record.sets.len() - MOST_SET));
    }
    listed(&shown)
}

/// The tallies that are not all 0.
fn tallies(areas: &Areas) -> String {
    let cards = 1..=areas.cards();
    let added = |tally: u8| cards.clone().map(move |card| areas.added(tally, card));
    let used = |tally: &u8| areas.posted(*tally) != 0 || added(*tally).any(|sum| sum != 0);
    let used: Vec<u8> = (0..TALLIES).filter(used).collect();
    if used.is_empty() {
        return "all tallies are 0\n".to_string();
    }
    let mut head = row(["tally", "posted"]);
    head.extend(cards.clone().map(|card| format!("card {card} since")));
    let mut rows = vec![head];
    for tally in used {
        let mut cells = vec![format!("tally {tally}"), areas.posted(tally).to_string()];
        cells.extend(added(tally).map(|sum| sum.to_string()));
        rows.push(cells);
    }
    table(&rows)
}

fn jobs(areas: &Areas) -> String {
    let jobs = areas.jobs();
    if jobs.is_empty() {
        return "no jobs wait\n".to_string();
    }
    let mut rows = vec![row(["job, the oldest first", "value", "its clock"])];
    for (nth, job) in jobs.iter().enumerate() {
        rows.push(vec![
            format!("job {}", nth + 1),
            job.value.to_string(),
            entries(job.clock),
        ]);
    }
    table(&rows)
}

fn or_dash(text: String) -> String {
    if text.is_empty() {
        return "-".to_string();
    }
    text
}
