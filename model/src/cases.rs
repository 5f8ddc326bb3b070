//! The files of tests/files; those of cards that wait are in `wait_cases.rs`,
//! those of stores that alter nothing in `equal_cases.rs`, those of tallies in
//! `tally_cases.rs`, those of skipped records in `skip_cases.rs`, those of words
//! set in `words_cases.rs`, those of holders that arrive in `holder_cases.rs`,
//! those of the queue in `queue_cases.rs` and `queue_refusal_cases.rs`, those of the
//! space forecast in `space_cases.rs`. Each expected answer is written by hand from
//! documents 01 and 02; `model make-files` refuses to write a file whose lines the
//! model does not print.

use crate::case::{acquire, any, arrive, read, release, want, write, Case};
use crate::equal_cases::equal_cases;
use crate::holder_cases::holder_cases;
use crate::model::Step;
use crate::queue_cases::queue_cases;
use crate::queue_refusal_cases::queue_refusal_cases;
use crate::skip_cases::skip_cases;
use crate::space_cases::space_cases;
use crate::tally_cases::tally_cases;
use crate::wait_cases::wait_cases;
use crate::words_cases::words_cases;

pub fn all_cases() -> Vec<Case> {
    let mut cases = bench_cases();
    cases.extend(opening_cases());
    cases.extend(refusal_cases());
    cases.extend(cut_cases());
    cases.extend(fault_cases());
    cases.extend(further_cases());
    cases.extend(wait_cases());
    cases.extend(equal_cases());
    cases.extend(tally_cases());
    cases.extend(skip_cases());
    cases.extend(words_cases());
    cases.extend(holder_cases());
    cases.extend(space_cases());
    cases.extend(queue_cases());
    cases.extend(queue_refusal_cases());
    cases
}

fn bench_cases() -> Vec<Case> {
    vec![
        listing_a(),
        case_b(
            "case-b",
            "Bench case B: two cards write one page between them.",
        ),
        case_c(
            "case-c",
            "Bench case C: news through two locks; card 3 gets it from card 2.",
        ),
        case_d(),
        case_e(
            "case-e",
            "Bench case E: as D, card 2 before card 1; the value is card 1's, and card 2's record is skipped.",
        ),
        case_f(),
        case_m(),
        case_n(),
        case_o(),
        room_kept(),
    ]
}

fn listing_a() -> Case {
    let shows = "Document 01's Listing A and its thirteen lines: card 2 waits (line 4), is the holder by line 6 and may not arrive with the lock (line 12); then the words set, 1.";
    let mut c = Case::open("listing-a", [2, 1, 1], shows);
    c.ok(&[acquire(1, 0), write(1, 3, 700), read(2, 3)]);
    c.ok(&[acquire(2, 0), release(1, 0)]);
    c.refused(acquire(2, 0), 7);
    c.gives(read(2, 3), 700, 1);
    c.gives(read(2, 3), 700, 0);
    c.ok(&[arrive(1)]);
    c.refused(read(1, 3), 6);
    c.ok(&[want(2)]);
    c.refused(arrive(2), 18);
    c
}

fn case_b(name: &str, shows: &str) -> Case {
    let mut c = Case::open(name, [2, 1, 1], shows);
    c.ok(&[write(1, 0, 11), write(2, 1, 22), arrive(1), arrive(2)]);
    c.gives(read(1, 1), 22, 1);
    c.gives(read(1, 0), 11, 0);
    c.gives(read(2, 0), 11, 1);
    c.gives(read(2, 1), 22, 0);
    c
}

fn case_c(name: &str, shows: &str) -> Case {
    let mut c = Case::open(name, [3, 1, 2], shows);
    c.ok(&[acquire(1, 0), write(1, 0, 5), release(1, 0)]);
    c.ok(&[acquire(2, 0), release(2, 0), acquire(2, 1), release(2, 1)]);
    c.ok(&[acquire(3, 1)]);
    c.gives(read(3, 0), 5, 1);
    c
}

fn case_d() -> Case {
    let shows = "Bench case D: cards 1 and 2 write one word under one lock; the value is card 2's, and card 1's record is skipped.";
    let mut c = Case::open("case-d", [3, 1, 1], shows);
    c.ok(&[acquire(1, 0), write(1, 0, 11), release(1, 0), acquire(2, 0)]);
    c.gives(write(2, 0, 22), 0, 1);
    c.ok(&[release(2, 0), acquire(3, 0)]);
    c.gives(read(3, 0), 22, 1);
    c
}

fn case_e(name: &str, shows: &str) -> Case {
    let mut c = Case::open(name, [3, 1, 1], shows);
    c.ok(&[acquire(2, 0), write(2, 0, 22), release(2, 0), acquire(1, 0)]);
    c.gives(write(1, 0, 11), 0, 1);
    c.ok(&[release(1, 0), acquire(3, 0)]);
    c.gives(read(3, 0), 11, 1);
    c
}

fn case_f() -> Case {
    let shows = "Bench case F: storing 0 over 0 and releasing makes one interval, one record without words, which is skipped; so does a store put back; the record of a 9 is applied.";
    let mut c = Case::open("case-f", [2, 1, 1], shows);
    c.ok(&[acquire(1, 0), write(1, 0, 0), release(1, 0), acquire(2, 0)]);
    c.ok(&[read(2, 0), release(2, 0)]);
    c.ok(&[acquire(1, 0), write(1, 0, 8), write(1, 0, 0), release(1, 0)]);
    c.ok(&[acquire(2, 0), read(2, 0), release(2, 0)]);
    c.ok(&[acquire(1, 0), write(1, 0, 9), release(1, 0), acquire(2, 0)]);
    c.gives(read(2, 0), 9, 1);
    c
}

fn case_m() -> Case {
    let shows =
        "Bench case M: one card's arrival completes its round, with and without collection.";
    let mut c = Case::open("case-m", [1, 1, 1], shows);
    c.ok(&[arrive(1), arrive(1), write(1, 0, 3), arrive(1)]);
    c.gives(read(1, 0), 3, 0);
    c.ok(&[want(1), arrive(1)]);
    c.gives(read(1, 0), 3, 0);
    c
}

/// Card 1 makes `count` intervals of one record each on page 0, from an even
/// count, with lock 0 free before and after.
pub fn make_intervals(c: &mut Case, count: u32) {
    for n in (1..=count).step_by(2) {
        c.ok(&[write(1, 0, n), acquire(1, 0)]);
        c.ok(&[write(1, 0, n + 1), release(1, 0)]);
    }
}

fn case_n() -> Case {
    let shows = "Bench case N: the 63rd interval passes, then 9 until a collecting round, which applies the last of the 63 records.";
    let mut c = Case::open("case-n", [2, 2, 1], shows);
    make_intervals(&mut c, 62);
    c.ok(&[write(1, 0, 63), acquire(1, 0)]);
    c.refused(write(1, 0, 64), 9);
    c.refused(write(1, 32, 64), 9);
    c.gives(read(1, 0), 63, 0);
    c.ok(&[write(2, 33, 7), release(1, 0), arrive(1), arrive(2)]);
    c.refused(write(1, 0, 64), 9);
    c.gives(read(1, 33), 7, 1);
    c.ok(&[want(1), arrive(2)]);
    c.gives(arrive(1), 0, 1);
    c.ok(&[write(1, 0, 64), acquire(1, 0), release(1, 0), acquire(2, 0)]);
    c.gives(read(2, 0), 64, 1);
    c
}

/// Card 1 makes one record on each of the pages 0 to `pages` - 1.
fn fill_pages(c: &mut Case, pages: u16, value: u32, close: Step) {
    for page in 0..pages {
        c.ok(&[write(1, 32 * page, value)]);
    }
    c.ok(&[close]);
}

/// 127 records by card 1: 15 intervals on 8 pages, one on 7; lock 0 is free.
pub fn make_127_records(c: &mut Case) {
    for value in 1..=15 {
        let close = [acquire(1, 0), release(1, 0)];
        fill_pages(c, 8, value, close[(value as usize + 1) % 2]);
    }
    fill_pages(c, 7, 16, release(1, 0));
}

fn case_o() -> Case {
    let shows = "Bench case O: 127 records and a write passes; at 128 it is 10; a dirty page still takes stores; card 1 may not arrive with the lock, so nothing is collected.";
    let mut c = Case::open("case-o", [2, 8, 1], shows);
    make_127_records(&mut c);
    fill_last_room(&mut c);
    c.ok(&[want(2)]);
    c.refused(arrive(1), 18);
    c.ok(&[arrive(2)]);
    c.refused(write(1, 32, 22), 10);
    c.refused(read(2, 1), 6);
    c
}

/// With 127 records: card 1 makes the last one, of words 0 and 1, and holds
/// lock 0 then.
pub fn fill_last_room(c: &mut Case) {
    c.ok(&[write(1, 0, 17)]);
    c.refused(write(1, 32, 17), 10);
    c.refused(write(2, 64, 18), 10);
    c.ok(&[write(1, 1, 19), write(1, 0, 20), acquire(1, 0)]);
    c.refused(write(1, 0, 21), 10);
    c.refused(write(2, 0, 21), 10);
    c.gives(read(1, 0), 20, 0);
}

fn room_kept() -> Case {
    let shows = "After case O: an equal store takes the last room, and its closing keeps it: 128 records, 10 for both cards.";
    let mut c = Case::open("case-o-equal", [2, 8, 1], shows);
    make_127_records(&mut c);
    c.ok(&[write(1, 0, 16)]);
    c.refused(write(2, 0, 1), 10);
    c.ok(&[acquire(1, 0)]);
    c.refused(write(2, 0, 1), 10);
    c.refused(write(1, 0, 17), 10);
    c
}

fn opening_cases() -> Vec<Case> {
    let bad: [(&str, [u8; 8], &str); 11] = [
        (
            "2",
            [1, 2, 1, 1, 0, 0, 0, 0],
            "the first byte is not 0; a step follows and is not run",
        ),
        ("2-cards-0", [0, 0, 1, 1, 0, 0, 0, 0], "no cards"),
        ("2-cards-9", [0, 9, 1, 1, 0, 0, 0, 0], "nine cards"),
        ("2-pages-0", [0, 1, 0, 1, 0, 0, 0, 0], "no pages"),
        ("2-pages-9", [0, 1, 9, 1, 0, 0, 0, 0], "nine pages"),
        ("2-locks-0", [0, 1, 1, 0, 0, 0, 0, 0], "no locks"),
        ("2-locks-17", [0, 1, 1, 17, 0, 0, 0, 0], "seventeen locks"),
        ("2-byte-4", [0, 1, 1, 1, 1, 0, 0, 0], "byte 4 is not 0"),
        ("2-byte-5", [0, 1, 1, 1, 0, 1, 0, 0], "byte 5 is not 0"),
        ("2-byte-6", [0, 1, 1, 1, 0, 0, 1, 0], "byte 6 is not 0"),
        ("2-tail", [0, 1, 1, 1, 0, 0, 0, 1], "byte 7 is not 0"),
    ];
    let refused = bad
        .iter()
        .map(|(name, bytes, why)| refused_opening(name, bytes, why));
    refused.chain([largest_opening()]).collect()
}

fn refused_opening(name: &str, bytes: &[u8; 8], why: &str) -> Case {
    let name = format!("refusal-{name}");
    let mut c = Case::raw(&name, bytes, 2, &format!("Refusal 2: {why}."));
    c.file.extend(read(1, 0).to_bytes());
    c
}

fn largest_opening() -> Case {
    let shows = "The largest mainframe: its last card, word and lock are present.";
    let mut c = Case::open("opening-largest", [8, 8, 16], shows);
    c.ok(&[acquire(8, 15), write(8, 255, u32::MAX), release(8, 15)]);
    c.ok(&[acquire(1, 15)]);
    c.gives(read(1, 255), u32::MAX, 1);
    c.refused(read(1, 256), 5);
    c.refused(acquire(8, 16), 5);
    c.refused(read(9, 0), 4);
    c
}

fn refusal_cases() -> Vec<Case> {
    vec![
        refusal_3(),
        refusal_4(),
        refusal_5(),
        refusal_6(),
        refusal_7(),
        refusal_8(),
        refusal_9(),
        refusal_10(),
        refusal_order(),
        refused_write_fetches_nothing(),
    ]
}

fn refusal_3() -> Case {
    let shows = "Refusal 3: kinds 0, 7 and 255; kind 8 between them adds 0 to tally 0.";
    let mut c = Case::open("refusal-3", [2, 1, 1], shows);
    c.refused(any(0, 1, 0, 0), 3);
    c.refused(any(7, 1, 0, 0), 3);
    c.ok(&[any(8, 1, 0, 0)]);
    c.refused(any(255, 1, 0, 0), 3);
    c.ok(&[read(1, 0)]);
    c
}

fn refusal_4() -> Case {
    let mut c = Case::open(
        "refusal-4",
        [2, 1, 1],
        "Refusal 4: card absent, for each kind.",
    );
    for kind in 1..=6 {
        c.refused(any(kind, 0, 0, 0), 4);
        c.refused(any(kind, 3, 0, 0), 4);
        c.refused(any(kind, 255, 0, 0), 4);
    }
    c.ok(&[read(2, 0)]);
    c
}

fn refusal_5() -> Case {
    let shows = "Refusal 5: word or lock absent, or an unused field not 0.";
    let mut c = Case::open("refusal-5", [2, 2, 3], shows);
    c.ok(&[read(1, 63), write(1, 63, 0), acquire(1, 2), release(1, 2)]);
    for bad in [read(1, 64), write(1, 64, 1), acquire(1, 3), release(1, 3)] {
        c.refused(bad, 5);
    }
    for kind in [1, 3, 4, 5, 6] {
        c.refused(any(kind, 1, 0, 1), 5);
        c.refused(any(kind, 1, 0, 1 << 31), 5);
    }
    for kind in [5, 6] {
        c.refused(any(kind, 1, 1, 0), 5);
        c.refused(any(kind, 1, 256, 0), 5);
    }
    c.refused(read(1, u16::MAX), 5);
    c
}

fn refusal_6() -> Case {
    let shows = "Card 1's arrival with lock 0 in hand is 18, so its next steps are not 6 but pass; nor does it arrive with lock 1 in hand.";
    let mut c = Case::open("refusal-6", [2, 1, 2], shows);
    c.ok(&[acquire(1, 0)]);
    c.refused(arrive(1), 18);
    c.ok(&[read(1, 0), write(1, 0, 1), acquire(1, 1), release(1, 0)]);
    c.refused(arrive(1), 18);
    c.ok(&[want(1), write(2, 0, 4), arrive(2)]);
    c.gives(read(1, 0), 1, 0);
    c.refused(release(1, 0), 8);
    c
}

fn refusal_7() -> Case {
    let shows = "Refusal 7: the holder asks for its lock again, one that it took and one that it waited for.";
    let mut c = Case::open("refusal-7", [2, 1, 2], shows);
    c.ok(&[acquire(1, 0)]);
    c.refused(acquire(1, 0), 7);
    c.ok(&[acquire(2, 0)]);
    c.refused(acquire(1, 0), 7);
    c.ok(&[release(1, 0)]);
    c.refused(acquire(2, 0), 7);
    c.ok(&[acquire(2, 1), release(2, 0), acquire(1, 0)]);
    c
}

fn refusal_8() -> Case {
    let shows = "Refusal 8: releasing a free lock, another card's lock, and twice.";
    let mut c = Case::open("refusal-8", [2, 1, 2], shows);
    c.refused(release(1, 0), 8);
    c.ok(&[acquire(1, 0)]);
    c.refused(release(2, 0), 8);
    c.refused(release(1, 1), 8);
    c.ok(&[release(1, 0)]);
    c.refused(release(1, 0), 8);
    c
}

fn refusal_9() -> Case {
    let shows = "Refusal 9: own entry 63 and a clean page; other cards still write. Of the 63 records the last sets what all the others do.";
    let mut c = Case::open("refusal-9", [2, 1, 1], shows);
    make_intervals(&mut c, 62);
    c.ok(&[write(1, 0, 63), write(1, 1, 64), acquire(1, 0)]);
    c.refused(write(1, 0, 65), 9);
    c.refused(write(1, 0, 63), 9);
    c.ok(&[release(1, 0), acquire(2, 0)]);
    c.moves(write(2, 0, 66), 0, 1, 2);
    c.gives(read(2, 1), 64, 0);
    c
}

fn refusal_10() -> Case {
    let shows =
        "Refusal 10: records plus dirty pages are 128, dirty pages of two cards among them.";
    let mut c = Case::open("refusal-10", [2, 8, 1], shows);
    for value in 1..=14 {
        let close = [acquire(1, 0), release(1, 0)];
        fill_pages(&mut c, 8, value, close[(value as usize + 1) % 2]);
    }
    for page in 0..8 {
        c.ok(&[write(1, 32 * page, 15), write(2, 32 * page + 1, 15)]);
    }
    c.ok(&[write(1, 2, 16), acquire(1, 0)]);
    c.refused(write(1, 2, 17), 10);
    c.ok(&[write(2, 2, 18)]);
    c.gives(read(1, 2), 16, 0);
    c
}

fn refusal_order() -> Case {
    let shows = "Several conditions at once: the first of the table is given (3 to 5 before 18, 6 before 9 and 10). Card 1's arrival is refused, so card 2, which has arrived, stays at the barrier.";
    let mut c = Case::open("refusal-order", [2, 8, 2], shows);
    c.refused(any(0, 0, 999, 1), 3);
    c.refused(any(1, 0, 999, 1), 4);
    c.ok(&[acquire(1, 1)]);
    c.refused(arrive(1), 18);
    c.refused(any(7, 1, 0, 0), 3);
    c.refused(read(1, 256), 5);
    c.refused(acquire(1, 2), 5);
    c.refused(acquire(1, 1), 7);
    c.refused(release(1, 0), 8);
    c.ok(&[arrive(2), release(1, 1)]);
    make_intervals(&mut c, 62);
    fill_pages(&mut c, 8, 100, acquire(1, 0));
    for step in stores_of_card_2() {
        c.refused(step, 6);
    }
    c.refused(write(2, 1, 1), 6);
    c.refused(write(1, 0, 1), 9);
    c.refused(write(1, 256, 1), 5);
    c
}

/// Card 2 writes all pages and closes by lock 1, seven times, then two pages:
/// 58 records, if it may.
fn stores_of_card_2() -> Vec<Step> {
    let mut steps = Vec::new();
    for value in 1..=7 {
        steps.extend((0..8).map(|page| write(2, 32 * page + 3, value)));
        steps.push([acquire(2, 1), release(2, 1)][(value as usize + 1) % 2]);
    }
    steps.extend([write(2, 1, 9), write(2, 33, 9), release(2, 1)]);
    steps
}

/// With 62 records of as many intervals of card 1: it makes eight records more,
/// card 2 the other 58; then card 1 has no interval left and nobody a record.
pub fn nine_before_ten(c: &mut Case) {
    fill_pages(c, 8, 100, acquire(1, 0));
    c.ok(&stores_of_card_2());
    c.refused(write(2, 1, 1), 10);
    c.refused(write(1, 0, 1), 9);
    c.refused(write(1, 256, 1), 5);
}

/// As `fill_pages`, by any card, at word 3 of each page.
pub fn write_as(c: &mut Case, card: u8, pages: u16, value: u32, close: Step) {
    for page in 0..pages {
        c.ok(&[write(card, 32 * page + 3, value)]);
    }
    c.ok(&[close]);
}

fn refused_write_fetches_nothing() -> Case {
    let shows = "A write refused 9 fetches nothing: the next read still has the count.";
    let mut c = Case::open("refused-untouched", [2, 1, 2], shows);
    c.ok(&[acquire(2, 1), write(2, 5, 55), release(2, 1)]);
    make_intervals(&mut c, 62);
    c.ok(&[write(1, 0, 63), acquire(1, 1)]);
    c.refused(write(1, 0, 64), 9);
    c.refused(write(1, 0, 64), 9);
    c.gives(read(1, 5), 55, 1);
    c.gives(read(1, 0), 63, 0);
    c
}

fn cut_cases() -> Vec<Case> {
    let mut step = Case::open(
        "refusal-15-step",
        [2, 1, 1],
        "Refusal 15: the file ends within step record 2.",
    );
    step.ok(&[write(1, 0, 5)]);
    step.cut(&[1, 1, 0, 0, 0]);
    let mut bad = Case::open(
        "refusal-15-bad-kind",
        [2, 1, 1],
        "Refusal 15: one byte of a record, which could be no step.",
    );
    bad.cut(&[99]);
    let opening = Case::raw(
        "refusal-15-opening",
        &[0, 2, 1, 1, 0, 0, 0],
        15,
        "Refusal 15: the file ends within the opening.",
    );
    let wrong = Case::raw(
        "refusal-15-opening-bad",
        &[9, 9],
        15,
        "Refusal 15, not 2: the opening is wrong and not whole.",
    );
    let empty = Case::raw(
        "refusal-15-empty",
        &[],
        15,
        "Refusal 15: an empty file ends before the opening.",
    );
    let alone = Case::open(
        "opening-alone",
        [1, 1, 1],
        "An opening and no steps: one line, and no words.",
    );
    vec![step, bad, opening, wrong, empty, alone]
}

fn fault_cases() -> Vec<Case> {
    vec![
        case_c("fault-lock-own", "Fault lock-own (case C): a lock that carries only its holder's own intervals answers 0."),
        case_e("fault-by-card", "Fault by-card (case E): records applied by card answer card 2's old value."),
        fault_join(),
        figure_2_16(),
        case_b("fault-whole-page", "Fault whole-page (case B): the whole page of the last writer loses the card's own store."),
        fault_learn_first(),
    ]
}

fn fault_join() -> Case {
    let shows =
        "Fault join: card 1's two changes joined in the last one's place go over card 2's store.";
    let mut c = Case::open("fault-join", [3, 1, 1], shows);
    c.ok(&[
        acquire(1, 0),
        write(1, 0, 11),
        write(1, 1, 12),
        release(1, 0),
    ]);
    c.ok(&[acquire(2, 0)]);
    c.moves(write(2, 1, 22), 0, 1, 2);
    c.ok(&[release(2, 0), acquire(1, 0)]);
    c.gives(write(1, 0, 13), 0, 1);
    c.ok(&[release(1, 0), acquire(3, 0)]);
    c.gives(read(3, 1), 22, 2);
    c.gives(read(3, 0), 13, 0);
    c
}

fn figure_2_16() -> Case {
    let shows = "Fault join-all, 000's figure 2.16 with x and y as words 0 and 1: card 2's own store is lost.";
    let mut c = Case::open("figure-2-16", [2, 1, 1], shows);
    c.ok(&[acquire(1, 0), write(1, 0, 1), write(1, 1, 1), release(1, 0)]);
    c.ok(&[acquire(2, 0)]);
    c.moves(write(2, 1, 2), 0, 1, 2);
    c.ok(&[release(2, 0), acquire(1, 0)]);
    c.gives(write(1, 0, 2), 0, 1);
    c.ok(&[release(1, 0), acquire(2, 0)]);
    c.gives(read(2, 0), 2, 1);
    c.gives(read(2, 1), 2, 0);
    c
}

fn fault_learn_first() -> Case {
    let shows = "Fault learn-first (a race): card 1's interval must not claim card 2's; equal sums, so card 2's goes last.";
    let mut c = Case::open("fault-learn-first", [3, 1, 1], shows);
    c.ok(&[write(1, 0, 10)]);
    c.ok(&[acquire(2, 0), write(2, 0, 20), release(2, 0)]);
    c.ok(&[acquire(1, 0), release(1, 0), acquire(3, 0)]);
    c.gives(read(3, 0), 20, 1);
    c.gives(read(1, 0), 20, 1);
    c
}

fn further_cases() -> Vec<Case> {
    vec![
        news_twice(),
        equal_sums(),
        equal_sums_of_unequal_intervals(),
        larger_sum(),
        twin_after_fetch(),
        collect_count(),
        collect_with_lock_held(),
        collect_with_lock_free(),
        collect_then_round(),
        wish_is_kept(),
        old_lock(),
        long_chain(),
    ]
}

fn news_twice() -> Case {
    let shows = "News comes at each acquire, not the first only.";
    let mut c = Case::open("news-twice", [2, 1, 1], shows);
    for value in 1..=3 {
        c.ok(&[acquire(1, 0), write(1, 0, value), release(1, 0)]);
        c.ok(&[acquire(2, 0)]);
        c.gives(read(2, 0), value, 1);
        c.ok(&[release(2, 0)]);
    }
    c
}

fn equal_sums() -> Case {
    let shows = "A race of equal sums: the smaller card's record goes first, so the larger card's value stays.";
    let mut c = Case::open("equal-sums", [4, 1, 1], shows);
    c.ok(&[write(3, 0, 30), write(1, 0, 10), write(2, 0, 20)]);
    c.ok(&[arrive(3), arrive(1), arrive(2), arrive(4)]);
    c.gives(read(4, 0), 30, 1);
    c.gives(read(1, 0), 30, 1);
    c.gives(read(2, 0), 30, 1);
    c.gives(read(3, 0), 20, 1);
    c
}

fn equal_sums_of_unequal_intervals() -> Case {
    let shows =
        "Equal sums, card 1's second interval and card 2's first: the card decides, not the interval.";
    let mut c = Case::open("equal-sums-interval", [4, 1, 2], shows);
    c.ok(&[
        write(1, 0, 10),
        acquire(1, 0),
        write(1, 0, 11),
        release(1, 0),
    ]);
    c.ok(&[acquire(3, 1), write(3, 5, 30), release(3, 1)]);
    c.ok(&[acquire(2, 1)]);
    c.gives(write(2, 0, 20), 0, 1);
    c.ok(&[release(2, 1)]);
    c.ok(&[arrive(1), arrive(2), arrive(3), arrive(4)]);
    c.gives(read(4, 0), 20, 2);
    c.gives(read(1, 0), 20, 2);
    c.gives(read(2, 0), 11, 1);
    c
}

fn larger_sum() -> Case {
    let shows =
        "A race over more intervals: a larger sum goes after a smaller one, whatever the card.";
    let mut c = Case::open("larger-sum", [3, 1, 2], shows);
    c.ok(&[
        write(1, 0, 10),
        acquire(1, 0),
        write(1, 0, 11),
        release(1, 0),
    ]);
    c.ok(&[write(2, 0, 20), acquire(2, 1), release(2, 1)]);
    c.ok(&[arrive(1), arrive(2), arrive(3)]);
    c.gives(read(3, 0), 11, 1);
    c.gives(read(2, 0), 11, 1);
    c.gives(read(1, 0), 20, 1);
    c
}

fn twin_after_fetch() -> Case {
    let shows = "A write fetches before it takes the twin: card 2's record has its own word alone, not card 1's old one.";
    let mut c = Case::open("twin-after-fetch", [3, 1, 2], shows);
    c.ok(&[acquire(1, 0), write(1, 0, 11), release(1, 0), acquire(2, 0)]);
    c.gives(write(2, 1, 22), 0, 1);
    c.ok(&[release(2, 0), write(1, 0, 12), acquire(1, 1), release(1, 1)]);
    c.ok(&[arrive(1), arrive(2), arrive(3)]);
    c.gives(read(3, 0), 12, 2);
    c.gives(read(3, 1), 22, 0);
    c.gives(read(1, 1), 22, 1);
    c.gives(read(1, 0), 12, 0);
    c
}

fn collect_count() -> Case {
    let shows = "A collecting round counts the fetches of all cards and pages; what was read before is not counted.";
    let mut c = Case::open("collect-count", [3, 2, 1], shows);
    c.ok(&[write(1, 0, 1), write(1, 32, 2), write(2, 33, 3)]);
    c.ok(&[want(1), want(2), arrive(1), arrive(2)]);
    c.gives(arrive(3), 0, 6);
    c.gives(read(3, 33), 3, 0);
    c.gives(read(2, 0), 1, 0);
    c.ok(&[write(3, 0, 9), arrive(1), arrive(2), arrive(3)]);
    c.gives(read(1, 0), 9, 1);
    c.ok(&[want(3), arrive(3), arrive(2)]);
    c.gives(arrive(1), 0, 1);
    c
}

fn collect_with_lock_held() -> Case {
    let shows = "No lock is held over a collecting round: card 1's arrival with the lock is refused, and card 2 stays at the barrier.";
    let mut c = Case::open("collect-lock-held", [2, 1, 1], shows);
    c.ok(&[acquire(1, 0), write(1, 0, 4), want(1)]);
    c.refused(arrive(1), 18);
    c.ok(&[arrive(2)]);
    c.refused(acquire(1, 0), 7);
    c.refused(acquire(2, 0), 6);
    c.ok(&[write(1, 0, 5), release(1, 0)]);
    c.refused(read(2, 0), 6);
    c
}

fn collect_with_lock_free() -> Case {
    let shows = "A collecting round sets the clock of a free lock to zeros: it brings no news of card 1's new interval 1.";
    let mut c = Case::open("collect-lock-free", [2, 1, 2], shows);
    c.ok(&[acquire(1, 0), write(1, 0, 4), release(1, 0)]);
    c.ok(&[want(1), arrive(1)]);
    c.gives(arrive(2), 0, 1);
    c.ok(&[write(1, 0, 5), acquire(1, 1), acquire(2, 0)]);
    c.gives(read(2, 0), 4, 0);
    c.ok(&[release(1, 1), acquire(2, 1)]);
    c.gives(read(2, 0), 5, 1);
    c
}

fn collect_then_round() -> Case {
    let shows = "A round after a collecting one brings nothing back: card 1's 63 intervals are gone, and it may write.";
    let mut c = Case::open("collect-then-round", [2, 1, 1], shows);
    make_intervals(&mut c, 62);
    c.ok(&[write(1, 0, 63), acquire(1, 0), release(1, 0)]);
    c.refused(write(1, 0, 64), 9);
    c.ok(&[want(2), arrive(1)]);
    c.gives(arrive(2), 0, 1);
    c.ok(&[arrive(2), arrive(1)]);
    c.ok(&[write(1, 0, 64), arrive(1), arrive(2)]);
    c.gives(read(2, 0), 64, 1);
    c
}

fn wish_is_kept() -> Case {
    let shows = "A wish is for the next completed round alone; a want refused 6 is no wish.";
    let mut c = Case::open("wish", [2, 1, 1], shows);
    c.ok(&[write(1, 0, 4), arrive(1)]);
    c.refused(want(1), 6);
    c.ok(&[arrive(2)]);
    c.gives(read(2, 0), 4, 1);
    c.ok(&[write(1, 0, 5), want(2), arrive(1)]);
    c.gives(arrive(2), 0, 1);
    c.ok(&[write(1, 0, 6), arrive(1), arrive(2)]);
    c.gives(read(2, 0), 6, 1);
    c
}

fn old_lock() -> Case {
    let shows = "Taking a lock with an older clock takes no knowledge away.";
    let mut c = Case::open("old-lock", [2, 1, 2], shows);
    c.ok(&[acquire(1, 0), release(1, 0)]);
    c.ok(&[acquire(1, 1), write(1, 0, 6), release(1, 1)]);
    c.ok(&[acquire(2, 1), acquire(2, 0)]);
    c.gives(read(2, 0), 6, 1);
    c
}

fn long_chain() -> Case {
    let shows = "A chain over five cards and four locks with false sharing: each card adds a word, the last reads all.";
    let mut c = Case::open("long-chain", [5, 1, 4], shows);
    c.ok(&[write(5, 31, 95)]);
    c.ok(&[write(1, 0, 91), acquire(1, 0), release(1, 0)]);
    for card in 2..=4u8 {
        let lock = u16::from(card);
        c.ok(&[acquire(card, lock - 2)]);
        c.gives(
            write(card, lock - 1, 90 + u32::from(card)),
            0,
            u32::from(card) - 1,
        );
        c.ok(&[
            release(card, lock - 2),
            acquire(card, lock - 1),
            release(card, lock - 1),
        ]);
    }
    c.ok(&[acquire(5, 3)]);
    c.gives(read(5, 0), 91, 4);
    for (word, value) in [(1, 92), (2, 93), (3, 94), (31, 95)] {
        c.gives(read(5, word), value, 0);
    }
    c.ok(&[read(1, 1)]);
    c
}
