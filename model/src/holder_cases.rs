//! The named files of arrivals with a lock in hand (document 02, request L7).
//! Listing A (`cases.rs`) and `hang-arrived-holder` (`wait_cases.rs`) have one,
//! too. Files that were stored before and have such an arrival are kept as they
//! are; those below with `freed`, `posted` or the like in their names show what
//! these showed, with the locks freed before the arrival.

use crate::case::{acquire, add, any, arrive, look, read, release, want, write, Case};
use crate::cases::{fill_last_room, make_127_records, make_intervals, nine_before_ten};
use crate::skip_cases::{same_offset_read, stores_all_over};

pub fn holder_cases() -> Vec<Case> {
    vec![
        refusal_18(),
        refusal_18_in_line(),
        refusal_18_of_one_card(),
        refusal_18_order(),
        refusal_18_each_lock(),
        refusal_18_many_locks(),
        refusal_18_untouched(),
        round_finds_locks_free(),
        case_o_collected(),
        refusal_6_each_kind(),
        refusal_order_freed(),
        longest_fetch_freed(),
        same_offset_collected(),
        tally_told_by_the_round(),
        refusal_17_tally_posted(),
        tally_no_word_posted(),
    ]
}

fn refusal_18() -> Case {
    let shows = "Refusal 18: card 1 arrives with lock 1 in hand, for which nobody waits; with the lock freed it arrives, and the round tells of its store.";
    let mut c = Case::open("refusal-18", [2, 1, 2], shows);
    c.ok(&[acquire(1, 1), write(1, 0, 4)]);
    c.refused(arrive(1), 18);
    c.ok(&[release(1, 1), arrive(1), read(2, 0), arrive(2)]);
    c.gives(read(2, 0), 4, 1);
    c
}

fn refusal_18_in_line() -> Case {
    let shows = "Refusal 18: card 2 waits and is 17, card 1 holds the lock and is 18; card 2 is 18 once the release has given it the lock.";
    let mut c = Case::open("refusal-18-in-line", [3, 1, 1], shows);
    c.ok(&[acquire(1, 0), acquire(2, 0)]);
    c.refused(arrive(2), 17);
    c.refused(arrive(1), 18);
    c.ok(&[arrive(3), release(1, 0), arrive(1)]);
    c.refused(arrive(2), 18);
    c.ok(&[release(2, 0), arrive(2), acquire(1, 0)]);
    c
}

fn refusal_18_of_one_card() -> Case {
    let shows = "Refusal 18 where one card's arrival would complete the round, with a collection and without; a field not 0 is 5 before it.";
    let mut c = Case::open("refusal-18-of-one-card", [1, 1, 1], shows);
    c.ok(&[acquire(1, 0)]);
    c.refused(arrive(1), 18);
    c.refused(any(5, 1, 0, 1), 5);
    c.refused(any(5, 1, 1, 0), 5);
    c.ok(&[release(1, 0), arrive(1), want(1), acquire(1, 0)]);
    c.refused(arrive(1), 18);
    c.ok(&[release(1, 0), arrive(1)]);
    c
}

fn refusal_18_order() -> Case {
    let shows = "Refusal 18 comes after 3, 4, 5, 6 and 17: card 2 holds lock 1 and waits for lock 0; card 3 has arrived.";
    let mut c = Case::open("refusal-18-order", [3, 1, 2], shows);
    c.ok(&[acquire(1, 0), acquire(2, 1), acquire(2, 0), arrive(3)]);
    c.refused(any(7, 1, 0, 0), 3);
    c.refused(arrive(4), 4);
    c.refused(any(5, 1, 1, 0), 5);
    c.refused(any(5, 2, 0, 1), 5);
    c.refused(arrive(3), 6);
    c.refused(arrive(2), 17);
    c.refused(arrive(1), 18);
    c.ok(&[release(1, 0)]);
    c.refused(arrive(2), 18);
    c.ok(&[release(2, 1)]);
    c.refused(arrive(2), 18);
    c.ok(&[arrive(1), release(2, 0), arrive(2), read(3, 0)]);
    c
}

fn refusal_18_each_lock() -> Case {
    let shows = "Refusal 18 for each of the 16 locks, the last one too.";
    let mut c = Case::open("refusal-18-each-lock", [2, 1, 16], shows);
    for lock in 0..16 {
        c.ok(&[acquire(2, lock)]);
        c.refused(arrive(2), 18);
        c.ok(&[release(2, lock)]);
    }
    c.ok(&[arrive(2), arrive(1)]);
    c
}

fn refusal_18_many_locks() -> Case {
    let shows =
        "Refusal 18 until the last of three locks is freed; another card's lock is no hindrance.";
    let mut c = Case::open("refusal-18-many-locks", [2, 1, 4], shows);
    c.ok(&[acquire(2, 2), acquire(1, 0), acquire(1, 1), acquire(1, 3)]);
    for lock in [1, 0, 3] {
        c.refused(arrive(1), 18);
        c.ok(&[release(1, lock)]);
    }
    c.ok(&[arrive(1), release(2, 2), arrive(2)]);
    c
}

fn refusal_18_untouched() -> Case {
    let shows = "An arrival refused 18 closes nothing, posts nothing and keeps the wish: the stores before and behind it are one record, which the collecting round moves.";
    let mut c = Case::open("refusal-18-untouched", [2, 1, 1], shows);
    c.ok(&[acquire(1, 0), write(1, 0, 4), add(1, 2, 5), want(1)]);
    c.ok(&[add(2, 2, 6), arrive(2)]);
    c.refused(arrive(1), 18);
    c.gives(look(1, 2), 5, 0);
    c.refused(read(2, 0), 6);
    c.ok(&[write(1, 1, 7), release(1, 0)]);
    c.moves(arrive(1), 0, 1, 2);
    c.gives(look(2, 2), 11, 0);
    c.gives(read(2, 1), 7, 0);
    c
}

fn round_finds_locks_free() -> Case {
    let shows = "When a round completes no lock is held and nobody waits: each card takes a lock that another one had.";
    let mut c = Case::open("round-finds-locks-free", [3, 1, 3], shows);
    c.ok(&[acquire(1, 0), acquire(2, 1), acquire(3, 2), acquire(1, 1)]);
    for card in 1..=3 {
        c.refused(arrive(card), if card == 1 { 17 } else { 18 });
    }
    c.ok(&[release(2, 1), release(1, 1), release(1, 0), release(3, 2)]);
    c.ok(&[arrive(1), arrive(2), arrive(3)]);
    c.ok(&[acquire(1, 2), acquire(2, 0), acquire(3, 1)]);
    c
}

fn case_o_collected() -> Case {
    let shows = "After case O, with the lock freed: a collecting round applies the last record of each page, one of them of two words, and gives the space back.";
    let mut c = Case::open("case-o-collected", [2, 8, 1], shows);
    make_127_records(&mut c);
    fill_last_room(&mut c);
    c.ok(&[release(1, 0), want(2), arrive(1)]);
    c.moves(arrive(2), 0, 8, 9);
    c.ok(&[write(1, 32, 22)]);
    c.gives(read(2, 1), 19, 0);
    c
}

fn refusal_6_each_kind() -> Case {
    let shows =
        "Refusal 6: an arrived card is refused each kind of step until the round is complete.";
    let mut c = Case::open("refusal-6-each-kind", [2, 1, 2], shows);
    c.ok(&[arrive(1)]);
    for step in [read(1, 0), write(1, 0, 1), acquire(1, 1)] {
        c.refused(step, 6);
    }
    for step in [release(1, 0), arrive(1), want(1)] {
        c.refused(step, 6);
    }
    c.ok(&[write(2, 0, 4), arrive(2)]);
    c.gives(read(1, 0), 4, 1);
    c.ok(&[acquire(1, 0), release(1, 0)]);
    c
}

fn refusal_order_freed() -> Case {
    let shows = "As refusal-order, with the lock freed before the arrival: 6 before 7 and 8; after the round 9 before 10.";
    let mut c = Case::open("refusal-order-freed", [2, 8, 2], shows);
    c.refused(any(0, 0, 999, 1), 3);
    c.refused(any(1, 0, 999, 1), 4);
    c.ok(&[acquire(1, 1), release(1, 1), arrive(1)]);
    c.refused(any(7, 1, 0, 0), 3);
    c.refused(read(1, 256), 5);
    c.refused(acquire(1, 2), 5);
    c.refused(acquire(1, 1), 6);
    c.refused(release(1, 0), 6);
    c.ok(&[arrive(2)]);
    make_intervals(&mut c, 62);
    nine_before_ten(&mut c);
    c
}

fn longest_fetch_freed() -> Case {
    let shows = "127 records of one page in one fetch, a race of equal sums: for each word the larger card's last record is applied, 32 in all.";
    let mut c = Case::open("longest-fetch-freed", [4, 1, 4], shows);
    stores_all_over(&mut c, 1);
    stores_all_over(&mut c, 2);
    c.ok(&[write(3, 7, 301), release(1, 1), release(2, 2)]);
    c.ok(&[arrive(1), arrive(2), arrive(3), arrive(4)]);
    c.gives(read(4, 7), 239, 32);
    c.gives(read(4, 0), 232, 0);
    c.gives(read(4, 31), 263, 0);
    c
}

fn same_offset_collected() -> Case {
    let shows = "The same offset on another page replaces nothing in a collecting round: cards 1, 2 and 4 apply four records.";
    let mut c = Case::open("same-offset-collected", [4, 2, 1], shows);
    same_offset_read(&mut c);
    c.ok(&[release(3, 0), want(3), arrive(1), arrive(2), arrive(3)]);
    c.gives(arrive(4), 0, 4);
    for card in 1..=4 {
        c.gives(read(card, 5), 11, 0);
        c.gives(read(card, 37), 22, 0);
    }
    c
}

fn tally_told_by_the_round() -> Case {
    let shows = "As tally-orders-nothing, with the lock freed before the arrival: after the round card 2 has card 1's add and its store.";
    let mut c = Case::open("tally-told-by-the-round", [3, 1, 1], shows);
    c.ok(&[write(1, 0, 9), add(1, 0, 1), acquire(3, 0), acquire(2, 0)]);
    c.refused(add(2, 0, 5), 17);
    c.ok(&[release(3, 0), add(2, 0, 5), release(2, 0)]);
    c.gives(look(2, 0), 5, 0);
    c.ok(&[read(2, 0), arrive(1), arrive(3), arrive(2)]);
    c.gives(look(2, 0), 6, 0);
    c.gives(read(2, 0), 9, 1);
    c
}

fn refusal_17_tally_posted() -> Case {
    let shows = "As refusal-17-tally, with the lock freed before the arrival: the refused adds are in no total.";
    let mut c = Case::open("refusal-17-tally-posted", [2, 1, 1], shows);
    c.ok(&[acquire(1, 0), add(2, 7, 3), acquire(2, 0)]);
    c.refused(add(2, 7, 100), 17);
    c.ok(&[add(1, 7, 10), release(1, 0), add(2, 7, 4), release(2, 0)]);
    c.ok(&[arrive(1), arrive(2)]);
    c.gives(look(1, 7), 17, 0);
    c.gives(look(2, 7), 17, 0);
    c
}

fn tally_no_word_posted() -> Case {
    let shows = "As tally-no-word, with the lock freed before the arrival: the round posts to tally 3 and leaves word 3.";
    let mut c = Case::open("tally-no-word-posted", [2, 1, 4], shows);
    c.ok(&[write(1, 3, 70), add(1, 3, 8), acquire(1, 3), add(2, 3, 1)]);
    c.ok(&[release(1, 3), acquire(2, 3)]);
    c.gives(read(2, 3), 70, 1);
    c.ok(&[release(2, 3), arrive(1), arrive(2)]);
    c.gives(look(1, 3), 9, 0);
    c.gives(read(1, 3), 70, 0);
    c.gives(read(2, 3), 70, 0);
    c
}
