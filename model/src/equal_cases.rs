//! The named files of stores that alter nothing (document 02, request L2):
//! each dirty page gets a record at closing, and any dirty page makes an
//! interval. Their records have no words, so each fetch skips them (L5).

use crate::case::{acquire, arrive, read, release, want, write, Case};

pub fn equal_cases() -> Vec<Case> {
    vec![
        equal_store_alone(),
        equal_store_fetched(),
        constant_confirmed(),
        equal_stores_until_9(),
        equal_stores_until_10(),
        equal_stores_collected(),
        equal_stores_of_two(),
        equal_store_sets_nothing(),
        equal_store_raises_sum(),
        equal_store_beside(),
        store_put_back(),
        equal_store_round(),
        equal_store_at_arrival(),
        asker_closes_equal_store(),
        equal_store_granted(),
        nothing_dirty(),
    ]
}

fn equal_store_alone() -> Case {
    let shows = "Card 1 stores 0 over 0, closes by a release and then by an acquire: two intervals of one record each.";
    let mut c = Case::open("equal-store-alone", [1, 1, 1], shows);
    c.ok(&[acquire(1, 0), write(1, 0, 0), release(1, 0)]);
    c.ok(&[write(1, 1, 0), acquire(1, 0)]);
    c
}

fn equal_store_fetched() -> Case {
    let shows =
        "The record of an equal store has no words: the fetch skips it, and it is not counted.";
    let mut c = Case::open("equal-store-fetched", [2, 1, 1], shows);
    c.ok(&[acquire(1, 0), write(1, 0, 0), release(1, 0), acquire(2, 0)]);
    c.ok(&[read(2, 0), read(2, 0)]);
    c
}

fn constant_confirmed() -> Case {
    let shows =
        "Card 2 confirms card 1's constant by storing it again: its record has no words, so card 1's stays and is applied.";
    let mut c = Case::open("constant-confirmed", [3, 1, 1], shows);
    c.ok(&[acquire(1, 0), write(1, 5, 9), release(1, 0), acquire(2, 0)]);
    c.gives(write(2, 5, 9), 0, 1);
    c.ok(&[release(2, 0), acquire(3, 0)]);
    c.gives(read(3, 5), 9, 1);
    c
}

fn equal_stores_until_9() -> Case {
    let shows = "Refusal 9 by equal stores alone: the 64th, record 190, finds the own entry at 63.";
    let mut c = Case::open("equal-stores-until-9", [1, 1, 1], shows);
    for _ in 1..=63 {
        c.ok(&[write(1, 0, 0), acquire(1, 0), release(1, 0)]);
    }
    c.refused(write(1, 0, 0), 9);
    c.ok(&[acquire(1, 0), release(1, 0)]);
    c
}

/// Cards 1 and 2 store 0 to the first word of each of the eight pages. Then
/// both arrive.
fn equal_round(c: &mut Case) {
    for card in [1, 2] {
        for page in 0..8 {
            c.ok(&[write(card, 32 * page, 0)]);
        }
    }
    c.ok(&[arrive(1), arrive(2)]);
}

fn equal_stores_until_10() -> Case {
    let shows = "Refusal 10 by equal stores alone: 128 records after eight rounds, so record 145 is 10; a collecting round applies none of them and gives the space back.";
    let mut c = Case::open("equal-stores-until-10", [2, 8, 1], shows);
    for _ in 1..=8 {
        equal_round(&mut c);
    }
    c.refused(write(1, 0, 0), 10);
    c.ok(&[want(1), arrive(1), arrive(2), write(1, 0, 0)]);
    c
}

fn equal_stores_collected() -> Case {
    let shows = "As case N with equal stores: 9 until a collecting round, which skips card 1's 63 records and card 2's one.";
    let mut c = Case::open("equal-stores-collected", [2, 1, 1], shows);
    for _ in 1..=31 {
        c.ok(&[write(1, 0, 0), acquire(1, 0)]);
        c.ok(&[write(1, 0, 0), release(1, 0)]);
    }
    c.ok(&[write(1, 0, 0), acquire(1, 0)]);
    c.refused(write(1, 0, 0), 9);
    c.refused(write(1, 0, 5), 9);
    c.ok(&[write(2, 1, 0), release(1, 0), want(2), arrive(1)]);
    c.ok(&[arrive(2), write(1, 0, 0), acquire(1, 0), release(1, 0)]);
    c.ok(&[acquire(2, 0), read(2, 0)]);
    c
}

fn equal_stores_of_two() -> Case {
    let shows = "Cards 1 and 2 store 0 over 0 in the same word: two records without words; nobody applies one.";
    let mut c = Case::open("equal-stores-of-two", [3, 1, 1], shows);
    c.ok(&[write(1, 0, 0), write(2, 0, 0)]);
    c.ok(&[arrive(1), arrive(2), arrive(3)]);
    c.ok(&[read(1, 0), read(2, 0), read(3, 0)]);
    c
}

fn equal_store_sets_nothing() -> Case {
    let shows =
        "A race of equal sums: card 2's record goes last and has no word, so card 1's value stays.";
    let mut c = Case::open("equal-store-sets-nothing", [3, 1, 1], shows);
    c.ok(&[write(1, 0, 5), write(2, 0, 0)]);
    c.ok(&[arrive(1), arrive(2), arrive(3)]);
    c.gives(read(3, 0), 5, 1);
    c.gives(read(2, 0), 5, 1);
    c.gives(read(1, 0), 5, 0);
    c
}

fn equal_store_raises_sum() -> Case {
    let shows = "A race: card 1's equal store makes its next interval's sum larger than card 2's, so card 1's value stays.";
    let mut c = Case::open("equal-store-raises-sum", [3, 1, 1], shows);
    c.ok(&[
        write(1, 0, 0),
        acquire(1, 0),
        write(1, 0, 11),
        release(1, 0),
    ]);
    c.ok(&[write(2, 0, 20), arrive(1), arrive(2), arrive(3)]);
    c.gives(read(3, 0), 11, 1);
    c.gives(read(2, 0), 11, 1);
    c.gives(read(1, 0), 20, 1);
    c
}

fn equal_store_beside() -> Case {
    let shows = "One interval with three dirty pages, the middle one altered: a record for each of the three, of which the middle one has words and is applied.";
    let mut c = Case::open("equal-store-beside", [2, 4, 1], shows);
    c.ok(&[acquire(1, 0), write(1, 0, 0), write(1, 32, 5)]);
    c.ok(&[write(1, 95, 0), release(1, 0), acquire(2, 0)]);
    c.ok(&[read(2, 64)]);
    c.gives(read(2, 32), 5, 1);
    c.ok(&[read(2, 0), read(2, 96)]);
    c
}

fn store_put_back() -> Case {
    let shows = "A store put back before the closing leaves the page dirty: a record without words; beside an altered word it is no part of the record.";
    let mut c = Case::open("store-put-back", [3, 1, 1], shows);
    c.ok(&[write(1, 0, 8), write(1, 0, 0), acquire(1, 0), release(1, 0)]);
    c.ok(&[acquire(2, 0), read(2, 0)]);
    c.ok(&[write(2, 0, 5), release(2, 0)]);
    c.ok(&[write(1, 0, 8), write(1, 1, 7), write(1, 0, 0)]);
    c.ok(&[arrive(1), arrive(2), arrive(3)]);
    c.gives(read(3, 0), 5, 2);
    c.gives(read(3, 1), 7, 0);
    c.gives(read(1, 0), 5, 1);
    c.gives(read(2, 1), 7, 1);
    c
}

fn equal_store_round() -> Case {
    let shows = "The round tells of an equal store that a release closed before it, and nothing is applied; a collecting round applies none that nobody has fetched.";
    let mut c = Case::open("equal-store-round", [2, 1, 1], shows);
    c.ok(&[acquire(1, 0), write(1, 0, 0), release(1, 0), read(2, 0)]);
    c.ok(&[arrive(1), arrive(2), read(2, 0)]);
    c.ok(&[acquire(1, 0), write(1, 0, 0), release(1, 0)]);
    c.ok(&[want(1), arrive(2), arrive(1), read(2, 0)]);
    c
}

fn equal_store_at_arrival() -> Case {
    let shows =
        "An equal store closes at arrival, the last card's too, with a collection and without; no card applies its record.";
    let mut c = Case::open("equal-store-at-arrival", [2, 2, 1], shows);
    c.ok(&[write(1, 0, 0), write(2, 33, 0), arrive(1), arrive(2)]);
    c.ok(&[read(2, 0), read(1, 32)]);
    c.ok(&[write(1, 0, 0), write(1, 32, 0), write(2, 1, 0)]);
    c.ok(&[want(2), arrive(1), arrive(2)]);
    c
}

fn asker_closes_equal_store() -> Case {
    let shows = "The asker's equal store closes when it asks, and is 17 while it waits: its stores before and after the wait are two records without words.";
    let mut c = Case::open("asker-closes-equal-store", [3, 1, 1], shows);
    c.ok(&[acquire(1, 0), write(2, 0, 0), acquire(2, 0)]);
    c.refused(write(2, 0, 0), 17);
    c.ok(&[release(1, 0), write(2, 0, 0), release(2, 0)]);
    c.ok(&[acquire(3, 0), read(3, 0)]);
    c
}

fn equal_store_granted() -> Case {
    let shows = "The release closes the holder's equal store and tells the waiter, cards further back in the line in their turn; each skips the records.";
    let mut c = Case::open("equal-store-granted", [3, 1, 1], shows);
    c.ok(&[acquire(1, 0), acquire(2, 0), acquire(3, 0)]);
    c.ok(&[write(1, 0, 0), release(1, 0)]);
    c.ok(&[write(2, 0, 0), release(2, 0), read(3, 0)]);
    c
}

fn nothing_dirty() -> Case {
    let shows = "Nothing dirty makes no interval: after 64 closings of clean pages, and reads, a store is not 9 and has interval 1.";
    let mut c = Case::open("nothing-dirty", [2, 1, 1], shows);
    for _ in 0..32 {
        c.ok(&[acquire(1, 0), read(1, 0), release(1, 0)]);
    }
    c.ok(&[write(1, 0, 0), acquire(1, 0), release(1, 0), acquire(2, 0)]);
    c.ok(&[read(2, 0)]);
    c
}
