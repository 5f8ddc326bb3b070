//! The named files of records that a fetch skips (document 02, request L5).
//! Case D (`cases.rs`) and `equal-store-fetched` (`equal_cases.rs`) are the
//! plainest ones.

use crate::case::{acquire, arrive, read, release, want, write, Case};
use crate::model::Step;

pub fn skip_cases() -> Vec<Case> {
    vec![
        partly_replaced(),
        replaced_by_two_together(),
        replaced_by_three_together(),
        replaced_along_a_chain(),
        replaced_in_a_race(),
        replaced_in_a_collection(),
        replaced_for_one_card_alone(),
        replaced_before_a_write(),
        replaced_by_later_ones_alone(),
        replaced_not_by_the_next(),
        replaced_by_skipped_ones(),
        replaced_word_by_word(),
        all_words_but_one_replaced(),
        nothing_but_equal_stores(),
        equal_store_between(),
        same_offset_on_two_pages(),
        replaced_in_the_next_fetch(),
        own_store_replaces_nothing(),
        set_back_to_what_it_was(),
        longest_fetch(),
    ]
}

/// A card takes lock 0, stores (word, value), the first with this count of
/// records of one word each, and frees the lock.
fn turn(c: &mut Case, card: u8, count: u32, stores: &[(u16, u32)]) {
    turn_moving(c, card, (count, count), stores);
}

/// The same with records of so many words.
pub fn turn_moving(c: &mut Case, card: u8, moved: (u32, u32), stores: &[(u16, u32)]) {
    c.ok(&[acquire(card, 0)]);
    for (nth, (word, value)) in stores.iter().enumerate() {
        let (count, words) = if nth == 0 { moved } else { (0, 0) };
        c.moves(write(card, *word, *value), 0, count, words);
    }
    c.ok(&[release(card, 0)]);
}

fn partly_replaced() -> Case {
    let shows = "Word 0 is set by the first record alone: both are applied.";
    let mut c = Case::open("partly-replaced", [3, 1, 1], shows);
    turn(&mut c, 1, 0, &[(0, 11), (1, 12)]);
    turn_moving(&mut c, 2, (1, 2), &[(1, 22)]);
    c.ok(&[acquire(3, 0)]);
    c.moves(read(3, 0), 11, 2, 3);
    c.gives(read(3, 1), 22, 0);
    c
}

fn replaced_by_two_together() -> Case {
    let shows = "The first record is replaced by the next two together, by neither alone: card 3 applies two of two, card 4 two of three.";
    let mut c = Case::open("replaced-by-two-together", [4, 1, 1], shows);
    turn(&mut c, 1, 0, &[(0, 11), (1, 12)]);
    turn_moving(&mut c, 2, (1, 2), &[(0, 21)]);
    turn_moving(&mut c, 3, (2, 3), &[(1, 32)]);
    c.ok(&[acquire(4, 0)]);
    c.gives(read(4, 0), 21, 2);
    c.gives(read(4, 1), 32, 0);
    c
}

fn replaced_by_three_together() -> Case {
    let shows = "The first record's three words are set again by three records; while one of them is missing it is applied.";
    let mut c = Case::open("replaced-by-three-together", [6, 1, 1], shows);
    turn(&mut c, 1, 0, &[(3, 13), (4, 14), (31, 15)]);
    turn_moving(&mut c, 2, (1, 3), &[(31, 25)]);
    turn_moving(&mut c, 3, (2, 4), &[(3, 33)]);
    c.ok(&[acquire(6, 0)]);
    c.moves(read(6, 4), 14, 3, 5);
    c.ok(&[release(6, 0)]);
    turn_moving(&mut c, 4, (3, 5), &[(4, 44)]);
    c.ok(&[acquire(5, 0)]);
    c.gives(read(5, 3), 33, 3);
    c.gives(read(5, 4), 44, 0);
    c.gives(read(5, 31), 25, 0);
    c.ok(&[release(5, 0), acquire(6, 0)]);
    c.gives(read(6, 4), 44, 1);
    c
}

fn replaced_along_a_chain() -> Case {
    let shows = "Of four records the last two are applied; each card on the way applies what the later ones leave.";
    let mut c = Case::open("replaced-along-a-chain", [5, 1, 1], shows);
    turn(&mut c, 1, 0, &[(3, 1)]);
    turn(&mut c, 2, 1, &[(3, 2), (4, 2)]);
    turn_moving(&mut c, 3, (1, 2), &[(4, 3)]);
    turn_moving(&mut c, 4, (2, 3), &[(3, 4)]);
    c.ok(&[acquire(5, 0)]);
    c.gives(read(5, 3), 4, 2);
    c.gives(read(5, 4), 3, 0);
    c
}

fn replaced_in_a_race() -> Case {
    let shows = "A race of equal sums: the smaller card's record goes first and is skipped where the other's comes with it, as applying both would leave it.";
    let mut c = Case::open("replaced-in-a-race", [3, 1, 1], shows);
    c.ok(&[write(1, 0, 5), write(2, 0, 6), write(2, 1, 7)]);
    c.ok(&[arrive(1), arrive(2), arrive(3)]);
    c.moves(read(3, 0), 6, 1, 2);
    c.moves(read(1, 0), 6, 1, 2);
    c.gives(read(2, 0), 5, 1);
    c
}

fn replaced_in_a_collection() -> Case {
    let shows = "A collecting round counts what it applies, and each page's fetch is one of its own: four of the five pending.";
    let mut c = Case::open("replaced-in-a-collection", [3, 2, 1], shows);
    turn(&mut c, 1, 0, &[(0, 5), (33, 6)]);
    turn(&mut c, 2, 1, &[(0, 7)]);
    c.ok(&[want(3), arrive(1), arrive(2)]);
    c.gives(arrive(3), 0, 4);
    c.gives(read(1, 0), 7, 0);
    c.gives(read(3, 33), 6, 0);
    c
}

fn replaced_for_one_card_alone() -> Case {
    let shows = "In a collecting round card 4 skips card 1's record, which card 3 has applied before: each of cards 1, 3 and 4 applies card 2's alone.";
    let mut c = Case::open("replaced-for-one-card-alone", [4, 1, 1], shows);
    turn(&mut c, 1, 0, &[(0, 5)]);
    c.ok(&[acquire(3, 0)]);
    c.gives(read(3, 0), 5, 1);
    c.ok(&[release(3, 0)]);
    turn(&mut c, 2, 1, &[(0, 7)]);
    c.ok(&[want(1), arrive(4), arrive(3), arrive(2)]);
    c.gives(arrive(1), 0, 3);
    for card in 1..=4 {
        c.gives(read(card, 0), 7, 0);
    }
    c
}

fn replaced_before_a_write() -> Case {
    let shows = "A write counts what its fetch applies: one of two, then two of three, where the second store of a turn fetches nothing.";
    let mut c = Case::open("replaced-before-a-write", [4, 1, 1], shows);
    turn(&mut c, 1, 0, &[(0, 11)]);
    turn(&mut c, 2, 1, &[(0, 22)]);
    turn(&mut c, 3, 1, &[(1, 33), (2, 34)]);
    turn_moving(&mut c, 4, (2, 3), &[(0, 44), (1, 45)]);
    c.ok(&[acquire(1, 0)]);
    c.moves(read(1, 2), 34, 2, 4);
    c.gives(read(1, 0), 44, 0);
    c.gives(read(1, 1), 45, 0);
    c
}

fn replaced_by_later_ones_alone() -> Case {
    let shows = "Card 2's record sets what card 1's did before it, and more: the earlier is skipped; card 3's sets a part of that again: both are applied.";
    let mut c = Case::open("replaced-by-later-ones-alone", [4, 1, 1], shows);
    turn(&mut c, 1, 0, &[(0, 11)]);
    turn(&mut c, 2, 1, &[(0, 21), (1, 22)]);
    turn_moving(&mut c, 3, (1, 2), &[(0, 31)]);
    c.ok(&[acquire(4, 0)]);
    c.moves(read(4, 0), 31, 2, 3);
    c.gives(read(4, 1), 22, 0);
    c
}

fn replaced_not_by_the_next() -> Case {
    let shows = "Between a record and the one that replaces it stands one of another word: two of three are applied.";
    let mut c = Case::open("replaced-not-by-the-next", [4, 1, 1], shows);
    turn(&mut c, 1, 0, &[(0, 11)]);
    turn(&mut c, 2, 1, &[(9, 22)]);
    turn(&mut c, 3, 2, &[(0, 33)]);
    c.ok(&[acquire(4, 0)]);
    c.gives(read(4, 0), 33, 2);
    c.gives(read(4, 9), 22, 0);
    c
}

fn replaced_by_skipped_ones() -> Case {
    let shows = "The records that replace one may be skipped themselves: card 3's replaces card 2's and so card 1's too.";
    let mut c = Case::open("replaced-by-skipped-ones", [4, 1, 1], shows);
    turn(&mut c, 1, 0, &[(0, 11), (1, 12)]);
    turn_moving(&mut c, 2, (1, 2), &[(0, 21), (1, 22), (2, 23)]);
    turn_moving(&mut c, 3, (1, 3), &[(0, 31), (1, 32), (2, 33)]);
    c.ok(&[acquire(4, 0)]);
    c.moves(read(4, 1), 32, 1, 3);
    c.gives(read(4, 0), 31, 0);
    c.gives(read(4, 2), 33, 0);
    c
}

/// Card 1 stores all 32 words in one interval; then card 2 stores the first
/// ones, each in an interval of its own. Lock 0 is free before and after.
fn page_then_words(c: &mut Case, words: u16) {
    let page: Vec<(u16, u32)> = (0..32).map(|word| (word, 100 + u32::from(word))).collect();
    turn(c, 1, 0, &page);
    for word in 0..words {
        let moved = if word == 0 { (1, 32) } else { (0, 0) };
        turn_moving(c, 2, moved, &[(word, 200 + u32::from(word))]);
    }
}

fn replaced_word_by_word() -> Case {
    let shows = "A record of the whole page is replaced by 32 records of one word each: 32 of 33 are applied.";
    let mut c = Case::open("replaced-word-by-word", [3, 1, 1], shows);
    page_then_words(&mut c, 32);
    c.ok(&[acquire(3, 0)]);
    c.gives(read(3, 31), 231, 32);
    c.gives(read(3, 0), 200, 0);
    c
}

fn all_words_but_one_replaced() -> Case {
    let shows = "As replaced-word-by-word without the last word: all 32 records are applied, the page's too.";
    let mut c = Case::open("all-words-but-one-replaced", [3, 1, 1], shows);
    page_then_words(&mut c, 31);
    c.ok(&[acquire(3, 0)]);
    c.moves(read(3, 31), 131, 32, 63);
    c.gives(read(3, 30), 230, 0);
    c
}

fn nothing_but_equal_stores() -> Case {
    let shows = "A fetch all of whose records are skipped, by a read and by a write, counts 0, and so does the next; a store behind them is fetched.";
    let mut c = Case::open("nothing-but-equal-stores", [4, 1, 1], shows);
    turn(&mut c, 1, 0, &[(0, 0)]);
    turn(&mut c, 1, 0, &[(1, 0)]);
    turn(&mut c, 2, 0, &[(0, 0)]);
    c.ok(&[acquire(3, 0), read(3, 0), read(3, 0), release(3, 0)]);
    turn(&mut c, 4, 0, &[(0, 44)]);
    c.ok(&[acquire(3, 0)]);
    c.gives(read(3, 0), 44, 1);
    c.gives(read(3, 0), 44, 0);
    c
}

fn equal_store_between() -> Case {
    let shows = "A record with no words replaces nothing and is skipped, before, between and behind others.";
    let mut c = Case::open("equal-store-between", [3, 1, 1], shows);
    turn(&mut c, 1, 0, &[(0, 0)]);
    turn(&mut c, 1, 0, &[(0, 11)]);
    turn(&mut c, 2, 1, &[(0, 11)]);
    turn(&mut c, 1, 0, &[(1, 12)]);
    turn(&mut c, 2, 1, &[(1, 12)]);
    c.ok(&[acquire(3, 0)]);
    c.gives(read(3, 0), 11, 2);
    c.gives(read(3, 1), 12, 0);
    c
}

fn same_offset_on_two_pages() -> Case {
    let shows = "The same offset on another page replaces nothing: card 3 applies a record of each page. It may not arrive with the lock, so the others stay at the barrier.";
    let mut c = Case::open("same-offset-on-two-pages", [4, 2, 1], shows);
    same_offset_read(&mut c);
    c.ok(&[want(3), arrive(1), arrive(2)]);
    c.refused(arrive(3), 18);
    c.ok(&[arrive(4)]);
    for card in [1, 2] {
        c.refused(read(card, 5), 6);
        c.refused(read(card, 37), 6);
    }
    c.gives(read(3, 5), 11, 0);
    c.gives(read(3, 37), 22, 0);
    c.refused(read(4, 5), 6);
    c.refused(read(4, 37), 6);
    c
}

/// Cards 1 and 2 store at one offset of two pages; card 3 takes the lock and
/// reads both.
pub fn same_offset_read(c: &mut Case) {
    turn(c, 1, 0, &[(5, 11)]);
    turn(c, 2, 0, &[(37, 22)]);
    c.ok(&[acquire(3, 0)]);
    c.gives(read(3, 5), 11, 1);
    c.gives(read(3, 37), 22, 1);
}

fn replaced_in_the_next_fetch() -> Case {
    let shows = "A record of an earlier fetch is applied, though a later one replaces it; a card that fetches both at once applies one.";
    let mut c = Case::open("replaced-in-the-next-fetch", [4, 1, 1], shows);
    turn(&mut c, 1, 0, &[(0, 11)]);
    c.ok(&[acquire(3, 0)]);
    c.gives(read(3, 0), 11, 1);
    c.ok(&[release(3, 0)]);
    turn(&mut c, 2, 1, &[(0, 22)]);
    c.ok(&[acquire(3, 0)]);
    c.gives(read(3, 0), 22, 1);
    c.ok(&[release(3, 0), acquire(4, 0)]);
    c.gives(read(4, 0), 22, 1);
    c
}

fn own_store_replaces_nothing() -> Case {
    let shows = "A race: card 2's own record is no record of its fetch, so it replaces nothing there, and card 1's value stays; card 3 fetches both and applies card 2's.";
    let mut c = Case::open("own-store-replaces-nothing", [3, 1, 1], shows);
    c.ok(&[write(2, 0, 22)]);
    turn(&mut c, 1, 0, &[(0, 11)]);
    c.ok(&[acquire(2, 0)]);
    c.gives(read(2, 0), 11, 1);
    c.ok(&[release(2, 0), acquire(3, 0)]);
    c.gives(read(3, 0), 22, 1);
    c
}

fn set_back_to_what_it_was() -> Case {
    let shows = "A word set and set back to 0 by another card: the last record, which alters nothing for card 3, is the one that is applied.";
    let mut c = Case::open("set-back-to-what-it-was", [3, 1, 1], shows);
    turn(&mut c, 1, 0, &[(0, 5)]);
    turn(&mut c, 2, 1, &[(0, 0)]);
    c.ok(&[acquire(3, 0)]);
    c.gives(read(3, 0), 0, 1);
    c.gives(read(3, 0), 0, 0);
    c
}

/// A card makes 63 intervals of one record each, interval n on word n % 32 of
/// page 0, with the card's own lock free before and after the even ones.
pub fn stores_all_over(c: &mut Case, card: u8) {
    let lock = u16::from(card);
    for interval in 1..=63u16 {
        let value = 100 * u32::from(card) + u32::from(interval);
        let close: Step = match interval % 2 {
            1 => acquire(card, lock),
            _ => release(card, lock),
        };
        c.ok(&[write(card, interval % 32, value), close]);
    }
}

fn longest_fetch() -> Case {
    let shows = "Cards 1 and 2, with 63 records each, may not arrive with their locks, so card 4, which has arrived, fetches nothing.";
    let mut c = Case::open("longest-fetch", [4, 1, 4], shows);
    stores_all_over(&mut c, 1);
    stores_all_over(&mut c, 2);
    c.ok(&[write(3, 7, 301)]);
    c.refused(arrive(1), 18);
    c.refused(arrive(2), 18);
    c.ok(&[arrive(3), arrive(4)]);
    for word in [7, 0, 31] {
        c.refused(read(4, word), 6);
    }
    c
}
