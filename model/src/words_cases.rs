//! The named files of words set (document 02, request L6). Every other file has
//! its total too; `partly-replaced`, `replaced-by-two-together` and
//! `replaced-in-a-collection` (`skip_cases.rs`) are the plainest ones.

use crate::case::{acquire, add, arrive, look, read, release, want, write, Case};
use crate::skip_cases::turn_moving;

pub fn words_cases() -> Vec<Case> {
    vec![
        words_of_an_opening(),
        words_of_no_fetch(),
        words_of_one_card(),
        words_of_a_confirmed_constant(),
        words_set_to_what_they_were(),
        words_set_again_in_the_fetch(),
        words_of_one_run(),
        words_of_many_runs(),
        words_of_a_refused_step(),
        words_of_a_collection(),
        words_of_eight_whole_pages(),
        words_of_rounds(),
        words_cut_within_a_record(),
        words_of_a_whole_record(),
    ]
}

fn words_of_an_opening() -> Case {
    let shows = "An opening alone, of three cards: words 0.";
    Case::open("words-of-an-opening", [3, 1, 1], shows)
}

fn words_of_no_fetch() -> Case {
    let shows = "Stores, locks, a round without collection and tallies move no words; nobody fetches what was stored.";
    let mut c = Case::open("words-of-no-fetch", [2, 2, 2], shows);
    c.ok(&[
        acquire(1, 0),
        write(1, 0, 5),
        write(1, 32, 6),
        release(1, 0),
    ]);
    c.ok(&[add(2, 3, 9), acquire(2, 0), release(2, 0)]);
    c.gives(look(2, 3), 9, 0);
    c.ok(&[arrive(1), arrive(2)]);
    c.gives(read(1, 0), 5, 0);
    c
}

fn words_of_one_card() -> Case {
    let shows = "One card fetches nothing, in a collecting round neither: words 0.";
    let mut c = Case::open("words-of-one-card", [1, 1, 1], shows);
    c.ok(&[write(1, 0, 5), acquire(1, 0), write(1, 1, 6), release(1, 0)]);
    c.ok(&[want(1), arrive(1)]);
    c.gives(read(1, 1), 6, 0);
    c
}

fn words_of_a_confirmed_constant() -> Case {
    let shows = "Card 2 stores card 1's value again: a record with no words, which is skipped and moves none.";
    let mut c = Case::open("words-of-a-confirmed-constant", [2, 1, 1], shows);
    turn_moving(&mut c, 1, (0, 0), &[(0, 9)]);
    turn_moving(&mut c, 2, (1, 1), &[(0, 9)]);
    c.ok(&[acquire(1, 0)]);
    c.gives(read(1, 0), 9, 0);
    c
}

fn words_set_to_what_they_were() -> Case {
    let shows = "A race that stores the same value twice: a word that is set to the value it had counts, for cards 1 and 3.";
    let mut c = Case::open("words-set-to-what-they-were", [3, 1, 1], shows);
    c.ok(&[write(1, 0, 7), write(3, 0, 7)]);
    c.ok(&[arrive(1), arrive(2), arrive(3)]);
    c.gives(read(3, 0), 7, 1);
    c.gives(read(1, 0), 7, 1);
    c.gives(read(2, 0), 7, 1);
    c
}

fn words_set_again_in_the_fetch() -> Case {
    let shows = "Three records of two words each over four words: card 4 applies all, and a word set twice counts twice, six in all.";
    let mut c = Case::open("words-set-again-in-the-fetch", [4, 1, 1], shows);
    turn_moving(&mut c, 1, (0, 0), &[(0, 10), (1, 11)]);
    turn_moving(&mut c, 2, (1, 2), &[(1, 21), (2, 22)]);
    turn_moving(&mut c, 3, (2, 4), &[(2, 32), (3, 33)]);
    c.ok(&[acquire(4, 0)]);
    c.moves(read(4, 0), 10, 3, 6);
    for (word, value) in [(1, 21), (2, 32), (3, 33)] {
        c.gives(read(4, word), value, 0);
    }
    c
}

fn words_of_one_run() -> Case {
    let shows = "A record that is one run of 32 words moves 32, by a read and by a write.";
    let mut c = Case::open("words-of-one-run", [3, 1, 1], shows);
    let page: Vec<(u16, u32)> = (0..32).map(|word| (word, 100 + u32::from(word))).collect();
    turn_moving(&mut c, 1, (0, 0), &page);
    turn_moving(&mut c, 2, (1, 32), &[(0, 7)]);
    c.ok(&[acquire(3, 0)]);
    c.moves(read(3, 31), 131, 2, 33);
    c.gives(read(3, 0), 7, 0);
    c
}

fn words_of_many_runs() -> Case {
    let shows =
        "A record of 16 runs of one word moves 16; one of two runs, three words and one, moves 4.";
    let mut c = Case::open("words-of-many-runs", [2, 1, 1], shows);
    let odd: Vec<(u16, u32)> = (0..16).map(|nth| (2 * nth + 1, 5)).collect();
    turn_moving(&mut c, 1, (0, 0), &odd);
    c.ok(&[acquire(2, 0)]);
    c.moves(read(2, 31), 5, 1, 16);
    c.ok(&[release(2, 0)]);
    turn_moving(&mut c, 1, (0, 0), &[(4, 1), (5, 2), (6, 3), (9, 4)]);
    c.ok(&[acquire(2, 0)]);
    c.moves(read(2, 6), 3, 1, 4);
    c
}

fn words_of_a_refused_step() -> Case {
    let shows = "Refused steps move no words: what was pending before them is moved by the accepted read behind them.";
    let mut c = Case::open("words-of-a-refused-step", [2, 1, 1], shows);
    turn_moving(&mut c, 1, (0, 0), &[(0, 5), (1, 6)]);
    c.ok(&[acquire(2, 0)]);
    c.refused(read(2, 32), 5);
    c.refused(acquire(2, 0), 7);
    c.refused(read(3, 0), 4);
    c.ok(&[acquire(1, 0)]);
    c.refused(read(1, 0), 17);
    c.moves(read(2, 0), 5, 1, 2);
    c
}

fn words_of_a_collection() -> Case {
    let shows = "A collecting round moves what each card has not fetched of each page: 2 words to card 1, 4 and 3 to card 2, 3 to card 3, which has fetched page 0.";
    let mut c = Case::open("words-of-a-collection", [3, 2, 1], shows);
    let stores = [(0, 5), (1, 6), (40, 7), (41, 8), (42, 9)];
    turn_moving(&mut c, 1, (0, 0), &stores);
    c.ok(&[acquire(3, 0)]);
    c.moves(write(3, 8, 30), 0, 1, 2);
    c.ok(&[write(3, 9, 31), release(3, 0)]);
    c.ok(&[want(2), arrive(2), arrive(1)]);
    // Page 0: card 3's record by card 1, both by card 2. Page 1: card 1's record
    // by cards 2 and 3.
    c.moves(arrive(3), 0, 5, 2 + 4 + 3 + 3);
    c.gives(read(2, 42), 9, 0);
    c.gives(read(2, 9), 31, 0);
    c
}

fn words_of_eight_whole_pages() -> Case {
    let shows = "Card 1 stores all 256 words, and a collecting round moves them to the seven others: 56 records, 1792 words.";
    let mut c = Case::open("words-of-eight-whole-pages", [8, 8, 1], shows);
    for word in 0..256 {
        c.ok(&[write(1, word, 1 + u32::from(word))]);
    }
    c.ok(&[want(8)]);
    for card in 1..=7 {
        c.ok(&[arrive(card)]);
    }
    c.moves(arrive(8), 0, 56, 1792);
    c.gives(read(8, 255), 256, 0);
    c
}

fn words_of_rounds() -> Case {
    let shows =
        "The total goes on over collections: three rounds of two words each, each round collected.";
    let mut c = Case::open("words-of-rounds", [2, 1, 1], shows);
    for round in 1..=3 {
        c.ok(&[write(1, 3, round), write(1, 4, 10 + round), want(1)]);
        c.ok(&[arrive(1)]);
        c.moves(arrive(2), 0, 1, 2);
        c.gives(read(2, 4), 10 + round, 0);
    }
    c
}

fn words_cut_within_a_record() -> Case {
    let shows = "A word was moved, and the file ends within a record: 15, and no last line.";
    let mut c = Case::open("words-cut-within-a-record", [2, 1, 1], shows);
    turn_moving(&mut c, 1, (0, 0), &[(0, 9)]);
    c.ok(&[acquire(2, 0)]);
    c.gives(read(2, 0), 9, 1);
    c.cut(&[1, 2, 0]);
    c
}

fn words_of_a_whole_record() -> Case {
    let shows = "As words-cut-within-a-record with the last record whole: two reads, one of which moves a word.";
    let mut c = Case::open("words-of-a-whole-record", [2, 1, 1], shows);
    turn_moving(&mut c, 1, (0, 0), &[(0, 9)]);
    c.ok(&[acquire(2, 0)]);
    c.gives(read(2, 0), 9, 1);
    c.gives(read(2, 0), 9, 0);
    c
}
