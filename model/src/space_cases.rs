//! The named files of the space forecast (document 02, requests L8 and L9): how
//! many records stand and how many pages are dirty after each record. Their figures,
//! and those of further named files, are in `space_figures.rs`.

use crate::case::{
    acquire, add, any, arrive, dequeue, enqueue, look, read, release, want, write, Case,
};

pub fn space_cases() -> Vec<Case> {
    vec![
        refused_opening(),
        closed_and_collected(),
        cut_while_dirty(),
        most_is_not_last(),
        nine_until_collected(),
        tallies_use_none(),
        refusals_use_none(),
        dirty_of_each_card(),
        jobs_close(),
        jobs_stay_over_a_collection(),
    ]
}

fn refused_opening() -> Case {
    let shows = "Refusal 2, nine cards, and nothing behind it: the forecast has 0 and 0, and its most is 0.";
    let bytes = [0, 9, 1, 1, 0, 0, 0, 0];
    Case::raw("space-refused-opening", &bytes, 2, shows)
}

fn closed_and_collected() -> Case {
    let shows = "Equal stores count, a page once; the asker that has to wait closes both its pages; 17 and 6 change nothing; a collecting round gives the space back.";
    let mut c = Case::open("space-closed-and-collected", [2, 2, 1], shows);
    c.ok(&[write(1, 0, 0), write(1, 1, 0), write(1, 32, 9)]);
    c.ok(&[acquire(2, 0), acquire(1, 0)]);
    c.refused(write(1, 0, 3), 17);
    c.ok(&[release(2, 0), want(1), write(1, 5, 1), release(1, 0)]);
    c.ok(&[arrive(1)]);
    c.refused(write(1, 0, 1), 6);
    c.gives(arrive(2), 0, 2);
    c.ok(&[write(2, 0, 1)]);
    c
}

fn cut_while_dirty() -> Case {
    let shows = "Refusal 15 with a dirty page: the forecast has the figures before it.";
    let mut c = Case::open("space-cut-while-dirty", [2, 1, 1], shows);
    c.ok(&[write(1, 0, 7)]);
    c.cut(&[2, 1]);
    c
}

fn most_is_not_last() -> Case {
    let shows =
        "The most is the largest sum, which stands before a collecting round, and not the last.";
    let mut c = Case::open("space-most-is-not-last", [2, 2, 1], shows);
    c.ok(&[write(1, 0, 1), write(1, 32, 1), write(2, 0, 1)]);
    c.ok(&[want(1), arrive(1)]);
    c.gives(arrive(2), 0, 3);
    c.gives(read(1, 0), 1, 0);
    c
}

fn nine_until_collected() -> Case {
    let shows = "Refusal 9 long before 128: card 1 makes its 63 intervals, and may write again after a collecting round.";
    let mut c = Case::open("space-nine-until-collected", [1, 1, 1], shows);
    for value in 1..=63 {
        c.ok(&[write(1, 0, value), acquire(1, 0), release(1, 0)]);
    }
    c.refused(write(1, 0, 64), 9);
    c.ok(&[acquire(1, 0), release(1, 0)]);
    c.refused(write(1, 0, 99), 9);
    c.ok(&[want(1), arrive(1), write(1, 0, 100)]);
    c
}

fn tallies_use_none() -> Case {
    let shows = "Tallies leave both figures alone, and so does the round that posts them.";
    let mut c = Case::open("space-tallies-use-none", [2, 1, 1], shows);
    c.ok(&[add(1, 3, 5), look(2, 3)]);
    c.refused(add(1, 16, 1), 5);
    c.ok(&[arrive(1), arrive(2)]);
    c.gives(look(2, 3), 5, 0);
    c
}

fn refusals_use_none() -> Case {
    let shows = "A record stands and a page is dirty: a step that is refused by 3 to 8, 17 or 18 changes neither.";
    let mut c = Case::open("space-refusals-use-none", [3, 2, 2], shows);
    c.ok(&[write(1, 0, 1), acquire(1, 0), write(1, 32, 2)]);
    c.ok(&[acquire(2, 0), arrive(3)]);
    c.refused(any(7, 1, 0, 0), 3);
    c.refused(write(4, 1, 3), 4);
    c.refused(write(1, 64, 3), 5);
    c.refused(write(3, 1, 3), 6);
    c.refused(write(2, 1, 3), 17);
    c.refused(arrive(1), 18);
    c.refused(acquire(1, 0), 7);
    c.refused(release(1, 1), 8);
    c
}

fn dirty_of_each_card() -> Case {
    let shows = "Three cards have the same page dirty: it counts for each, and becomes a record of each; a round without collection keeps the records.";
    let mut c = Case::open("space-dirty-of-each-card", [3, 1, 1], shows);
    c.ok(&[write(1, 0, 1), write(2, 1, 2), write(3, 2, 3)]);
    c.ok(&[write(1, 4, 4), acquire(1, 0), release(1, 0)]);
    c.ok(&[arrive(2), write(3, 5, 5), arrive(1), arrive(3)]);
    c
}

fn jobs_close() -> Case {
    let shows = "An enqueue and a dequeue close; with no job waiting, and behind an arrival, they change nothing.";
    let mut c = Case::open("space-jobs-close", [2, 1, 1], shows);
    c.ok(&[write(1, 0, 5), enqueue(1, 77), write(2, 1, 5)]);
    c.gives(dequeue(2), 77, 0);
    c.refused(dequeue(2), 20);
    c.ok(&[arrive(1)]);
    c.refused(enqueue(1, 1), 6);
    c
}

fn jobs_stay_over_a_collection() -> Case {
    let shows = "A collecting round gives the space back and keeps the jobs; 19 and 20 with dirty pages change neither figure.";
    let mut c = Case::open("space-jobs-stay", [2, 2, 1], shows);
    c.ok(&[write(1, 0, 1), write(1, 32, 2), enqueue(1, 0)]);
    c.ok(&[want(1), arrive(1)]);
    c.gives(arrive(2), 0, 2);
    c.ok(&[write(2, 0, 3)]);
    c.ok(&[enqueue(1, 1); 31]);
    c.refused(enqueue(2, 1), 19);
    c.gives(dequeue(2), 0, 0);
    c.ok(&[write(1, 0, 4)]);
    for _ in 0..31 {
        c.gives(dequeue(2), 1, 0);
    }
    c.refused(dequeue(1), 20);
    c.ok(&[enqueue(1, 1)]);
    c
}
