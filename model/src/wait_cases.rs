//! The named files of cards that wait for a lock (document 02, request L1).

use crate::case::{acquire, any, arrive, read, release, want, write, Case};
use crate::cases::{make_intervals, write_as};

pub fn wait_cases() -> Vec<Case> {
    vec![
        wait_in_line(),
        asker_closes(),
        asker_closes_before_learning(),
        two_locks(),
        hang_two_locks(),
        hang_arrived_holder(),
        lock_by_turns(),
        grant_orders_read(),
        grant_joins(),
        waiter_learns_last_interval(),
        asking_tells_nothing(),
        line_of_three(),
        line_of_seven(),
        lines_apart(),
        releaser_asks_again(),
        waiter_keeps_its_lock(),
        refusal_17(),
        refusal_17_order(),
    ]
}

fn wait_in_line() -> Case {
    let shows = "Cards 2, 3 and 4 wait for lock 0: 17 for kinds 1 to 6 and 9, after refusal 5 and before refusal 8; each learns what the one before it did.";
    let mut c = Case::open("wait-in-line", [4, 1, 2], shows);
    c.ok(&[acquire(1, 0), acquire(2, 0), acquire(3, 0), acquire(4, 0)]);
    c.refused(acquire(1, 0), 7);
    for step in [read(2, 0), write(2, 0, 5), acquire(2, 1)] {
        c.refused(step, 17);
    }
    for step in [release(2, 0), arrive(2), want(2)] {
        c.refused(step, 17);
    }
    c.refused(acquire(2, 2), 5);
    c.refused(any(9, 2, 0, 0), 17);
    c.refused(any(3, 2, 0, 1), 5);
    c.refused(release(3, 0), 17);
    c.ok(&[write(1, 0, 11), release(1, 0)]);
    c.gives(read(2, 0), 11, 1);
    c.refused(read(3, 0), 17);
    c.ok(&[write(2, 0, 22), release(2, 0)]);
    c.gives(read(3, 0), 22, 1);
    c.ok(&[release(3, 0)]);
    c.gives(read(4, 0), 22, 1);
    c.ok(&[release(4, 0)]);
    c.refused(release(4, 0), 8);
    c.ok(&[acquire(1, 0)]);
    c.gives(read(1, 0), 22, 1);
    c
}

fn asker_closes() -> Case {
    let shows = "The asker's interval closes when it asks: its stores before and after the wait are two records, and the later replaces the earlier.";
    let mut c = Case::open("asker-closes", [3, 1, 1], shows);
    c.ok(&[acquire(1, 0), write(2, 0, 7), acquire(2, 0), release(1, 0)]);
    c.ok(&[write(2, 0, 8), release(2, 0), acquire(3, 0)]);
    c.gives(read(3, 0), 8, 1);
    c
}

fn asker_closes_before_learning() -> Case {
    let shows = "A race: the asker's interval closes before it learns card 2's; equal sums, so card 2's goes last.";
    let mut c = Case::open("asker-closes-before-learning", [3, 1, 1], shows);
    c.ok(&[acquire(2, 0), write(2, 0, 20), release(2, 0), acquire(3, 0)]);
    c.ok(&[write(1, 0, 10), acquire(1, 0), release(3, 0)]);
    c.ok(&[release(1, 0), acquire(3, 0)]);
    c.gives(read(3, 0), 20, 1);
    c
}

fn two_locks() -> Case {
    let shows = "Card 1 holds two locks and a card waits for each: a release serves its own line and tells all that card 1 did.";
    let mut c = Case::open("two-locks", [3, 2, 2], shows);
    c.ok(&[
        acquire(1, 0),
        write(1, 0, 1),
        acquire(1, 1),
        write(1, 32, 2),
    ]);
    c.ok(&[acquire(2, 1), acquire(3, 0), release(1, 1)]);
    c.gives(read(2, 0), 1, 1);
    c.gives(read(2, 32), 2, 1);
    c.ok(&[write(1, 0, 3), release(1, 0)]);
    c.gives(read(3, 0), 3, 1);
    c.gives(read(3, 32), 2, 1);
    c.gives(read(2, 0), 1, 0);
    c.ok(&[release(2, 1), acquire(3, 1)]);
    c.gives(read(3, 0), 3, 0);
    c.ok(&[acquire(2, 0), release(3, 0)]);
    c.gives(read(2, 0), 3, 1);
    c
}

fn hang_two_locks() -> Case {
    let shows = "Two cards wait for each other's lock: each step of theirs is 17 for good.";
    let mut c = Case::open("hang-two-locks", [2, 1, 2], shows);
    c.ok(&[acquire(1, 0), acquire(2, 1), acquire(1, 1), acquire(2, 0)]);
    for step in [release(1, 0), release(2, 1), arrive(1), want(2), read(1, 0)] {
        c.refused(step, 17);
    }
    c
}

fn hang_arrived_holder() -> Case {
    let shows = "The holder's arrival while card 2 waits is refused, so nobody hangs: card 1 frees the lock, and card 2 has it.";
    let mut c = Case::open("hang-arrived-holder", [2, 1, 1], shows);
    c.ok(&[acquire(1, 0), acquire(2, 0)]);
    c.refused(arrive(1), 18);
    c.ok(&[release(1, 0)]);
    c.refused(arrive(2), 18);
    c.ok(&[read(2, 0), read(1, 0)]);
    c
}

fn lock_by_turns() -> Case {
    let shows = "Two cards hand a lock to and fro, each asking while the other holds it; after a collecting round it is free, and a line forms anew.";
    let mut c = Case::open("lock-by-turns", [2, 1, 1], shows);
    c.ok(&[acquire(1, 0), acquire(2, 0), release(1, 0), acquire(1, 0)]);
    c.ok(&[release(2, 0), acquire(2, 0), release(1, 0)]);
    c.refused(release(1, 0), 8);
    c.ok(&[release(2, 0), want(1), arrive(1), arrive(2)]);
    c.ok(&[acquire(1, 0), acquire(2, 0)]);
    c
}

fn grant_orders_read() -> Case {
    let shows = "Only the grant orders card 2's read behind card 1's store: no acquire of card 2 follows the release.";
    let mut c = Case::open("grant-orders-read", [2, 1, 1], shows);
    c.ok(&[acquire(1, 0), acquire(2, 0), write(1, 0, 5), release(1, 0)]);
    c.gives(read(2, 0), 5, 1);
    c.ok(&[write(1, 0, 6)]);
    c.gives(read(2, 0), 5, 0);
    c
}

fn grant_joins() -> Case {
    let shows = "At the grant the waiter's clock joins the lock's: what it knew of card 3 before stays known.";
    let mut c = Case::open("grant-joins", [3, 1, 2], shows);
    c.ok(&[acquire(3, 1), write(3, 5, 30), release(3, 1)]);
    c.ok(&[acquire(1, 0), acquire(2, 1), acquire(2, 0)]);
    c.ok(&[write(1, 6, 10), release(1, 0)]);
    c.gives(read(2, 5), 30, 2);
    c.gives(read(2, 6), 10, 0);
    c
}

fn waiter_learns_last_interval() -> Case {
    let shows = "The lock's clock becomes the releaser's before the waiter learns it: the interval that the release closes is told too.";
    let mut c = Case::open("waiter-learns-last-interval", [2, 1, 2], shows);
    c.ok(&[acquire(1, 0), acquire(2, 0)]);
    c.ok(&[write(1, 0, 1), acquire(1, 1), write(1, 1, 2), release(1, 0)]);
    c.gives(read(2, 1), 2, 2);
    c.gives(read(2, 0), 1, 0);
    c
}

fn asking_tells_nothing() -> Case {
    let shows = "Asking closes the asker's interval but tells the holder nothing; the asker's own release does.";
    let mut c = Case::open("asking-tells-nothing", [2, 1, 1], shows);
    c.ok(&[acquire(1, 0), write(2, 0, 7), acquire(2, 0), read(1, 0)]);
    c.ok(&[release(1, 0), read(1, 0), release(2, 0), acquire(1, 0)]);
    c.gives(read(1, 0), 7, 1);
    c
}

fn line_of_three() -> Case {
    let shows =
        "Cards 4, 2 and 3 ask in that order and are served in that order, one at each release.";
    let mut c = Case::open("line-of-three", [4, 1, 1], shows);
    c.ok(&[acquire(1, 0), acquire(4, 0), acquire(2, 0), acquire(3, 0)]);
    c.ok(&[write(1, 0, 10), release(1, 0)]);
    c.refused(read(2, 0), 17);
    c.refused(read(3, 0), 17);
    c.gives(read(4, 0), 10, 1);
    c.ok(&[write(4, 0, 40), release(4, 0)]);
    c.refused(read(3, 0), 17);
    c.gives(read(2, 0), 40, 1);
    c.ok(&[write(2, 0, 20), release(2, 0)]);
    c.gives(read(3, 0), 20, 1);
    c.ok(&[release(3, 0)]);
    c.refused(release(3, 0), 8);
    c.ok(&[acquire(1, 0)]);
    c.gives(read(1, 0), 20, 1);
    c
}

fn line_of_seven() -> Case {
    let shows = "The longest line: seven cards ask, the largest number first, and each finds the store of the one before it, which replaces all earlier ones.";
    let mut c = Case::open("line-of-seven", [8, 1, 1], shows);
    c.ok(&[acquire(1, 0)]);
    for card in (2..=8).rev() {
        c.ok(&[acquire(card, 0)]);
    }
    c.ok(&[write(1, 0, 9), release(1, 0)]);
    for card in (2..=8u8).rev() {
        let before = u32::from(card) + 1;
        c.gives(read(card, 0), before, 1);
        c.ok(&[write(card, 0, card.into()), release(card, 0)]);
    }
    c.ok(&[acquire(1, 0)]);
    c.gives(read(1, 0), 2, 1);
    c
}

fn lines_apart() -> Case {
    let shows = "Two lines: a release moves its own line on and leaves the other as it was (3 behind 2, 4 behind 5).";
    let mut c = Case::open("lines-apart", [5, 1, 2], shows);
    c.ok(&[acquire(1, 0), acquire(1, 1)]);
    c.ok(&[acquire(2, 0), acquire(5, 1), acquire(4, 1), acquire(3, 0)]);
    c.ok(&[release(1, 0), read(2, 0)]);
    for card in 3..=5 {
        c.refused(read(card, 0), 17);
    }
    c.ok(&[release(1, 1), read(5, 0)]);
    c.refused(read(3, 0), 17);
    c.refused(read(4, 0), 17);
    c.ok(&[release(2, 0), read(3, 0)]);
    c.refused(read(4, 0), 17);
    c.ok(&[release(5, 1), read(4, 0), release(3, 0), release(4, 1)]);
    c.ok(&[acquire(1, 0), acquire(1, 1)]);
    c
}

fn releaser_asks_again() -> Case {
    let shows = "Card 1 frees the lock and asks again at once: it stands behind card 3, which is not passed over.";
    let mut c = Case::open("releaser-asks-again", [3, 1, 1], shows);
    c.ok(&[acquire(1, 0), acquire(2, 0), acquire(3, 0)]);
    c.ok(&[release(1, 0), acquire(1, 0), write(2, 0, 20), release(2, 0)]);
    c.refused(read(1, 0), 17);
    c.gives(read(3, 0), 20, 1);
    c.ok(&[release(3, 0)]);
    c.gives(read(1, 0), 20, 1);
    c
}

fn waiter_keeps_its_lock() -> Case {
    let shows = "A waiting card cannot free another lock that it holds: card 3 gets lock 1 only after card 2 has got lock 0.";
    let mut c = Case::open("waiter-keeps-its-lock", [3, 1, 2], shows);
    c.ok(&[acquire(1, 0), acquire(2, 1), write(2, 0, 7), acquire(2, 0)]);
    c.ok(&[acquire(3, 1)]);
    c.refused(release(2, 1), 17);
    c.refused(read(3, 0), 17);
    c.ok(&[release(1, 0)]);
    c.refused(read(3, 0), 17);
    c.ok(&[release(2, 1)]);
    c.gives(read(3, 0), 7, 1);
    c
}

fn refusal_17() -> Case {
    let shows = "Refusal 17: each kind of step by a waiting card, also on a lock that it holds; its want is no wish.";
    let mut c = Case::open("refusal-17", [3, 1, 3], shows);
    c.ok(&[acquire(1, 0), acquire(2, 1), acquire(2, 0)]);
    for step in [read(2, 0), write(2, 0, 1), arrive(2), want(2)] {
        c.refused(step, 17);
    }
    for lock in 0..3 {
        c.refused(acquire(2, lock), 17);
        c.refused(release(2, lock), 17);
    }
    c.ok(&[release(1, 0), read(2, 0), write(2, 0, 1), acquire(2, 2)]);
    c.ok(&[release(2, 0), release(2, 1), release(2, 2)]);
    c.ok(&[arrive(2), arrive(1), arrive(3)]);
    c.gives(read(3, 0), 1, 1);
    c
}

fn refusal_17_order() -> Case {
    let shows = "Refusal 17 comes after 3, 4 and 5 and before 8, 9 and 10, which stand once the card is served.";
    let mut c = Case::open("refusal-17-order", [3, 8, 3], shows);
    make_intervals(&mut c, 62);
    c.ok(&[write(1, 0, 63), acquire(1, 0), release(1, 0)]);
    c.ok(&[acquire(3, 1), acquire(1, 1)]);
    c.refused(any(7, 1, 0, 0), 3);
    c.refused(write(4, 0, 64), 4);
    c.refused(write(1, 256, 64), 5);
    c.refused(release(1, 2), 17);
    c.refused(write(1, 0, 64), 17);
    c.ok(&[release(3, 1)]);
    c.refused(release(1, 2), 8);
    c.refused(write(1, 0, 64), 9);
    for value in 1..=8 {
        let close = [acquire(2, 2), release(2, 2)];
        write_as(&mut c, 2, 8, value, close[(value as usize + 1) % 2]);
    }
    c.ok(&[write(2, 3, 9), acquire(3, 2), acquire(2, 2)]);
    c.refused(write(2, 3, 10), 17);
    c.ok(&[release(3, 2)]);
    c.refused(write(2, 3, 10), 10);
    c.refused(write(1, 0, 64), 9);
    c
}
