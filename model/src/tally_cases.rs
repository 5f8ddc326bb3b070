//! The named files of tallies (document 02, request L4).

use crate::case::{acquire, add, any, arrive, enqueue, look, read, release, want, write, Case};
use crate::cases::{make_intervals, write_as};

pub fn tally_cases() -> Vec<Case> {
    vec![
        tally_wraps(),
        tally_refusals(),
        tally_collected(),
        tally_orders_nothing(),
        refusal_3_beside_tallies(),
        refusal_4_tally(),
        refusal_5_tally(),
        refusal_6_tally(),
        refusal_17_tally(),
        tally_without_space(),
        tally_own_adds(),
        tally_wraps_in_a_round(),
        tally_wraps_at_posting(),
        tally_wraps_to_zero(),
        tally_round_without_adds(),
        tally_last_card_posted(),
        tally_any_order(),
        tally_of_one_card(),
        tally_sixteen_of_three_cards(),
        tally_not_by_lock(),
        tally_closes_nothing(),
        tally_fetches_nothing(),
        tally_rounds_by_turns(),
        tally_no_word(),
    ]
}

fn tally_wraps() -> Case {
    let shows = "Each card reads its own adds until the round ends; then both read the posted total, which has wrapped to 1, and add to it again.";
    let mut c = Case::open("tally-wraps", [2, 1, 1], shows);
    c.ok(&[add(1, 0, u32::MAX), add(2, 0, 2)]);
    c.gives(look(1, 0), u32::MAX, 0);
    c.gives(look(2, 0), 2, 0);
    c.ok(&[arrive(1)]);
    c.gives(look(2, 0), 2, 0);
    c.ok(&[arrive(2)]);
    c.gives(look(1, 0), 1, 0);
    c.gives(look(2, 0), 1, 0);
    c.ok(&[add(2, 0, 5)]);
    c.gives(look(2, 0), 6, 0);
    c.gives(look(1, 0), 1, 0);
    c
}

fn tally_refusals() -> Case {
    let shows = "Tally 16 and a read with a value are 5, kind 7 stays 3, card 3 of 2 is 4; an arrived card's add and read are 6. Kind 10 between them enqueues 0.";
    let mut c = Case::open("tally-refusals", [2, 1, 1], shows);
    c.refused(add(1, 16, 1), 5);
    c.refused(any(9, 1, 0, 7), 5);
    c.ok(&[add(1, 15, 0)]);
    c.refused(any(7, 1, 0, 0), 3);
    c.ok(&[enqueue(1, 0)]);
    c.refused(add(3, 0, 1), 4);
    c.refused(look(2, 16), 5);
    c.ok(&[arrive(1)]);
    c.refused(add(1, 0, 1), 6);
    c.refused(look(1, 0), 6);
    c
}

fn tally_collected() -> Case {
    let shows = "A collecting round posts and keeps totals, a second one too; an add behind another card's arrival is of the same round.";
    let mut c = Case::open("tally-collected", [2, 1, 1], shows);
    c.ok(&[add(1, 3, 10), want(2), arrive(1), add(2, 3, 20), arrive(2)]);
    c.gives(look(1, 3), 30, 0);
    c.ok(&[add(1, 3, 1), want(1), arrive(1)]);
    c.gives(look(2, 3), 30, 0);
    c.ok(&[arrive(2)]);
    c.gives(look(2, 3), 31, 0);
    c
}

fn tally_orders_nothing() -> Case {
    let shows = "A tally tells nothing of card 1's store; a waiting card's add is 17 and not counted; card 2 may not arrive with the lock, so it reads its own adds alone.";
    let mut c = Case::open("tally-orders-nothing", [3, 1, 1], shows);
    c.ok(&[write(1, 0, 9), add(1, 0, 1)]);
    c.gives(look(2, 0), 0, 0);
    c.gives(read(2, 0), 0, 0);
    c.ok(&[acquire(3, 0), acquire(2, 0)]);
    c.refused(add(2, 0, 5), 17);
    c.ok(&[release(3, 0), add(2, 0, 5)]);
    c.ok(&[arrive(1), arrive(3)]);
    c.refused(arrive(2), 18);
    c.gives(look(2, 0), 5, 0);
    c.ok(&[read(2, 0)]);
    c
}

fn refusal_3_beside_tallies() -> Case {
    let shows = "Refusal 3: kind 7 and kinds from 12 on, whatever the other fields; it comes before 4, 5, 6 and 17. Kinds 10 and 11 between them enqueue 0 and dequeue it, or are 4, 6 and 17.";
    let mut c = Case::open("refusal-3-beside-tallies", [3, 1, 1], shows);
    for kind in [0, 7, 10, 11, 12, 128, 136, 137, 255] {
        match kind {
            10 | 11 => {
                c.ok(&[any(kind, 1, 0, 0)]);
                c.refused(any(kind, 4, 16, 1), 4);
            }
            _ => {
                c.refused(any(kind, 1, 0, 0), 3);
                c.refused(any(kind, 4, 16, 1), 3);
            }
        }
    }
    c.ok(&[arrive(1), acquire(2, 0), acquire(3, 0)]);
    c.refused(any(7, 1, 0, 0), 3);
    c.refused(any(7, 3, 0, 0), 3);
    c.refused(enqueue(1, 0), 6);
    c.refused(enqueue(3, 0), 17);
    c
}

fn refusal_4_tally() -> Case {
    let shows = "Refusal 4 for adds and reads of tallies, before 5; no add of an absent card is in the total.";
    let mut c = Case::open("refusal-4-tally", [2, 1, 1], shows);
    for card in [0, 3, 8, 9, 255] {
        c.refused(add(card, 0, 1), 4);
        c.refused(look(card, 0), 4);
        c.refused(add(card, 16, 1), 4);
        c.refused(any(9, card, 0, 1), 4);
    }
    c.ok(&[look(1, 0), look(2, 0), arrive(1), arrive(2)]);
    c.ok(&[look(1, 0), look(2, 0)]);
    c
}

fn refusal_5_tally() -> Case {
    let shows = "Refusal 5: a tally above 15, or a value in a read of one; before 6 and 17. An add may have any value.";
    let mut c = Case::open("refusal-5-tally", [3, 8, 16], shows);
    let bad = |c: &mut Case, card| {
        for tally in [16, 17, 31, 255, 256, 271, u16::MAX] {
            c.refused(add(card, tally, 1), 5);
            c.refused(look(card, tally), 5);
        }
        for value in [1, 1 << 8, 1 << 16, 1 << 31, u32::MAX] {
            c.refused(any(9, card, 0, value), 5);
            c.refused(any(9, card, 15, value), 5);
        }
        c.refused(any(9, card, 16, 1), 5);
    };
    bad(&mut c, 1);
    c.ok(&[acquire(2, 0), acquire(1, 0), arrive(3)]);
    bad(&mut c, 1);
    bad(&mut c, 3);
    for value in [1, 1 << 8, 1 << 16, 1 << 31] {
        c.ok(&[add(2, 15, value)]);
    }
    c.gives(look(2, 15), 0x8001_0101, 0);
    c.ok(&[look(2, 0)]);
    c
}

fn refusal_6_tally() -> Case {
    let shows = "Refusal 6: an arrived card's adds are refused and are in no total; the other's behind them are of the round.";
    let mut c = Case::open("refusal-6-tally", [2, 1, 1], shows);
    c.ok(&[add(1, 2, 1), arrive(1)]);
    c.refused(add(1, 2, 100), 6);
    c.refused(add(1, 2, 0), 6);
    c.refused(look(1, 2), 6);
    c.ok(&[add(2, 2, 10)]);
    c.gives(look(2, 2), 10, 0);
    c.ok(&[arrive(2)]);
    c.gives(look(1, 2), 11, 0);
    c.gives(look(2, 2), 11, 0);
    c.ok(&[arrive(2)]);
    c.refused(look(2, 2), 6);
    c.gives(look(1, 2), 11, 0);
    c
}

fn refusal_17_tally() -> Case {
    let shows = "Refusal 17: a waiting card's adds and reads of tallies, after 5; what it added before it asked stays its own. It may not arrive with the lock, so the round does not end.";
    let mut c = Case::open("refusal-17-tally", [2, 1, 1], shows);
    c.ok(&[acquire(1, 0), add(2, 7, 3), acquire(2, 0)]);
    c.refused(add(2, 7, 100), 17);
    c.refused(look(2, 7), 17);
    c.refused(add(2, 16, 1), 5);
    c.refused(any(9, 2, 7, 1), 5);
    c.refused(any(10, 2, 7, 0), 5);
    c.ok(&[add(1, 7, 10), release(1, 0)]);
    c.gives(look(2, 7), 3, 0);
    c.ok(&[add(2, 7, 4)]);
    c.gives(look(2, 7), 7, 0);
    c.gives(look(1, 7), 10, 0);
    c.ok(&[arrive(1)]);
    c.refused(arrive(2), 18);
    c.refused(look(1, 7), 6);
    c
}

fn tally_without_space() -> Case {
    let shows = "Adds and reads of tallies pass where stores are 9 and 10: they need no interval and no record.";
    let mut c = Case::open("tally-without-space", [2, 8, 2], shows);
    make_intervals(&mut c, 62);
    c.ok(&[write(1, 0, 63), acquire(1, 0)]);
    c.refused(write(1, 0, 64), 9);
    c.ok(&[add(1, 0, 4)]);
    c.gives(look(1, 0), 4, 0);
    for value in 1..=8 {
        let close = [acquire(2, 1), release(2, 1)];
        write_as(&mut c, 2, 8, value, close[(value as usize + 1) % 2]);
    }
    c.ok(&[write(2, 3, 9), acquire(2, 1)]);
    c.refused(write(2, 3, 10), 10);
    c.ok(&[add(2, 0, 5)]);
    c.gives(look(2, 0), 5, 0);
    c.gives(look(1, 0), 4, 0);
    c
}

fn tally_own_adds() -> Case {
    let shows = "In a round a card reads its own adds alone, and each tally by itself; the round adds up all.";
    let mut c = Case::open("tally-own-adds", [3, 1, 1], shows);
    c.ok(&[add(1, 0, 1), add(1, 1, 10), add(2, 0, 100), add(1, 0, 2)]);
    c.gives(look(1, 0), 3, 0);
    c.gives(look(1, 1), 10, 0);
    c.gives(look(2, 0), 100, 0);
    for step in [look(2, 1), look(3, 0), look(3, 1), look(1, 2), look(1, 15)] {
        c.ok(&[step]);
    }
    c.ok(&[arrive(3), arrive(2), arrive(1)]);
    for card in 1..=3 {
        c.gives(look(card, 0), 103, 0);
        c.gives(look(card, 1), 10, 0);
        c.ok(&[look(card, 2), look(card, 15)]);
    }
    c
}

fn tally_wraps_in_a_round() -> Case {
    let shows = "A card's own adds wrap within a round, and with the posted total at a read: 4,294,967,295 and 1 are 0.";
    let mut c = Case::open("tally-wraps-in-a-round", [2, 1, 1], shows);
    c.ok(&[add(1, 4, u32::MAX), add(1, 4, 1)]);
    c.gives(look(1, 4), 0, 0);
    c.ok(&[add(1, 4, 1 << 31), add(1, 4, 1 << 31)]);
    c.gives(look(1, 4), 0, 0);
    c.ok(&[add(1, 4, u32::MAX)]);
    c.gives(look(1, 4), u32::MAX, 0);
    c.ok(&[arrive(1), arrive(2)]);
    c.gives(look(2, 4), u32::MAX, 0);
    c.ok(&[add(2, 4, 3)]);
    c.gives(look(2, 4), 2, 0);
    c.gives(look(1, 4), u32::MAX, 0);
    c.ok(&[arrive(2), arrive(1)]);
    c.gives(look(1, 4), 2, 0);
    c
}

fn tally_wraps_at_posting() -> Case {
    let shows = "The posting wraps over the cards, and more than once: five times 4,294,967,295 is 4,294,967,291.";
    let mut c = Case::open("tally-wraps-at-posting", [5, 1, 1], shows);
    for card in 1..=5 {
        c.ok(&[add(card, 9, u32::MAX)]);
        c.gives(look(card, 9), u32::MAX, 0);
    }
    for card in 1..=5 {
        c.ok(&[arrive(card)]);
    }
    for card in 1..=5 {
        c.gives(look(card, 9), 4_294_967_291, 0);
    }
    c.ok(&[add(3, 9, 5)]);
    c.ok(&[look(3, 9)]);
    c.gives(look(4, 9), 4_294_967_291, 0);
    c
}

fn tally_wraps_to_zero() -> Case {
    let shows = "Two adds of 2,147,483,648 by two cards are 0 after the round; then the total counts on from 0.";
    let mut c = Case::open("tally-wraps-to-zero", [2, 1, 1], shows);
    c.ok(&[add(1, 15, 1 << 31), add(2, 15, 1 << 31)]);
    c.gives(look(2, 15), 1 << 31, 0);
    c.ok(&[arrive(2), arrive(1), look(1, 15), look(2, 15)]);
    c.ok(&[add(1, 15, 7)]);
    c.gives(look(1, 15), 7, 0);
    c.ok(&[arrive(1), arrive(2)]);
    c.gives(look(2, 15), 7, 0);
    c
}

fn tally_round_without_adds() -> Case {
    let shows = "A round in which nobody adds leaves every total, with a collection and without; no add is posted twice.";
    let mut c = Case::open("tally-round-without-adds", [2, 1, 1], shows);
    c.ok(&[arrive(1), arrive(2), look(1, 0)]);
    c.ok(&[add(1, 0, 5), add(2, 0, 6), arrive(1), arrive(2)]);
    for _ in 0..2 {
        c.gives(look(1, 0), 11, 0);
        c.ok(&[arrive(2), arrive(1)]);
        c.gives(look(2, 0), 11, 0);
    }
    c.ok(&[want(1), arrive(1), arrive(2)]);
    c.gives(look(1, 0), 11, 0);
    c.gives(look(2, 0), 11, 0);
    c
}

fn tally_last_card_posted() -> Case {
    let shows = "Eight cards, each adds to a tally of its own and to tally 15: every card's adds are posted, the last one's too.";
    let mut c = Case::open("tally-last-card-posted", [8, 1, 1], shows);
    for card in 1..=8u8 {
        c.ok(&[add(card, card.into(), 10), add(card, 15, card.into())]);
    }
    for card in 1..=8 {
        c.ok(&[arrive(card)]);
    }
    for tally in 1..=8 {
        c.gives(look(1, tally), 10, 0);
        c.gives(look(8, tally), 10, 0);
    }
    c.gives(look(1, 15), 36, 0);
    c.gives(look(8, 15), 36, 0);
    c.ok(&[look(1, 0), look(1, 9), look(8, 14)]);
    c
}

fn tally_any_order() -> Case {
    let shows = "Adds that wrap in another place when the cards are taken downwards: both ways the total is 4.";
    let mut c = Case::open("tally-any-order", [3, 1, 1], shows);
    c.ok(&[add(3, 0, 5), add(1, 0, u32::MAX), add(2, 0, u32::MAX)]);
    c.ok(&[add(1, 1, 5), add(3, 1, u32::MAX), add(2, 1, u32::MAX)]);
    c.ok(&[add(1, 0, 1), add(3, 1, 1)]);
    c.ok(&[arrive(2), arrive(3), arrive(1)]);
    for card in 1..=3 {
        c.gives(look(card, 0), 4, 0);
        c.gives(look(card, 1), 4, 0);
    }
    c
}

fn tally_of_one_card() -> Case {
    let shows =
        "The smallest mainframe has the 16 tallies too; each arrival of its one card posts.";
    let mut c = Case::open("tally-of-one-card", [1, 1, 1], shows);
    c.ok(&[add(1, 15, 1), add(1, 0, 2)]);
    c.gives(look(1, 15), 1, 0);
    c.ok(&[arrive(1)]);
    c.gives(look(1, 15), 1, 0);
    c.ok(&[add(1, 15, 1)]);
    c.gives(look(1, 15), 2, 0);
    c.ok(&[want(1), arrive(1)]);
    c.gives(look(1, 15), 2, 0);
    c.gives(look(1, 0), 2, 0);
    c.refused(look(1, 16), 5);
    c
}

fn tally_sixteen_of_three_cards() -> Case {
    let shows = "Three of eight cards and 16 tallies with different adds: each total is the sum of its three.";
    let mut c = Case::open("tally-sixteen-of-three-cards", [3, 2, 2], shows);
    for tally in 0..16u16 {
        let n = u32::from(tally);
        c.ok(&[
            add(1, tally, n),
            add(2, tally, 100 * n),
            add(3, tally, 1000),
        ]);
    }
    c.ok(&[arrive(3), arrive(1)]);
    for tally in 0..16u16 {
        c.gives(look(2, tally), 100 * u32::from(tally), 0);
    }
    c.ok(&[arrive(2)]);
    for tally in 0..16u16 {
        c.gives(look(3, tally), 1000 + 101 * u32::from(tally), 0);
    }
    c
}

fn tally_not_by_lock() -> Case {
    let shows = "A lock carries words and no adds: neither an acquire nor a grant shows another card's adds, the round does.";
    let mut c = Case::open("tally-not-by-lock", [3, 1, 1], shows);
    c.ok(&[acquire(1, 0), write(1, 0, 5), add(1, 0, 8), acquire(3, 0)]);
    c.ok(&[release(1, 0), look(3, 0)]);
    c.gives(read(3, 0), 5, 1);
    c.ok(&[release(3, 0), acquire(2, 0), look(2, 0)]);
    c.gives(read(2, 0), 5, 1);
    c.gives(look(1, 0), 8, 0);
    c.ok(&[release(2, 0), arrive(1), arrive(2)]);
    c.ok(&[look(3, 0), arrive(3)]);
    c.gives(look(2, 0), 8, 0);
    c.gives(look(3, 0), 8, 0);
    c
}

fn tally_closes_nothing() -> Case {
    let shows =
        "Adds and reads of tallies close no interval: two stores around them are one record.";
    let mut c = Case::open("tally-closes-nothing", [2, 1, 1], shows);
    c.ok(&[acquire(1, 0), write(1, 0, 1), add(1, 0, 1)]);
    c.gives(look(1, 0), 1, 0);
    c.ok(&[write(1, 1, 2), release(1, 0), acquire(2, 0)]);
    c.moves(read(2, 1), 2, 1, 2);
    c.gives(read(2, 0), 1, 0);
    c
}

fn tally_fetches_nothing() -> Case {
    let shows = "Adds and reads of tallies fetch nothing: what was pending before them is counted after them.";
    let mut c = Case::open("tally-fetches-nothing", [2, 1, 1], shows);
    c.ok(&[acquire(1, 0), write(1, 0, 6), release(1, 0), acquire(2, 0)]);
    c.ok(&[look(2, 0), add(2, 0, 1)]);
    c.gives(look(2, 0), 1, 0);
    c.gives(read(2, 0), 6, 1);
    c.gives(look(2, 0), 1, 0);
    c
}

fn tally_rounds_by_turns() -> Case {
    let shows = "Rounds with a collection and without by turns, a store and an add in each: totals go on, records start anew.";
    let mut c = Case::open("tally-rounds-by-turns", [2, 1, 1], shows);
    for round in 1..=4u32 {
        c.ok(&[write(1, 0, round), add(1, 5, round), add(2, 5, 10)]);
        let so_far = round * (round - 1) / 2 + 10 * (round - 1);
        c.gives(look(1, 5), so_far + round, 0);
        c.gives(look(2, 5), so_far + 10, 0);
        let collects = round % 2 == 0;
        if collects {
            c.ok(&[want(2)]);
        }
        c.ok(&[arrive(1)]);
        c.gives(arrive(2), 0, u32::from(collects));
        c.gives(read(2, 0), round, u32::from(!collects));
    }
    c.gives(look(1, 5), 50, 0);
    c.gives(look(2, 5), 50, 0);
    c
}

fn tally_no_word() -> Case {
    let shows = "Tally 3 is not word 3 and not lock 3: a store, an add and a lock of the same number leave each other alone; card 2 may not arrive with the lock.";
    let mut c = Case::open("tally-no-word", [2, 1, 4], shows);
    c.ok(&[write(1, 3, 70), add(1, 3, 8), acquire(1, 3)]);
    c.gives(read(1, 3), 70, 0);
    c.gives(look(1, 3), 8, 0);
    c.ok(&[add(2, 3, 1), release(1, 3), acquire(2, 3)]);
    c.gives(look(2, 3), 1, 0);
    c.gives(read(2, 3), 70, 1);
    c.ok(&[arrive(1)]);
    c.refused(arrive(2), 18);
    c.refused(look(1, 3), 6);
    c.refused(read(1, 3), 6);
    c.gives(read(2, 3), 70, 0);
    c
}
