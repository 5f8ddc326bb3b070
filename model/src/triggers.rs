//! The profile triggers: cards count triggers in tallies between barriers. And
//! the turns with tallies that other profiles mix in.

use crate::generate::{guarded_turn, nonsense};
use crate::model::{TALLIES, TALLY_ADD, TALLY_READ};
use crate::rng::Rng;
use crate::script::Script;

/// triggers: each card adds to a few tallies of a round, mostly 1, and looks at
/// one now and then; between that, words under locks, for which cards wait.
/// Some rounds have no add, some collect. There are no races.
pub fn triggers(mut rng: Rng, steps: usize) -> Vec<u8> {
    let counts = [rng.within(1, 8), rng.within(1, 3), rng.within(1, 4)];
    let mut s = Script::new(rng, counts, steps);
    while !s.full() {
        let counted = some_tallies(&mut s);
        for _ in 0..s.rng.within(5, 60) {
            trigger_turn(&mut s, &counted);
        }
        look_at_all(&mut s);
        if s.rng.percent(25) || s.standing() > 90 {
            s.want();
        }
        s.round(&mut |s| trigger_turn(s, &counted));
        look_at_all(&mut s);
    }
    s.finish()
}

/// The tallies of a round: up to four, or now and then all or none.
fn some_tallies(s: &mut Script) -> Vec<u16> {
    let mut all: Vec<u16> = (0..TALLIES).collect();
    s.rng.shuffle(&mut all);
    let most = match s.rng.below(10) {
        0 => 0,
        1 => all.len(),
        _ => s.rng.within(1, 4),
    };
    all.truncate(most);
    all
}

fn trigger_turn(s: &mut Script, counted: &[u16]) {
    match s.rng.below(100) {
        0..=59 if !counted.is_empty() => {
            let (card, tally) = (s.any_card(), s.rng.pick(counted));
            s.add(card, tally);
        }
        0..=69 => look(s),
        70..=91 => guarded_turn(s),
        92..=94 => tally_out_of_turn(s),
        95..=97 => tally_nonsense(s),
        _ => {
            let card = s.any_card();
            nonsense(s, card);
        }
    }
}

/// A card reads a tally.
fn look(s: &mut Script) {
    let (card, tally) = (s.any_card(), s.any_tally());
    s.look(card, tally);
}

/// Each card that may act reads one of the tallies, the same for all.
fn look_at_all(s: &mut Script) {
    let tally = s.any_tally();
    for card in 1..=s.cards {
        if s.acts(card) {
            s.look(card, tally);
        }
    }
}

/// A turn for profiles about something else: an add or a read of a tally,
/// seldom one that must be refused.
pub fn tally_turn(s: &mut Script) {
    let (card, tally) = (s.any_card(), s.any_tally());
    match s.rng.below(20) {
        0 => tally_out_of_turn(s),
        1 => tally_nonsense(s),
        2..=11 => {
            s.add(card, tally);
        }
        _ => {
            s.look(card, tally);
        }
    }
}

/// A card that has arrived or waits adds or reads; if there is none, any card.
fn tally_out_of_turn(s: &mut Script) {
    let idle: Vec<u8> = (1..=s.cards).filter(|card| !s.acts(*card)).collect();
    let card = match idle.is_empty() {
        true => s.any_card(),
        false => s.rng.pick(&idle),
    };
    let tally = s.any_tally();
    if s.rng.percent(60) {
        s.add(card, tally);
    } else {
        s.look(card, tally);
    }
}

/// A step on tallies with at least one field that should not be, or a kind
/// beside theirs.
fn tally_nonsense(s: &mut Script) {
    let (card, tally) = (s.any_card(), s.any_tally());
    let no_tally = s.rng.pick(&[TALLIES, TALLIES + 1, 255, 256, u16::MAX]);
    let no_card = s.rng.pick(&[0, s.cards + 1, 255]);
    let value = s.rng.next() as u32 | 1;
    let no_kind = s.rng.pick(&[7, 12, 13]);
    let kind = s.rng.pick(&[TALLY_ADD, TALLY_READ]);
    match s.rng.below(5) {
        0 => s.put(TALLY_ADD, card, no_tally, value),
        1 => s.put(TALLY_READ, card, no_tally, 0),
        2 => s.put(TALLY_READ, card, tally, value),
        3 => s.put(kind, no_card, tally, 0),
        _ => s.put(no_kind, card, tally, value),
    };
}
