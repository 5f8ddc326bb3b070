//! The profiles blend and quiet: stretches of the other race-free profiles on
//! one mainframe, with steps that must be refused in between. Long files are
//! made of them, since every read in them has one value that is due.

use crate::batons::{baton_turn, deal_batons, rest_batons, use_baton};
use crate::generate::{
    deal_words, dealt_turn, guarded_turn, hot_word, no_room, nonsense, out_of_turn, read_or_write,
};
use crate::jobs::queue_tide;
use crate::rng::Rng;
use crate::script::Script;
use crate::triggers::tally_turn;

/// blend: each stretch ends with a round of all cards. What was done before
/// the round is ordered before all that comes after it, so there is no race as
/// long as there is none within a stretch. Tallies and jobs are used in every
/// stretch.
pub fn blend(rng: Rng, steps: usize) -> Vec<u8> {
    blended(rng, steps, true)
}

/// quiet: a blend without tallies and jobs in which nobody asks for a lock that
/// another card holds. So no card waits, and no line printed depends on waiting.
pub fn quiet(rng: Rng, steps: usize) -> Vec<u8> {
    blended(rng, steps, false)
}

fn blended(mut rng: Rng, steps: usize, whole: bool) -> Vec<u8> {
    let counts = [rng.within(3, 8), rng.within(2, 8), rng.within(2, 16)];
    let mut s = Script::new(rng, counts, steps);
    (s.waiting, s.mixed_in) = (whole, whole);
    while !s.full() {
        match s.rng.below(4) {
            0 => stretch(&mut s, &mut guarded_turn),
            1 => dealt_stretch(&mut s),
            2 => baton_stretch(&mut s),
            _ => full_stretch(&mut s),
        }
    }
    s.finish()
}

/// Turns of one kind, also during the round at the end.
fn stretch(s: &mut Script, turn: &mut dyn FnMut(&mut Script)) {
    turns(s, turn);
    end_stretch(s, turn);
}

fn turns(s: &mut Script, turn: &mut dyn FnMut(&mut Script)) {
    for _ in 0..s.rng.within(20, 200) {
        turn(s);
        if s.rng.percent(3) {
            let card = s.any_card();
            nonsense(s, card);
        }
        if s.rng.percent(2) {
            out_of_turn(s);
        }
        if s.mixed_in && s.rng.percent(15) {
            tally_turn(s);
        }
        if s.mixed_in && s.rng.percent(15) {
            queue_tide(s);
        }
    }
}

/// A round, often with a collection; all locks are free after it.
fn end_stretch(s: &mut Script, between: &mut dyn FnMut(&mut Script)) {
    if s.rng.percent(40) || s.standing() > 90 {
        s.want();
    }
    s.round(between);
}

fn dealt_stretch(s: &mut Script) {
    let words: Vec<u16> = (0..24).map(|_| hot_word(s)).collect();
    let deal = deal_words(s, &words);
    stretch(s, &mut |s| dealt_turn(s, &deal));
}

/// The batons rest before the round, so that no plan meets an arrived card.
fn baton_stretch(s: &mut Script) {
    let mut batons = deal_batons(s);
    turns(s, &mut |s| baton_turn(s, &mut batons));
    rest_batons(s, &mut batons);
    end_stretch(s, &mut |s| use_baton(s, &batons));
}

/// Cards write words of their own and close until one meets 9 or 10; then
/// some turns with the space used up.
fn full_stretch(s: &mut Script) {
    let cards = if s.rng.percent(50) { s.cards } else { 1 };
    let pages = s.rng.within(1, s.pages.into()) as u16;
    let mut full = false;
    while !full && !s.full() {
        let card = s.rng.within(1, cards.into()) as u8;
        s.serve(card);
        for page in 0..pages {
            let word = own_word(s, card, page);
            full |= no_room(s.write(card, word));
        }
        s.close_by_lock(card);
    }
    stretch(s, &mut own_turn);
}

/// Each eighth word of a page is one card's own: false sharing of each page.
fn own_word(s: &mut Script, card: u8, page: u16) -> u16 {
    page * 32 + 8 * s.rng.below(4) as u16 + u16::from(card) - 1
}

fn own_turn(s: &mut Script) {
    let card = s.any_card();
    if s.rng.percent(15) {
        s.close_by_lock(card);
        return;
    }
    let page = s.rng.below(s.pages.into()) as u16;
    let word = own_word(s, card, page);
    read_or_write(s, card, word, 50);
}
