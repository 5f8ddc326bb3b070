//! The profile chains: words that travel together from card to card. A baton
//! goes over a lock that its owner frees and the next card takes, or along a
//! line of cards that wait for the owner's lock, each served by the release of
//! the one before it.

use crate::generate::{out_of_turn, read_or_write};
use crate::model::{ACQUIRE, READ, RELEASE, WRITE};
use crate::rng::Rng;
use crate::script::Script;
use std::collections::VecDeque;

/// Some words, the card that may use them, and the steps planned until they
/// come to rest with the next one: kind, card, object. A card is in one plan
/// at a time and a plan has one lock, so each plan can go on at last.
pub struct Baton {
    words: Vec<u16>,
    owner: u8,
    plan: VecDeque<(u8, u8, u16)>,
}

/// chains: news through chains of locks and cards to a third card and
/// further, with false sharing, without races.
pub fn chains(mut rng: Rng, steps: usize) -> Vec<u8> {
    let counts = [rng.within(3, 8), rng.within(1, 3), rng.within(1, 16)];
    let mut s = Script::new(rng, counts, steps);
    let mut batons = deal_batons(&mut s);
    while !s.full() {
        while s.standing() < 120 && s.rng.below(400) > 0 && !s.full() {
            baton_turn(&mut s, &mut batons);
        }
        rest_batons(&mut s, &mut batons);
        if s.standing() > 100 || s.rng.percent(30) {
            s.want();
        }
        s.round(&mut |s| use_baton(s, &batons));
    }
    s.finish()
}

/// Deals the words so that neighbours belong to different batons: false
/// sharing on each page.
pub fn deal_batons(s: &mut Script) -> Vec<Baton> {
    let count = s.rng.within(2, 6) as u16;
    let mut batons = Vec::new();
    for first in 0..count {
        let all = (0..s.pages * 32).filter(|word| word % count == first);
        let mut words: Vec<u16> = all.collect();
        s.rng.shuffle(&mut words);
        words.truncate(4);
        batons.push(Baton {
            words,
            owner: s.rng.within(1, s.cards.into()) as u8,
            plan: VecDeque::new(),
        });
    }
    batons
}

/// One planned step of one baton, or a step out of turn.
pub fn baton_turn(s: &mut Script, batons: &mut [Baton]) {
    if s.rng.percent(2) {
        return out_of_turn(s);
    }
    let nth = s.rng.below(batons.len());
    if batons[nth].plan.is_empty() {
        plan_way(s, batons, nth);
    }
    step_baton(s, &mut batons[nth]);
}

/// Takes a baton's next step. It stays planned while its card waits, and is
/// then tried now and then; it stays planned too while its lock may not be
/// asked for.
fn step_baton(s: &mut Script, baton: &mut Baton) {
    let Some((kind, card, object)) = baton.plan.front().copied() else {
        return;
    };
    if !s.acts(card) {
        if s.rng.percent(5) {
            s.put(kind, card, object, 0);
        }
    } else if kind != ACQUIRE || s.may_ask(card, object) {
        baton.plan.pop_front();
        match kind {
            WRITE => s.write(card, object),
            _ => s.put(kind, card, object, 0),
        };
    }
}

/// All batons come to rest: nobody holds a lock or waits for one.
pub fn rest_batons(s: &mut Script, batons: &mut [Baton]) {
    while batons.iter().any(|baton| !baton.plan.is_empty()) {
        let nth = s.rng.below(batons.len());
        step_baton(s, &mut batons[nth]);
    }
}

/// The owner of a baton at rest uses one of its words.
pub fn use_baton(s: &mut Script, batons: &[Baton]) {
    let baton = &batons[s.rng.below(batons.len())];
    let word = s.rng.pick(&baton.words);
    read_or_write(s, baton.owner, word, 60);
}

/// The owner may use the words; then the baton goes on to cards that are in
/// no plan. Cards on the way need not look at the words.
fn plan_way(s: &mut Script, batons: &mut [Baton], nth: usize) {
    let owner = batons[nth].owner;
    let planned: Vec<u8> = batons.iter().flat_map(Baton::cards_planned).collect();
    if planned.contains(&owner) {
        return;
    }
    let is_next = |card: &u8| *card != owner && !planned.contains(card);
    let mut next: Vec<u8> = (1..=s.cards).filter(is_next).collect();
    s.rng.shuffle(&mut next);
    let baton = &mut batons[nth];
    plan_uses(s, baton, 40);
    if s.waiting && s.rng.percent(35) {
        next.truncate(s.rng.within(1, 3));
        plan_line(s, baton, &next);
    } else if let Some(card) = next.first() {
        plan_hop(s, baton, *card);
    }
}

impl Baton {
    fn cards_planned(&self) -> impl Iterator<Item = u8> + '_ {
        self.plan.iter().map(|(_, card, _)| *card)
    }
}

/// With that chance the owner uses some words, up to three times.
fn plan_uses(s: &mut Script, baton: &mut Baton, percent: usize) {
    let most = if s.rng.percent(percent) { 3 } else { 0 };
    for _ in 0..s.rng.within(0, most) {
        let kind = if s.rng.percent(60) { WRITE } else { READ };
        let word = s.rng.pick(&baton.words);
        baton.plan.push_back((kind, baton.owner, word));
    }
}

/// The owner takes and frees a lock, then the next card does.
fn plan_hop(s: &mut Script, baton: &mut Baton, next: u8) {
    let lock = s.any_lock();
    baton.plan.push_back((ACQUIRE, baton.owner, lock));
    plan_uses(s, baton, 20);
    baton.plan.push_back((RELEASE, baton.owner, lock));
    baton.plan.push_back((ACQUIRE, next, lock));
    baton.plan.push_back((RELEASE, next, lock));
    baton.owner = next;
}

/// The next cards ask while the owner has the lock. What each of them uses is
/// ordered by the release that serves it alone.
fn plan_line(s: &mut Script, baton: &mut Baton, next: &[u8]) {
    let lock = s.any_lock();
    baton.plan.push_back((ACQUIRE, baton.owner, lock));
    for card in next {
        baton.plan.push_back((ACQUIRE, *card, lock));
    }
    for card in next {
        plan_uses(s, baton, 50);
        baton.plan.push_back((RELEASE, baton.owner, lock));
        baton.owner = *card;
    }
    plan_uses(s, baton, 50);
    baton.plan.push_back((RELEASE, baton.owner, lock));
}
