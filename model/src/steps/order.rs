//! Happens-before-1 over the accepted steps, by the judge's vectors, and the
//! steps by which one is before another. A place is an index of the list of
//! accepted steps.

use super::progress::Progress;
use crate::judge::{Accepted, Clocks, Known, Ties};
use crate::model::{ACQUIRE, ARRIVE, ENQUEUE, RELEASE};
use std::collections::BTreeMap;

/// Cards are numbered from 1 to 8; entry 0 of what is kept by card is nobody's.
pub const CARDS: usize = 9;

pub struct Order {
    pub list: Vec<Accepted>,
    ties: Ties,
    /// For each place how many steps of each card are before it, itself
    /// included.
    known: Vec<[u32; CARDS]>,
    /// The places of each card's steps.
    by_card: [Vec<usize>; CARDS],
    /// The places of each card's releases, arrivals and enqueues: by these it
    /// hands on what it knows.
    handing_on: [Vec<usize>; CARDS],
    arrivals: [Vec<usize>; CARDS],
    /// The places of each lock's releases.
    releases: BTreeMap<u16, Vec<usize>>,
    /// For each card the releases that served it while it waited.
    grants: [Vec<usize>; CARDS],
    /// For each dequeue the enqueue of the job that it returns.
    enqueues: BTreeMap<usize, usize>,
}

impl Order {
    pub fn of(cards: usize, list: Vec<Accepted>, progress: &mut Progress) -> Order {
        let ties = Ties::of(cards, &list);
        let mut order = Order {
            known: known_rows(cards, &list, progress),
            ties,
            by_card: Default::default(),
            handing_on: Default::default(),
            arrivals: Default::default(),
            releases: BTreeMap::new(),
            grants: Default::default(),
            enqueues: BTreeMap::new(),
            list,
        };
        for place in 0..order.list.len() {
            order.note(place);
        }
        order
    }

    fn note(&mut self, place: usize) {
        let step = self.list[place].step;
        self.by_card[usize::from(step.card)].push(place);
        if matches!(step.kind, RELEASE | ARRIVE | ENQUEUE) {
            self.handing_on[usize::from(step.card)].push(place);
        }
        if step.kind == ARRIVE {
            self.arrivals[usize::from(step.card)].push(place);
        }
        if step.kind == RELEASE {
            self.releases.entry(step.object).or_default().push(place);
        }
        if let Some(waiter) = self.ties.served[place] {
            self.grants[usize::from(waiter)].push(place);
        }
        if let Some(dequeue) = self.ties.returned[place] {
            self.enqueues.insert(dequeue, place);
        }
    }

    pub fn card(&self, place: usize) -> u8 {
        self.list[place].step.card
    }

    /// The record number of a place.
    pub fn number(&self, place: usize) -> usize {
        self.list[place].number
    }

    /// Whether the step at `s` is known at `t`: it is before it, or the same.
    fn known_at(&self, s: usize, t: usize) -> bool {
        let card = usize::from(self.card(s));
        self.known[t][card] >= self.known[s][card]
    }

    /// "Two steps are ordered when either is before the other."
    pub fn before(&self, s: usize, t: usize) -> bool {
        s != t && self.known_at(s, t)
    }

    /// The first step of a card at which the step at `s` is known.
    pub fn first_knowing(&self, card: u8, s: usize) -> Option<usize> {
        let places = &self.by_card[usize::from(card)];
        let ignorant = places.partition_point(|place| !self.known_at(s, *place));
        places.get(ignorant).copied()
    }

    /// The releases, arrivals and enqueues of a card from one place to another,
    /// the first included.
    pub fn handed_on(&self, card: u8, from: usize, to: usize) -> &[usize] {
        let places = &self.handing_on[usize::from(card)];
        let start = places.partition_point(|place| *place < from);
        let end = places.partition_point(|place| *place < to);
        &places[start.min(end)..end]
    }

    /// Where the round of an arrival was completed.
    pub fn round_end(&self, arrival: usize) -> Option<usize> {
        self.ties.ends[arrival]
    }

    /// The dequeue that returns the job of an enqueue.
    pub fn returned(&self, enqueue: usize) -> Option<usize> {
        self.ties.returned[enqueue]
    }

    /// Steps from `s` to `t`, each directly before the next; nothing if `s` is
    /// not before `t`. Backwards from `t`: a card's first step that knows of `s`
    /// was told by another card, and so on. No card is met twice.
    pub fn chain(&self, s: usize, t: usize) -> Option<Vec<usize>> {
        if !self.before(s, t) {
            return None;
        }
        let mut chain = vec![t];
        let mut here = t;
        while self.card(here) != self.card(s) {
            let learnt = self.first_knowing(self.card(here), s)?;
            let told = self.told_by_lock(learnt, s).or(self.told_by_job(learnt, s));
            here = match told {
                Some(teller) => {
                    chain.extend((learnt != here).then_some(learnt));
                    teller
                }
                None => self
                    .told_by_grant(learnt, s)
                    .or(self.told_by_round(learnt, s))?,
            };
            chain.push(here);
        }
        chain.extend((here != s).then_some(s));
        chain.reverse();
        Some(chain)
    }

    /// "each release before every later acquire of that lock": the first one
    /// that knows of `s`.
    fn told_by_lock(&self, acquire: usize, s: usize) -> Option<usize> {
        let step = self.list[acquire].step;
        let releases = self
            .releases
            .get(&step.object)
            .filter(|_| step.kind == ACQUIRE)?;
        let ignorant = releases.partition_point(|release| !self.known_at(s, *release));
        releases
            .get(ignorant)
            .copied()
            .filter(|release| *release < acquire)
    }

    /// L9: "An enqueue precedes ... the dequeue that returns its job", where it
    /// knows of `s`.
    fn told_by_job(&self, dequeue: usize, s: usize) -> Option<usize> {
        let enqueue = self.enqueues.get(&dequeue).copied();
        enqueue.filter(|enqueue| self.known_at(s, *enqueue))
    }

    /// L1: "the release precedes the waiter's next step".
    fn told_by_grant(&self, learnt: usize, s: usize) -> Option<usize> {
        let grants = &self.grants[usize::from(self.card(learnt))];
        let earlier = grants.partition_point(|release| *release < learnt);
        let release = grants[..earlier].last().copied();
        release.filter(|release| self.known_at(s, *release))
    }

    /// "every arrival of a completed round before every step any card takes
    /// after that round's last arrival": the first arrival behind `s` of its
    /// own card. A round that tells of `s` has it.
    fn told_by_round(&self, learnt: usize, s: usize) -> Option<usize> {
        let arrivals = &self.arrivals[usize::from(self.card(s))];
        let earlier = arrivals.partition_point(|arrival| *arrival < s);
        let arrival = arrivals.get(earlier).copied();
        arrival.filter(|arrival| self.round_end(*arrival).is_some_and(|end| end < learnt))
    }
}

fn known_rows(cards: usize, list: &[Accepted], progress: &mut Progress) -> Vec<[u32; CARDS]> {
    let mut clocks = Clocks::default();
    let mut rows = Vec::with_capacity(list.len());
    for taken in list {
        let known = clocks.enter(&taken.step);
        clocks.leave(&taken.step, &known, cards);
        rows.push(row(&known));
        progress.at("ordering", rows.len(), list.len());
    }
    rows
}

fn row(known: &Known) -> [u32; CARDS] {
    let mut row = [0; CARDS];
    for (card, steps) in known {
        row[usize::from(*card)] = *steps as u32;
    }
    row
}
