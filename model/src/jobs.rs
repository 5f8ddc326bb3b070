//! The profile jobs: words that travel with the jobs of the queue (document 02,
//! request L9). And the turns with the queue that other profiles mix in.

use crate::generate::read_or_write;
use crate::model::{DEQUEUE, ENQUEUE};
use crate::queue::MOST_JOBS;
use crate::rng::Rng;
use crate::script::Script;
use std::collections::VecDeque;

/// Some words, and the card that may use them; nobody while a job that waits
/// takes them along.
struct Parcel {
    words: Vec<u16>,
    owner: Option<u8>,
}

struct Parcels {
    all: Vec<Parcel>,
    /// For each job that waits, the oldest first, the parcel it takes along.
    on_the_way: VecDeque<Option<usize>>,
}

/// jobs: cards hand words on with jobs, and each job tells of its own words
/// alone. The queue is filled until 19 and emptied until 20, with jobs to and fro
/// in between, over rounds with a collection and without. There are no races.
pub fn jobs(mut rng: Rng, steps: usize) -> Vec<u8> {
    let counts = [rng.within(1, 8), rng.within(1, 4), rng.within(1, 4)];
    let mut s = Script::new(rng, counts, steps);
    let mut parcels = deal_parcels(&mut s);
    while !s.full() {
        match s.rng.below(4) {
            0 => fill(&mut s, &mut parcels),
            1 => empty(&mut s, &mut parcels),
            _ => to_and_fro(&mut s, &mut parcels),
        }
        if s.standing() > 80 || s.rng.percent(20) {
            s.want();
        } else if s.rng.percent(60) {
            continue;
        }
        s.round(&mut |s| job_turn(s, &mut parcels));
    }
    s.finish()
}

/// Deals the words so that neighbours belong to different parcels: false sharing
/// on each page.
fn deal_parcels(s: &mut Script) -> Parcels {
    let count = s.rng.within(2, 8) as u16;
    let mut all = Vec::new();
    for first in 0..count {
        let mut words: Vec<u16> = (first..s.pages * 32).step_by(count.into()).collect();
        s.rng.shuffle(&mut words);
        words.truncate(4);
        let owner = Some(s.rng.within(1, s.cards.into()) as u8);
        all.push(Parcel { words, owner });
    }
    Parcels {
        all,
        on_the_way: VecDeque::new(),
    }
}

/// Jobs until the queue is full, then one or a few too many.
fn fill(s: &mut Script, parcels: &mut Parcels) {
    while s.waiting_jobs() < MOST_JOBS && !s.full() {
        use_parcel(s, parcels);
        enqueue(s, parcels);
    }
    for _ in 0..s.rng.within(1, 3) {
        enqueue(s, parcels);
    }
}

/// Dequeues until no job waits, then one or two too many.
fn empty(s: &mut Script, parcels: &mut Parcels) {
    while s.waiting_jobs() > 0 && !s.full() {
        dequeue(s, parcels);
        use_parcel(s, parcels);
    }
    for _ in 0..s.rng.within(1, 2) {
        dequeue(s, parcels);
    }
}

fn to_and_fro(s: &mut Script, parcels: &mut Parcels) {
    for _ in 0..s.rng.within(20, 120) {
        job_turn(s, parcels);
    }
}

fn job_turn(s: &mut Script, parcels: &mut Parcels) {
    match s.rng.below(100) {
        0..=19 => enqueue(s, parcels),
        20..=39 => dequeue(s, parcels),
        40..=81 => use_parcel(s, parcels),
        82..=88 => {
            let card = s.any_card();
            s.ask(card);
        }
        89..=94 => {
            let card = s.any_card();
            s.release_some(card);
        }
        95..=97 => queue_out_of_turn(s),
        _ => queue_nonsense(s),
    }
}

/// A card enqueues; the job takes along one of the card's parcels, if it has one,
/// or now and then none.
fn enqueue(s: &mut Script, parcels: &mut Parcels) {
    let card = s.any_card();
    let is_its = |nth: &usize| parcels.all[*nth].owner == Some(card);
    let its: Vec<usize> = (0..parcels.all.len()).filter(is_its).collect();
    let parcel = match its.is_empty() || s.rng.percent(30) {
        true => None,
        false => Some(s.rng.pick(&its)),
    };
    if s.enqueue(card).refusal == 0 {
        parcel.map(|nth| parcels.all[nth].owner.take());
        parcels.on_the_way.push_back(parcel);
    }
}

/// A card dequeues, and what the job takes along is the card's.
fn dequeue(s: &mut Script, parcels: &mut Parcels) {
    let card = s.any_card();
    if s.dequeue(card).refusal == 0 {
        if let Some(nth) = parcels.on_the_way.pop_front().flatten() {
            parcels.all[nth].owner = Some(card);
        }
    }
}

/// A card that may act uses a word of a parcel that it has.
fn use_parcel(s: &mut Script, parcels: &Parcels) {
    let owned = parcels.all.iter().filter_map(|p| Some((p, p.owner?)));
    let owned: Vec<_> = owned.filter(|(_, owner)| s.acts(*owner)).collect();
    if owned.is_empty() {
        return;
    }
    let (parcel, owner) = s.rng.pick(&owned);
    let word = s.rng.pick(&parcel.words);
    read_or_write(s, owner, word, 60);
}

/// A turn for profiles about something else: a job is enqueued or dequeued, seldom
/// by a step that must be refused. Few jobs wait, so that what they tell is new.
pub fn queue_turn(s: &mut Script) {
    turn_of(s, 7);
}

/// For so many steps there are more enqueues than dequeues, then for as many the
/// other way round.
const TIDE: usize = 1000;

/// The same where in time the queue is full and empty.
pub fn queue_tide(s: &mut Script) {
    match s.written() / TIDE % 2 {
        0 => turn_of(s, 12),
        _ => turn_of(s, 6),
    }
}

/// So many of 18 turns with a job are enqueues.
fn turn_of(s: &mut Script, enqueues: usize) {
    let card = s.any_card();
    match s.rng.below(20) {
        18 => queue_out_of_turn(s),
        19 => queue_nonsense(s),
        turn if turn < enqueues => {
            s.enqueue(card);
        }
        _ => {
            s.dequeue(card);
        }
    }
}

/// A card that has arrived or waits enqueues or dequeues, if there is one.
fn queue_out_of_turn(s: &mut Script) {
    let idle: Vec<u8> = (1..=s.cards).filter(|card| !s.acts(*card)).collect();
    if idle.is_empty() {
        return;
    }
    let card = s.rng.pick(&idle);
    match s.rng.percent(50) {
        true => s.enqueue(card),
        false => s.dequeue(card),
    };
}

/// A step on the queue with at least one field that should not be, or a kind
/// beside theirs.
fn queue_nonsense(s: &mut Script) {
    let card = s.any_card();
    let no_card = s.rng.pick(&[0, s.cards + 1, 255]);
    let object = s.rng.pick(&[1, 31, 32, 255, 256, u16::MAX]);
    let value = s.rng.next() as u32 | 1;
    let no_kind = s.rng.pick(&[7, 12, 13]);
    let kind = s.rng.pick(&[ENQUEUE, DEQUEUE]);
    match s.rng.below(5) {
        0 => s.put(ENQUEUE, card, object, value),
        1 => s.put(DEQUEUE, card, object, 0),
        2 => s.put(DEQUEUE, card, 0, value),
        3 => s.put(kind, no_card, 0, 0),
        _ => s.put(no_kind, card, 0, value),
    };
}
