//! `model gen PROFILE SEED STEPS`: seeded step files. In the long run at least
//! half of a file's steps are accepted.

use crate::batons::chains;
use crate::blend::{blend, quiet};
use crate::jobs::{jobs, queue_turn};
use crate::model::{Answer, ACQUIRE, ARRIVE, READ, RELEASE, WANT, WRITE};
use crate::rng::Rng;
use crate::script::Script;
use crate::triggers::{tally_turn, triggers};

/// The profiles; each is described at its function. Tallies are used in racy,
/// damaged, blend and triggers, the queue in racy, damaged, blend and jobs. The
/// others are those of the benchmark, whose files change only where a rule of
/// locks or barriers asks for it.
pub const PROFILES: [&str; 11] = [
    "mixed", "locks", "rounds", "soak", "racy", "damaged", "chains", "blend", "quiet", "triggers",
    "jobs",
];

/// A file of an opening and `steps` step records (damaged ones may differ).
pub fn generate(profile: &str, seed: u64, steps: usize) -> Option<Vec<u8>> {
    let rng = Rng::new(seed ^ profile.bytes().fold(0, |h, b| h * 131 + u64::from(b)));
    match profile {
        "mixed" => Some(mixed(rng, steps)),
        "locks" => Some(locks(rng, steps)),
        "rounds" => Some(rounds(rng, steps)),
        "soak" => Some(soak(rng, steps)),
        "racy" => Some(racy(rng, steps)),
        "damaged" => Some(damaged(rng, seed, steps)),
        "chains" => Some(chains(rng, steps)),
        "blend" => Some(blend(rng, steps)),
        "quiet" => Some(quiet(rng, steps)),
        "triggers" => Some(triggers(rng, steps)),
        "jobs" => Some(jobs(rng, steps)),
        _ => None,
    }
}

/// mixed: all kinds of step, and some with bad fields or out of turn.
fn mixed(mut rng: Rng, steps: usize) -> Vec<u8> {
    let counts = [rng.within(1, 8), rng.within(1, 8), rng.within(1, 16)];
    let mut s = Script::new(rng, counts, steps);
    while !s.full() {
        mixed_turn(&mut s);
    }
    s.finish()
}

fn mixed_turn(s: &mut Script) {
    let card = s.any_card();
    match s.rng.below(200) {
        0..=59 => {
            let word = hot_word(s);
            s.read(card, word);
        }
        60..=119 => {
            let word = hot_word(s);
            s.write(card, word);
        }
        120..=149 => s.ask(card),
        150..=177 => {
            s.release_some(card);
        }
        178..=181 => out_of_turn(s),
        182..=188 => some_arrive(s, card),
        189 => {
            s.want();
        }
        _ => nonsense(s, card),
    }
}

/// A word that is often one of a few on its page.
pub fn hot_word(s: &mut Script) -> u16 {
    let word = s.any_word();
    if s.rng.percent(60) {
        word / 32 * 32 + word % 3
    } else {
        word
    }
}

/// The card arrives and so do most of the others that may.
fn some_arrive(s: &mut Script, card: u8) {
    s.arrive(card);
    for other in 1..=s.cards {
        if s.acts(other) && s.rng.percent(70) {
            s.arrive(other);
        }
    }
}

/// A step with fields that fit and that the state refuses: a card that has
/// arrived or waits does something, a holder asks for its lock again or arrives,
/// or a card frees what it does not hold.
pub fn out_of_turn(s: &mut Script) {
    let card = s.rng.within(1, s.cards.into()) as u8;
    let lock = s.any_lock();
    let kind = s.rng.within(1, 6) as u8;
    if s.acts(card) && s.holder(lock) == Some(card) {
        match s.rng.percent(30) {
            true => s.put(ARRIVE, card, 0, 0),
            false => s.acquire(card, lock),
        };
    } else if s.acts(card) {
        s.release(card, lock);
    } else {
        s.put(kind, card, if kind <= RELEASE { lock } else { 0 }, 0);
    }
}

/// A step with at least one field that should not be, or kind 8, which then
/// adds 0 to tally 0.
pub fn nonsense(s: &mut Script, card: u8) {
    let high_word = s.pages * 32 + s.rng.below(40) as u16;
    let high_lock = s.locks + s.rng.below(4) as u16;
    let number = s.rng.next();
    let (object, value) = (number as u16 | 1, (number >> 16) as u32 | 1);
    let no_kind = s.rng.pick(&[0, 7, 8, 128, 255]);
    let no_card = s.rng.pick(&[0, s.cards + 1, 9, 128, 255]);
    let any_kind = s.rng.within(1, 6) as u8;
    match s.rng.below(12) {
        0 => s.put(no_kind, card, 0, 0),
        1 => s.put(no_kind, no_card, object, value),
        2 => s.put(any_kind, no_card, 0, 0),
        3 => s.put(any_kind, no_card, object, value),
        4 => s.put(READ, card, high_word, 0),
        5 => s.put(WRITE, card, high_word, value),
        6 => s.put(READ, card, 0, value),
        7 => s.put(ACQUIRE, card, high_lock, 0),
        8 => s.put(RELEASE, card, high_lock, 0),
        9 => s.put(ACQUIRE, card, 0, value),
        10 => s.put(ARRIVE, card, object, 0),
        _ => s.put(WANT, card, object, value),
    };
}

/// locks: data under locks, without races. Word w may be used only by the holder of lock w % locks.
fn locks(mut rng: Rng, steps: usize) -> Vec<u8> {
    let counts = [rng.within(2, 8), rng.within(1, 8), rng.within(1, 16)];
    let mut s = Script::new(rng, counts, steps);
    while !s.full() {
        for _ in 0..s.rng.within(80, 240) {
            guarded_turn(&mut s);
        }
        if s.standing() > 90 && s.rng.percent(70) {
            s.want();
        }
        s.round(&mut guarded_turn);
    }
    s.finish()
}

pub fn guarded_turn(s: &mut Script) {
    let card = s.any_card();
    let held = s.held_by(card);
    if s.rng.percent(2) {
        out_of_turn(s);
    } else if held.is_empty() || s.rng.percent(4) {
        s.ask(card);
    } else if s.rng.percent(30) {
        s.release_some(card);
    } else {
        let word = guarded_word(s, &held);
        read_or_write(s, card, word, 50);
    }
}

/// A word of one of the locks, often one of the first three.
fn guarded_word(s: &mut Script, held: &[u16]) -> u16 {
    let lock = s.rng.pick(held);
    let words = (s.pages * 32 - lock).div_ceil(s.locks);
    let most = if s.rng.percent(70) { 3 } else { words };
    let nth = s.rng.below(most.min(words).into()) as u16;
    lock + nth * s.locks
}

pub fn read_or_write(s: &mut Script, card: u8, word: u16, write_percent: usize) {
    if s.rng.percent(write_percent) {
        s.write(card, word);
    } else {
        s.read(card, word);
    }
}

/// rounds: barriers with collections, without races. In each round a word belongs to one card or may only be read.
fn rounds(mut rng: Rng, steps: usize) -> Vec<u8> {
    let counts = [rng.within(1, 8), rng.within(1, 8), rng.within(1, 16)];
    let mut s = Script::new(rng, counts, steps);
    let words: Vec<u16> = (0..24).map(|_| hot_word(&mut s)).collect();
    while !s.full() {
        let deal = deal_words(&mut s, &words);
        for _ in 0..s.rng.within(5, 80) {
            dealt_turn(&mut s, &deal);
        }
        if s.rng.percent(25) || s.standing() > 90 {
            s.want();
        }
        s.round(&mut |s| dealt_turn(s, &deal));
    }
    s.finish()
}

/// Each word with its owner in this round, or nobody.
pub fn deal_words(s: &mut Script, words: &[u16]) -> Vec<(u16, Option<u8>)> {
    let mut owner: Vec<Option<u8>> = (1..=s.cards).map(Some).collect();
    owner.push(None);
    let mut words = words.to_vec();
    words.sort();
    words.dedup();
    let dealt = words.iter().map(|word| (*word, s.rng.pick(&owner)));
    dealt.collect()
}

pub fn dealt_turn(s: &mut Script, deal: &[(u16, Option<u8>)]) {
    let (word, owner) = s.rng.pick(deal);
    match owner {
        Some(card) => read_or_write(s, card, word, 65),
        None => {
            let card = s.any_card();
            s.read(card, word);
        }
    }
}

/// soak: many writes until 9 and 10 appear, then a collecting round.
fn soak(mut rng: Rng, steps: usize) -> Vec<u8> {
    let counts = [rng.within(1, 8), rng.within(1, 8), rng.within(1, 16)];
    let mut s = Script::new(rng, counts, steps);
    while !s.full() {
        match s.rng.below(3) {
            0 => one_card_until_full(&mut s),
            1 => all_cards_until_full(&mut s),
            _ => {
                one_card_until_full(&mut s);
                all_cards_until_full(&mut s);
            }
        }
        for _ in 0..s.rng.within(0, 60) {
            soak_turn(&mut s);
        }
        s.want();
        s.round(&mut soak_turn);
    }
    s.finish()
}

/// Whether a write met the end of the space: 9 or 10.
pub fn no_room(answer: Answer) -> bool {
    matches!(answer.refusal, 9 | 10)
}

/// One card writes and closes until it meets 9 or 10.
fn one_card_until_full(s: &mut Script) {
    let card = s.any_card();
    let pages = s.rng.within(1, s.pages.min(3).into());
    let mut full = false;
    while !full && !s.full() {
        s.serve(card);
        for page in 0..pages {
            let word = (page * 32 + s.rng.below(32)) as u16;
            full |= no_room(s.write(card, word));
        }
        s.close_by_lock(card);
    }
}

/// All cards write all pages and close until one meets 9 or 10.
fn all_cards_until_full(s: &mut Script) {
    let mut full = false;
    while !full && !s.full() {
        let card = s.any_card();
        for page in 0..s.pages {
            let word = page * 32 + s.rng.below(32) as u16;
            full |= no_room(s.write(card, word));
        }
        s.close_by_lock(card);
    }
}

fn soak_turn(s: &mut Script) {
    let card = s.any_card();
    if s.rng.percent(15) {
        s.close_by_lock(card);
        return;
    }
    let word = s.any_word();
    read_or_write(s, card, word, 60);
}

/// racy: few words, many cards, little order, jobs among it, and tallies, which
/// order nothing.
fn racy(mut rng: Rng, steps: usize) -> Vec<u8> {
    let counts = [rng.within(2, 8), rng.within(1, 2), rng.within(1, 4)];
    let mut s = Script::new(rng, counts, steps);
    let words: Vec<u16> = (0..6).map(|_| s.any_word()).collect();
    while !s.full() {
        racy_turn(&mut s, &words);
    }
    s.finish()
}

fn racy_turn(s: &mut Script, words: &[u16]) {
    let card = s.any_card();
    let word = s.rng.pick(words);
    match s.rng.below(100) {
        0..=29 => s.read(card, word),
        30..=62 => s.write(card, word),
        63..=71 => return s.ask(card),
        72..=80 => s.release_some(card),
        81..=83 => return tally_turn(s),
        84..=94 => return queue_turn(s),
        95..=96 => return out_of_turn(s),
        97..=98 => s.arrive(card),
        _ => s.want(),
    };
}

/// damaged: a file of another profile with one kind of damage. What is not a
/// cut or a bad opening lies in the last fifth: a damaged plan soon hangs.
fn damaged(mut rng: Rng, seed: u64, steps: usize) -> Vec<u8> {
    let sound = rng.pick(&[
        "mixed", "locks", "rounds", "soak", "racy", "chains", "triggers", "jobs",
    ]);
    let mut file = generate(sound, seed, steps).unwrap_or_default();
    let last_fifth = 8 * (1 + steps * 4 / 5);
    match rng.below(8) {
        0 => file.truncate(rng.below(8)),
        1 => cut_within_record(&mut rng, &mut file),
        2 => spoil_opening(&mut rng, &mut file),
        3 => spoil_bytes(&mut rng, &mut file[last_fifth..]),
        4 => drop_byte(&mut rng, &mut file, last_fifth),
        5 => mix_in_noise(&mut rng, &mut file[last_fifth..]),
        6 => spoil_fields(&mut rng, &mut file[last_fifth..]),
        _ => only_noise(&mut rng, &mut file[last_fifth..]),
    }
    file
}

fn cut_within_record(rng: &mut Rng, file: &mut Vec<u8>) {
    let records = file.len() / 8;
    file.truncate(8 * rng.below(records) + rng.within(1, 7));
}

fn spoil_opening(rng: &mut Rng, file: &mut [u8]) {
    let spoilt = [
        (0, 1),
        (0, 255),
        (1, 0),
        (1, 9),
        (2, 0),
        (2, 9),
        (3, 0),
        (3, 17),
        (4, 1),
        (5, 1),
        (6, 128),
        (7, 255),
    ];
    let (at, byte) = rng.pick(&spoilt);
    file[at] = byte;
}

fn spoil_bytes(rng: &mut Rng, records: &mut [u8]) {
    for byte in records {
        if rng.percent(1) {
            *byte = rng.next() as u8;
        }
    }
}

/// From here on all records are shifted, and the last is not whole.
fn drop_byte(rng: &mut Rng, file: &mut Vec<u8>, from: usize) {
    if from < file.len() {
        file.remove(rng.within(from, file.len() - 1));
    }
}

fn mix_in_noise(rng: &mut Rng, records: &mut [u8]) {
    for record in records.chunks_mut(8) {
        if rng.percent(10) {
            record.copy_from_slice(&rng.next().to_le_bytes());
        }
    }
}

/// Fields just outside (or just inside) their range.
fn spoil_fields(rng: &mut Rng, records: &mut [u8]) {
    for record in records.chunks_mut(8) {
        match rng.below(60) {
            0 => record[0] = rng.pick(&[0, 6, 7, 8, 9, 10, 11, 12, 255]),
            1 => record[1] = rng.pick(&[0, 8, 9, 255]),
            2 => record[2] = rng.pick(&[15, 16, 31, 32, 255]),
            3 => record[3] = rng.pick(&[0, 1, 255]),
            4 => record[7] = 1,
            _ => {}
        }
    }
}

/// Small bytes at random, so that some steps pass.
fn only_noise(rng: &mut Rng, records: &mut [u8]) {
    for record in records.chunks_mut(8) {
        record.fill(0);
        record[0] = rng.below(13) as u8;
        record[1] = rng.below(9) as u8;
        record[2] = rng.below(20) as u8;
        record[4] = rng.below(2) as u8;
    }
}
