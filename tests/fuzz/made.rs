//! States in order that need not come from any run: each part is chosen at
//! random within what document 01's list allows, often at its edge. Whatever
//! the list does not speak of is noise.

use crate::areas::*;
use crate::random::Random;

/// Puts such a state into areas of the right sizes.
pub fn make(random: &mut Random, areas: &mut Areas) {
    let counts = [count(random, 8), count(random, 8), count(random, 16)];
    let [processors, pages, _] = counts;
    areas.clocks.part_mut().fill(0);
    areas.words.part_mut().fill(0);
    areas.marks.part_mut().fill(0);
    random.fill(areas.records.part_mut());
    for p in 1..=processors {
        for page in 0..pages {
            for at in [copy_at(p, page), twin_at(p, page)] {
                random.fill_words(&mut areas.words.part_mut()[at..at + PAGE_WORDS]);
            }
        }
    }
    make_tallies(random, areas, processors);
    let own: Vec<u8> = (0..processors).map(|_| own_entry(random)).collect();
    make_clocks(random, areas, counts, &own);
    make_queue(random, areas, &own);
    make_marks(random, areas, counts, &own);
    make_records(random, areas, pages, &own);
}

/// Any posted totals and any adds of the processors, some of them 0 or the
/// largest.
fn make_tallies(random: &mut Random, areas: &mut Areas, processors: usize) {
    let words = areas.words.part_mut();
    for tally in 0..TALLIES {
        let adds = (1..=processors).map(|p| added_at(p, tally));
        for at in adds.chain([posted_at(tally)]) {
            words[at] = match random.below(4) {
                0 => 0,
                1 => u32::MAX,
                _ => random.word(),
            };
        }
    }
}

/// Any values and clocks in all places, from any place on as many jobs as there is
/// room for or fewer.
fn make_queue(random: &mut Random, areas: &mut Areas, own: &[u8]) {
    for place in 0..JOBS {
        put_clock(random, areas, job_row(place), own);
        areas.words.part_mut()[job_at(place)] = random.word();
    }
    let (first, jobs) = (random.below(JOBS), random.within(0, JOBS));
    *areas.mark(FIRST_JOB_AT) = random.pick(&[0, first, first, JOBS - 1]) as u8;
    *areas.mark(JOBS_AT) = random.pick(&[0, jobs, jobs, JOBS]) as u8;
}

/// A count, often the largest.
fn count(random: &mut Random, most: usize) -> usize {
    if random.percent(40) {
        most
    } else {
        random.within(1, most)
    }
}

fn own_entry(random: &mut Random) -> u8 {
    match random.below(10) {
        0 => 0,
        1 => 1,
        2 => 62,
        3 => 63,
        _ => random.below(64) as u8,
    }
}

/// A clock within a bound: zeros, the bound itself, or anything below.
fn put_clock(random: &mut Random, areas: &mut Areas, row: usize, bound: &[u8]) {
    let style = random.below(4);
    for (nth, most) in bound.iter().enumerate() {
        *areas.entry(row, nth + 1) = match style {
            0 => 0,
            1 => *most,
            _ => random.within(0, (*most).into()) as u8,
        };
    }
}

fn make_clocks(random: &mut Random, areas: &mut Areas, counts: [usize; 3], own: &[u8]) {
    let [processors, pages, locks] = counts;
    put_clock(random, areas, BARRIER_ROW, own);
    (0..locks).for_each(|lock| put_clock(random, areas, lock_row(lock), own));
    for p in 1..=processors {
        put_clock(random, areas, processor_row(p), own);
        *areas.entry(processor_row(p), p) = own[p - 1];
        let known = areas.clocks.part()[8 * processor_row(p)..][..processors].to_vec();
        (0..pages).for_each(|page| put_clock(random, areas, applied_row(p, page), &known));
        let made = 1..=usize::from(own[p - 1]);
        made.for_each(|i| put_clock(random, areas, kept_row(p, i), own));
    }
}

fn make_marks(random: &mut Random, areas: &mut Areas, counts: [usize; 3], own: &[u8]) {
    let [processors, pages, locks] = counts;
    let dirty = random.pick(&[0, 5, 50, 100]);
    let arrived = random.pick(&[0, 50, 100]);
    *areas.mark(PROCESSORS_AT) = processors as u8;
    *areas.mark(PAGES_AT) = pages as u8;
    *areas.mark(LOCKS_AT) = locks as u8;
    *areas.mark(WISH_AT) = mark(random, 50);
    for p in 1..=processors {
        *areas.mark(arrived_at(p)) = mark(random, arrived);
        let may = if own[p - 1] <= 62 { dirty } else { 0 };
        (0..pages).for_each(|page| *areas.mark(dirty_at(p, page)) = mark(random, may));
    }
    *areas.mark(arrived_at(random.within(1, processors))) = 0;
    make_holders(random, areas, processors, locks);
    make_lines(random, areas, processors, locks);
}

/// Each lock is free or held by one of those who have not arrived.
fn make_holders(random: &mut Random, areas: &mut Areas, processors: usize, locks: usize) {
    let mut holders: Vec<usize> = (1..=processors).collect();
    holders.retain(|p| *areas.mark(arrived_at(*p)) == 0);
    holders.push(0);
    for lock in 0..locks {
        *areas.mark(holder_at(lock)) = random.pick(&holders) as u8;
    }
}

/// Some of those who have not arrived wait for locks that others hold, in any
/// order. The turn of one who does not wait says nothing.
fn make_lines(random: &mut Random, areas: &mut Areas, processors: usize, locks: usize) {
    let chance = random.pick(&[0, 20, 60, 100]);
    let among = random.pick(&[1, locks.min(2), locks]);
    let mut waiting = [0; LOCKS];
    let mut order: Vec<usize> = (1..=processors).collect();
    random.shuffle(&mut order);
    for p in order {
        *areas.mark(turn_at(p)) = random.byte();
        let lock = random.below(among);
        let holder = usize::from(*areas.mark(holder_at(lock)));
        let may = *areas.mark(arrived_at(p)) == 0 && holder != 0 && holder != p;
        if may && random.percent(chance) {
            *areas.mark(awaited_at(p)) = lock as u8 + 1;
            *areas.mark(turn_at(p)) = waiting[lock];
            waiting[lock] += 1;
        }
    }
}

/// A mark, set with that chance by 1 or another number.
fn mark(random: &mut Random, chance: usize) -> u8 {
    match random.percent(chance) {
        true => random.pick(&[1, 1, 1, 2, 128, 255]),
        false => 0,
    }
}

/// Records of intervals made, no two alike, as many as there is space for or
/// fewer.
fn make_records(random: &mut Random, areas: &mut Areas, pages: usize, own: &[u8]) {
    let dirty = areas.marks.part()[DIRTY].iter();
    let space = SLOTS - dirty.filter(|mark| **mark != 0).count();
    let fewer = random.within(0, space);
    let wanted = random.pick(&[0, fewer, space]);
    let mut names = Vec::new();
    for _ in 0..2 * wanted {
        let p = random.within(1, own.len());
        let most = own[p - 1];
        if most == 0 || names.len() == wanted {
            continue;
        }
        let name = [
            p as u8,
            random.within(1, most.into()) as u8,
            random.below(pages) as u8,
        ];
        if !names.contains(&name) {
            areas.slot(names.len())[..3].copy_from_slice(&name);
            put_change(random, areas.slot(names.len()));
            names.push(name);
        }
    }
    *areas.mark(STANDING_AT) = names.len() as u8;
}

/// A legal change into a record's slot: runs of a random set of words. The
/// words are whatever is there.
pub fn put_change(random: &mut Random, slot: &mut [u8]) {
    let set = match random.below(8) {
        0 => 0,
        1 => u32::MAX,
        2 => 0x5555_5555,
        3 => 1 << random.below(32),
        4 => random.word() & random.word() & random.word(),
        5 => random.word() | random.word(),
        _ => random.word(),
    };
    let mut pairs = Vec::new();
    let mut offset = 0;
    while offset < 32 {
        let length = (!(set >> offset)).trailing_zeros().min(32 - offset);
        if length > 0 {
            pairs.push([offset as u8, length as u8]);
        }
        offset += length + 1;
    }
    slot[3] = (1 + 2 * pairs.len() as u32 + 4 * set.count_ones()) as u8;
    slot[4] = pairs.len() as u8;
    slot[5..5 + 2 * pairs.len()].copy_from_slice(pairs.as_flattened());
}
