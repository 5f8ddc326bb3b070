//! Damage to areas of the right sizes: single places changed so that the
//! state just breaks a condition of "in order", or just does not.

use crate::areas::*;
use crate::made::put_change;
use crate::random::Random;
use crate::state::State;

pub fn damage(random: &mut Random, areas: &mut Areas) {
    match random.below(41) {
        0 => flip_byte(random, areas),
        1 => flip_word(random, areas),
        2 => change(random, areas, PROCESSORS_AT, &[0, 1, 8, 9, 255]),
        3 => change(random, areas, PAGES_AT, &[0, 1, 8, 9, 255]),
        4 => change(random, areas, LOCKS_AT, &[0, 1, 16, 17, 255]),
        5 => change(random, areas, STANDING_AT, &[0, 1, 127, 128, 129, 255]),
        6 => change(random, areas, WISH_AT, &[0, 1, 255]),
        7 => change_arrived(random, areas),
        8 => all_arrive(areas),
        9 => {
            let at = holder_at(random.below(LOCKS));
            change(random, areas, at, &[0, 1, 2, 7, 8, 9, 255]);
        }
        10 => {
            let at = dirty_at(random.within(1, 8), random.below(PAGES));
            change(random, areas, at, &[0, 1, 255]);
        }
        11..=13 => change_entry(random, areas),
        14 => change_own(random, areas),
        15..=16 => change_name(random, areas),
        17 => same_name(random, areas),
        18 => change_length(random, areas),
        19..=20 => change_pairs(random, areas),
        21 => {
            let slot = any_slot(random, areas);
            put_change(random, areas.slot(slot));
        }
        22 => noise_beyond(random, areas),
        23 => absent_word(random, areas),
        24 => change(random, areas, STANDING_HIGH_AT, &[0, 1, 2, 128, 255]),
        25 => change_awaited(random, areas),
        26 => {
            let at = turn_at(random.within(1, PROCESSORS));
            change(random, areas, at, &[0, 1, 2, 6, 7, 8, 255]);
        }
        27..=28 => one_more_waiter(random, areas),
        29 => change_tally(random, areas),
        30 => absent_add(random, areas),
        31..=32 => arrived_holder(random, areas),
        33 => change(random, areas, FIRST_JOB_AT, &[0, 1, 30, 31, 32, 255]),
        34 => change(random, areas, JOBS_AT, &[0, 1, 31, 32, 33, 255]),
        35..=36 => change_job_entry(random, areas),
        37 => {
            let at = job_at(random.below(JOBS));
            areas.words.part_mut()[at] = random.pick(&[0, 1, 1 << 31, u32::MAX]);
        }
        _ => change_line(random, areas),
    }
}

fn flip_byte(random: &mut Random, areas: &mut Areas) {
    let area = match random.below(3) {
        0 => &mut areas.clocks,
        1 => &mut areas.records,
        _ => &mut areas.marks,
    };
    let at = random.below(area.part().len());
    area.part_mut()[at] ^= 1 << random.below(8);
}

fn flip_word(random: &mut Random, areas: &mut Areas) {
    let at = random.below(areas.words.part().len());
    areas.words.part_mut()[at] ^= 1 << random.below(32);
}

/// The byte becomes one more, one less, or one of the list.
fn changed(random: &mut Random, byte: u8, list: &[u8]) -> u8 {
    match random.below(4) {
        0 => byte.wrapping_add(1),
        1 => byte.wrapping_sub(1),
        _ => random.pick(list),
    }
}

fn change(random: &mut Random, areas: &mut Areas, at: usize, list: &[u8]) {
    let mark = areas.mark(at);
    *mark = changed(random, *mark, list);
}

fn change_arrived(random: &mut Random, areas: &mut Areas) {
    let at = arrived_at(random.within(1, PROCESSORS));
    *areas.mark(at) = random.pick(&[0, 1, 2, 255]);
}

/// A processor has arrived and holds a lock; most often both are present.
fn arrived_holder(random: &mut Random, areas: &mut Areas) {
    let processors = usize::from(*areas.mark(PROCESSORS_AT)).clamp(1, PROCESSORS);
    let locks = usize::from(*areas.mark(LOCKS_AT)).clamp(1, LOCKS);
    let p = random.within(1, processors);
    let lock = match random.percent(20) {
        true => locks - 1,
        false => random.below(locks),
    };
    *areas.mark(arrived_at(p)) = random.pick(&[1, 2, 255]);
    *areas.mark(holder_at(lock)) = p as u8;
}

fn all_arrive(areas: &mut Areas) {
    let present = usize::from(*areas.mark(PROCESSORS_AT)).min(PROCESSORS);
    (1..=present).for_each(|p| *areas.mark(arrived_at(p)) = 1);
}

/// One entry of a clock of any kind.
fn change_entry(random: &mut Random, areas: &mut Areas) {
    let p = random.within(1, PROCESSORS);
    let row = match random.below(6) {
        0 => BARRIER_ROW,
        1 => processor_row(p),
        2 => lock_row(random.below(LOCKS)),
        3 => applied_row(p, random.below(PAGES)),
        4 => job_row(random.below(JOBS)),
        _ => kept_row(p, any_interval(random, areas, p)),
    };
    let q = random.within(1, PROCESSORS);
    let own = *areas.entry(processor_row(q), q);
    let known = *areas.entry(processor_row(p), q);
    let list = [
        0,
        known,
        known.wrapping_add(1),
        own,
        own.wrapping_add(1),
        63,
        64,
    ];
    let entry = areas.entry(row, q);
    *entry = changed(random, *entry, &list);
}

/// An entry of a job's clock, often that of the first place or of the last, up to
/// the own entry or just above it; of an absent processor too.
fn change_job_entry(random: &mut Random, areas: &mut Areas) {
    let place = random.below(JOBS);
    let place = random.pick(&[0, place, place, JOBS - 1]);
    let q = random.within(1, PROCESSORS);
    let own = *areas.entry(processor_row(q), q);
    *areas.entry(job_row(place), q) = random.pick(&[0, own, own.wrapping_add(1), 63, 64, 255]);
}

/// An interval, often the last one made, the next one or the last of all.
fn any_interval(random: &mut Random, areas: &mut Areas, p: usize) -> usize {
    let own = usize::from(*areas.entry(processor_row(p), p));
    match random.below(5) {
        0 => own.clamp(1, INTERVALS),
        1 => (own + 1).min(INTERVALS),
        2 => INTERVALS,
        _ => random.within(1, INTERVALS),
    }
}

/// A processor's own entry.
fn change_own(random: &mut Random, areas: &mut Areas) {
    let p = random.within(1, PROCESSORS);
    let own = areas.entry(processor_row(p), p);
    *own = changed(random, *own, &[0, 1, 62, 63, 64, 255]);
}

/// A slot, most often one in which a record stands.
fn any_slot(random: &mut Random, areas: &mut Areas) -> usize {
    let standing = usize::from(*areas.mark(STANDING_AT)).clamp(1, SLOTS);
    let slots = if random.percent(90) { standing } else { SLOTS };
    random.below(slots)
}

/// A record's processor, interval or page.
fn change_name(random: &mut Random, areas: &mut Areas) {
    let slot = any_slot(random, areas);
    let p = usize::from(areas.slot(slot)[0]).clamp(1, PROCESSORS);
    let own = *areas.entry(processor_row(p), p);
    let present = *areas.mark(PROCESSORS_AT);
    let pages = *areas.mark(PAGES_AT);
    let record = areas.slot(slot);
    let (at, list) = match random.below(3) {
        0 => (0, [0, 1, present, present.wrapping_add(1), 255]),
        1 => (1, [0, 1, own, own.wrapping_add(1), 64]),
        _ => (2, [0, pages.wrapping_sub(1), pages, 8, 255]),
    };
    record[at] = changed(random, record[at], &list);
}

/// One record takes the name of another.
fn same_name(random: &mut Random, areas: &mut Areas) {
    let (from, to) = (any_slot(random, areas), any_slot(random, areas));
    let name = areas.slot(from)[..3].to_vec();
    areas.slot(to)[..3].copy_from_slice(&name);
}

fn change_length(random: &mut Random, areas: &mut Areas) {
    let slot = any_slot(random, areas);
    let record = areas.slot(slot);
    record[3] = changed(random, record[3], &[0, 1, 7, 130, 131, 132, 255]);
}

/// The number of pairs, or an offset or a length.
fn change_pairs(random: &mut Random, areas: &mut Areas) {
    let slot = any_slot(random, areas);
    let record = areas.slot(slot);
    let pairs = usize::from(record[4]).min(16);
    let at = 4 + random.within(0, 2 * pairs);
    let list = if at == 4 {
        [0, 1, 16, 17, 255]
    } else {
        [0, 1, 31, 32, 255]
    };
    record[at] = changed(random, record[at], &list);
    if random.percent(30) {
        fit_length(record);
    }
}

/// The length that the pairs ask for, where it fits a byte.
fn fit_length(record: &mut [u8]) {
    let pairs = usize::from(record[4]).min(16);
    let lengths = record[5..5 + 2 * pairs]
        .chunks_exact(2)
        .map(|pair| usize::from(pair[1]));
    let whole = 1 + 2 * pairs + 4 * lengths.sum::<usize>();
    record[3] = whole.min(255) as u8;
}

/// Noise where nothing is said: slots beyond those that stand, bytes beyond a
/// diff, twins of present pages.
fn noise_beyond(random: &mut Random, areas: &mut Areas) {
    let standing = usize::from(*areas.mark(STANDING_AT)).min(SLOTS);
    let slot = random.below(SLOTS);
    let record = areas.slot(slot);
    let used = if slot < standing {
        4 + usize::from(record[3])
    } else {
        0
    };
    random.fill(&mut record[used.min(SLOT)..]);
    let processors = usize::from(*areas.mark(PROCESSORS_AT)).clamp(1, PROCESSORS);
    let pages = usize::from(*areas.mark(PAGES_AT)).clamp(1, PAGES);
    let twin = twin_at(random.within(1, processors), random.below(pages));
    areas.words.part_mut()[twin + random.below(PAGE_WORDS)] = random.word();
}

/// A word of the copy or the twin of a page beyond those opened, or of a
/// processor beyond.
fn absent_word(random: &mut Random, areas: &mut Areas) {
    let pages = usize::from(*areas.mark(PAGES_AT)).min(PAGES - 1);
    let processors = usize::from(*areas.mark(PROCESSORS_AT)).min(PROCESSORS - 1);
    let (p, page) = match random.percent(50) {
        true => (
            random.within(1, PROCESSORS),
            random.within(pages, PAGES - 1),
        ),
        false => (
            random.within(processors + 1, PROCESSORS),
            random.below(PAGES),
        ),
    };
    let page_at = random.pick(&[copy_at, twin_at]);
    let at = page_at(p, page) + random.below(PAGE_WORDS);
    areas.words.part_mut()[at] = random.pick(&[0, 1, 1 << 31, u32::MAX]);
}

/// A posted total, or an add of any processor.
fn change_tally(random: &mut Random, areas: &mut Areas) {
    let tally = random.below(TALLIES);
    let at = match random.percent(50) {
        true => posted_at(tally),
        false => added_at(random.within(1, PROCESSORS), tally),
    };
    areas.words.part_mut()[at] = random.pick(&[0, 1, 1 << 31, u32::MAX]);
}

/// An add of a processor beyond those opened, often the next one or the last,
/// and often the first or the last tally's.
fn absent_add(random: &mut Random, areas: &mut Areas) {
    let next = usize::from(*areas.mark(PROCESSORS_AT)).min(PROCESSORS - 1) + 1;
    let any = random.within(next, PROCESSORS);
    let p = random.pick(&[next, any, PROCESSORS]);
    let tally = random.below(TALLIES);
    let tally = random.pick(&[0, tally, TALLIES - 1]);
    areas.words.part_mut()[added_at(p, tally)] = random.pick(&[0, 1, 1 << 31, u32::MAX]);
}

/// The lock that a processor waits for, often the last one or one beyond.
fn change_awaited(random: &mut Random, areas: &mut Areas) {
    let locks = *areas.mark(LOCKS_AT);
    let at = awaited_at(random.within(1, PROCESSORS));
    let list = [0, 1, locks, locks.wrapping_add(1), 16, 17, 255];
    change(random, areas, at, &list);
}

/// A processor goes to the end of a line, or just before or behind its end.
fn one_more_waiter(random: &mut Random, areas: &mut Areas) {
    let p = random.within(1, PROCESSORS);
    let lock = random.below(LOCKS);
    let end = State(areas.shown()).waiters(lock).count() as u8;
    *areas.mark(awaited_at(p)) = lock as u8 + 1;
    *areas.mark(turn_at(p)) = random.pick(&[end, end, end.wrapping_sub(1), end + 1]);
}

/// A present processor that waits, and its lock, if there is one.
fn any_waiter(random: &mut Random, areas: &Areas) -> Option<(usize, usize)> {
    let s = State(areas.shown());
    let waiting = (0..LOCKS).flat_map(|lock| s.waiters(lock).map(move |p| (p, lock)));
    let waiting: Vec<(usize, usize)> = waiting.collect();
    (!waiting.is_empty()).then(|| random.pick(&waiting))
}

/// Something that a line must not have: a free lock, a waiter that holds the
/// lock or has arrived or has left its place, two with one turn, a gap.
fn change_line(random: &mut Random, areas: &mut Areas) {
    let Some((p, lock)) = any_waiter(random, areas) else {
        return change_awaited(random, areas);
    };
    let turn = *areas.mark(turn_at(p));
    match random.below(7) {
        0 => *areas.mark(holder_at(lock)) = 0,
        1 => *areas.mark(holder_at(lock)) = p as u8,
        2 => *areas.mark(arrived_at(p)) = 1,
        3 => *areas.mark(awaited_at(p)) = 0,
        4 => *areas.mark(turn_at(p)) = turn.wrapping_add(1),
        _ => *areas.mark(turn_at(p)) = turn.wrapping_sub(1),
    }
}
