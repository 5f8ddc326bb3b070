//! Openings fair and unfair, and areas of wrong sizes.

use crate::areas::{Areas, LENGTHS};
use crate::random::Random;

/// An opening that is accepted, often with few of everything.
pub fn fair_opening(random: &mut Random) -> [u8; 8] {
    let few = random.percent(40);
    let mut count = |most| random.within(1, if few { 2 } else { most }) as u8;
    [0, count(8), count(8), count(16), 0, 0, 0, 0]
}

/// A fair opening, or one with a byte or a length that should not be.
pub fn any_opening(random: &mut Random) -> Vec<u8> {
    let mut opening = fair_opening(random).to_vec();
    match random.below(4) {
        0 => opening.resize(random.within(0, 10), 0),
        1 => opening[random.below(8)] = random.pick(&[0, 1, 8, 9, 16, 17, 255]),
        2 => opening[random.below(8)] = random.byte(),
        _ => {}
    }
    opening
}

/// Lengths of which at least one is wrong.
pub fn any_lengths(random: &mut Random) -> [usize; 4] {
    let mut lengths = LENGTHS;
    while lengths == LENGTHS {
        let area = random.below(4);
        let right = LENGTHS[area];
        lengths[area] = match random.below(6) {
            0 => 0,
            1 => right - 1,
            2 => right + 1,
            3 => 2 * right,
            _ => random.below(2 * right),
        };
    }
    lengths
}

/// The contents as far as they go, then noise.
pub fn resized(random: &mut Random, from: &Areas, lengths: [usize; 4]) -> Areas {
    let mut areas = Areas::zeros(lengths);
    let (to, from) = (areas.lend(), from.shown());
    random.fill(to.clocks);
    random.fill_words(to.words);
    random.fill(to.records);
    random.fill(to.marks);
    copy_front(to.clocks, from.clocks);
    copy_front(to.words, from.words);
    copy_front(to.records, from.records);
    copy_front(to.marks, from.marks);
    areas
}

fn copy_front<T: Copy>(to: &mut [T], from: &[T]) {
    let both = to.len().min(from.len());
    to[..both].copy_from_slice(&from[..both]);
}
