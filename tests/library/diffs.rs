//! Diffs through the library: document 01's cases G to L, and the refusals 11 to 14.

use crate::library::{diff_apply, diff_check, diff_write};
use crate::Tally;

pub fn check(tally: &mut Tally) {
    written(tally);
    read(tally);
    refused(tally);
    no_room(tally);
    no_page(tally);
}

/// A page whose words are all different.
fn page() -> Vec<u32> {
    (0..32).map(|i| 0x0102_0304 * (i + 1)).collect()
}

/// A page with other words at some places.
fn changed(old: &[u32], places: &[usize]) -> Vec<u32> {
    let mut new = old.to_vec();
    for &i in places {
        new[i] ^= 0xa0b0_c0d0;
    }
    new
}

/// The bytes of words, low byte first.
fn bytes_of(words: &[u32]) -> Vec<u8> {
    words.iter().flat_map(|w| w.to_le_bytes()).collect()
}

/// The writer's bytes, the bytes beyond them, and that reading them turns the old page into the new one; a word counts though it
/// has its value already.
fn written(tally: &mut Tally) {
    let old = page();
    let all: Vec<usize> = (0..32).collect();
    let odd: Vec<usize> = (1..32).step_by(2).collect();
    let odd_pairs: Vec<u8> = odd.iter().flat_map(|&i| [i as u8, 1]).collect();
    let cases: [(&str, Vec<usize>, Vec<u8>); 5] = [
        (
            "G: words 0, 1 and 31 differ",
            vec![0, 1, 31],
            vec![2, 0, 2, 31, 1],
        ),
        ("H: equal pages", vec![], vec![0]),
        ("word 31 differs", vec![31], vec![1, 31, 1]),
        ("all words differ", all, vec![1, 0, 32]),
        (
            "every other word differs",
            odd,
            [&[16], odd_pairs.as_slice()].concat(),
        ),
    ];
    for (name, places, start) in cases {
        let new = changed(&old, &places);
        let words: Vec<u32> = places.iter().map(|&i| new[i]).collect();
        let expected = [start, bytes_of(&words)].concat();
        let mut out = vec![0x5a; 140];
        let length = diff_write(&old, &new, &mut out) as usize;
        tally.check(
            &format!("{name}: {} bytes", expected.len()),
            length == expected.len(),
        );
        tally.check(&format!("{name}: the bytes"), out.starts_with(&expected));
        tally.check(
            &format!("{name}: bytes beyond are kept"),
            out[expected.len()..].iter().all(|&b| b == 0x5a),
        );
        let mut exact = vec![0; expected.len()];
        let length = diff_write(&old, &new, &mut exact) as usize;
        tally.check(
            &format!("{name}: room for it exactly"),
            length == expected.len() && exact == expected,
        );
        let mut copy = old.clone();
        tally.check(&format!("{name}: read"), diff_check(&expected) == 0);
        for again in ["applied", "applied to what it gave"] {
            tally.check(
                &format!("{name}: {again}, {} words", words.len()),
                diff_apply(&expected, &mut copy) == words.len() as u32 && copy == new,
            );
        }
    }
}

/// J and L: accepted, what they set, and how many words that are.
fn read(tally: &mut Tally) {
    let cases: [(&str, Vec<u8>, Vec<usize>); 2] = [
        ("J: (0,2), (3,1)", vec![2, 0, 2, 3, 1], vec![0, 1, 3]),
        ("L: (31,1)", vec![1, 31, 1], vec![31]),
    ];
    for (name, start, places) in cases {
        let words: Vec<u32> = places.iter().map(|&i| 0xf0e0_d0c0 + i as u32).collect();
        let bytes = [start, bytes_of(&words)].concat();
        let mut after = page();
        for (&place, &word) in places.iter().zip(&words) {
            after[place] = word;
        }
        let mut page = page();
        tally.check(&format!("{name}: fine"), diff_check(&bytes) == 0);
        tally.check(
            &format!("{name}: applied"),
            diff_apply(&bytes, &mut page) == words.len() as u32 && page == after,
        );
    }
}

/// 11 and 12 by the reader, which leave the page as it was.
fn refused(tally: &mut Tally) {
    let with_words = |start: &[u8], words: usize| [start, &vec![3; 4 * words]].concat();
    let cases: [(u8, &str, Vec<u8>); 16] = [
        (12, "I: (0,1), (1,1)", with_words(&[2, 0, 1, 1, 1], 2)),
        (12, "K: (31,2)", with_words(&[1, 31, 2], 2)),
        (12, "an empty run", with_words(&[1, 4, 0], 0)),
        (12, "an offset of 32", with_words(&[1, 32, 1], 1)),
        (12, "33 words", with_words(&[1, 0, 33], 33)),
        (12, "the same run twice", with_words(&[2, 5, 1, 5, 1], 2)),
        (12, "runs not sorted", with_words(&[2, 5, 1, 2, 1], 2)),
        (
            12,
            "offset and length of 255",
            with_words(&[1, 255, 255], 0),
        ),
        (
            12,
            "a pair's rule before the total length",
            with_words(&[1, 31, 2], 1),
        ),
        (11, "no bytes", vec![]),
        (11, "17 pairs", with_words(&[17], 40)),
        (11, "255 pairs", with_words(&[255], 40)),
        (11, "bytes end within the pairs", vec![2, 0, 1, 2]),
        (11, "bytes end within the words", vec![1, 31, 1, 7, 7, 7]),
        (11, "a byte too many", with_words(&[1, 31, 1, 9], 1)),
        (11, "a byte behind no runs", vec![0, 0]),
    ];
    for (refusal, name, bytes) in cases {
        let mut after = page();
        tally.check(&format!("{name}: {refusal}"), diff_check(&bytes) == refusal);
        tally.check(
            &format!("{name}: {refusal} on applying, page untouched"),
            diff_apply(&bytes, &mut after) == 256 + u32::from(refusal) && after == page(),
        );
    }
}

/// 13: every destination that is too short is left as it was.
fn no_room(tally: &mut Tally) {
    let old = page();
    let new = changed(&old, &[0, 1, 31]);
    for room in 0..17 {
        let mut out = vec![0x5a; room];
        tally.check(
            &format!("room for {room} of 17 bytes: 13, untouched"),
            diff_write(&old, &new, &mut out) == 256 + 13 && out == vec![0x5a; room],
        );
    }
    tally.check(
        "no room for equal pages: 13",
        diff_write(&old, &old, &mut []) == 256 + 13,
    );
}

/// 14: pages that are not 32 words, before any other refusal.
fn no_page(tally: &mut Tally) {
    let whole = page();
    for size in [0, 31, 33] {
        let mut other = page();
        other.resize(size, 7);
        for (old, new) in [(&whole, &other), (&other, &whole), (&other, &other)] {
            for room in [0, 140] {
                let mut out = vec![0x5a; room];
                tally.check(
                    &format!(
                        "writing from {} and {} words: 14, untouched",
                        old.len(),
                        new.len()
                    ),
                    diff_write(old, new, &mut out) == 256 + 14 && out == vec![0x5a; room],
                );
            }
        }
        for bytes in [vec![0], vec![1, 0, 1, 9, 9, 9, 9], vec![], vec![1, 31, 2]] {
            let mut after = other.clone();
            tally.check(
                &format!("applying {bytes:?} to {size} words: 14, untouched"),
                diff_apply(&bytes, &mut after) == 256 + 14 && after == other,
            );
        }
    }
}
