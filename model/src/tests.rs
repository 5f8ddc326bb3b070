//! The starred bench cases asked of the model, and the judge's own tests. The
//! tests of cards that wait are in `wait_tests.rs`, those of stores that alter
//! nothing in `equal_tests.rs`, those of tallies in `tally_tests.rs`, those of
//! skipped records in `skip_tests.rs`, those of words set in `words_tests.rs`,
//! those of holders that arrive in `holder_tests.rs`, those of the queue in
//! `queue_tests.rs` and `queue_judge_tests.rs`.

use crate::clock::{ProcId, VectorClock};
use crate::diff;
use crate::generate::{generate, PROFILES};
use crate::judge::judge;
use crate::model::{Model, Step};
use crate::stepfile::{run, run_watched, Printed};

const LISTING_A: &str = "0 0 0 0
1 0 0 0
2 0 0 0
3 0 0 0
4 0 0 0
5 0 0 0
6 7 0 0
7 0 700 1
8 0 700 0
9 0 0 0
10 6 0 0
11 0 0 0
12 18 0 0
words 1
";

pub fn case(name: &str) -> crate::case::Case {
    let mut cases = crate::cases::all_cases().into_iter();
    cases.find(|case| case.name == name).expect(name)
}

/// The state a named file leaves.
pub fn state_after(name: &str) -> Model {
    let mut last = None;
    let file = case(name).file;
    crate::stepfile::run_watched(&file, None, &mut |model, _| last = Some(model.clone()));
    last.expect("an accepted opening")
}

pub fn entries(clock: &VectorClock, cards: u8) -> Vec<u32> {
    (1..=cards).map(|card| clock.entry(ProcId(card))).collect()
}

#[test]
fn listing_a_prints_its_lines() {
    assert_eq!(run(&case("listing-a").file, None).text(), LISTING_A);
}

#[test]
fn every_named_file_gets_the_answers_written_by_hand() {
    for case in crate::cases::all_cases() {
        let answers = run_watched(&case.file, None, &mut |_, _| {});
        assert_eq!(answers, case.answers, "{}", case.name);
        assert_eq!(run(&case.file, None), case.printed(), "{}", case.name);
    }
}

#[test]
fn named_files_have_different_names() {
    let cases = crate::cases::all_cases();
    let mut names: Vec<_> = cases.iter().map(|case| &case.name).collect();
    names.sort();
    names.dedup();
    assert_eq!(names.len(), crate::cases::all_cases().len());
}

/// C: "Card 3's clock is 1, 0, 0."
#[test]
fn case_c_clock() {
    let model = state_after("case-c");
    assert_eq!(entries(&model.processors[&ProcId(3)].clock, 3), [1, 0, 0]);
}

/// F: "storing 0 over 0 and releasing"; L2: "one interval, one record", "the
/// change that is the single byte 0".
#[test]
fn case_f_one_interval() {
    let mut model = Model::open([0, 1, 1, 1, 0, 0, 0, 0], None).expect("opening");
    for record in [
        [3, 1, 0, 0, 0, 0, 0, 0],
        [2, 1, 0, 0, 0, 0, 0, 0],
        [4, 1, 0, 0, 0, 0, 0, 0],
    ] {
        assert_eq!(model.step(&Step::from_bytes(record)).refusal, 0);
    }
    assert_eq!((model.own_entry(ProcId(1)), model.intervals.len()), (1, 1));
    let changes = model.records.iter().map(|record| record.diff.to_bytes());
    assert_eq!(changes.collect::<Vec<_>>(), [[0]]);
}

/// N: the own entry is 63 when 9 is given; O: 128 records stand.
#[test]
fn cases_n_and_o_counts() {
    assert_eq!(state_after("refusal-9").own_entry(ProcId(1)), 63);
    assert_eq!(state_after("case-n").own_entry(ProcId(1)), 1);
    assert_eq!(state_after("refusal-order-freed").records_and_dirty(), 128);
    assert_eq!(state_after("case-o-equal").records.len(), 128);
}

/// G: "words 0, 1 and 31 differ: 17 bytes, starting 2, 0, 2, 31, 1."
#[test]
fn case_g() {
    let twin = [0; 32];
    let mut copy = twin;
    (copy[0], copy[1], copy[31]) = (1, 2, 0x0403_0201);
    let mut room = [9; 20];
    assert_eq!(diff::write(&twin, &copy, &mut room), Ok(17));
    assert_eq!(room[..5], [2, 0, 2, 31, 1]);
    assert_eq!(room[13..], [1, 2, 3, 4, 9, 9, 9]);
    let mut back = twin;
    assert_eq!(diff::apply(&mut back, &room[..17]), Ok(3));
    assert_eq!(back, copy);
    assert_eq!(diff::write(&twin, &copy, &mut room[..16]), Err(13));
    assert_eq!(diff::write(&twin[..31], &copy, &mut []), Err(14));
}

/// H: "equal pages: the byte 0."
#[test]
fn case_h() {
    let mut room = [7; 2];
    assert_eq!(diff::write(&[5; 32], &[5; 32], &mut room), Ok(1));
    assert_eq!(room, [0, 7]);
    assert_eq!(diff::check(&[0]), Ok(()));
    assert_eq!(diff::write(&[5; 32], &[5; 32], &mut []), Err(13));
}

/// The pairs and as many word bytes as given.
fn change(pairs: &[(u8, u8)], word_bytes: usize) -> Vec<u8> {
    let mut bytes = vec![pairs.len() as u8];
    bytes.extend(pairs.iter().flat_map(|(at, length)| [*at, *length]));
    bytes.extend(vec![1; word_bytes]);
    bytes
}

#[test]
fn cases_i_to_l() {
    assert_eq!(diff::check(&change(&[(0, 1), (1, 1)], 8)), Err(12));
    assert_eq!(diff::check(&change(&[(0, 2), (3, 1)], 12)), Ok(()));
    assert_eq!(diff::check(&change(&[(31, 2)], 8)), Err(12));
    assert_eq!(diff::check(&change(&[(31, 1)], 4)), Ok(()));
}

#[test]
fn refusals_of_reading() {
    assert_eq!(diff::check(&[]), Err(11));
    assert_eq!(diff::check(&[17]), Err(11));
    assert_eq!(diff::check(&[2, 0, 1, 5]), Err(11));
    assert_eq!(diff::check(&[1, 0, 0]), Err(12));
    assert_eq!(diff::check(&[1, 32, 1]), Err(12));
    assert_eq!(diff::check(&change(&[(0, 33)], 132)), Err(12));
    assert_eq!(diff::check(&change(&[(4, 1), (0, 1)], 8)), Err(12));
    assert_eq!(diff::check(&change(&[(0, 32)], 128)), Ok(()));
    assert_eq!(diff::check(&change(&[(0, 32)], 127)), Err(11));
    assert_eq!(diff::check(&[0, 0]), Err(11));
    assert_eq!(diff::apply(&mut [0; 33], &[]), Err(14));
    assert_eq!(diff::apply(&mut [0; 32], &[]), Err(11));
}

/// "A clock that joins another becomes the join of the two; the other keeps
/// its entries."
#[test]
fn clocks() {
    let (mut a, mut b) = (VectorClock::zeros(), VectorClock::zeros());
    a.raise(ProcId(1));
    b.raise(ProcId(2));
    assert!(!a.covers(&b) && a.covers(&VectorClock::zeros()));
    a.join(&b);
    assert_eq!(
        (entries(&a, 3), entries(&b, 3)),
        (vec![1, 1, 0], vec![0, 1, 0])
    );
    assert!(a.covers(&b) && a.sum() == 2);
}

/// How many broken reads the judge finds with the value of one line changed.
pub fn with_value(name: &str, number: usize, value: u32) -> Result<usize, String> {
    let case = case(name);
    let mut printed = case.printed();
    printed.lines[number].value = value;
    judge(&case.file, &printed).map(|verdict| verdict.broken.len())
}

#[test]
fn the_judge_sees_wrong_values() {
    // Listing A: record 7 must be 700; record 3 is not ordered after the
    // write, so 0 and 700 will do and nothing else.
    assert_eq!(with_value("listing-a", 7, 700), Ok(0));
    assert_eq!(with_value("listing-a", 7, 0), Ok(1));
    assert_eq!(with_value("listing-a", 3, 700), Ok(0));
    assert_eq!(with_value("listing-a", 3, 5), Ok(1));
    // A race between two cards: both values will do.
    assert_eq!(with_value("equal-sums", 8, 10), Ok(0));
    assert_eq!(with_value("equal-sums", 8, 11), Ok(1));
    // Case D: an older value will not do.
    assert_eq!(with_value("case-d", 8, 11), Ok(1));
}

#[test]
fn the_judge_sees_lines_that_do_not_fit() {
    let case = case("listing-a");
    let judged = |text: &str| judge(&case.file, &Printed::parse(text).expect("lines"));
    assert!(judged(LISTING_A).is_ok());
    assert!(judged("").is_err());
    assert!(judged("0 0 0 0\nwords 0\n").is_err());
    let further = LISTING_A.replace("words 1", "13 0 0 0\nwords 1");
    assert!(judged(&further).is_err());
    assert!(judged(&LISTING_A.replace("5 0 0 0", "6 0 0 0")).is_err());
    assert!(judged(&LISTING_A.replace("6 7 0 0", "6 2 0 0")).is_err());
}

/// The value of a lost store or an invented one is seen in long runs too.
#[test]
fn the_judge_sees_wrong_values_in_generated_files() {
    let file = generate("locks", 3, 4000).expect("profile");
    let mut printed = run(&file, None);
    let sound = judge(&file, &printed).expect("fits");
    assert!(sound.broken.is_empty() && sound.strong == sound.reads);
    let written = |line: &&mut crate::stepfile::Line| line.value != 0;
    let line = printed.lines.iter_mut().rev().find(written);
    let line = line.expect("a read");
    line.value ^= 1 << 30;
    let number = line.number;
    let broken = judge(&file, &printed).expect("fits").broken;
    assert!(broken.len() == 1 && broken[0].number == number);
}

#[test]
fn a_file_is_the_same_for_the_same_seed() {
    for profile in PROFILES {
        assert_eq!(generate(profile, 5, 300), generate(profile, 5, 300));
        assert_ne!(generate(profile, 5, 300), generate(profile, 6, 300));
    }
}

#[test]
fn a_small_sweep_finds_nothing() {
    crate::sweep::sweep(3, 600).expect("a sound sweep");
}

/// "Faults that pass on a two-card bench": with two cards the four faults
/// below print the right lines.
#[test]
fn faults_pass_on_two_cards() {
    use crate::fault::Fault::{ByCard, Join, LearnFirst, LockOwn};
    for profile in PROFILES {
        let files = (0..200).filter_map(|seed| generate(profile, seed, 400));
        for file in files.filter(|file| file.get(1) == Some(&2)) {
            let right = run(&file, None);
            for fault in [LockOwn, ByCard, Join, LearnFirst] {
                assert_eq!(run(&file, Some(fault)), right, "{profile} {fault:?}");
            }
        }
    }
}

/// The last two lines of a file.
pub fn last_two(file: &[u8]) -> Vec<String> {
    let mut lines = run(file, None).texts();
    lines.split_off(lines.len().saturating_sub(2))
}

/// Refusals 15 and 16 behind the 1,000,000th step record.
#[test]
fn the_end_of_a_long_file() {
    let mut file = vec![0, 1, 1, 1, 0, 0, 0, 0];
    file.resize(8 * 1_000_001, 0);
    assert_eq!(last_two(&file), ["1000000 3 0 0", "words 0"]);
    file.extend([0; 7]);
    assert_eq!(last_two(&file), ["1000000 3 0 0", "1000001 15 0 0"]);
    file.extend([0; 1]);
    assert_eq!(last_two(&file), ["1000000 3 0 0", "1000001 16 0 0"]);
    file.extend([0; 5]);
    assert_eq!(last_two(&file), ["1000000 3 0 0", "1000001 16 0 0"]);
}
