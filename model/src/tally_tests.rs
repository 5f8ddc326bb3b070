//! Tests of tallies (document 02, request L4): the rule, the judge's totals,
//! the generator, and that tallies leave everything else alone.

use crate::clock::{ProcId, TallyId};
use crate::coverage::Seen;
use crate::fault::Fault;
use crate::generate::{generate, PROFILES};
use crate::in_order::broken_clause;
use crate::judge::{judge, Broken, Rule};
use crate::model::{Answer, Model, Step, ARRIVE, TALLIES, TALLY_ADD, TALLY_READ, WRAP};
use crate::stepfile::{record_at, run, run_watched, Line, REFUSALS};
use crate::tests::{case, state_after, with_value};

const TALLY_FAULTS: [Fault; 5] = [
    Fault::PostWanted,
    Fault::AddsKept,
    Fault::PostShort,
    Fault::PostFirst,
    Fault::Saturate,
];

/// The profiles that use tallies, with some seeds.
fn tally_files(seeds: u64, steps: usize) -> impl Iterator<Item = (&'static str, u64, Vec<u8>)> {
    let names = ["racy", "damaged", "blend", "triggers"];
    let names = names
        .into_iter()
        .flat_map(move |p| (0..seeds).map(move |s| (p, s)));
    names.map(move |(p, s)| (p, s, generate(p, s, steps).expect("profile")))
}

/// The posted total of a tally, and the adds of each card.
fn tally(model: &Model, number: u16) -> (u32, Vec<u32>) {
    let tally = &model.tallies[&TallyId(number)];
    (tally.posted, tally.since.values().copied().collect())
}

fn take(model: &mut Model, kind: u8, card: u8, object: u16, value: u32) -> (u32, u32, u32) {
    let step = Step {
        kind,
        card,
        object,
        value,
    };
    let answer = model.step(&step);
    (answer.refusal, answer.value, answer.count)
}

/// "there are 16 tallies of 32 bits, numbered from 0": whatever the opening,
/// all 0.
#[test]
fn an_opening_has_sixteen_tallies() {
    for counts in [[1, 1, 1], [3, 5, 7], [8, 8, 16]] {
        let [cards, pages, locks] = counts;
        let opening = [0, cards, pages, locks, 0, 0, 0, 0];
        let model = Model::open(opening, None).expect("opening");
        assert_eq!(model.tallies.len(), 16);
        for number in 0..TALLIES {
            assert_eq!(tally(&model, number), (0, vec![0; cards.into()]));
        }
    }
}

/// "the total posted at the last completed round plus its own adds since"
#[test]
fn a_round_posts_and_adds_start_anew() {
    let mut model = Model::open([0, 2, 1, 1, 0, 0, 0, 0], None).expect("opening");
    assert_eq!(take(&mut model, TALLY_ADD, 1, 6, u32::MAX), (0, 0, 0));
    assert_eq!(take(&mut model, TALLY_ADD, 2, 6, 3), (0, 0, 0));
    assert_eq!(tally(&model, 6), (0, vec![u32::MAX, 3]));
    take(&mut model, ARRIVE, 2, 0, 0);
    assert_eq!(tally(&model, 6), (0, vec![u32::MAX, 3]));
    take(&mut model, ARRIVE, 1, 0, 0);
    assert_eq!(tally(&model, 6), (2, vec![0, 0]));
    assert_eq!(take(&mut model, TALLY_ADD, 1, 6, 5), (0, 0, 0));
    assert_eq!(take(&mut model, TALLY_READ, 1, 6, 0), (0, 7, 0));
    assert_eq!(take(&mut model, TALLY_READ, 2, 6, 0), (0, 2, 0));
    assert_eq!(tally(&model, 6), (2, vec![5, 0]));
}

/// "Collection keeps totals."
#[test]
fn a_collection_keeps_totals() {
    let model = state_after("tally-collected");
    assert_eq!(tally(&model, 3), (31, vec![0, 0]));
    assert!(model.records.is_empty() && !model.barrier.wanted);
}

/// "taking the cards downwards gives the same word as taking them upwards":
/// with sums wrapped card by card, at every round of many files.
#[test]
fn the_order_of_cards_does_not_matter() {
    let mut posted = 0;
    for (profile, seed, file) in tally_files(6, 800) {
        let mut before: Option<Model> = None;
        run_watched(&file, None, &mut |model, number| {
            if let Some(before) = before.as_ref().filter(|was| round_ends(was, model)) {
                for at in 0..TALLIES {
                    let (total, adds) = tally(before, at);
                    let upwards = adds.iter().fold(total, |sum, n| sum.wrapping_add(*n));
                    let downwards = adds.iter().rev().fold(total, |sum, n| sum.wrapping_add(*n));
                    let found = tally(model, at);
                    assert_eq!(found.0, upwards, "{profile} {seed}: record {number}");
                    assert_eq!(found.0, downwards, "{profile} {seed}: record {number}");
                    assert!(found.1.iter().all(|added| *added == 0));
                    posted += usize::from(found.0 != total);
                }
            }
            before = Some(model.clone());
        });
    }
    assert!(posted > 100);
}

/// Whether the step ended a round, as the marks show it; a round of one card
/// leaves no mark to see.
fn round_ends(was: &Model, is: &Model) -> bool {
    !nobody_has_arrived(was) && nobody_has_arrived(is)
}

fn nobody_has_arrived(model: &Model) -> bool {
    model.barrier.arrived.values().all(|mark| !mark)
}

/// Adds and reads of tallies, refused or not, leave everything that other steps
/// answer: without them the other lines of a file are the same.
#[test]
fn tallies_leave_all_other_steps_alone() {
    for (profile, seed, file) in tally_files(8, 1500) {
        let is_tally = |record: &&[u8]| matches!(record[0], TALLY_ADD | TALLY_READ);
        let (opening, steps) = file.split_at(file.len().min(8));
        let others = steps.chunks(8).filter(|record| !is_tally(record));
        let without = [opening, &others.collect::<Vec<_>>().concat()].concat();
        let answers = |file: &[u8]| -> Vec<Answer> {
            let all = run_watched(file, None, &mut |_, _| {});
            let others = all.iter().enumerate().filter(|(number, _)| {
                let record = file.get(8 * number..).unwrap_or_default();
                *number == 0 || !record.first().is_some_and(|kind| matches!(*kind, 8 | 9))
            });
            others.map(|(_, answer)| *answer).collect()
        };
        assert!(answers(&file) == answers(&without), "{profile} {seed}");
    }
}

/// Only an add to it by the card, or the end of a round, changes a tally.
#[test]
fn nothing_else_changes_a_tally() {
    for (profile, seed, file) in tally_files(4, 800) {
        let mut before: Option<Model> = None;
        run_watched(&file, None, &mut |model, number| {
            let step = record_at(&file, number).map(Step::from_bytes);
            if let Some(before) = &before {
                let step = step.expect("a step");
                for at in 0..TALLIES {
                    let (was, is) = (tally(before, at), tally(model, at));
                    let may = match step.kind {
                        TALLY_ADD => step.object == at && was.0 == is.0,
                        ARRIVE => nobody_has_arrived(model),
                        _ => false,
                    };
                    assert!(may || was == is, "{profile} {seed}: record {number}");
                }
            }
            before = Some(model.clone());
        });
    }
}

/// The kinds beside them stay 3; 4 to 6 and 17 come in the table's order, and
/// a refused step changes no tally.
#[test]
fn refusals_of_tallies() {
    let mut model = Model::open([0, 3, 1, 1, 0, 0, 0, 0], None).expect("opening");
    for (kind, card) in [(3, 1), (3, 2), (5, 3)] {
        assert_eq!(take(&mut model, kind, card, 0, 0).0, 0);
    }
    take(&mut model, TALLY_ADD, 1, 0, 9);
    for kind in [TALLY_ADD, TALLY_READ] {
        for (card, object, refusal) in [(4, 16, 4), (2, 16, 5), (3, 16, 5), (2, 0, 17), (3, 0, 6)] {
            assert_eq!(take(&mut model, kind, card, object, 0), (refusal, 0, 0));
        }
    }
    assert_eq!(take(&mut model, TALLY_READ, 1, 0, 1), (5, 0, 0));
    for kind in [0, 7].into_iter().chain(12..=255) {
        assert_eq!(take(&mut model, kind, 1, 0, 0), (3, 0, 0));
    }
    assert_eq!(tally(&model, 0), (0, vec![9, 0, 0]));
}

/// Tallies that are not as many as they must be, or have adds of an absent
/// card, are found.
#[test]
fn tallies_out_of_order_are_found() {
    let sound = state_after("tally-own-adds");
    assert_eq!(broken_clause(&sound), None);
    let mut fewer = sound.clone();
    fewer.tallies.remove(&TallyId(15));
    let mut absent = sound.clone();
    let tally = absent.tallies.get_mut(&TallyId(15)).expect("present");
    tally.since.insert(ProcId(4), 0);
    for broken in [fewer, absent] {
        let clause = "16 tallies, adds of present cards";
        assert_eq!(broken_clause(&broken), Some(clause));
    }
}

/// The judge has one value for each read of a tally.
#[test]
fn the_judge_sees_wrong_totals() {
    for (name, number, due) in [
        ("tally-wraps", 3, u32::MAX),
        ("tally-wraps", 8, 1),
        ("tally-wraps", 11, 6),
        ("tally-collected", 10, 30),
        ("tally-told-by-the-round", 14, 6),
    ] {
        assert_eq!(with_value(name, number, due), Ok(0), "{name} {number}");
        for wrong in [due.wrapping_add(1), due.wrapping_sub(1)] {
            assert_eq!(with_value(name, number, wrong), Ok(1), "{name} {number}");
        }
    }
    let case = case("tally-wraps");
    let mut printed = case.printed();
    printed.lines[9].value = 3;
    let verdict = judge(&case.file, &printed).expect("fits");
    let broken = Broken {
        number: 9,
        object: 0,
        answered: 3,
        rule: Rule::Tally(1),
    };
    assert_eq!((verdict.reads, verdict.tally_reads), (0, 7));
    assert_eq!(
        broken.text(),
        "record 9: read of tally 0 answered 3; 1 is due"
    );
    assert_eq!(verdict.broken, [broken]);
}

/// A refused add is in no total: with its line changed to an accepted one, other
/// values are due behind it.
#[test]
fn the_judge_counts_accepted_adds_alone() {
    let case = case("refusal-6-tally");
    let mut printed = case.printed();
    assert_eq!(printed.lines[3].refusal, 6);
    printed.lines[3].refusal = 0;
    let broken = judge(&case.file, &printed).expect("fits").broken;
    let due: Vec<(usize, Rule)> = broken.into_iter().map(|b| (b.number, b.rule)).collect();
    let with_100 = [9, 10, 13].map(|number| (number, Rule::Tally(111)));
    assert_eq!(due, with_100);
}

/// The judge agrees with the model in long files too, and finds a wrong total
/// there.
#[test]
fn the_judge_sees_wrong_totals_in_generated_files() {
    let file = generate("triggers", 3, 6000).expect("profile");
    let mut printed = run(&file, None);
    let sound = judge(&file, &printed).expect("fits");
    assert!(sound.broken.is_empty() && sound.tally_reads > 500);
    let is_look = |line: &&mut Line| {
        line.refusal == 0 && file[8 * line.number] == TALLY_READ && line.number > 0
    };
    let lines = printed.lines.iter_mut().rev();
    let line = lines.into_iter().find(is_look).expect("a read");
    line.value ^= 1 << 31;
    let number = line.number;
    let broken = judge(&file, &printed).expect("fits").broken;
    assert!(broken.len() == 1 && broken[0].number == number);
}

/// Each fault of tallies is found by the judge in a named file made for it and
/// in generated files, and shows in no file without tallies.
#[test]
fn the_judge_finds_each_fault_of_tallies() {
    let named = [
        ("tally-wraps", Fault::PostWanted),
        ("tally-round-without-adds", Fault::AddsKept),
        ("tally-last-card-posted", Fault::PostShort),
        ("tally-sixteen-of-three-cards", Fault::PostFirst),
        ("tally-wraps-to-zero", Fault::Saturate),
    ];
    for (name, fault) in named {
        assert!(
            broken_reads(&case(name).file, fault) > 0,
            "{name} {fault:?}"
        );
    }
    for fault in TALLY_FAULTS {
        let files = (0..10).filter_map(|seed| generate("triggers", seed, 800));
        let found = files.filter(|file| broken_reads(file, fault) > 0).count();
        assert!(found >= 5, "{fault:?}: {found}");
        for profile in ["locks", "rounds", "soak", "chains"] {
            let file = generate(profile, 1, 800).expect("profile");
            assert_eq!(run(&file, Some(fault)), run(&file, None), "{profile}");
        }
    }
}

fn broken_reads(file: &[u8], fault: Fault) -> usize {
    let verdict = judge(file, &run(file, Some(fault))).expect("fits");
    verdict.broken.len()
}

/// What a triggers file has: counting with wraps, and each refusal that a step
/// on a tally can have.
#[test]
fn a_triggers_file_has_all_of_tallies() {
    let mut seen = Seen::default();
    let mut refusals = [0; REFUSALS];
    let mut wrapped = 0;
    for seed in 0..10 {
        let file = generate("triggers", seed, 2000).expect("profile");
        let printed = run(&file, None);
        for line in &printed.lines[1..] {
            if matches!(file[8 * line.number], TALLY_ADD | TALLY_READ) {
                refusals[line.refusal as usize] += 1;
            }
        }
        run_watched(&file, None, &mut |model, _| {
            let mut own = model.tallies.values().map(|t| {
                let adds = t.since.values().map(|n| u64::from(*n));
                u64::from(t.posted) + adds.sum::<u64>()
            });
            wrapped += usize::from(own.any(|sum| sum >= WRAP));
        });
        seen.add_file(&file, &printed);
    }
    assert!(seen.adds > 5000 && seen.looks > 2000 && seen.look_values > 1000);
    assert!(wrapped > 0 && seen.waits > 0 && seen.collections > 0);
    for (refusal, times) in refusals.into_iter().enumerate() {
        let may = matches!(refusal, 0 | 4 | 5 | 6 | 17);
        assert_eq!(times > 0, may, "{refusal}");
    }
}

/// The files of the benchmark's profiles have no step on a tally but an add of
/// 0 to tally 0, which is accepted, or one of an absent card.
#[test]
fn the_benchmark_profiles_use_no_tallies() {
    for profile in ["mixed", "locks", "rounds", "soak", "chains", "quiet"] {
        assert!(PROFILES.contains(&profile));
        for seed in 1..=4 {
            let file = generate(profile, seed, 3000).expect("profile");
            for line in run(&file, None).lines {
                let step = record_at(&file, line.number).map(Step::from_bytes);
                let step = step.filter(|_| line.number > 0);
                if let Some(Step {
                    kind: 8 | 9,
                    object,
                    value,
                    ..
                }) = step
                {
                    let nothing = (object, value) == (0, 0);
                    assert!(nothing || line.refusal == 4, "{profile} {seed}");
                    assert_eq!(line.value, 0);
                }
            }
        }
    }
}
