//! Tests of stores that alter nothing (document 02, request L2): the records
//! and intervals they make, and what rests on them.

use crate::clock::{IntervalId, PageId, ProcId};
use crate::fault::Fault;
use crate::generate::{generate, PROFILES};
use crate::judge::judge;
use crate::model::{Model, Step, ARRIVE, WRITE};
use crate::stepfile::{record_at, run, run_watched, Line, Printed};
use crate::tests::{entries, state_after};

/// Card, interval, page and the change as bytes of each record.
fn records(model: &Model) -> Vec<(u8, u32, u16, Vec<u8>)> {
    let plain = |record: &crate::model::Record| {
        let (ProcId(card), IntervalId(interval)) = (record.card, record.interval);
        let PageId(page) = record.page;
        (card, interval, page, record.diff.to_bytes())
    };
    model.records.iter().map(plain).collect()
}

/// "with the change that is the single byte 0 where nothing differs"
#[test]
fn an_equal_store_has_the_byte_0() {
    let model = state_after("equal-store-alone");
    assert_eq!(records(&model), [(1, 1, 0, vec![0]), (1, 2, 0, vec![0])]);
    assert_eq!(model.own_entry(ProcId(1)), 2);
    let kept = |interval| &model.intervals[&(ProcId(1), IntervalId(interval))];
    assert_eq!(
        (entries(kept(1), 1), entries(kept(2), 1)),
        (vec![1], vec![2])
    );
}

/// "each dirty page now gets a record": those that differ and those that do
/// not are of one interval, by rising page.
#[test]
fn each_dirty_page_has_a_record() {
    let model = state_after("equal-store-beside");
    let altered = vec![1, 0, 1, 5, 0, 0, 0];
    assert_eq!(
        records(&model),
        [(1, 1, 0, vec![0]), (1, 1, 1, altered), (1, 1, 2, vec![0])]
    );
    assert_eq!(model.own_entry(ProcId(1)), 1);
}

/// A store put back is in no record.
#[test]
fn a_store_put_back_is_no_word_of_the_record() {
    let found = records(&state_after("store-put-back"));
    let word = |at: u8, value: u8| vec![1, at, 1, value, 0, 0, 0];
    assert_eq!(
        found,
        [
            (1, 1, 0, vec![0]),
            (2, 1, 0, word(0, 5)),
            (1, 2, 0, word(1, 7))
        ]
    );
}

/// The asker's equal store is a record before the lock is its own.
#[test]
fn an_asker_closes_its_equal_store() {
    let mut before_grant = None;
    let file = crate::tests::case("asker-closes-equal-store").file;
    run_watched(&file, None, &mut |model, number| {
        if number == 3 {
            before_grant = Some(model.clone());
        }
    });
    let model = before_grant.expect("three steps");
    assert_eq!(records(&model), [(2, 1, 0, vec![0])]);
    assert_eq!(model.awaited_by(ProcId(2)), Some(crate::clock::LockId(0)));
}

#[test]
fn nothing_dirty_makes_no_interval() {
    let model = state_after("nothing-dirty");
    assert_eq!(model.own_entry(ProcId(1)), 1);
    assert_eq!(records(&model), [(1, 1, 0, vec![0])]);
}

/// "a store that alters nothing now uses up numbers and records, so 9 and 10
/// can come sooner in a file"
#[test]
fn refusals_9_and_10_come_sooner() {
    for (name, number, refusal) in [
        ("equal-stores-until-9", 190, 9),
        ("equal-stores-until-10", 145, 10),
    ] {
        let file = crate::tests::case(name).file;
        let refusals = |fault| -> Vec<(usize, u32)> {
            let lines = run(&file, fault).lines.into_iter();
            let refused = lines.filter(|line| line.refusal != 0);
            refused.map(|line| (line.number, line.refusal)).collect()
        };
        assert_eq!(refusals(None), [(number, refusal)], "{name}");
        assert_eq!(refusals(Some(Fault::SkipEqual)), [], "{name}");
    }
}

/// Some files of every profile.
fn some_files(seeds: u64, steps: usize) -> impl Iterator<Item = (&'static str, u64, Vec<u8>)> {
    let names = PROFILES
        .iter()
        .flat_map(move |p| (0..seeds).map(move |s| (*p, s)));
    names.map(move |(p, s)| (p, s, generate(p, s, steps).expect("profile")))
}

/// The sum of records and dirty pages changes at two places alone: an accepted
/// write of a clean page adds one, a collection leaves none. So a closing
/// keeps it.
#[test]
fn a_closing_keeps_records_plus_dirty_pages() {
    for (profile, seed, file) in some_files(4, 1500) {
        let mut before: Option<Model> = None;
        run_watched(&file, None, &mut |model, number| {
            if let Some(before) = &before {
                let step = record_at(&file, number).map(Step::from_bytes);
                let due = sum_due(before, model, &step.expect("a step"));
                let found = model.records_and_dirty();
                assert_eq!(found, due, "{profile} {seed}: record {number}");
            }
            before = Some(model.clone());
        });
    }
}

/// The sum after a step, from the state before it and how the page and the
/// wish are after it.
fn sum_due(before: &Model, after: &Model, step: &Step) -> usize {
    let is_dirty = |model: &Model| {
        let processor = model.processors.get(&ProcId(step.card))?;
        let page = processor.pages.get(&PageId(step.object / 32))?;
        Some(page.twin.is_some())
    };
    let collected = before.barrier.wanted && !after.barrier.wanted;
    match step.kind {
        WRITE if is_dirty(before) != is_dirty(after) => before.records_and_dirty() + 1,
        ARRIVE if collected => 0,
        _ => before.records_and_dirty(),
    }
}

/// The file with another value in each write.
fn with_values(file: &[u8], value: fn(u32) -> u32) -> Vec<u8> {
    let mut file = file.to_vec();
    for record in file.chunks_exact_mut(8).skip(1) {
        let bytes: [u8; 8] = (&*record).try_into().expect("eight bytes");
        let mut step = Step::from_bytes(bytes);
        if step.kind == WRITE {
            step.value = value(step.value);
            record.copy_from_slice(&step.to_bytes());
        }
    }
    file
}

/// Refusals and counts, without the values.
fn without_values(printed: &Printed) -> Vec<(u32, u32)> {
    let plain = |line: &Line| (line.refusal, line.count);
    printed.lines.iter().map(plain).collect()
}

/// No refusal depends on a stored value, and no number of pending records: a
/// page is noted once it has been written, whatever was stored. Which of them
/// are applied does, as a record has the words that differ.
#[test]
fn no_refusal_depends_on_a_stored_value() {
    let others: [fn(u32) -> u32; 3] = [|_| 0, |value| value % 2, |value| !value];
    let mut other_counts = 0;
    for (profile, seed, file) in some_files(6, 1200) {
        let pending = |file: &[u8]| without_values(&run(file, Some(Fault::CountPending)));
        let (right, applied) = (pending(&file), without_values(&run(&file, None)));
        for other in others {
            let changed = with_values(&file, other);
            assert!(pending(&changed) == right, "{profile} {seed}");
            let found = without_values(&run(&changed, None));
            let refusals = |lines: &[(u32, u32)]| lines.iter().map(|l| l.0).collect::<Vec<_>>();
            assert!(refusals(&found) == refusals(&right), "{profile} {seed}");
            other_counts += usize::from(found != applied);
        }
    }
    assert!(other_counts > 0);
}

/// "over the same accepted steps the value of a read that meets demand 3's
/// premise, though not always its count, is untouched": the model that makes
/// no records of equal stores keeps demand 3 too, and where its refusals are
/// the same and all reads meet the premise, so are its values. Fetches skip
/// records without words (L5), so in these files the counts are the same, too.
#[test]
fn ordered_reads_keep_their_values() {
    let mut same_steps = 0;
    for (profile, seed, file) in some_files(20, 300) {
        let (right, skipping) = (run(&file, None), run(&file, Some(Fault::SkipEqual)));
        let verdict = judge(&file, &right).expect("fits");
        assert!(verdict.broken.is_empty(), "{profile} {seed}");
        let skipped = judge(&file, &skipping).expect("fits");
        assert!(skipped.broken.is_empty(), "{profile} {seed}");
        let refusals = |printed: &Printed| -> Vec<u32> {
            printed.lines.iter().map(|line| line.refusal).collect()
        };
        if verdict.strong == verdict.reads && refusals(&right) == refusals(&skipping) {
            assert!(right == skipping, "{profile} {seed}");
            same_steps += 1;
        }
    }
    assert!(same_steps > 50);
}
