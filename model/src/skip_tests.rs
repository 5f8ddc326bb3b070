//! Tests of records that a fetch skips (document 02, request L5): the rule on
//! lists of records at random, counts, copies and applied clocks in runs, and
//! the faults against it.

use crate::clock::{IntervalId, PageId, ProcId};
use crate::coverage::Seen;
use crate::diff::{Diff, PAGE_WORDS};
use crate::fault::Fault;
use crate::files::effect;
use crate::generate::{generate, PROFILES};
use crate::model::{Model, Record, Step, ARRIVE, READ, WRITE};
use crate::rng::Rng;
use crate::skip::{is_replaced, unreplaced, unreplaced_faulty};
use crate::stepfile::{record_at, run, run_watched};
use crate::tests::{case, entries, state_after};

const SKIP_FAULTS: [Fault; 6] = [
    Fault::SkipByEarlier,
    Fault::NextAlone,
    Fault::DropLast,
    Fault::SkipTouched,
    Fault::KeepEmpty,
    Fault::CountPending,
];

/// A record that sets these words; each is known by its interval.
fn record(interval: u32, words: &[(usize, u32)]) -> Record {
    Record {
        card: ProcId(1),
        interval: IntervalId(interval),
        page: PageId(0),
        diff: Diff(words.to_vec()),
    }
}

fn intervals(records: &[Record]) -> Vec<u32> {
    records.iter().map(|record| record.interval.0).collect()
}

/// Up to twelve records, each of any set of words, often of few words of the
/// first ones, seldom of all or of none.
fn any_records(rng: &mut Rng) -> Vec<Record> {
    let among = rng.pick(&[2, 4, 8, PAGE_WORDS]);
    let chance = rng.pick(&[10, 30, 60]);
    let count = rng.within(0, 12) as u32;
    let mut any = |interval| {
        let mut words = Vec::new();
        for at in 0..among {
            if rng.percent(chance) {
                words.push((at, rng.next() as u32));
            }
        }
        record(interval, &words)
    };
    (1..=count).map(&mut any).collect()
}

fn any_page(rng: &mut Rng) -> Vec<u32> {
    (0..PAGE_WORDS).map(|_| rng.next() as u32).collect()
}

/// The page after the records.
fn applied(records: &[Record], page: &[u32]) -> Vec<u32> {
    let mut page = page.to_vec();
    for record in records {
        record.diff.apply(&mut page);
    }
    page
}

#[test]
fn records_that_later_ones_replace_are_skipped() {
    let (a, b, both) = ([(0, 1)], [(1, 2)], [(0, 3), (1, 4)]);
    let kept = |words: &[&[(usize, u32)]]| {
        let numbered = (1..).zip(words);
        let records: Vec<Record> = numbered.map(|(n, words)| record(n, words)).collect();
        intervals(&unreplaced(&records))
    };
    assert_eq!(kept(&[]), []);
    assert_eq!(kept(&[&a]), [1]);
    assert_eq!(kept(&[&a, &a]), [2]);
    assert_eq!(kept(&[&a, &b]), [1, 2]);
    assert_eq!(kept(&[&a, &both]), [2]);
    assert_eq!(kept(&[&both, &a]), [1, 2]);
    assert_eq!(kept(&[&both, &a, &b]), [2, 3]);
    assert_eq!(kept(&[&a, &b, &a]), [2, 3]);
    assert_eq!(kept(&[&a, &both, &both]), [3]);
    // "a record with no words is always skipped", the last one too.
    assert_eq!(kept(&[&[]]), []);
    assert_eq!(kept(&[&[], &[]]), []);
    assert_eq!(kept(&[&[], &a, &[], &b, &[]]), [2, 4]);
    assert_eq!(kept(&[&a, &[]]), [1]);
}

/// "The copy afterwards must equal the one that applying all would give, races
/// or not": for any records in any order.
#[test]
fn skipping_leaves_the_copy_of_applying_all() {
    let mut rng = Rng::new(51);
    let mut skipped = 0;
    for _ in 0..20_000 {
        let (records, page) = (any_records(&mut rng), any_page(&mut rng));
        let kept = unreplaced(&records);
        assert_eq!(applied(&kept, &page), applied(&records, &page));
        skipped += records.len() - kept.len();
    }
    assert!(skipped > 20_000);
}

/// The later records that are not skipped replace a record exactly when all
/// later ones do. So from the last record to the first it is enough to look at
/// those that are applied.
#[test]
fn skipped_records_may_count_among_the_later_ones_or_not() {
    let mut rng = Rng::new(52);
    for _ in 0..20_000 {
        let records = any_records(&mut rng);
        let mut kept: Vec<Record> = Vec::new();
        for record in records.iter().rev() {
            if !is_replaced(record, &kept) {
                kept.insert(0, record.clone());
            }
        }
        assert_eq!(intervals(&kept), intervals(&unreplaced(&records)));
    }
}

/// What is applied is what is needed: the last record that sets a word, for
/// each word, and no other. Nothing more is skipped in a second turn.
#[test]
fn the_last_record_of_each_word_is_applied_and_no_other() {
    let mut rng = Rng::new(53);
    for _ in 0..20_000 {
        let records = any_records(&mut rng);
        let last = |at: usize| records.iter().rev().find(|record| record.diff.sets(at));
        let mut due: Vec<u32> = (0..PAGE_WORDS)
            .filter_map(last)
            .map(|record| record.interval.0)
            .collect();
        due.sort();
        due.dedup();
        let kept = unreplaced(&records);
        assert_eq!(intervals(&kept), due);
        assert_eq!(intervals(&unreplaced(&kept)), due);
    }
}

/// On lists at random each fault skips another record or counts another number
/// somewhere; three of them leave another copy somewhere, and the others never
/// do.
#[test]
fn faults_on_lists_at_random() {
    let mut rng = Rng::new(54);
    let lists: Vec<(Vec<Record>, Vec<u32>)> = (0..3000)
        .map(|_| (any_records(&mut rng), any_page(&mut rng)))
        .collect();
    for fault in SKIP_FAULTS {
        let differ = |(records, _): &&(Vec<Record>, Vec<u32>)| {
            let faulty = unreplaced_faulty(fault, records);
            intervals(&faulty) != intervals(&unreplaced(records))
        };
        let spoil = |(records, page): &&(Vec<Record>, Vec<u32>)| {
            applied(&unreplaced_faulty(fault, records), page) != applied(records, page)
        };
        assert!(lists.iter().filter(differ).count() > 100, "{fault:?}");
        let may_spoil = matches!(
            fault,
            Fault::SkipByEarlier | Fault::DropLast | Fault::SkipTouched
        );
        let spoilt = lists.iter().filter(spoil).count();
        assert_eq!(spoilt > 100, may_spoil, "{fault:?}: {spoilt}");
        assert_eq!(spoilt > 0, may_spoil, "{fault:?}: {spoilt}");
    }
}

/// Case D, "where both cards write word 0, card 3 counts 1", and the lines that
/// were set down for this request before the program had it.
#[test]
fn lines_set_down_before() {
    let lines = [
        ("case-d", vec!["5 0 0 1", "8 0 22 1"]),
        ("case-e", vec!["5 0 0 1", "8 0 11 1"]),
        ("partly-replaced", vec!["9 0 11 2", "10 0 22 0"]),
        (
            "replaced-by-two-together",
            vec!["9 0 0 2", "12 0 21 2", "13 0 32 0"],
        ),
        ("equal-store-fetched", vec!["5 0 0 0", "6 0 0 0"]),
        ("replaced-in-a-race", vec!["7 0 6 1", "8 0 6 1", "9 0 5 1"]),
        (
            "replaced-in-a-collection",
            vec!["11 0 0 4", "12 0 7 0", "13 0 6 0"],
        ),
        (
            "replaced-along-a-chain",
            vec!["5 0 0 1", "9 0 0 1", "12 0 0 2", "15 0 4 2", "16 0 3 0"],
        ),
    ];
    for (name, due) in lines {
        let printed = run(&case(name).file, None).texts();
        for line in due {
            assert!(printed.iter().any(|found| found == line), "{name}: {line}");
        }
    }
}

/// "then the applied clock becomes p's clock", though nothing was applied.
#[test]
fn the_applied_clock_moves_where_all_are_skipped() {
    let model = state_after("equal-store-fetched");
    let card = &model.processors[&ProcId(2)];
    let applied = &card.pages[&PageId(0)].applied;
    assert_eq!(entries(applied, 2), [1, 0]);
    assert_eq!(entries(&card.clock, 2), [1, 0]);
    assert!(model.pending(ProcId(2), PageId(0)).is_empty());
}

/// How many records were pending where a line has its count, by the fault that
/// counts them all.
#[test]
fn counts_of_all_pending_records() {
    for (name, number, pending, count) in [
        ("case-d", 8, 2, 1),
        ("case-n", 138, 63, 1),
        ("case-o-collected", 156, 128, 8),
        ("replaced-by-three-together", 19, 4, 3),
        ("replaced-for-one-card-alone", 14, 4, 3),
        ("replaced-in-a-collection", 11, 5, 4),
        ("replaced-word-by-word", 132, 33, 32),
        ("all-words-but-one-replaced", 129, 32, 32),
        ("longest-fetch-freed", 260, 127, 32),
    ] {
        let file = case(name).file;
        let found = |fault| run(&file, fault).lines[number].count;
        let counts = (found(Some(Fault::CountPending)), found(None));
        assert_eq!(counts, (pending, count), "{name}");
    }
}

/// Some files of every profile.
fn some_files(seeds: u64, steps: usize) -> impl Iterator<Item = (&'static str, u64, Vec<u8>)> {
    let names = PROFILES
        .iter()
        .flat_map(move |p| (0..seeds).map(move |s| (*p, s)));
    names.map(move |(p, s)| (p, s, generate(p, s, steps).expect("profile")))
}

/// All that a state has in copies, twins and clocks of cards and pages.
fn contents(model: &Model) -> Vec<(Vec<u32>, Option<Vec<u32>>, Vec<u32>)> {
    let pages = model.processors.values().flat_map(|p| p.pages.values());
    let plain = |page: &crate::model::PageCopy| {
        let applied = entries(&page.applied, 8);
        (page.words.clone(), page.twin.clone(), applied)
    };
    pages.map(plain).collect()
}

/// In whole runs, races among them, a model that applies all pending records
/// goes through the same copies, twins and applied clocks, and answers the same
/// but for counts, which are never smaller.
#[test]
fn runs_are_those_of_applying_all_but_for_counts() {
    let mut other_counts = 0;
    for (profile, seed, file) in some_files(4, 600) {
        let mut states = Vec::new();
        let right = run_watched(&file, None, &mut |model, _| states.push(contents(model)));
        let mut due = states.into_iter();
        let all = run_watched(&file, Some(Fault::CountPending), &mut |model, number| {
            let same = due.next() == Some(contents(model));
            assert!(same, "{profile} {seed}: record {number}");
        });
        assert_eq!(right.len(), all.len());
        for (found, due) in right.iter().zip(&all) {
            assert_eq!((found.refusal, found.value), (due.refusal, due.value));
            assert!(found.count <= due.count, "{profile} {seed}");
            other_counts += usize::from(found.count < due.count);
        }
    }
    assert!(other_counts > 500, "{other_counts}");
}

/// A read or write counts what its own fetch applies, by the pending records of
/// the state before it; a step of another kind counts 0, but for an arrival
/// with collection wanted.
#[test]
fn counts_are_those_of_the_state_before() {
    for (profile, seed, file) in some_files(4, 600) {
        let mut before: Option<Model> = None;
        let mut due = vec![Some(0)];
        run_watched(&file, None, &mut |model, number| {
            if let Some(before) = &before {
                let step = record_at(&file, number).map(Step::from_bytes);
                due.push(count_due(before, &step.expect("a step")));
            }
            before = Some(model.clone());
        });
        for (line, due) in run(&file, None).lines.iter().zip(due) {
            let (count, accepted) = (line.count, line.refusal == 0);
            let due = due.unwrap_or(count);
            assert!(!accepted || count == due, "{profile} {seed}");
        }
    }
}

/// The last records of each word, of those pending.
fn count_due(before: &Model, step: &Step) -> Option<u32> {
    match step.kind {
        READ | WRITE => {}
        ARRIVE if before.barrier.wanted => return None,
        _ => return Some(0),
    }
    let page = PageId(step.object / PAGE_WORDS as u16);
    let card = ProcId(step.card);
    let present = before.processors.get(&card)?;
    present.pages.get(&page)?;
    let mut pending = before.pending(card, page);
    pending.sort_by_key(|record| {
        let clock = &before.intervals[&(record.card, record.interval)];
        (clock.sum(), record.card, record.interval)
    });
    let last = |at: usize| pending.iter().rposition(|record| record.diff.sets(at));
    let mut places: Vec<usize> = (0..PAGE_WORDS).filter_map(last).collect();
    places.sort();
    places.dedup();
    Some(places.len() as u32)
}

/// Each fault against skipping shows in a named file made for it and in
/// generated files: three of them in a value that the judge finds, the others
/// in counts alone.
#[test]
fn each_fault_of_skipping_shows() {
    let named = [
        ("case-d", Fault::SkipByEarlier, "judge"),
        ("replaced-by-two-together", Fault::NextAlone, "lines"),
        ("replaced-not-by-the-next", Fault::NextAlone, "lines"),
        ("case-d", Fault::DropLast, "judge"),
        ("partly-replaced", Fault::SkipTouched, "judge"),
        ("equal-store-fetched", Fault::KeepEmpty, "lines"),
        ("equal-store-between", Fault::KeepEmpty, "lines"),
        ("case-d", Fault::CountPending, "lines"),
    ];
    for (name, fault, due) in named {
        let case = case(name);
        let found = effect(&case.file, &case.printed(), fault);
        assert_eq!(found, due, "{name} {fault:?}");
    }
    for fault in SKIP_FAULTS {
        let files = (0..10).filter_map(|seed| generate("chains", seed, 800));
        let effects: Vec<&str> = files
            .map(|file| effect(&file, &run(&file, None), fault))
            .collect();
        let shown = effects.iter().filter(|effect| **effect != ".").count();
        assert!(shown >= 5, "{fault:?}: {shown}");
    }
}

/// With two cards a fetch has records of one card alone, and all of this rule
/// is in it already: each fault shows.
#[test]
fn faults_of_skipping_show_on_two_cards() {
    for fault in SKIP_FAULTS {
        let files = PROFILES
            .iter()
            .flat_map(|p| (0..40).filter_map(|seed| generate(p, seed, 400)));
        let mut of_two = files.filter(|file| file.get(1) == Some(&2));
        let shows = of_two.any(|file| run(&file, Some(fault)) != run(&file, None));
        assert!(shows, "{fault:?}");
    }
}

/// Generated files have fetches that skip something, by reads, writes and
/// collections, and some that skip all.
#[test]
fn the_generated_files_skip() {
    let mut seen = Seen::default();
    for (_, _, file) in some_files(3, 800) {
        seen.add_skips(&file, &run(&file, None));
    }
    assert!(seen.skipping_reads > 100 && seen.skipping_writes > 100);
    assert!(seen.skipping_collections > 10 && seen.all_skipped > 10);
}
