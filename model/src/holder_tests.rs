//! Tests of arrivals with a lock in hand (document 02, request L7): the refusal
//! and its place, the state in order, what the judge asks of such lines, and the
//! faults against it.

use crate::case::arrive;
use crate::clock::{LockId, ProcId};
use crate::fault::Fault;
use crate::generate::{generate, PROFILES};
use crate::in_order::broken_clause;
use crate::judge::judge;
use crate::model::{Model, Step, ARRIVE};
use crate::stepfile::{record_at, run, run_watched};
use crate::tests::{case, state_after};

/// The lines that were set down for this request before the program had it.
#[test]
fn lines_set_down_before() {
    for (name, due) in [
        ("listing-a", vec!["12 18 0 0", "words 1"]),
        (
            "hang-arrived-holder",
            vec!["3 18 0 0", "4 0 0 0", "5 18 0 0", "6 0 0 0", "7 0 0 0"],
        ),
        ("refusal-18", vec!["3 18 0 0", "6 0 0 0", "8 0 4 1"]),
        (
            "refusal-18-in-line",
            vec!["3 17 0 0", "4 18 0 0", "8 18 0 0", "10 0 0 0", "11 0 0 0"],
        ),
        (
            "refusal-18-of-one-card",
            vec!["2 18 0 0", "3 5 0 0", "4 5 0 0", "6 0 0 0", "9 18 0 0"],
        ),
    ] {
        let printed = run(&case(name).file, None).texts();
        for line in due {
            assert!(printed.iter().any(|found| found == line), "{name}: {line}");
        }
    }
}

/// "A state that has an arrived card holding a lock is no longer in order",
/// whichever the lock.
#[test]
fn an_arrived_holder_is_not_in_order() {
    let mut sound = Model::open([0, 3, 1, 16, 0, 0, 0, 0], None).expect("opening");
    assert_eq!(sound.step(&arrive(2)).refusal, 0);
    assert_eq!(broken_clause(&sound), None);
    for lock in 0..16 {
        let mut model = sound.clone();
        let held = model.locks.get_mut(&LockId(lock)).expect("present");
        held.holder = Some(ProcId(2));
        let due = Some("no arrived card holds a lock");
        assert_eq!(broken_clause(&model), due, "lock {lock}");
    }
}

/// Some files of every profile.
fn some_files(seeds: u64, steps: usize) -> impl Iterator<Item = (&'static str, u64, Vec<u8>)> {
    let names = PROFILES
        .iter()
        .flat_map(move |p| (0..seeds).map(move |s| (*p, s)));
    names.map(move |(p, s)| (p, s, generate(p, s, steps).expect("profile")))
}

/// After each step, what each card's arrival would be answered: 6 if it has
/// arrived, 17 if it stands in a line, 18 if it holds a lock, and else 0.
#[test]
fn every_arrival_is_answered_by_the_table() {
    let mut times = [0; 19];
    for (profile, seed, file) in some_files(2, 250) {
        run_watched(&file, None, &mut |model, number| {
            for card in model.processors.keys() {
                let due = arrival_due(model, *card);
                let found = model.clone().step(&arrive(card.0)).refusal;
                assert_eq!(found, due, "{profile} {seed}: {number}, {card:?}");
                times[due as usize] += 1;
            }
        });
    }
    assert!([0, 6, 17, 18].iter().all(|refusal| times[*refusal] > 100));
}

fn arrival_due(model: &Model, card: ProcId) -> u32 {
    let mut locks = model.locks.values();
    if model.barrier.arrived[&card] {
        6
    } else if locks.clone().any(|lock| lock.line.contains(&card)) {
        17
    } else if locks.any(|lock| lock.holder == Some(card)) {
        18
    } else {
        0
    }
}

/// When a round completes no lock is held and no line stands.
#[test]
fn a_round_finds_the_locks_free() {
    let mut rounds = 0;
    for (profile, seed, file) in some_files(6, 800) {
        let mut before: Option<Model> = None;
        run_watched(&file, None, &mut |model, number| {
            let arrived = |model: &Model| model.barrier.arrived.values().any(|mark| *mark);
            let open = before.as_ref().is_some_and(arrived);
            if open && !arrived(model) {
                let mut locks = model.locks.values();
                let free = locks.all(|lock| lock.holder.is_none() && lock.line.is_empty());
                assert!(free, "{profile} {seed}: {number}");
                rounds += 1;
            }
            before = Some(model.clone());
        });
    }
    assert!(rounds > 200, "{rounds}");
}

/// A refused arrival makes no interval and no record, marks nobody and leaves
/// the lock with its holder.
#[test]
fn a_refused_arrival_changes_nothing() {
    let mut model = state_after("hang-two-locks");
    assert_eq!(model.step(&arrive(1)).refusal, 17);
    let mut model = Model::open([0, 2, 1, 1, 0, 0, 0, 0], None).expect("opening");
    for step in [crate::case::acquire(1, 0), crate::case::write(1, 0, 5)] {
        assert_eq!(model.step(&step).refusal, 0);
    }
    assert_eq!(model.step(&arrive(1)).refusal, 18);
    assert_eq!((model.records.len(), model.own_entry(ProcId(1))), (0, 0));
    assert_eq!(model.records_and_dirty(), 1);
    assert!(!model.has_arrived(ProcId(1)));
    assert_eq!(model.locks[&LockId(0)].holder, Some(ProcId(1)));
}

/// The judge sees an accepted arrival with a lock in hand, and 18 for anything
/// else.
#[test]
fn the_judge_sees_wrong_arrivals() {
    let judged = |name: &str, number: usize, refusal: u32| {
        let case = case(name);
        let mut printed = case.printed();
        printed.lines[number].refusal = refusal;
        judge(&case.file, &printed).is_ok()
    };
    assert!(judged("refusal-18", 3, 18));
    assert!(!judged("refusal-18", 3, 0));
    // An arrival without a lock, and a read.
    assert!(!judged("refusal-18", 7, 18) && !judged("refusal-18", 6, 18));
    // The lock has been handed on to card 2, which has not asked again.
    assert!(judged("refusal-18-in-line", 8, 18));
    assert!(!judged("refusal-18-in-line", 8, 0));
    assert!(!judged("listing-a", 12, 0));
}

/// In every profile but `rounds`, which has no locks, some arrivals are refused
/// 18: a small share of the steps.
#[test]
fn some_arrivals_of_generated_files_are_refused() {
    for profile in PROFILES {
        let (mut refused, mut steps) = (0, 0);
        for seed in 0..12 {
            let file = generate(profile, seed, 2000).expect("profile");
            let lines = run(&file, None).lines;
            refused += lines.iter().filter(|line| line.refusal == 18).count();
            steps += lines.len();
        }
        assert_eq!(refused > 0, profile != "rounds", "{profile}");
        assert!(50 * refused < steps, "{profile}: {refused} of {steps}");
    }
}

/// Each fault of arrivals shows in a named file made for it and in generated
/// files.
#[test]
fn each_fault_of_arrivals_shows() {
    let named = [
        ("listing-a", Fault::ArriveHolding),
        ("refusal-18", Fault::LockZeroAlone),
        ("refusal-18-each-lock", Fault::LockZeroAlone),
        ("listing-a", Fault::AwaitedAlone),
        ("refusal-18", Fault::AwaitedAlone),
        ("refusal-18-order", Fault::HolderFirst),
        ("refusal-18-of-one-card", Fault::HolderFirst),
        ("round-finds-locks-free", Fault::HolderFirst),
    ];
    for (name, fault) in named {
        let file = case(name).file;
        assert_ne!(
            run(&file, None),
            run(&file, Some(fault)),
            "{name} {fault:?}"
        );
    }
    for fault in [
        Fault::ArriveHolding,
        Fault::LockZeroAlone,
        Fault::AwaitedAlone,
        Fault::HolderFirst,
    ] {
        let files = some_files(12, 800);
        let shows = |file: &[u8]| run(file, Some(fault)) != run(file, None);
        let shown = files.filter(|(_, _, file)| shows(file)).count();
        assert!(shown >= 3, "{fault:?}: {shown}");
    }
}

/// The fault that lets holders arrive leaves states that are not in order, and
/// lines that the judge does not take.
#[test]
fn the_fault_that_lets_holders_arrive_is_found() {
    let file = case("refusal-18").file;
    let mut broken = None;
    run_watched(&file, Some(Fault::ArriveHolding), &mut |model, _| {
        broken = broken.or(broken_clause(model));
    });
    assert_eq!(broken, Some("no arrived card holds a lock"));
    let printed = run(&file, Some(Fault::ArriveHolding));
    assert!(judge(&file, &printed).is_err());
    let arrival = record_at(&file, 3).map(Step::from_bytes);
    assert_eq!(arrival.map(|step| step.kind), Some(ARRIVE));
}
