//! Tests of cards that wait for a lock: the rule, the judge's order by grants,
//! and the generator, whose files must not hang.

use crate::blend::quiet;
use crate::clock::{LockId, ProcId};
use crate::coverage::Seen;
use crate::generate::{generate, PROFILES};
use crate::in_order::broken_clause;
use crate::judge::{grants, judge};
use crate::model::{Model, Step, ACQUIRE, ARRIVE, READ, RELEASE, WRITE};
use crate::rng::Rng;
use crate::stepfile::{record_at, run, run_watched, Printed};
use crate::sweep::accepted_share;
use crate::tests::{case, entries, state_after, with_value};

/// Three cards, one page, two locks.
fn opened() -> Model {
    Model::open([0, 3, 1, 2, 0, 0, 0, 0], None).expect("opening")
}

/// Takes steps by kind, card, object (a write stores 9); gives their refusals.
fn take(model: &mut Model, steps: &[(u8, u8, u16)]) -> Vec<u32> {
    let mut refusal = |(kind, card, object): &(u8, u8, u16)| {
        let step = Step {
            kind: *kind,
            card: *card,
            object: *object,
            value: if *kind == WRITE { 9 } else { 0 },
        };
        model.step(&step).refusal
    };
    steps.iter().map(&mut refusal).collect()
}

fn line(model: &Model, lock: u16) -> Vec<u8> {
    let line = model.locks[&LockId(lock)].line.iter();
    line.map(|card| card.0).collect()
}

fn holder(model: &Model, lock: u16) -> Option<u8> {
    model.locks[&LockId(lock)].holder.map(|card| card.0)
}

/// "the lock goes to the longest waiter, which becomes holder and learns the
/// lock's clock in that same step"
#[test]
fn a_release_serves_the_longest_waiter() {
    let mut model = opened();
    let asked = take(
        &mut model,
        &[(ACQUIRE, 1, 0), (ACQUIRE, 3, 0), (ACQUIRE, 2, 0)],
    );
    assert_eq!(asked, [0, 0, 0]);
    assert_eq!((holder(&model, 0), line(&model, 0)), (Some(1), vec![3, 2]));
    take(&mut model, &[(WRITE, 1, 0), (RELEASE, 1, 0)]);
    assert_eq!((holder(&model, 0), line(&model, 0)), (Some(3), vec![2]));
    let clock = |card| entries(&model.processors[&ProcId(card)].clock, 3);
    assert_eq!((clock(3), clock(2)), (vec![1, 0, 0], vec![0, 0, 0]));
    assert_eq!(
        take(&mut model, &[(RELEASE, 3, 0), (RELEASE, 2, 0)]),
        [0, 0]
    );
    assert_eq!((holder(&model, 0), line(&model, 0)), (None, vec![]));
}

/// "the asker's interval closes and the card waits"; at the grant it does not
/// close again.
#[test]
fn the_asker_closes_when_it_asks() {
    let mut model = opened();
    take(
        &mut model,
        &[(ACQUIRE, 1, 0), (WRITE, 2, 0), (ACQUIRE, 2, 0)],
    );
    assert_eq!((model.own_entry(ProcId(2)), model.records.len()), (1, 1));
    take(&mut model, &[(RELEASE, 1, 0)]);
    assert_eq!((model.own_entry(ProcId(2)), model.records.len()), (1, 1));
}

/// A refused step of a waiting card leaves the line as it was.
#[test]
fn a_waiting_card_is_refused_17() {
    let model = state_after("hang-two-locks");
    assert_eq!((line(&model, 0), line(&model, 1)), (vec![2], vec![1]));
    let mut model = opened();
    take(&mut model, &[(ACQUIRE, 1, 0), (ACQUIRE, 2, 0)]);
    for kind in 1..=6 {
        assert_eq!(take(&mut model, &[(kind, 2, 0)]), [17]);
    }
    assert_eq!(take(&mut model, &[(ACQUIRE, 1, 0), (READ, 2, 32)]), [7, 5]);
    assert_eq!((holder(&model, 0), line(&model, 0)), (Some(1), vec![2]));
}

/// Each condition on lines is found where it alone is broken.
#[test]
fn lines_out_of_order_are_found() {
    let mut sound = opened();
    take(
        &mut sound,
        &[(ACQUIRE, 1, 0), (ACQUIRE, 2, 0), (ARRIVE, 3, 0)],
    );
    assert_eq!(broken_clause(&sound), None);
    let broken = |spoil: fn(&mut Model)| {
        let mut model = sound.clone();
        spoil(&mut model);
        broken_clause(&model)
    };
    fn join(model: &mut Model, lock: u16, card: u8) {
        let lock = model.locks.get_mut(&LockId(lock)).expect("present");
        lock.line.push_back(ProcId(card));
    }
    fn hold(model: &mut Model, lock: u16, card: Option<u8>) {
        let lock = model.locks.get_mut(&LockId(lock)).expect("present");
        lock.holder = card.map(ProcId);
    }
    let clauses = [
        (broken(|m| join(m, 0, 4)), "only present cards in lines"),
        (broken(|m| join(m, 0, 2)), "each card at most once in all"),
        (broken(|m| hold(m, 0, None)), "no line at a free lock"),
        (broken(|m| join(m, 0, 3)), "no waiter that has arrived"),
        (broken(|m| join(m, 0, 1)), "no waiter that holds the lock"),
        (
            broken(|m| hold(m, 0, Some(2))),
            "no waiter that holds the lock",
        ),
        (
            broken(|m| {
                hold(m, 1, Some(1));
                join(m, 1, 2);
            }),
            "each card at most once in all",
        ),
    ];
    for (found, clause) in clauses {
        assert_eq!(found, Some(clause));
    }
}

/// "In happens-before-1 the release precedes the waiter's next step, and reads
/// are judged with it."
#[test]
fn a_grant_orders_a_read() {
    // Record 5 reads after the grant alone: 5 is due. Record 7 is not ordered
    // with card 1's store after its release: all values written will do.
    assert_eq!(with_value("grant-orders-read", 5, 5), Ok(0));
    assert_eq!(with_value("grant-orders-read", 5, 0), Ok(1));
    for fine in [0, 5, 6] {
        assert_eq!(with_value("grant-orders-read", 7, fine), Ok(0));
    }
    assert_eq!(with_value("grant-orders-read", 7, 7), Ok(1));
    // A line of three: the order goes on from grant to grant.
    assert_eq!(with_value("line-of-three", 16, 40), Ok(1));
    assert_eq!(with_value("waiter-keeps-its-lock", 11, 0), Ok(1));
}

/// A store that the releaser made is not ordered before a card that waits on.
#[test]
fn a_grant_orders_nothing_for_the_others() {
    let steps: [(u8, u8, u16); 6] = [
        (ACQUIRE, 1, 0),
        (ACQUIRE, 2, 0),
        (WRITE, 1, 0),
        (RELEASE, 1, 0),
        (READ, 3, 0),
        (READ, 2, 0),
    ];
    let mut file = vec![0, 3, 1, 1, 0, 0, 0, 0];
    for (kind, card, object) in steps {
        let value = if kind == WRITE { 9 } else { 0 };
        file.extend([kind, card, object as u8, 0, value, 0, 0, 0]);
    }
    let first: String = (0..5).map(|number| format!("{number} 0 0 0\n")).collect();
    let judged = |third: u32, second: u32| {
        let text = format!("{first}5 0 {third} 0\n6 0 {second} 1\nwords 1\n");
        let verdict = judge(&file, &Printed::parse(&text).expect("lines")).expect("fits");
        (verdict.strong, verdict.broken.len())
    };
    assert_eq!(judged(0, 9), (1, 0));
    assert_eq!(judged(9, 9), (1, 0));
    assert_eq!(judged(0, 0), (1, 1));
}

/// An acquire that passes at once is served by no release, one that waits by
/// the release before its turn.
#[test]
fn grants_are_counted_off() {
    let granted = |name: &str| {
        let case = case(name);
        grants(&case.file, &case.printed()).expect("fits")
    };
    assert_eq!(granted("case-d"), []);
    assert_eq!(granted("listing-a"), [(5, 2)]);
    assert_eq!(granted("lock-by-turns"), [(3, 2), (5, 1), (7, 2)]);
    assert_eq!(granted("line-of-three"), [(6, 4), (11, 2), (15, 3)]);
    assert_eq!(granted("two-locks"), [(7, 2), (11, 3), (19, 2)]);
    assert_eq!(granted("hang-two-locks"), []);
}

/// What is counted off from the accepted steps is what the model's lines do.
#[test]
fn grants_counted_are_grants_made() {
    for (profile, seed) in PROFILES.iter().flat_map(|p| (0..4).map(move |s| (p, s))) {
        let file = generate(profile, seed, 1500).expect("profile");
        let (mut made, mut before) = (Vec::new(), Vec::new());
        let answers = run_watched(&file, None, &mut |model, number| {
            let now = all_lines(model);
            made.extend(first_served(&before, &now).map(|card| (number, card)));
            before = now;
        });
        let counted = grants(&file, &Printed::of(&answers));
        assert_eq!(counted, Ok(made), "{profile} {seed}");
    }
}

fn all_lines(model: &Model) -> Vec<Vec<u8>> {
    let locks = 0..model.locks.len() as u16;
    locks.map(|lock| line(model, lock)).collect()
}

/// The card at the head of the line that has become shorter.
fn first_served(before: &[Vec<u8>], now: &[Vec<u8>]) -> Option<u8> {
    let mut lines = before.iter().zip(now);
    let (line, _) = lines.find(|(before, now)| before.len() > now.len())?;
    line.first().copied()
}

/// At least half of the steps of every profile are accepted, and after each
/// step somebody may act, except where a file is damaged.
#[test]
fn generated_files_do_not_hang() {
    for (profile, seed) in PROFILES.iter().flat_map(|p| (0..12).map(move |s| (p, s))) {
        let file = generate(profile, seed, 2500).expect("profile");
        let mut hangs = false;
        let answers = run_watched(&file, None, &mut |model, _| hangs |= hang(model));
        let share = accepted_share(&Printed::of(&answers).lines);
        assert!(share >= 50.0, "{profile} {seed}: {share} % accepted");
        assert!(!hangs || *profile == "damaged", "{profile} {seed} hangs");
    }
}

/// Where words go from card to card only by locks, every read has one value
/// that is due, by grants too.
#[test]
fn grants_leave_no_race() {
    for (profile, seed) in ["locks", "chains"]
        .iter()
        .flat_map(|p| (0..8).map(move |s| (p, s)))
    {
        let file = generate(profile, seed, 2000).expect("profile");
        let verdict = judge(&file, &run(&file, None)).expect("fits");
        assert_eq!(verdict.strong, verdict.reads, "{profile} {seed}");
        assert!(verdict.broken.is_empty());
    }
}

/// Whether every card has arrived or waits.
fn hang(model: &Model) -> bool {
    let mut cards = model.processors.keys();
    cards.all(|card| model.has_arrived(*card) || model.awaited_by(*card).is_some())
}

/// In a quiet file no accepted acquire finds the lock held, so no line depends
/// on waiting; all that is refused is still there.
#[test]
fn nobody_waits_in_a_quiet_file() {
    let mut seen = Seen::default();
    for seed in 0..10 {
        let file = quiet(Rng::new(seed), 2000);
        let printed = run(&file, None);
        assert!(record_at(&file, 2000).is_some() && printed.lines.len() == 2001);
        seen.add_file(&file, &printed);
    }
    assert_eq!((seen.waits, seen.grants, seen.refusals[17]), (0, 0, 0));
    assert!((3..=10).all(|refusal| seen.refusals[refusal] > 0));
}
