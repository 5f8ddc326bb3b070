//! Tests of words set (document 02, request L6): the last line and when it is
//! there, the words of each step by other ways than the model's, what the judge
//! asks of the total, and the faults against it.

use crate::clock::{PageId, ProcId};
use crate::coverage::Seen;
use crate::diff::{self, Diff, PAGE_WORDS};
use crate::fault::Fault;
use crate::files::effect;
use crate::generate::{generate, PROFILES};
use crate::judge::judge;
use crate::model::{Answer, Model, Record, Step, ARRIVE, READ, WRITE};
use crate::moved::Moved;
use crate::rng::Rng;
use crate::stepfile::{record_at, run, run_watched, stops, Printed, MOST_STEPS};
use crate::tests::{case, last_two};

const WORD_FAULTS: [Fault; 7] = [
    Fault::WordsSkipped,
    Fault::WordsByRun,
    Fault::WordsAltered,
    Fault::WordsOnce,
    Fault::WordsByCount,
    Fault::WordsOfReads,
    Fault::WordsAlways,
];

/// The lines that were set down for this request before the program had it.
#[test]
fn last_lines_set_down_before() {
    for (name, due) in [
        ("listing-a", "words 1"),
        ("case-d", "words 2"),
        ("partly-replaced", "words 5"),
        ("replaced-by-two-together", "words 7"),
        ("replaced-in-a-collection", "words 5"),
        ("words-of-a-confirmed-constant", "words 1"),
        ("words-set-to-what-they-were", "words 3"),
        ("words-of-an-opening", "words 0"),
        ("opening-alone", "words 0"),
        ("words-cut-within-a-record", "6 15 0 0"),
    ] {
        let lines = run(&case(name).file, None).texts();
        assert_eq!(lines.last().map(String::as_str), Some(due), "{name}");
    }
    let confirmed = run(&case("words-of-a-confirmed-constant").file, None);
    assert_eq!(confirmed.lines[8].text(), "8 0 9 0");
}

/// "A run that did not stop at 2, 15 or 16 ends with one extra line", and no
/// other has it; the words of a file are those of its answers.
#[test]
fn the_last_line_is_there_when_it_must() {
    let mut stopped = [0; 2];
    for (profile, seed, file) in some_files(12, 200) {
        let answers = run_watched(&file, None, &mut |_, _| {});
        let text = run(&file, None).text();
        let stops = answers.iter().any(|answer| stops(answer.refusal));
        stopped[usize::from(stops)] += 1;
        let total: u64 = answers.iter().map(|answer| u64::from(answer.words)).sum();
        let found: Vec<&str> = text.lines().filter(|line| line.contains('w')).collect();
        let due = format!("words {total}");
        match stops {
            true => assert!(found.is_empty(), "{profile} {seed}"),
            false => {
                assert_eq!(found, [due.as_str()], "{profile} {seed}");
                assert!(text.ends_with(&format!("\n{due}\n")), "{profile} {seed}");
            }
        }
        assert_eq!(Printed::parse(&text), Some(run(&file, None)));
    }
    assert!(stopped[0] > 100 && stopped[1] > 2, "{stopped:?}");
}

/// A word is moved, and as many steps that are refused follow as a file may have.
#[test]
fn the_last_line_of_a_long_file() {
    let mut file = case("words-of-a-whole-record").file;
    file.resize(8 * (MOST_STEPS + 1), 0);
    assert_eq!(last_two(&file), ["1000000 3 0 0", "words 1"]);
    file.push(0);
    assert_eq!(last_two(&file), ["1000000 3 0 0", "1000001 15 0 0"]);
    file.extend([0; 7]);
    assert_eq!(last_two(&file), ["1000000 3 0 0", "1000001 16 0 0"]);
}

/// The total is one of 64 bits.
#[test]
fn the_total_does_not_wrap() {
    let words = u32::MAX;
    let most = Answer::accepted(0, Moved { count: 1, words });
    let printed = Printed::of(&[Answer::done(), most, most, most]);
    assert_eq!(printed.texts().pop(), Some("words 12884901885".to_string()));
    assert_eq!(Printed::parse(&printed.text()), Some(printed));
}

/// Lines that are nearly the last one are no lines.
#[test]
fn the_last_line_has_one_shape() {
    let parse = |last: &str| Printed::parse(&format!("0 0 0 0\n{last}\n"));
    let words = |last: &str| parse(last).and_then(|printed| printed.words);
    assert_eq!(words("words 0"), Some(0));
    assert_eq!(words("words 18446744073709551615"), Some(u64::MAX));
    for wrong in [
        "words",
        "words ",
        "words  1",
        "words 1 ",
        "words 01",
        "words +1",
        "words -1",
        "words 1 0",
        "Words 1",
        "word 1",
        " words 1",
        "words 1.0",
        "words x",
        "words 18446744073709551616",
    ] {
        assert_eq!(parse(wrong), None, "{wrong:?}");
    }
    assert_eq!(parse("words 1\nwords 1"), None);
    assert_eq!(parse("words 1\n1 0 0 0"), None);
    assert_eq!(parse("1 0 00 0"), None);
}

/// The judge asks whether the last line is due, and whether the records applied
/// can have set so many words: each at least one and at most a page.
#[test]
fn the_judge_sees_a_wrong_last_line() {
    let judged = |name: &str, words: Option<u64>| {
        let case = case(name);
        let printed = Printed {
            words,
            ..case.printed()
        };
        judge(&case.file, &printed).is_ok()
    };
    assert!(judged("listing-a", Some(1)));
    assert!(judged("listing-a", Some(32)));
    for words in [None, Some(0), Some(33)] {
        assert!(!judged("listing-a", words), "{words:?}");
    }
    assert!(judged("opening-alone", Some(0)));
    assert!(!judged("opening-alone", None) && !judged("opening-alone", Some(1)));
    for name in [
        "refusal-2",
        "refusal-15-empty",
        "refusal-15-opening",
        "refusal-15-step",
    ] {
        assert!(judged(name, None) && !judged(name, Some(0)), "{name}");
    }
    assert!(!judged("words-cut-within-a-record", Some(1)));
}

/// The words of a diff need no counting: the bytes without the number of runs
/// and the pairs are four for each word. Applying it gives that number, whatever
/// the page has.
#[test]
fn words_of_changes_at_random() {
    let mut rng = Rng::new(61);
    for _ in 0..5000 {
        let chance = rng.pick(&[0, 5, 50, 95, 100]);
        let mut page = || -> Vec<u32> { (0..PAGE_WORDS).map(|_| rng.next() as u32 % 2).collect() };
        let (twin, mut copy) = (page(), page());
        for at in 0..PAGE_WORDS {
            if !rng.percent(chance) {
                copy[at] = twin[at];
            }
        }
        let bytes = Diff::between(&twin, &copy).to_bytes();
        let words = Ok(words_of_bytes(&bytes));
        assert_eq!(diff::apply(&mut twin.clone(), &bytes), words);
        // Each word has the value already, and counts.
        assert_eq!(diff::apply(&mut copy.clone(), &bytes), words);
    }
    assert_eq!(diff::apply(&mut [0; 33], &[0]), Err(14));
    assert_eq!(diff::apply(&mut [0; 32], &[0, 0]), Err(11));
}

fn words_of_bytes(bytes: &[u8]) -> u32 {
    let runs = usize::from(bytes[0]);
    ((bytes.len() - 1 - 2 * runs) / 4) as u32
}

/// Some files of every profile.
fn some_files(seeds: u64, steps: usize) -> impl Iterator<Item = (&'static str, u64, Vec<u8>)> {
    let names = PROFILES
        .iter()
        .flat_map(move |p| (0..seeds).map(move |s| (*p, s)));
    names.map(move |(p, s)| (p, s, generate(p, s, steps).expect("profile")))
}

/// Each answer of a file's steps, with the step and the state before it.
fn each_step(file: &[u8], look: &mut dyn FnMut(&Model, &Step, &Answer)) {
    let mut states = Vec::new();
    let answers = run_watched(file, None, &mut |model, _| states.push(model.clone()));
    for (number, answer) in answers.iter().enumerate().skip(1) {
        if let Some(step) = record_at(file, number).map(Step::from_bytes) {
            look(&states[number - 1], &step, answer);
        }
    }
}

/// The words of each step, by the records and clocks of the state before it. A
/// collection moves what reads of every page by every card would move after a
/// round without one.
#[test]
fn words_are_those_of_the_state_before() {
    let (mut moved, mut collected) = (0, 0);
    for (profile, seed, file) in some_files(4, 500) {
        each_step(&file, &mut |before, step, answer| {
            let due = words_due(before, step, answer);
            assert_eq!(answer.words, due, "{profile} {seed}: {step:?}");
            moved += answer.words;
            collected += u32::from(step.kind == ARRIVE && due > 0);
        });
    }
    assert!(moved > 5_000 && collected > 20, "{moved} {collected}");
}

fn words_due(before: &Model, step: &Step, answer: &Answer) -> u32 {
    let page = PageId(step.object / PAGE_WORDS as u16);
    match step.kind {
        _ if answer.refusal != 0 => 0,
        READ | WRITE => words_fetched(before, ProcId(step.card), page),
        ARRIVE if before.barrier.wanted => words_by_reads(before, step),
        _ => 0,
    }
}

/// Of the pending records in their order, those that are the last to set one of
/// their words, each with all its words.
fn words_fetched(before: &Model, card: ProcId, page: PageId) -> u32 {
    let mut pending = before.pending(card, page);
    pending.sort_by_key(|record| {
        let clock = &before.intervals[&(record.card, record.interval)];
        (clock.sum(), record.card, record.interval)
    });
    let is_last = |nth: usize, at: usize| {
        let mut later = pending[nth + 1..].iter();
        pending[nth].diff.sets(at) && !later.any(|record| record.diff.sets(at))
    };
    let applied = |(nth, _): &(usize, &Record)| (0..PAGE_WORDS).any(|at| is_last(*nth, at));
    let records = pending.iter().enumerate().filter(applied);
    let words = records.map(|(_, record)| words_of_bytes(&record.diff.to_bytes()));
    words.sum()
}

/// The arrival without the wish, and if it completes the round a read of each
/// page by each card.
fn words_by_reads(before: &Model, arrival: &Step) -> u32 {
    let mut model = before.clone();
    model.barrier.wanted = false;
    model.step(arrival);
    if model.has_arrived(ProcId(arrival.card)) {
        return 0;
    }
    let pages = model.processors[&ProcId(1)].pages.len() as u16;
    let mut words = 0;
    for card in 1..=model.processors.len() as u8 {
        for page in 0..pages {
            words += model
                .step(&crate::case::read(card, PAGE_WORDS as u16 * page))
                .words;
        }
    }
    words
}

/// Each record applied has between one word and a page of them, so the total is
/// within those bounds in every file.
#[test]
fn the_counts_bound_the_words() {
    for (profile, seed, file) in some_files(6, 400) {
        each_step(&file, &mut |_, _, answer| {
            let most = PAGE_WORDS as u32 * answer.count;
            let within = (answer.count..=most).contains(&answer.words);
            assert!(within, "{profile} {seed}: {answer:?}");
        });
    }
}

/// Each fault of words shows in a named file made for it and in generated files,
/// and alters nothing but the last line.
#[test]
fn each_fault_of_words_shows() {
    let named = [
        ("case-d", Fault::WordsSkipped),
        ("replaced-by-two-together", Fault::WordsSkipped),
        ("words-of-one-run", Fault::WordsByRun),
        ("words-set-to-what-they-were", Fault::WordsAltered),
        ("set-back-to-what-it-was", Fault::WordsAltered),
        ("partly-replaced", Fault::WordsOnce),
        ("words-set-again-in-the-fetch", Fault::WordsOnce),
        ("words-of-many-runs", Fault::WordsByCount),
        ("case-d", Fault::WordsOfReads),
        ("replaced-in-a-collection", Fault::WordsOfReads),
        ("words-cut-within-a-record", Fault::WordsAlways),
        ("refusal-2", Fault::WordsAlways),
        ("refusal-15-empty", Fault::WordsAlways),
    ];
    for (name, fault) in named {
        let case = case(name);
        let found = effect(&case.file, &case.printed(), fault);
        assert_eq!(found, "lines", "{name} {fault:?}");
    }
    for fault in WORD_FAULTS {
        let mut shown = 0;
        for (profile, seed, file) in some_files(12, 400) {
            let (right, faulty) = (run(&file, None), run(&file, Some(fault)));
            assert_eq!(right.lines, faulty.lines, "{profile} {seed} {fault:?}");
            shown += usize::from(right.words != faulty.words);
        }
        assert!(shown >= 3, "{fault:?}: {shown}");
    }
}

/// Generated files move words: more of them than records, in most files.
#[test]
fn the_generated_files_move_words() {
    let mut seen = Seen::default();
    for (_, _, file) in some_files(3, 800) {
        seen.add_file(&file, &run(&file, None));
    }
    assert!(seen.last_lines > 25 && seen.many_words > 20);
}
