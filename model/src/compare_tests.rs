//! Tests of the comparison: programs that behave well and badly, the plan of
//! files, and what the files cover.

use crate::agree::first_difference;
use crate::blend::{blend, quiet};
use crate::compare::{Comparison, Subject};
use crate::coverage::Seen;
use crate::judge::judge;
use crate::options::Options;
use crate::plan::{ends, generated, plan, Source};
use crate::program::{run, Ending, Input, Limits, Ran};
use crate::rng::Rng;
use crate::stepfile;
use std::fs;
use std::os::unix::fs::PermissionsExt;
use std::path::{Path, PathBuf};
use std::time::Duration;

/// A directory for one test, empty at first and gone in the end.
pub struct Room(pub PathBuf);

impl Room {
    pub fn new(name: &str) -> Room {
        let name = format!("model-{name}-{}", std::process::id());
        let room = Room(std::env::temp_dir().join(name));
        fs::create_dir_all(&room.0).expect("a directory");
        room
    }

    /// A program that is a shell script.
    pub fn script(&self, body: &str) -> PathBuf {
        let path = self.0.join("script");
        fs::write(&path, format!("#!/bin/sh\n{body}\n")).expect("a script");
        fs::set_permissions(&path, fs::Permissions::from_mode(0o755)).expect("a mode");
        path
    }
}

impl Drop for Room {
    fn drop(&mut self) {
        let _ = fs::remove_dir_all(&self.0);
    }
}

fn run_on(program: &Path, bytes: &[u8], piece: usize, seconds: f32) -> Ran {
    let limits = Limits {
        output: 1 << 22,
        time: Duration::from_secs_f32(seconds),
    };
    run(program, Input::Pipe { bytes, piece }, limits)
}

/// More than a pipe holds, in and out at the same time.
#[test]
fn a_program_is_fed_and_heard() {
    let bytes: Vec<u8> = (0..3_000_000u32).map(|n| (n % 251) as u8).collect();
    for piece in [5_003, bytes.len()] {
        let ran = run_on(Path::new("cat"), &bytes, piece, 60.0);
        assert!(ran.output == bytes && ran.ending == Ending::Well);
    }
    assert_eq!(run_on(Path::new("cat"), &[], 1, 60.0).output, []);
}

#[test]
fn a_program_may_stop_reading() {
    let ran = run_on(Path::new("true"), &[0; 1 << 20], 1 << 20, 60.0);
    assert!(ran.output.is_empty() && ran.ending == Ending::Well);
}

#[test]
fn bad_endings_are_told_apart() {
    let room = Room::new("endings");
    let ending = |program: &Path, seconds| run_on(program, &[1; 9], 9, seconds).ending;
    let badly = |how: &str| Ending::Badly(how.to_string());
    assert_eq!(ending(Path::new("false"), 60.0), badly("exit status: 1"));
    let killed = room.script("kill -9 $$");
    assert_eq!(ending(&killed, 60.0), badly("signal: 9 (SIGKILL)"));
    let late = Ending::NotInTime(Duration::from_secs_f32(0.2));
    assert_eq!(ending(&room.script("exec sleep 100"), 0.2), late);
    let silent = room.script("exec >&-; exec sleep 100");
    assert_eq!(ending(&silent, 0.2), late);
    assert_eq!(ending(Path::new("yes"), 60.0), Ending::TooMuch(1 << 22));
    let nowhere = ending(Path::new("/nowhere/program"), 60.0);
    assert!(matches!(nowhere, Ending::NotStarted(_)) && nowhere.is_hopeless());
}

#[test]
fn the_first_difference_is_shown() {
    let differ = |due: &str, printed: &str| first_difference(due.as_bytes(), printed.as_bytes());
    assert_eq!(differ("0 0 0 0\n", "0 0 0 0\n"), None);
    assert_eq!(differ("", ""), None);
    let shown = |number, due, printed| {
        let text = format!("line {number} differs\n    due      {due}\n    printed  {printed}");
        Some(text)
    };
    assert_eq!(differ("a\nb\nc\n", "a\nB\nc\n"), shown(2, "b", "B"));
    assert_eq!(differ("a\nb\n", "a\n"), shown(2, "b", "no line"));
    assert_eq!(differ("a\n", "a\nb\n"), shown(2, "no line", "b"));
    assert_eq!(differ("a\n", "a"), shown(1, "a", "a without a newline"));
    assert_eq!(differ("a\n", "a\r\n"), shown(1, "a", "a\\r"));
    let long = "7".repeat(61);
    assert_eq!(
        differ("a\n", &long),
        shown(1, "a", &format!("{}.. without a newline", &long[1..]))
    );
}

#[test]
fn options_are_read() {
    let options = Options::parse(&["some/files", "--seed", "7", "--files", "30"]).expect("options");
    assert_eq!((options.seed, options.files), (7, 30));
    assert_eq!(options.dir, Path::new("some/files"));
    assert_eq!(Options::parse(&[]).expect("options").files, 2100);
    for wrong in [&["--files"][..], &["--seed", "x"], &["--what", "1"]] {
        assert!(Options::parse(wrong).is_err());
    }
}

/// A directory with Listing A, and a program that knows its lines by heart.
#[test]
fn a_comparison_counts_and_keeps() {
    let room = Room::new("comparison");
    let listing_a = crate::cases::all_cases().swap_remove(0);
    let lines = listing_a.printed().text();
    fs::write(room.0.join("listing-a.steps"), &listing_a.file).expect("a file");
    fs::write(room.0.join("listing-a.lines"), &lines).expect("a file");
    let files: Vec<Source> = plan(&room.0, 0, 1)
        .expect("a plan")
        .into_iter()
        .take(1)
        .collect();
    let kept = room.0.join("kept");
    let count = |program: &Path| {
        let options = Options::usual();
        let comparison = Comparison::new(Subject::Run, program, &options, &kept);
        let comparison = comparison.expect("a comparison");
        let tally = comparison.over(&files);
        (tally.passed, tally.failed)
    };
    let knowing = room.script(&format!("cat {}/listing-a.lines", room.0.display()));
    assert_eq!(count(&knowing), (3, 0));
    assert!(!kept.exists());
    assert_eq!(count(Path::new("cat")), (0, 3));
    assert_eq!(
        fs::read(kept.join("listing-a.steps")).ok(),
        Some(listing_a.file)
    );
    assert_eq!(
        fs::read_to_string(kept.join("listing-a.due")).ok(),
        Some(lines)
    );
    assert!(plan(&kept.join("nothing"), 0, 1).is_err());
}

/// Three long files, then the empty one, those cut in the opening, the
/// opening alone, and those cut in record 200.
#[test]
fn the_ends_are_in_the_plan() {
    let ends = ends(1);
    let sizes = ends[..3]
        .iter()
        .map(|end| end.bytes.unwrap_or(8 * (end.steps + 1)));
    assert_eq!(sizes.collect::<Vec<_>>(), [8_000_008, 8_000_016, 8_000_013]);
    let last: Vec<String> = ends[3..]
        .iter()
        .map(|end| last_line(&Source::End(*end)))
        .collect();
    assert_eq!(last[0], "0 2 0 0");
    assert!(last[1..9].iter().all(|line| line == "0 15 0 0"));
    assert_eq!(last[9], "words 0");
    assert!(last[10..].iter().all(|line| line == "200 15 0 0"));
    assert_eq!(last[10..].len(), 7);
}

fn last_line(source: &Source) -> String {
    let lines = stepfile::run(&source.bytes().expect("bytes"), None).texts();
    lines.last().expect("a line").clone()
}

/// Already a part of the generated files meets every refusal of a step and
/// every fault.
#[test]
fn the_generated_files_cover_the_rules() {
    let mut seen = Seen::default();
    for recipe in generated(400, 1) {
        let file = Source::Generated(recipe).bytes().expect("bytes");
        let lines = stepfile::run(&file, None);
        seen.add_file(&file, &lines);
        seen.add_faults(&file, &lines);
        seen.add_skips(&file, &lines);
    }
    for refusal in (2..=10).chain([15]).chain(17..=20) {
        assert!(seen.refusals[refusal] > 0, "refusal {refusal}");
    }
    assert!(seen.faults.0.iter().all(|files| *files > 0));
    assert!(seen.read_counts > 0 && seen.read_values > 0 && seen.collections > 0);
    assert!(seen.waits > seen.grants && seen.grants > 0);
    assert!(seen.lines_of_two > 0 && seen.lines_of_three > 0);
    assert!(seen.adds > 0 && seen.looks > seen.look_values && seen.look_values > 0);
    assert!(seen.enqueues > seen.dequeues && seen.filled > 0 && seen.jobs_of_others > 0);
    assert!(seen.skipping_reads > 0 && seen.skipping_writes > 0);
    assert!(seen.skipping_collections > 0 && seen.all_skipped > 0);
}

#[test]
fn a_blend_has_no_races() {
    for seed in 0..20 {
        let make: fn(Rng, usize) -> Vec<u8> = if seed % 2 == 0 { blend } else { quiet };
        let file = make(Rng::new(seed), 2000);
        let verdict = judge(&file, &stepfile::run(&file, None)).expect("fits");
        assert_eq!(verdict.strong, verdict.reads);
        assert!(verdict.broken.is_empty() && verdict.strong_written > 100);
    }
}
