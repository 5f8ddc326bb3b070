//! Tests of the forecast (document 02, request L8), by itself and as a second
//! opinion on the model. Those of the comparison with it are in
//! `compare_forecast_tests.rs`.

use crate::case::{acquire, any, write, Case};
use crate::cases::all_cases;
use crate::forecast::forecast;
use crate::forecast_check::{counted, without_values};
use crate::forecast_lines::{Figures, Forecast, Line};
use crate::generate::{generate, PROFILES};
use crate::model::Step;
use crate::stepfile;

/// Some files of each profile.
fn generated_files() -> impl Iterator<Item = Vec<u8>> {
    let each = |profile| (0..40).filter_map(move |seed| generate(profile, seed, 700));
    PROFILES.into_iter().flat_map(each)
}

fn named_files() -> impl Iterator<Item = Vec<u8>> {
    all_cases().into_iter().map(|case| case.file)
}

fn text(file: &[u8]) -> String {
    forecast(file, None).text()
}

#[test]
fn the_figures_set_down_are_those_found() {
    let with_figures = all_cases()
        .into_iter()
        .filter_map(|case| Some((case.forecast()?, case)));
    let mut compared = 0;
    for (due, case) in with_figures {
        assert_eq!(forecast(&case.file, None), due, "{}", case.name);
        compared += 1;
    }
    assert_eq!(compared, 31);
}

/// Listing A, as `tests/files` has it.
#[test]
fn listing_a() {
    let due = "0 0 0 0\n1 0 0 0\n2 0 0 1\n3 0 0 1\n4 0 0 1\n5 0 1 0\n6 7 1 0\n7 0 1 0\n8 0 1 0\n9 0 1 0\n10 6 1 0\n11 0 1 0\n12 18 1 0\nmost 1\n";
    assert_eq!(text(&crate::tests::case("listing-a").file), due);
}

/// "These must equal what the run itself has, for every file"
#[test]
fn it_is_what_the_run_has() {
    for file in named_files().chain(generated_files()) {
        let forecast = forecast(&file, None);
        assert_eq!(forecast, counted(&file));
        let run = stepfile::run(&file, None).lines;
        let columns = run.iter().map(|line| (line.number, line.refusal));
        let found = forecast
            .lines
            .iter()
            .map(|line| (line.number, line.refusal));
        assert!(columns.eq(found));
    }
}

/// Each run of five steps of two cards with one page and one lock, reads and the
/// queue left out, and each of four steps with the queue.
#[test]
fn it_is_what_every_short_run_has() {
    is_what_every_run_has(5, &[2, 3, 4, 5, 6]);
    is_what_every_run_has(4, &[2, 3, 4, 5, 6, 10, 11]);
}

fn is_what_every_run_has(length: u32, kinds: &[u8]) {
    let steps: Vec<Step> = (1..=2)
        .flat_map(|card| kinds.iter().map(move |kind| any(*kind, card, 0, 0)))
        .collect();
    for number in 0..steps.len().pow(length) {
        let mut file = vec![0, 2, 1, 1, 0, 0, 0, 0];
        for place in 0..length {
            let step = steps[number / steps.len().pow(place) % steps.len()];
            file.extend(step.to_bytes());
        }
        assert_eq!(forecast(&file, None), counted(&file), "{file:?}");
    }
}

/// "since L2 no refusal depends on a stored value"
#[test]
fn values_do_not_matter() {
    let mut altered = 0;
    for file in named_files().chain(generated_files()) {
        let bare = without_values(&file);
        altered += usize::from(bare != file);
        assert_eq!(forecast(&bare, None), forecast(&file, None));
        assert_eq!(counted(&bare), counted(&file));
    }
    assert!(altered > 500);
}

#[test]
fn values_are_taken_out_of_stores_adds_and_jobs_alone() {
    let steps = [
        write(1, 3, 700),
        any(8, 2, 1, 5),
        any(1, 1, 0, 9),
        any(8, 9, 9, 9),
        any(10, 2, 1, 6),
        any(11, 2, 0, 7),
    ];
    let mut file = vec![8, 2, 1, 1, 7, 7, 7, 7];
    file.extend(steps.iter().flat_map(|step| step.to_bytes()));
    file.extend([2, 1, 0, 0, 5]);
    let bare = without_values(&file);
    assert_eq!(bare[..8], file[..8]);
    let due = [
        write(1, 3, 0),
        any(8, 2, 1, 0),
        any(1, 1, 0, 9),
        any(8, 9, 9, 0),
        any(10, 2, 1, 0),
        any(11, 2, 0, 7),
    ];
    for (number, step) in due.iter().enumerate() {
        assert_eq!(
            stepfile::record_at(&bare, number + 1),
            Some(step.to_bytes())
        );
    }
    assert_eq!(bare[56..], file[56..]);
}

/// A file with one record standing and one dirty page after record 3.
fn standing() -> Case {
    let mut c = Case::open("standing", [2, 2, 1], "");
    c.ok(&[write(1, 0, 7), acquire(1, 0), write(1, 33, 8)]);
    c
}

/// Files of 0 to 17 bytes and more: 15 with the figures before it, "or 0 and 0
/// before an accepted opening".
#[test]
fn each_cut() {
    let file = standing().file;
    let lines = ["0 0 0 0\n", "1 0 0 1\n", "2 0 1 0\n", "3 0 1 1\n"];
    let figures = ["0 0", "0 0", "0 1", "1 0"];
    for bytes in 0..file.len() {
        let (whole, within) = (bytes / 8, bytes % 8);
        let mut due = lines[..whole].concat();
        if bytes == 0 || within > 0 {
            due += &format!("{whole} 15 {}\n", figures[whole]);
        }
        let most = usize::from(whole >= 2);
        due += &format!("most {most}\n");
        assert_eq!(text(&file[..bytes]), due, "{bytes} bytes");
    }
    assert_eq!(text(&file), lines.concat() + "most 2\n");
}

#[test]
fn a_refused_opening() {
    for at in [0, 1, 2, 3, 4, 5, 6, 7] {
        let mut file = standing().file;
        file[at] = 17;
        assert_eq!(text(&file), "0 2 0 0\nmost 0\n");
    }
    for counts in [[0, 1, 1], [1, 0, 1], [1, 1, 0], [9, 8, 16], [8, 9, 16]] {
        let case = Case::open("", counts, "");
        assert_eq!(text(&case.file), "0 2 0 0\nmost 0\n");
    }
    let largest = Case::open("", [8, 8, 16], "");
    assert_eq!(text(&largest.file), "0 0 0 0\nmost 0\n");
}

/// Refusals 15 and 16 behind the 1,000,000th step record, with records standing
/// and pages dirty.
#[test]
fn the_end_of_a_long_file() {
    let mut file = standing().file;
    file.resize(8 * 1_000_001, 0);
    let ends = |file: &[u8], last: &str| {
        let text = text(file);
        assert!(text.ends_with(&format!("\n1000000 3 1 1\n{last}most 2\n")));
    };
    ends(&file, "");
    file.extend([0; 7]);
    ends(&file, "1000001 15 1 1\n");
    file.extend([0; 1]);
    ends(&file, "1000001 16 1 1\n");
    file.extend([0; 13]);
    ends(&file, "1000001 16 1 1\n");
}

/// "the largest sum of records and dirty pages on its lines, 0 if all are 0"
#[test]
fn most_is_the_largest_sum() {
    let line = |records, dirty| Line {
        number: 0,
        refusal: 0,
        figures: Figures { records, dirty },
    };
    let most = |lines: &[Line]| Forecast::of(lines.to_vec()).most;
    assert_eq!(most(&[line(0, 0), line(0, 0)]), Some(0));
    assert_eq!(
        most(&[line(3, 0), line(0, 3), line(2, 2), line(1, 0)]),
        Some(4)
    );
    assert_eq!(most(&[]), Some(0));
}
