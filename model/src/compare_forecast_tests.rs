//! Tests of the comparison with a forecast (document 02, request L8): what its
//! files cover, and that it finds each fault.

use crate::case::{acquire, arrive, release, want, Case};
use crate::cases::all_cases;
use crate::compare::{Comparison, Subject};
use crate::compare_forecast::forecast_checks;
use crate::compare_tests::Room;
use crate::forecast::forecast;
use crate::forecast_check::without_values;
use crate::forecast_lines::{Forecast, Line};
use crate::options::Options;
use crate::plan::{generated, plan, space_ends, Source};
use crate::program::{Ending, Ran};
use crate::space_fault::{by_name, SpaceFault, SPACE_FAULTS};
use crate::tests::case;
use std::fs;
use std::path::Path;

/// Some of the ends stop at 15, and one at 16, with both figures above 0; those
/// of 15, 16 and 17 bytes are within the first step, behind it, within the second.
#[test]
fn the_ends_have_figures() {
    let last = |recipe| {
        let file = Source::End(recipe).bytes().expect("bytes");
        forecast(&file, None).lines.pop().expect("a line")
    };
    let ends: Vec<Line> = space_ends(1).into_iter().map(last).collect();
    let above = |line: &&Line| line.figures.records > 0 && line.figures.dirty > 0;
    let stops = |refusal| ends.iter().filter(move |line| line.refusal == refusal);
    assert_eq!((stops(15).count(), stops(16).count()), (15, 1));
    assert!(stops(15).filter(above).count() >= 7);
    assert_eq!(stops(16).filter(above).count(), 1);
    let short = [(1, 15), (1, 0), (2, 15)];
    let found = [6, 7, 8].map(|at| (ends[at].number, ends[at].refusal));
    assert_eq!(found, short);
}

/// Space is used up and given back.
#[test]
fn the_generated_files_use_all_space() {
    let (mut full, mut nines, mut tens, mut freed) = (0, 0, 0, 0);
    for recipe in generated(400, 1) {
        let file = Source::Generated(recipe).bytes().expect("bytes");
        let Forecast { lines, most } = forecast(&file, None);
        let has = |refusal| lines.iter().any(|line| line.refusal == refusal);
        let falls = |two: &[Line]| two[0].figures.records > 100 && two[1].figures.sum() == 0;
        full += usize::from(most == Some(128));
        nines += usize::from(has(9));
        tens += usize::from(has(10));
        freed += usize::from(lines.windows(2).any(falls));
        assert!(most <= Some(128));
    }
    assert!(full > 20 && nines > 20 && tens > 20 && freed > 20);
}

/// What a program with this fault prints.
fn ran(file: &[u8], fault: Option<SpaceFault>) -> Ran {
    Ran {
        output: forecast(file, fault).text().into_bytes(),
        ending: Ending::Well,
    }
}

/// Whether the comparison finds something wrong with such a program on a file.
fn is_found(source: &Source, file: &[u8], fault: Option<SpaceFault>) -> bool {
    let due = forecast(file, None).text().into_bytes();
    let (ran, bare) = (ran(file, fault), ran(&without_values(file), fault));
    let checks = forecast_checks(source, file, &due, [&ran, &bare]);
    !checks.wrong.is_empty()
}

/// By the named files that have a forecast, and by a part of the generated ones
/// and of the ends.
#[test]
fn each_fault_is_found() {
    let named: Vec<Vec<u8>> = all_cases()
        .into_iter()
        .filter(|case| case.forecast().is_some())
        .map(|case| case.file)
        .collect();
    let generated = generated(120, 1).into_iter().map(Source::Generated);
    let ends = space_ends(1).into_iter().take(16).map(Source::End);
    let sources: Vec<Source> = generated.chain(ends).collect();
    let files: Vec<Vec<u8>> = sources
        .iter()
        .map(|source| source.bytes().expect("bytes"))
        .collect();
    for (name, fault) in SPACE_FAULTS {
        let shows = |file: &Vec<u8>| forecast(file, None) != forecast(file, Some(fault));
        assert!(named.iter().any(shows), "{name} in no named file");
        let mut pairs = sources.iter().zip(&files);
        let found = pairs.any(|(source, file)| is_found(source, file, Some(fault)));
        assert!(found, "{name} in no generated file");
    }
    let mut pairs = sources.iter().zip(&files);
    assert!(!pairs.any(|(source, file)| is_found(source, file, None)));
    assert_eq!(by_name("close-one"), Some(SpaceFault::CloseOne));
    assert_eq!(by_name("no-fault"), None);
}

/// A program that depends on a value is found by the files without values, though
/// it prints what is due.
#[test]
fn a_program_that_looks_at_values_is_found() {
    let file = case("case-n").file;
    let source = Source::Generated(generated(1, 1)[0]);
    let due = forecast(&file, None).text().into_bytes();
    let (right, other) = (ran(&file, None), ran(&file, by_name("close-clean")));
    let checks = forecast_checks(&source, &file, &due, [&right, &other]);
    let by: Vec<&str> = checks.wrong.iter().map(|(by, _)| *by).collect();
    assert_eq!((checks.passed, by), (2, vec!["without values"]));
}

/// A directory with two step files, one of them with a forecast, and a program
/// that knows that by heart.
#[test]
fn a_comparison_counts_and_keeps() {
    let room = Room::new("forecasts");
    let mut without = Case::open("without", [1, 1, 1], "");
    without.ok(&[want(1), arrive(1), acquire(1, 0), release(1, 0)]);
    let listing_a = case("listing-a");
    let put = |name: &str, bytes: &[u8]| fs::write(room.0.join(name), bytes).expect("a file");
    let due = listing_a.forecast().expect("figures").text();
    put("listing-a.steps", &listing_a.file);
    put("listing-a.forecast", due.as_bytes());
    put("without.steps", &without.file);
    let mut files = plan(&room.0, 0, 1).expect("a plan");
    files.truncate(2);
    let kept = room.0.join("kept");
    let count = |program: &Path| {
        let options = Options::usual();
        let comparison = Comparison::new(Subject::Forecast, program, &options, &kept);
        let tally = comparison.expect("a comparison").over(&files);
        (tally.passed, tally.failed)
    };
    let knowing = room.script(&format!("cat {}/listing-a.forecast", room.0.display()));
    assert_eq!(count(&knowing), (5, 2));
    assert!(kept.join("without.due").exists() && !kept.join("listing-a.due").exists());
    assert_eq!(count(Path::new("/nowhere/program")), (0, 7));
}
