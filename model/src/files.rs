//! `make-files DIR`, `check-files DIR` and `faults DIR`.

use crate::agree::first_difference as first_in_bytes;
use crate::case::Case;
use crate::cases::all_cases;
use crate::fault::{Fault, FAULTS};
use crate::forecast::forecast;
use crate::judge::judge;
use crate::stepfile::{run, Printed};
use std::fs;
use std::path::{Path, PathBuf};

/// Writes NAME.steps, NAME.lines, NAME.forecast where it is set down, and
/// README.md.
pub fn make_files(dir: &Path) -> Result<String, String> {
    let cases = all_cases();
    for case in &cases {
        write_case(dir, case)?;
    }
    put(&dir.join("README.md"), readme(&cases).as_bytes())?;
    Ok(format!("{} files made\n", cases.len()))
}

fn write_case(dir: &Path, case: &Case) -> Result<(), String> {
    let due = case.printed();
    if let Some(wrong) = first_difference(&due, &run(&case.file, None)) {
        return Err(format!("{}: {wrong}", case.name));
    }
    put(&dir.join(format!("{}.steps", case.name)), &case.file)?;
    let lines = due.text();
    put(&dir.join(format!("{}.lines", case.name)), lines.as_bytes())?;
    write_forecast(dir, case)
}

fn write_forecast(dir: &Path, case: &Case) -> Result<(), String> {
    let Some(due) = case.forecast() else {
        return Ok(());
    };
    let due = due.text();
    let found = forecast(&case.file, None).text();
    match first_in_bytes(due.as_bytes(), found.as_bytes()) {
        Some(wrong) => Err(format!("{}, its forecast: {wrong}", case.name)),
        None => put(&dir.join(format!("{}.forecast", case.name)), due.as_bytes()),
    }
}

fn put(path: &Path, bytes: &[u8]) -> Result<(), String> {
    fs::write(path, bytes).map_err(|e| format!("{}: {e}", path.display()))
}

fn readme(cases: &[Case]) -> String {
    let mut text = README_HEAD.to_string();
    for case in cases {
        text.push_str(&format!("- `{}`: {}\n", case.name, case.shows));
    }
    text.push_str(README_TAIL);
    text
}

const README_HEAD: &str = "# Step files and their lines

NAME.steps is a step file, NAME.lines what the run program prints for it,
NAME.forecast what the forecast prints, where it is stored, NAME.txt the file in
words. The last line of a run, `words` and a total, is there unless the run
stopped at 2, 15 or 16; that of a forecast, `most` and a number, always. The
texts are written by `tests/steps/store`, the others by `model make-files`; each
line was set down by hand from documents 01 and 02 (model/src/cases.rs,
wait_cases.rs, equal_cases.rs, tally_cases.rs, skip_cases.rs, words_cases.rs,
holder_cases.rs, space_cases.rs, queue_cases.rs, queue_refusal_cases.rs, and
space_figures.rs for the forecasts) and agrees with the second model.

";

const README_TAIL: &str = "
## Not stored

Refusal 16 needs more than a million step records. `model gen mixed 1 1000001`
writes such a file: an opening, 1,000,000 step records and one whole record
more. Its last two lines are those of records 1000000 (an answer) and
1000001, `1000001 16 0 0`. With `model gen mixed 1 1000000` the last two lines
are that of record 1000000 and the words set. With one to seven bytes after that
file it ends within a record and the last line is `1000001 15 0 0`. The forecast
has the same numbers and refusals there, each with the figures of record 1000000,
and ends with `most`. `model compare PROGRAM` and `model compare-forecast PROGRAM`
run such files, and those cut at each byte of the opening and of a record, beside
the files here.
";

/// The first line in which two runs differ, in words.
pub fn first_difference(due: &Printed, found: &Printed) -> Option<String> {
    let (due, found) = (due.texts(), found.texts());
    let longest = due.len().max(found.len());
    let at = (0..longest).find(|n| due.get(*n) != found.get(*n))?;
    let text = |lines: &[String]| lines.get(at).cloned().unwrap_or("no line".to_string());
    Some(format!("{} became {}", text(&due), text(&found)))
}

/// A step file: its name, its bytes and its stored lines.
type Stored = (String, Vec<u8>, Printed);

/// The files of a directory with this ending, by name.
fn with_ending(dir: &Path, ending: &str) -> Result<Vec<PathBuf>, String> {
    let list = fs::read_dir(dir).map_err(|e| format!("{}: {e}", dir.display()))?;
    let mut paths: Vec<PathBuf> = list.flatten().map(|entry| entry.path()).collect();
    paths.retain(|path| path.extension().is_some_and(|e| e == ending));
    paths.sort();
    Ok(paths)
}

/// The step files of a directory, with their lines.
fn stored(dir: &Path) -> Result<Vec<Stored>, String> {
    let paths = with_ending(dir, "steps")?;
    paths.iter().map(|path| stored_one(path)).collect()
}

fn stored_one(steps: &Path) -> Result<Stored, String> {
    let name = steps.file_stem().unwrap_or_default().to_string_lossy();
    let file = fs::read(steps).map_err(|e| format!("{name}: {e}"))?;
    let lines = fs::read_to_string(steps.with_extension("lines"));
    let lines = lines.map_err(|e| format!("{name}: {e}"))?;
    let lines = Printed::parse(&lines).ok_or(format!("{name}: lines cannot be read"))?;
    Ok((name.to_string(), file, lines))
}

/// Runs each stored file and compares; judges the stored lines too, and compares
/// the forecasts.
pub fn check_files(dir: &Path) -> Result<String, String> {
    let files = stored(dir)?;
    for (name, file, lines) in &files {
        if let Some(wrong) = first_difference(lines, &run(file, None)) {
            return Err(format!("{name}: {wrong}"));
        }
        let verdict = judge(file, lines).map_err(|e| format!("{name}: {e}"))?;
        if let Some(broken) = verdict.broken.first() {
            return Err(format!("{name}: {}", broken.text()));
        }
    }
    let forecasts = check_forecasts(dir)?;
    let files = files.len();
    Ok(format!("{files} files agree, and {forecasts} forecasts\n"))
}

/// How many forecasts there are. Each stands beside its step file.
fn check_forecasts(dir: &Path) -> Result<usize, String> {
    let paths = with_ending(dir, "forecast")?;
    for path in &paths {
        let read = |path: &Path| fs::read(path).map_err(|e| format!("{}: {e}", path.display()));
        let (due, file) = (read(path)?, read(&path.with_extension("steps"))?);
        let found = forecast(&file, None).text();
        if let Some(wrong) = first_in_bytes(&due, found.as_bytes()) {
            return Err(format!("{}: {wrong}", path.display()));
        }
    }
    Ok(paths.len())
}

/// What a fault does to a file: nothing, other lines, or lines that break
/// demand 3, or what is due of tallies and jobs, as well.
pub fn effect(file: &[u8], right: &Printed, fault: Fault) -> &'static str {
    let faulty = run(file, Some(fault));
    let broken = judge(file, &faulty).is_ok_and(|verdict| !verdict.broken.is_empty());
    match (faulty == *right, broken) {
        (true, _) => ".",
        (false, false) => "lines",
        (false, true) => "judge",
    }
}

/// The table of files and faults, then the first lines that differ.
pub fn fault_table(dir: &Path) -> Result<String, String> {
    let files = stored(dir)?;
    let mut table = format!("{:<28}", "file");
    for (name, _) in FAULTS {
        table.push_str(&format!(" {name:>11}"));
    }
    table.push('\n');
    for (name, file, right) in &files {
        let row: Vec<_> = FAULTS.map(|(_, f)| effect(file, right, f)).to_vec();
        if row.iter().any(|cell| *cell != ".") {
            table.push_str(&format!("{name:<28}"));
            row.iter()
                .for_each(|cell| table.push_str(&format!(" {cell:>11}")));
            table.push('\n');
        }
    }
    table.push_str(FAULT_KEY);
    table.push_str(&fault_details(&files));
    Ok(table)
}

const FAULT_KEY: &str = "
.      the lines are the right ones
lines  the lines differ
judge  the lines differ and break demand 3 or what is due of tallies and jobs

";

fn fault_details(files: &[Stored]) -> String {
    let mut text = String::new();
    for (fault_name, fault) in FAULTS {
        for (name, file, right) in files {
            if let Some(wrong) = first_difference(right, &run(file, Some(fault))) {
                text.push_str(&format!("{fault_name:<11} {name:<28} {wrong}\n"));
            }
        }
    }
    text
}
