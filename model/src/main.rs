//! A second model of documents 01 and 02. `model` alone prints what it can do.

#![forbid(unsafe_code)]

mod agree;
mod arrival_judge;
mod batons;
mod blend;
mod case;
mod cases;
mod clock;
mod compare;
mod compare_forecast;
#[cfg(test)]
mod compare_forecast_tests;
#[cfg(test)]
mod compare_tests;
mod coverage;
mod diff;
mod equal_cases;
#[cfg(test)]
mod equal_tests;
mod fault;
mod files;
mod forecast;
mod forecast_check;
mod forecast_lines;
#[cfg(test)]
mod forecast_tests;
mod generate;
mod holder_cases;
#[cfg(test)]
mod holder_tests;
mod in_order;
mod jobs;
mod judge;
mod model;
mod moved;
mod options;
mod plan;
mod program;
mod queue;
mod queue_cases;
mod queue_judge;
#[cfg(test)]
mod queue_judge_tests;
mod queue_refusal_cases;
#[cfg(test)]
mod queue_tests;
mod rng;
mod script;
mod skip;
mod skip_cases;
#[cfg(test)]
mod skip_tests;
mod space;
mod space_cases;
mod space_fault;
mod space_figures;
mod stepfile;
mod sweep;
mod tally_cases;
mod tally_judge;
#[cfg(test)]
mod tally_tests;
#[cfg(test)]
mod tests;
mod triggers;
mod wait_cases;
#[cfg(test)]
mod wait_tests;
mod words_cases;
#[cfg(test)]
mod words_tests;

use compare::Subject;
use options::{number, Options};
use std::env;
use std::fs;
use std::io::{self, Read, Write};
use std::path::Path;
use std::process::ExitCode;

const USAGE: &str = "model run < FILE                      the lines of a step file
model answers < FILE                  refusal, value, count and words of each record
model forecast < FILE                 the forecast of a step file
model judge < FILE                    demand 3, tallies, jobs and words, on the model's own lines
model judge FILE LINES                the same on the lines given
model gen PROFILE SEED STEPS > FILE   a step file
model gen --list                      the profiles
model make-files DIR                  the named files with their lines
model check-files DIR                 runs and compares them
model faults DIR                      the named files under each fault
model sweep SEEDS STEPS               all profiles, run and judged
model sweep-faults SEEDS STEPS        all profiles under each fault
model compare PROGRAM [OPTIONS]       a run program against the model
model compare-forecast PROGRAM [OPTIONS]
                                      a forecast program against the model
model coverage [OPTIONS]              what happens in the files compared on
    options: [DIR] [--files N] [--seed S] [--seconds T], else
    tests/files, 2100 generated files, seeds from 1, 60 s for each run
model change check HEX                0 or the refusal
model change write TWIN COPY ROOM     two pages in hex; the change in hex
model change apply PAGE HEX           a page in hex; words set and the page after
";

fn main() -> ExitCode {
    let args: Vec<String> = env::args().skip(1).collect();
    let args: Vec<&str> = args.iter().map(String::as_str).collect();
    match &args[..] {
        ["compare", program, options @ ..] => compared(Subject::Run, program, options),
        ["compare-forecast", program, options @ ..] => {
            compared(Subject::Forecast, program, options)
        }
        _ => commanded(&args),
    }
}

fn commanded(args: &[&str]) -> ExitCode {
    match command(args) {
        Ok(output) => print_out(&output),
        Err(wrong) => {
            eprintln!("{wrong}");
            ExitCode::FAILURE
        }
    }
}

/// The last line counts the comparisons, also if none could be made.
fn compared(subject: Subject, program: &str, options: &[&str]) -> ExitCode {
    let options = Options::parse(options);
    let program = Path::new(program);
    let tally = options.and_then(|options| compare::compare(subject, program, &options));
    let (passed, failed) = match tally {
        Ok(tally) => (tally.passed, tally.failed),
        Err(wrong) => {
            println!("{}: {wrong}", subject.command());
            (0, 1)
        }
    };
    println!("{passed} passed, {failed} failed");
    if failed == 0 {
        return ExitCode::SUCCESS;
    }
    ExitCode::FAILURE
}

fn print_out(output: &[u8]) -> ExitCode {
    match io::stdout().write_all(output) {
        Ok(()) => ExitCode::SUCCESS,
        Err(_) => ExitCode::FAILURE,
    }
}

fn command(args: &[&str]) -> Result<Vec<u8>, String> {
    let text = match args {
        ["run"] => stepfile::run(&input()?, None).text(),
        ["run", "--fault", name] => run_faulty(name)?,
        ["answers"] => answers(&input()?),
        ["forecast"] => forecast::forecast(&input()?, None).text(),
        ["forecast", "--fault", name] => forecast_faulty(name)?,
        ["judge"] => judge_own(&input()?)?,
        ["judge", file, lines] => judge_given(file, lines)?,
        ["gen", "--list"] => profile_list(),
        ["gen", profile, seed, steps] => return generate_file(profile, seed, steps),
        ["make-files", dir] => files::make_files(Path::new(dir))?,
        ["check-files", dir] => files::check_files(Path::new(dir))?,
        ["faults", dir] => files::fault_table(Path::new(dir))?,
        ["sweep", seeds, steps] => sweep::sweep(number(seeds)?, number(steps)? as usize)?,
        ["sweep-faults", seeds, steps] => {
            sweep::sweep_faults(number(seeds)?, number(steps)? as usize)
        }
        ["coverage", options @ ..] => coverage::coverage(&Options::parse(options)?)?,
        ["change", "check", bytes] => change_line(diff::check(&from_hex(bytes)?), ""),
        ["change", "write", twin, copy, room] => change_write(twin, copy, room)?,
        ["change", "apply", page, bytes] => change_apply(page, bytes)?,
        _ => return Err(USAGE.to_string()),
    };
    Ok(text.into_bytes())
}

fn input() -> Result<Vec<u8>, String> {
    let mut bytes = Vec::new();
    let read = io::stdin().lock().read_to_end(&mut bytes);
    read.map_err(|e| e.to_string())?;
    Ok(bytes)
}

fn run_faulty(name: &str) -> Result<String, String> {
    let fault = fault::by_name(name).ok_or(format!("no fault {name}"))?;
    Ok(stepfile::run(&input()?, Some(fault)).text())
}

fn forecast_faulty(name: &str) -> Result<String, String> {
    let fault = space_fault::by_name(name).ok_or(format!("no fault {name}"))?;
    Ok(forecast::forecast(&input()?, Some(fault)).text())
}

/// What a run through the library answers: four numbers for each line that a
/// record of the file has. The refusals 15 and 16 are the run program's.
fn answers(file: &[u8]) -> String {
    let answers = stepfile::run_watched(file, None, &mut |_, _| {});
    let of_records = answers.iter().filter(|a| !matches!(a.refusal, 15 | 16));
    of_records.map(model::Answer::text).collect()
}

fn judge_own(file: &[u8]) -> Result<String, String> {
    report(file, &stepfile::run(file, None))
}

fn judge_given(file: &str, lines: &str) -> Result<String, String> {
    let file = fs::read(file).map_err(|e| format!("{file}: {e}"))?;
    let text = fs::read_to_string(lines).map_err(|e| format!("{lines}: {e}"))?;
    let printed = stepfile::Printed::parse(&text).ok_or("the lines cannot be read")?;
    report(&file, &printed)
}

/// Good news on standard output; broken reads as an error.
fn report(file: &[u8], printed: &stepfile::Printed) -> Result<String, String> {
    let found = judge::judge(file, printed)?;
    let mut text = format!(
        "{} accepted steps, {} reads, {} under the strong half ({} written before), {} of tallies, {} dequeues, {} broken\n",
        found.accepted,
        found.reads,
        found.strong,
        found.strong_written,
        found.tally_reads,
        found.dequeues,
        found.broken.len()
    );
    for broken in &found.broken {
        text.push_str(&broken.text());
        text.push('\n');
    }
    if found.broken.is_empty() {
        Ok(text)
    } else {
        Err(text)
    }
}

fn profile_list() -> String {
    let lines = generate::PROFILES.iter().map(|name| format!("{name}\n"));
    lines.collect()
}

fn generate_file(profile: &str, seed: &str, steps: &str) -> Result<Vec<u8>, String> {
    let file = generate::generate(profile, number(seed)?, number(steps)? as usize);
    file.ok_or(format!("no profile {profile}"))
}

// Changes as bytes, for comparisons from outside.

/// The refusal or 0, then the result.
fn change_line(done: Result<(), u32>, result: &str) -> String {
    match done {
        Ok(()) => format!("0 {result}").trim_end().to_string() + "\n",
        Err(refusal) => format!("{refusal}\n"),
    }
}

fn change_write(twin: &str, copy: &str, room: &str) -> Result<String, String> {
    let (twin, copy) = (page_from_hex(twin)?, page_from_hex(copy)?);
    let mut dest = vec![0; number(room)? as usize];
    let written = diff::write(&twin, &copy, &mut dest);
    dest.truncate(written.unwrap_or(0));
    Ok(change_line(written.map(|_| ()), &to_hex(&dest)))
}

fn change_apply(page: &str, bytes: &str) -> Result<String, String> {
    let mut page = page_from_hex(page)?;
    let done = diff::apply(&mut page, &from_hex(bytes)?);
    let after: Vec<u8> = page.iter().flat_map(|word| word.to_le_bytes()).collect();
    let result = format!("{} {}", done.unwrap_or(0), to_hex(&after));
    Ok(change_line(done.map(|_| ()), &result))
}

fn from_hex(text: &str) -> Result<Vec<u8>, String> {
    let wrong = |_| format!("{text} is no hex");
    let pairs = text.as_bytes().chunks(2);
    let byte = |two: &[u8]| u8::from_str_radix(&String::from_utf8_lossy(two), 16);
    pairs.map(|two| byte(two).map_err(wrong)).collect()
}

fn to_hex(bytes: &[u8]) -> String {
    bytes.iter().map(|byte| format!("{byte:02x}")).collect()
}

/// A page as its words, four bytes each, low byte first.
fn page_from_hex(text: &str) -> Result<Vec<u32>, String> {
    let bytes = from_hex(text)?;
    let word = |four: &[u8]| Some(u32::from_le_bytes(four.try_into().ok()?));
    let words: Option<Vec<u32>> = bytes.chunks(4).map(word).collect();
    words.ok_or("a page is whole words".to_string())
}
