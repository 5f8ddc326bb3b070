//! `model compare PROGRAM`: what a run program prints against the model's
//! lines, byte for byte, and the judge over what it prints. What is asked of a
//! forecast program is in `compare_forecast.rs`.

use crate::agree::{agrees, agrees_with_stored, judged};
use crate::options::Options;
use crate::plan::{plan, space_plan, Source};
use crate::program::{run, Input, Limits, Ran};
use crate::stepfile;
use std::fs;
use std::io;
use std::path::{Path, PathBuf};
use std::sync::atomic::{AtomicUsize, Ordering};
use std::sync::{Mutex, MutexGuard, PoisonError};
use std::thread;
use std::time::Instant;

/// At most so many files are reported and kept.
const MOST_REPORTS: usize = 10;
/// After so many runs that did not start or did not end in time the program
/// is not run again, and what is left has failed. The three files of a million
/// steps alone do not come to that; the fourth, of a forecast, is the last file.
const MOST_HOPELESS: usize = 4;
/// How many files are tried at the same time.
const WORKERS: usize = 2;
/// How many bytes more than due a program may print before it is stopped.
pub const SURPLUS: usize = 1 << 16;
/// Bytes at a time for a file that is fed in pieces: records are torn apart
/// at each of their bytes.
const PIECE: usize = 13;

/// Which program is tried.
#[derive(Clone, Copy)]
pub enum Subject {
    Run,
    Forecast,
}

impl Subject {
    /// The command that tries it.
    pub fn command(self) -> &'static str {
        match self {
            Subject::Run => "compare",
            Subject::Forecast => "compare-forecast",
        }
    }

    fn plan(self, options: &Options) -> Result<Vec<Source>, String> {
        let Options {
            dir, files, seed, ..
        } = options;
        match self {
            Subject::Run => plan(dir, *files, *seed),
            Subject::Forecast => space_plan(dir, *files, *seed),
        }
    }

    /// How many checks a file has.
    fn checks(self, source: &Source) -> usize {
        match self {
            Subject::Run => 2 + usize::from(source.lines().is_some()),
            Subject::Forecast => 3 + usize::from(source.forecast().is_some()),
        }
    }
}

/// Each comparison and each judged file counts as one.
#[derive(Clone, Copy, Default)]
pub struct Tally {
    pub passed: usize,
    pub failed: usize,
    reported: usize,
}

/// What came of one file: how many checks passed, and by which others what
/// is wrong.
#[derive(Default)]
pub struct Checks {
    pub passed: usize,
    pub wrong: Vec<(&'static str, String)>,
}

impl Checks {
    pub fn add(&mut self, by: &'static str, result: Result<(), String>) {
        match result {
            Ok(()) => self.passed += 1,
            Err(wrong) => self.wrong.push((by, wrong)),
        }
    }

    fn print(&self) {
        let mut before = "";
        for (by, wrong) in &self.wrong {
            let text = if wrong == before { "the same" } else { wrong };
            println!("  {by}: {text}");
            before = wrong;
        }
    }
}

/// A file, the lines due and what was printed, with their endings.
pub type Texts<'a> = [(&'static str, &'a [u8]); 3];

pub struct Comparison<'a> {
    subject: Subject,
    program: &'a Path,
    options: &'a Options,
    /// Where the files with a difference are kept.
    keep: PathBuf,
    /// Runs that did not start or did not end in time.
    hopeless: AtomicUsize,
    tally: Mutex<Tally>,
}

/// Compares on all files of the plan; reports are printed on the way.
pub fn compare(subject: Subject, program: &Path, options: &Options) -> Result<Tally, String> {
    let begun = Instant::now();
    let plan = subject.plan(options)?;
    let command = subject.command();
    let keep = Path::new("target").join(command);
    let comparison = Comparison::new(subject, program, options, &keep)?;
    let tally = comparison.over(&plan);
    if comparison.given_up() {
        println!("{command}: given up after {MOST_HOPELESS} runs that did not start or end");
    }
    let seconds = begun.elapsed().as_secs_f32();
    let (program, files) = (program.display(), plan.len());
    println!("{command}: {program} on {files} files in {seconds:.1} s");
    Ok(tally)
}

impl<'a> Comparison<'a> {
    /// Files that an earlier comparison kept go.
    pub fn new(
        subject: Subject,
        program: &'a Path,
        options: &'a Options,
        keep: &Path,
    ) -> Result<Self, String> {
        match fs::remove_dir_all(keep) {
            Err(e) if e.kind() != io::ErrorKind::NotFound => {
                return Err(format!("{}: {e}", keep.display()));
            }
            _ => {}
        }
        Ok(Comparison {
            subject,
            program,
            options,
            keep: keep.to_path_buf(),
            hopeless: AtomicUsize::new(0),
            tally: Mutex::default(),
        })
    }

    /// The workers take the files of the plan one after another.
    pub fn over(&self, plan: &[Source]) -> Tally {
        let next = AtomicUsize::new(0);
        let work = || {
            while let Some(source) = plan.get(next.fetch_add(1, Ordering::Relaxed)) {
                self.take(source);
            }
        };
        thread::scope(|scope| {
            for _ in 0..WORKERS {
                scope.spawn(work);
            }
        });
        *self.tally()
    }

    fn tally(&self) -> MutexGuard<'_, Tally> {
        self.tally.lock().unwrap_or_else(PoisonError::into_inner)
    }

    fn given_up(&self) -> bool {
        self.hopeless.load(Ordering::Relaxed) >= MOST_HOPELESS
    }

    fn take(&self, source: &Source) {
        if self.given_up() {
            self.tally().failed += self.subject.checks(source);
            return;
        }
        match (source.bytes(), self.subject) {
            (Ok(file), Subject::Run) => self.try_run(source, &file),
            (Ok(file), Subject::Forecast) => self.try_forecast(source, &file),
            (Err(wrong), _) => {
                let mut checks = Checks::default();
                checks.add("the file", Err(wrong));
                self.count(source, checks, None);
            }
        }
    }

    fn try_run(&self, source: &Source, file: &[u8]) {
        let due = stepfile::run(file, None).text().into_bytes();
        let ran = self.run(input(source, file), due.len() + SURPLUS);
        let mut checks = Checks::default();
        if let Some(stored) = source.lines() {
            checks.add("by its .lines", agrees_with_stored(&stored, &ran));
        }
        checks.add("by the model", agrees(&due, &ran));
        checks.add("by the judge", judged(file, &ran));
        let texts = [("steps", file), ("due", &due), ("printed", &ran.output)];
        self.count(source, checks, Some(texts));
    }

    pub fn run(&self, input: Input, most: usize) -> Ran {
        let limits = Limits {
            output: most,
            time: self.options.patience,
        };
        let ran = run(self.program, input, limits);
        if ran.ending.is_hopeless() {
            self.hopeless.fetch_add(1, Ordering::Relaxed);
        }
        ran
    }

    /// Counts a file's checks; reports and keeps it if one of them failed.
    pub fn count(&self, source: &Source, checks: Checks, texts: Option<Texts>) {
        let mut tally = self.tally();
        tally.passed += checks.passed;
        tally.failed += checks.wrong.len();
        if checks.wrong.is_empty() || tally.reported == MOST_REPORTS {
            return;
        }
        tally.reported += 1;
        println!("{}: {}", self.subject.command(), source.name());
        checks.print();
        if let Some(texts) = texts {
            println!("  {}", self.keep_texts(&source.stem(), texts));
        }
    }

    /// Writes STEM.steps, STEM.due and STEM.printed, and says where.
    fn keep_texts(&self, stem: &str, texts: Texts) -> String {
        let write = || {
            fs::create_dir_all(&self.keep)?;
            texts.iter().try_for_each(|(end, bytes)| {
                fs::write(self.keep.join(format!("{stem}.{end}")), bytes)
            })
        };
        let path = self.keep.join(stem);
        match write() {
            Ok(()) => format!("kept as {}.steps, .due, .printed", path.display()),
            Err(e) => format!("cannot be kept as {}: {e}", path.display()),
        }
    }
}

/// Named files as files; of the others every second one in small pieces, so
/// that a program which takes a short read for the end of the file is found.
pub fn input<'a>(source: &'a Source, file: &'a [u8]) -> Input<'a> {
    let piece = match source {
        Source::Named(path) => return Input::File(path),
        Source::Generated(recipe) if recipe.seed % 2 == 1 => PIECE,
        _ => file.len().max(1),
    };
    Input::Pipe { bytes: file, piece }
}
