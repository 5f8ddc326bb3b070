//! The test of the static library, run from the repository's root: `tests/library/build && target/library-test`.
//! Each check counts; the last line is `N passed, M failed`, and the exit status is 0 only if M is 0.

mod closing;
mod damage;
mod diffs;
mod fetching;
mod files;
mod header;
mod library;
mod lines;
mod openings;
mod queue;
mod runs;
mod steps;
mod tallies;

use std::process::ExitCode;

/// How many checks passed and failed.
pub struct Tally {
    passed: u32,
    failed: u32,
}

impl Tally {
    /// Counts a check, and says which it is if it fails.
    pub fn check(&mut self, name: &str, holds: bool) {
        if holds {
            self.passed += 1;
        } else {
            self.failed += 1;
            println!("failed: {name}");
        }
    }
}

fn main() -> ExitCode {
    let mut tally = Tally {
        passed: 0,
        failed: 0,
    };
    header::check(&mut tally);
    files::check(&mut tally);
    openings::check(&mut tally);
    runs::check(&mut tally);
    let reached = steps::reached(&mut tally);
    steps::check(&mut tally, &reached);
    lines::check(&mut tally, &reached);
    closing::check(&mut tally);
    fetching::check(&mut tally);
    tallies::check(&mut tally, &reached);
    queue::check(&mut tally, &reached);
    damage::check(&mut tally, &reached);
    diffs::check(&mut tally);
    println!("{} passed, {} failed", tally.passed, tally.failed);
    if tally.failed == 0 {
        ExitCode::SUCCESS
    } else {
        ExitCode::FAILURE
    }
}
