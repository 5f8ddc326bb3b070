//! A fuzz driver over the static library: `fuzz [--full] [--cases N]
//! [--seed N]`.
//! States of random runs and states made at random, then damaged; steps and
//! openings with any fields; areas of any sizes. The last line is
//! `N passed, M failed`.

mod answers;
mod areas;
mod checks;
mod closing;
mod damage;
mod fetching;
#[path = "../../bench/library.rs"]
mod library;
mod made;
mod order;
mod queue;
mod random;
mod shapes;
mod state;
mod steps;
mod tallies;

use areas::{Areas, LENGTHS};
use checks::{check_opening, check_order, check_short_answer, check_step, Met};
use random::Random;
use shapes::{any_lengths, any_opening, fair_opening, resized};
use state::State;
use std::env;
use std::process::ExitCode;
use steps::{any_habits, any_step, Habits};

const CASES: u64 = 200_000;
const FULL: u64 = 10_000_000;
/// Failures shown in words.
const SHOWN: u64 = 10;
/// Steps that a run goes on in which nobody acts.
const STUCK: usize = 20;

fn main() -> ExitCode {
    let args: Vec<String> = env::args().skip(1).collect();
    let Some((cases, seed)) = options(&args) else {
        eprintln!("fuzz [--full] [--cases N] [--seed N]");
        println!("0 passed, 1 failed");
        return ExitCode::FAILURE;
    };
    println!("fuzz: {cases} cases, seed {seed}");
    let mut fuzz = Fuzz::new(seed);
    let mut failed = 0;
    for case in 0..cases {
        if let Err(wrong) = fuzz.case() {
            failed += 1;
            if failed <= SHOWN {
                println!("case {case}: {wrong}");
            }
            fuzz.reopen();
        }
    }
    report(&fuzz.met);
    println!("{} passed, {failed} failed", cases - failed);
    match failed {
        0 => ExitCode::SUCCESS,
        _ => ExitCode::FAILURE,
    }
}

/// How many cases, and the seed.
fn options(args: &[String]) -> Option<(u64, u64)> {
    let (mut cases, mut seed) = (CASES, 1);
    let mut args = args.iter();
    while let Some(name) = args.next() {
        match name.as_str() {
            "--full" => cases = FULL,
            "--cases" => cases = args.next()?.parse().ok()?,
            "--seed" => seed = args.next()?.parse().ok()?,
            _ => return None,
        }
    }
    Some((cases, seed))
}

fn report(met: &Met) {
    let refusals = met.refusals.iter().enumerate();
    let refusals = refusals.filter(|(_, times)| **times > 0);
    let refusals: Vec<String> = refusals.map(|(n, times)| format!("{n}:{times}")).collect();
    println!("steps by refusal: {}", refusals.join(" "));
    println!("locks: {} waits, {} grants", met.waits, met.grants);
    println!("pages closed: {}, {} of them equal", met.closed, met.equal);
    println!(
        "fetches with records pending: {}, {} of them skip all; {} in collections",
        met.fetches, met.all_skipped, met.collected
    );
    println!(
        "records: {} applied, of {} words, {} skipped",
        met.applied, met.words, met.skipped
    );
    println!(
        "tallies: {} adds, {} reads, {} totals posted to, {} of them wrapped",
        met.adds, met.looks, met.posted, met.wrapped
    );
    println!(
        "queue: {} enqueues, {} of them fill it, {} dequeues, {} of them pass its end",
        met.enqueues, met.filled, met.dequeues, met.around
    );
    println!(
        "order asked: {} in order, {} not",
        met.in_order, met.out_of_order
    );
    println!("states that break one clause alone:");
    for ((name, _), times) in order::CLAUSES.iter().zip(met.alone) {
        println!("  {times:>9}  {name}");
    }
}

struct Fuzz {
    random: Random,
    /// The state of the run that goes on from case to case.
    run: Areas,
    habits: Habits,
    /// Steps until the run is opened anew.
    left: usize,
    /// Room for a copy to damage, and for the bytes before a call.
    other: Areas,
    before: Areas,
    met: Met,
}

impl Fuzz {
    fn new(seed: u64) -> Fuzz {
        let mut random = Random::new(seed);
        let habits = any_habits(&mut random);
        Fuzz {
            random,
            run: Areas::zeros(LENGTHS),
            habits,
            left: 0,
            other: Areas::zeros(LENGTHS),
            before: Areas::zeros(LENGTHS),
            met: Met::default(),
        }
    }

    fn case(&mut self) -> Result<(), String> {
        if self.left == 0 {
            self.reopen();
        }
        match self.random.below(100) {
            0..=44 => self.run_on(),
            45..=69 => self.damaged_run(),
            70..=89 => self.made_state(),
            90..=93 => self.wrong_sizes(),
            94..=95 => self.short_answer(),
            _ => self.opening(),
        }
    }

    /// A new run, from an opening with any counts.
    fn reopen(&mut self) {
        let opening = fair_opening(&mut self.random);
        self.run = Areas::zeros(LENGTHS);
        library::open(&opening, self.run.lend());
        self.begin();
    }

    fn begin(&mut self) {
        self.habits = any_habits(&mut self.random);
        self.left = self.random.within(50, 2500);
    }

    /// The run's next step.
    fn run_on(&mut self) -> Result<(), String> {
        if State(self.run.shown()).hangs() {
            self.left = self.left.min(STUCK);
        }
        self.left -= 1;
        let step = any_step(&mut self.random, State(self.run.shown()), self.habits);
        let Fuzz {
            random,
            run,
            before,
            met,
            ..
        } = self;
        check_step(random, run, before, step, met)
    }

    /// The run's state, or one just opened, with some damage. If it is still
    /// in order, the run may go on from there.
    fn damaged_run(&mut self) -> Result<(), String> {
        if self.random.percent(10) {
            let opening = fair_opening(&mut self.random);
            library::open(&opening, self.other.lend());
        } else {
            self.other.copy_from(&self.run);
        }
        self.damage_and_step()?;
        if self.random.percent(5) {
            self.go_on_from_other()?;
        }
        Ok(())
    }

    /// A state made at random, as it is or damaged.
    fn made_state(&mut self) -> Result<(), String> {
        made::make(&mut self.random, &mut self.other);
        if !check_order(&self.other, &mut self.met)? {
            return Err("a state made in order is not".to_string());
        }
        if self.random.percent(70) {
            self.damage_and_step()
        } else {
            self.step_other()?;
            if self.random.percent(5) {
                self.go_on_from_other()?;
            }
            Ok(())
        }
    }

    fn damage_and_step(&mut self) -> Result<(), String> {
        let places = self.random.pick(&[1, 1, 1, 1, 2, 3, 8]);
        for _ in 0..places {
            damage::damage(&mut self.random, &mut self.other);
        }
        self.step_other()
    }

    fn step_other(&mut self) -> Result<(), String> {
        let habits = any_habits(&mut self.random);
        let step = any_step(&mut self.random, State(self.other.shown()), habits);
        let Fuzz {
            random,
            other,
            before,
            met,
            ..
        } = self;
        check_step(random, other, before, step, met)
    }

    fn go_on_from_other(&mut self) -> Result<(), String> {
        if check_order(&self.other, &mut self.met)? {
            self.run.copy_from(&self.other);
            self.begin();
        }
        Ok(())
    }

    /// The run's state cut or lengthened to other sizes.
    fn wrong_sizes(&mut self) -> Result<(), String> {
        let lengths = any_lengths(&mut self.random);
        let mut areas = resized(&mut self.random, &self.run, lengths);
        let step = any_step(&mut self.random, State(self.run.shown()), self.habits);
        let Fuzz {
            random,
            before,
            met,
            ..
        } = self;
        check_step(random, &mut areas, before, step, met)?;
        let opening = any_opening(random);
        check_opening(&opening, &mut areas, before)
    }

    fn short_answer(&mut self) -> Result<(), String> {
        let step = any_step(&mut self.random, State(self.run.shown()), self.habits);
        let Fuzz {
            random,
            run,
            before,
            ..
        } = self;
        check_short_answer(random, run, before, step)
    }

    /// An opening on noise.
    fn opening(&mut self) -> Result<(), String> {
        let Fuzz {
            random,
            other,
            before,
            ..
        } = self;
        let opening = any_opening(random);
        random.fill(other.clocks.part_mut());
        random.fill_words(other.words.part_mut());
        random.fill(other.records.part_mut());
        random.fill(other.marks.part_mut());
        check_opening(&opening, other, before)
    }
}
