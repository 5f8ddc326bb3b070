//! The benchmark of the programs: `bench RUN FORECAST MODEL FLOOR DIR`. Makes
//! the step files in DIR, checks that RUN and FORECAST print what MODEL does,
//! runs RUN, FORECAST, MODEL and FLOOR in turn on each, and prints the table.

#![forbid(unsafe_code)]

mod content;
mod table;

use content::{same, Content};
use std::env;
use std::fs::{self, File};
use std::path::{Path, PathBuf};
use std::process::{Command, ExitCode, Stdio};
use std::time::{Duration, Instant};
use table::{head, row, Times};

const STEPS: &str = "1000000";
const ROUNDS: usize = 5;

/// A step file: a profile of the model's generator, its seed, and how many
/// times the floor's time the run program may take on it.
pub struct Case {
    profile: &'static str,
    seed: &'static str,
    most: f64,
}

const fn case(profile: &'static str, seed: &'static str, most: f64) -> Case {
    Case {
        profile,
        seed,
        most,
    }
}

const CASES: [Case; 7] = [
    case("mixed", "1", 6.0),
    case("locks", "1", 4.0),
    case("rounds", "1", 4.0),
    case("chains", "4", 4.0),
    case("soak", "1", 6.0),
    case("quiet", "1", 6.0),
    case("jobs", "1", 6.0),
];

/// A program with its arguments; it reads standard input and prints lines.
struct Program(Vec<String>);

struct Bench {
    run: Program,
    forecast: Program,
    model: Program,
    /// The model's forecast, which is not measured.
    model_forecast: Program,
    floor: Program,
    dir: PathBuf,
}

fn main() -> ExitCode {
    let args: Vec<String> = env::args().skip(1).collect();
    let [run, forecast, model, floor, dir] = &args[..] else {
        eprintln!("bench RUN FORECAST MODEL FLOOR DIR");
        return ExitCode::FAILURE;
    };
    let program = |words: &[&str]| Program(words.iter().map(|w| w.to_string()).collect());
    let bench = Bench {
        run: program(&[run]),
        forecast: program(&[forecast]),
        model: program(&[model, "run"]),
        model_forecast: program(&[model, "forecast"]),
        floor: program(&[floor]),
        dir: PathBuf::from(dir),
    };
    match bench.whole(model) {
        Ok(true) => ExitCode::SUCCESS,
        Ok(false) => ExitCode::FAILURE,
        Err(wrong) => {
            eprintln!("bench: {wrong}");
            ExitCode::FAILURE
        }
    }
}

impl Bench {
    /// Everything; whether every target is met.
    fn whole(&self, generator: &str) -> Result<bool, String> {
        let mut contents = Vec::new();
        for case in &CASES {
            self.make_file(generator, case)?;
            let content = self.check(case)?;
            println!("{} {}: {}", case.profile, case.seed, content.text());
            contents.push(content);
        }
        println!("run and forecast print what the model does on every file\n");
        println!("best of {ROUNDS}, in ms; load of the machine {}\n", load());
        println!("{}", head());
        let mut met = true;
        for (case, content) in CASES.iter().zip(&contents) {
            let times = self.best_times(case)?;
            println!("{}", row(case, content, &times));
            met &= times.met(case);
        }
        println!("\nall targets {}", if met { "met" } else { "NOT met" });
        Ok(met)
    }

    fn place(&self, case: &Case, ending: &str) -> PathBuf {
        self.dir.join(format!("{}.{ending}", case.profile))
    }

    fn make_file(&self, generator: &str, case: &Case) -> Result<(), String> {
        let gen = ["gen", case.profile, case.seed, STEPS];
        let mut words = vec![generator.to_string()];
        words.extend(gen.map(String::from));
        let out = create(&self.place(case, "steps"))?;
        Program(words).go(Stdio::null(), out.into()).map(|_| ())
    }

    /// What a program prints for the file, which is kept beside it.
    fn printed(&self, case: &Case, program: &Program, ending: &str) -> Result<Vec<u8>, String> {
        let (steps, out) = (self.place(case, "steps"), self.place(case, ending));
        program.go(open(&steps)?.into(), create(&out)?.into())?;
        fs::read(&out).map_err(|e| format!("{}: {e}", out.display()))
    }

    /// Compares what run and forecast print with what the model does; gives what
    /// the file holds.
    fn check(&self, case: &Case) -> Result<Content, String> {
        let name = |wrong| format!("{}: {wrong}", case.profile);
        let run = self.printed(case, &self.run, "run")?;
        let model = self.printed(case, &self.model, "model")?;
        same("run", &run, &model).map_err(name)?;
        let forecast = self.printed(case, &self.forecast, "forecast")?;
        let due = self.printed(case, &self.model_forecast, "model-forecast")?;
        same("forecast", &forecast, &due).map_err(name)?;
        Ok(Content::of(&model))
    }

    /// Runs the four programs in turn, five rounds.
    fn best_times(&self, case: &Case) -> Result<Times, String> {
        let mut best = Times::WORST;
        let steps = self.place(case, "steps");
        for _ in 0..ROUNDS {
            best.run = best.run.min(self.run.time(&steps)?);
            best.forecast = best.forecast.min(self.forecast.time(&steps)?);
            best.model = best.model.min(self.model.time(&steps)?);
            best.floor = best.floor.min(self.floor.time(&steps)?);
        }
        Ok(best)
    }
}

impl Program {
    /// Runs to the end; the wall time from before the start to after the end.
    fn go(&self, input: Stdio, output: Stdio) -> Result<Duration, String> {
        let Program(words) = self;
        let mut command = Command::new(&words[0]);
        command.args(&words[1..]);
        command.stdin(input).stdout(output).stderr(Stdio::null());
        let start = Instant::now();
        let status = command.status();
        let time = start.elapsed();
        let status = status.map_err(|e| format!("{}: {e}", words[0]))?;
        if status.success() {
            Ok(time)
        } else {
            Err(format!("{}: {status}", words[0]))
        }
    }

    /// The time on a file, with the lines going nowhere.
    fn time(&self, steps: &Path) -> Result<Duration, String> {
        self.go(open(steps)?.into(), Stdio::null())
    }
}

fn open(path: &Path) -> Result<File, String> {
    File::open(path).map_err(|e| format!("{}: {e}", path.display()))
}

fn create(path: &Path) -> Result<File, String> {
    File::create(path).map_err(|e| format!("{}: {e}", path.display()))
}

/// What else the machine did in the last minute; above 1, the times are not
/// to be trusted.
fn load() -> String {
    let loads = fs::read_to_string("/proc/loadavg").unwrap_or_default();
    loads.split(' ').next().unwrap_or_default().to_string()
}
