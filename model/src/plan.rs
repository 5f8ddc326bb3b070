//! The files on which a program is compared with the model: the named ones,
//! those about the ends of a file, and generated ones of all profiles.

use crate::generate::{generate, PROFILES};
use crate::rng::Rng;
use crate::stepfile::{run, MOST_STEPS};
use std::fs;
use std::path::{Path, PathBuf};

pub enum Source {
    /// NAME.steps, with NAME.lines beside it, and some with NAME.forecast.
    Named(PathBuf),
    Generated(Recipe),
    /// A generated file that is very long, cut short or not opened.
    End(Recipe),
}

/// A file that can be made again at any time.
#[derive(Clone, Copy)]
pub struct Recipe {
    pub profile: &'static str,
    pub seed: u64,
    pub steps: usize,
    /// Only so many bytes of it, if not all.
    pub bytes: Option<usize>,
}

impl Recipe {
    fn bytes(&self) -> Vec<u8> {
        let mut file = generate(self.profile, self.seed, self.steps).unwrap_or_default();
        file.truncate(self.bytes.unwrap_or(file.len()));
        file
    }

    /// The command that makes the file.
    fn command(&self) -> String {
        let Recipe {
            profile,
            seed,
            steps,
            bytes,
        } = self;
        let whole = format!("model gen {profile} {seed} {steps}");
        match bytes {
            Some(bytes) => format!("{whole} | head -c {bytes}"),
            None => whole,
        }
    }
}

impl Source {
    /// Where the lines of a named file are stored.
    pub fn lines(&self) -> Option<PathBuf> {
        match self {
            Source::Named(steps) => Some(steps.with_extension("lines")),
            Source::Generated(_) | Source::End(_) => None,
        }
    }

    /// Where the forecast of a named file is stored, if it is.
    pub fn forecast(&self) -> Option<PathBuf> {
        let forecast = self.lines()?.with_extension("forecast");
        Some(forecast).filter(|path| path.exists())
    }

    pub fn bytes(&self) -> Result<Vec<u8>, String> {
        match self {
            Source::Named(path) => fs::read(path).map_err(|e| format!("{}: {e}", path.display())),
            Source::Generated(recipe) | Source::End(recipe) => Ok(recipe.bytes()),
        }
    }

    /// How a report calls the file.
    pub fn name(&self) -> String {
        match self {
            Source::Named(path) => path.display().to_string(),
            Source::Generated(recipe) | Source::End(recipe) => recipe.command(),
        }
    }

    /// The name under which the file is kept, without an ending.
    pub fn stem(&self) -> String {
        match self {
            Source::Named(path) => path
                .file_stem()
                .unwrap_or_default()
                .to_string_lossy()
                .into(),
            Source::Generated(r) | Source::End(r) => {
                let cut = r.bytes.map(|n| format!("-{n}")).unwrap_or_default();
                format!("{}-{}-{}{cut}", r.profile, r.seed, r.steps)
            }
        }
    }
}

/// All files in the order in which they are tried.
pub fn plan(dir: &Path, files: usize, seed: u64) -> Result<Vec<Source>, String> {
    let mut plan = named(dir)?;
    plan.extend(ends(seed).into_iter().map(Source::End));
    plan.extend(generated(files, seed).into_iter().map(Source::Generated));
    Ok(plan)
}

/// The same for a forecast, and further ends.
pub fn space_plan(dir: &Path, files: usize, seed: u64) -> Result<Vec<Source>, String> {
    let mut plan = plan(dir, files, seed)?;
    plan.extend(space_ends(seed).into_iter().map(Source::End));
    Ok(plan)
}

/// The step files of a directory by name; an error if there is none.
fn named(dir: &Path) -> Result<Vec<Source>, String> {
    let list = fs::read_dir(dir).map_err(|e| format!("{}: {e}", dir.display()))?;
    let mut paths: Vec<PathBuf> = list.flatten().map(|entry| entry.path()).collect();
    paths.retain(|path| path.extension().is_some_and(|e| e == "steps"));
    paths.sort();
    if paths.is_empty() {
        return Err(format!("{}: no step files", dir.display()));
    }
    Ok(paths.into_iter().map(Source::Named).collect())
}

/// The profiles by turns, each with seeds from `seed` on.
pub fn generated(files: usize, seed: u64) -> Vec<Recipe> {
    let mut rng = Rng::new(seed);
    let recipe = |number: usize| Recipe {
        profile: PROFILES[number % PROFILES.len()],
        seed: seed + (number / PROFILES.len()) as u64,
        steps: length(&mut rng),
        bytes: None,
    };
    (0..files).map(recipe).collect()
}

/// Mostly 50 to 600 steps, some files with hardly any, some with thousands.
fn length(rng: &mut Rng) -> usize {
    match rng.below(100) {
        0..=3 => rng.within(0, 20),
        4..=91 => rng.within(50, 600),
        92..=97 => rng.within(601, 2500),
        _ => rng.within(3000, 8000),
    }
}

/// The ends of files: at 1,000,000 steps, beyond, and within a record.
pub fn ends(seed: u64) -> Vec<Recipe> {
    let file = |profile, steps, bytes| Recipe {
        profile,
        seed,
        steps,
        bytes,
    };
    let mut ends = vec![
        file("blend", MOST_STEPS, None),
        file("mixed", MOST_STEPS + 1, None),
        file("rounds", MOST_STEPS + 1, Some(8 * (MOST_STEPS + 1) + 5)),
        refused_opening(seed),
    ];
    // The empty file, each cut within the opening, the opening alone.
    ends.extend((0..=8).map(|bytes| file("mixed", 20, Some(bytes))));
    // Each cut within a record in the middle.
    ends.extend((1..=7).map(|part| file("chains", 400, Some(8 * 200 + part))));
    ends
}

/// Files that end at 15 or 16 where records stand or pages are dirty.
pub fn space_ends(seed: u64) -> Vec<Recipe> {
    let soak = |steps, bytes| Recipe {
        profile: "soak",
        seed,
        steps,
        bytes: Some(bytes),
    };
    // Within the first step, behind it, and within the second.
    let mut ends: Vec<Recipe> = (9..=17).map(|bytes| soak(20, bytes)).collect();
    // Within a record in the middle.
    ends.extend((1..=7).map(|part| soak(200, 8 * 100 + part)));
    // One step more than a file may have.
    ends.push(soak(MOST_STEPS + 1, 8 * (MOST_STEPS + 2)));
    ends
}

/// A file longer than a pipe holds, whose opening is refused: the program may
/// leave the rest unread. The damage is the same for any number of steps.
fn refused_opening(seed: u64) -> Recipe {
    let recipe = |seed, steps| Recipe {
        profile: "damaged",
        seed,
        steps,
        bytes: None,
    };
    let is_refused = |seed: &u64| {
        let printed = run(&recipe(*seed, 1).bytes(), None);
        printed.lines.iter().any(|line| line.refusal == 2)
    };
    let found = (seed..).find(is_refused).unwrap_or(seed);
    recipe(found, 50_000)
}
