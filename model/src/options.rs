//! The options that `model compare` and `model coverage` share.

use std::path::PathBuf;
use std::time::Duration;

pub struct Options {
    /// The directory of the named files.
    pub dir: PathBuf,
    /// How many files are generated.
    pub files: usize,
    /// The first seed.
    pub seed: u64,
    /// How long one run of the program may take.
    pub patience: Duration,
}

impl Options {
    pub fn usual() -> Options {
        Options {
            dir: PathBuf::from("tests/files"),
            files: 2100,
            seed: 1,
            patience: Duration::from_secs(60),
        }
    }

    /// `[DIR] [--files N] [--seed S] [--seconds T]`, in any order.
    pub fn parse(mut args: &[&str]) -> Result<Options, String> {
        let mut options = Options::usual();
        loop {
            args = match args {
                [] => return Ok(options),
                ["--files", n, rest @ ..] => {
                    options.files = number(n)? as usize;
                    rest
                }
                ["--seed", s, rest @ ..] => {
                    options.seed = number(s)?;
                    rest
                }
                ["--seconds", t, rest @ ..] => {
                    options.patience = Duration::from_secs(number(t)?);
                    rest
                }
                [dir, rest @ ..] if !dir.starts_with("--") => {
                    options.dir = PathBuf::from(dir);
                    rest
                }
                [other, ..] => return Err(format!("{other}: no such option, or no number for it")),
            }
        }
    }
}

pub fn number(text: &str) -> Result<u64, String> {
    text.parse().map_err(|_| format!("{text} is no number"))
}
