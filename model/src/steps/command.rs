//! The commands of `./steps`. What is wrong goes to standard error, with
//! status 1.

use super::areas::Areas;
use super::input::{self, Range};
use super::pack::{self, Mistake};
use super::progress::Progress;
use super::proved::{self, Home};
use super::scene::Scene;
use super::walk::Walk;
use super::{explain, help, picture, sentence, state, text};
use crate::stepfile::MOST_STEPS;
use std::env;
use std::ffi::OsString;
use std::io::{self, BufWriter, IsTerminal, Write};
use std::process::ExitCode;

/// Why a command ended before its work was done.
pub enum Failure {
    Said(String),
    /// Lines that begin with the place of a mistake, as an editor reads them.
    Mistakes(String),
    Output(io::Error),
}

impl From<String> for Failure {
    fn from(said: String) -> Failure {
        Failure::Said(said)
    }
}

impl From<io::Error> for Failure {
    fn from(why: io::Error) -> Failure {
        Failure::Output(why)
    }
}

pub fn main() -> ExitCode {
    let words: Vec<OsString> = env::args_os().skip(1).collect();
    let words: Option<Vec<&str>> = words.iter().map(|word| word.to_str()).collect();
    let mut out = BufWriter::with_capacity(1 << 16, io::stdout().lock());
    let done = match words {
        Some(words) => command(&words, &mut out),
        None => Err(Failure::Said(
            "a word of the command is not UTF-8".to_string(),
        )),
    };
    let done = done.and_then(|()| Ok(out.flush()?));
    match done {
        Ok(()) => ExitCode::SUCCESS,
        // A reader that has gone, as in `| head`, has had what it wanted.
        Err(Failure::Output(why)) if why.kind() == io::ErrorKind::BrokenPipe => ExitCode::SUCCESS,
        Err(Failure::Output(why)) => {
            eprintln!("steps: standard output could not be written: {why}");
            ExitCode::FAILURE
        }
        Err(Failure::Said(said)) => {
            eprintln!("steps: {said}");
            ExitCode::FAILURE
        }
        Err(Failure::Mistakes(lines)) => {
            eprintln!("{lines}");
            ExitCode::FAILURE
        }
    }
}

fn command(words: &[&str], out: &mut dyn Write) -> Result<(), Failure> {
    match words {
        ["-h" | "--help" | "help"] => Ok(out.write_all(help::text("").as_bytes())?),
        [command, "-h" | "--help"] => Ok(out.write_all(help::text(command).as_bytes())?),
        ["pack", file] => pack_file(file, out),
        ["text", file] => Ok(out.write_all(text::text(&input::bytes(file)?).as_bytes())?),
        ["explain", file, range @ ..] if range.len() != 1 => explain_file(file, range, out),
        ["picture", file, range @ ..] if range.len() != 1 => picture_file(file, range, out),
        ["state", file, number] => state_after(file, number, out),
        [] => Err(Failure::Said(format!("no command\n{}", help::text("")))),
        [command, ..] => Err(Failure::Said(wrong_words(command))),
    }
}

/// What to say of a command that cannot be carried out.
fn wrong_words(command: &str) -> String {
    const COMMANDS: [&str; 5] = ["pack", "text", "explain", "state", "picture"];
    if COMMANDS.contains(&command) {
        return format!("{command} takes other words:\n{}", help::text(command));
    }
    format!("there is no command {command}\n{}", help::text(""))
}

/// At most so many lines with a mistake are named.
const MOST_MISTAKES: usize = 10;

fn pack_file(name: &str, out: &mut dyn Write) -> Result<(), Failure> {
    let bytes = input::bytes(name)?;
    let text = utf8(name, &bytes)?;
    let packed = pack::pack(text);
    let file = packed.map_err(|mistakes| Failure::Mistakes(named(name, &mistakes)))?;
    if io::stdout().is_terminal() && !file.is_empty() {
        let advice = "a step file is bytes, not text: write it to a file, ./steps pack FILE.txt > FILE.steps";
        return Err(Failure::Said(advice.to_string()));
    }
    Ok(out.write_all(&file)?)
}

fn named(name: &str, mistakes: &[Mistake]) -> String {
    let shown = mistakes.iter().take(MOST_MISTAKES);
    let mut lines: Vec<String> = shown.map(|mistake| mistake.text(name)).collect();
    let more = mistakes.len().saturating_sub(MOST_MISTAKES);
    if more > 0 {
        lines.push(format!("steps: and {more} mistakes more"));
    }
    lines.join("\n")
}

/// A text, or where it stops being one.
fn utf8<'a>(name: &str, bytes: &'a [u8]) -> Result<&'a str, Failure> {
    str::from_utf8(bytes).map_err(|wrong| {
        let good = String::from_utf8_lossy(&bytes[..wrong.valid_up_to()]);
        let line = good.matches('\n').count() + 1;
        let column = good.rsplit('\n').next().unwrap_or("").chars().count() + 1;
        let found = "found a byte that is none: is this a step file?";
        Failure::Mistakes(format!(
            "{name}:{line}:{column}: expected a text in UTF-8, {found}"
        ))
    })
}

fn explain_file(name: &str, range: &[&str], out: &mut dyn Write) -> Result<(), Failure> {
    let file = input::bytes(name)?;
    let mut progress = Progress::new();
    let run = proved::run(&Home::found()?, &file)?;
    let range = Range::asked(range, run.last())?;
    let fine = explain::explain(&file, &run, range, &mut progress, out)?;
    out.flush()?;
    if fine {
        return Ok(());
    }
    Err(Failure::Said(
        "a read answered what it may not: the run program is at fault, or these tools are"
            .to_string(),
    ))
}

fn state_after(name: &str, number: &str, out: &mut dyn Write) -> Result<(), Failure> {
    let file = input::bytes(name)?;
    let number = input::number(number)?;
    let whole = file.len() / 8;
    if whole == 0 {
        return Err(Failure::Said(format!("{name} has no whole record")));
    }
    if number >= whole {
        let last = whole - 1;
        return Err(Failure::Said(format!(
            "N is {number}, and the last whole record of {name} is {last}"
        )));
    }
    if number > MOST_STEPS {
        let said = format!("the run stops behind record {MOST_STEPS}");
        return Err(Failure::Said(said));
    }
    let records = &file[..8 * number + 8];
    let areas = Areas::from_bytes(&proved::areas(&Home::found()?, records)?)?;
    let sentence = sentence::of_record(number, &records[8 * number..]);
    writeln!(out, "after record {number}, {sentence}:")?;
    Ok(out.write_all(state::text(&areas).as_bytes())?)
}

fn picture_file(name: &str, range: &[&str], out: &mut dyn Write) -> Result<(), Failure> {
    let file = input::bytes(name)?;
    let mut progress = Progress::new();
    let run = proved::run(&Home::found()?, &file)?;
    let asked = Range::asked(range, run.last())?;
    let (shown, note) = picture::window(asked, run.last());
    if shown != asked {
        eprintln!(
            "steps: the picture shows records {} to {} of 0 to {}",
            shown.from,
            shown.to,
            run.last()
        );
    }
    let scene = Scene::of(Walk::new(&file, &run, &mut progress), shown);
    let what = if name == "-" { "standard input" } else { name };
    let title = format!("{what}, records {} to {}", shown.from, shown.to);
    Ok(out.write_all(picture::picture(&scene, &title, note.as_deref()).as_bytes())?)
}
