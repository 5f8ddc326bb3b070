//! The step files of tests/files through the library: Listing A line by line, every other file as two checks, by its stored lines and by the
//! second model's answers, which have the words of each record too.
//! After the opening and after each step the areas are in order, and a refused record leaves every byte as it was.

use crate::library::{fields_of, in_order, open, step, Answer, Areas, UNANSWERED};
use crate::Tally;
use std::fs::{self, File};
use std::path::{Path, PathBuf};
use std::process::{Command, Stdio};

const FOLDER: &str = "tests/files";
/// The second model, which model/build makes.
const MODEL: &str = "model/bin/model";

pub fn check(tally: &mut Tally) {
    listing_a(tally);
    let names = names();
    tally.check("the step files are there", names.len() > 1);
    for name in names {
        let run = run(&name).unwrap_or_default();
        let same = stored(&name).is_some_and(|stored| run.kept && run.prints(&stored));
        tally.check(&format!("{name}: its lines"), same);
        let same = model_answers(&name).is_some_and(|due| run.answers == due);
        tally.check(&format!("{name}: the model's answers"), same);
    }
}

/// The names of the step files.
pub fn names() -> Vec<String> {
    let mut names: Vec<String> = fs::read_dir(FOLDER)
        .map(|entries| {
            entries
                .filter_map(|entry| entry.ok()?.file_name().into_string().ok())
                .filter_map(|name| Some(name.strip_suffix(".steps")?.to_string()))
                .collect()
        })
        .unwrap_or_default();
    names.sort();
    names
}

fn place(name: &str, ending: &str) -> PathBuf {
    Path::new(FOLDER).join(format!("{name}.{ending}"))
}

/// The bytes of a step file.
pub fn read_file(name: &str) -> Option<Vec<u8>> {
    fs::read(place(name, "steps")).ok()
}

fn listing_a(tally: &mut Tally) {
    let run = run("listing-a").unwrap_or_default();
    let stored = stored("listing-a").unwrap_or_default();
    let lines = run.lines();
    tally.check(
        "Listing A has thirteen lines",
        stored.lines.len() == 13 && lines.len() == 13,
    );
    for (i, line) in stored.lines.iter().enumerate() {
        tally.check(&format!("Listing A: {line}"), lines.get(i) == Some(line));
    }
    tally.check(
        "Listing A: words 1",
        run.words() == 1 && stored.words == Some(1),
    );
    tally.check(
        "Listing A: in order after each record, refused ones untouched",
        run.kept,
    );
}

/// What a file gives: an answer for each whole record up to a refused opening, and whether the areas were kept as they must.
#[derive(Default)]
struct Run {
    answers: Vec<Answer>,
    kept: bool,
}

impl Run {
    /// A line for each record.
    fn lines(&self) -> Vec<String> {
        let numbered = self.answers.iter().enumerate();
        numbered
            .map(|(i, [refusal, value, count, _])| format!("{i} {refusal} {value} {count}"))
            .collect()
    }

    /// The words set over the run.
    fn words(&self) -> u64 {
        self.answers
            .iter()
            .map(|&[.., words]| u64::from(words))
            .sum()
    }

    /// Whether these are the run's lines, and the last line its words if there is one.
    fn prints(&self, stored: &Stored) -> bool {
        self.lines() == stored.lines && stored.words.is_none_or(|words| words == self.words())
    }
}

fn run(name: &str) -> Option<Run> {
    let bytes = read_file(name)?;
    let mut records = bytes.chunks_exact(8);
    let mut areas = Areas::garbage(1);
    let mut run = Run {
        answers: Vec::new(),
        kept: true,
    };
    let Some(opening) = records.next() else {
        return Some(run);
    };
    let before = areas.clone();
    let refusal = open(opening, &mut areas);
    run.answers.push([u32::from(refusal), 0, 0, 0]);
    if refusal != 0 {
        run.kept = areas == before;
        return Some(run);
    }
    run.kept = in_order(&areas);
    for record in records {
        let before = areas.clone();
        let mut answer = UNANSWERED;
        let refusal = step(fields_of(record), &mut answer, &mut areas);
        run.answers.push(answer);
        run.kept &= u32::from(refusal) == answer[0];
        run.kept &= in_order(&areas);
        run.kept &= refusal == 0 || areas == before;
    }
    Some(run)
}

/// The lines of a file but for those of the refusals 15 and 16, which the run program gives, and the total of the last line if there is one.
#[derive(Default)]
struct Stored {
    lines: Vec<String>,
    words: Option<u64>,
}

fn stored(name: &str) -> Option<Stored> {
    let text = fs::read_to_string(place(name, "lines")).ok()?;
    let mut stored = Stored::default();
    for line in text.lines() {
        match line.split_once(' ')? {
            ("words", total) => stored.words = Some(total.parse().ok()?),
            (_, rest) if rest.starts_with("15 ") || rest.starts_with("16 ") => {}
            _ => stored.lines.push(line.to_string()),
        }
    }
    Some(stored)
}

/// What the second model answers each record of a file.
fn model_answers(name: &str) -> Option<Vec<Answer>> {
    let mut model = Command::new(MODEL);
    model
        .arg("answers")
        .stdin(File::open(place(name, "steps")).ok()?);
    let told = model.stderr(Stdio::inherit()).output().ok()?;
    let text = String::from_utf8(told.stdout).ok()?;
    let answer = |line: &str| {
        let numbers: Result<Vec<u32>, _> = line.split(' ').map(str::parse).collect();
        numbers.ok()?.try_into().ok()
    };
    text.lines().map(answer).collect()
}
