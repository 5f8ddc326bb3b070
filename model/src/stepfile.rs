//! "The step file and run program": records of eight bytes in, a line a
//! record out, and a last line of the words set.

use crate::fault::Fault;
use crate::model::{Answer, Model, Step};

/// "the 1,000,000th step record"
pub const MOST_STEPS: usize = 1_000_000;
/// One more than the largest refusal that a line may have.
pub const REFUSALS: usize = 21;

/// A printed line: "record number (opening 0), refusal or 0, value, count".
#[derive(Clone, Copy, Debug, PartialEq, Eq)]
pub struct Line {
    pub number: usize,
    pub refusal: u32,
    pub value: u32,
    pub count: u32,
}

impl Line {
    pub fn of(number: usize, answer: &Answer) -> Line {
        Line {
            number,
            refusal: answer.refusal,
            value: answer.value,
            count: answer.count,
        }
    }

    pub fn text(&self) -> String {
        let Line {
            number,
            refusal,
            value,
            count,
        } = self;
        format!("{number} {refusal} {value} {count}")
    }

    /// Reads a line back; nothing if it is not exactly four numbers in base ten.
    pub fn parse(text: &str) -> Option<Line> {
        let numbers: Result<Vec<u32>, _> = text.split(' ').map(str::parse).collect();
        let [number, refusal, value, count] = numbers.ok()?[..] else {
            return None;
        };
        let number = number as usize;
        let line = Line {
            number,
            refusal,
            value,
            count,
        };
        Some(line).filter(|line| line.text() == text)
    }
}

/// What a run prints: a line a record and, if it is due, the last line.
#[derive(Clone, Debug, PartialEq, Eq)]
pub struct Printed {
    pub lines: Vec<Line>,
    /// The total of the last line.
    pub words: Option<u64>,
}

/// "After 2, 15 or 16 it stops."
pub fn stops(refusal: u32) -> bool {
    matches!(refusal, 2 | 15 | 16)
}

fn words_text(total: u64) -> String {
    format!("words {total}")
}

/// Reads the last line back; nothing if it is not exactly that word, a space and
/// a number in base ten.
fn parse_words(text: &str) -> Option<u64> {
    let total = text.strip_prefix("words ")?.parse().ok()?;
    Some(total).filter(|total| words_text(*total) == text)
}

/// The words set over the run.
pub fn total_words(answers: &[Answer]) -> u64 {
    answers.iter().map(|answer| u64::from(answer.words)).sum()
}

impl Printed {
    /// L6 of document 02: "A run that did not stop at 2, 15 or 16 ends with one
    /// extra line, "words", a space and the total".
    pub fn of(answers: &[Answer]) -> Printed {
        let numbered = answers.iter().enumerate();
        let stopped = answers.iter().any(|answer| stops(answer.refusal));
        Printed {
            lines: numbered.map(|(n, answer)| Line::of(n, answer)).collect(),
            words: (!stopped).then(|| total_words(answers)),
        }
    }

    /// The lines without their ends.
    pub fn texts(&self) -> Vec<String> {
        let lines = self.lines.iter().map(Line::text);
        lines.chain(self.words.map(words_text)).collect()
    }

    pub fn text(&self) -> String {
        let mut text = String::new();
        let mut put = |line: &str| {
            text.push_str(line);
            text.push('\n');
        };
        self.lines.iter().for_each(|line| put(&line.text()));
        self.words.iter().for_each(|total| put(&words_text(*total)));
        text
    }

    /// Reads what was printed back; nothing if a line cannot be read.
    pub fn parse(text: &str) -> Option<Printed> {
        let mut texts: Vec<&str> = text.lines().collect();
        let words = texts.last().and_then(|last| parse_words(last));
        if words.is_some() {
            texts.pop();
        }
        let lines: Option<Vec<Line>> = texts.into_iter().map(Line::parse).collect();
        lines.map(|lines| Printed { lines, words })
    }
}

/// "Records of eight bytes: kind, card, object (two bytes, low first), value
/// (four, low first)."
impl Step {
    pub fn from_bytes(record: [u8; 8]) -> Step {
        let [kind, card, o0, o1, v0, v1, v2, v3] = record;
        Step {
            kind,
            card,
            object: u16::from_le_bytes([o0, o1]),
            value: u32::from_le_bytes([v0, v1, v2, v3]),
        }
    }

    pub fn to_bytes(self) -> [u8; 8] {
        let [o0, o1] = self.object.to_le_bytes();
        let [v0, v1, v2, v3] = self.value.to_le_bytes();
        [self.kind, self.card, o0, o1, v0, v1, v2, v3]
    }
}

/// The eight bytes of a record, if the file holds them all.
pub fn record_at(file: &[u8], number: usize) -> Option<[u8; 8]> {
    let bytes = file.get(8 * number..8 * number + 8)?;
    bytes.try_into().ok()
}

/// Runs a file; an answer for each line. `seen` is shown the state after the
/// opening and each step.
pub fn run_watched(
    file: &[u8],
    fault: Option<Fault>,
    seen: &mut dyn FnMut(&Model, usize),
) -> Vec<Answer> {
    // "15: it ends within a record, or before the opening"
    let Some(opening) = record_at(file, 0) else {
        return vec![Answer::refused(15)];
    };
    let mut model = match Model::open(opening, fault) {
        Ok(model) => model,
        Err(answer) => return vec![answer],
    };
    let mut answers = vec![Answer::done()];
    seen(&model, 0);
    let mut number = 1;
    while 8 * number < file.len() {
        let answer = answer_record(&mut model, file, number);
        answers.push(answer);
        if stops(answer.refusal) {
            break;
        }
        seen(&model, number);
        number += 1;
    }
    answers
}

/// The answer to step record `number`, of which at least one byte is there.
fn answer_record(model: &mut Model, file: &[u8], number: usize) -> Answer {
    match record_at(file, number) {
        None => Answer::refused(15),
        // "16: a whole record follows the 1,000,000th step record"
        Some(_) if number > MOST_STEPS => Answer::refused(16),
        Some(record) => model.step(&Step::from_bytes(record)),
    }
}

pub fn run(file: &[u8], fault: Option<Fault>) -> Printed {
    let answers = run_watched(file, fault, &mut |_, _| {});
    let mut printed = Printed::of(&answers);
    if fault == Some(Fault::WordsAlways) {
        printed.words = Some(total_words(&answers));
    }
    printed
}
