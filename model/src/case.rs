//! A named step file with the answers it should get, written by hand, and so the
//! lines it should print; where its figures are set down, its forecast too.

use crate::forecast_lines::{Forecast, Line};
use crate::model::{Answer, Step, ACQUIRE, ARRIVE, READ, RELEASE, WANT, WRITE};
use crate::model::{DEQUEUE, ENQUEUE, TALLY_ADD, TALLY_READ};
use crate::moved::Moved;
use crate::space_figures::figures;
use crate::stepfile::Printed;

pub struct Case {
    pub name: String,
    /// One line for the README.
    pub shows: String,
    pub file: Vec<u8>,
    /// One for each line but the last.
    pub answers: Vec<Answer>,
}

fn step(kind: u8, card: u8, object: u16, value: u32) -> Step {
    Step {
        kind,
        card,
        object,
        value,
    }
}

pub fn read(card: u8, word: u16) -> Step {
    step(READ, card, word, 0)
}

pub fn write(card: u8, word: u16, value: u32) -> Step {
    step(WRITE, card, word, value)
}

pub fn acquire(card: u8, lock: u16) -> Step {
    step(ACQUIRE, card, lock, 0)
}

pub fn release(card: u8, lock: u16) -> Step {
    step(RELEASE, card, lock, 0)
}

pub fn arrive(card: u8) -> Step {
    step(ARRIVE, card, 0, 0)
}

pub fn want(card: u8) -> Step {
    step(WANT, card, 0, 0)
}

/// Adds to a tally.
pub fn add(card: u8, tally: u16, value: u32) -> Step {
    step(TALLY_ADD, card, tally, value)
}

/// Reads a tally.
pub fn look(card: u8, tally: u16) -> Step {
    step(TALLY_READ, card, tally, 0)
}

/// Enqueues a job.
pub fn enqueue(card: u8, value: u32) -> Step {
    step(ENQUEUE, card, 0, value)
}

pub fn dequeue(card: u8) -> Step {
    step(DEQUEUE, card, 0, 0)
}

pub fn any(kind: u8, card: u8, object: u16, value: u32) -> Step {
    step(kind, card, object, value)
}

impl Case {
    /// A file that opens with these counts, accepted.
    pub fn open(name: &str, counts: [u8; 3], shows: &str) -> Case {
        let [cards, pages, locks] = counts;
        let opening = [0, cards, pages, locks, 0, 0, 0, 0];
        Case::raw(name, &opening, 0, shows)
    }

    /// A file of these bytes, with one line for record 0.
    pub fn raw(name: &str, bytes: &[u8], refusal: u32, shows: &str) -> Case {
        Case {
            name: name.to_string(),
            shows: shows.to_string(),
            file: bytes.to_vec(),
            answers: vec![Answer::refused(refusal)],
        }
    }

    /// What the file should print.
    pub fn printed(&self) -> Printed {
        Printed::of(&self.answers)
    }

    /// What a forecast of the file should print, if its figures are set down: as
    /// many as there are answers.
    pub fn forecast(&self) -> Option<Forecast> {
        let figures = figures(&self.name)?;
        assert_eq!(figures.len(), self.answers.len(), "{}", self.name);
        let lines = self.answers.iter().zip(figures).enumerate();
        let line = |(number, (answer, figures)): (usize, (&Answer, _))| Line {
            number,
            refusal: answer.refusal,
            figures,
        };
        Some(Forecast::of(lines.map(line).collect()))
    }

    fn put(&mut self, step: Step, answer: Answer) {
        self.file.extend(step.to_bytes());
        self.answers.push(answer);
    }

    /// Steps accepted with value 0 and count 0.
    pub fn ok(&mut self, steps: &[Step]) {
        for step in steps {
            self.put(*step, Answer::done());
        }
    }

    /// A step accepted with this value and count, where each record applied has
    /// one word.
    pub fn gives(&mut self, step: Step, value: u32, count: u32) {
        self.moves(step, value, count, count);
    }

    /// A step accepted with this value and count, where the records applied have
    /// so many words.
    pub fn moves(&mut self, step: Step, value: u32, count: u32, words: u32) {
        self.put(step, Answer::accepted(value, Moved { count, words }));
    }

    pub fn refused(&mut self, step: Step, refusal: u32) {
        self.put(step, Answer::refused(refusal));
    }

    /// Bytes that are no whole record, and the line 15 they give.
    pub fn cut(&mut self, bytes: &[u8]) {
        self.file.extend(bytes);
        self.answers.push(Answer::refused(15));
    }
}
