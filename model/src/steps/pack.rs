//! `./steps pack`: a text of sentences, a record a line, as a step file.
//! `sentence.rs` has the sentences.

use crate::model::{Step, ACQUIRE, ARRIVE, DEQUEUE, ENQUEUE, READ, RELEASE, WANT, WRITE};
use crate::model::{TALLY_ADD, TALLY_READ};

/// What is wrong in a text, and where; lines and columns count from 1.
#[derive(Debug, PartialEq, Eq)]
pub struct Mistake {
    pub line: usize,
    pub column: usize,
    pub expected: String,
    pub found: String,
}

impl Mistake {
    /// `NAME:LINE:COLUMN: expected .., found ..`
    pub fn text(&self, name: &str) -> String {
        let Mistake {
            line,
            column,
            expected,
            found,
        } = self;
        format!("{name}:{line}:{column}: expected {expected}, found {found}")
    }
}

/// The bytes of a text, or the first mistake of each line that has one.
pub fn pack(text: &str) -> Result<Vec<u8>, Vec<Mistake>> {
    let mut packing = Packing::default();
    for (number, line) in text.lines().enumerate() {
        packing.take(number + 1, line);
    }
    if packing.mistakes.is_empty() {
        Ok(packing.bytes)
    } else {
        Err(packing.mistakes)
    }
}

#[derive(Default)]
struct Packing {
    bytes: Vec<u8>,
    /// Lines with a record, those with a mistake among them.
    records: usize,
    /// What is wrong with a record of fewer than eight bytes, if one follows.
    cut: Option<Mistake>,
    mistakes: Vec<Mistake>,
}

impl Packing {
    fn take(&mut self, line: usize, text: &str) {
        let mut words = Words::of(line, text);
        if words.at_end() {
            return;
        }
        self.mistakes.extend(self.cut.take());
        match self.record(&mut words) {
            Ok(bytes) => {
                if bytes.len() < 8 {
                    let eight = "eight bytes: only the last record may have fewer";
                    self.cut = Some(words.mistake(eight));
                }
                self.bytes.extend(bytes);
            }
            Err(mistake) => self.mistakes.push(mistake),
        }
        self.records += 1;
    }

    fn record(&self, words: &mut Words) -> Result<Vec<u8>, Mistake> {
        let choices: &[&str] = if self.records == 0 {
            &["open", "raw"]
        } else {
            &["card", "raw"]
        };
        let bytes = match words.one_of(choices)? {
            "open" => opening(words)?,
            "card" => step(words)?.to_bytes().to_vec(),
            _ => raw(words)?,
        };
        words.end()?;
        Ok(bytes)
    }
}

/// `open C cards, P pages, L locks`
fn opening(words: &mut Words) -> Result<Vec<u8>, Mistake> {
    let cards = words.number("a number of cards", u8::MAX.into())?;
    words.one_of(&["cards", "card"])?;
    words.one_of(&[","])?;
    let pages = words.number("a number of pages", u8::MAX.into())?;
    words.one_of(&["pages", "page"])?;
    words.one_of(&[","])?;
    let locks = words.number("a number of locks", u8::MAX.into())?;
    words.one_of(&["locks", "lock"])?;
    Ok(vec![0, cards as u8, pages as u8, locks as u8, 0, 0, 0, 0])
}

/// `card C does something`
fn step(words: &mut Words) -> Result<Step, Mistake> {
    let card = words.number("the number of a card", u8::MAX.into())? as u8;
    let verb = words.one_of(&VERBS)?;
    let (kind, object, value) = match verb {
        "reads" => match words.one_of(&["word", "tally"])? {
            "word" => (READ, words.object("the number of a word")?, 0),
            _ => (TALLY_READ, words.object("the number of a tally")?, 0),
        },
        "writes" => {
            let value = words.value()?;
            words.one_of(&["to"])?;
            words.one_of(&["word"])?;
            (WRITE, words.object("the number of a word")?, value)
        }
        "adds" => {
            let value = words.value()?;
            words.one_of(&["to"])?;
            words.one_of(&["tally"])?;
            (TALLY_ADD, words.object("the number of a tally")?, value)
        }
        "acquires" | "releases" => {
            words.one_of(&["lock"])?;
            let kind = if verb == "acquires" { ACQUIRE } else { RELEASE };
            (kind, words.object("the number of a lock")?, 0)
        }
        "arrives" => (ARRIVE, 0, 0),
        "enqueues" => (ENQUEUE, 0, words.value()?),
        "dequeues" => (DEQUEUE, 0, 0),
        _ => {
            words.one_of(&["collection"])?;
            (WANT, 0, 0)
        }
    };
    Ok(Step {
        kind,
        card,
        object,
        value,
    })
}

const VERBS: [&str; 9] = [
    "reads", "writes", "acquires", "releases", "arrives", "wants", "adds", "enqueues", "dequeues",
];

/// `raw 07 01 00`: one to eight bytes; fewer than eight only at the end.
fn raw(words: &mut Words) -> Result<Vec<u8>, Mistake> {
    let mut bytes = vec![words.byte()?];
    while bytes.len() < 8 && !words.at_end() {
        bytes.push(words.byte()?);
    }
    Ok(bytes)
}

/// A part of a line that stands for itself.
#[derive(Clone, Copy)]
struct Word<'a> {
    text: &'a str,
    column: usize,
}

/// The words of a line in their order; what stands behind `#` is none.
struct Words<'a> {
    line: usize,
    words: Vec<Word<'a>>,
    next: usize,
    /// The column behind the last word.
    end: usize,
}

impl<'a> Words<'a> {
    fn of(line: usize, text: &'a str) -> Words<'a> {
        let text = text.split('#').next().unwrap_or("").trim_end();
        let mut words = Vec::new();
        let mut start = None;
        for (column, (place, letter)) in (1..).zip(text.char_indices()) {
            let ends_word = letter.is_whitespace() || letter == ',';
            if ends_word {
                words.extend(start.take().map(|from| word(text, from, place)));
            } else if start.is_none() {
                start = Some((place, column));
            }
            if letter == ',' {
                words.push(word(text, (place, column), place + 1));
            }
        }
        words.extend(start.map(|from| word(text, from, text.len())));
        Words {
            line,
            words,
            next: 0,
            end: text.chars().count() + 1,
        }
    }

    fn at_end(&self) -> bool {
        self.next == self.words.len()
    }

    /// That something else was expected where the next word stands.
    fn mistake(&self, expected: &str) -> Mistake {
        let word = self.words.get(self.next);
        Mistake {
            line: self.line,
            column: word.map_or(self.end, |word| word.column),
            expected: expected.to_string(),
            found: word.map_or("the end of the line".to_string(), |word| shown(word.text)),
        }
    }

    /// The next word, if it can be read as asked for.
    fn take<T>(&mut self, read: impl Fn(&'a str) -> Option<T>) -> Option<T> {
        let taken = read(self.words.get(self.next)?.text)?;
        self.next += 1;
        Some(taken)
    }

    fn one_of(&mut self, choices: &[&str]) -> Result<&'a str, Mistake> {
        let taken = self.take(|text| choices.contains(&text).then_some(text));
        taken.ok_or_else(|| self.mistake(&format!("`{}`", choices.join("` or `"))))
    }

    fn number(&mut self, what: &str, most: u32) -> Result<u32, Mistake> {
        let taken = self.take(|text| {
            let digits = text.bytes().all(|byte| byte.is_ascii_digit());
            let number = text.parse::<u32>().ok().filter(|_| digits);
            number.filter(|number| *number <= most)
        });
        taken.ok_or_else(|| self.mistake(&format!("{what}, 0 to {most}")))
    }

    /// The number of a word, a lock or a tally.
    fn object(&mut self, what: &str) -> Result<u16, Mistake> {
        Ok(self.number(what, u16::MAX.into())? as u16)
    }

    fn value(&mut self) -> Result<u32, Mistake> {
        self.number("a value", u32::MAX)
    }

    fn byte(&mut self) -> Result<u8, Mistake> {
        let taken = self.take(|text| {
            let digits = text.len() == 2 && text.bytes().all(|byte| byte.is_ascii_hexdigit());
            u8::from_str_radix(text, 16).ok().filter(|_| digits)
        });
        taken.ok_or_else(|| self.mistake("a byte, two digits of base sixteen"))
    }

    fn end(&self) -> Result<(), Mistake> {
        if self.at_end() {
            return Ok(());
        }
        Err(self.mistake("the end of the line"))
    }
}

fn word(text: &str, (start, column): (usize, usize), end: usize) -> Word<'_> {
    Word {
        text: &text[start..end],
        column,
    }
}

/// A word as it can be printed on one line.
fn shown(word: &str) -> String {
    const MOST: usize = 30;
    let visible = |letter: char| if letter.is_control() { '?' } else { letter };
    let cut: String = word.chars().map(visible).take(MOST).collect();
    let more = if word.chars().count() > MOST {
        ".."
    } else {
        ""
    };
    format!("`{cut}{more}`")
}
