//! Files and numbers as the command line names them; what is wrong is said in
//! words.

use std::fs;
use std::io::{self, Read};
use std::path::Path;

/// The bytes of a file; `-` is standard input.
pub fn bytes(name: &str) -> Result<Vec<u8>, String> {
    if name == "-" {
        let mut bytes = Vec::new();
        let read = io::stdin().lock().read_to_end(&mut bytes);
        return match read {
            Ok(_) => Ok(bytes),
            Err(why) => Err(format!("standard input could not be read: {why}")),
        };
    }
    let path = Path::new(name);
    if path.is_dir() {
        return Err(format!("{name} is a folder, not a file"));
    }
    fs::read(path).map_err(|why| match why.kind() {
        io::ErrorKind::NotFound => format!("there is no file {name}"),
        _ => format!("{name} could not be read: {why}"),
    })
}

/// Record numbers from the first to the last that is asked for.
#[derive(Clone, Copy, Debug, PartialEq, Eq)]
pub struct Range {
    pub from: usize,
    pub to: usize,
}

impl Range {
    pub fn has(&self, number: usize) -> bool {
        (self.from..=self.to).contains(&number)
    }

    /// The range that `FROM TO` asks for in a run whose last line has the
    /// number `last`; all of it where none is given.
    pub fn asked(words: &[&str], last: usize) -> Result<Range, String> {
        let range = match words {
            [] => Range { from: 0, to: last },
            [from, to] => Range {
                from: number(from)?,
                to: number(to)?.min(last),
            },
            _ => return Err("give FROM and TO, or neither".to_string()),
        };
        if range.from > last {
            let from = range.from;
            return Err(format!("FROM is {from}, and the last record is {last}"));
        }
        if range.from > range.to {
            let Range { from, to } = range;
            return Err(format!("FROM is {from}, which is behind TO, {to}"));
        }
        Ok(range)
    }
}

/// The number of a record.
pub fn number(word: &str) -> Result<usize, String> {
    let digits = word.bytes().all(|byte| byte.is_ascii_digit());
    let number = word.parse().ok().filter(|_| digits);
    number.ok_or(format!("{word} is no number of a record"))
}
