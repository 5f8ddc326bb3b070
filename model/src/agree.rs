//! Whether what a program printed is what was due, in bytes and by the judge.

use crate::judge::judge;
use crate::program::Ran;
use crate::stepfile::Printed;
use std::fs;
use std::path::Path;

/// The most of a line that is shown.
const SHOWN: usize = 60;

/// Byte for byte what was due, and a good ending.
pub fn agrees(due: &[u8], ran: &Ran) -> Result<(), String> {
    match (ran.ending.wrong(), first_difference(due, &ran.output)) {
        (None, None) => Ok(()),
        (None, Some(difference)) => Err(difference),
        (Some(ending), Some(difference)) if !ran.ending.is_hopeless() => {
            Err(format!("{ending}; {difference}"))
        }
        (Some(ending), _) => Err(ending),
    }
}

/// The same with what is stored.
pub fn agrees_with_stored(path: &Path, ran: &Ran) -> Result<(), String> {
    let due = fs::read(path).map_err(|e| format!("{}: {e}", path.display()))?;
    agrees(&due, ran)
}

/// Demand 3, tallies and the last line on what the program printed.
pub fn judged(file: &[u8], ran: &Ran) -> Result<(), String> {
    let text = str::from_utf8(&ran.output).ok();
    let printed = text.and_then(Printed::parse);
    let broken = judge(file, &printed.ok_or("no lines of numbers")?)?.broken;
    match broken.first() {
        None => Ok(()),
        Some(first) => Err(format!("broken reads: {}; {}", broken.len(), first.text())),
    }
}

/// The first line, counted from 1, in which two texts differ.
pub fn first_difference(due: &[u8], printed: &[u8]) -> Option<String> {
    if due == printed {
        return None;
    }
    let (mut due, mut printed) = (lines_of(due), lines_of(printed));
    let mut number = 1;
    loop {
        let (one, other) = (due.next(), printed.next());
        if one != other {
            let (one, other) = (shown(one), shown(other));
            return Some(format!(
                "line {number} differs\n    due      {one}\n    printed  {other}"
            ));
        }
        number += 1;
    }
}

/// The lines of a text, each with the newline that ends it.
fn lines_of(text: &[u8]) -> impl Iterator<Item = &[u8]> {
    text.split_inclusive(|byte| *byte == b'\n')
}

/// A line as it can be printed; a newline that is missing is named.
fn shown(line: Option<&[u8]>) -> String {
    let Some(line) = line else {
        return "no line".to_string();
    };
    let (text, end) = match line.strip_suffix(b"\n") {
        Some(text) => (text, ""),
        None => (line, " without a newline"),
    };
    let cut = &text[..text.len().min(SHOWN)];
    let more = if cut == text { "" } else { ".." };
    format!("{}{more}{end}", cut.escape_ascii())
}
