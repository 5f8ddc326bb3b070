//! `./steps text`: a step file in words, a record a line.

use super::sentence;

/// Every byte string has a text, and `pack` makes the same bytes of it.
pub fn text(file: &[u8]) -> String {
    let mut text = String::new();
    for (number, bytes) in file.chunks(8).enumerate() {
        text.push_str(&sentence::of_record(number, bytes));
        text.push('\n');
    }
    text
}
