//! What fetches move (document 02, request L6): "Applying a change now also
//! reports the number of words it set, and fetch, read, write and the collecting
//! arrival hand on their sums." An applied record counts all its words, also
//! those that a later record of the same fetch sets again; a skipped one none.

use crate::fault::Fault;
use crate::model::{Answer, Record, READ};

/// The records that were applied, and the words that they set.
#[derive(Clone, Copy, Debug, PartialEq, Eq)]
pub struct Moved {
    pub count: u32,
    pub words: u32,
}

impl Moved {
    pub const NOTHING: Moved = Moved { count: 0, words: 0 };

    pub fn add(&mut self, other: Moved) {
        self.count += other.count;
        self.words += other.words;
    }
}

// The same with a fault, for `model run --fault NAME` alone.

/// The words of a fetch of the records pending, of which those taken are
/// applied to the copy.
pub fn words_faulty(fault: Fault, pending: &[Record], taken: &[Record], copy: &[u32]) -> u32 {
    let all = |records: &[Record]| records.iter().map(|r| r.diff.words_set()).sum();
    match fault {
        Fault::WordsSkipped => all(pending),
        Fault::WordsByRun => taken.iter().map(|r| r.diff.runs().len() as u32).sum(),
        Fault::WordsAltered => words_altered(taken, copy),
        Fault::WordsOnce => words_once(taken, copy.len()),
        // The others show elsewhere.
        _ => all(taken),
    }
}

/// Counts a word only where it gets another value.
fn words_altered(records: &[Record], copy: &[u32]) -> u32 {
    let mut copy = copy.to_vec();
    let mut altered = 0;
    for (at, word) in records.iter().flat_map(|record| &record.diff.0) {
        altered += u32::from(copy[*at] != *word);
        copy[*at] = *word;
    }
    altered
}

/// Counts a word once, however many records set it.
fn words_once(records: &[Record], page_words: usize) -> u32 {
    let is_set = |at: &usize| records.iter().any(|record| record.diff.sets(*at));
    (0..page_words).filter(is_set).count() as u32
}

/// What an accepted step of that kind answers.
pub fn handed_on_faulty(fault: Fault, kind: u8, answer: Answer) -> Answer {
    let words = match fault {
        Fault::WordsByCount => answer.count,
        Fault::WordsOfReads if kind != READ => 0,
        _ => answer.words,
    };
    Answer { words, ..answer }
}
