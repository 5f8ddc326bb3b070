//! The functions of the static library called with slices.

#[path = "declarations.rs"]
mod declarations;

use declarations::*;
pub use declarations::{ANSWER, CLOCKS, MARKS, RECORDS, WORDS};

/// The four areas.
#[derive(Clone, PartialEq)]
pub struct Areas {
    pub clocks: Vec<u8>,
    pub words: Vec<u32>,
    pub records: Vec<u8>,
    pub marks: Vec<u8>,
}

impl Areas {
    /// Areas of the right sizes, full of bytes that no state has.
    pub fn garbage(seed: u32) -> Areas {
        let mut x = seed;
        let mut next = || {
            x = x.wrapping_mul(1_664_525).wrapping_add(1_013_904_223);
            x ^ (x >> 16)
        };
        Areas {
            clocks: (0..CLOCKS).map(|_| next() as u8).collect(),
            words: (0..WORDS).map(|_| next()).collect(),
            records: (0..RECORDS).map(|_| next() as u8).collect(),
            marks: (0..MARKS).map(|_| next() as u8).collect(),
        }
    }
}

/// A step's four fields: kind, processor, object, value.
pub type Step = (u32, u32, u32, u32);

/// Refusal, value, count, words.
pub type Answer = [u32; ANSWER];

/// What lies in an answer before a step.
pub const UNANSWERED: Answer = [77; ANSWER];

/// The answer of a step that is done and has no value and no count.
pub const DONE: Answer = [0; ANSWER];

/// The fields of a record of a step file.
pub fn fields_of(record: &[u8]) -> Step {
    (
        u32::from(record[0]),
        u32::from(record[1]),
        u32::from(u16::from_le_bytes([record[2], record[3]])),
        u32::from_le_bytes([record[4], record[5], record[6], record[7]]),
    )
}

pub fn open(opening: &[u8], a: &mut Areas) -> u8 {
    unsafe {
        lughtsavi_open(
            opening.as_ptr(),
            opening.len(),
            a.clocks.as_mut_ptr(),
            a.clocks.len(),
            a.words.as_mut_ptr(),
            a.words.len(),
            a.records.as_mut_ptr(),
            a.records.len(),
            a.marks.as_mut_ptr(),
            a.marks.len(),
        )
    }
}

pub fn in_order(a: &Areas) -> bool {
    unsafe {
        lughtsavi_in_order(
            a.clocks.as_ptr(),
            a.clocks.len(),
            a.words.as_ptr(),
            a.words.len(),
            a.records.as_ptr(),
            a.records.len(),
            a.marks.as_ptr(),
            a.marks.len(),
        )
    }
}

pub fn step((kind, processor, object, value): Step, answer: &mut [u32], a: &mut Areas) -> u8 {
    unsafe {
        lughtsavi_step(
            kind,
            processor,
            object,
            value,
            answer.as_mut_ptr(),
            answer.len(),
            a.clocks.as_mut_ptr(),
            a.clocks.len(),
            a.words.as_mut_ptr(),
            a.words.len(),
            a.records.as_mut_ptr(),
            a.records.len(),
            a.marks.as_mut_ptr(),
            a.marks.len(),
        )
    }
}

pub fn run(bytes: &[u8], answers: &mut [u32], a: &mut Areas) -> usize {
    unsafe {
        lughtsavi_run(
            bytes.as_ptr(),
            bytes.len(),
            answers.as_mut_ptr(),
            answers.len(),
            a.clocks.as_mut_ptr(),
            a.clocks.len(),
            a.words.as_mut_ptr(),
            a.words.len(),
            a.records.as_mut_ptr(),
            a.records.len(),
            a.marks.as_mut_ptr(),
            a.marks.len(),
        )
    }
}

pub fn diff_write(old: &[u32], new: &[u32], out: &mut [u8]) -> u32 {
    unsafe {
        lughtsavi_diff_write(
            old.as_ptr(),
            old.len(),
            new.as_ptr(),
            new.len(),
            out.as_mut_ptr(),
            out.len(),
        )
    }
}

pub fn diff_check(bytes: &[u8]) -> u8 {
    unsafe { lughtsavi_diff_check(bytes.as_ptr(), bytes.len()) }
}

pub fn diff_apply(bytes: &[u8], page: &mut [u32]) -> u32 {
    unsafe { lughtsavi_diff_apply(bytes.as_ptr(), bytes.len(), page.as_mut_ptr(), page.len()) }
}
