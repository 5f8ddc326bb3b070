//! Safe functions around those of `target/staticlib/liblughtsavi.a` that
//! take a step. Shared by the benchmark of single operations and by the fuzz
//! driver.

#[path = "../tests/library/declarations.rs"]
mod declarations;

use declarations as c;
pub use declarations::{ANSWER, CLOCKS, MARKS, RECORDS, WORDS};

/// The four areas lent to a call that may write them.
pub struct Lent<'a> {
    pub clocks: &'a mut [u8],
    pub words: &'a mut [u32],
    pub records: &'a mut [u8],
    pub marks: &'a mut [u8],
}

/// The four areas lent to a call that only reads them.
#[derive(Clone, Copy)]
pub struct Shown<'a> {
    pub clocks: &'a [u8],
    pub words: &'a [u32],
    pub records: &'a [u8],
    pub marks: &'a [u8],
}

/// The fields of a step.
#[derive(Clone, Copy, Debug)]
pub struct Step {
    pub kind: u32,
    pub processor: u32,
    pub object: u32,
    pub value: u32,
}

/// Opens a mainframe; answers 0 or the refusal.
pub fn open(opening: &[u8], areas: Lent) -> u8 {
    // Slices give valid pointers, and mutable ones do not overlap.
    unsafe {
        c::lughtsavi_open(
            opening.as_ptr(),
            opening.len(),
            areas.clocks.as_mut_ptr(),
            areas.clocks.len(),
            areas.words.as_mut_ptr(),
            areas.words.len(),
            areas.records.as_mut_ptr(),
            areas.records.len(),
            areas.marks.as_mut_ptr(),
            areas.marks.len(),
        )
    }
}

/// Whether the areas hold a state in order.
pub fn in_order(areas: Shown) -> bool {
    // Slices give valid pointers.
    unsafe {
        c::lughtsavi_in_order(
            areas.clocks.as_ptr(),
            areas.clocks.len(),
            areas.words.as_ptr(),
            areas.words.len(),
            areas.records.as_ptr(),
            areas.records.len(),
            areas.marks.as_ptr(),
            areas.marks.len(),
        )
    }
}

/// One step; answers 0 or the refusal, with refusal, value, count and words
/// in `answer`.
pub fn step(step: Step, answer: &mut [u32], areas: Lent) -> u8 {
    // Slices give valid pointers, and mutable ones do not overlap.
    unsafe {
        c::lughtsavi_step(
            step.kind,
            step.processor,
            step.object,
            step.value,
            answer.as_mut_ptr(),
            answer.len(),
            areas.clocks.as_mut_ptr(),
            areas.clocks.len(),
            areas.words.as_mut_ptr(),
            areas.words.len(),
            areas.records.as_mut_ptr(),
            areas.records.len(),
            areas.marks.as_mut_ptr(),
            areas.marks.len(),
        )
    }
}
