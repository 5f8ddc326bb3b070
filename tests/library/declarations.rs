//! The functions of `target/staticlib/liblughtsavi.a` as `include/lughtsavi.h` declares them, and the lengths of the areas and of an answer.
//! Every program here that links the library has its declarations from this file.

// Not every program calls every function.
#![allow(dead_code)]

/// The lengths of the areas, in elements.
pub const CLOCKS: usize = 5000;
pub const WORDS: usize = 4272;
pub const RECORDS: usize = 17280;
pub const MARKS: usize = 112;
/// How many words a record is answered by: refusal, value, count, words.
pub const ANSWER: usize = 4;

unsafe extern "C" {
    pub fn lughtsavi_open(
        opening: *const u8,
        opening_len: usize,
        clocks: *mut u8,
        clocks_len: usize,
        words: *mut u32,
        words_len: usize,
        records: *mut u8,
        records_len: usize,
        marks: *mut u8,
        marks_len: usize,
    ) -> u8;
    pub fn lughtsavi_in_order(
        clocks: *const u8,
        clocks_len: usize,
        words: *const u32,
        words_len: usize,
        records: *const u8,
        records_len: usize,
        marks: *const u8,
        marks_len: usize,
    ) -> bool;
    pub fn lughtsavi_step(
        kind: u32,
        processor: u32,
        object: u32,
        value: u32,
        answer: *mut u32,
        answer_len: usize,
        clocks: *mut u8,
        clocks_len: usize,
        words: *mut u32,
        words_len: usize,
        records: *mut u8,
        records_len: usize,
        marks: *mut u8,
        marks_len: usize,
    ) -> u8;
    pub fn lughtsavi_run(
        bytes: *const u8,
        bytes_len: usize,
        answers: *mut u32,
        answers_len: usize,
        clocks: *mut u8,
        clocks_len: usize,
        words: *mut u32,
        words_len: usize,
        records: *mut u8,
        records_len: usize,
        marks: *mut u8,
        marks_len: usize,
    ) -> usize;
    pub fn lughtsavi_diff_write(
        old_page: *const u32,
        old_page_len: usize,
        new_page: *const u32,
        new_page_len: usize,
        out: *mut u8,
        out_len: usize,
    ) -> u32;
    pub fn lughtsavi_diff_check(bytes: *const u8, bytes_len: usize) -> u8;
    pub fn lughtsavi_diff_apply(
        bytes: *const u8,
        bytes_len: usize,
        page: *mut u32,
        page_len: usize,
    ) -> u32;
}
