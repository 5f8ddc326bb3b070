//! `areas`: the records on standard input are run by the static library, in
//! one call, and its four areas are printed as they are: clocks, words (four
//! bytes each, low byte first), records, marks. Status 1 where the opening is
//! refused. It is the one program of the bench tools that calls the engine.

#[path = "../../tests/library/declarations.rs"]
mod declarations;

use declarations::{lughtsavi_run, ANSWER, CLOCKS, MARKS, RECORDS, WORDS};
use std::io::{self, Read, Write};
use std::process::ExitCode;

fn main() -> ExitCode {
    let mut file = Vec::new();
    let read = io::stdin().lock().read_to_end(&mut file);
    let printed = read.and_then(|_| match areas_after(&file) {
        Some(areas) => io::stdout().write_all(&areas).map(|()| true),
        None => Ok(false),
    });
    match printed {
        Ok(true) => ExitCode::SUCCESS,
        Ok(false) => {
            eprintln!("areas: the opening is refused");
            ExitCode::FAILURE
        }
        Err(why) => {
            eprintln!("areas: {why}");
            ExitCode::FAILURE
        }
    }
}

/// The areas after all whole records of a file; nothing where the opening is
/// refused or not whole.
fn areas_after(file: &[u8]) -> Option<Vec<u8>> {
    let records = file.len() / 8;
    let mut answers = vec![0u32; ANSWER * records.max(1)];
    let mut clocks = vec![0u8; CLOCKS];
    let mut words = vec![0u32; WORDS];
    let mut slots = vec![0u8; RECORDS];
    let mut marks = vec![0u8; MARKS];
    // Each pointer is that of a vector of the length beside it, and they are
    // all different vectors.
    let run = unsafe {
        lughtsavi_run(
            file.as_ptr(),
            8 * records,
            answers.as_mut_ptr(),
            answers.len(),
            clocks.as_mut_ptr(),
            clocks.len(),
            words.as_mut_ptr(),
            words.len(),
            slots.as_mut_ptr(),
            slots.len(),
            marks.as_mut_ptr(),
            marks.len(),
        )
    };
    let accepted = run == records && records > 0 && answers[0] == 0;
    accepted.then(|| {
        let words = words.iter().flat_map(|word| word.to_le_bytes());
        clocks
            .into_iter()
            .chain(words)
            .chain(slots)
            .chain(marks)
            .collect()
    })
}
