//! What a forecast is held to (document 02, request L8): "These must equal what
//! the run itself has, for every file: since L2 no refusal depends on a stored
//! value." The run is that of the full model.

use crate::forecast_lines::{Figures, Forecast, Line};
use crate::model::{Model, ENQUEUE, TALLY_ADD, WRITE};
use crate::stepfile::run_watched;

/// The numbers and refusals of the run's lines, with what is counted in its state
/// after each record. A run that stops leaves its state as it was.
pub fn counted(file: &[u8]) -> Forecast {
    let mut figures = Vec::new();
    let answers = run_watched(file, None, &mut |model, _| figures.push(figures_of(model)));
    let last = figures.last().copied().unwrap_or_default();
    let line = |(number, refusal)| Line {
        number,
        refusal,
        figures: figures.get(number).copied().unwrap_or(last),
    };
    let refusals = answers.iter().map(|answer| answer.refusal);
    Forecast::of(refusals.enumerate().map(line).collect())
}

fn figures_of(model: &Model) -> Figures {
    let records = model.records.len();
    Figures {
        records,
        dirty: model.records_and_dirty() - records,
    }
}

/// The file with 0 for each value that is stored, added to a tally or enqueued.
pub fn without_values(file: &[u8]) -> Vec<u8> {
    let mut file = file.to_vec();
    for step in file.chunks_exact_mut(8).skip(1) {
        if matches!(step[0], WRITE | TALLY_ADD | ENQUEUE) {
            step[4..].fill(0);
        }
    }
    file
}
