//! `model forecast` (document 02, request L8): "A second program reads a step
//! file and, keeping no page contents and no values, prints for each record its
//! number, its refusal, the records standing and the dirty pages after it."
//! `space.rs` is what it keeps.

use crate::forecast_lines::{Figures, Forecast, Line};
use crate::model::Step;
use crate::space::Space;
use crate::space_fault::SpaceFault;

/// "the 1,000,000th step record"
const STEPS: usize = 1_000_000;

/// The forecast for a file.
pub fn forecast(file: &[u8], fault: Option<SpaceFault>) -> Forecast {
    let right = Forecast::of(lines(file, fault));
    match fault {
        None => right,
        Some(fault) => printed_faulty(fault, right),
    }
}

/// "on a line of 2, 15 or 16 both figures are those before it, or 0 and 0 before
/// an accepted opening." A step that is refused changes nothing either.
fn lines(file: &[u8], fault: Option<SpaceFault>) -> Vec<Line> {
    let first = |refusal| Line {
        number: 0,
        refusal,
        figures: Figures::default(),
    };
    // "15: it ends within a record, or before the opening"
    let Some((opening, steps)) = file.split_first_chunk() else {
        return vec![first(15)];
    };
    let Some(mut space) = Space::open(*opening, fault) else {
        return vec![first(2)];
    };
    let mut lines = vec![first(0)];
    for (before, record) in steps.chunks(8).enumerate() {
        let number = before + 1;
        let refusal = refusal(&mut space, number, record);
        lines.push(Line {
            number,
            refusal,
            figures: space.figures(),
        });
        if refusal == 16 {
            break;
        }
    }
    lines
}

/// That of step record `number`, of which at least one byte is there.
fn refusal(space: &mut Space, number: usize, record: &[u8]) -> u32 {
    match record.try_into() {
        Err(_) => 15,
        // "16: a whole record follows the 1,000,000th step record"
        Ok(_) if number > STEPS => 16,
        Ok(record) => space.step(&Step::from_bytes(record)),
    }
}

/// What is printed by a program with a fault, for `model forecast --fault NAME`
/// alone.
fn printed_faulty(fault: SpaceFault, right: Forecast) -> Forecast {
    let Forecast { mut lines, most } = right;
    let last = lines.len() - 1;
    let stopped = matches!(lines[last].refusal, 2 | 15 | 16);
    let records = lines.iter().map(|line| line.figures.records).max();
    let most = match fault {
        SpaceFault::MostLast => Some(lines[last].figures.sum()),
        SpaceFault::MostRecords => records,
        SpaceFault::MostUnstopped if stopped => None,
        // The others show elsewhere.
        _ => most,
    };
    match fault {
        SpaceFault::StopZero if stopped => lines[last].figures = Figures::default(),
        SpaceFault::FiguresBefore => {
            for at in (1..lines.len()).rev() {
                lines[at].figures = lines[at - 1].figures;
            }
        }
        _ => {}
    }
    Forecast { lines, most }
}
