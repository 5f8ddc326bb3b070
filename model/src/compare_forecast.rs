//! `model compare-forecast PROGRAM`: what a forecast program prints against the
//! model's forecast and against what is counted in the model's run, byte for
//! byte, and against what it prints where every value is 0.

use crate::agree::{agrees, agrees_with_stored};
use crate::compare::{input, Checks, Comparison, SURPLUS};
use crate::forecast::forecast;
use crate::forecast_check::{counted, without_values};
use crate::plan::Source;
use crate::program::{Input, Ran};

impl Comparison<'_> {
    pub fn try_forecast(&self, source: &Source, file: &[u8]) {
        let due = forecast(file, None).text().into_bytes();
        let most = due.len() + SURPLUS;
        let ran = self.run(input(source, file), most);
        let bare = match ran.ending.is_hopeless() {
            false => Some(self.run_without_values(file, most)),
            true => None,
        };
        let both = [&ran, bare.as_ref().unwrap_or(&ran)];
        let checks = forecast_checks(source, file, &due, both);
        let texts = [("steps", file), ("due", &due), ("printed", &ran.output)];
        self.count(source, checks, Some(texts));
    }

    fn run_without_values(&self, file: &[u8], most: usize) -> Ran {
        let bytes = &without_values(file);
        let piece = bytes.len().max(1);
        self.run(Input::Pipe { bytes, piece }, most)
    }
}

/// Of what a program prints for a file, and for the same without its values. The
/// run has its numbers and refusals, and its figures in the state.
pub fn forecast_checks(source: &Source, file: &[u8], due: &[u8], ran: [&Ran; 2]) -> Checks {
    let [ran, bare] = ran;
    let mut checks = Checks::default();
    if let Some(stored) = source.forecast() {
        checks.add("by its .forecast", agrees_with_stored(&stored, ran));
    }
    checks.add("by the model", agrees(due, ran));
    checks.add("by the run", agrees(counted(file).text().as_bytes(), ran));
    checks.add("without values", agrees(&ran.output, bare));
    checks
}
