//! What a forecast prints: a line for each record, then "most" (document 02,
//! request L8).

use std::fmt::{self, Display, Write};

/// "the records standing and the dirty pages"
#[derive(Clone, Copy, Debug, PartialEq, Eq, Default)]
pub struct Figures {
    pub records: usize,
    pub dirty: usize,
}

impl Figures {
    pub fn sum(&self) -> usize {
        self.records + self.dirty
    }
}

/// "its number, its refusal, the records standing and the dirty pages after it"
#[derive(Clone, Copy, Debug, PartialEq, Eq)]
pub struct Line {
    pub number: usize,
    pub refusal: u32,
    pub figures: Figures,
}

impl Display for Line {
    fn fmt(&self, f: &mut fmt::Formatter) -> fmt::Result {
        let Figures { records, dirty } = self.figures;
        write!(f, "{} {} {records} {dirty}", self.number, self.refusal)
    }
}

#[derive(Clone, Debug, PartialEq, Eq)]
pub struct Forecast {
    pub lines: Vec<Line>,
    /// The number of the last line, if there is one.
    pub most: Option<usize>,
}

impl Forecast {
    /// "Its last line, always printed, is "most", a space and the largest sum of
    /// records and dirty pages on its lines, 0 if all are 0."
    pub fn of(lines: Vec<Line>) -> Forecast {
        let sums = lines.iter().map(|line| line.figures.sum());
        let most = sums.max().unwrap_or(0);
        Forecast {
            lines,
            most: Some(most),
        }
    }

    pub fn text(&self) -> String {
        let mut text = String::new();
        // Writing to a string does not fail.
        for line in &self.lines {
            let _ = writeln!(text, "{line}");
        }
        if let Some(most) = self.most {
            let _ = writeln!(text, "most {most}");
        }
        text
    }
}
