//! The table of the benchmark: the times on each file, their ratios, and whether
//! the targets are met.

use crate::content::Content;
use crate::Case;
use std::time::Duration;

/// How many times as fast as the model the run program must be.
const OVER_MODEL: f64 = 5.0;
/// How many times the floor's time the forecast may take: it moves no words.
const FORECAST_MOST: f64 = 2.0;

/// The best time of each program on one file.
pub struct Times {
    pub run: Duration,
    pub forecast: Duration,
    pub model: Duration,
    pub floor: Duration,
}

impl Times {
    /// Longer than any.
    pub const WORST: Times = Times {
        run: Duration::MAX,
        forecast: Duration::MAX,
        model: Duration::MAX,
        floor: Duration::MAX,
    };

    /// Whether every target is met.
    pub fn met(&self, case: &Case) -> bool {
        self.missed(case).is_empty()
    }

    /// The targets that are not met.
    fn missed(&self, case: &Case) -> Vec<&'static str> {
        let targets = [
            ("floor", self.run_over_floor() <= case.most),
            ("model", self.model_over_run() >= OVER_MODEL),
            ("forecast", self.forecast_over_floor() <= FORECAST_MOST),
        ];
        let missed = targets.iter().filter(|(_, met)| !met);
        missed.map(|(name, _)| *name).collect()
    }

    fn run_over_floor(&self) -> f64 {
        over(self.run, self.floor)
    }

    fn forecast_over_floor(&self) -> f64 {
        over(self.forecast, self.floor)
    }

    fn model_over_run(&self) -> f64 {
        over(self.model, self.run)
    }
}

fn over(time: Duration, other: Duration) -> f64 {
    time.as_secs_f64() / other.as_secs_f64()
}

fn millis(time: Duration) -> f64 {
    1000.0 * time.as_secs_f64()
}

pub fn head() -> String {
    format!(
        "{:<7} {:>9} {:>9} {:>9} {:>9} {:>9} {:>10} {:>6} {:>10} {:>6} {:>15} {:>6}  {}",
        "file",
        "accepted",
        "run",
        "forecast",
        "model",
        "floor",
        "run/floor",
        "most",
        "model/run",
        "least",
        "forecast/floor",
        "most",
        "target"
    )
}

pub fn row(case: &Case, content: &Content, times: &Times) -> String {
    let missed = times.missed(case);
    let target = match missed.is_empty() {
        true => "met".to_string(),
        false => format!("NOT met: {}", missed.join(", ")),
    };
    format!(
        "{:<7} {:>7.1} % {:>9.1} {:>9.1} {:>9.1} {:>9.1} {:>10.2} {:>6.1} {:>10.2} {:>6.1} {:>15.2} {:>6.1}  {target}",
        case.profile,
        content.share(),
        millis(times.run),
        millis(times.forecast),
        millis(times.model),
        millis(times.floor),
        times.run_over_floor(),
        case.most,
        times.model_over_run(),
        OVER_MODEL,
        times.forecast_over_floor(),
        FORECAST_MOST,
    )
}
