//! `model sweep SEEDS STEPS`: all profiles and many seeds through the model
//! and the judge, with each state asked whether it is in order, and how many
//! of the steps are accepted.

use crate::fault::FAULTS;
use crate::files::effect;
use crate::generate::{generate, PROFILES};
use crate::in_order::broken_clause;
use crate::judge::{judge, Verdict};
use crate::stepfile::{run, run_watched, stops, Line, Printed, REFUSALS};

/// What the files of one profile came to.
struct Tally {
    lines: usize,
    /// The totals of the last lines, of those files that have one.
    words: u64,
    /// How often each refusal was printed.
    refusals: [usize; REFUSALS],
    /// The smallest share of accepted steps in a file, of 100.
    least_accepted: f64,
    verdict: Verdict,
}

pub fn sweep(seeds: u64, steps: usize) -> Result<String, String> {
    let mut text = head();
    let mut total = [0; REFUSALS];
    for profile in PROFILES {
        let tally = sweep_profile(profile, seeds, steps)?;
        for (sum, n) in total.iter_mut().zip(tally.refusals) {
            *sum += n;
        }
        text.push_str(&row(profile, &tally));
    }
    text.push_str(&format!("total by refusal: {}\n", by_refusal(&total)));
    Ok(text)
}

fn head() -> String {
    let columns = [
        "profile: lines",
        "words set",
        "least share of accepted steps in a file",
        "accepted reads",
        "reads under the strong half (written before)",
        "accepted reads of tallies",
        "accepted dequeues",
        "broken",
    ];
    columns.join(", ") + "\n"
}

fn row(profile: &str, tally: &Tally) -> String {
    let v = &tally.verdict;
    let found = format!(
        "{profile}: {} lines, {} words, {:.1} % or more accepted, {} reads, {} strong ({} written), {} of tallies, {} dequeues, {} broken",
        tally.lines,
        tally.words,
        tally.least_accepted,
        v.reads,
        v.strong,
        v.strong_written,
        v.tally_reads,
        v.dequeues,
        v.broken.len()
    );
    format!("{found}\n    {}\n", by_refusal(&tally.refusals))
}

fn by_refusal(counts: &[usize; REFUSALS]) -> String {
    let seen = counts.iter().enumerate().filter(|(_, n)| **n > 0);
    let words: Vec<String> = seen.map(|(refusal, n)| format!("{refusal}:{n}")).collect();
    words.join(" ")
}

fn sweep_profile(profile: &str, seeds: u64, steps: usize) -> Result<Tally, String> {
    let mut tally = Tally {
        lines: 0,
        words: 0,
        refusals: [0; REFUSALS],
        least_accepted: 100.0,
        verdict: Verdict::default(),
    };
    for seed in 0..seeds {
        let file = generate(profile, seed, steps).ok_or("no such profile")?;
        let name = |wrong: String| format!("{profile} {seed} {steps}: {wrong}");
        let printed = run_in_order(&file).map_err(name)?;
        let verdict = judge(&file, &printed).map_err(name)?;
        tally.add(&printed, verdict);
    }
    Ok(tally)
}

/// Runs a file; an error if a state on the way is not in order.
fn run_in_order(file: &[u8]) -> Result<Printed, String> {
    let mut wrong = None;
    let answers = run_watched(file, None, &mut |model, number| {
        if let (None, Some(clause)) = (&wrong, broken_clause(model)) {
            wrong = Some(format!("after record {number} not in order: {clause}"));
        }
    });
    match wrong {
        Some(wrong) => Err(wrong),
        None => Ok(Printed::of(&answers)),
    }
}

/// How many of 100 steps that were run are accepted; all, if none was run.
pub fn accepted_share(lines: &[Line]) -> f64 {
    let is_step = |line: &&Line| line.number > 0 && !stops(line.refusal);
    let steps: Vec<&Line> = lines.iter().filter(is_step).collect();
    let accepted = steps.iter().filter(|line| line.refusal == 0).count();
    match steps.len() {
        0 => 100.0,
        run => 100.0 * accepted as f64 / run as f64,
    }
}

impl Tally {
    fn add(&mut self, printed: &Printed, verdict: Verdict) {
        let lines = &printed.lines;
        self.lines += lines.len();
        self.words += printed.words.unwrap_or(0);
        for line in lines {
            self.refusals[line.refusal as usize] += 1;
        }
        self.least_accepted = self.least_accepted.min(accepted_share(lines));
        self.verdict.reads += verdict.reads;
        self.verdict.strong += verdict.strong;
        self.verdict.strong_written += verdict.strong_written;
        self.verdict.tally_reads += verdict.tally_reads;
        self.verdict.dequeues += verdict.dequeues;
        self.verdict.broken.extend(verdict.broken);
    }
}

/// `model sweep-faults SEEDS STEPS`: of the files of each profile, how many
/// have other lines under a fault, and how many the judge finds broken.
pub fn sweep_faults(seeds: u64, steps: usize) -> String {
    let mut text = format!(
        "lines differ / broken by the judge, of {seeds} files\n{:<9}",
        ""
    );
    for (fault, _) in FAULTS {
        text.push_str(&format!(" {fault:>12}"));
    }
    for profile in PROFILES {
        text.push_str(&format!("\n{profile:<9}"));
        for (_, fault) in FAULTS {
            let effects: Vec<_> = (0..seeds)
                .filter_map(|seed| generate(profile, seed, steps))
                .map(|file| effect(&file, &run(&file, None), fault))
                .collect();
            let differ = effects.iter().filter(|e| **e != ".").count();
            let broken = effects.iter().filter(|e| **e == "judge").count();
            text.push_str(&format!(" {:>12}", format!("{differ}/{broken}")));
        }
    }
    text + "\n"
}
