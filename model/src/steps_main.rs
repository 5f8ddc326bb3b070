//! The bench tools `./steps`: step files in words, and what a run of one did.
//! The answers shown are those of the proved run program, the areas those of
//! the static library; nothing of the tools themselves is proved.

#![forbid(unsafe_code)]

// Of the second model: the fields of a step, and the judge with what it rests
// on. The tools use a part of these.
#[allow(dead_code)]
mod arrival_judge;
#[allow(dead_code)]
mod clock;
#[allow(dead_code)]
mod diff;
#[allow(dead_code)]
mod fault;
#[allow(dead_code)]
mod judge;
#[allow(dead_code)]
mod model;
#[allow(dead_code)]
mod moved;
#[allow(dead_code)]
mod queue;
#[allow(dead_code)]
mod queue_judge;
#[allow(dead_code)]
mod skip;
#[allow(dead_code)]
mod stepfile;
#[allow(dead_code)]
mod tally_judge;

// The generator, for the tests.
#[cfg(test)]
#[allow(dead_code)]
mod batons;
#[cfg(test)]
#[allow(dead_code)]
mod blend;
#[cfg(test)]
#[allow(dead_code)]
mod generate;
#[cfg(test)]
#[allow(dead_code)]
mod jobs;
#[cfg(test)]
#[allow(dead_code)]
mod plan;
#[cfg(test)]
#[allow(dead_code)]
mod rng;
#[cfg(test)]
#[allow(dead_code)]
mod script;
#[cfg(test)]
#[allow(dead_code)]
mod triggers;

mod steps;

fn main() -> std::process::ExitCode {
    steps::command::main()
}
