//! Tests of the bench tools, run from the project's root with target/bin/run
//! and model/bin/areas built (tests/steps/run does it).

mod areas;
mod corpus;
mod explaining;
mod jobs;
mod packing;
mod pictures;
mod refusals;
mod replies;
