//! The bench tools, a module for each concern.

mod areas;
pub mod command;
mod explain;
mod help;
mod hindrance;
mod input;
mod layout;
mod ledger;
mod order;
mod pack;
mod picture;
mod progress;
mod proved;
mod reading;
mod refusal;
mod scene;
mod sentence;
mod state;
mod summary;
mod svg;
#[cfg(test)]
mod tests;
mod text;
mod walk;
mod writes;
