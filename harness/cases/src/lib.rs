//! Inputs of every kind, from a seed: the same seed gives the same inputs on every machine.
pub mod catalogue;
pub mod plans;
pub mod rows;
mod seeded;

pub use seeded::Seeded;
