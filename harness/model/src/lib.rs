//! Document 01, and document 02's requests One to Five and Seven, in plain Rust: a second implementation, written from their text for comparing,
//! not for speed.
//!
//! A refusal is its number; `Answer` is what a call returns.
pub mod arithmetic;
pub mod catalogue;
pub mod cost;
pub mod journal;
pub mod ledger;
pub mod plan;
pub mod roll;
pub mod windows;

pub use plan::Plan;
pub use roll::{Optimal, Roll};

pub type Answer<A> = Result<A, u8>;

/// The number of the first condition that holds.
pub fn first(conditions: &[(bool, u8)]) -> Answer<()> {
    match conditions.iter().find(|(holds, _)| *holds) {
        Some((_, number)) => Err(*number),
        None => Ok(()),
    }
}
