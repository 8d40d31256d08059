//! The rolls that a sweep tries at each cell, in this order: even steps, or a table of those that the spacecraft can hold.
use crate::text::{counted, number};

#[derive(Clone, Debug, PartialEq)]
pub enum Rolls {
    /// n even steps from 0. Any n is read; the library refuses it with 3.
    Even(u64),
    /// In degrees. Any list is read; the library refuses it with 18 and 19.
    Table(Vec<f64>),
}

/// What the key may be.
pub const ALLOWED: &str = "a whole number of rolls, 1 to 3600, or a list of 1 to 3600 rolls in degrees";

impl Rolls {
    /// How many there are: the header's n.
    pub fn count(&self) -> u64 {
        match self {
            Rolls::Even(n) => *n,
            Rolls::Table(table) => table.len() as u64,
        }
    }
    pub fn table(&self) -> Option<&[f64]> {
        match self {
            Rolls::Even(_) => None,
            Rolls::Table(table) => Some(table),
        }
    }
    /// How many in a few words, and of a table between which, with a unit after each number.
    pub fn in_words(&self, unit: &str) -> String {
        let (count, shown) = (counted(self.count(), "roll"), |x: &f64| number(*x) + unit);
        match self.table() {
            None => count,
            Some([]) => format!("a table of {}", count),
            Some([one]) => format!("a table of {} at {}", count, shown(one)),
            Some([first, .., last]) => format!("a table of {} from {} to {}", count, shown(first), shown(last)),
        }
    }
    /// How far from the nearest of them a roll can be, in degrees: half the largest gap between two neighbours around the circle. The even steps
    /// are 360 / n apart; one roll is its own neighbour, 360 apart.
    pub fn half_gap(&self) -> f64 {
        match self {
            Rolls::Even(n) => 180.0 / *n as f64,
            Rolls::Table(table) => {
                let within = table.last().zip(table.first()).map_or(0.0, |(last, first)| last - first);
                // From the last roll on to the first: of one roll 360, to the bit.
                table.windows(2).map(|pair| pair[1] - pair[0]).fold(360.0 - within, f64::max) / 2.0
            }
        }
    }
}

#[cfg(test)]
mod tests {
    use super::*;

    fn table(rolls: &[f64]) -> Rolls {
        Rolls::Table(rolls.to_vec())
    }

    #[test]
    fn half_the_largest_gap_is_taken_around_the_circle() {
        for (rolls, half) in [
            (Rolls::Even(1), 180.0),
            (Rolls::Even(24), 7.5),
            (table(&[0.0]), 180.0),
            (table(&[0.1]), 180.0),
            (table(&[359.99999999999994]), 180.0),
            (table(&[0.0, 90.0, 180.0, 270.0]), 45.0),
            // Between two, and from the last to the first.
            (table(&[0.0, 90.0, 250.0]), 80.0),
            (table(&[100.0, 110.0, 130.0]), 165.0),
            (table(&[10.0, 350.0]), 170.0),
            (table(&[0.0, 15.5, 90.0, 359.5]), 134.75),
        ] {
            assert_eq!(rolls.half_gap(), half, "{:?}", rolls);
        }
    }
    #[test]
    fn rolls_in_words() {
        for (rolls, words) in [
            (Rolls::Even(1), "1 roll"),
            (Rolls::Even(3600), "3,600 rolls"),
            (table(&[]), "a table of 0 rolls"),
            (table(&[47.5]), "a table of 1 roll at 47.5°"),
            (table(&[-0.0, 359.5]), "a table of 2 rolls from -0° to 359.5°"),
            (table(&[0.0, 15.5, 90.0]), "a table of 3 rolls from 0° to 90°"),
        ] {
            assert_eq!(rolls.in_words("°"), words);
        }
    }
}
