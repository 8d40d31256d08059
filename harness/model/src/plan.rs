//! The plan, its cells, and refusals 1 to 6 and 17 to 20.
use crate::{first, Answer};
use std::fmt;

/// Its lists are read by row through `target`, `tolerance` and `panel`, its rolls by sample through `roll`, so that one place defines what a row or a
/// sample has of them.
#[derive(Clone, Debug, Default)]
pub struct Plan {
    /// Three numbers per direction or position.
    pub targets: Vec<f64>,
    pub suns: Vec<f64>,
    pub observers: Vec<f64>,
    /// Degrees: one entry per target.
    pub tolerances: Vec<f64>,
    /// The configured roll.
    pub roll_deg: Option<f64>,
    /// Three numbers per panel normal: one panel, for every row.
    pub panels: Vec<f64>,
    pub rolls: Rolls,
}

/// What a sweep tries, in this order.
#[derive(Clone)]
pub enum Rolls {
    /// n even steps from 0; any n, also one that is refused.
    Even(u64),
    /// Request Five's; any numbers, also ones that are refused.
    Table(Vec<f64>),
}

impl Rolls {
    /// None where they are even steps.
    pub fn table(&self) -> Option<&[f64]> {
        match self {
            Rolls::Even(_) => None,
            Rolls::Table(table) => Some(table),
        }
    }
}

impl Default for Rolls {
    fn default() -> Rolls {
        Rolls::Even(0)
    }
}

/// How many there are, and a few: a message has no use for 3,600 rolls.
impl fmt::Debug for Rolls {
    fn fmt(&self, f: &mut fmt::Formatter) -> fmt::Result {
        match self {
            Rolls::Even(n) => write!(f, "{n} even"),
            Rolls::Table(table) if table.len() <= 8 => write!(f, "a table of {} {table:?}", table.len()),
            Rolls::Table(table) => write!(f, "a table of {}", table.len()),
        }
    }
}

/// The rolls that a call takes, and so which of the refusals 3, 18 and 19 it has.
#[derive(Clone, Copy)]
pub enum Third {
    /// It takes no rolls.
    Nothing,
    /// The plan has 1 to 3,600 of them, and where they are a table it is one that is accepted.
    Sweep,
    /// It takes n even steps beside the plan; 0 too.
    Every(u64),
}

fn too_large(x: f64) -> bool {
    !x.is_finite() || x.abs() > 1e100
}

fn triple(list: &[f64], k: usize) -> [f64; 3] {
    [list[3 * k], list[3 * k + 1], list[3 * k + 2]]
}

pub fn bad_position(v: &[f64]) -> bool {
    v.iter().any(|&x| too_large(x))
}

pub fn bad_direction(v: &[f64]) -> bool {
    v.iter().any(|&x| !(-1.0..=1.0).contains(&x))
}

/// 2, of any numbers: where the product would wrap, one of them is over its own limit.
pub fn too_many(targets: u64, times: u64) -> bool {
    targets > 65_536 || times > 65_536 || targets * times > 1_048_576
}

/// 3 of a sweep, 18 of a table's length.
pub fn bad_samples(n: u64) -> bool {
    !(1..=3600).contains(&n)
}

/// 19: a roll not within 0 to below 360, as NaN is not, or not above the one before it. -0 is within, and 0 is not above it.
fn bad_table(table: &[f64]) -> bool {
    !table.iter().all(|roll| (0.0..360.0).contains(roll)) || !table.windows(2).all(|pair| pair[0] < pair[1])
}

/// A direction's squared length, summed left to right.
pub fn squared_length(v: [f64; 3]) -> f64 {
    v[0] * v[0] + v[1] * v[1] + v[2] * v[2]
}

/// Within 1e-9 of 1 in its squared length.
pub fn is_unit(v: [f64; 3]) -> bool {
    (squared_length(v) - 1.0).abs() <= 1e-9
}

/// 5 of every direction, then 20 of every direction.
pub fn direction_refusals(directions: &[f64]) -> [(bool, u8); 2] {
    let count = directions.len() / 3;
    [(bad_direction(directions), 5), (!(0..count).all(|k| is_unit(triple(directions, k))), 20)]
}

impl Plan {
    pub fn rows(&self) -> usize {
        self.targets.len() / 3
    }
    pub fn times(&self) -> usize {
        self.suns.len() / 3
    }
    pub fn cells(&self) -> usize {
        self.rows() * self.times()
    }
    /// How many rolls a sweep tries.
    pub fn n(&self) -> u64 {
        match &self.rolls {
            Rolls::Even(n) => *n,
            Rolls::Table(table) => table.len() as u64,
        }
    }
    /// The roll of sample k.
    pub fn roll(&self, k: u64) -> f64 {
        match &self.rolls {
            Rolls::Even(n) => k as f64 * (360.0 / *n as f64),
            Rolls::Table(table) => table[k as usize],
        }
    }
    /// The same over as many even steps.
    pub fn stepped(&self) -> Plan {
        Plan { rolls: Rolls::Even(self.n()), ..self.clone() }
    }
    /// The rolls of all samples, as a table.
    pub fn all_rolls(&self) -> Vec<f64> {
        (0..self.n()).map(|k| self.roll(k)).collect()
    }
    pub fn target(&self, row: usize) -> [f64; 3] {
        triple(&self.targets, row)
    }
    pub fn tolerance(&self, row: usize) -> f64 {
        self.tolerances[row]
    }
    pub fn panel(&self, _row: usize) -> [f64; 3] {
        triple(&self.panels, 0)
    }
    /// The header's: the first entry, or zeros without targets.
    pub fn head_tolerance(&self) -> f64 {
        self.tolerances.first().copied().unwrap_or(0.0)
    }
    /// The one panel, for what has room for no more: a header, a C name, a file. A plan without rows has it too.
    pub fn head_panel(&self) -> [f64; 3] {
        assert_eq!(self.panels.len(), 3, "one panel");
        triple(&self.panels, 0)
    }
    pub fn sun(&self, time: usize) -> [f64; 3] {
        triple(&self.suns, time)
    }
    pub fn observer(&self, time: usize) -> [f64; 3] {
        triple(&self.observers, time)
    }

    /// 3, or 18 and 19 instead.
    fn third_refusal(&self, third: Third) -> Answer<()> {
        match (third, &self.rolls) {
            (Third::Nothing, _) => Ok(()),
            (Third::Sweep, Rolls::Even(n)) => first(&[(bad_samples(*n), 3)]),
            (Third::Sweep, Rolls::Table(table)) => first(&[(bad_samples(self.n()), 18), (bad_table(table), 19)]),
            (Third::Every(n), _) => first(&[(n > 3600, 3)]),
        }
    }
    /// *Plan*, before every call with positions. `beyond`: a used length is beyond its buffer.
    pub fn refusal(&self, third: Third, beyond: bool) -> Answer<()> {
        let lengths = [&self.targets, &self.suns, &self.observers];
        first(&[
            (lengths.iter().any(|l| l.len() % 3 != 0) || self.suns.len() != self.observers.len() || beyond, 1),
            (too_many(self.rows() as u64, self.times() as u64), 2),
        ])?;
        self.third_refusal(third)?;
        first(&[(bad_position(&self.suns) || bad_position(&self.observers), 4)])?;
        first(&direction_refusals(&self.targets))?;
        first(&[(bad_position(&self.panels), 6), (self.tolerances.len() != self.rows(), 17)])
    }
}

#[cfg(test)]
mod tests {
    use super::*;

    fn accepted() -> Plan {
        Plan {
            targets: [1.0, 0.0, 0.0].repeat(2),
            suns: vec![0.0; 9],
            observers: vec![0.0; 9],
            tolerances: vec![10.0, 20.0],
            panels: vec![0.0, 1.0, 0.0],
            rolls: Rolls::Even(1),
            ..Plan::default()
        }
    }

    #[test]
    fn a_wrong_number_of_tolerances_is_refused_straight_after_6() {
        let good = accepted();
        assert_eq!(good.refusal(Third::Sweep, false), Ok(()));
        for length in [0, 1, 3, 6] {
            let p = Plan { tolerances: vec![10.0; length], ..good.clone() };
            let said = |spoil: fn(&mut Plan)| {
                let mut p = p.clone();
                spoil(&mut p);
                p.refusal(Third::Sweep, false)
            };
            assert_eq!(said(|_| ()), Err(17), "{length}");
            assert_eq!(said(|p| p.panels[2] = f64::NAN), Err(6), "{length}");
            assert_eq!(said(|p| p.targets[5] = 1.5), Err(5), "{length}");
            assert_eq!(said(|p| p.targets[3] = 0.5), Err(20), "{length}");
            assert_eq!(said(|p| p.suns[8] = f64::NAN), Err(4), "{length}");
        }
    }

    #[test]
    fn the_header_holds_the_first_tolerance() {
        let mut p = Plan { tolerances: vec![-0.0, 7.0], ..Plan::default() };
        assert_eq!(p.head_tolerance().to_bits(), 1 << 63);
        p.tolerances.clear();
        assert_eq!(p.head_tolerance().to_bits(), 0);
    }
    #[test]
    fn a_table_is_refused_with_18_or_19_where_even_steps_are_with_3() {
        for (table, number) in [(vec![], 18), (vec![f64::NAN; 3601], 18), (vec![5.0, 5.0], 19), (vec![f64::NAN], 19)] {
            let p = Plan { rolls: Rolls::Table(table), ..accepted() };
            let after: [fn(&mut Plan); 5] =
                [|_| (), |p| p.tolerances.clear(), |p| p.panels[1] = f64::NAN, |p| p.targets[0] = 1.5, |p| p.suns[0] = f64::NAN];
            for spoil in after {
                let mut p = p.clone();
                spoil(&mut p);
                assert_eq!(p.refusal(Third::Sweep, false), Err(number));
                assert_eq!(p.refusal(Third::Sweep, true), Err(1));
                p.targets = [1.0, 0.0, 0.0].repeat(65_537);
                assert_eq!(p.refusal(Third::Sweep, false), Err(2));
            }
            // Other calls never look at it.
            assert_eq!(
                [Third::Nothing, Third::Every(0), Third::Every(3601)].map(|third| p.refusal(third, false).err()),
                [None, None, Some(3)]
            );
        }
        for n in [0, 3601, 1 << 40, u64::MAX] {
            let p = Plan { rolls: Rolls::Even(n), ..accepted() };
            assert_eq!(p.refusal(Third::Sweep, false), Err(3), "{n}");
        }
    }

    #[test]
    fn even_steps_are_an_accepted_table() {
        for n in 1..=3600 {
            let even = Plan { rolls: Rolls::Even(n), ..accepted() };
            let p = Plan { rolls: Rolls::Table(even.all_rolls()), ..even };
            assert_eq!(p.refusal(Third::Sweep, false), Ok(()), "{n}");
        }
    }
}
