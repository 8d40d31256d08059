//! Document 02, request Four: what a plan of a size costs, and the plans of that size that reach the most probes and the fewest.
use crate::plan::{bad_samples, too_many, Rolls};
use crate::{first, Answer, Plan};

/// Any numbers, also ones that are refused.
#[derive(Clone, Copy, Debug)]
pub struct Size {
    pub targets: u64,
    pub times: u64,
    pub n: u64,
}

#[derive(Clone, Copy, Debug, PartialEq)]
pub struct Cost {
    /// Of the journal, in bytes.
    pub length: u64,
    /// Probes.
    pub fewest: u64,
    pub most: u64,
}

/// Which of the two plans.
#[derive(Clone, Copy, Debug)]
pub enum Extreme {
    Costliest,
    Cheapest,
}

impl Size {
    pub fn of(plan: &Plan) -> Size {
        Size { targets: plan.rows() as u64, times: plan.times() as u64, n: plan.n() }
    }
    /// What the lists of a plan need: targets, Suns, observers, tolerances, panel. In 128 bits, as three times a wild number wraps in fewer.
    pub fn places(self) -> [u128; 5] {
        let (targets, times) = (self.targets as u128, self.times as u128);
        [3 * targets, 3 * times, 3 * times, targets, 3]
    }
    fn refusal(self, short: bool) -> Answer<()> {
        first(&[(too_many(self.targets, self.times), 2), (bad_samples(self.n), 3), (short, 7)])
    }
    /// `lent`: the output's length.
    pub fn cost(self, lent: usize) -> Answer<Cost> {
        self.refusal(lent < 3)?;
        let cells = self.targets * self.times;
        Ok(Cost { length: 107 + 33 * cells.div_ceil(64), fewest: cells, most: self.n * cells })
    }
    /// `lent`: the length of each list, in the order of `places`.
    pub fn extreme_plan(self, extreme: Extreme, lent: [usize; 5]) -> Answer<Plan> {
        self.refusal(lent.iter().zip(self.places()).any(|(&lent, needed)| (lent as u128) < needed))?;
        let (targets, times) = (self.targets as usize, self.times as usize);
        let tolerance = match extreme {
            Extreme::Costliest => -1.0,
            Extreme::Cheapest => 180.0,
        };
        Ok(Plan {
            targets: [1.0, 0.0, 0.0].repeat(targets),
            suns: [0.0, 1.0, 0.0].repeat(times),
            observers: [0.0, 0.0, 0.0].repeat(times),
            tolerances: vec![tolerance; targets],
            roll_deg: None,
            panels: vec![0.0, 1.0, 0.0],
            rolls: Rolls::Even(self.n),
        })
    }
}

#[cfg(test)]
mod tests {
    use super::*;
    use crate::journal::Sweep;

    const ROOM: [usize; 5] = [400; 5];

    #[test]
    fn both_plans_try_as_many_rolls_as_computed_beforehand() {
        for (targets, times) in [(0, 0), (0, 3), (2, 0), (1, 1), (1, 63), (8, 8), (5, 13), (128, 1), (1, 129)] {
            for n in [1, 2, 7] {
                let size = Size { targets, times, n };
                let cost = size.cost(3).expect("accepted");
                for (extreme, foretold) in [(Extreme::Costliest, cost.most), (Extreme::Cheapest, cost.fewest)] {
                    let sweep = Sweep::new(size.extreme_plan(extreme, ROOM).expect("accepted")).expect("accepted");
                    assert_eq!(sweep.probes, foretold, "{extreme:?} {size:?}");
                    assert_eq!((sweep.header.len() + sweep.lines.concat().len()) as u64, cost.length, "{size:?}");
                }
            }
        }
    }

    #[test]
    fn refusals_come_in_the_listed_order() {
        let said = |targets, times, n, lent: usize, lists| {
            let size = Size { targets, times, n };
            [size.cost(lent).err(), size.extreme_plan(Extreme::Costliest, lists).err(), size.extreme_plan(Extreme::Cheapest, lists).err()]
        };
        assert_eq!(said(65_536, 16, 3600, 3, [196_608, 48, 48, 65_536, 3]), [None; 3]);
        // Products of which 64 bits leave 0 or 1, and a number whose triple leaves 2.
        for (targets, times) in [(1 << 32, 1 << 32), (1 << 63, 2), (u64::MAX, u64::MAX), (u64::MAX / 3 + 1, 0), (0, 65_537), (1025, 1024)] {
            assert_eq!(said(targets, times, 0, 0, [0; 5]), [Some(2); 3], "{targets} {times}");
        }
        for n in [0, 3601, 1 << 32, u64::MAX] {
            assert_eq!(said(0, 0, n, 0, [0; 5]), [Some(3); 3], "{n}");
        }
        // Without cells every list is still needed.
        for (targets, times, places) in [(2, 0, [6, 0, 0, 2, 3]), (0, 2, [0, 6, 6, 0, 3]), (2, 1, [6, 3, 3, 2, 3])] {
            assert_eq!(said(targets, times, 1, 3, places), [None; 3]);
            for k in 0..5 {
                let mut short = places;
                if short[k] > 0 {
                    short[k] -= 1;
                    assert_eq!(said(targets, times, 1, 2, short), [Some(7); 3], "{targets} {times} {short:?}");
                }
            }
        }
    }
}
