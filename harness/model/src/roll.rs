//! Sections 2, 3 and 6: the roll of one cell, masks, the sweep, and the other answers.
use crate::arithmetic::{arctangent, degrees, remainder};
use crate::plan::{bad_position, direction_refusals, Third};
use crate::{first, Answer, Plan};

const NEAR_ZERO: f64 = 1e-12;

#[derive(Clone, Copy, Debug, PartialEq)]
pub enum Optimal {
    Free,
    At(f64),
}

#[derive(Clone, Copy, Debug, PartialEq)]
pub enum Roll {
    Sweep(f64),
    Fixed(f64),
}

type Vector = [f64; 3];

fn dot(a: Vector, b: Vector) -> f64 {
    a[0] * b[0] + a[1] * b[1] + a[2] * b[2]
}
fn norm(v: Vector) -> f64 {
    dot(v, v).sqrt()
}
fn over(v: Vector, by: f64) -> Vector {
    v.map(|x| x / by)
}
fn cross(a: Vector, b: Vector) -> Vector {
    [a[1] * b[2] - a[2] * b[1], a[2] * b[0] - a[0] * b[2], a[0] * b[1] - a[1] * b[0]]
}
fn normalized(v: Vector) -> Option<Vector> {
    let n = norm(v);
    (n > NEAR_ZERO || n.is_nan()).then(|| over(v, n))
}
/// What of v is perpendicular to x.
fn beside(v: Vector, x: Vector) -> Vector {
    let d = dot(x, v);
    [v[0] - d * x[0], v[1] - d * x[1], v[2] - d * x[2]]
}

pub fn sun_unit(sun: Vector, observer: Vector) -> Vector {
    let v = [sun[0] - observer[0], sun[1] - observer[1], sun[2] - observer[2]];
    let n = norm(v);
    if n < NEAR_ZERO {
        [1.0, 0.0, 0.0]
    } else {
        over(v, n)
    }
}

pub fn is_free(target: Vector, sun: Vector, panel: Vector) -> bool {
    dot(sun, target).abs() > 1.0 - NEAR_ZERO || (panel[1] * panel[1] + panel[2] * panel[2]).sqrt() <= NEAR_ZERO
}

/// Request Three, from 0 to below 360: the remainder by 360, and 0 where a small negative number plus 360 rounds to 360. -0 stays -0.
pub fn folded(roll: f64) -> f64 {
    let r = remainder(roll, 360.0);
    if r == 360.0 {
        0.0
    } else {
        r
    }
}

/// The roll of a cell, Free or not.
pub fn optimal_roll(x: Vector, sun: Vector, panel: Vector) -> f64 {
    let north = beside([0.0, 0.0, 1.0], x);
    let z = normalized(north).unwrap_or_else(|| {
        let other = if x[2].abs() < 0.9 { [0.0, 0.0, 1.0] } else { [0.0, 1.0, 0.0] };
        normalized(beside(other, x)).unwrap_or([0.0, 1.0, 0.0])
    });
    let y = normalized(cross(z, x)).unwrap_or([0.0, 1.0, 0.0]);
    let z = cross(x, y);
    folded(degrees(arctangent(dot(sun, z), dot(sun, y)) - arctangent(panel[2], panel[1])))
}

pub fn difference(a: f64, b: f64) -> f64 {
    180.0 - (remainder(a - b, 360.0) - 180.0).abs()
}

/// *One cell*.
pub fn cell(target: Vector, sun: Vector, observer: Vector, panel: Vector) -> Answer<Optimal> {
    first(&[(bad_position(&sun) || bad_position(&observer), 4)])?;
    first(&direction_refusals(&target))?;
    first(&[(bad_position(&panel), 6)])?;
    let sun = sun_unit(sun, observer);
    Ok(if is_free(target, sun, panel) { Optimal::Free } else { Optimal::At(optimal_roll(target, sun, panel)) })
}

fn room(needed: usize, lent: usize) -> (bool, u8) {
    (lent < needed, 7)
}

impl Plan {
    fn sun_unit(&self, j: usize) -> Vector {
        sun_unit(self.sun(j), self.observer(j))
    }
    pub fn optimal(&self, i: usize, j: usize) -> Optimal {
        let (target, sun, panel) = (self.target(i), self.sun_unit(j), self.panel(i));
        if is_free(target, sun, panel) {
            Optimal::Free
        } else {
            Optimal::At(optimal_roll(target, sun, panel))
        }
    }
    fn violated(&self, i: usize, j: usize, roll: f64) -> bool {
        matches!(self.optimal(i, j), Optimal::At(o) if difference(roll, o) > self.tolerance(i))
    }
    /// The roll in force: a configured one overrides Sweep, never Fixed.
    fn in_force(&self, roll: Roll) -> f64 {
        match (roll, self.roll_deg) {
            (Roll::Sweep(_), Some(configured)) => configured,
            (Roll::Sweep(r), None) | (Roll::Fixed(r), _) => r,
        }
    }
    /// Whether the nearest of n even steps is beyond the tolerance; a configured roll is looked at before n.
    fn beyond_every_step(&self, i: usize, j: usize, n: u64) -> bool {
        if let Some(configured) = self.roll_deg {
            return self.violated(i, j, configured);
        }
        let Optimal::At(o) = self.optimal(i, j) else { return false };
        if n == 0 {
            return false;
        }
        let step = 360.0 / n as f64;
        let phase = remainder(o, step);
        let rest = step - phase;
        (if phase < rest { phase } else { rest }) > self.tolerance(i)
    }
    fn mask(&self, third: Third, lent: usize, mark: impl Fn(usize, usize) -> bool) -> Answer<Vec<u8>> {
        self.refusal(third, false)?;
        first(&[room(self.cells(), lent)])?;
        let times = self.times();
        Ok((0..self.cells()).map(|c| mark(c / times, c % times) as u8).collect())
    }

    pub fn named_values(&self, lent: usize) -> Answer<Vec<f64>> {
        self.refusal(Third::Nothing, false)?;
        first(&[room(self.cells(), lent)])?;
        let times = self.times();
        let value = |(i, j)| optimal_roll(self.target(i), self.sun_unit(j), self.panel(i));
        Ok((0..self.cells()).map(|c| value((c / times, c % times))).collect())
    }
    pub fn in_constraint_batch(&self, lent: usize) -> Answer<Vec<u8>> {
        self.mask(Third::Nothing, lent, |i, j| self.roll_deg.map_or(false, |r| self.violated(i, j, r)))
    }
    pub fn in_constraint_batch_at_roll(&self, roll: Roll, lent: usize) -> Answer<Vec<u8>> {
        self.mask(Third::Nothing, lent, |i, j| self.violated(i, j, self.in_force(roll)))
    }
    pub fn constrained_at_every_roll(&self, n: u64, lent: usize) -> Answer<Vec<u8>> {
        self.mask(Third::Every(n), lent, |i, j| self.beyond_every_step(i, j, n))
    }
    /// *One row*: mask and severities.
    pub fn evaluate(&self, target: u64, masks: usize, severities: usize) -> Answer<(Vec<u8>, Vec<f64>)> {
        self.refusal(Third::Nothing, false)?;
        first(&[(target >= self.rows() as u64, 9), room(self.times(), masks), room(self.times(), severities)])?;
        let Some(roll) = self.roll_deg else { return Ok((vec![0; self.times()], vec![0.0; self.times()])) };
        let (row, tolerance) = (target as usize, self.tolerance(target as usize));
        let cell = |j| match self.optimal(row, j) {
            Optimal::At(o) if difference(roll, o) > tolerance => (1, difference(roll, o) - tolerance),
            _ => (0, 0.0),
        };
        Ok((0..self.times()).map(cell).unzip())
    }
    fn regard(&self, third: Third, time: u64, lent: usize, mark: impl Fn(usize) -> bool) -> Answer<Vec<u8>> {
        self.refusal(third, false)?;
        first(&[(time >= self.times() as u64, 9), room(self.rows(), lent)])?;
        Ok((0..self.rows()).map(|i| mark(i) as u8).collect())
    }
    pub fn field_of_regard_violated_batch(&self, time: u64, n: u64, lent: usize) -> Answer<Vec<u8>> {
        self.regard(Third::Every(n), time, lent, |i| self.beyond_every_step(i, time as usize, n))
    }
    pub fn field_of_regard_violated_at_roll(&self, time: u64, roll: f64, lent: usize) -> Answer<Vec<u8>> {
        self.regard(Third::Nothing, time, lent, |i| self.violated(i, time as usize, self.in_force(Roll::Sweep(roll))))
    }

    /// Section 3: each cell's mark, and how many samples are tried for it.
    pub fn sweep(&self) -> Vec<(bool, u64)> {
        let times = self.times();
        let cell = |c: usize| {
            let (i, j) = (c / times, c % times);
            let (optimal, tolerance) = (self.optimal(i, j), self.tolerance(i));
            let clear = |&k: &u64| {
                let roll = self.in_force(Roll::Sweep(self.roll(k)));
                !matches!(optimal, Optimal::At(o) if difference(roll, o) > tolerance)
            };
            match (0..self.n()).find(clear) {
                Some(k) => (false, k + 1),
                None => (true, self.n()),
            }
        };
        (0..self.cells()).map(cell).collect()
    }
}

#[cfg(test)]
mod tests {
    use super::*;
    use crate::plan::Rolls;

    /// Two targets that are the same direction, the Sun in the east and then in the north: optimal rolls of 0 and 90.
    #[test]
    fn each_row_uses_its_own_tolerance() {
        let mut p = Plan {
            targets: [1.0, 0.0, 0.0].repeat(2),
            suns: vec![0.0, 1.0, 0.0, 0.0, 0.0, 1.0],
            observers: vec![0.0; 6],
            tolerances: vec![10.0, 80.0],
            panels: vec![0.0, 1.0, 0.0],
            rolls: Rolls::Even(2),
            ..Plan::default()
        };
        // Of rolls 0 and 180 both are 90 away.
        assert_eq!(p.sweep(), [(false, 1), (true, 2), (false, 1), (true, 2)]);
        p.tolerances[1] = 90.0;
        assert_eq!(p.sweep(), [(false, 1), (true, 2), (false, 1), (false, 1)]);
        assert_eq!(p.in_constraint_batch_at_roll(Roll::Fixed(0.0), 4), Ok(vec![0, 1, 0, 0]));
        assert_eq!(p.constrained_at_every_roll(2, 4), Ok(vec![0, 1, 0, 0]));
        assert_eq!(p.field_of_regard_violated_batch(1, 2, 2), Ok(vec![1, 0]));
        assert_eq!(p.field_of_regard_violated_at_roll(1, 0.0, 2), Ok(vec![1, 0]));
        p.roll_deg = Some(180.0);
        assert_eq!(p.in_constraint_batch(4), Ok(vec![1, 1, 1, 0]));
        assert_eq!(p.evaluate(0, 2, 2), Ok((vec![1, 1], vec![170.0, 80.0])));
        assert_eq!(p.evaluate(1, 2, 2), Ok((vec![1, 0], vec![90.0, 0.0])));
    }

    /// The Sun is in the north, so the optimal roll is 90.
    #[test]
    fn a_table_is_tried_in_its_order() {
        let mut p = Plan {
            targets: vec![1.0, 0.0, 0.0],
            suns: vec![0.0, 0.0, 1.0],
            observers: vec![0.0; 3],
            tolerances: vec![10.0],
            panels: vec![0.0, 1.0, 0.0],
            ..Plan::default()
        };
        for (table, swept) in [(&[10.0, 80.0, 90.0][..], (false, 2)), (&[101.0, 10.0, 270.0], (true, 3)), (&[], (true, 0))] {
            p.rolls = Rolls::Table(table.to_vec());
            assert_eq!(p.sweep(), [swept], "{table:?}");
            assert_eq!(format!("{:?}", p.rolls), format!("a table of {} {table:?}", table.len()));
        }
        // A configured roll replaces each.
        p.roll_deg = Some(0.0);
        p.rolls = Rolls::Table(vec![10.0, 90.0]);
        assert_eq!(p.sweep(), [(true, 2)]);
    }
}
