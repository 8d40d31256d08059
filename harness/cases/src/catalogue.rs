//! Catalogue positions, right ascension and declination in degrees: random ones, the multiples of 45 and the numbers beside them, at which the
//! rule of sine and cosine changes its part, whole degrees, numbers of every size down to the smallest, both zeros, the ends, the poles.
use crate::plans::{self, Targets};
use crate::Seeded;
use model::arithmetic::{radians, P};
use model::Plan;

/// The two ends of a number's range.
#[derive(Clone, Copy)]
pub struct Range(pub f64, pub f64);

pub const RA: Range = Range(0.0, 360.0);
pub const DEC: Range = Range(-90.0, 90.0);

impl Range {
    fn contains(self, x: f64) -> bool {
        self.0 <= x && x <= self.1
    }
    /// Just outside of each end, and what lies in no range.
    pub fn outside(self) -> [f64; 7] {
        [beside(self.0, -1), beside(self.1, 1), -400.0, 1e300, f64::NAN, f64::INFINITY, f64::NEG_INFINITY]
    }
}

/// The number so many numbers further up, or down. 0 and -0 are one.
pub fn beside(x: f64, steps: i64) -> f64 {
    let place = if x < 0.0 { -(x.abs().to_bits() as i64) } else { x.abs().to_bits() as i64 } + steps;
    if place < 0 {
        -f64::from_bits(place.unsigned_abs())
    } else {
        f64::from_bits(place as u64)
    }
}

/// A number of any kind, often outside of the range.
fn any(s: &mut Seeded, range: Range) -> f64 {
    let steps = s.below(3) as i64 - 1;
    let x = match s.below(12) {
        0..=3 => s.between(range.0, range.1),
        4 => s.within(0, 360) as f64,
        5 | 6 => beside(45.0 * s.below(9) as f64, steps),
        // As catalogues print them.
        7 => s.within(0, 3_600_000) as f64 / 10_000.0,
        // Every size alike.
        8 => f64::from_bits(s.below(400f64.to_bits())),
        // About 29 of the smallest steps, of which fewer are 0 in radians; any subnormal.
        9 => f64::from_bits(s.below(60)),
        10 => f64::from_bits(s.below(1 << 52)),
        _ => beside(s.one_of(&[range.0, range.1, 0.0]), steps),
    };
    if s.once_in(2) {
        -x
    } else {
        x
    }
}

/// A number within the range: often its end, never pulled there.
fn within(s: &mut Seeded, range: Range) -> f64 {
    loop {
        let x = any(s, range);
        if range.contains(x) {
            return x;
        }
    }
}

/// A right ascension and a declination that are accepted.
pub fn position(s: &mut Seeded) -> (f64, f64) {
    let dec = if s.once_in(16) { s.one_of(&[90.0, -90.0]) } else { within(s, DEC) };
    (within(s, RA), dec)
}

pub fn positions(s: &mut Seeded, count: usize) -> (Vec<f64>, Vec<f64>) {
    (0..count).map(|_| position(s)).unzip()
}

/// A plan with these targets. Now and then the Sun is at one of them, opposite, or close by.
pub fn plan(s: &mut Seeded, targets: Vec<f64>, times: usize) -> Plan {
    let mut p = plans::plan(s, Targets::Unit, 0, times);
    p.targets = targets;
    for j in 0..times {
        if p.rows() > 0 && s.once_in(8) {
            let i = s.index(p.rows());
            let (mut sun, size) = (p.target(i), s.one_of(&[0.0, 1e-15, 1e-6, 3e-6]));
            sun[s.index(3)] += s.between(-size, size);
            let distance = s.one_of(&[1.0, -1.0, 1.5e8]);
            p.suns[3 * j..3 * j + 3].copy_from_slice(&sun.map(|x| x * distance));
            p.observers[3 * j..3 * j + 3].fill(0.0);
        }
    }
    p
}

/// An angle for sine and cosine: every f64, those within a turn, about the thresholds n P / 4, and degrees as radians.
pub fn angle(s: &mut Seeded) -> f64 {
    let x = match s.below(8) {
        0 => f64::from_bits(s.bits()),
        1 | 2 => s.between(0.0, 2.0 * P),
        3 => beside(s.below(9) as f64 * P / 4.0, s.below(5) as i64 - 2),
        4 => f64::from_bits(s.below(7f64.to_bits())),
        5 => f64::from_bits(s.below(1 << 52)),
        6 => radians(within(s, RA)),
        _ => s.one_of(&[0.0, f64::INFINITY, f64::NAN, f64::MAX, f64::MIN_POSITIVE, 1e8, 1e16, 1e100]),
    };
    if s.once_in(2) {
        -x
    } else {
        x
    }
}

#[cfg(test)]
mod tests {
    use super::*;
    use model::catalogue::{is_position, radec_to_unit};
    use model::plan::{bad_direction, is_unit};

    #[test]
    fn positions_are_accepted_and_of_every_kind() {
        let mut s = Seeded::new(1);
        let list: Vec<(f64, f64)> = (0..200_000).map(|_| position(&mut s)).collect();
        let some = |what: &str, holds: &dyn Fn(f64, f64) -> bool| {
            let found = list.iter().filter(|&&(ra, dec)| holds(ra, dec)).count();
            assert!(found >= 50, "{found} of {what}");
        };
        assert!(list.iter().all(|&(ra, dec)| is_position(ra, dec)));
        for k in 0..=8 {
            let at = 45.0 * k as f64;
            for steps in [-1, 0, 1] {
                let x = beside(at, steps);
                if RA.contains(x) {
                    some(&format!("right ascension {x:e}"), &|ra, _| ra == x);
                }
                for dec in [x, -x] {
                    if DEC.contains(dec) {
                        some(&format!("declination {dec:e}"), &|_, d| d == dec);
                    }
                }
            }
        }
        some("right ascension -0", &|ra, _| ra.to_bits() == 1 << 63);
        some("declination -0", &|_, dec| dec.to_bits() == 1 << 63);
        some("a right ascension that is 0 in radians", &|ra, _| ra > 0.0 && ra.to_bits() < 29);
        some("a declination that is -0 in radians", &|_, dec| dec < 0.0 && (-dec).to_bits() < 29);
        some("subnormals", &|ra, dec| ra.is_subnormal() || dec.is_subnormal());
        some("whole degrees", &|ra, dec| ra.fract() == 0.0 && dec.fract() == 0.0);
        some("a pole", &|_, dec| dec == 90.0);
    }

    #[test]
    fn numbers_outside_the_ranges_are_no_positions() {
        assert!(RA.outside().iter().all(|&ra| !is_position(ra, 0.0)));
        assert!(DEC.outside().iter().all(|&dec| !is_position(0.0, dec)));
        assert_eq!(RA.outside()[..2], [-5e-324, 360.00000000000006]);
        assert_eq!(DEC.outside()[..2], [-90.00000000000001, 90.00000000000001]);
    }

    /// So a plan takes them as targets.
    #[test]
    fn vectors_are_directions_of_length_1() {
        let mut s = Seeded::new(2);
        for _ in 0..200_000 {
            let (ra, dec) = position(&mut s);
            let v = radec_to_unit(ra, dec);
            assert!(!bad_direction(&v) && is_unit(v), "{ra:e} {dec:e}: {v:?}");
        }
    }
}
