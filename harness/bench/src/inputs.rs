//! Targets over the whole sky; a year of the Sun and of a satellite in low orbit.
use cases::plans::direction;
use cases::Seeded;
use model::{plan::Rolls, Plan};
use std::f64::consts::TAU;

const YEAR_S: f64 = 31_558_150.0;
const ORBIT_S: f64 = 5_760.0;
const SUN_KM: f64 = 149_597_870.7;
const ORBIT_KM: f64 = 6_928.0;
const OBLIQUITY: f64 = 0.409_092_8;
const INCLINATION: f64 = 1.703_4;

/// A circle in the plane that is tilted about x.
fn circle(radius: f64, tilt: f64, angle: f64) -> [f64; 3] {
    let (s, c) = angle.sin_cos();
    [radius * c, radius * s * tilt.cos(), radius * s * tilt.sin()]
}

pub fn plan(targets: usize, times: usize, n: u64, tolerance_deg: f64) -> Plan {
    let mut s = Seeded::new(8);
    let at = |j: usize| YEAR_S * j as f64 / times as f64;
    Plan {
        targets: (0..targets).flat_map(|_| direction(&mut s)).collect(),
        suns: (0..times).flat_map(|j| circle(SUN_KM, OBLIQUITY, TAU * at(j) / YEAR_S)).collect(),
        observers: (0..times).flat_map(|j| circle(ORBIT_KM, INCLINATION, TAU * at(j) / ORBIT_S)).collect(),
        tolerances: vec![tolerance_deg; targets],
        roll_deg: None,
        panels: vec![0.0, 1.0, 0.0],
        rolls: Rolls::Even(n),
    }
}

/// A year of times, in nanoseconds.
pub fn times(count: usize) -> Vec<i64> {
    (0..count as i64).map(|j| 1_700_000_000_000_000_000 + j * (YEAR_S as i64 * 1_000_000_000 / count as i64)).collect()
}
