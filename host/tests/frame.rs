//! Where roll 0 is and which way a roll turns, as docs/PLAN_FILE.md and include/wilfnusk.h define it, computed from right ascension and declination
//! and not from the library's own axes.
use proptest::prelude::*;
use std::{fs, path::Path, process::Command};
use wilfnusk::{cell, circular_diff_deg, radec_to_unit_vectors_batch, OptimalRoll};

type Vector = [f64; 3];

fn dot(a: Vector, b: Vector) -> f64 {
    (0..3).map(|k| a[k] * b[k]).sum()
}
/// a·u + b·v
fn mix(a: f64, u: Vector, b: f64, v: Vector) -> Vector {
    [0, 1, 2].map(|k| a * u[k] + b * v[k])
}
/// The direction of a right ascension and declination, and there the directions east and north.
fn sky(ra: f64, dec: f64) -> [Vector; 3] {
    let ((sr, cr), (sd, cd)) = (ra.to_radians().sin_cos(), dec.to_radians().sin_cos());
    [[cd * cr, cd * sr, sd], [-sr, cr, 0.0], [-sd * cr, -sd * sr, cd]]
}
fn roll(target: Vector, sun: Vector, panel: Vector) -> f64 {
    match cell(target, sun, [0.0; 3], panel) {
        Ok(OptimalRoll::At(roll)) => roll,
        other => panic!("{:?}", other),
    }
}

#[test]
fn the_document_s_reference_values_hold() {
    let (x, y, z) = ([1.0, 0.0, 0.0], [0.0, 1.0, 0.0], [0.0, 0.0, 1.0]);
    let minus = |v: Vector| v.map(|k| -k);
    let sun_30 = [0.0, 0.75f64.sqrt(), 0.5];
    for (target, sun, panel, expected) in [
        (x, y, y, 0.0),
        (x, sun_30, y, 30.0),
        (x, z, y, 90.0),
        (x, minus(y), y, 180.0),
        (x, minus(z), y, 270.0),
        (x, sun_30, z, 300.0),
        (x, sun_30, [5.0, 0.0, 2.0], 300.0),
        (y, minus(x), y, 0.0),
        // At the poles Y takes north's place.
        (z, x, y, 0.0),
        (z, y, y, 90.0),
        (minus(z), minus(x), y, 0.0),
        (minus(z), y, y, 90.0),
    ] {
        let found = roll(target, sun, panel);
        assert!((found - expected).abs() < 1e-9, "{:?} {:?} {:?}: {}", target, sun, panel, found);
    }
}

#[test]
fn a_positive_roll_turns_the_panel_from_east_toward_north() {
    let folder = tempfile::tempdir().unwrap();
    let put = |name: &str, text: &str| fs::write(folder.path().join(name), text).unwrap();
    put("e.csv", "time,sun_x,sun_y,sun_z,observer_x,observer_y,observer_z\n2026-03-20T00:00:00Z,7000,866025403.784,500000000,7000,0,0\n");
    put("plan.toml", "targets = \"t.csv\"\nephemeris = \"e.csv\"\nrolls = 24\ntolerance = 0.001\n");
    for targets in ["name,x,y,z\nA,1,0,0\n", "name,ra,dec\nA,0,0\n", "name,ra,dec\nA,360,0\n"] {
        put("t.csv", targets);
        for (roll, mask) in [("30", "0 A\n"), ("29", "1 A\n"), ("31", "1 A\n"), ("-30", "1 A\n"), ("390", "0 A\n")] {
            assert_eq!(mask_at(folder.path(), roll), mask, "{} {}", targets, roll);
        }
    }
}

/// Targets by right ascension and declination, with the Sun east, north and south of each: the roll is 0, 90 and 270.
#[test]
fn rolls_are_right_for_targets_by_right_ascension_and_declination() {
    let folder = tempfile::tempdir().unwrap();
    let put = |name: &str, text: &str| fs::write(folder.path().join(name), text).unwrap();
    put("plan.toml", "targets = \"t.csv\"\nephemeris = \"e.csv\"\nrolls = 24\ntolerance = 0.001\n");
    for (ra, dec) in [(90.0, 0.0), (30.0, 60.0), (83.633, 22.0145), (269.639, 66.633), (201.365, -43.019), (359.0, -89.0)] {
        put("t.csv", &format!("name,ra,dec\nA,{},{}\n", ra, dec));
        let [target, east, north] = sky(ra, dec);
        let suns = [east, north, north.map(|x| -x)].map(|side| mix(0.3, target, 1.0, side));
        let rows = suns.iter().enumerate().map(|(j, [x, y, z])| format!("2026-03-20T00:0{}:00Z,{},{},{},0,0,0\n", j, x, y, z));
        put("e.csv", &format!("time,sun_x,sun_y,sun_z,observer_x,observer_y,observer_z\n{}", rows.collect::<String>()));
        for (roll, mask) in [("0", "011 A\n"), ("90", "101 A\n"), ("270", "110 A\n"), ("-90", "110 A\n")] {
            assert_eq!(mask_at(folder.path(), roll), mask, "{} {} at {}", ra, dec, roll);
        }
    }
}

/// What `mask --fixed-roll` prints of the plan in a folder.
fn mask_at(folder: &Path, roll: &str) -> String {
    let plan = folder.join("plan.toml");
    let out = Command::new(env!("CARGO_BIN_EXE_wilfnusk")).args(["mask", "--fixed-roll", roll]).arg(plan).output().unwrap();
    String::from_utf8(out.stdout).unwrap()
}

proptest! {
    /// The library's vectors are those of the document's formula with another sine.
    #[test]
    fn positions_become_the_vectors_of_the_formula((ra, dec) in (0.0..=360.0, -90.0..=90.0)) {
        let mut vector = [0.0; 3];
        radec_to_unit_vectors_batch(&[ra], &[dec], &mut vector).unwrap();
        let [expected, ..] = sky(ra, dec);
        prop_assert!((0..3).all(|k| (vector[k] - expected[k]).abs() < 1e-14), "{:?} {:?}", vector, expected);
    }
    /// At the optimal roll the panel's normal, across the boresight, points where the Sun is, if roll 0 has y east and z north and a roll
    /// turns y toward z.
    #[test]
    fn at_the_optimal_roll_the_panel_faces_the_sun(
        (ra, dec) in (0.0..360.0, -89.0..89.0),
        (sun_ra, sun_dec) in (0.0..360.0, -89.0..89.0),
        panel in [-1.0..1.0f64, -1.0..1.0, -1.0..1.0],
    ) {
        let ([target, east, north], [sun, ..]) = (sky(ra, dec), sky(sun_ra, sun_dec));
        prop_assume!(dot(target, sun).abs() < 0.9999 && panel[1].hypot(panel[2]) > 0.01);
        let optimal = roll(target, sun, panel);
        prop_assert!((0.0..360.0).contains(&optimal), "{}", optimal);
        let (s, c) = optimal.to_radians().sin_cos();
        let (y, z) = (mix(c, east, s, north), mix(c, north, -s, east));
        let normal = mix(panel[1], y, panel[2], z);
        let angle = |v: Vector| dot(v, north).atan2(dot(v, east)).to_degrees();
        prop_assert!(circular_diff_deg(angle(normal), angle(sun)) < 1e-6);
        // The position angle of z, from north through east, is minus the roll.
        let position_angle = dot(z, east).atan2(dot(z, north)).to_degrees();
        prop_assert!(circular_diff_deg(position_angle, -optimal) < 1e-6);
    }
}
