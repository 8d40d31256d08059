//! Plans: poles, the Sun on the boresight and close to it, lengths at the ends of what 20 leaves, for refusals zero vectors and other lengths,
//! the Sun at the observer, signed zeros, panels without y-z part, tolerances at exact distances, NaN and infinite tolerances and rolls; plans
//! whose rolls are at whole, half, quarter and eighth turns; and tables of rolls: even steps, close ones, neighbouring floats, of every size,
//! from either zero to the number below 360.
use crate::catalogue::beside;
use crate::Seeded;
use model::plan::{is_unit, squared_length, Rolls};
use model::roll::{difference, optimal_roll, sun_unit};
use model::{arithmetic::remainder, Plan};
use std::collections::BTreeSet;

type Vector = [f64; 3];

/// What is folded, and what becomes of it: request Three.
pub const FOLDED: [(f64, f64); 16] = [
    (-270.0, 90.0),
    (-180.0, 180.0),
    (-360.0, -0.0),
    (360.0, 0.0),
    (-0.0, -0.0),
    (0.0, 0.0),
    // 360 - 2^-45 lies halfway between 360 and the number below it.
    (-2.842170943040401e-14, 0.0),
    (-2.8421709430404014e-14, f64::from_bits(0x4076_7fff_ffff_ffff)),
    (-5e-324, 0.0),
    (f64::from_bits(0xc076_7fff_ffff_ffff), f64::from_bits(0x3d30_0000_0000_0000)),
    (f64::from_bits(0x4076_7fff_ffff_ffff), f64::from_bits(0x4076_7fff_ffff_ffff)),
    // Larger than any cell's roll that was seen: the remainder is not one addition of 360.
    (-450.0, 270.0),
    (-720.0, -0.0),
    (720.0, 0.0),
    (1_048_576.0, 256.0),
    (-1_048_576.0, 104.0),
];

/// What a plan's targets are.
#[derive(Clone, Copy, PartialEq, Debug)]
pub enum Targets {
    /// Unit vectors, as `is_unit` has it: all that is accepted.
    Unit,
    /// Vectors of any length too, for what is refused.
    Any,
}

/// How a plan's tolerances are drawn.
#[derive(Clone, Copy, PartialEq, Debug)]
pub enum Entries {
    /// One for all targets, as an evaluator of the original has it.
    Equal,
    /// Each target its own.
    Own,
    /// Equal in a third of the plans.
    Either,
}

fn length(v: Vector) -> f64 {
    squared_length(v).sqrt()
}

fn signed_zero(s: &mut Seeded) -> f64 {
    s.one_of(&[0.0, -0.0])
}

pub fn direction(s: &mut Seeded) -> Vector {
    loop {
        let v = [s.between(-1.0, 1.0), s.between(-1.0, 1.0), s.between(-1.0, 1.0)];
        let n = length(v);
        if n > 0.1 && n < 1.0 {
            return v.map(|x| x / n);
        }
    }
}

/// A direction along an axis, its zeros of either sign.
fn axis(s: &mut Seeded) -> Vector {
    let mut v = [signed_zero(s), signed_zero(s), signed_zero(s)];
    v[s.index(3)] = s.one_of(&[1.0, -1.0]);
    v
}

/// v with one number changed by about `size`.
fn close_to(s: &mut Seeded, v: Vector, size: f64) -> Vector {
    let mut v = v;
    v[s.index(3)] += s.between(-size, size);
    v
}

fn clamped(v: Vector) -> Vector {
    v.map(|x| x.clamp(-1.0, 1.0))
}

/// A vector close to length 1, made of length 1 where 20 would refuse it. What is close enough stays as it is: such vectors meet the thresholds of
/// 1e-12 from both sides.
fn normalized(v: Vector) -> Vector {
    let n = length(v);
    if is_unit(v) {
        v
    } else {
        v.map(|x| x / n)
    }
}

/// A direction whose squared length lies anywhere in the band that 20 leaves, or within a few floats of one of its ends, on either side.
/// Now and then it is the Sun's.
fn near_the_band(s: &mut Seeded, sun: Vector) -> Vector {
    let end = s.one_of(&[-5e-10, 5e-10]);
    let by = if s.once_in(2) { end * s.unit() } else { end + s.between(-1e-15, 1e-15) };
    let v = if s.once_in(4) { sun } else { direction(s) };
    clamped(v.map(|x| x * (1.0 + by)))
}

/// The same within it.
fn in_the_band(s: &mut Seeded, sun: Vector) -> Vector {
    loop {
        let v = near_the_band(s, sun);
        if is_unit(v) {
            return v;
        }
    }
}

fn target(s: &mut Seeded, targets: Targets, suns: &[Vector], observers: &[Vector]) -> Vector {
    let kinds = if targets == Targets::Unit { 13 } else { 20 };
    let sun = match suns.len() {
        0 => [1.0, 0.0, 0.0],
        n => {
            let j = s.index(n);
            sun_unit(suns[j], observers[j])
        }
    };
    match s.below(kinds) {
        0..=5 => direction(s),
        6 => axis(s),
        7 => [signed_zero(s), signed_zero(s), s.one_of(&[1.0, -1.0])],
        8 => {
            let size = s.one_of(&[1e-13, 1e-12, 2e-12, 1e-7]);
            let pole = [0.0, 0.0, s.one_of(&[1.0, -1.0])];
            normalized(clamped(close_to(s, pole, size)))
        }
        9 => clamped(sun),
        10 => clamped(sun.map(|x| -x)),
        11 => {
            let size = s.one_of(&[1e-15, 1e-12, 3e-12, 2e-6]);
            normalized(clamped(close_to(s, sun, size)))
        }
        12 => in_the_band(s, sun),
        13 => [signed_zero(s), signed_zero(s), signed_zero(s)],
        14 => {
            let size = s.unit();
            direction(s).map(|x| x * size)
        }
        15 => [s.between(-1.0, 1.0), s.between(-1.0, 1.0), s.between(-1.0, 1.0)],
        16 => [1.0, 1.0, 1.0],
        17 => direction(s).map(|x| x * 1e-13),
        18 => near_the_band(s, sun),
        _ => [0.0, 0.0, s.one_of(&[0.5, 0.9999999999999, -0.9, 1e-200])],
    }
}

fn position(s: &mut Seeded, distance: f64) -> Vector {
    match s.below(8) {
        0..=4 => direction(s).map(|x| x * distance),
        5 => axis(s),
        6 => axis(s).map(|x| x * distance),
        _ => {
            let size = s.one_of(&[1e-200, 1e-13, 1e-12, 1e50, 1e100]);
            direction(s).map(|x| x * size)
        }
    }
}

/// A Sun and an observer.
fn positions(s: &mut Seeded) -> (Vector, Vector) {
    let observer = match s.below(4) {
        0 => [0.0; 3],
        1 => [signed_zero(s), signed_zero(s), signed_zero(s)],
        _ => position(s, 7000.0),
    };
    let sun = match s.below(16) {
        0 => observer,
        1 => close_to(s, observer, 2e-12),
        _ => position(s, 1.5e8),
    };
    (sun, observer)
}

fn panel(s: &mut Seeded) -> Vector {
    match s.below(16) {
        0..=4 => [0.0, 1.0, 0.0],
        5..=8 => direction(s),
        9 => axis(s),
        10 => [s.one_of(&[1.0, -1.0]), signed_zero(s), signed_zero(s)],
        11 => [1.0, 1e-12, signed_zero(s)],
        12 => [0.5, 1.0000000000000002e-12, 0.0],
        13 => direction(s).map(|x| x * 1e100),
        14 => [0.0, 1e-170, -1e-170],
        _ => [3.0, -4.0, 1e-3],
    }
}

/// Rows times columns; `for_sweep`, `for_rolls` or `for_roll` gives it tolerances, and a sweep its rolls.
pub fn plan(s: &mut Seeded, targets: Targets, rows: usize, times: usize) -> Plan {
    let (suns, observers): (Vec<Vector>, Vec<Vector>) = (0..times).map(|_| positions(s)).unzip();
    let targets: Vec<Vector> = (0..rows).map(|_| target(s, targets, &suns, &observers)).collect();
    Plan {
        targets: targets.concat(),
        suns: suns.concat(),
        observers: observers.concat(),
        tolerances: Vec::new(),
        roll_deg: None,
        panels: panel(s).to_vec(),
        rolls: Rolls::default(),
    }
}

/// How far a Sun or panel at distance 1 may be from an axis to be just off it.
fn tiny(s: &mut Seeded) -> f64 {
    match s.below(3) {
        0 => s.one_of(&[5e-324, 1e-300, 1e-16]),
        // A few of P's last bits: the rolls beside -360.
        1 => s.within(2, 5) as f64 * f64::EPSILON,
        // 2^-45 degrees and the numbers beside: `FOLDED` says why.
        _ => beside(4.960524086056721e-16, s.below(3) as i64 - 1),
    }
}

/// In the y-z plane: along an axis or just off it, zeros of either sign, or halfway between two axes.
fn at_a_turn(s: &mut Seeded) -> Vector {
    let mut v = [signed_zero(s), s.one_of(&[1.0, -1.0]), signed_zero(s)];
    match s.below(5) {
        0 | 1 => (),
        2 | 3 => v[2] = tiny(s) * s.one_of(&[1.0, -1.0]),
        _ => v[2] = s.one_of(&[1.0, -1.0]),
    }
    if s.once_in(3) {
        v.swap(1, 2);
    }
    v
}

/// Rows times columns, with rolls at eighths of a turn and just off them. Before the folding some are -360, some 360, -0, or so little below 0 that
/// 360 more is 360. `for_sweep`, `for_rolls` or `for_roll` gives it tolerances, and a sweep its rolls.
pub fn at_turns(s: &mut Seeded, rows: usize, times: usize) -> Plan {
    let target = |s: &mut Seeded| if s.once_in(4) { axis(s) } else { [1.0, 0.0, 0.0] };
    let panel = if s.once_in(2) { at_a_turn(s) } else { [0.0, s.one_of(&[1.0, -1.0]), signed_zero(s)] };
    Plan {
        targets: (0..rows).flat_map(|_| target(s)).collect(),
        suns: (0..times).flat_map(|_| at_a_turn(s)).collect(),
        observers: vec![0.0; 3 * times],
        panels: panel.to_vec(),
        ..Plan::default()
    }
}

/// The optimal roll of some cell of a row, 0 where there is none.
fn roll_in_row(s: &mut Seeded, plan: &Plan, row: usize) -> f64 {
    if plan.times() == 0 {
        return 0.0;
    }
    let j = s.index(plan.times());
    optimal_roll(plan.target(row), sun_unit(plan.sun(j), plan.observer(j)), plan.panel(row))
}

/// The same of any row.
fn some_roll(s: &mut Seeded, plan: &Plan) -> f64 {
    if plan.rows() == 0 {
        return 0.0;
    }
    let row = s.index(plan.rows());
    roll_in_row(s, plan, row)
}

/// A roll as a caller may hand it over.
pub fn roll(s: &mut Seeded, plan: &Plan) -> f64 {
    match s.below(16) {
        0 => f64::NAN,
        1 => s.one_of(&[f64::INFINITY, f64::NEG_INFINITY, f64::MAX, f64::MIN, 1e17]),
        2 => signed_zero(s),
        3 | 4 => some_roll(s, plan),
        5 => some_roll(s, plan) + s.one_of(&[180.0, -180.0, 360.0, -360.0]),
        6 => s.one_of(&[360.0, -360.0, 720.0, 1e-20, -1e-20, 5e-324]),
        _ => s.between(-360.0, 720.0),
    }
}

/// n of 1 to 3,600.
pub fn samples(s: &mut Seeded) -> u64 {
    match s.below(8) {
        0 => 1,
        1 => s.within(2, 9),
        2 => s.within(10, 100),
        3 => s.within(101, 3600),
        _ => s.one_of(&[2, 3, 4, 7, 8, 12, 24, 36, 72, 360, 3599, 3600]),
    }
}

fn odd_tolerance(s: &mut Seeded) -> f64 {
    s.one_of(&[f64::NAN, f64::INFINITY, f64::NEG_INFINITY, 0.0, -0.0, 180.0, 179.99999999999997, 1e-300, -1e-300, 5e-324, f64::MAX])
}

/// A tolerance a target, each drawn for its own row: equal ones are some row's.
fn tolerances(s: &mut Seeded, plan: &mut Plan, entries: Entries, draw: impl Fn(&mut Seeded, &Plan, usize) -> f64) {
    let rows = plan.rows();
    let equal = match entries {
        Entries::Equal => true,
        Entries::Own => false,
        Entries::Either => s.once_in(3),
    };
    plan.tolerances = if equal && rows > 0 {
        let row = s.index(rows);
        vec![draw(s, plan, row); rows]
    } else {
        (0..rows).map(|row| draw(s, plan, row)).collect()
    };
}

/// How a table's rolls are spread.
#[derive(Clone, Copy, PartialEq, Debug)]
pub enum Spread {
    /// The even steps of its length.
    Even,
    Anywhere,
    /// Over a part of the turn, so that many cells are far from all of them.
    Arc,
    /// About a few, some of them rolls of cells: neighbouring floats, and close ones.
    Clusters,
    /// Every size alike, down to the smallest.
    Sizes,
}

pub const SPREADS: [Spread; 5] = [Spread::Even, Spread::Anywhere, Spread::Arc, Spread::Clusters, Spread::Sizes];

/// The largest roll of a table.
pub const BELOW_360: f64 = f64::from_bits(0x4076_7fff_ffff_ffff);

/// So many rolls, which are accepted. Those that are not even steps begin with a zero once in four times, of either sign, and as often end with
/// the largest.
pub fn table(s: &mut Seeded, plan: &Plan, spread: Spread, length: usize) -> Vec<f64> {
    if spread == Spread::Even {
        return Plan { rolls: Rolls::Even(length as u64), ..Plan::default() }.all_rolls();
    }
    let centres = [some_roll(s, plan), some_roll(s, plan), s.between(0.0, 360.0), s.one_of(&[0.0, BELOW_360])];
    let (start, width) = (s.between(0.0, 360.0), s.one_of(&[1.0, 40.0, 200.0]));
    // Bits of numbers from 0 up: in the order of the numbers.
    let mut rolls = BTreeSet::new();
    for end in [BELOW_360, 0.0] {
        if s.once_in(4) && rolls.len() < length {
            rolls.insert(end.to_bits());
        }
    }
    while rolls.len() < length {
        let roll = match spread {
            Spread::Even => unreachable!("given above"),
            Spread::Anywhere => s.between(0.0, 360.0),
            Spread::Arc => remainder(start + width * s.unit(), 360.0),
            Spread::Clusters => {
                let (centre, steps) = (s.one_of(&centres), s.below(2 * length as u64) as i64 - length as i64);
                if s.once_in(4) {
                    centre + s.between(-1e-3, 1e-3)
                } else {
                    beside(centre, steps)
                }
            }
            Spread::Sizes => f64::from_bits(s.below(360f64.to_bits())),
        };
        if (0.0..360.0).contains(&roll) {
            rolls.insert(roll.abs().to_bits());
        }
    }
    let mut table: Vec<f64> = rolls.into_iter().map(f64::from_bits).collect();
    if table[0] == 0.0 {
        table[0] = signed_zero(s);
    }
    table
}

/// What a table can have that is special.
pub const SPECIAL: [(&str, fn(&[f64]) -> bool); 6] = [
    ("begin with 0", |table| table[0].to_bits() == 0),
    ("begin with -0", |table| table[0].to_bits() == 1 << 63),
    ("end with the number below 360", |table| table[table.len() - 1] == BELOW_360),
    ("have neighbouring floats", |table| table.windows(2).any(|pair| pair[1].to_bits() == pair[0].to_bits() + 1)),
    ("have subnormals", |table| table.iter().any(|roll| roll.is_subnormal())),
    ("lie within half a turn", |table| table.len() > 1 && table[table.len() - 1] - table[0] < 180.0),
];

/// Tables, each with the number that request Five refuses it by, 0 for none: every rule broken by the only roll, the first, one between and the
/// last, of few rolls and of the most.
pub fn listed_tables() -> Vec<(u8, Vec<f64>)> {
    const NAN: f64 = f64::NAN;
    const SHORT: [(u8, &[f64]); 27] = [
        (0, &[-0.0]),
        (0, &[0.0]),
        (0, &[5e-324]),
        (0, &[BELOW_360]),
        (0, &[-0.0, 5e-324]),
        (0, &[0.0, 5e-324, BELOW_360]),
        (18, &[]),
        // 0 is not above -0, nor -0 above 0.
        (19, &[-0.0, 0.0]),
        (19, &[0.0, -0.0]),
        (19, &[0.0, 0.0]),
        (19, &[NAN]),
        (19, &[NAN, 1.0]),
        (19, &[1.0, NAN]),
        (19, &[1.0, NAN, 2.0]),
        (19, &[360.0]),
        (19, &[1.0, 360.0]),
        (19, &[BELOW_360, 360.0]),
        (19, &[-5e-324]),
        (19, &[-5e-324, 0.0]),
        (19, &[-10.0, 10.0]),
        (19, &[f64::INFINITY]),
        (19, &[1.0, f64::INFINITY]),
        (19, &[f64::NEG_INFINITY]),
        (19, &[2.0, 1.0]),
        (19, &[3.0, 1.0, 2.0]),
        (19, &[1.0, 3.0, 2.0]),
        (19, &[1.0, 2.0, 2.0]),
    ];
    // A hundredth of a degree apart.
    let rising = |length: usize| -> Vec<f64> { (0..length).map(|k| k as f64 / 100.0).collect() };
    let with = |k: usize, roll: f64| {
        let mut table = rising(3600);
        table[k] = roll;
        table
    };
    let long = [
        (0, rising(3600)),
        (0, with(3599, BELOW_360)),
        (18, rising(3601)),
        // Of the length, though each roll is refused too.
        (18, vec![NAN; 3601]),
        (18, vec![400.0; 5000]),
        (19, with(0, NAN)),
        (19, with(0, -1.0)),
        (19, with(1800, NAN)),
        (19, with(1800, 17.99)),
        (19, with(3599, NAN)),
        (19, with(3599, 35.98)),
        (19, with(3599, 360.0)),
    ];
    SHORT.into_iter().map(|(number, table)| (number, table.to_vec())).chain(long).collect()
}

/// The farthest that a roll can be from the nearest of a plan's rolls: half of the widest gap.
pub fn farthest(plan: &Plan) -> f64 {
    match &plan.rolls {
        Rolls::Even(n) => 180.0 / *n as f64,
        Rolls::Table(table) => {
            let over_zero = table[0] + 360.0 - table[table.len() - 1];
            table.windows(2).map(|pair| pair[1] - pair[0]).fold(over_zero, f64::max) / 2.0
        }
    }
}

/// From a roll to the nearest of a plan's rolls.
fn nearest(plan: &Plan, roll: f64) -> f64 {
    match &plan.rolls {
        Rolls::Even(_) => {
            let step = 2.0 * farthest(plan);
            let phase = remainder(roll, step);
            phase.min(step - phase)
        }
        Rolls::Table(table) => table.iter().map(|&sample| difference(sample, roll)).fold(f64::INFINITY, f64::min),
    }
}

/// Settings for a sweep of n even steps.
pub fn for_sweep(s: &mut Seeded, plan: &mut Plan, n: u64, entries: Entries) {
    for_rolls(s, plan, Rolls::Even(n), entries);
}

/// Settings for a sweep of these rolls: without a configured roll mostly a tolerance below `farthest`, as a larger one marks nothing.
pub fn for_rolls(s: &mut Seeded, plan: &mut Plan, rolls: Rolls, entries: Entries) {
    plan.rolls = rolls;
    plan.roll_deg = s.once_in(5).then(|| roll(s, plan));
    if plan.roll_deg.is_some() {
        return for_roll(s, plan, entries);
    }
    let farthest = farthest(plan);
    tolerances(s, plan, entries, |s, plan, row| {
        // Of some cell of the row.
        let distance = |s: &mut Seeded| nearest(plan, roll_in_row(s, plan, row));
        match s.below(16) {
            0 => odd_tolerance(s),
            1 => s.between(farthest, 200.0),
            2 => farthest,
            3 => -s.unit(),
            // Met exactly by some cell: not beyond it.
            4 => difference(plan.roll(s.below(plan.n())), roll_in_row(s, plan, row)),
            5 | 6 => distance(s),
            7..=10 => between_two(s, distance),
            _ => s.unit() * farthest,
        }
    });
}

/// Settings for marks at one roll: tolerances between 0 and 180, the configured roll as it is.
pub fn for_roll(s: &mut Seeded, plan: &mut Plan, entries: Entries) {
    tolerances(s, plan, entries, |s, plan, row| {
        // A roll that is not finite has no distance to any.
        let other = plan.roll_deg.filter(|roll| roll.is_finite()).unwrap_or_else(|| s.between(0.0, 360.0));
        let distance = |s: &mut Seeded| difference(other, roll_in_row(s, plan, row));
        match s.below(12) {
            0 => odd_tolerance(s),
            1 => -s.unit(),
            2 => distance(s),
            3..=6 => between_two(s, distance),
            _ => s.between(0.0, 180.0),
        }
    });
}

/// Between the distances of two cells of a row, so that one is marked and the other clear.
fn between_two(s: &mut Seeded, distance: impl Fn(&mut Seeded) -> f64) -> f64 {
    let (a, b) = (distance(s), distance(s));
    s.between(a, b)
}

/// How work over a range of so many chunks gets the Sun's units, as `pays` of crates/journal/src/range.rt decides: from a table of all times,
/// or chunk by chunk, as the range is too short for a table or there are too many times. The answer must be the same; the comparisons count that they
/// saw each.
#[derive(Clone, Copy, PartialEq, Debug)]
pub enum Units {
    Table,
    ShortRange,
    ManyTimes,
}

pub fn units(plan: &Plan, chunks: u64) -> Units {
    match plan.times() {
        8785.. => Units::ManyTimes,
        times if times as u64 / 64 + 8 < chunks => Units::Table,
        _ => Units::ShortRange,
    }
}

/// A range's length about where that decision turns.
pub fn around_the_turn(s: &mut Seeded, plan: &Plan) -> u64 {
    plan.times() as u64 / 64 + s.within(1, 12)
}

#[cfg(test)]
mod tests {
    use super::*;
    use model::arithmetic::bits;
    use model::journal::Sweep;
    use model::plan::Third;
    use model::roll::folded;

    #[test]
    fn rolls_are_folded_to_the_bit() {
        for (roll, to) in FOLDED {
            let found = folded(roll);
            assert!(bits(found) == bits(to), "{roll:e} to {found:e} and not {to:e}");
        }
    }

    /// Within the band; and within ten floats of either end there are many, on both sides of it where any length is drawn.
    #[test]
    fn unit_targets_have_length_1_and_reach_the_ends_of_the_band() {
        const ENDS: [u64; 2] = [0x3fef_ffff_ff76_8fa1, 0x3ff0_0000_0044_b82f];
        for targets in [Targets::Unit, Targets::Any] {
            let (mut s, mut inside, mut outside) = (Seeded::new(1), [0; 2], [0; 2]);
            for k in 0..20_000 {
                let p = plan(&mut s, targets, 16, k % 4);
                for v in (0..p.rows()).map(|i| p.target(i)) {
                    let unit = is_unit(v);
                    assert!(unit || targets == Targets::Any, "plan {k}: {v:?}");
                    let bits = squared_length(v).to_bits();
                    assert_eq!(unit, (ENDS[0]..=ENDS[1]).contains(&bits), "plan {k}: {v:?}");
                    for end in (0..2).filter(|&end| bits.abs_diff(ENDS[end]) < 10) {
                        (if unit { &mut inside } else { &mut outside })[end] += 1;
                    }
                }
            }
            assert!(inside.iter().all(|&found| found > 1000), "{targets:?}: {inside:?} inside");
            assert!(targets == Targets::Unit || outside.iter().all(|&found| found > 300), "{targets:?}: {outside:?} outside");
        }
    }

    #[test]
    fn tables_are_refused_as_listed() {
        let good = Plan { panels: vec![0.0, 1.0, 0.0], ..Plan::default() };
        for (number, table) in listed_tables() {
            let p = Plan { rolls: Rolls::Table(table), ..good.clone() };
            assert_eq!(p.refusal(Third::Sweep, false).err().unwrap_or(0), number, "{:?}", p.rolls);
        }
    }

    #[test]
    fn even_steps_passed_as_a_table_give_the_same_journal() {
        let mut s = Seeded::new(2);
        for k in 0..300 {
            let mut p = plan(&mut s, Targets::Unit, 3, 30);
            let n = samples(&mut s);
            for_sweep(&mut s, &mut p, n, Entries::Either);
            let even = Sweep::new(p.clone()).expect("accepted");
            p.rolls = Rolls::Table(p.all_rolls());
            let table = Sweep::new(p).expect("accepted");
            let [even, table] = [even, table].map(|sweep| (sweep.header, sweep.lines, sweep.mask, sweep.probes));
            assert!(even == table, "plan {k}, n {n}");
        }
    }

    /// Every length at which a library may change how it works, and each kind of roll that a table can hold.
    #[test]
    fn tables_are_accepted_and_of_every_kind() {
        let mut s = Seeded::new(5);
        let mut tables = Vec::new();
        for spread in SPREADS {
            for length in [1, 2, 3, 64, 65, 3599, 3600].repeat(if spread == Spread::Even { 1 } else { 40 }) {
                let mut p = plan(&mut s, Targets::Unit, 2, 3);
                let table = table(&mut s, &p, spread, length);
                assert_eq!(table.len(), length, "{spread:?}");
                for_rolls(&mut s, &mut p, Rolls::Table(table.clone()), Entries::Own);
                assert_eq!(p.refusal(Third::Sweep, false), Ok(()), "{spread:?} {table:?}");
                tables.push(table);
            }
        }
        for (what, is) in SPECIAL {
            let found = tables.iter().filter(|table| is(table)).count();
            assert!(found >= 50, "{found} tables {what}");
        }
    }

    /// In a fifth of the plans no cell can be marked, as the panel has no y-z part.
    #[test]
    fn many_rows_are_both_marked_and_clear() {
        for entries in [Entries::Own, Entries::Equal] {
            let mut s = Seeded::new(3);
            let (mut rows, mut swept, mut by_table, mut at_roll) = (0, 0, 0, 0);
            let both = |row: &[u8]| row.contains(&0) as u64 * row.contains(&1) as u64;
            let both_swept = |p: &Plan| -> u64 {
                let mask: Vec<u8> = p.sweep().iter().map(|cell| cell.0 as u8).collect();
                mask.chunks(10).map(both).sum()
            };
            for k in 0..2000 {
                let mut p = plan(&mut s, Targets::Unit, 6, 10);
                let n = samples(&mut s).min(72);
                for_sweep(&mut s, &mut p, n, entries);
                swept += both_swept(&p);
                let table = table(&mut s, &p, SPREADS[k % SPREADS.len()], n as usize);
                for_rolls(&mut s, &mut p, Rolls::Table(table), entries);
                by_table += both_swept(&p);
                p.roll_deg = Some(s.between(0.0, 360.0));
                for_roll(&mut s, &mut p, entries);
                at_roll += p.in_constraint_batch(60).expect("accepted").chunks(10).map(both).sum::<u64>();
                rows += 6;
            }
            let least = swept.min(by_table).min(at_roll);
            assert!(5 * least > 2 * rows, "{entries:?}: {swept}, {by_table} and {at_roll} of {rows} rows");
        }
    }

    #[test]
    fn a_third_of_the_plans_have_equal_tolerances() {
        let (mut s, mut equal) = (Seeded::new(4), 0);
        for _ in 0..3000 {
            let mut p = plan(&mut s, Targets::Unit, 3, 4);
            for_sweep(&mut s, &mut p, 5, Entries::Either);
            equal += p.tolerances.iter().all(|x| bits(*x) == bits(p.tolerance(0))) as u64;
        }
        assert!((900..1200).contains(&equal), "{equal} of 3000");
    }
}
