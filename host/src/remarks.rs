//! What `check`, `sweep` and `windows` warn of: plans that the library accepts and that can hardly be meant. At some or all targets nothing can be
//! violated, or everything is; the Sun is not where it should be; right ascensions look like hours.
use crate::{
    almanac::{self, Position},
    engine, instant,
    plan::{Plan, CATALOGUE_COLUMNS},
    text::{counted, grouped, number},
    tolerance,
};

/// The warnings of a plan that the library accepts.
pub fn remarks(plan: &Plan) -> Vec<String> {
    let sun = [at_the_observer(plan), off_the_almanac(plan), hours(plan)].into_iter().flatten();
    one_answer(plan).into_iter().chain(sun).map(|text| format!("warning: {}", text)).collect()
}

/// Prints them on standard error.
pub fn tell_remarks(plan: &Plan) {
    remarks(plan).iter().for_each(|text| tell!("{}", text));
}

/// The warnings that no cell, or no cell of some targets, can be violated whatever the positions, or that every one that is not Free is.
fn one_answer(plan: &Plan) -> Vec<String> {
    if engine::panel_is_free(plan.panel) {
        return vec![format!(
            "{}: panel reads {}, and its part across the boresight, in y and z, is 1e-12 or shorter, so that every cell is Free: {}",
            plan.at("panel"),
            plan.panel_text(),
            tolerance::NOTHING
        )];
    }
    let roll = match plan.configured_roll {
        // Without one, and with one whose last digit is finer than a turn, the difference depends on the optimal roll.
        None => return tolerance::remarks(plan),
        Some(roll) if roll - 360.0 != roll && !roll.is_nan() => return tolerance::remarks(plan),
        Some(roll) => roll,
    };
    let difference = engine::circular_diff_deg(roll, 0.0);
    let follows = match difference.is_nan() {
        true => format!("its difference from an optimal roll is not a number: {}", tolerance::NOTHING),
        false => format!(
            "numbers of that size are so far apart that its difference from every optimal roll is {}: of a target's cells that are not Free all are \
             violated or none is",
            number(difference)
        ),
    };
    vec![format!("{}: configured_roll reads {}, and {}", plan.at("configured_roll"), number(roll), follows)]
}

/// From the observer to the Sun. None below 1e-12, where the library takes [1, 0, 0] for the Sun's direction.
fn to_sun(plan: &Plan, time: usize) -> Option<[f64; 3]> {
    let v = [0, 1, 2].map(|k| plan.suns[3 * time + k] - plan.observers[3 * time + k]);
    Some(v).filter(|_| length(v) >= 1e-12)
}

fn dot(a: [f64; 3], b: [f64; 3]) -> f64 {
    a[0] * b[0] + a[1] * b[1] + a[2] * b[2]
}

fn length(v: [f64; 3]) -> f64 {
    dot(v, v).sqrt()
}

/// How many lines a warning names; the rest are counted.
const NAMED: usize = 5;

/// Sun and observer at one place, as where a gap was filled with zeros.
fn at_the_observer(plan: &Plan) -> Option<String> {
    let times: Vec<_> = (0..plan.times.len()).filter(|&j| to_sun(plan, j).is_none()).collect();
    let mut lines: Vec<_> = times.iter().take(NAMED).map(|&j| plan.ephemeris_sheet.field(j, 1).line().to_string()).collect();
    if times.len() > NAMED {
        lines.push(format!("and {} more", grouped(times.len() - NAMED)));
    }
    Some(format!(
        "{}: Sun and observer are less than 1e-12 apart at {} of {} (line{} {}), and the Sun's direction is taken as [1, 0, 0]; was a gap \
         filled with zeros?",
        plan.ephemeris_sheet.field(*times.first()?, 1).at(),
        grouped(times.len()),
        counted(plan.times.len(), "time"),
        if times.len() == 1 { "" } else { "s" },
        lines.join(", "),
    ))
}

/// How far from the almanac's place a Sun may be, in degrees: precession, parallax and a circular orbit in place of an ellipse are less.
const MOST_OFF: f64 = 3.0;

/// The Sun is not where an almanac has it. Every time is a date, and each from 1950 on is compared by itself, whatever the spacing.
fn off_the_almanac(plan: &Plan) -> Option<String> {
    let most_off = MOST_OFF.to_radians().cos();
    let is_off = |&j: &usize| match to_sun(plan, j) {
        Some(v) if plan.times[j] >= almanac::FROM => dot(v, almanac::sun(plan.times[j])) < most_off * length(v),
        _ => false,
    };
    let all: Vec<_> = (0..plan.times.len()).filter(is_off).collect();
    let j = *all.first()?;
    let (seen, due) = (Position::of(to_sun(plan, j)?), Position::of(almanac::sun(plan.times[j])));
    Some(format!(
        "{}: at {} the Sun is at {} as seen from the observer, but an almanac has it at {} as seen from the Earth, {:.1} degrees away (more than {} at {} of {}); check \
         the axes, the signs and the dates",
        plan.ephemeris_sheet.field(j, 1).at(),
        shown(plan.times[j]),
        seen,
        due,
        seen.angle_to(due),
        MOST_OFF,
        grouped(all.len()),
        counted(plan.times.len(), "time"),
    ))
}

fn shown(time: i64) -> String {
    instant::format(time, instant::digits([time]))
}

/// Of fewer targets it is too likely that each is within 0 to 24 degrees.
const FEWEST_OF_HOURS: usize = 3;

fn hours(plan: &Plan) -> Option<String> {
    let ra = |i: usize| plan.targets_sheet.field(i, 1).degrees();
    let is_like_hours = |i: usize| matches!(ra(i), Ok(ra) if (0.0..=24.0).contains(&ra));
    let count = plan.names.len();
    if plan.targets_sheet.form() != CATALOGUE_COLUMNS || count < FEWEST_OF_HOURS || !(0..count).all(is_like_hours) {
        return None;
    }
    Some(format!(
        "{}: every ra, of {}, lies within 0 to 24; ra is in degrees: multiply hours by 15",
        plan.targets_sheet.column_at(1),
        counted(count, "target")
    ))
}

/// The Sun as seen from the observer at the first and the last time: position in degrees, and distance in the file's unit.
pub fn sun(plan: &Plan) -> Vec<String> {
    let last = plan.times.len().saturating_sub(1);
    let times = (0..plan.times.len()).filter(|&j| j == 0 || j == last);
    let line = |j: usize| match to_sun(plan, j) {
        Some(v) => format!("{}, distance {}", Position::of(v), seven_digits(length(v))),
        None => "at the observer".to_owned(),
    };
    times.map(|j| format!("{:8} {} at {}", if j == 0 { "sun" } else { "" }, line(j), shown(plan.times[j]))).collect()
}

fn seven_digits(x: f64) -> String {
    number(format!("{:.6e}", x).parse().unwrap_or(x))
}
