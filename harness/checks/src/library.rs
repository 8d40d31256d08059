//! The library's calls. Every output is filled with a pattern before, and what a call should leave alone must still hold it afterwards:
//! all of it where the call refuses, else the elements beyond the answer.
use crate::Calls;
use model::cost::{Cost, Extreme, Size};
use model::plan::Rolls;
use model::windows::Window;
use model::{Answer, Optimal, Plan, Roll};
use std::ops::Range;
use wilfnusk::{Columns, OptimalRoll, PlanLists, Refusal};

pub struct Library;

const BYTE: u8 = 0xa5;
const FLOAT: f64 = -77.125;
const NUMBER: u64 = 0xdead_beef_0bad_cafe;
const TIME: i64 = -0x1234_5678_9abc;
const RECORD: wilfnusk::Window =
    wilfnusk::Window { first: NUMBER, last: NUMBER, first_time: TIME, last_time: TIME, severity: FLOAT, is_last: NUMBER };

/// The plan, borrowed as the wrapper takes it: the one place that makes it the C names' arguments. A journal's calls take its `rolls` beside it.
pub fn lent(p: &Plan) -> wilfnusk::Plan<'_> {
    wilfnusk::Plan {
        targets: &p.targets,
        suns: &p.suns,
        observers: &p.observers,
        tolerances: &p.tolerances,
        roll_deg: p.roll_deg,
        panel_normal: p.head_panel(),
    }
}

/// A plan's rolls, as the wrapper takes them: it calls one C name for even steps, another for a table.
pub fn rolls(p: &Plan) -> wilfnusk::Rolls<'_> {
    match &p.rolls {
        Rolls::Even(n) => wilfnusk::Rolls::Even(*n),
        Rolls::Table(table) => wilfnusk::Rolls::Table(table),
    }
}

/// Passes a list of `lent` patterns, and gives its first `written` elements if the call is accepted.
fn output<T: Copy + PartialEq>(
    lent: usize,
    pattern: T,
    written: usize,
    call: impl FnOnce(&mut [T]) -> Result<(), Refusal>,
) -> Answer<Vec<T>> {
    let mut out = vec![pattern; lent];
    let answer = call(&mut out);
    let touched = if answer.is_ok() { written.min(lent) } else { 0 };
    assert!(out[touched..].iter().all(|x| *x == pattern), "{answer:?}, and a place that is not its to write has changed");
    out.truncate(touched);
    answer.map(|()| out).map_err(|r| r.number())
}

/// Six columns, filled with patterns.
pub struct Lists {
    pub first: Vec<u64>,
    pub last: Vec<u64>,
    pub first_time: Vec<i64>,
    pub last_time: Vec<i64>,
    pub severity: Vec<f64>,
    pub is_last: Vec<u8>,
}

impl Lists {
    pub fn new(lent: [usize; 6]) -> Lists {
        Lists {
            first: vec![NUMBER; lent[0]],
            last: vec![NUMBER; lent[1]],
            first_time: vec![TIME; lent[2]],
            last_time: vec![TIME; lent[3]],
            severity: vec![FLOAT; lent[4]],
            is_last: vec![BYTE; lent[5]],
        }
    }
    pub fn lend(&mut self) -> Columns<'_> {
        Columns {
            first: &mut self.first,
            last: &mut self.last,
            first_time: &mut self.first_time,
            last_time: &mut self.last_time,
            severity: &mut self.severity,
            is_last: &mut self.is_last,
        }
    }
}

/// Passes six columns, and gives the windows that the call wrote by its answer.
fn columns(lent: [usize; 6], call: impl FnOnce(Columns) -> Result<u64, Refusal>) -> Answer<Vec<Window>> {
    let mut lists = Lists::new(lent);
    let answer = call(lists.lend());
    let Lists { first, last, first_time, last_time, severity, is_last } = lists;
    let n = answer.as_ref().map_or(0, |&n| n as usize);
    let beyond = first[n..].iter().all(|&x| x == NUMBER)
        && last[n..].iter().all(|&x| x == NUMBER)
        && first_time[n..].iter().all(|&x| x == TIME)
        && last_time[n..].iter().all(|&x| x == TIME)
        && severity[n..].iter().all(|&x| x == FLOAT)
        && is_last[n..].iter().all(|&x| x == BYTE);
    assert!(beyond, "{answer:?}, and a place that is not its to write has changed");
    let window = |k: usize| Window {
        first: first[k] as usize,
        last: last[k] as usize,
        first_time: first_time[k],
        last_time: last_time[k],
        severity: severity[k],
        is_last: flag(is_last[k] as u64),
    };
    answer.map(|n| (0..n as usize).map(window).collect()).map_err(|r| r.number())
}

/// Passes records, and gives the windows that the call wrote by its answer.
fn records(lent: usize, call: impl FnOnce(&mut [wilfnusk::Window]) -> Result<u64, Refusal>) -> Answer<Vec<Window>> {
    let mut out = vec![RECORD; lent];
    let answer = call(&mut out);
    let n = answer.as_ref().map_or(0, |&n| n as usize);
    assert!(out[n..].iter().all(|w| *w == RECORD), "{answer:?}, and a place that is not its to write has changed");
    let window = |w: &wilfnusk::Window| Window {
        first: w.first as usize,
        last: w.last as usize,
        first_time: w.first_time,
        last_time: w.last_time,
        severity: w.severity,
        is_last: flag(w.is_last),
    };
    answer.map(|n| out[..n as usize].iter().map(window).collect()).map_err(|r| r.number())
}

/// Work over a range: the used length after it, and the chunk at which it stopped, which a refused call leaves as it was.
pub fn work_range(plan: &Plan, chunks: Range<u64>, journal: &mut [u8], used: u64) -> Answer<(u64, u64)> {
    let mut stopped = NUMBER;
    let answer = lent(plan).work_range_into(rolls(plan), chunks, journal, used, &mut stopped);
    assert!(answer.is_ok() || stopped == NUMBER, "{answer:?}, and a number that is not its to write has changed");
    answer.map(|used| (used, stopped)).map_err(|r| r.number())
}

/// Begins a journal of so many lines, has them written, and collects.
fn written(
    plan: &Plan,
    lines: u64,
    write: impl FnOnce(&wilfnusk::Plan, &mut [u8], u64) -> Result<u64, Refusal>,
) -> Answer<(Vec<u8>, Vec<u8>, u64)> {
    let (p, rolls) = (lent(plan), rolls(plan));
    let room = wilfnusk::HEADER_BYTES + lines * wilfnusk::LINE_BYTES;
    let mut journal = vec![BYTE; room as usize + 2];
    let used = p.begin(rolls, &mut journal, 0).and_then(|used| write(&p, &mut journal, used)).map_err(|r| r.number())?;
    let mut sum = 0;
    let mask = output(plan.cells(), BYTE, plan.cells(), |mask| p.collect(rolls, &journal, used, mask).map(|s| sum = s))?;
    assert!(journal[used as usize..].iter().all(|&b| b == BYTE), "a byte beyond the journal has changed");
    journal.truncate(used as usize);
    Ok((journal, mask, sum))
}

/// Passes five lists, and gives the plan that was written into them.
fn written_plan(size: Size, lent: [usize; 5], call: impl FnOnce(u64, u64, u64, PlanLists) -> Result<(), Refusal>) -> Answer<Plan> {
    let mut lists = lent.map(|places| vec![FLOAT; places]);
    let [target_numbers, suns, observers, tolerances, panel] = &mut lists;
    let answer = call(size.targets, size.times, size.n, PlanLists { target_numbers, suns, observers, tolerances, panel });
    for (list, places) in lists.iter_mut().zip(size.places()) {
        let touched = if answer.is_ok() { list.len().min(places as usize) } else { 0 };
        assert!(list[touched..].iter().all(|x| *x == FLOAT), "{answer:?}, and a place that is not its to write has changed");
        list.truncate(touched);
    }
    let [targets, suns, observers, tolerances, panels] = lists;
    let plan = Plan { targets, suns, observers, tolerances, roll_deg: None, panels, rolls: Rolls::Even(size.n) };
    answer.map(|()| plan).map_err(|r| r.number())
}

fn flag(x: u64) -> bool {
    assert!(x <= 1, "a flag of {x}");
    x == 1
}

impl Calls for Library {
    fn root(&self, x: f64) -> f64 {
        wilfnusk::sqrt(x)
    }
    fn arctangent(&self, y: f64, z: f64) -> f64 {
        wilfnusk::atan2(y, z)
    }
    fn sine(&self, r: f64) -> f64 {
        wilfnusk::sin(r)
    }
    fn cosine(&self, r: f64) -> f64 {
        wilfnusk::cos(r)
    }
    fn difference(&self, a: f64, b: f64) -> f64 {
        wilfnusk::circular_diff_deg(a, b)
    }
    fn radec_to_unit_vectors_batch(&self, ra: &[f64], dec: &[f64], room: usize) -> Answer<Vec<f64>> {
        output(room, FLOAT, 3 * ra.len(), |out| wilfnusk::radec_to_unit_vectors_batch(ra, dec, out))
    }
    fn cell(&self, target: [f64; 3], sun: [f64; 3], observer: [f64; 3], panel: [f64; 3]) -> Answer<Optimal> {
        let answer = match wilfnusk::cell(target, sun, observer, panel) {
            Ok(OptimalRoll::Free) => Ok(Optimal::Free),
            Ok(OptimalRoll::At(roll)) => Ok(Optimal::At(roll)),
            Err(refusal) => Err(refusal.number()),
        };
        // The roll that the C name writes, which the wrapper keeps to itself.
        let ([a, b, c], [d, e, f], [g, h, i], [x, y, z]) = (target, sun, observer, panel);
        let mut roll = FLOAT;
        let number = unsafe { wilfnusk::sys::wilfnusk_cell(a, b, c, d, e, f, g, h, i, x, y, z, &mut roll) };
        let expected = match answer {
            Ok(Optimal::Free) => (0, FLOAT),
            Ok(Optimal::At(roll)) => (1, roll),
            Err(refusal) => (-(refusal as i64), FLOAT),
        };
        assert_eq!((number, roll), expected, "the wrapper says something else, or a roll that is not its to write has changed");
        answer
    }
    fn named_values(&self, plan: &Plan, room: usize) -> Answer<Vec<f64>> {
        output(room, FLOAT, plan.cells(), |out| lent(plan).named_values(out))
    }
    fn in_constraint_batch(&self, plan: &Plan, room: usize) -> Answer<Vec<u8>> {
        output(room, BYTE, plan.cells(), |mask| lent(plan).in_constraint_batch(mask))
    }
    fn in_constraint_batch_at_roll(&self, plan: &Plan, roll: Roll, room: usize) -> Answer<Vec<u8>> {
        let roll = match roll {
            Roll::Sweep(r) => wilfnusk::Roll::Sweep(r),
            Roll::Fixed(r) => wilfnusk::Roll::Fixed(r),
        };
        output(room, BYTE, plan.cells(), |mask| lent(plan).in_constraint_batch_at_roll(roll, mask))
    }
    fn constrained_at_every_roll(&self, plan: &Plan, n: u64, room: usize) -> Answer<Vec<u8>> {
        output(room, BYTE, plan.cells(), |mask| lent(plan).constrained_at_every_roll(n, mask))
    }
    fn evaluate(&self, plan: &Plan, target: u64, masks: usize, severities: usize) -> Answer<(Vec<u8>, Vec<f64>)> {
        let mut mask = Ok(Vec::new());
        let severity = output(severities, FLOAT, plan.times(), |severity| {
            let mut refusal = Ok(());
            mask = output(masks, BYTE, plan.times(), |mask| {
                refusal = lent(plan).evaluate(target, mask, severity);
                refusal
            });
            refusal
        });
        Ok((mask?, severity?))
    }
    fn field_of_regard_violated_batch(&self, plan: &Plan, time: u64, n: u64, room: usize) -> Answer<Vec<u8>> {
        output(room, BYTE, plan.rows(), |mask| lent(plan).field_of_regard_violated_batch(time, n, mask))
    }
    fn field_of_regard_violated_at_roll(&self, plan: &Plan, time: u64, roll: f64, room: usize) -> Answer<Vec<u8>> {
        output(room, BYTE, plan.rows(), |mask| lent(plan).field_of_regard_violated_at_roll(time, roll, mask))
    }
    fn swept(&self, plan: &Plan, order: &[u64]) -> Answer<(Vec<u8>, Vec<u8>, u64)> {
        written(plan, order.len() as u64, |p, journal, mut used| {
            for &chunk in order {
                used = p.work(rolls(plan), chunk, journal, used)?;
            }
            Ok(used)
        })
    }
    fn ranged(&self, plan: &Plan, ranges: &[Range<u64>]) -> Answer<(Vec<u8>, Vec<u8>, u64)> {
        let lines = ranges.iter().map(|r| r.end - r.start).sum();
        written(plan, lines, |p, journal, mut used| {
            for range in ranges {
                let (after, stopped) = p.work_range(rolls(plan), range.clone(), journal, used)?;
                assert_eq!((after, stopped), (used + (range.end - range.start) * wilfnusk::LINE_BYTES, range.end));
                used = after;
            }
            Ok(used)
        })
    }
    fn recover(&self, plan: &Plan, journal: &[u8]) -> Answer<u64> {
        lent(plan).recover(rolls(plan), journal, journal.len() as u64).map_err(|r| r.number())
    }
    fn cost(&self, size: Size, room: usize) -> Answer<Cost> {
        let Size { targets, times, n } = size;
        let answer = output(room, NUMBER, 3, |out| wilfnusk::cost_into(targets, times, n, out));
        let answer = answer.map(|list| match list[..] {
            [length, fewest, most] => Cost { length, fewest, most },
            _ => panic!("accepted with {room} places for three numbers"),
        });
        if room >= 3 {
            let named = wilfnusk::cost(targets, times, n).map_err(|r| r.number());
            let named = named.map(|c| Cost { length: c.journal_bytes, fewest: c.fewest_probes, most: c.most_probes });
            assert_eq!(named, answer, "the wrapper's names and the C name's places");
        }
        answer
    }
    fn extreme_plan(&self, extreme: Extreme, size: Size, room: [usize; 5]) -> Answer<Plan> {
        match extreme {
            Extreme::Costliest => written_plan(size, room, wilfnusk::costliest_plan),
            Extreme::Cheapest => written_plan(size, room, wilfnusk::cheapest_plan),
        }
    }
    fn violation_windows(&self, mask: &[u8], times: &[i64], severities: &[f64], room: [usize; 6]) -> Answer<Vec<Window>> {
        columns(room, |out| wilfnusk::violation_windows(mask, times, severities, out))
    }
    fn visibility_windows(&self, mask: &[u8], times: &[i64], room: [usize; 6]) -> Answer<Vec<Window>> {
        columns(room, |out| wilfnusk::visibility_windows(mask, times, out))
    }
    fn violation_records(&self, mask: &[u8], times: &[i64], severities: &[f64], room: usize) -> Answer<Vec<Window>> {
        records(room, |out| wilfnusk::violation_records(mask, times, severities, out))
    }
    fn visibility_records(&self, mask: &[u8], times: &[i64], room: usize) -> Answer<Vec<Window>> {
        records(room, |out| wilfnusk::visibility_records(mask, times, out))
    }
    fn expand(&self, first: &[i64], last: &[i64], times: &[i64], room: usize) -> Answer<Vec<u8>> {
        output(room, BYTE, times.len(), |mask| wilfnusk::expand(first, last, times, mask))
    }
    fn seconds(&self, first: &[i64], last: &[i64]) -> Answer<f64> {
        let answer = wilfnusk::total_violation_duration(first, last).map_err(|r| r.number());
        // The number that the C name writes, which the wrapper keeps to itself.
        let mut seconds = FLOAT;
        let (a, b) = (first.as_ptr(), last.as_ptr());
        let number = unsafe { wilfnusk::sys::wilfnusk_total_violation_duration(a, first.len(), b, last.len(), &mut seconds) };
        let expected = answer.map_or_else(|refusal| (-(refusal as i64), FLOAT), |sum| (0, sum));
        assert_eq!((number, seconds), expected, "the wrapper says something else, or a number that is not its to write has changed");
        answer
    }
}
