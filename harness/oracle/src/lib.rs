//! The customer's Rust behind plain functions: a plan or a row in, its answers out.
#![allow(dead_code, unreachable_code, unused_variables, unused_macros, unused_imports, clippy::all)]
pub mod patch;
include!(concat!(env!("OUT_DIR"), "/modules.rs"));

use chrono::{DateTime, Utc};
pub use constraints::core::EvaluationRoll;
use constraints::core::*;
use constraints::roll_sweep::{self, PreparedRollEvaluator};
pub use constraints::solar_roll::circular_diff_deg;
use constraints::solar_roll::{self, SolarRollConfig};
use ephemeris::ephemeris_common::{EphemerisBase, EphemerisData};
use model::arithmetic::bits;
use model::windows::Window;
use model::Plan;
use ndarray::Array2;
use pyo3::prelude::*;
use std::cell::{Cell, RefCell};
use std::ops::Range;
use std::rc::Rc;
use utils::vector_math;

struct Ephemeris(EphemerisData);

impl EphemerisBase for Ephemeris {
    fn data(&self) -> &EphemerisData {
        &self.0
    }
    fn data_mut(&mut self) -> &mut EphemerisData {
        &mut self.0
    }
    fn get_itrs_data(&self) -> Option<&Array2<f64>> {
        None
    }
    fn get_itrs_skycoord_ref(&self) -> Option<&Py<PyAny>> {
        None
    }
    fn set_itrs_skycoord_cache(&self, s: Py<PyAny>) -> Result<(), Py<PyAny>> {
        Err(s)
    }
    fn radec_to_altaz(&self, _: f64, _: f64, _: Option<&[usize]>) -> PyResult<Array2<f64>> {
        unimplemented!()
    }
}

fn instant(ns: i64) -> DateTime<Utc> {
    DateTime::from_timestamp_nanos(ns)
}
fn instants(times: &[i64]) -> Vec<DateTime<Utc>> {
    times.iter().map(|&t| instant(t)).collect()
}
fn nanoseconds(t: &DateTime<Utc>) -> i64 {
    t.timestamp_nanos_opt().unwrap()
}
fn array(numbers: &[f64]) -> Array2<f64> {
    Array2::from_shape_vec((numbers.len() / 3, 3), numbers.to_vec()).unwrap()
}
fn bytes<'a>(marks: impl IntoIterator<Item = &'a bool>) -> Vec<u8> {
    marks.into_iter().map(|&b| b as u8).collect()
}

/// The Sun and the observer of a plan, as the original holds them: shared by every evaluator of it.
fn ephemeris(plan: &Plan, times: &[i64]) -> Rc<Ephemeris> {
    assert_eq!(times.len(), plan.times());
    let mut data = EphemerisData::new();
    data.times = Some(instants(times));
    data.sun_gcrs = Some(array(&plan.suns));
    data.gcrs = Some(array(&plan.observers));
    Rc::new(Ephemeris(data))
}

/// A plan's table, if it has one: shared by every evaluator of it too.
fn table(plan: &Plan) -> Option<Rc<[f64]>> {
    plan.rolls.table().map(Rc::from)
}

/// To the bit, every NaN being one.
fn equal_tolerances(plan: &Plan) -> bool {
    plan.tolerances.iter().all(|&x| bits(x) == bits(plan.head_tolerance()))
}

/// A plan row by row: one evaluator per row, with that row's target, tolerance and panel; or one evaluator for all, where the rows have one tolerance.
/// Answers are joined in the order of the rows.
pub struct Oracle(Vec<Whole>);

impl Oracle {
    pub fn new(plan: &Plan, times: &[i64]) -> Oracle {
        let (ephemeris, table) = (ephemeris(plan, times), table(plan));
        let row = |i| Whole::of(plan, i..i + 1, (plan.tolerance(i), plan.panel(i)), ephemeris.clone(), table.clone());
        Oracle((0..plan.rows()).map(row).collect())
    }
    /// The same with its targets given by their catalogue positions, of which the original makes the vectors itself. Both fields of regard are
    /// still handed the plan's vectors.
    pub fn at_positions(self, (ra, dec): (&[f64], &[f64])) -> Oracle {
        let mut first = 0;
        let told = |mut part: Whole| {
            let rows = first..first + part.vectors.len();
            first = rows.end;
            (part.ras, part.decs, part.degrees) = (ra[rows.clone()].to_vec(), dec[rows].to_vec(), true);
            part
        };
        Oracle(self.0.into_iter().map(told).collect())
    }
    /// One evaluator for all rows, which goes through the original's own chunks of 65,536 cells. There is none where tolerances differ: an evaluator
    /// has one.
    pub fn whole(plan: &Plan, times: &[i64]) -> Option<Oracle> {
        equal_tolerances(plan).then(|| Oracle(vec![Whole::new(plan, times)]))
    }
    /// The evaluator that has a row, and the row's number there.
    fn at(&self, row: usize) -> (&Whole, usize) {
        match &self.0[..] {
            [whole] => (whole, row),
            rows => (&rows[row], 0),
        }
    }
    fn joined<T>(&self, answer: impl Fn(&Whole) -> Vec<T>) -> Vec<T> {
        self.0.iter().flat_map(answer).collect()
    }
    pub fn named_values(&self) -> Vec<f64> {
        self.joined(|row| row.named_array().iter().copied().collect())
    }
    pub fn not_free(&self) -> Vec<u8> {
        self.joined(Whole::not_free)
    }
    pub fn in_constraint_batch(&self) -> Vec<u8> {
        self.joined(Whole::in_constraint_batch)
    }
    pub fn in_constraint_batch_at_roll(&self, roll: model::Roll) -> Vec<u8> {
        self.joined(|row| bytes(&row.array_at_roll(roll)))
    }
    pub fn constrained_at_every_roll(&self, n: u64) -> Vec<u8> {
        self.joined(|row| row.constrained_at_every_roll(n))
    }
    pub fn field_of_regard_violated_batch(&self, time: usize, n: u64) -> Vec<u8> {
        self.joined(|row| row.field_of_regard_violated_batch(time, n))
    }
    pub fn field_of_regard_violated_at_roll(&self, time: usize, roll: f64) -> Vec<u8> {
        self.joined(|row| row.field_of_regard_violated_at_roll(time, roll))
    }
    pub fn sweep(&self) -> (Vec<u8>, Vec<u64>) {
        let (masks, tried): (Vec<_>, Vec<_>) = self.0.iter().map(Whole::sweep).unzip();
        (masks.concat(), tried.concat())
    }
    pub fn row(&self, row: usize) -> (Vec<u8>, Vec<f64>) {
        let (part, k) = self.at(row);
        part.row(k)
    }
    pub fn row_windows(&self, row: usize) -> Vec<(i64, i64, f64)> {
        let (part, k) = self.at(row);
        part.row_windows(k)
    }
}

/// Rows of one tolerance and one panel under one evaluator, as a user of the original has them: what harness/bench times.
pub struct Whole {
    ephemeris: Rc<Ephemeris>,
    evaluator: Box<dyn ConstraintEvaluator>,
    config: SolarRollConfig,
    vectors: Vec<[f64; 3]>,
    ras: Vec<f64>,
    decs: Vec<f64>,
    /// Right ascensions and declinations are degrees; else a right ascension is the number of a vector.
    degrees: bool,
    times: usize,
    /// How many rolls a sweep tries, and which, where they are not even steps.
    n: u64,
    table: Option<Rc<[f64]>>,
}

impl Whole {
    /// All rows of a plan whose tolerances are equal.
    pub fn new(plan: &Plan, times: &[i64]) -> Whole {
        assert!(equal_tolerances(plan), "an evaluator has one tolerance");
        Whole::of(plan, 0..plan.rows(), (plan.head_tolerance(), plan.head_panel()), ephemeris(plan, times), table(plan))
    }
    fn of(
        plan: &Plan,
        rows: Range<usize>,
        (tolerance_deg, panel_normal): (f64, [f64; 3]),
        ephemeris: Rc<Ephemeris>,
        table: Option<Rc<[f64]>>,
    ) -> Whole {
        let config = SolarRollConfig { tolerance_deg, roll_deg: plan.roll_deg, panel_normal };
        Whole {
            ephemeris,
            evaluator: config.to_evaluator(),
            config,
            ras: (0..rows.len()).map(|k| k as f64).collect(),
            decs: vec![0.0; rows.len()],
            degrees: false,
            vectors: rows.map(|i| plan.target(i)).collect(),
            times: plan.times(),
            n: plan.n(),
            table,
        }
    }
    fn targets(&self) -> Array2<f64> {
        array(&self.vectors.concat())
    }
    /// What the original answers, its targets given as vectors or as catalogue positions.
    fn told<A>(&self, answer: impl FnOnce() -> A) -> A {
        if self.degrees {
            return patch::without(&patch::VECTORS, answer);
        }
        patch::lend(&self.vectors);
        answer()
    }
    /// As the original hands it over, like the two below: harness/bench times these three.
    pub fn named_array(&self) -> Array2<f64> {
        let mut named = self.told(|| self.evaluator.compute_named_values(&*self.ephemeris, &self.ras, &self.decs, None).unwrap());
        named.remove("solar_optimal_roll_deg").unwrap()
    }
    pub fn array_at_roll(&self, roll: model::Roll) -> Array2<bool> {
        let roll = match roll {
            model::Roll::Sweep(r) => EvaluationRoll::Sweep(r),
            model::Roll::Fixed(r) => EvaluationRoll::Fixed(r),
        };
        self.told(|| self.evaluator.in_constraint_batch_at_roll(&*self.ephemeris, &self.ras, &self.decs, None, roll).unwrap())
    }
    /// `sweep_chunks` from a mask all true, and the cells tried, counted once per roll and prepared chunk.
    pub fn swept_array(&self) -> (Array2<bool>, u64) {
        let mut mask = Array2::from_elem((self.vectors.len(), self.times), true);
        let tried = Rc::new(Cell::new(0));
        let prepare = |cells: &[roll_sweep::RollCell]| {
            let inner = roll_sweep::prepare(&*self.evaluator, &*self.ephemeris, &self.ras, &self.decs, None, cells)?;
            let tried = tried.clone();
            Ok(PreparedRollEvaluator::new(move |cells, roll| {
                tried.set(tried.get() + cells.len() as u64);
                inner.evaluate(cells, roll)
            }))
        };
        self.sweep_chunks(&mut mask, prepare);
        (mask, tried.get())
    }
    fn sweep_chunks<'a>(
        &self,
        mask: &mut Array2<bool>,
        prepare: impl FnMut(&[roll_sweep::RollCell]) -> PyResult<PreparedRollEvaluator<'a>>,
    ) {
        let swept = || roll_sweep::sweep_chunks(mask, true, self.n as usize, prepare).unwrap();
        patch::with_table(self.table.as_ref(), || self.told(swept));
    }
    /// 1 where a cell is not Free: a tolerance below 0 violates every such cell.
    fn not_free(&self) -> Vec<u8> {
        let e = SolarRollConfig { tolerance_deg: -1.0, roll_deg: None, ..self.config.clone() }.to_evaluator();
        let roll = EvaluationRoll::Fixed(0.0);
        bytes(&self.told(|| e.in_constraint_batch_at_roll(&*self.ephemeris, &self.ras, &self.decs, None, roll).unwrap()))
    }
    fn in_constraint_batch(&self) -> Vec<u8> {
        bytes(&self.told(|| self.evaluator.in_constraint_batch(&*self.ephemeris, &self.ras, &self.decs, None).unwrap()))
    }
    fn constrained_at_every_roll(&self, n: u64) -> Vec<u8> {
        let (e, n) = (&*self.ephemeris, n as usize);
        let mask = self.told(|| self.evaluator.in_constraint_batch_constrained_at_every_roll(e, &self.ras, &self.decs, None, n));
        bytes(&mask.unwrap())
    }
    fn field_of_regard_violated_batch(&self, time: usize, n: u64) -> Vec<u8> {
        patch::lend_in_order(&self.vectors);
        bytes(&self.evaluator.field_of_regard_violated_batch(&*self.ephemeris, &self.targets(), time, n as usize).unwrap())
    }
    fn field_of_regard_violated_at_roll(&self, time: usize, roll: f64) -> Vec<u8> {
        patch::lend_in_order(&self.vectors);
        bytes(&self.evaluator.field_of_regard_violated_at_roll(&*self.ephemeris, &self.targets(), time, roll).unwrap())
    }
    /// The mask of `sweep_chunks` from a mask all true, and how often each cell is tried: counted around the prepared evaluator.
    fn sweep(&self) -> (Vec<u8>, Vec<u64>) {
        let times = self.times;
        let mut mask = Array2::from_elem((self.vectors.len(), times), true);
        let tried = Rc::new(RefCell::new(vec![0; mask.len()]));
        let prepare = |cells: &[roll_sweep::RollCell]| {
            let inner = roll_sweep::prepare(&*self.evaluator, &*self.ephemeris, &self.ras, &self.decs, None, cells)?;
            let tried = tried.clone();
            Ok(PreparedRollEvaluator::new(move |cells, roll| {
                let mut tried = tried.borrow_mut();
                for &(i, j) in cells {
                    tried[i * times + j] += 1;
                }
                inner.evaluate(cells, roll)
            }))
        };
        self.sweep_chunks(&mut mask, prepare);
        let tried = tried.take();
        (bytes(&mask), tried)
    }
    /// Mask and severities of `evaluate`: one sample at a time, as its result gives severities by window only.
    fn row(&self, row: usize) -> (Vec<u8>, Vec<f64>) {
        let sample = |j: usize| {
            let result = self.evaluator.evaluate(&*self.ephemeris, self.ras[row], self.decs[row], Some(&[j])).unwrap();
            result.violations.first().map_or((0, 0.0), |v| (1, v.max_severity))
        };
        self.told(|| (0..self.times).map(sample).unzip())
    }
    /// The windows of `evaluate` over the whole row: first and last time, severity.
    fn row_windows(&self, row: usize) -> Vec<(i64, i64, f64)> {
        let result = self.told(|| self.evaluator.evaluate(&*self.ephemeris, self.ras[row], self.decs[row], None).unwrap());
        let window = |v: &ConstraintViolation| (nanoseconds(&v.start_time_internal), nanoseconds(&v.end_time_internal), v.max_severity);
        result.violations.iter().map(window).collect()
    }
}

/// Of solar_roll.rs.
pub fn radec_to_unit(ra: f64, dec: f64) -> [f64; 3] {
    patch::without(&patch::VECTORS, || solar_roll::radec_to_unit(ra, dec))
}

/// The same for one position after the other.
pub fn units(ra: &[f64], dec: &[f64], out: &mut [[f64; 3]]) {
    patch::without(&patch::VECTORS, || {
        for ((&ra, &dec), out) in ra.iter().zip(dec).zip(out) {
            *out = solar_roll::radec_to_unit(ra, dec);
        }
    })
}

/// Of vector_math.rs, as the original hands it over: one row per position.
pub fn radec_to_unit_vectors_batch(ra: &[f64], dec: &[f64]) -> Array2<f64> {
    patch::without(&patch::VECTORS, || vector_math::radec_to_unit_vectors_batch(ra, dec))
}

fn tracked(mask: &[u8], severities: &[f64], times: &[i64]) -> Vec<ConstraintViolation> {
    track_violations(
        &instants(times),
        |i| (mask[i] != 0, severities[i]),
        |_, at_end| if at_end { "at the end".to_string() } else { String::new() },
    )
}

/// A row as the original holds it, for timing `track_violations` alone, without descriptions.
pub struct Row {
    times: Vec<DateTime<Utc>>,
    mask: Vec<bool>,
    severities: Vec<f64>,
}

impl Row {
    pub fn new(mask: &[u8], severities: &[f64], times: &[i64]) -> Row {
        Row { times: instants(times), mask: mask.iter().map(|&b| b != 0).collect(), severities: severities.to_vec() }
    }
    pub fn violations(&self) -> Vec<ConstraintViolation> {
        track_violations(&self.times, |i| (self.mask[i], self.severities[i]), |_, _| String::new())
    }
}

/// `track_violations`: once with the times, and once with sample numbers instead.
pub fn violation_windows(mask: &[u8], severities: &[f64], times: &[i64]) -> Vec<Window> {
    let numbers: Vec<i64> = (0..times.len() as i64).collect();
    let (list, numbered) = (tracked(mask, severities, times), tracked(mask, severities, &numbers));
    assert_eq!(list.len(), numbered.len());
    let window = |(v, w): (&ConstraintViolation, &ConstraintViolation)| Window {
        first: nanoseconds(&w.start_time_internal) as usize,
        last: nanoseconds(&w.end_time_internal) as usize,
        first_time: nanoseconds(&v.start_time_internal),
        last_time: nanoseconds(&v.end_time_internal),
        severity: v.max_severity,
        is_last: v.description == "at the end",
    };
    list.iter().zip(&numbered).map(window).collect()
}

fn result(first: &[i64], last: &[i64], times: &[i64]) -> ConstraintResult {
    let violation = |(&a, &b): (&i64, &i64)| ConstraintViolation {
        start_time_internal: instant(a),
        end_time_internal: instant(b),
        max_severity: 0.0,
        description: String::new(),
    };
    ConstraintResult::new(first.iter().zip(last).map(violation).collect(), first.is_empty(), String::new(), instants(times))
}

pub fn expand(first: &[i64], last: &[i64], times: &[i64]) -> Vec<u8> {
    bytes(result(first, last, times)._get_constraint_vec())
}

pub fn seconds(first: &[i64], last: &[i64]) -> f64 {
    result(first, last, &[]).total_violation_duration().unwrap()
}

/// The instant in a Python object: kept whole by the patch, or read back from year to microsecond.
fn read_back(p: &Py<PyAny>) -> i64 {
    match p.obj() {
        pyo3::Obj::Nanos(n) => *n,
        _ => nanoseconds(&utils::time_utils::python_datetime_to_utc(p.bind(Python::shim())).unwrap()),
    }
}

fn ends(list: Vec<VisibilityWindow>) -> Vec<(i64, i64)> {
    list.iter().map(|v| (read_back(&v.start_time), read_back(&v.end_time))).collect()
}

/// `ConstraintResult`'s visibility getter.
pub fn visibility_of_result(first: &[i64], last: &[i64], times: &[i64]) -> Vec<(i64, i64)> {
    ends(result(first, last, times).visibility(Python::shim()).unwrap())
}

fn moving(mask: &[u8], times: &[i64]) -> Vec<(i64, i64)> {
    let marks = mask.iter().map(|&b| b != 0).collect();
    let result = MovingBodyResult::new(vec![], true, String::new(), instants(times), vec![], vec![], marks);
    ends(result.visibility(Python::shim()).unwrap())
}

/// `MovingBodyResult`'s visibility getter: once with the times, and once with sample numbers, in microseconds, instead.
pub fn visibility_windows(mask: &[u8], times: &[i64]) -> Vec<Window> {
    let numbers: Vec<i64> = (0..times.len() as i64).map(|k| k * 1000).collect();
    let (list, numbered) = (moving(mask, times), moving(mask, &numbers));
    assert_eq!(list.len(), numbered.len());
    let window = |(&(first_time, last_time), (a, b)): (&(i64, i64), (i64, i64))| Window {
        first: (a / 1000) as usize,
        last: (b / 1000) as usize,
        first_time,
        last_time,
        severity: 0.0,
        is_last: (b / 1000) as usize + 1 == mask.len(),
    };
    list.iter().zip(numbered).map(window).collect()
}
