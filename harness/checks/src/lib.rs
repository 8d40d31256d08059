//! The calls as one trait, so that the library and the plain model can be called alike: `Library` calls the C names, `Model` is
//! document 01, and document 02's requests One to Five and Seven, in plain Rust.
pub mod examples;
mod library;

pub use library::{lent, rolls, work_range, Library, Lists};

use model::arithmetic::bits;
use model::cost::{Cost, Extreme, Size};
use model::journal::Sweep;
use model::windows::Window;
use model::{Answer, Optimal, Plan, Roll};
use std::ops::Range;

/// `lent` is the length of each output.
pub trait Calls {
    fn root(&self, x: f64) -> f64;
    fn arctangent(&self, y: f64, z: f64) -> f64;
    fn sine(&self, r: f64) -> f64;
    fn cosine(&self, r: f64) -> f64;
    fn difference(&self, a: f64, b: f64) -> f64;
    fn radec_to_unit_vectors_batch(&self, ra: &[f64], dec: &[f64], lent: usize) -> Answer<Vec<f64>>;
    fn cell(&self, target: [f64; 3], sun: [f64; 3], observer: [f64; 3], panel: [f64; 3]) -> Answer<Optimal>;
    fn named_values(&self, plan: &Plan, lent: usize) -> Answer<Vec<f64>>;
    fn in_constraint_batch(&self, plan: &Plan, lent: usize) -> Answer<Vec<u8>>;
    fn in_constraint_batch_at_roll(&self, plan: &Plan, roll: Roll, lent: usize) -> Answer<Vec<u8>>;
    fn constrained_at_every_roll(&self, plan: &Plan, n: u64, lent: usize) -> Answer<Vec<u8>>;
    fn evaluate(&self, plan: &Plan, target: u64, masks: usize, severities: usize) -> Answer<(Vec<u8>, Vec<f64>)>;
    fn field_of_regard_violated_batch(&self, plan: &Plan, time: u64, n: u64, lent: usize) -> Answer<Vec<u8>>;
    fn field_of_regard_violated_at_roll(&self, plan: &Plan, time: u64, roll: f64, lent: usize) -> Answer<Vec<u8>>;
    /// Begin, work on the chunks in this order, and collect: the journal, the mask and the sum of probes.
    fn swept(&self, plan: &Plan, order: &[u64]) -> Answer<(Vec<u8>, Vec<u8>, u64)>;
    /// The same by work over ranges of chunks, in this order.
    fn ranged(&self, plan: &Plan, ranges: &[Range<u64>]) -> Answer<(Vec<u8>, Vec<u8>, u64)>;
    /// The used length after it, of a journal all of whose bytes are used.
    fn recover(&self, plan: &Plan, journal: &[u8]) -> Answer<u64>;
    fn cost(&self, size: Size, lent: usize) -> Answer<Cost>;
    /// The length of each list, in the order of `Size::places`.
    fn extreme_plan(&self, extreme: Extreme, size: Size, lent: [usize; 5]) -> Answer<Plan>;
    fn violation_windows(&self, mask: &[u8], times: &[i64], severities: &[f64], columns: [usize; 6]) -> Answer<Vec<Window>>;
    fn visibility_windows(&self, mask: &[u8], times: &[i64], columns: [usize; 6]) -> Answer<Vec<Window>>;
    fn violation_records(&self, mask: &[u8], times: &[i64], severities: &[f64], lent: usize) -> Answer<Vec<Window>>;
    fn visibility_records(&self, mask: &[u8], times: &[i64], lent: usize) -> Answer<Vec<Window>>;
    fn expand(&self, first: &[i64], last: &[i64], times: &[i64], lent: usize) -> Answer<Vec<u8>>;
    fn seconds(&self, first: &[i64], last: &[i64]) -> Answer<f64>;
}

/// The bits of a plan's lists in the order of `Size::places`: how often each triple, or each tolerance, is repeated, and then the next. Nothing is left
/// out, and a list that repeats itself is short in a message.
pub fn runs(plan: &Plan) -> [Vec<(usize, Vec<u64>)>; 5] {
    let Plan { targets, suns, observers, tolerances, panels, .. } = plan;
    [(targets, 3), (suns, 3), (observers, 3), (tolerances, 1), (panels, 3)].map(|(list, width)| {
        let mut runs: Vec<(usize, Vec<u64>)> = Vec::new();
        for entry in list.chunks(width) {
            let entry: Vec<u64> = entry.iter().map(|&x| bits(x)).collect();
            match runs.last_mut() {
                Some((count, last)) if *last == entry => *count += 1,
                _ => runs.push((1, entry)),
            }
        }
        runs
    })
}

pub struct Model;

impl Calls for Model {
    fn root(&self, x: f64) -> f64 {
        x.sqrt()
    }
    fn arctangent(&self, y: f64, z: f64) -> f64 {
        model::arithmetic::arctangent(y, z)
    }
    fn sine(&self, r: f64) -> f64 {
        model::arithmetic::sin_cos(r).0
    }
    fn cosine(&self, r: f64) -> f64 {
        model::arithmetic::sin_cos(r).1
    }
    fn difference(&self, a: f64, b: f64) -> f64 {
        model::roll::difference(a, b)
    }
    fn radec_to_unit_vectors_batch(&self, ra: &[f64], dec: &[f64], lent: usize) -> Answer<Vec<f64>> {
        model::catalogue::radec_to_unit_vectors_batch(ra, dec, lent)
    }
    fn cell(&self, target: [f64; 3], sun: [f64; 3], observer: [f64; 3], panel: [f64; 3]) -> Answer<Optimal> {
        model::roll::cell(target, sun, observer, panel)
    }
    fn named_values(&self, plan: &Plan, lent: usize) -> Answer<Vec<f64>> {
        plan.named_values(lent)
    }
    fn in_constraint_batch(&self, plan: &Plan, lent: usize) -> Answer<Vec<u8>> {
        plan.in_constraint_batch(lent)
    }
    fn in_constraint_batch_at_roll(&self, plan: &Plan, roll: Roll, lent: usize) -> Answer<Vec<u8>> {
        plan.in_constraint_batch_at_roll(roll, lent)
    }
    fn constrained_at_every_roll(&self, plan: &Plan, n: u64, lent: usize) -> Answer<Vec<u8>> {
        plan.constrained_at_every_roll(n, lent)
    }
    fn evaluate(&self, plan: &Plan, target: u64, masks: usize, severities: usize) -> Answer<(Vec<u8>, Vec<f64>)> {
        plan.evaluate(target, masks, severities)
    }
    fn field_of_regard_violated_batch(&self, plan: &Plan, time: u64, n: u64, lent: usize) -> Answer<Vec<u8>> {
        plan.field_of_regard_violated_batch(time, n, lent)
    }
    fn field_of_regard_violated_at_roll(&self, plan: &Plan, time: u64, roll: f64, lent: usize) -> Answer<Vec<u8>> {
        plan.field_of_regard_violated_at_roll(time, roll, lent)
    }
    fn swept(&self, plan: &Plan, order: &[u64]) -> Answer<(Vec<u8>, Vec<u8>, u64)> {
        let sweep = Sweep::new(plan.clone())?;
        let mut journal = sweep.header.clone();
        for &c in order {
            journal.extend(&sweep.lines[c as usize]);
        }
        let (mask, sum) = sweep.collect(&journal, journal.len() as u64, plan.cells())?;
        Ok((journal, mask, sum))
    }
    fn ranged(&self, plan: &Plan, ranges: &[Range<u64>]) -> Answer<(Vec<u8>, Vec<u8>, u64)> {
        self.swept(plan, &ranges.iter().cloned().flatten().collect::<Vec<_>>())
    }
    fn recover(&self, plan: &Plan, journal: &[u8]) -> Answer<u64> {
        Sweep::new(plan.clone())?.recover(journal, journal.len() as u64)
    }
    fn cost(&self, size: Size, lent: usize) -> Answer<Cost> {
        size.cost(lent)
    }
    fn extreme_plan(&self, extreme: Extreme, size: Size, lent: [usize; 5]) -> Answer<Plan> {
        size.extreme_plan(extreme, lent)
    }
    fn violation_windows(&self, mask: &[u8], times: &[i64], severities: &[f64], columns: [usize; 6]) -> Answer<Vec<Window>> {
        model::windows::violation_windows(mask, times, severities, columns)
    }
    fn visibility_windows(&self, mask: &[u8], times: &[i64], columns: [usize; 6]) -> Answer<Vec<Window>> {
        model::windows::visibility_windows(mask, times, columns)
    }
    fn violation_records(&self, mask: &[u8], times: &[i64], severities: &[f64], lent: usize) -> Answer<Vec<Window>> {
        model::windows::violation_windows(mask, times, severities, [lent; 6])
    }
    fn visibility_records(&self, mask: &[u8], times: &[i64], lent: usize) -> Answer<Vec<Window>> {
        model::windows::visibility_windows(mask, times, [lent; 6])
    }
    fn expand(&self, first: &[i64], last: &[i64], times: &[i64], lent: usize) -> Answer<Vec<u8>> {
        model::windows::expand(first, last, times, lent)
    }
    fn seconds(&self, first: &[i64], last: &[i64]) -> Answer<f64> {
        model::windows::seconds(first, last)
    }
}
