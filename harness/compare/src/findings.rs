//! The differences that docs/DIFFERENCES.md lists, each by the smallest input that was found: what the library answers, and what the
//! original answers without the patch. A difference that is gone is a failure too.
use crate::tally::Tally;
use checks::Calls;
use model::arithmetic::bits;
use model::plan::Rolls;
use model::{Plan, Roll};
use oracle::patch::{self, without};
use oracle::Oracle;
use std::sync::atomic::AtomicBool;

fn plan(target: [f64; 3], sun: [f64; 3], tolerance_deg: f64, roll_deg: Option<f64>) -> Plan {
    let (tolerances, panels, rolls) = (vec![tolerance_deg], vec![0.0, 1.0, 0.0], Rolls::Even(1));
    Plan { targets: target.to_vec(), suns: sun.to_vec(), observers: vec![0.0; 3], tolerances, roll_deg, panels, rolls }
}

/// What the original answers with its own arctangent, rolls, sine and cosine.
fn as_it_is<A>(answer: impl Fn() -> A) -> A {
    without(&patch::ATAN2, || without(&patch::FOLD, || without(&patch::TRIG, answer)))
}

/// What it answers with one patch off, to show that this patch removes the difference, and as it is.
fn original<A>(patch: &AtomicBool, answer: impl Fn() -> A) -> [A; 2] {
    let unpatched = || without(patch, &answer);
    [unpatched(), as_it_is(unpatched)]
}

fn all_bits(list: &[f64]) -> Vec<u64> {
    list.iter().map(|&x| bits(x)).collect()
}

pub fn run(calls: &dyn Calls, t: &mut Tally) {
    refused(calls, t);
    arctangent(calls, t);
    field_of_regard(calls, t);
    sine_and_cosine(calls, t);
    position_refused(calls, t);
    unfolded(calls, t);
    table(calls, t);
    nanoseconds(calls, t);
    every_roll(calls, t);
}

/// Refused here, answered there.
fn refused(calls: &dyn Calls, t: &mut Tally) {
    let p = plan([2.0, 0.0, 0.0], [0.0, 0.0, 1.0], 10.0, None);
    let ours = calls.in_constraint_batch_at_roll(&p, Roll::Sweep(0.0), 1);
    let theirs = as_it_is(|| Oracle::new(&p, &[0]).in_constraint_batch_at_roll(Roll::Sweep(0.0)));
    t.known("1: a target of length 2", (ours, theirs), (Err(5), vec![1]));

    // The Sun dead ahead: Free, were the target of length 1; a tolerance of -1 marks what is not Free.
    for (what, target, listed) in [
        ("1: a target of half length", [0.5, 0.0, 0.0], (Err(20), vec![1])),
        ("1: the same of length 1", [1.0, 0.0, 0.0], (Ok(vec![0]), vec![0])),
    ] {
        let p = plan(target, [1.0, 0.0, 0.0], -1.0, None);
        let ours = calls.in_constraint_batch_at_roll(&p, Roll::Sweep(0.0), 1);
        let theirs = as_it_is(|| Oracle::new(&p, &[0]).in_constraint_batch_at_roll(Roll::Sweep(0.0)));
        t.known(what, (ours, theirs), listed);
    }

    let p = Plan { rolls: Rolls::Even(0), ..plan([1.0, 0.0, 0.0], [0.0, 0.0, 1.0], 10.0, None) };
    let ours = calls.swept(&p, &[0]).map(|swept| swept.1);
    let theirs = as_it_is(|| Oracle::new(&p, &[0]).sweep().0);
    t.known("1: a sweep of no rolls", (ours, theirs), (Err(3), vec![1]));

    // A severity of difference - tolerance is +infinity where the tolerance is -infinity: 14 of the listing.
    let p = plan([1.0, 0.0, 0.0], [0.0, 0.0, 1.0], f64::NEG_INFINITY, Some(0.0));
    let ours = calls.evaluate(&p, 0, 1, 1).and_then(|(mask, severities)| calls.violation_windows(&mask, &[0], &severities, [1; 6]));
    let ours = ours.map(|windows| windows.iter().map(|w| w.severity).collect());
    let theirs = as_it_is(|| Oracle::new(&p, &[0]).row_windows(0)).iter().map(|w| w.2).collect();
    t.known("1: a tolerance of -infinity", (ours, theirs), (Err(14), vec![f64::INFINITY]));
}

/// The Sun in the y-z plane, a tolerance met exactly by section 1's arctangent and missed by the C library's.
fn arctangent(calls: &dyn Calls, t: &mut Tally) {
    let p = plan([1.0, 0.0, 0.0], [0.0, -3.0, -2.0], f64::from_bits(0x4062_49ea_f781_fc53), Some(0.0));
    for theirs in original(&patch::ATAN2, || Oracle::new(&p, &[0]).in_constraint_batch()) {
        t.known("2: the arctangent", (calls.in_constraint_batch(&p, 1), theirs), (Ok(vec![0]), vec![1]));
    }
}

/// A configured roll: the original works out right ascension and declination, and from them another vector.
fn field_of_regard(calls: &dyn Calls, t: &mut Tally) {
    let p = plan([0.0, 0.6, 0.8], [1.0, 2.0, 1.0], 135.0, Some(90.0));
    for theirs in original(&patch::VECTORS, || Oracle::new(&p, &[0]).field_of_regard_violated_at_roll(0, 0.0)) {
        t.known("3: field of regard", (calls.field_of_regard_violated_at_roll(&p, 0, 0.0, 1), theirs), (Ok(vec![0]), vec![1]));
    }
}

/// A quarter turn, and a tolerance met exactly by the vector that document 02's rule gives and missed by the C library's.
fn sine_and_cosine(calls: &dyn Calls, t: &mut Tally) {
    let position = (&[90.0][..], &[0.0][..]);
    let ours = calls.radec_to_unit_vectors_batch(position.0, position.1, 3);
    let listed = (Ok(all_bits(&[-0.0, 1.0, 0.0])), all_bits(&[6.123233995736766e-17, 1.0, 0.0]));
    for what in ["4: vector of (90, 0), radec_to_unit", "4: vector of (90, 0), batch"] {
        let theirs = without(&patch::TRIG, || match what.ends_with("batch") {
            true => oracle::radec_to_unit_vectors_batch(position.0, position.1).iter().copied().collect(),
            false => oracle::radec_to_unit(90.0, 0.0).to_vec(),
        });
        t.known(what, (ours.clone().map(|v| all_bits(&v)), all_bits(&theirs)), listed.clone());
    }
    let Ok(Ok(target)) = ours.map(<[f64; 3]>::try_from) else { return };
    let p = plan(target, [0.0, 3.0, 1.0], 90.0, Some(180.0));
    for theirs in original(&patch::TRIG, || Oracle::new(&p, &[0]).at_positions(position).in_constraint_batch()) {
        t.known("4: mark of (90, 0)", (calls.in_constraint_batch(&p, 1), theirs), (Ok(vec![0]), vec![1]));
    }
}

/// A right ascension below 0, which the original takes.
fn position_refused(calls: &dyn Calls, t: &mut Tally) {
    let ours = calls.radec_to_unit_vectors_batch(&[-90.0], &[0.0], 3);
    let theirs = all_bits(&without(&patch::TRIG, || oracle::radec_to_unit(-90.0, 0.0)));
    t.known("5: a right ascension of -90", (ours.map(|v| all_bits(&v)), theirs), (Err(16), all_bits(&[6.123233995736766e-17, -1.0, 0.0])));
}

/// The original's rolls lie from -360 to 360; and a tolerance that the folded roll meets exactly is missed by the roll itself.
fn unfolded(calls: &dyn Calls, t: &mut Tally) {
    for (panel, sun, here, there) in [
        ([0.0, 1.0, 0.0], [0.0, 0.0, -1.0], 270.0, -90.0),
        ([0.0, 0.0, 1.0], [-0.0, -1.0, -0.0], 90.0, -270.0),
        ([0.0, -1.0, 0.0], [-0.0, -1.0, -0.0], -0.0, -360.0),
        ([0.0, -1.0, -0.0], [0.0, -1.0, 0.0], 0.0, 360.0),
        ([0.0, 1.0, 0.0], [0.0, 1.0, -1e-16], 0.0, -5.729577951308232e-15),
    ] {
        let p = Plan { panels: panel.to_vec(), ..plan([1.0, 0.0, 0.0], sun, 10.0, None) };
        for theirs in original(&patch::FOLD, || Oracle::new(&p, &[0]).named_values()) {
            let found = (calls.named_values(&p, 1).map(|v| all_bits(&v)), all_bits(&theirs));
            t.known("6: rolls from -360 to 360", found, (Ok(all_bits(&[here])), all_bits(&[there])));
        }
    }
    let p = plan([1.0, 0.0, 0.0], [0.0, -1.0, -2.0], f64::from_bits(0x405d_2429_cc69_8770), Some(0.0));
    for theirs in original(&patch::FOLD, || Oracle::new(&p, &[0]).in_constraint_batch()) {
        t.known("6: mark by a folded roll", (calls.in_constraint_batch(&p, 1), theirs), (Ok(vec![0]), vec![1]));
    }
}

/// The optimal roll is 90. The original has as many even steps; with the table it also sweeps over tables that are refused here.
fn table(calls: &dyn Calls, t: &mut Tally) {
    let over = |table: &[f64]| Plan { rolls: Rolls::Table(table.to_vec()), ..plan([1.0, 0.0, 0.0], [0.0, 0.0, 1.0], 10.0, None) };
    let ours = |p: &Plan| calls.swept(p, &[0]).map(|(_, mask, probes)| vec![mask[0] as u64, probes]);
    let theirs = |p: &Plan| {
        let (mask, tried) = Oracle::new(p, &[0]).sweep();
        vec![mask[0] as u64, tried[0]]
    };
    let p = over(&[45.0, 90.0, 180.0]);
    for theirs in original(&patch::TABLE, || theirs(&p)) {
        t.known("7: rolls of a table", (ours(&p), theirs), (Ok(vec![0, 2]), vec![1, 3]));
    }
    for (table, number, there) in [(&[][..], 18, vec![1, 0]), (&[0.0, 360.0], 19, vec![1, 2]), (&[90.0, 90.0], 19, vec![0, 1])] {
        let p = over(table);
        t.known("7: a table refused", (ours(&p), as_it_is(|| theirs(&p))), (Err(number), there));
    }
}

/// One clear sample at 1 ns, and at -1 ns.
fn nanoseconds(calls: &dyn Calls, t: &mut Tally) {
    for (time, read_back) in [(1, 0), (-1, -1000)] {
        let ours = calls.visibility_windows(&[0], &[time], [1; 6]).map(|l| l.iter().map(|w| w.first_time).collect());
        let theirs = without(&patch::NANOSECONDS, || oracle::visibility_windows(&[0], &[time]));
        let theirs = theirs.iter().map(|w| w.first_time).collect();
        t.known("8: nanoseconds", (ours, theirs), (Ok(vec![time]), vec![read_back]));
    }
}

/// Not a difference between the two sides: the original's own two ways to a mask. Both sides give both answers.
fn every_roll(calls: &dyn Calls, t: &mut Tally) {
    let p = plan([1.0, 0.0, 0.0], [0.0, -1.0, 2.0], f64::from_bits(0x405d_2429_cc69_8770), None);
    let shown = || format!("{p:?}");
    let roll = f64::from_bits(0x405d_2429_cc69_8771);
    t.same("roll where sweep and every roll differ", calls.named_values(&p, 1), vec![roll], &shown);
    t.same("sweep where every roll differs", calls.swept(&p, &[0]).map(|s| s.1), vec![0], &shown);
    t.same("every roll where the sweep differs", calls.constrained_at_every_roll(&p, 1, 1), vec![1], &shown);
    let o = Oracle::new(&p, &[0]);
    let asked = || (o.named_values(), o.sweep().0, o.constrained_at_every_roll(1));
    for (named, swept, every) in [asked(), as_it_is(asked)] {
        let shown = || "the original".to_string();
        t.same("roll where sweep and every roll differ", Ok(named), vec![roll], &shown);
        t.same("sweep where every roll differs", Ok(swept), vec![0], &shown);
        t.same("every roll where the sweep differs", Ok(every), vec![1], &shown);
    }
}
