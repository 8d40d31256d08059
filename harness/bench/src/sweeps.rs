//! The sweep, named values and the mask at one roll: the library's calls and the original's.
use crate::case::{side, Case, Limit, Side};
use crate::inputs;
use checks::{lent, rolls};
use model::{plan::Rolls, Plan, Roll};
use oracle::{patch, Whole};
use std::rc::Rc;
use wilfnusk::{CHUNK_CELLS, HEADER_BYTES, LINE_BYTES};

const HEADER: usize = HEADER_BYTES as usize;
const LINE: usize = LINE_BYTES as usize;

/// A whole sweep, begin and then every chunk in order, into a journal of just the length.
pub fn sweep(plan: &Plan, journal: &mut [u8]) {
    let (lent, rolls, chunks) = (lent(plan), rolls(plan), chunks(plan));
    let used = lent.begin(rolls, journal, 0).unwrap();
    let (end, stopped) = lent.work_range(rolls, 0..chunks, journal, used).unwrap();
    assert_eq!((end, stopped), (journal.len() as u64, chunks));
}

pub fn chunks(plan: &Plan) -> u64 {
    (plan.cells() as u64).div_ceil(CHUNK_CELLS)
}

/// Room for a whole journal.
pub fn empty_journal(plan: &Plan) -> Vec<u8> {
    vec![0; HEADER + LINE * chunks(plan) as usize]
}

fn oracle(plan: &Plan) -> Whole {
    Whole::new(plan, &inputs::times(plan.times()))
}

/// The library's sweep; a unit is a probe.
fn port_sweep(plan: Rc<Plan>) -> Box<dyn Side> {
    let (p, q) = (plan.clone(), plan.clone());
    let collected = move |journal: &Vec<u8>| {
        let mut mask = vec![0; plan.cells()];
        let probes = lent(&plan).collect(rolls(&plan), journal, journal.len() as u64, &mut mask).unwrap();
        (mask, probes)
    };
    let again = collected.clone();
    let run = move |journal: &mut Vec<u8>| sweep(&p, journal);
    side(empty_journal(&q), run, move |journal| collected(journal).1, move |journal| again(journal).0)
}

fn original_sweep(plan: &Plan) -> Box<dyn Side> {
    let o = oracle(plan);
    side(
        None,
        move |swept| *swept = Some(o.swept_array()),
        |swept| swept.as_ref().unwrap().1,
        |swept| swept.as_ref().unwrap().0.iter().map(|&b| b as u8).collect(),
    )
}

pub fn sweep_case(name: &'static str, (targets, times): (usize, usize), n: u64, tolerance_deg: f64, limit: Limit) -> Case {
    let plan = Rc::new(inputs::plan(targets, times, n, tolerance_deg));
    Case {
        name,
        title: format!("sweep, n = {n}, tolerance {tolerance_deg}"),
        // One probe per cell: the first, which is the only one or violates nothing.
        unit: if n == 1 || tolerance_deg >= 180.0 { "cell" } else { "probe" },
        limit,
        mask: true,
        other: Some(original_sweep(&plan)),
        port: port_sweep(plan),
    }
}

/// A sweep over its even steps passed as a table, which is the same work, against the even steps themselves: both sides are the library's.
pub fn table_case(name: &'static str, (targets, times): (usize, usize), n: u64, tolerance_deg: f64, limit: Limit) -> Case {
    let even = inputs::plan(targets, times, n, tolerance_deg);
    let table = Plan { rolls: Rolls::Table(even.all_rolls()), ..even.clone() };
    Case {
        name,
        title: format!("sweep over a table of {n}, tolerance {tolerance_deg}, against even steps"),
        unit: "probe",
        limit,
        mask: true,
        other: Some(port_sweep(Rc::new(even))),
        port: port_sweep(Rc::new(table)),
    }
}

/// The same sweep with more and more chunks: a unit is a chunk.
pub fn chunks_case(name: &'static str, times: usize, limit: Limit) -> Case {
    let plan = Rc::new(inputs::plan(1024, times, 72, 10.0));
    let (p, count) = (plan.clone(), chunks(&plan));
    let o = oracle(&plan);
    Case {
        name,
        title: format!("sweep of {count} chunks"),
        unit: "chunk",
        limit,
        mask: false,
        port: side(empty_journal(&plan), move |journal| sweep(&p, journal), move |_| count, |_| vec![]),
        other: Some(side((), move |()| drop(o.swept_array()), move |_| count, |_| vec![])),
    }
}

fn bytes(numbers: &[f64]) -> Vec<u8> {
    numbers.iter().flat_map(|x| x.to_le_bytes()).collect()
}

/// `patched`: with section 1's arctangent on both sides; else the original has the C library's, and the answers differ in the last bits. Its rolls
/// are folded either way.
pub fn named_case(name: &'static str, (targets, times): (usize, usize), patched: bool, limit: Limit) -> Case {
    let plan = inputs::plan(targets, times, 1, 10.0);
    let (o, cells) = (oracle(&plan), plan.cells() as u64);
    let original = move || if patched { o.named_array() } else { patch::without(&patch::ATAN2, || o.named_array()) };
    Case {
        name,
        title: if patched { "named values".into() } else { "named values, the original with the C library's arctangent".into() },
        unit: "cell",
        limit,
        mask: false,
        port: side(
            vec![0.0; plan.cells()],
            move |out| lent(&plan).named_values(out).unwrap(),
            move |_| cells,
            move |out| if patched { bytes(out) } else { vec![] },
        ),
        other: Some(side(
            None,
            move |out| *out = Some(original()),
            move |_| cells,
            move |out| if patched { out.as_ref().unwrap().iter().flat_map(|x: &f64| x.to_le_bytes()).collect() } else { vec![] },
        )),
    }
}

pub fn mask_case(name: &'static str, (targets, times): (usize, usize), tolerance_deg: f64, limit: Limit) -> Case {
    let plan = inputs::plan(targets, times, 1, tolerance_deg);
    let (o, cells) = (oracle(&plan), plan.cells() as u64);
    Case {
        name,
        title: format!("mask at one roll, tolerance {tolerance_deg}"),
        unit: "cell",
        limit,
        mask: true,
        port: side(
            vec![0; plan.cells()],
            move |mask| lent(&plan).in_constraint_batch_at_roll(wilfnusk::Roll::Fixed(30.0), mask).unwrap(),
            move |_| cells,
            |mask| mask.clone(),
        ),
        other: Some(side(
            None,
            move |mask| *mask = Some(o.array_at_roll(Roll::Fixed(30.0))),
            move |_| cells,
            |mask| mask.as_ref().unwrap().iter().map(|&b| b as u8).collect(),
        )),
    }
}
