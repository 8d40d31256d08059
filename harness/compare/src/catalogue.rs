//! Catalogue positions: their vectors against those of both functions of the original that make them, and then plans whose targets they are,
//! the original being asked on the same degrees. Only the fields of regard are handed the vectors: document 01 has it so.
use crate::plans;
use crate::tally::Tally;
use cases::catalogue::{plan, positions};
use cases::plans::{samples, Entries};
use cases::Seeded;
use checks::{Calls, Model};

pub fn run(calls: &dyn Calls, t: &mut Tally, factor: u64) {
    let mut s = Seeded::new(4);
    while t.positions < 1_000_000 * factor {
        let most = s.one_of(&[3, 40, 3000]);
        let count = s.index(most + 1);
        vectors(calls, t, &mut s, count);
    }
    // Beyond the Rust's own chunks of 65,536 cells, which one evaluator is to go through, then many small ones.
    t.uncounted = true;
    of_plan(calls, t, &mut s, (1400, 50), 3, Entries::Equal);
    t.uncounted = false;
    while t.cells < 300_000 * factor {
        let n = samples(&mut s);
        let most = (100_000 / n).clamp(20, 3000);
        let rows = s.within(1, 60.min(most)) as usize;
        let times = s.within(1, most / rows as u64 + 1) as usize;
        of_plan(calls, t, &mut s, (rows, times), n, Entries::Either);
    }
}

/// Every vector of a list, to the bit.
fn vectors(calls: &dyn Calls, t: &mut Tally, s: &mut Seeded, count: usize) {
    let (ra, dec) = positions(s, count);
    t.positions += count as u64;
    let list = calls.radec_to_unit_vectors_batch(&ra, &dec, 3 * count + s.index(4));
    let batch: Vec<f64> = oracle::radec_to_unit_vectors_batch(&ra, &dec).iter().copied().collect();
    let model = Model.radec_to_unit_vectors_batch(&ra, &dec, 3 * count).expect("accepted");
    t.same("length of a list of vectors", list.clone().map(|list| list.len() as u64), 3 * count as u64, &|| format!("{count} positions"));
    for k in 0..count {
        let of = |list: &[f64]| [list[3 * k], list[3 * k + 1], list[3 * k + 2]];
        let ours = list.as_ref().map(|list| of(list)).map_err(|&number| number);
        let shown = || format!("{:e} {:e}, {k} of {count}", ra[k], dec[k]);
        t.same("vector, batch of vector_math.rs", ours, of(&batch), &shown);
        t.same("vector, radec_to_unit", ours, oracle::radec_to_unit(ra[k], dec[k]), &shown);
        t.same("vector, plain model", ours, of(&model), &shown);
    }
}

fn of_plan(calls: &dyn Calls, t: &mut Tally, s: &mut Seeded, (rows, times): (usize, usize), n: u64, entries: Entries) {
    let (ra, dec) = positions(s, rows);
    match calls.radec_to_unit_vectors_batch(&ra, &dec, 3 * rows) {
        Ok(targets) => {
            let p = plan(s, targets, times);
            plans::one(calls, t, s, p, n, entries, Some((&ra, &dec)));
        }
        Err(number) => {
            t.same("targets", Err(number), 0u64, &|| format!("{ra:?} {dec:?}"));
            t.cells += (rows * times) as u64;
        }
    }
}
