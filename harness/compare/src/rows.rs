//! Rows of samples: both listings, as columns and as records, expansion in both branches, and seconds.
use crate::tally::Tally;
use cases::{rows, Seeded};
use checks::Calls;
use model::windows::Window;

pub fn run(calls: &dyn Calls, t: &mut Tally, factor: u64) {
    let mut s = Seeded::new(3);
    // Every mask of up to 16 samples, with times of every kind in turn.
    for samples in 0..=16 {
        for bits in 0..1u64 << samples {
            one(calls, t, &mut s, rows::mask_of(bits, samples));
        }
    }
    for samples in [65_536, 65_535] {
        let mask = rows::mask(&mut s, samples);
        one(calls, t, &mut s, mask);
    }
    while t.masks < 1_010_000 * factor {
        let most = s.one_of(&[24, 40, 200]);
        let samples = s.within(1, most) as usize;
        let mask = rows::mask(&mut s, samples);
        one(calls, t, &mut s, mask);
    }
}

fn ends(list: &[Window]) -> (Vec<i64>, Vec<i64>) {
    list.iter().map(|w| (w.first_time, w.last_time)).unzip()
}

fn one(calls: &dyn Calls, t: &mut Tally, s: &mut Seeded, mask: Vec<u8>) {
    t.masks += 1;
    let samples = mask.len();
    let (times, severities) = (rows::times(s, samples), rows::severities(s, samples));
    let shown = || format!("{mask:?} {times:?} {severities:?}");
    let places = samples.div_ceil(2) + s.index(2);
    let violations = oracle::violation_windows(&mask, &severities, &times);
    let clear = oracle::visibility_windows(&mask, &times);
    t.same("violation windows", calls.violation_windows(&mask, &times, &severities, [places; 6]), violations.clone(), &shown);
    t.same("visibility windows", calls.visibility_windows(&mask, &times, [places; 6]), clear.clone(), &shown);
    t.same("violation records", calls.violation_records(&mask, &times, &severities, places), violations.clone(), &shown);
    t.same("visibility records", calls.visibility_records(&mask, &times, places), clear, &shown);

    // Expansion of the row's own windows at its times, and of any list of windows at these times.
    let (first, last) = ends(&violations);
    expansion(calls, t, &first, &last, &times);
    let most = if samples > 1000 { 200 } else { samples as u64 / 2 + 2 };
    let (first, last) = rows::windows(s, &times, most);
    expansion(calls, t, &first, &last, &times);
}

fn expansion(calls: &dyn Calls, t: &mut Tally, first: &[i64], last: &[i64], times: &[i64]) {
    let shown = || format!("windows {first:?} {last:?} times {times:?}");
    let rising = times.windows(2).all(|p| p[0] <= p[1]);
    let kind = if rising { "expansion, rising times" } else { "expansion, reordered times" };
    let mask = calls.expand(first, last, times, times.len());
    t.mask(kind, mask.clone(), oracle::expand(first, last, times), &shown);
    t.same("seconds", calls.seconds(first, last), oracle::seconds(first, last), &shown);
    // `ConstraintResult`'s own visibility windows are those of the expanded mask.
    if let Ok(mask) = mask {
        let list = calls.visibility_windows(&mask, times, [times.len().div_ceil(2); 6]);
        let ours = list.map(|l| l.iter().map(|w| (w.first_time, w.last_time)).collect());
        t.same("visibility of a result", ours, oracle::visibility_of_result(first, last, times), &shown);
    }
}
