//! Section 5: windows of one row, expansion, seconds.
use crate::{first, Answer};

#[derive(Clone, Copy, Debug, PartialEq)]
pub struct Window {
    pub first: usize,
    pub last: usize,
    pub first_time: i64,
    pub last_time: i64,
    pub severity: f64,
    pub is_last: bool,
}

const LATEST: i64 = 4_000_000_000_000_000_000;

fn late(times: &[i64]) -> bool {
    times.iter().any(|t| !(-LATEST..=LATEST).contains(t))
}

/// Maximal runs of samples with this byte: (first, last).
fn runs(mask: &[u8], byte: u8) -> Vec<(usize, usize)> {
    (0..mask.len())
        .filter(|&i| mask[i] == byte && (i == 0 || mask[i - 1] != byte))
        .map(|i| (i, (i..mask.len()).take_while(|&k| mask[k] == byte).last().unwrap()))
        .collect()
}

fn listed(mask: &[u8], times: &[i64], runs: Vec<(usize, usize)>, severity: impl Fn(usize, usize) -> f64) -> Vec<Window> {
    let window = |(a, b): (usize, usize)| Window {
        first: a,
        last: b,
        first_time: times[a],
        last_time: times[b],
        severity: severity(a, b),
        is_last: b + 1 == mask.len(),
    };
    runs.into_iter().map(window).collect()
}

/// `columns`: the lengths of the six output columns; of a slice of records, its length six times.
pub fn violation_windows(mask: &[u8], times: &[i64], severities: &[f64], columns: [usize; 6]) -> Answer<Vec<Window>> {
    let bad = severities.iter().any(|s| !s.is_finite() || s.is_sign_negative());
    before(mask, times, mask.len() != severities.len(), bad, columns)?;
    let list = listed(mask, times, runs(mask, 1), |a, b| severities[a..=b].iter().fold(0.0, |m, &s| if s > m { s } else { m }));
    first(&[(list.len() > columns[0], 7)])?;
    Ok(list)
}

/// Rule V.
pub fn visibility_windows(mask: &[u8], times: &[i64], columns: [usize; 6]) -> Answer<Vec<Window>> {
    before(mask, times, false, false, columns)?;
    let kept = runs(mask, 0).into_iter().filter(|&(a, b)| b > a || b + 1 == mask.len()).collect();
    let list = listed(mask, times, kept, |_, _| 0.0);
    first(&[(list.len() > columns[0], 7)])?;
    Ok(list)
}

/// *Windows* before its 7.
fn before(mask: &[u8], times: &[i64], differ: bool, bad_severity: bool, columns: [usize; 6]) -> Answer<()> {
    first(&[
        (mask.len() != times.len() || differ || columns.iter().any(|&c| c != columns[0]), 1),
        (mask.len() > 65_536, 2),
        (late(times), 8),
        (mask.iter().any(|&b| b > 1) || bad_severity, 14),
    ])
}

/// `_get_constraint_vec`: where the times never fall, windows that ended are not looked at again; else each sample looks through the
/// windows up to the first that starts later.
pub fn expand(first_times: &[i64], last_times: &[i64], times: &[i64], lent: usize) -> Answer<Vec<u8>> {
    first(&[
        (first_times.len() != last_times.len(), 1),
        (first_times.len() > 65_536 || times.len() > 65_536, 2),
        (late(first_times) || late(last_times) || late(times), 8),
        (lent < times.len(), 7),
    ])?;
    let windows: Vec<(i64, i64)> = first_times.iter().copied().zip(last_times.iter().copied()).collect();
    let rising = times.windows(2).all(|p| p[0] <= p[1]);
    let mut passed = 0;
    let mark = |&t: &i64| {
        if rising {
            passed += windows[passed..].iter().take_while(|w| w.1 < t).count();
            windows.get(passed).map_or(false, |w| w.0 <= t)
        } else {
            windows.iter().take_while(|w| w.0 <= t).any(|w| t <= w.1)
        }
    };
    Ok(times.iter().map(mark).map(u8::from).collect())
}

pub fn seconds(first_times: &[i64], last_times: &[i64]) -> Answer<f64> {
    first(&[(first_times.len() != last_times.len(), 1), (first_times.len() > 65_536, 2), (late(first_times) || late(last_times), 8)])?;
    let whole: i64 = first_times.iter().zip(last_times).map(|(a, b)| (b - a) / 1_000_000_000).sum();
    Ok(whole as f64)
}
