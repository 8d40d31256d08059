//! Rows of samples: masks, times, severities, and lists of windows.
use crate::Seeded;

const LATEST: i64 = 4_000_000_000_000_000_000;

/// The mask whose samples are the lowest bits of a number.
pub fn mask_of(bits: u64, samples: usize) -> Vec<u8> {
    (0..samples).map(|k| (bits >> k & 1) as u8).collect()
}

/// Runs of random lengths.
pub fn mask(s: &mut Seeded, samples: usize) -> Vec<u8> {
    let longest = s.one_of(&[1, 2, 4, 30]);
    let mut mask = Vec::with_capacity(samples);
    let mut byte = s.below(2) as u8;
    while mask.len() < samples {
        let run = s.within(1, longest) as usize;
        mask.extend(std::iter::repeat(byte).take(run.min(samples - mask.len())));
        byte = 1 - byte;
    }
    mask
}

/// Rising strictly, rising with repeats, falling, or in no order; steps of nanoseconds to years; also at the ends of the range.
pub fn times(s: &mut Seeded, samples: usize) -> Vec<i64> {
    let step = s.one_of(&[1, 1, 1_000, 60_000_000_000, 1_000_000_007, 30_000_000_000_000]);
    let mut times: Vec<i64> = match s.below(8) {
        0..=2 => rising(s, samples, step, 1),
        3 | 4 => rising(s, samples, step, 0),
        5 => rising(s, samples, step, 1).into_iter().rev().collect(),
        _ => (0..samples).map(|_| s.below(samples as u64 + 1) as i64 * step).collect(),
    };
    match s.below(16) {
        0 if samples > 0 => times[samples - 1] = LATEST,
        1 if samples > 0 => times[0] = -LATEST,
        2 => times.iter_mut().for_each(|t| *t -= 1_600_000_000_999_999_999),
        3 if samples > 1 => {
            let (a, b) = (s.index(samples), s.index(samples));
            times.swap(a, b);
        }
        _ => {}
    }
    times
}

fn rising(s: &mut Seeded, samples: usize, step: i64, least: u64) -> Vec<i64> {
    let mut t = s.one_of(&[0, -5, 1_700_000_000_123_456_789]);
    (0..samples)
        .map(|_| {
            t += s.within(least, 3) as i64 * step;
            t
        })
        .collect()
}

/// Severities that a listing accepts.
pub fn severities(s: &mut Seeded, samples: usize) -> Vec<f64> {
    let kind = s.below(4);
    let one = |s: &mut Seeded| match kind {
        0 => 0.0,
        1 => s.one_of(&[0.0, 1.0, 1.0, 2.5, f64::MAX, 5e-324]),
        _ => s.between(0.0, 180.0),
    };
    (0..samples).map(|_| one(s)).collect()
}

/// First and last times of windows that need be neither ordered nor apart, mostly among the times.
pub fn windows(s: &mut Seeded, times: &[i64], most: u64) -> (Vec<i64>, Vec<i64>) {
    let count = s.below(most + 1);
    let one = |s: &mut Seeded| match s.below(8) {
        0 => s.one_of(&[-LATEST, LATEST, 0, 1]),
        1 if !times.is_empty() => times[s.index(times.len())].saturating_add(s.below(3) as i64 - 1).clamp(-LATEST, LATEST),
        _ if times.is_empty() => s.below(5) as i64,
        _ => times[s.index(times.len())],
    };
    let mut list: Vec<(i64, i64)> = (0..count).map(|_| (one(s), one(s))).collect();
    if s.once_in(2) {
        for w in &mut list {
            *w = (w.0.min(w.1), w.0.max(w.1));
        }
    }
    if s.once_in(2) {
        list.sort();
    }
    list.into_iter().unzip()
}
