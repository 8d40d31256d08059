//! Windows of a row, listed again and again into the same columns. A unit is a sample, which is a byte of the mask.
use crate::case::{side, Case, Limit, Side};
use crate::inputs;
use checks::Lists;

/// How many times a row is listed, and how many samples it has.
pub type Shape = (usize, usize);

/// Which listing.
#[derive(Clone, Copy, PartialEq)]
pub enum Listing {
    Violation,
    Visibility,
}

/// First and last times.
fn ends(list: impl Iterator<Item = (i64, i64)>) -> Vec<u8> {
    list.flat_map(|(a, b)| [a, b]).flat_map(|t| t.to_le_bytes()).collect()
}

/// `pattern`: the row's bytes, over and over.
pub fn windows_case(name: &'static str, (listings, samples): Shape, listing: Listing, what: &str, pattern: &[u8], limit: Limit) -> Case {
    let mask: Vec<u8> = pattern.iter().copied().cycle().take(samples).collect();
    let times = inputs::times(samples);
    let severities: Vec<f64> = (0..samples).map(|k| (k % 97) as f64 / 8.0).collect();
    let original = oracle::Row::new(&mask, &severities, &times);
    let list = move |(lists, count): &mut (Lists, usize)| {
        for _ in 0..listings {
            let out = lists.lend();
            let listed = match listing {
                Listing::Violation => wilfnusk::violation_windows(&mask, &times, &severities, out),
                Listing::Visibility => wilfnusk::visibility_windows(&mask, &times, out),
            };
            *count = listed.unwrap() as usize;
        }
    };
    let found = |(lists, count): &(Lists, usize)| ends(lists.first_time.iter().copied().zip(lists.last_time.iter().copied()).take(*count));
    // The original's visibility getter makes Python objects: no side here.
    let other = (listing == Listing::Violation).then(|| -> Box<dyn Side> {
        side(
            vec![],
            move |list| {
                for _ in 0..listings {
                    *list = original.violations();
                }
            },
            move |_| (listings * samples) as u64,
            |list| {
                let times = list.iter().map(|v| (v.start_time_internal, v.end_time_internal));
                ends(times.map(|(a, b)| (a.timestamp_nanos_opt().unwrap(), b.timestamp_nanos_opt().unwrap())))
            },
        )
    });
    Case {
        name,
        title: format!("{} windows of {samples} samples, {what}", if listing == Listing::Violation { "violation" } else { "visibility" }),
        unit: "byte",
        limit,
        mask: false,
        port: side((Lists::new([samples.div_ceil(2); 6]), 0), list, move |_| (listings * samples) as u64, found),
        other,
    }
}
