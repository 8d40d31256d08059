//! The vectors of catalogue positions: the library's batch call and the original's. A unit is a position.
use crate::case::{side, Case, Limit, Side};
use cases::Seeded;
use oracle::patch;

const COUNT: usize = 10_000;

/// What the library's call is compared with.
#[derive(Clone, Copy, PartialEq)]
pub enum Original {
    /// `radec_to_unit_vectors_batch`, with document 02's sine and cosine.
    Batch,
    /// The same with the C library's: the answers differ in the last bits.
    Libm,
    /// `radec_to_unit`, one position after the other.
    Single,
}

fn bytes<'a>(numbers: impl IntoIterator<Item = &'a f64>) -> Vec<u8> {
    numbers.into_iter().flat_map(|x| x.to_le_bytes()).collect()
}

fn original(which: Original, ra: Vec<f64>, dec: Vec<f64>) -> Box<dyn Side> {
    match which {
        Original::Batch => {
            let run = move |out: &mut _| *out = Some(oracle::radec_to_unit_vectors_batch(&ra, &dec));
            side(None, run, |_| COUNT as u64, |out| bytes(out.as_ref().unwrap().iter()))
        }
        Original::Libm => {
            let run = move |out: &mut _| *out = Some(patch::without(&patch::TRIG, || oracle::radec_to_unit_vectors_batch(&ra, &dec)));
            side(None, run, |_| COUNT as u64, |_| vec![])
        }
        Original::Single => {
            let run = move |out: &mut Vec<[f64; 3]>| oracle::units(&ra, &dec, out);
            side(vec![[0.0; 3]; COUNT], run, |_| COUNT as u64, |out| bytes(out.iter().flatten()))
        }
    }
}

pub fn vectors_case(name: &'static str, which: Original, limit: Limit) -> Case {
    let mut s = Seeded::new(9);
    let (ra, dec): (Vec<f64>, Vec<f64>) = (0..COUNT).map(|_| (s.between(0.0, 360.0), s.between(-90.0, 90.0))).unzip();
    let other = original(which, ra.clone(), dec.clone());
    let with = match which {
        Original::Batch => "",
        Original::Libm => ", the original with the C library's sine and cosine",
        Original::Single => ", against `radec_to_unit`",
    };
    Case {
        name,
        title: format!("vectors of catalogue positions{with}"),
        unit: "position",
        limit,
        mask: false,
        port: side(
            vec![0.0; 3 * COUNT],
            move |out| wilfnusk::radec_to_unit_vectors_batch(&ra, &dec, out).unwrap(),
            |_| COUNT as u64,
            move |out| if which == Original::Libm { vec![] } else { bytes(out) },
        ),
        other: Some(other),
    }
}
