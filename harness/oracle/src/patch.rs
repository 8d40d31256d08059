//! What replaces the originals after the patches. Each patch has a switch: off, the original runs as it was.
use chrono::{DateTime, Utc};
use ndarray::Array2;
use std::cell::{Cell, RefCell};
use std::rc::Rc;
use std::sync::atomic::{AtomicBool, Ordering::Relaxed};

/// Section 1's arctangent instead of the C library's.
pub static ATAN2: AtomicBool = AtomicBool::new(true);
/// Document 02's optimal roll, from 0 to below 360, instead of one from -360 to 360.
pub static FOLD: AtomicBool = AtomicBool::new(true);
/// Document 02's sine and cosine instead of the C library's.
pub static TRIG: AtomicBool = AtomicBool::new(true);
/// A table's rolls instead of even steps.
pub static TABLE: AtomicBool = AtomicBool::new(true);
/// Vectors handed over instead of right ascension and declination.
pub static VECTORS: AtomicBool = AtomicBool::new(true);
/// Whole instants instead of Python datetimes, which hold microseconds.
pub static NANOSECONDS: AtomicBool = AtomicBool::new(true);

/// The answer with a patch switched off; afterwards it is as it was.
pub fn without<A>(patch: &AtomicBool, answer: impl FnOnce() -> A) -> A {
    let before = patch.swap(false, Relaxed);
    let a = answer();
    patch.store(before, Relaxed);
    a
}

thread_local! {
    static LENT: RefCell<Vec<[f64; 3]>> = const { RefCell::new(Vec::new()) };
    static NEXT: Cell<Option<usize>> = const { Cell::new(None) };
    static ROLLS: RefCell<Option<Rc<[f64]>>> = const { RefCell::new(None) };
}

/// From now on right ascension k means vector k.
pub fn lend(vectors: &[[f64; 3]]) {
    LENT.set(vectors.to_vec());
    NEXT.set(None);
}

/// From now on the k-th call gives vector k: field of regard works out right ascensions of its own.
pub fn lend_in_order(vectors: &[[f64; 3]]) {
    lend(vectors);
    NEXT.set(Some(0));
}

pub fn vector(ra: f64) -> Option<[f64; 3]> {
    if !VECTORS.load(Relaxed) {
        return None;
    }
    let k = NEXT.get().unwrap_or(ra as usize);
    NEXT.set(NEXT.get().map(|k| k + 1));
    LENT.with_borrow(|v| v.get(k).copied())
}

pub fn vectors(ras: &[f64]) -> Option<Array2<f64>> {
    let list = ras.iter().map(|&ra| vector(ra)).collect::<Option<Vec<[f64; 3]>>>()?;
    Some(Array2::from_shape_fn((list.len(), 3), |(i, j)| list[i][j]))
}

/// The answer with this table, if any, in force; afterwards there is none.
pub fn with_table<A>(table: Option<&Rc<[f64]>>, answer: impl FnOnce() -> A) -> A {
    let before = ROLLS.replace(table.cloned());
    let a = answer();
    ROLLS.set(before);
    a
}

/// The roll of a step of `sweep`: the table's, and without a table what the original works out.
pub fn sample(step: usize, even: impl FnOnce() -> f64) -> f64 {
    if !TABLE.load(Relaxed) {
        return even();
    }
    ROLLS.with_borrow(|table| table.as_ref().map_or_else(even, |table| table[step]))
}

pub fn instant(dt: &DateTime<Utc>) -> Option<pyo3::Py<pyo3::PyAny>> {
    let whole = NANOSECONDS.load(Relaxed);
    whole.then(|| pyo3::Py::of(pyo3::Obj::Nanos(dt.timestamp_nanos_opt().unwrap())))
}

pub fn atan2(y: f64, z: f64) -> f64 {
    if ATAN2.load(Relaxed) {
        model::arithmetic::arctangent(y, z)
    } else {
        f64::atan2(y, z)
    }
}

/// By the Rust library's own remainder, where the model goes by section 1's steps.
pub fn fold(roll: f64) -> f64 {
    let r = roll.rem_euclid(360.0);
    if r == 360.0 {
        0.0
    } else {
        r
    }
}

/// What `solar_optimal_roll_deg` works out last, folded. It is one call instead of the arctangent's, since with more in that function the
/// compiler leaves it out of the loop of `compute_named_values`: the original would take twice its time, and not by the folding.
#[inline(never)]
pub fn folded(roll: impl FnOnce() -> f64) -> f64 {
    if FOLD.load(Relaxed) {
        fold(roll())
    } else {
        roll()
    }
}

pub trait Trig {
    fn patched_sin(self) -> f64;
    fn patched_cos(self) -> f64;
    fn patched_sin_cos(self) -> (f64, f64);
}

impl Trig for f64 {
    #[inline]
    fn patched_sin(self) -> f64 {
        if TRIG.load(Relaxed) {
            model::arithmetic::sin_cos(self).0
        } else {
            self.sin()
        }
    }
    #[inline]
    fn patched_cos(self) -> f64 {
        if TRIG.load(Relaxed) {
            model::arithmetic::sin_cos(self).1
        } else {
            self.cos()
        }
    }
    #[inline]
    fn patched_sin_cos(self) -> (f64, f64) {
        if TRIG.load(Relaxed) {
            model::arithmetic::sin_cos(self)
        } else {
            self.sin_cos()
        }
    }
}
