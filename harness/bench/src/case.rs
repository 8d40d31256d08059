//! A case: two sides that do the same work, and what is asked of their times.

/// One side of a case.
pub trait Side {
    fn run(&mut self);
    /// What a time is divided by, after a run.
    fn units(&self) -> u64;
    /// What the run gave, as bytes.
    fn answer(&self) -> Vec<u8>;
}

/// A side whose run writes into its arguments.
struct Lent<B, R, U, A> {
    lent: B,
    run: R,
    units: U,
    answer: A,
}

impl<B, R: FnMut(&mut B), U: Fn(&B) -> u64, A: Fn(&B) -> Vec<u8>> Side for Lent<B, R, U, A> {
    fn run(&mut self) {
        (self.run)(&mut self.lent)
    }
    fn units(&self) -> u64 {
        (self.units)(&self.lent)
    }
    fn answer(&self) -> Vec<u8> {
        (self.answer)(&self.lent)
    }
}

pub fn side<B: 'static>(
    lent: B,
    run: impl FnMut(&mut B) + 'static,
    units: impl Fn(&B) -> u64 + 'static,
    answer: impl Fn(&B) -> Vec<u8> + 'static,
) -> Box<dyn Side> {
    Box::new(Lent { lent, run, units, answer })
}

#[derive(Clone, Copy)]
pub enum Limit {
    /// The ratio of the times is at most this.
    Ratio(f64),
    /// At most the first, and the second is aimed at.
    Aim(f64, f64),
    /// Gigabytes per second, where a unit is a byte.
    Rate(f64),
    /// A unit's time is at most so many times that of the named case, both on the library's side.
    Times(f64, &'static str),
    None,
}

pub struct Case {
    pub name: &'static str,
    pub title: String,
    pub unit: &'static str,
    pub limit: Limit,
    /// Its answer is a mask, whose share of marked cells is reported.
    pub mask: bool,
    pub port: Box<dyn Side>,
    pub other: Option<Box<dyn Side>>,
}
