//! Solar roll, windows and the sweep journal for Rust: slices in, `Result` out.
//!
//! Every answer comes from the proved library: this crate only passes slices on. A refused call writes nothing and gives a
//! [`Refusal`] with the reason, its number and its sentence.
//! A call needs up to 448 KiB of stack.
//!
//! ```
//! use wilfnusk::{Plan, Roll};
//! let plan = Plan {
//!     targets: &[1.0, 0.0, 0.0],
//!     suns: &[0.0, 1.0, 0.0, 0.0, 0.0, 1.0],
//!     observers: &[0.0; 6],
//!     tolerances: &[10.0],
//!     roll_deg: None,
//!     panel_normal: [0.0, 1.0, 0.0],
//! };
//! let mut mask = [0; 2];
//! plan.in_constraint_batch_at_roll(Roll::Sweep(0.0), &mut mask)?;
//! assert_eq!(mask, [0, 1]);
//! # Ok::<(), wilfnusk::Refusal>(())
//! ```
mod refusal;
pub mod sys;

pub use refusal::{Call, Reason, Refusal};
use std::ops::Range;
pub use sys::Window;

/// Bytes of a journal's header, and of each line after it.
pub const HEADER_BYTES: u64 = 107;
pub const LINE_BYTES: u64 = 33;
/// Cells of a chunk; the last chunk may have fewer.
pub const CHUNK_CELLS: u64 = 64;

/// A plan, borrowed. Directions and positions are flat lists, three numbers each.
#[derive(Clone, Copy, Debug)]
pub struct Plan<'a> {
    /// Unit vectors: the squared length of each is within 1e-9 of 1.
    pub targets: &'a [f64],
    pub suns: &'a [f64],
    pub observers: &'a [f64],
    /// In degrees, one per target.
    pub tolerances: &'a [f64],
    /// The configured roll.
    pub roll_deg: Option<f64>,
    pub panel_normal: [f64; 3],
}

/// The roll at which a mask is asked for. A configured roll overrides `Sweep`, never `Fixed`.
#[derive(Clone, Copy, Debug, PartialEq)]
pub enum Roll {
    Sweep(f64),
    Fixed(f64),
}

/// The rolls of a sweep: n even steps of 360 / n degrees from 0, or a table of 1 to 3,600 rolls, each within 0 to below 360 and above the one before
/// it. Every call on one journal must have the same.
#[derive(Clone, Copy, Debug, PartialEq)]
pub enum Rolls<'a> {
    Even(u64),
    Table(&'a [f64]),
}

impl From<u64> for Rolls<'_> {
    fn from(n: u64) -> Self {
        Rolls::Even(n)
    }
}

impl<'a> From<&'a [f64]> for Rolls<'a> {
    fn from(table: &'a [f64]) -> Self {
        Rolls::Table(table)
    }
}

/// The roll of one cell: `Free` where none is better than another.
#[derive(Clone, Copy, Debug, PartialEq)]
pub enum OptimalRoll {
    Free,
    At(f64),
}

/// The six columns that a listing writes, equally long.
#[derive(Debug)]
pub struct Columns<'a> {
    pub first: &'a mut [u64],
    pub last: &'a mut [u64],
    pub first_time: &'a mut [i64],
    pub last_time: &'a mut [i64],
    pub severity: &'a mut [f64],
    pub is_last: &'a mut [u8],
}

fn accepted(call: Call, answer: i64) -> Result<u64, Refusal> {
    u64::try_from(answer).map_err(|_| Refusal::of(call, answer))
}

/// Calls a C name with the plan first.
macro_rules! with_plan {
    ($plan:expr, $call:ident, $name:ident, $($rest:expr),*) => {{
        let p: &Plan = $plan;
        let [x, y, z] = p.panel_normal;
        // Each pointer comes from a slice with its length, and `&mut` keeps the written ones apart from the rest.
        accepted(Call::$call, unsafe {
            sys::$name(
                p.targets.as_ptr(), p.targets.len(), p.suns.as_ptr(), p.suns.len(), p.observers.as_ptr(), p.observers.len(),
                p.tolerances.as_ptr(), p.tolerances.len(), p.roll_deg.is_some() as u64, p.roll_deg.unwrap_or(0.0), x, y, z, $($rest),*
            )
        })
    }};
}

/// Calls the C name for even steps, or that for a table.
macro_rules! with_rolls {
    ($plan:expr, $rolls:expr, $call:ident, $even:ident, $table:ident, $($rest:expr),*) => {
        match $rolls.into() {
            Rolls::Even(n) => with_plan!($plan, $call, $even, n, $($rest),*),
            Rolls::Table(table) => with_plan!($plan, $call, $table, table.as_ptr(), table.len(), $($rest),*),
        }
    };
}

impl Plan<'_> {
    /// The optimal roll of each cell, of Free ones too, in degrees: each from 0 up to but not at 360.
    pub fn named_values(&self, out: &mut [f64]) -> Result<(), Refusal> {
        with_plan!(self, Masks, wilfnusk_named_values, out.as_mut_ptr(), out.len()).map(drop)
    }
    /// The mask at the configured roll; without one, all clear.
    pub fn in_constraint_batch(&self, mask: &mut [u8]) -> Result<(), Refusal> {
        with_plan!(self, Masks, wilfnusk_in_constraint_batch, mask.as_mut_ptr(), mask.len()).map(drop)
    }
    /// The mask at this roll, or at the configured one where that replaces it.
    pub fn in_constraint_batch_at_roll(&self, roll: Roll, mask: &mut [u8]) -> Result<(), Refusal> {
        let (fixed, degrees) = match roll {
            Roll::Sweep(r) => (0, r),
            Roll::Fixed(r) => (1, r),
        };
        with_plan!(self, Masks, wilfnusk_in_constraint_batch_at_roll, fixed, degrees, mask.as_mut_ptr(), mask.len()).map(drop)
    }
    /// The mask by the distance to the nearest of n even steps. Where rounding decides, it is not always the sweep's mask.
    pub fn constrained_at_every_roll(&self, n: u64, mask: &mut [u8]) -> Result<(), Refusal> {
        with_plan!(self, Masks, wilfnusk_constrained_at_every_roll, n, mask.as_mut_ptr(), mask.len()).map(drop)
    }
    /// One target's row at the configured roll: its mask and severities; without one, all zero.
    pub fn evaluate(&self, target: u64, mask: &mut [u8], severities: &mut [f64]) -> Result<(), Refusal> {
        with_plan!(self, Row, wilfnusk_evaluate, target, mask.as_mut_ptr(), mask.len(), severities.as_mut_ptr(), severities.len()).map(drop)
    }
    /// Each target's mark at one time, by the distance to the nearest of n even steps.
    pub fn field_of_regard_violated_batch(&self, time: u64, n: u64, mask: &mut [u8]) -> Result<(), Refusal> {
        with_plan!(self, FieldOfRegard, wilfnusk_field_of_regard_violated_batch, time, n, mask.as_mut_ptr(), mask.len()).map(drop)
    }
    /// Each target's mark at one time, at the configured roll, else at `roll_deg`.
    pub fn field_of_regard_violated_at_roll(&self, time: u64, roll_deg: f64, mask: &mut [u8]) -> Result<(), Refusal> {
        with_plan!(self, FieldOfRegard, wilfnusk_field_of_regard_violated_at_roll, time, roll_deg, mask.as_mut_ptr(), mask.len()).map(drop)
    }
    /// Writes the header into an empty journal. The used length after it. The rolls are their number, or a table of them: see [`Rolls`].
    ///
    /// ```
    /// # let plan = wilfnusk::Plan {
    /// #     targets: &[1.0, 0.0, 0.0],
    /// #     suns: &[0.0, 1.0, 0.0, 0.0, 0.0, 1.0],
    /// #     observers: &[0.0; 6],
    /// #     tolerances: &[10.0],
    /// #     roll_deg: None,
    /// #     panel_normal: [0.0, 1.0, 0.0],
    /// # };
    /// // The optimal rolls of the two cells are 0 and 90: of this table, 80 is within 10 degrees of the second alone.
    /// let table: &[f64] = &[15.0, 80.0];
    /// let mut journal = [0; 140];
    /// let mut mask = [0; 2];
    /// let used = plan.begin(table, &mut journal, 0)?;
    /// let used = plan.work(table, 0, &mut journal, used)?;
    /// let probes = plan.collect(table, &journal, used, &mut mask)?;
    /// assert_eq!((mask, probes), ([1, 0], 4));
    /// # Ok::<(), wilfnusk::Refusal>(())
    /// ```
    pub fn begin<'r>(&self, rolls: impl Into<Rolls<'r>>, journal: &mut [u8], used: u64) -> Result<u64, Refusal> {
        with_rolls!(self, rolls, Begin, wilfnusk_begin, wilfnusk_begin_rolls, journal.as_mut_ptr(), journal.len(), used)
    }
    /// Sweeps a chunk and appends its line. The used length after it.
    pub fn work<'r>(&self, rolls: impl Into<Rolls<'r>>, chunk: u64, journal: &mut [u8], used: u64) -> Result<u64, Refusal> {
        with_rolls!(self, rolls, Work, wilfnusk_work, wilfnusk_work_rolls, chunk, journal.as_mut_ptr(), journal.len(), used)
    }
    /// Sweeps the chunks of a range and appends their lines, up to its end or the first chunk that [`Plan::work`] refuses, with one check of the journal.
    /// The used length after them, and the chunk at which it stopped.
    pub fn work_range<'r>(
        &self,
        rolls: impl Into<Rolls<'r>>,
        chunks: Range<u64>,
        journal: &mut [u8],
        used: u64,
    ) -> Result<(u64, u64), Refusal> {
        let mut stopped = chunks.start;
        self.work_range_into(rolls, chunks, journal, used, &mut stopped).map(|used| (used, stopped))
    }
    /// [`Plan::work_range`] as the C name has it: the chunk at which it stopped is written to `stopped`, which a refused call leaves as it was.
    pub fn work_range_into<'r>(
        &self,
        rolls: impl Into<Rolls<'r>>,
        chunks: Range<u64>,
        journal: &mut [u8],
        used: u64,
        stopped: &mut u64,
    ) -> Result<u64, Refusal> {
        let Range { start, end } = chunks;
        with_rolls!(
            self,
            rolls,
            WorkRange,
            wilfnusk_work_range,
            wilfnusk_work_range_rolls,
            start,
            end,
            journal.as_mut_ptr(),
            journal.len(),
            used,
            stopped
        )
    }
    /// The used length without an incomplete header or line at the end. Shorten the file to it before the next write.
    pub fn recover<'r>(&self, rolls: impl Into<Rolls<'r>>, journal: &[u8], used: u64) -> Result<u64, Refusal> {
        with_rolls!(self, rolls, Recover, wilfnusk_recover, wilfnusk_recover_rolls, journal.as_ptr(), journal.len(), used)
    }
    /// Writes the mask that the journal's lines hold. The sum of their probes.
    pub fn collect<'r>(&self, rolls: impl Into<Rolls<'r>>, journal: &[u8], used: u64, mask: &mut [u8]) -> Result<u64, Refusal> {
        with_rolls!(
            self,
            rolls,
            Collect,
            wilfnusk_collect,
            wilfnusk_collect_rolls,
            journal.as_ptr(),
            journal.len(),
            used,
            mask.as_mut_ptr(),
            mask.len()
        )
    }
}

/// IEEE 754's square root, to nearest, ties to even.
pub fn sqrt(x: f64) -> f64 {
    unsafe { sys::wilfnusk_sqrt(x) }
}
/// The arctangent of (y, z) by the library's own rule; NaN unless both are finite.
pub fn atan2(y: f64, z: f64) -> f64 {
    unsafe { sys::wilfnusk_atan2(y, z) }
}
/// The sine of r radians by the library's own rule, made for angles within a turn either way; NaN gives NaN.
pub fn sin(r: f64) -> f64 {
    unsafe { sys::wilfnusk_sin(r) }
}
/// The cosine of r radians by the same rule.
pub fn cos(r: f64) -> f64 {
    unsafe { sys::wilfnusk_cos(r) }
}
/// The shortest arc between two rolls, in degrees; NaN unless both are finite and their difference is.
pub fn circular_diff_deg(a: f64, b: f64) -> f64 {
    unsafe { sys::wilfnusk_circular_diff_deg(a, b) }
}
/// The optimal roll of one cell, in degrees: from 0 up to but not at 360.
pub fn cell(target: [f64; 3], sun: [f64; 3], observer: [f64; 3], panel_normal: [f64; 3]) -> Result<OptimalRoll, Refusal> {
    let mut roll = 0.0;
    let ([a, b, c], [d, e, f], [g, h, i], [x, y, z]) = (target, sun, observer, panel_normal);
    let answer = unsafe { sys::wilfnusk_cell(a, b, c, d, e, f, g, h, i, x, y, z, &mut roll) };
    accepted(Call::Cell, answer).map(|at| if at == 0 { OptimalRoll::Free } else { OptimalRoll::At(roll) })
}

/// Writes the unit vector of each catalogue position, right ascension and declination in degrees: x, y, z for each. Elements beyond keep their values.
/// No vector that it writes is refused as a target of a [`Plan`].
///
/// ```
/// let mut targets = [0.0; 6];
/// wilfnusk::radec_to_unit_vectors_batch(&[0.0, 180.0], &[0.0, -90.0], &mut targets)?;
/// assert_eq!(targets, [1.0, 0.0, 0.0, 0.0, 0.0, -1.0]);
/// # Ok::<(), wilfnusk::Refusal>(())
/// ```
pub fn radec_to_unit_vectors_batch(ra: &[f64], dec: &[f64], out: &mut [f64]) -> Result<(), Refusal> {
    accepted(Call::Catalogue, unsafe {
        sys::wilfnusk_radec_to_unit_vectors_batch(ra.as_ptr(), ra.len(), dec.as_ptr(), dec.len(), out.as_mut_ptr(), out.len())
    })
    .map(drop)
}

/// What a sweep costs, whatever is in its plan. Probes are the rolls that it tries.
#[derive(Clone, Copy, Debug, PartialEq, Eq)]
pub struct Cost {
    /// The journal's length once each chunk has its line.
    pub journal_bytes: u64,
    pub fewest_probes: u64,
    pub most_probes: u64,
}

/// The cost of a plan with so many targets and times, swept over n rolls.
///
/// ```
/// let cost = wilfnusk::cost(10, 13, 72)?;
/// assert_eq!((cost.journal_bytes, cost.fewest_probes, cost.most_probes), (107 + 33 * 3, 130, 72 * 130));
/// # Ok::<(), wilfnusk::Refusal>(())
/// ```
pub fn cost(targets: u64, times: u64, n: u64) -> Result<Cost, Refusal> {
    let mut out = [0; 3];
    cost_into(targets, times, n, &mut out)?;
    let [journal_bytes, fewest_probes, most_probes] = out;
    Ok(Cost { journal_bytes, fewest_probes, most_probes })
}
/// [`cost`] as the C name has it: its three numbers are written into the first places of `out`.
pub fn cost_into(targets: u64, times: u64, n: u64, out: &mut [u64]) -> Result<(), Refusal> {
    accepted(Call::Cost, unsafe { sys::wilfnusk_cost(targets, times, n, out.as_mut_ptr(), out.len()) }).map(drop)
}

/// The lists into which a plan is written: 3 numbers per target, 3 per time, 3 per time, 1 per target, and 3. Elements beyond keep their values.
#[derive(Debug)]
pub struct PlanLists<'a> {
    pub target_numbers: &'a mut [f64],
    pub suns: &'a mut [f64],
    pub observers: &'a mut [f64],
    pub tolerances: &'a mut [f64],
    pub panel: &'a mut [f64],
}

/// Calls a C name that writes a plan.
macro_rules! write_plan {
    ($name:ident, $targets:expr, $times:expr, $n:expr, $out:expr) => {{
        let out: PlanLists = $out;
        // Each pointer comes from a slice with its length, and `&mut` keeps them apart.
        accepted(Call::Cost, unsafe {
            sys::$name(
                $targets,
                $times,
                $n,
                out.target_numbers.as_mut_ptr(),
                out.target_numbers.len(),
                out.suns.as_mut_ptr(),
                out.suns.len(),
                out.observers.as_mut_ptr(),
                out.observers.len(),
                out.tolerances.as_mut_ptr(),
                out.tolerances.len(),
                out.panel.as_mut_ptr(),
                out.panel.len(),
            )
        })
        .map(drop)
    }};
}

/// Writes a plan of this size whose sweep tries the most rolls, every tolerance -1. Pass it without a configured roll.
pub fn costliest_plan(targets: u64, times: u64, n: u64, out: PlanLists) -> Result<(), Refusal> {
    write_plan!(wilfnusk_costliest_plan, targets, times, n, out)
}
/// Writes a plan of this size whose sweep tries the fewest rolls, every tolerance 180. Pass it without a configured roll.
pub fn cheapest_plan(targets: u64, times: u64, n: u64, out: PlanLists) -> Result<(), Refusal> {
    write_plan!(wilfnusk_cheapest_plan, targets, times, n, out)
}

/// Lists the maximal runs of marked samples of a row. How many there are.
pub fn violation_windows(mask: &[u8], times: &[i64], severities: &[f64], out: Columns) -> Result<u64, Refusal> {
    accepted(Call::Windows, unsafe {
        sys::wilfnusk_violation_windows(
            mask.as_ptr(),
            mask.len(),
            times.as_ptr(),
            times.len(),
            severities.as_ptr(),
            severities.len(),
            out.first.as_mut_ptr(),
            out.first.len(),
            out.last.as_mut_ptr(),
            out.last.len(),
            out.first_time.as_mut_ptr(),
            out.first_time.len(),
            out.last_time.as_mut_ptr(),
            out.last_time.len(),
            out.severity.as_mut_ptr(),
            out.severity.len(),
            out.is_last.as_mut_ptr(),
            out.is_last.len(),
        )
    })
}
/// Lists the maximal runs of clear samples of a row: those of two samples or more, and one that reaches the last sample. How many there are.
pub fn visibility_windows(mask: &[u8], times: &[i64], out: Columns) -> Result<u64, Refusal> {
    accepted(Call::Windows, unsafe {
        sys::wilfnusk_visibility_windows(
            mask.as_ptr(),
            mask.len(),
            times.as_ptr(),
            times.len(),
            out.first.as_mut_ptr(),
            out.first.len(),
            out.last.as_mut_ptr(),
            out.last.len(),
            out.first_time.as_mut_ptr(),
            out.first_time.len(),
            out.last_time.as_mut_ptr(),
            out.last_time.len(),
            out.severity.as_mut_ptr(),
            out.severity.len(),
            out.is_last.as_mut_ptr(),
            out.is_last.len(),
        )
    })
}
/// `violation_windows` into records.
///
/// ```
/// let mut out = [wilfnusk::Window::default(); 3];
/// let count = wilfnusk::violation_records(&[0, 1, 0, 1, 1], &[0, 10, 20, 30, 40], &[0.0, 1.5, 0.0, 2.0, 3.0], &mut out)?;
/// assert_eq!(count, 2);
/// assert_eq!(out[1], wilfnusk::Window { first: 3, last: 4, first_time: 30, last_time: 40, severity: 3.0, is_last: 1 });
/// # Ok::<(), wilfnusk::Refusal>(())
/// ```
pub fn violation_records(mask: &[u8], times: &[i64], severities: &[f64], out: &mut [Window]) -> Result<u64, Refusal> {
    accepted(Call::Windows, unsafe {
        sys::wilfnusk_violation_records(
            mask.as_ptr(),
            mask.len(),
            times.as_ptr(),
            times.len(),
            severities.as_ptr(),
            severities.len(),
            out.as_mut_ptr(),
            out.len(),
        )
    })
}
/// `visibility_windows` into records.
pub fn visibility_records(mask: &[u8], times: &[i64], out: &mut [Window]) -> Result<u64, Refusal> {
    accepted(Call::Windows, unsafe {
        sys::wilfnusk_visibility_records(mask.as_ptr(), mask.len(), times.as_ptr(), times.len(), out.as_mut_ptr(), out.len())
    })
}
/// Marks the samples whose times lie in a window. With repeated or reordered times this does not always give the listed mask back.
pub fn expand(first_time: &[i64], last_time: &[i64], times: &[i64], mask: &mut [u8]) -> Result<(), Refusal> {
    accepted(Call::Expand, unsafe {
        sys::wilfnusk_expand(
            first_time.as_ptr(),
            first_time.len(),
            last_time.as_ptr(),
            last_time.len(),
            times.as_ptr(),
            times.len(),
            mask.as_mut_ptr(),
            mask.len(),
        )
    })
    .map(drop)
}
/// The windows' lengths in whole seconds, each truncated toward zero, summed.
pub fn total_violation_duration(first_time: &[i64], last_time: &[i64]) -> Result<f64, Refusal> {
    let mut seconds = 0.0;
    accepted(Call::Seconds, unsafe {
        sys::wilfnusk_total_violation_duration(first_time.as_ptr(), first_time.len(), last_time.as_ptr(), last_time.len(), &mut seconds)
    })
    .map(|_| seconds)
}
