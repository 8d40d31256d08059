//! What was compared, how much of it was marked, and what differed.
use crate::cost::{LARGE, MOST_CELLS, SAMPLES};
use crate::plans::RANGES;
use crate::tables::LENGTHS;
use cases::plans::{Spread, SPECIAL, SPREADS};
use model::arithmetic::bits;
use model::windows::Window;
use model::{Answer, Plan};
use std::collections::BTreeMap;
use std::fmt::Debug;

#[derive(Default)]
struct Kind {
    answers: u64,
    marked: u64,
    clear: u64,
    differ: u64,
}

/// Rolls of the original that are special to request Three's folding.
const UNFOLDED: [(&str, fn(f64) -> bool); 9] = [
    ("below 0", |r| r < 0.0),
    ("-360", |r| r == -360.0),
    ("the number above -360", |r| bits(r) == bits(-360.0) - 1),
    ("-270", |r| r == -270.0),
    ("-180", |r| r == -180.0),
    ("the number below -2^-45", |r| bits(r) == bits(TIE) + 1),
    ("from -2^-45 to below 0", |r| (TIE..0.0).contains(&r)),
    ("-0", |r| bits(r) == bits(-0.0)),
    ("360", |r| r == 360.0),
];
/// -2^-45: 360 more lies halfway between 360 and the number below it.
const TIE: f64 = -2.842170943040401e-14;

#[derive(Default)]
pub struct Tally {
    kinds: BTreeMap<&'static str, Kind>,
    pub cells: u64,
    pub masks: u64,
    pub plans: u64,
    /// Catalogue positions.
    pub positions: u64,
    /// Plans with a tolerance below 180 / n, or below half of a table's widest gap, for half of their targets or more, or with a configured roll.
    pub telling: u64,
    /// Plans whose tolerances differ.
    pub differing: u64,
    /// Cells of the largest plan that one evaluator of the original was asked about.
    pub largest_whole: usize,
    /// Chunks that hold cells of targets whose tolerances differ.
    pub mixed_chunks: u64,
    /// Rows of ten times or more, and how many of them the sweep leaves both marked and clear.
    rows: u64,
    both: u64,
    /// Random plans of two rolls or more whose probes are the fewest, between, and the most.
    pub reached: [u64; 3],
    /// Shapes of plans that cost most and least; what the original tried for them, and the bytes read from their files.
    pub shapes: u64,
    pub probes: u64,
    pub file_bytes: u64,
    /// Rolls of the original, and how many of them are of each kind of `UNFOLDED`.
    rolls: u64,
    unfolded: [u64; UNFOLDED.len()],
    /// Plans with a table: by how its rolls are spread, by `LENGTHS`, by `SPECIAL`, and those with a configured roll.
    spread: [u64; SPREADS.len()],
    lengths: [u64; LENGTHS.len()],
    special: [u64; SPECIAL.len()],
    configured: u64,
    /// Plans whose table neither has the even steps nor is overridden by a configured roll; those of them whose marks differ from the even
    /// steps', and those whose marks or probes do; cells, and cells whose marks differ.
    could_differ: u64,
    other_marks: u64,
    other_lines: u64,
    could_differ_cells: u64,
    other_cells: u64,
    /// Marks are not counted: one large plan would outweigh all others.
    pub uncounted: bool,
}

/// A float is compared by its bits, every NaN being one.
pub trait Shape {
    type Bits: PartialEq + Debug;
    fn shape(&self) -> Self::Bits;
}
impl Shape for f64 {
    type Bits = u64;
    fn shape(&self) -> u64 {
        bits(*self)
    }
}
impl Shape for u8 {
    type Bits = u8;
    fn shape(&self) -> u8 {
        *self
    }
}
impl Shape for u64 {
    type Bits = u64;
    fn shape(&self) -> u64 {
        *self
    }
}
impl Shape for i64 {
    type Bits = i64;
    fn shape(&self) -> i64 {
        *self
    }
}
impl Shape for [f64; 3] {
    type Bits = [u64; 3];
    fn shape(&self) -> [u64; 3] {
        self.map(bits)
    }
}
impl<A: Shape, B: Shape> Shape for (A, B) {
    type Bits = (A::Bits, B::Bits);
    fn shape(&self) -> Self::Bits {
        (self.0.shape(), self.1.shape())
    }
}
impl Shape for Window {
    type Bits = (usize, usize, i64, i64, u64, bool);
    fn shape(&self) -> Self::Bits {
        (self.first, self.last, self.first_time, self.last_time, bits(self.severity), self.is_last)
    }
}
impl<T: Shape> Shape for Vec<T> {
    type Bits = Vec<T::Bits>;
    fn shape(&self) -> Self::Bits {
        self.iter().map(T::shape).collect()
    }
}

impl Tally {
    /// The library's answer, which must be accepted, and the Rust's.
    pub fn same<T: Shape>(&mut self, kind: &'static str, ours: Answer<T>, theirs: T, input: &dyn Fn() -> String) -> bool {
        self.held(kind, [("ours", ours.map(|x| x.shape())), ("Rust", Ok(theirs.shape()))], input)
    }
    /// Two answers, each with who gave it.
    pub fn held<B: PartialEq + Debug>(&mut self, kind: &'static str, [a, b]: [(&str, B); 2], input: &dyn Fn() -> String) -> bool {
        let k = self.kinds.entry(kind).or_default();
        k.answers += 1;
        if a.1 == b.1 {
            return true;
        }
        k.differ += 1;
        if k.differ <= 3 {
            println!("DIFFERS {kind}: {}\n  {} {:x?}\n  {} {:x?}", input(), a.0, a.1, b.0, b.1);
        }
        false
    }
    /// A difference that docs/DIFFERENCES.md lists: (ours, the original's) as given there.
    pub fn known<T: PartialEq + Debug>(&mut self, what: &'static str, found: (Answer<Vec<T>>, Vec<T>), listed: (Answer<Vec<T>>, Vec<T>)) {
        let k = self.kinds.entry(what).or_default();
        k.answers += 1;
        if found != listed {
            k.differ += 1;
            println!("DIFFERS {what}: {found:?}, docs/DIFFERENCES.md has {listed:?}");
        }
    }
    /// Request Three's promise of the library's rolls; -0 is not below 0.
    pub fn within(&mut self, kind: &'static str, rolls: &[f64], input: &dyn Fn() -> String) {
        let outside: Vec<f64> = rolls.iter().copied().filter(|roll| !(0.0..360.0).contains(roll)).collect();
        self.held(kind, [("outside", outside), ("promised", vec![])], input);
    }
    /// Counts the original's rolls, not folded, by what the folding does to them.
    pub fn count_unfolded(&mut self, rolls: &[f64]) {
        self.rolls += rolls.len() as u64;
        for (count, (_, is)) in self.unfolded.iter_mut().zip(UNFOLDED) {
            *count += rolls.iter().filter(|&&roll| is(roll)).count() as u64;
        }
    }
    /// As `same`, of a mask, whose marks are counted.
    pub fn mask(&mut self, kind: &'static str, ours: Answer<Vec<u8>>, theirs: Vec<u8>, input: &dyn Fn() -> String) -> bool {
        if !self.uncounted {
            let marked = theirs.iter().filter(|&&b| b == 1).count() as u64;
            let k = self.kinds.entry(kind).or_default();
            k.marked += marked;
            k.clear += theirs.len() as u64 - marked;
        }
        self.same(kind, ours, theirs, input)
    }
    /// Counts the rows of a sweep's mask in which one tolerance differs from another.
    pub fn count_rows(&mut self, mask: &[u8], times: usize) {
        if times >= 10 {
            self.rows += (mask.len() / times) as u64;
            self.both += mask.chunks(times).filter(|row| row.contains(&0) && row.contains(&1)).count() as u64;
        }
    }
    /// Counts a plan with a table: each cell's mark and how often it was tried, and the same over as many even steps.
    pub fn count_table(&mut self, plan: &Plan, spread: Spread, swept: &(Vec<u8>, Vec<u64>), stepped: &(Vec<u8>, Vec<u64>)) {
        let (table, configured) = (plan.all_rolls(), plan.roll_deg.is_some());
        self.spread[spread as usize] += 1;
        LENGTHS.iter().position(|&length| length == table.len()).into_iter().for_each(|k| self.lengths[k] += 1);
        for (count, (_, is)) in self.special.iter_mut().zip(SPECIAL) {
            *count += is(&table) as u64;
        }
        self.configured += configured as u64;
        if spread == Spread::Even || configured {
            return;
        }
        self.could_differ += 1;
        self.other_marks += (swept.0 != stepped.0) as u64;
        self.other_lines += (swept != stepped) as u64;
        if !self.uncounted {
            self.could_differ_cells += swept.0.len() as u64;
            self.other_cells += swept.0.iter().zip(&stepped.0).filter(|(a, b)| a != b).count() as u64;
        }
    }
    /// What is demanded of plans in every report.
    fn of_plans(&self) -> Vec<(bool, String)> {
        vec![
            (
                2 * self.telling >= self.plans,
                "fewer than half of the plans have tolerances that can mark, or a configured roll".to_string(),
            ),
            (3 * self.differing >= self.plans, "fewer than a third of the plans have tolerances that differ".to_string()),
            (5 * (self.plans - self.differing) >= self.plans, "fewer than a fifth of the plans were asked of one evaluator".to_string()),
            (self.largest_whole > 65_536, "no plan beyond the original's own chunks was asked of one evaluator".to_string()),
            (self.mixed_chunks >= 1000, "fewer than 1,000 chunks have several tolerances".to_string()),
            (5 * self.both >= 2 * self.rows, "fewer than two fifths of the rows are both marked and clear".to_string()),
            (2 * self.reached[1] >= self.plans, "fewer than half of the plans have probes between the fewest and the most".to_string()),
        ]
    }
    /// What is demanded of the original's rolls, where they are compared.
    fn of_rolls(&self) -> (bool, String) {
        (4 * self.unfolded[0] >= self.rolls, "fewer than a quarter of the original's rolls are below 0".to_string())
    }
    /// How many answers of this kind were compared.
    fn asked(&self, kind: &str) -> u64 {
        self.kinds.get(kind).map_or(0, |k| k.answers)
    }
    /// What is demanded of work over ranges: so many of each kind.
    fn of_ranges(&self, least: u64) -> impl Iterator<Item = (bool, String)> + '_ {
        RANGES.into_iter().map(move |kind| (self.asked(kind) >= least, format!("fewer than {least} of {kind}")))
    }
    fn print_tolerances(&self) {
        println!(
            "tolerances: {} of {} plans have differing ones, {} chunks several; {} of {} rows of 10 times or more are both marked and clear",
            self.differing, self.plans, self.mixed_chunks, self.both, self.rows
        );
    }
    fn print_plans(&self) {
        self.print_tolerances();
        let counted = self.unfolded.iter().zip(UNFOLDED).map(|(count, (what, _))| format!("{count} {what}"));
        println!("{} rolls of the original, before they are folded: {}", self.rolls, counted.collect::<Vec<_>>().join("; "));
        let [fewest, between, most] = self.reached;
        println!("cost: of plans of two rolls or more, {fewest} have the fewest probes, {between} a number between, {most} the most");
    }
    /// Prints the counts and each demand that they do not meet; false if there is one, or if something differs.
    fn table(&self, demanded: &[(bool, String)]) -> bool {
        let mut good = true;
        let mut fail = |text: &str| {
            println!("FAILED {text}");
            good = false;
        };
        println!("{:<38} {:>10} {:>11} {:>11} {:>8}", "", "answers", "marked", "clear", "differ");
        for (name, k) in &self.kinds {
            println!("{name:<38} {:>10} {:>11} {:>11} {:>8}", k.answers, k.marked, k.clear, k.differ);
            if k.differ > 0 {
                fail(&format!("{name}: {} of {} differ", k.differ, k.answers));
            }
            let all = k.marked + k.clear;
            if all > 0 && k.marked.min(k.clear) < all / 4 {
                fail(&format!("{name}: fewer than a quarter of the cells are {}", if k.marked < k.clear { "marked" } else { "clear" }));
            }
        }
        for (_, text) in demanded.iter().filter(|(holds, _)| !holds) {
            fail(text);
        }
        good
    }
    /// Of plans and rows.
    pub fn report(&self) -> bool {
        let mut demanded = self.of_plans();
        demanded.push((self.cells >= 2_000_000 && self.masks >= 1_000_000, "fewer than 2,000,000 cells or 1,000,000 masks".to_string()));
        demanded.push(self.of_rolls());
        demanded.extend(self.of_ranges(20));
        for (count, (what, _)) in self.unfolded.iter().zip(UNFOLDED) {
            demanded.push((*count >= 50, format!("fewer than 50 of the original's rolls are {what}")));
        }
        let good = self.table(&demanded);
        println!(
            "{} cells of {} plans ({} with tolerances below 180 / n or a configured roll), {} masks of rows",
            self.cells, self.plans, self.telling, self.masks
        );
        self.print_plans();
        good
    }
    /// Of catalogue positions, and of plans whose targets they are.
    pub fn report_catalogue(&self) -> bool {
        println!();
        let mut demanded = self.of_plans();
        demanded.push(self.of_rolls());
        demanded.push((self.positions >= 1_000_000, "fewer than 1,000,000 positions".to_string()));
        demanded.push((self.cells >= 200_000, "fewer than 200,000 cells with targets by their positions".to_string()));
        let good = self.table(&demanded);
        println!("{} catalogue positions, {} cells of {} plans with targets by their positions", self.positions, self.cells, self.plans);
        self.print_plans();
        good
    }
    /// Of the plans that cost most and least.
    pub fn report_cost(&self) -> bool {
        println!();
        let plans = 2 * (SAMPLES.len() as u64 * self.shapes + LARGE.len() as u64);
        let files = ["file's length", "file, recovered", "file's lines"].map(|kind| self.asked(kind));
        let good = self.table(&[
            (self.plans == plans, format!("{} plans were asked, not both of each shape and n, {plans}", self.plans)),
            (files == [plans; 3], format!("{files:?} journals were read back from a file, not {plans}")),
            (self.probes >= 100_000_000, "fewer than 100,000,000 probes".to_string()),
        ]);
        println!(
            "cost: {} shapes of up to {MOST_CELLS} cells, and larger ones: {} plans that cost most or least, {} cells, \
             {} probes of the original, {} bytes of files",
            self.shapes, self.plans, self.cells, self.probes, self.file_bytes
        );
        good
    }
    /// Of tables of rolls.
    pub fn report_tables(&self) -> bool {
        println!();
        let spreads: Vec<(u64, String)> =
            self.spread.iter().zip(SPREADS).map(|(&n, spread)| (n, format!("are spread as {spread:?}"))).collect();
        let lengths: Vec<(u64, String)> =
            self.lengths.iter().zip(LENGTHS).map(|(&n, length)| (n, format!("have {length} rolls"))).collect();
        let special: Vec<(u64, String)> = self.special.iter().zip(SPECIAL).map(|(&n, (what, _))| (n, what.to_string())).collect();
        let configured = [(self.configured, "are overridden by a configured roll".to_string())];
        let kinds = [&spreads[..], &lengths, &special, &configured].concat();
        let mut demanded = self.of_plans();
        demanded.extend(self.of_ranges(20));
        demanded.extend(kinds.iter().map(|(count, what)| (*count >= 30, format!("fewer than 30 tables {what}"))));
        // Else a library that tried even steps instead of the table's rolls would not be noticed.
        demanded.push((
            2 * self.other_marks >= self.could_differ,
            "fewer than half of the tables mark other cells than even steps do".to_string(),
        ));
        demanded.push((
            10 * self.other_cells >= self.could_differ_cells,
            "fewer than a tenth of the cells have another mark by even steps".to_string(),
        ));
        demanded.push((self.cells >= 500_000, "fewer than 500,000 cells swept over a table".to_string()));
        let good = self.table(&demanded);
        let counted: Vec<String> = kinds.iter().map(|(count, what)| format!("{count} {what}")).collect();
        println!("tables: {} cells of {} plans; of the tables {}", self.cells, self.plans, counted.join(", "));
        println!(
            "tables: of {} plans that could differ from as many even steps, {} have other marks ({} of {} cells) and {} other marks or probes",
            self.could_differ, self.other_marks, self.other_cells, self.could_differ_cells, self.other_lines
        );
        self.print_tolerances();
        good
    }
}
