//! Document 01's examples: what is asked, and the answer that it prints. Beside its own list, the bits and roots that section 1 names, and
//! what it rules out. Apart from them what document 02's request One says of sine, cosine and catalogue positions, what request Three says of
//! rolls, what request Four says of sizes, what request Five says of tables, and what request Seven says of directions, worked out by hand.
use crate::Calls;
use model::arithmetic::{bits, P};
use model::cost::{Extreme, Extreme::Cheapest, Extreme::Costliest, Size};
use model::plan;
use model::windows::Window;
use model::{Answer, Optimal, Plan, Roll};
use Asked::*;

#[derive(Clone, Copy, Debug)]
pub enum Asked {
    Difference(f64, f64),
    Root(f64),
    RootBits(f64),
    ArctangentBits(f64, f64),
    Sine(f64),
    SineBits(f64),
    Cosine(f64),
    CosineBits(f64),
    /// Of a right ascension and a declination.
    Vector(f64, f64),
    /// The roll with the Sun there.
    RollOf([f64; 3]),
    /// The roll with the Sun there and this panel, and then the named values of a row with the Sun there all along.
    Rolls([f64; 3], [f64; 3]),
    /// The mark at roll 0 with the Sun there and this tolerance.
    Mark([f64; 3], f64),
    /// A row's marks.
    Violations(&'static str),
    Visibility(&'static str),
    /// The marks of a window at these times.
    Expansion((i64, i64), &'static [i64]),
    Journal,
    /// Mask and sum of probes of that journal.
    Collected,
    /// The used length that recovery leaves of that journal's first bytes.
    Recovered(usize),
    /// Length of the journal, fewest probes and most, of so many targets, times and rolls.
    Cost(u64, u64, u64),
    /// The five lists of a plan of that size.
    Written(Extreme, u64, u64, u64),
    /// The sum of probes of its sweep.
    Tried(Extreme, u64, u64, u64),
    /// Mask and sum of probes of that journal's plan swept over this table, with this configured roll.
    SweptOver(&'static [f64], Option<f64>),
    /// That journal over this table.
    TableJournal(&'static [f64]),
    /// The number that refuses these targets with this panel, 0 for accepted: as a plan's, and where there is one as a cell's.
    Directions(&'static [[f64; 3]], [f64; 3]),
}

/// The example's journal, of n and the line: the header's fields have section 4's widths (the printed header has four zeros more).
macro_rules! journal {
    ($n:literal, $line:literal) => {
        concat!(
            "0000000100000002",
            $n,
            "4024000000000000",
            "00",
            "0000000000000000",
            "0000000000000000",
            "3ff0000000000000",
            "0000000000000000",
            "\n",
            $line,
            "\n"
        )
    };
}

const JOURNAL: &str = journal!("00000001", "00000000000000000000000200000002");

pub const EXAMPLES: [(Asked, &str); 29] = [
    (Difference(350.0, 10.0), "20"),
    (Difference(10.0, 350.0), "20"),
    (Difference(0.0, 180.0), "180"),
    (Root(4.0), "2"),
    (RootBits(2.0), "3ff6a09e667f3bcd"),
    (RollOf([0.0, 1.0, 0.0]), "0"),
    (RollOf([0.0, 0.0, 1.0]), "90"),
    (RollOf([0.0, -1.0, 0.0]), "180"),
    (RollOf([1.0, 0.0, 0.0]), "Free"),
    (Violations("01011"), "1-1 3-4(last)"),
    // The flag of section 5, where a window reaches the last sample.
    (Visibility("01011"), ""),
    (Visibility("10"), "1-1(last)"),
    (Visibility("0010"), "0-1 3-3(last)"),
    (Visibility(""), ""),
    (Journal, JOURNAL),
    (Collected, "01 2"),
    // Section 1.
    (Root(-0.0), "-0"),
    (Root(-1.0), "NaN"),
    (Root(f64::NAN), "NaN"),
    (Root(f64::INFINITY), "inf"),
    (ArctangentBits(0.0, -1.0), "400921fb54442d18"),
    // Ruled out: a tolerance met exactly counted as violated.
    (Mark([0.0, 0.0, 1.0], 90.0), "0"),
    (Mark([0.0, 0.0, 1.0], 89.0), "1"),
    // A one-sample window dropped at the end.
    (Violations("01"), "1-1(last)"),
    // A full line without 0a kept.
    (Recovered(140), "140"),
    (Recovered(139), "107"),
    (Recovered(106), "0"),
    // Strict order assumed in expansion.
    (Expansion((10, 10), &[0, 10, 10, 20]), "0110"),
    (Expansion((10, 20), &[20, 0, 10, 30, 10]), "10101"),
];

pub const REQUEST_ONE: [(Asked, &str); 26] = [
    (Vector(0.0, 0.0), "1 0 0"),
    (Vector(90.0, 0.0), "-0 1 0"),
    (Vector(180.0, 0.0), "-1 -0 0"),
    (Vector(270.0, 0.0), "0 -1 0"),
    (Vector(360.0, 0.0), "1 0 0"),
    (Vector(0.0, 90.0), "-0 -0 1"),
    (Vector(180.0, -90.0), "0 0 -1"),
    // -0 is within the ranges and not below 0; a degree of 28 of the smallest steps is 0 in radians, and a negative one -0.
    (Vector(-0.0, -0.0), "1 0 0"),
    (Vector(28.0 * 5e-324, -28.0 * 5e-324), "1 0 0"),
    // 45 degrees are P/4, which is not below itself.
    (SineBits(P / 4.0), "3fe6a09e667f3bcc"),
    (CosineBits(P / 4.0), "3fe6a09e667f3bcd"),
    (SineBits(3.0 * P / 4.0), "3fe6a09e667f3bcd"),
    (CosineBits(3.0 * P / 4.0), "bfe6a09e667f3bcc"),
    (SineBits(7.0 * P / 4.0), "bfe6a09e667f3bcd"),
    (CosineBits(7.0 * P / 4.0), "3fe6a09e667f3bcc"),
    (SineBits(-P / 4.0), "bfe6a09e667f3bcc"),
    (CosineBits(-P / 4.0), "3fe6a09e667f3bcd"),
    (Sine(-0.0), "0"),
    (Sine(-P / 2.0), "-1"),
    (Cosine(-P / 2.0), "-0"),
    // Every number has an answer, by the rule alone.
    (Sine(f64::NAN), "NaN"),
    (Cosine(f64::NAN), "NaN"),
    (Sine(f64::INFINITY), "inf"),
    (Cosine(f64::INFINITY), "inf"),
    (Sine(f64::NEG_INFINITY), "-inf"),
    (Cosine(f64::NEG_INFINITY), "inf"),
];

pub const REQUEST_THREE: [(Asked, &str); 13] = [
    (Rolls([0.0, 1.0, 0.0], [0.0, 1.0, 0.0]), "0 0"),
    (Rolls([0.0, 0.0, 1.0], [0.0, 1.0, 0.0]), "90 90"),
    (Rolls([0.0, -1.0, 0.0], [0.0, 1.0, 0.0]), "180 180"),
    // -90, -180, -270 and -360 before they are folded, and 360.
    (Rolls([0.0, 0.0, -1.0], [0.0, 1.0, 0.0]), "270 270"),
    (Rolls([-0.0, -1.0, -0.0], [0.0, 1.0, 0.0]), "180 180"),
    (Rolls([-0.0, -1.0, -0.0], [0.0, 0.0, 1.0]), "90 90"),
    (Rolls([-0.0, -1.0, -0.0], [0.0, -1.0, 0.0]), "-0 -0"),
    (Rolls([0.0, -1.0, 0.0], [0.0, -1.0, -0.0]), "0 0"),
    // -5.7e-15; -2^-45, and 360 more is a tie; the number below it.
    (Rolls([0.0, 1.0, -1e-16], [0.0, 1.0, 0.0]), "0 0"),
    (Rolls([0.0, 1.0, -4.960524086056721e-16], [0.0, 1.0, 0.0]), "0 0"),
    (Rolls([0.0, 1.0, -4.960524086056722e-16], [0.0, 1.0, 0.0]), "359.99999999999994 359.99999999999994"),
    // The number above -360.
    (Rolls([0.0, -1.0, -4.0 * f64::EPSILON], [0.0, -1.0, 0.0]), "0.00000000000005684341886080802 0.00000000000005684341886080802"),
    // A cell that is Free has a named value, -90 before it is folded.
    (Rolls([1.0, 0.0, 0.0], [0.0, 0.0, 1.0]), "Free 270"),
];

pub const REQUEST_FOUR: [(Asked, &str); 20] = [
    (Cost(0, 0, 1), "107 0 0"),
    (Cost(0, 65_536, 3600), "107 0 0"),
    (Cost(65_536, 0, 3600), "107 0 0"),
    (Cost(1, 1, 1), "140 1 1"),
    // The last cell of a chunk, and the first of the next.
    (Cost(8, 8, 72), "140 64 4608"),
    (Cost(5, 13, 72), "173 65 4680"),
    (Cost(10, 13, 1), "206 130 130"),
    // The most that is accepted.
    (Cost(65_536, 16, 3600), "540779 1048576 3774873600"),
    (Cost(16, 65_536, 3600), "540779 1048576 3774873600"),
    (Cost(1024, 1024, 1), "540779 1048576 1048576"),
    (Written(Costliest, 2, 1, 3), "1 0 0 1 0 0, 0 1 0, 0 0 0, -1 -1, 0 1 0"),
    (Written(Cheapest, 1, 2, 3), "1 0 0, 0 1 0 0 1 0, 0 0 0 0 0 0, 180, 0 1 0"),
    // No cells, and lists all the same.
    (Written(Costliest, 2, 0, 1), "1 0 0 1 0 0, , , -1 -1, 0 1 0"),
    (Written(Cheapest, 0, 1, 1), ", 0 1 0, 0 0 0, , 0 1 0"),
    (Tried(Costliest, 5, 13, 72), "4680"),
    (Tried(Cheapest, 5, 13, 72), "65"),
    (Tried(Costliest, 3, 7, 1), "21"),
    (Tried(Cheapest, 3, 7, 1), "21"),
    (Tried(Costliest, 0, 9, 7), "0"),
    (Tried(Cheapest, 9, 0, 7), "0"),
];

/// The optimal rolls of the two cells are 0 and 90, the tolerance is 10.
pub const REQUEST_FIVE: [(Asked, &str); 12] = [
    (SweptOver(&[15.0, 80.0], None), "10 4"),
    (SweptOver(&[80.0, 350.0], None), "00 3"),
    (SweptOver(&[79.0, 349.0], None), "11 4"),
    // The first roll that clears a cell is the last tried for it.
    (SweptOver(&[5.0, 95.0, 185.0, 275.0], None), "00 3"),
    // One even step.
    (SweptOver(&[0.0], None), "01 2"),
    (SweptOver(&[-0.0], None), "01 2"),
    // The last rolls whose difference rounds to 10, which meets the tolerance, and the floats beside them.
    (SweptOver(&[10.000000000000014, 79.99999999999997], None), "00 3"),
    (SweptOver(&[10.000000000000016, 79.99999999999996], None), "11 4"),
    // The number below 360.
    (SweptOver(&[100.0, 359.99999999999994], None), "00 3"),
    // A configured roll replaces each.
    (SweptOver(&[0.0, 5.0, 7.0], Some(90.0)), "10 4"),
    (SweptOver(&[85.0], Some(f64::NAN)), "00 2"),
    (TableJournal(&[15.0, 80.0]), TABLE_JOURNAL),
];

/// The header's n is 2; the first cell is marked.
const TABLE_JOURNAL: &str = journal!("00000002", "00000000000000000000000100000004");

const PANEL: [f64; 3] = [0.0, 1.0, 0.0];

pub const REQUEST_SEVEN: [(Asked, &str); 20] = [
    (Directions(&[[1.0, 0.0, 0.0]], PANEL), "0"),
    (Directions(&[[-0.0, -1.0, 0.0]], PANEL), "0"),
    (Directions(&[[0.6, 0.0, 0.8]], PANEL), "0"),
    (Directions(&[], PANEL), "0"),
    (Directions(&[[0.5, 0.0, 0.0]], PANEL), "20"),
    (Directions(&[[1.0, 1.0, 0.0]], PANEL), "20"),
    (Directions(&[[0.0, 0.0, 0.0]], PANEL), "20"),
    (Directions(&[[2.0, 0.0, 0.0]], PANEL), "5"),
    (Directions(&[[f64::NAN, 0.0, 1.0]], PANEL), "5"),
    // The second has the component that is too large.
    (Directions(&[[0.5, 0.0, 0.0], [2.0, 0.0, 0.0]], PANEL), "5"),
    (Directions(&[[1.0, 0.0, 0.0], [0.0, 0.5, 0.0]], PANEL), "20"),
    // The last y beside 1 that is near enough to 0, and the next; the first x alone that is near enough to 1, and the one before,
    // which is 0.9999999995 as it is read.
    (Directions(&[[1.0, f64::from_bits(0x3f00_9456_50ac_edf9), 0.0]], PANEL), "0"),
    (Directions(&[[1.0, f64::from_bits(0x3f00_9456_50ac_edfa), 0.0]], PANEL), "20"),
    (Directions(&[[f64::from_bits(0x3fef_ffff_ffbb_47d1), 0.0, 0.0]], PANEL), "0"),
    (Directions(&[[f64::from_bits(0x3fef_ffff_ffbb_47d0), 0.0, 0.0]], PANEL), "20"),
    // Summed from the right it would be 20.
    (Directions(&[SUMMED_FROM_THE_LEFT], PANEL), "0"),
    // Six digits per number are too few.
    (Directions(&[[0.577350, 0.577350, 0.577350]], PANEL), "20"),
    (Directions(&[[0.5773502692, 0.5773502692, 0.5773502692]], PANEL), "0"),
    // Before the panel, and the panel after it.
    (Directions(&[[0.5, 0.0, 0.0]], [0.0, f64::NAN, 0.0]), "20"),
    (Directions(&[[1.0, 0.0, 0.0]], [0.0, f64::NAN, 0.0]), "6"),
];

const SUMMED_FROM_THE_LEFT: [f64; 3] =
    [f64::from_bits(0x3fd8_b064_c87a_740b), f64::from_bits(0xbfed_58c3_fbb2_f6f8), f64::from_bits(0x3fb9_c6c7_cf2f_4894)];

/// The examples' target and panel, with one Sun per time, seen from 0; n is 1.
pub fn plan(suns: &[[f64; 3]], tolerance_deg: f64) -> Plan {
    Plan {
        targets: vec![1.0, 0.0, 0.0],
        suns: suns.concat(),
        observers: vec![0.0; 3 * suns.len()],
        tolerances: vec![tolerance_deg],
        roll_deg: None,
        panels: vec![0.0, 1.0, 0.0],
        rolls: plan::Rolls::Even(1),
    }
}

/// More times than the 64 whose rolls the library works out side by side, all with this Sun.
pub fn long_row(sun: [f64; 3], panel: [f64; 3]) -> Plan {
    Plan { panels: panel.to_vec(), ..plan(&[sun; 70], 0.0) }
}

/// The plan of the example's journal.
pub fn journal_plan() -> Plan {
    plan(&[[0.0, 1.0, 0.0], [0.0, 0.0, 1.0]], 10.0)
}

/// The same over a table.
pub fn table_plan(table: &[f64], roll_deg: Option<f64>) -> Plan {
    Plan { rolls: plan::Rolls::Table(table.to_vec()), roll_deg, ..journal_plan() }
}

/// A row's mask, and times for it.
pub fn row(marks: &str) -> (Vec<u8>, Vec<i64>) {
    (marks.bytes().map(|b| b - b'0').collect(), (0..marks.len() as i64).collect())
}

pub fn marks(mask: &[u8]) -> String {
    mask.iter().map(|b| b.to_string()).collect()
}

pub fn windows(list: &[Window]) -> String {
    let shown = |w: &Window| format!("{}-{}{}", w.first, w.last, if w.is_last { "(last)" } else { "" });
    list.iter().map(shown).collect::<Vec<_>>().join(" ")
}

pub fn vector(v: &[f64]) -> String {
    v.iter().map(|x| x.to_string()).collect::<Vec<_>>().join(" ")
}

pub fn roll(optimal: Optimal) -> String {
    match optimal {
        Optimal::Free => "Free".to_string(),
        Optimal::At(roll) => roll.to_string(),
    }
}

/// A roll, and the values of a row that is the same all along; every value where it is not.
pub fn rolls(optimal: Optimal, mut values: Vec<f64>) -> String {
    values.dedup_by_key(|value| bits(*value));
    format!("{} {}", roll(optimal), vector(&values))
}

fn size(targets: u64, times: u64, n: u64) -> Size {
    Size { targets, times, n }
}

/// Written into lists that are just long enough.
pub fn extreme_plan(calls: &dyn Calls, extreme: Extreme, size: Size) -> Answer<Plan> {
    calls.extreme_plan(extreme, size, size.places().map(|places| places as usize))
}

/// Mask and sum of probes of a plan of one chunk.
fn swept(calls: &dyn Calls, plan: &Plan) -> Answer<String> {
    let (_, mask, sum) = calls.swept(plan, &[0])?;
    Ok(format!("{} {sum}", marks(&mask)))
}

/// An implementation's answer, as document 01 prints it.
pub fn answer(calls: &dyn Calls, asked: Asked) -> Answer<String> {
    Ok(match asked {
        Difference(a, b) => calls.difference(a, b).to_string(),
        Root(x) => calls.root(x).to_string(),
        RootBits(x) => format!("{:016x}", bits(calls.root(x))),
        ArctangentBits(y, z) => format!("{:016x}", bits(calls.arctangent(y, z))),
        Sine(r) => calls.sine(r).to_string(),
        SineBits(r) => format!("{:016x}", bits(calls.sine(r))),
        Cosine(r) => calls.cosine(r).to_string(),
        CosineBits(r) => format!("{:016x}", bits(calls.cosine(r))),
        Vector(ra, dec) => vector(&calls.radec_to_unit_vectors_batch(&[ra], &[dec], 3)?),
        RollOf(sun) => roll(calls.cell([1.0, 0.0, 0.0], sun, [0.0; 3], [0.0, 1.0, 0.0])?),
        Rolls(sun, panel) => {
            let optimal = calls.cell([1.0, 0.0, 0.0], sun, [0.0; 3], panel)?;
            rolls(optimal, calls.named_values(&long_row(sun, panel), 70)?)
        }
        Mark(sun, tolerance) => marks(&calls.in_constraint_batch_at_roll(&plan(&[sun], tolerance), Roll::Sweep(0.0), 1)?),
        Violations(marks) => {
            let (mask, times) = row(marks);
            windows(&calls.violation_windows(&mask, &times, &vec![0.0; mask.len()], [mask.len(); 6])?)
        }
        Visibility(marks) => {
            let (mask, times) = row(marks);
            windows(&calls.visibility_windows(&mask, &times, [mask.len(); 6])?)
        }
        Expansion((first, last), times) => marks(&calls.expand(&[first], &[last], times, times.len())?),
        Journal => String::from_utf8(calls.swept(&journal_plan(), &[0])?.0).expect("text"),
        Collected => swept(calls, &journal_plan())?,
        SweptOver(table, roll_deg) => swept(calls, &table_plan(table, roll_deg))?,
        TableJournal(table) => String::from_utf8(calls.swept(&table_plan(table, None), &[0])?.0).expect("text"),
        Directions(targets, panel) => {
            let tolerances = vec![0.0; targets.len()];
            let p = Plan { targets: targets.concat(), tolerances, panels: panel.to_vec(), ..plan(&[[0.0, 1.0, 0.0]], 0.0) };
            let mut numbers = vec![calls.named_values(&p, targets.len()).err().unwrap_or(0)];
            if let &[target] = targets {
                numbers.push(calls.cell(target, [0.0, 1.0, 0.0], [0.0; 3], panel).err().unwrap_or(0));
            }
            numbers.dedup();
            numbers.iter().map(u8::to_string).collect::<Vec<_>>().join(" and ")
        }
        Recovered(used) => calls.recover(&journal_plan(), &JOURNAL.as_bytes()[..used])?.to_string(),
        Cost(targets, times, n) => {
            let cost = calls.cost(size(targets, times, n), 3)?;
            format!("{} {} {}", cost.length, cost.fewest, cost.most)
        }
        Written(extreme, targets, times, n) => {
            let p = extreme_plan(calls, extreme, size(targets, times, n))?;
            [p.targets, p.suns, p.observers, p.tolerances, p.panels].map(|list| vector(&list)).join(", ")
        }
        Tried(extreme, targets, times, n) => {
            let p = extreme_plan(calls, extreme, size(targets, times, n))?;
            calls.swept(&p, &(0..p.cells().div_ceil(64) as u64).collect::<Vec<_>>())?.2.to_string()
        }
    })
}

const SOURCES: [(&str, &[(Asked, &str)]); 6] = [
    ("document 01", &EXAMPLES),
    ("request One", &REQUEST_ONE),
    ("request Three", &REQUEST_THREE),
    ("request Four", &REQUEST_FOUR),
    ("request Five", &REQUEST_FIVE),
    ("request Seven", &REQUEST_SEVEN),
];

/// Compares an implementation's answers with the printed ones: how many differ.
pub fn run(who: &str, answer: impl Fn(Asked) -> Answer<String>) -> usize {
    let mut differ = 0;
    for (source, list) in SOURCES {
        for &(asked, printed) in list {
            let said = answer(asked);
            if said.as_deref() != Ok(printed) {
                println!("DIFFERS {asked:?}: {source} {printed:?}, {who} {said:?}");
                differ += 1;
            }
        }
    }
    let counts: Vec<String> = SOURCES.iter().map(|(source, list)| format!("{} of {source}", list.len())).collect();
    println!("examples: {}, {differ} differ in {who}", counts.join(", "));
    differ
}
