//! The proved library as this program calls it. Every vector, line, mask and window comes from here, and nothing else calls it.
use crate::{plan::Plan, tried::Rolls};
use std::ops::Range;
pub use wilfnusk::{circular_diff_deg, cos, sin, Cost, Refusal, Roll, Window, CHUNK_CELLS, HEADER_BYTES, LINE_BYTES};
use wilfnusk::{Columns, PlanLists};

fn lent(plan: &Plan) -> wilfnusk::Plan<'_> {
    wilfnusk::Plan {
        targets: &plan.targets,
        suns: &plan.suns,
        observers: &plan.observers,
        tolerances: &plan.tolerances,
        roll_deg: plan.configured_roll,
        panel_normal: plan.panel,
    }
}

/// A table is lent as it is, without a copy.
impl<'a> From<&'a Rolls> for wilfnusk::Rolls<'a> {
    fn from(rolls: &'a Rolls) -> Self {
        match rolls {
            Rolls::Even(n) => wilfnusk::Rolls::Even(*n),
            Rolls::Table(table) => wilfnusk::Rolls::Table(table),
        }
    }
}

/// The unit vectors of catalogue positions in degrees, three numbers each.
pub fn unit_vectors(ra: &[f64], dec: &[f64]) -> Result<Vec<f64>, Refusal> {
    let mut vectors = vec![0.0; 3 * ra.len()];
    wilfnusk::radec_to_unit_vectors_batch(ra, dec, &mut vectors)?;
    Ok(vectors)
}

/// Whether the library takes this plan: recovery of an empty journal refuses as the plan does, and a listing as its times do.
pub fn check(plan: &Plan) -> Result<(), Refusal> {
    lent(plan).recover(&plan.rolls, &[], 0)?;
    visibility(&vec![0; plan.times.len()], &plan.times)?;
    Ok(())
}

/// Whether every cell is Free with this panel normal, whatever the positions: the Sun is across this boresight.
pub fn panel_is_free(panel: [f64; 3]) -> bool {
    matches!(wilfnusk::cell([1.0, 0.0, 0.0], [0.0, 1.0, 0.0], [0.0; 3], panel), Ok(wilfnusk::OptimalRoll::Free))
}

/// What the cost of a sweep depends on.
#[derive(Clone, Copy, Debug, PartialEq, Eq)]
pub struct Size {
    pub targets: u64,
    pub times: u64,
    pub rolls: u64,
}

/// What the sweep of a plan of this size costs.
pub fn cost(size: Size) -> Result<Cost, Refusal> {
    wilfnusk::cost(size.targets, size.times, size.rolls)
}

/// The lines of a whole journal, one per chunk.
pub fn chunks(cost: &Cost) -> u64 {
    (cost.journal_bytes - HEADER_BYTES) / LINE_BYTES
}

/// What a plan of a size is to be: one whose sweep tries the most rolls, or one whose sweep tries the fewest.
#[derive(Clone, Copy, Debug, PartialEq, Eq)]
pub enum Extreme {
    Costliest,
    Cheapest,
}

/// The numbers of such a plan, which has no configured roll.
pub struct Numbers {
    /// Three numbers per target.
    pub targets: Vec<f64>,
    /// Three numbers per time, each.
    pub suns: Vec<f64>,
    pub observers: Vec<f64>,
    /// One per target.
    pub tolerances: Vec<f64>,
    pub panel: [f64; 3],
    /// How many rolls its sweep tries.
    pub probes: u64,
}

/// A plan of this size that costs the most or the least, as the library writes it.
pub fn extreme(which: Extreme, size: Size) -> Result<Numbers, Refusal> {
    // A size that is refused may be any number, for which there are no lists. So it is refused before they are made.
    let cost = cost(size)?;
    let Size { targets, times, rolls } = size;
    let list = |count: u64| vec![0.0; count as usize];
    let (probes, write): (_, fn(u64, u64, u64, PlanLists) -> Result<(), Refusal>) = match which {
        Extreme::Costliest => (cost.most_probes, wilfnusk::costliest_plan),
        Extreme::Cheapest => (cost.fewest_probes, wilfnusk::cheapest_plan),
    };
    let (of_targets, of_times) = (3 * targets, 3 * times);
    let mut numbers = Numbers {
        targets: list(of_targets),
        suns: list(of_times),
        observers: list(of_times),
        tolerances: list(targets),
        panel: [0.0; 3],
        probes,
    };
    let lists = PlanLists {
        target_numbers: &mut numbers.targets,
        suns: &mut numbers.suns,
        observers: &mut numbers.observers,
        tolerances: &mut numbers.tolerances,
        panel: &mut numbers.panel,
    };
    write(targets, times, rolls, lists)?;
    Ok(numbers)
}

/// The header of the plan's journal.
pub fn header(plan: &Plan) -> Result<Vec<u8>, Refusal> {
    let mut header = vec![0; HEADER_BYTES as usize];
    begin(plan, &mut header)?;
    Ok(header)
}

/// Writes the header into an empty journal. The used length after it.
pub fn begin(plan: &Plan, journal: &mut [u8]) -> Result<usize, Refusal> {
    lent(plan).begin(&plan.rolls, journal, 0).map(|used| used as usize)
}

/// Appends the lines of a run of chunks, in their order, up to the first that cannot be. The used length after them.
pub fn work(plan: &Plan, chunks: Range<u64>, journal: &mut [u8], used: usize) -> Result<usize, Refusal> {
    lent(plan).work_range(&plan.rolls, chunks, journal, used as u64).map(|(used, _)| used as usize)
}

/// How much of the journal stands: the header and the lines whose writing ended.
pub fn recover(plan: &Plan, journal: &[u8]) -> Result<usize, Refusal> {
    lent(plan).recover(&plan.rolls, journal, journal.len() as u64).map(|used| used as usize)
}

/// The mask that a whole journal holds, and the sum of its probes.
pub fn collect(plan: &Plan, journal: &[u8]) -> Result<(Vec<u8>, u64), Refusal> {
    let mut mask = vec![0; plan.cells()];
    let probes = lent(plan).collect(&plan.rolls, journal, journal.len() as u64, &mut mask)?;
    Ok((mask, probes))
}

/// One target's mask and severities at the configured roll.
pub fn evaluate(plan: &Plan, target: usize) -> Result<(Vec<u8>, Vec<f64>), Refusal> {
    let (mut mask, mut severities) = (vec![0; plan.times.len()], vec![0.0; plan.times.len()]);
    lent(plan).evaluate(target as u64, &mut mask, &mut severities)?;
    Ok((mask, severities))
}

/// The mask of every cell at one roll.
pub fn mask_at(plan: &Plan, roll: Roll) -> Result<Vec<u8>, Refusal> {
    let mut mask = vec![0; plan.cells()];
    lent(plan).in_constraint_batch_at_roll(roll, &mut mask)?;
    Ok(mask)
}

/// The optimal roll of every cell, and whether the cell is Free.
///
/// The rolls alone do not tell which cells are Free, as these have one too. A mask does where every tolerance is -1: no difference is below 0, so
/// each cell is marked that is not Free, and a Free one never is. It is asked for at a Fixed roll, which no configured roll takes the place of:
/// at a NaN nothing is marked.
pub fn rolls(plan: &Plan) -> Result<(Vec<f64>, Vec<bool>), Refusal> {
    let (mut rolls, mut mask) = (vec![0.0; plan.cells()], vec![0; plan.cells()]);
    let tolerances = vec![-1.0; plan.tolerances.len()];
    let plan = wilfnusk::Plan { tolerances: &tolerances, ..lent(plan) };
    plan.named_values(&mut rolls)?;
    plan.in_constraint_batch_at_roll(Roll::Fixed(0.0), &mut mask)?;
    Ok((rolls, mask.into_iter().map(|marked| marked == 0).collect()))
}

/// What the marks at one time are by: a roll, or the distance to the nearest of n even steps. There is no such call over a table.
#[derive(Clone, Copy, Debug)]
pub enum Regarded {
    Roll(f64),
    EvenSteps(u64),
}

/// Each target's mark at one time.
pub fn regard(plan: &Plan, time: usize, by: Regarded) -> Result<Vec<u8>, Refusal> {
    let mut mask = vec![0; plan.names.len()];
    match by {
        Regarded::Roll(roll) => lent(plan).field_of_regard_violated_at_roll(time as u64, roll, &mut mask)?,
        Regarded::EvenSteps(n) => lent(plan).field_of_regard_violated_batch(time as u64, n, &mut mask)?,
    }
    Ok(mask)
}

/// A row's visibility windows.
pub fn visibility(mask: &[u8], times: &[i64]) -> Result<Vec<Window>, Refusal> {
    listed(mask, |out| wilfnusk::visibility_windows(mask, times, out))
}

/// A row's violation windows.
pub fn violations(mask: &[u8], times: &[i64], severities: &[f64]) -> Result<Vec<Window>, Refusal> {
    listed(mask, |out| wilfnusk::violation_windows(mask, times, severities, out))
}

/// Lends columns with room for the most windows that a row can have, and reads the windows from them. A list of zeros costs nothing where no
/// window is written, and a list of records would be filled first.
fn listed(mask: &[u8], list: impl FnOnce(Columns) -> Result<u64, Refusal>) -> Result<Vec<Window>, Refusal> {
    let room = (mask.len() + 1) / 2;
    let (mut first, mut last) = (vec![0; room], vec![0; room]);
    let (mut first_time, mut last_time) = (vec![0; room], vec![0; room]);
    let (mut severity, mut is_last) = (vec![0.0; room], vec![0; room]);
    let count = list(Columns {
        first: &mut first,
        last: &mut last,
        first_time: &mut first_time,
        last_time: &mut last_time,
        severity: &mut severity,
        is_last: &mut is_last,
    })?;
    let window = |k: usize| Window {
        first: first[k],
        last: last[k],
        first_time: first_time[k],
        last_time: last_time[k],
        severity: severity[k],
        is_last: is_last[k].into(),
    };
    Ok((0..count as usize).map(window).collect())
}

/// A window's length, cut to whole seconds, without a list of its own.
pub fn seconds(first_time: i64, last_time: i64) -> Result<u64, Refusal> {
    wilfnusk::total_violation_duration(&[first_time], &[last_time]).map(|seconds| seconds as u64)
}

#[cfg(test)]
mod tests {
    use super::*;
    use crate::testing::plan;

    #[test]
    fn the_journal_of_document_01() {
        let toml = "targets = \"t.csv\"\nephemeris = \"e.csv\"\nrolls = 1\ntolerance = 10\n";
        let ephemeris = "time,sun_x,sun_y,sun_z,observer_x,observer_y,observer_z\n\
            2026-03-20T00:00:00Z,0,1,0,0,0,0\n2026-03-20T00:01:00Z,0,0,1,0,0,0\n";
        let plan = plan(toml, "name,x,y,z\nA,1,0,0\n", ephemeris).unwrap();
        check(&plan).unwrap();
        let mut journal = header(&plan).unwrap();
        let fields = ["00000001", "00000002", "00000001", "4024000000000000", "00", "0000000000000000"];
        let panel = ["0000000000000000", "3ff0000000000000", "0000000000000000", "\n"];
        assert_eq!(String::from_utf8(journal.clone()).unwrap(), fields.concat() + &panel.concat());
        assert_eq!(collect(&plan, &journal).unwrap_err().number(), 15);
        journal.resize(journal.len() + LINE_BYTES as usize, 0);
        assert_eq!(work(&plan, 0..1, &mut journal, HEADER_BYTES as usize), Ok(journal.len()));
        assert_eq!(&journal[HEADER_BYTES as usize..], b"00000000000000000000000200000002\n");
        assert_eq!(recover(&plan, &journal[..journal.len() - 1]), Ok(HEADER_BYTES as usize));
        assert_eq!(collect(&plan, &journal), Ok((vec![0, 1], 2)));
        assert_eq!(mask_at(&plan, Roll::Sweep(0.0)), Ok(vec![0, 1]));
        let regarded = [(0, Regarded::EvenSteps(1)), (1, Regarded::EvenSteps(1)), (1, Regarded::Roll(90.0))];
        assert_eq!(regarded.map(|(time, by)| regard(&plan, time, by)), [Ok(vec![0]), Ok(vec![1]), Ok(vec![0])]);
        let windows = violations(&[0, 1], &plan.times, &[0.0, 0.5]).unwrap();
        assert_eq!((windows.len(), windows[0].first, windows[0].severity, windows[0].is_last), (1, 1, 0.5, 1));
        assert_eq!(visibility(&[0, 1], &plan.times).unwrap().len(), 0);
        let visible = visibility(&[0, 0], &plan.times).unwrap()[0];
        assert_eq!(seconds(visible.first_time, visible.last_time), Ok(60));
    }
}
