//! Request Five: sweeps over tables of rolls. The original's `sweep` is run with the table's rolls in place of its own.
use crate::plans::{ranges, sweep, Original};
use crate::tally::Tally;
use cases::plans::{at_turns, for_rolls, plan, samples, table, Entries, Spread, Targets, SPREADS};
use cases::{rows, Seeded};
use checks::Calls;
use model::plan::Rolls;
use model::Plan;
use oracle::patch::{self, without};
use oracle::Oracle;

/// How many rolls the tables of each spread have; random plans have others.
pub const LENGTHS: [usize; 4] = [1, 2, 64, 3600];

pub fn run(calls: &dyn Calls, t: &mut Tally, factor: u64) {
    let mut s = Seeded::new(9);
    // Beyond the original's own chunks of 65,536 cells, for each of which `sweep` is run; and on both sides of 8,784 times, where work over a
    // range changes how it works out the Sun's units.
    t.uncounted = true;
    let beyond = (8784..8794).map(|times| (2, times, 2, Entries::Own));
    for (rows, times, length, entries) in beyond.chain([(301, 401, 3, Entries::Equal)]) {
        let p = plan(&mut s, Targets::Unit, rows, times);
        one(calls, t, &mut s, p, Spread::Anywhere, length, entries);
    }
    t.uncounted = false;
    for k in 0.. {
        let spread = SPREADS[k % SPREADS.len()];
        let length = match k / SPREADS.len() {
            of if of < 8 * LENGTHS.len() => LENGTHS[of % LENGTHS.len()],
            _ => samples(&mut s) as usize,
        };
        let most = (100_000 / length as u64).clamp(20, 2000);
        let rows = s.within(1, 30.min(most)) as usize;
        let times = s.within(1, most / rows as u64 + 1) as usize;
        let p = if s.once_in(8) { at_turns(&mut s, rows, times) } else { plan(&mut s, Targets::Unit, rows, times) };
        one(calls, t, &mut s, p, spread, length, Entries::Either);
        if t.cells > 500_000 * factor && k >= 500 {
            break;
        }
    }
}

/// A sweep over a table, and over as many even steps: the same where the table has them, or where a configured roll replaces each.
fn one(calls: &dyn Calls, t: &mut Tally, s: &mut Seeded, mut p: Plan, spread: Spread, length: usize, entries: Entries) {
    let instants = rows::times(s, p.times());
    let table = table(s, &p, spread, length);
    for_rolls(s, &mut p, Rolls::Table(table), entries);
    let o = Original::counted(t, &p, &instants, None);
    let swept = o.says(t, "sweep", Oracle::sweep);
    t.count_rows(&swept.0, p.times());
    sweep(calls, t, s, &p, swept.clone());
    ranges(calls, t, s, &p, &swept);

    let even = p.stepped();
    let shown = || format!("{spread:?} {p:?}");
    let stepped = Original::new(&even, &instants, None).says(t, "sweep of even steps", Oracle::sweep);
    let unpatched = o.says(t, "sweep of even steps", |o| without(&patch::TABLE, || o.sweep()));
    t.held("table lent and switched off", [("even steps", &stepped), ("switched off", &unpatched)], &shown);
    t.count_table(&p, spread, &swept, &stepped);
    if spread == Spread::Even || p.roll_deg.is_some() {
        let order: Vec<u64> = (0..p.cells().div_ceil(64) as u64).collect();
        let what = if spread == Spread::Even { "even steps as a table" } else { "configured roll for a table's" };
        t.held(what, [("table", swept), ("even steps", stepped)], &shown);
        t.held(what, [("table", calls.swept(&p, &order)), ("even steps", calls.swept(&even, &order))], &shown);
    }
}
