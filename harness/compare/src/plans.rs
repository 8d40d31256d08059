//! Random plans: rolls, masks of every call, rows, and the sweep through its journal.
use crate::cost;
use crate::tally::{Shape, Tally};
use cases::catalogue::beside;
use cases::plans::{around_the_turn, at_turns, farthest, for_roll, for_sweep, plan, roll, samples, units, Entries, Targets, FOLDED};
use cases::{rows, Seeded};
use checks::{Calls, Model};
use model::arithmetic::bits;
use model::journal::HEADER;
use model::{Answer, Optimal, Plan, Roll};
use oracle::patch::{self, without};
use oracle::Oracle;

/// Right ascensions and declinations in degrees.
pub type Positions<'a> = (&'a [f64], &'a [f64]);

/// The original, asked row by row, each with its own tolerance; and, where all rows have the same, by one evaluator too, as its users ask it, which
/// goes through the original's own chunks of 65,536 cells and must give the same.
pub struct Original<'a> {
    plan: &'a Plan,
    by_row: Oracle,
    whole: Option<Oracle>,
}

impl Original<'_> {
    /// `told`: the targets' positions, where the original makes the vectors of them itself.
    pub fn new<'a>(plan: &'a Plan, instants: &[i64], told: Option<Positions>) -> Original<'a> {
        let at = |oracle: Oracle| match told {
            Some(positions) => oracle.at_positions(positions),
            None => oracle,
        };
        Original { plan, by_row: at(Oracle::new(plan, instants)), whole: Oracle::whole(plan, instants).map(at) }
    }
    /// The same of a plan with settings for a sweep, which is counted.
    pub fn counted<'a>(t: &mut Tally, plan: &'a Plan, instants: &[i64], told: Option<Positions>) -> Original<'a> {
        let original = Original::new(plan, instants, told);
        t.plans += 1;
        t.cells += plan.cells() as u64;
        let small = plan.tolerances.iter().filter(|&&x| x < farthest(plan)).count();
        t.telling += (plan.roll_deg.is_some() || 2 * small >= plan.rows()) as u64;
        match &original.whole {
            Some(_) => t.largest_whole = t.largest_whole.max(plan.cells()),
            None => t.differing += 1,
        }
        original
    }
    pub fn says<T: Shape>(&self, t: &mut Tally, what: &str, answer: impl Fn(&Oracle) -> T) -> T {
        let by_row = answer(&self.by_row);
        if let Some(whole) = self.whole.as_ref().map(answer) {
            t.held("original by row, as a whole", [("by row", by_row.shape()), ("whole", whole.shape())], &|| {
                format!("{what} {:?}", self.plan)
            });
        }
        by_row
    }
}

/// Kinds of ranges, by how they get the Sun's units.
pub const RANGES: [&str; 3] = ["range, units in a table", "range, too short for a table", "range, too many times for a table"];

pub fn run(calls: &dyn Calls, t: &mut Tally, factor: u64) {
    let mut s = Seeded::new(2);
    differences(calls, t, &mut s, 300_000 * factor);
    foldings(t, &mut Seeded::new(5), 300_000 * factor);
    // Plans beyond the Rust's own chunks of 65,536 cells, which one evaluator is to go through; the most targets, with a tolerance each; then
    // many small ones.
    t.uncounted = true;
    random(calls, t, &mut s, (301, 401), 3, Entries::Equal);
    random(calls, t, &mut s, (65_536, 2), 1, Entries::Equal);
    random(calls, t, &mut s, (65_536, 1), 2, Entries::Own);
    if factor > 1 {
        random(calls, t, &mut s, (1024, 1024), 8, Entries::Equal);
        random(calls, t, &mut s, (16, 65_536), 2, Entries::Own);
    }
    // Where work over a range changes how it works out the Sun's units: at 8,784 times.
    for (rows, times) in [(1, 8784), (2, 8784), (3, 8784), (1, 8785), (2, 8785), (3, 8785)] {
        random(calls, t, &mut s, (rows, times), 1 + rows as u64, Entries::Own);
    }
    t.uncounted = false;
    // Chunks of 64 cells that hold a dozen targets, and of 64 targets.
    for n in [1, 2, 3, 7, 12, 24, 72, 360] {
        random(calls, t, &mut s, (30, 5), n, Entries::Own);
        random(calls, t, &mut s, (130, 1), n, Entries::Own);
    }
    // Rolls at turns: a cell, blocks of 64 in which a row's rolls are worked out, and their ends.
    for k in 0..400 * factor {
        let (rows, times) = s.one_of(&[(1, 1), (1, 64), (2, 65), (3, 130), (30, 7)]);
        let p = at_turns(&mut s, rows, times);
        one(calls, t, &mut s, p, [1, 2, 3, 4, 7, 8, 24, 360][k as usize % 8], Entries::Either, None);
    }
    while t.cells < 2_200_000 * factor {
        let n = samples(&mut s);
        let most = (100_000 / n).clamp(20, 3000);
        let rows = s.within(1, 40.min(most)) as usize;
        let times = s.within(1, most / rows as u64 + 1) as usize;
        random(calls, t, &mut s, (rows, times), n, Entries::Either);
    }
}

fn differences(calls: &dyn Calls, t: &mut Tally, s: &mut Seeded, count: u64) {
    let none = Plan::default();
    for _ in 0..count {
        let (a, b) = if s.once_in(4) { (f64::from_bits(s.bits()), f64::from_bits(s.bits())) } else { (roll(s, &none), roll(s, &none)) };
        t.same("difference", Ok(calls.difference(a, b)), oracle::circular_diff_deg(a, b), &|| format!("{a:e} {b:e}"));
    }
}

/// Request Three's folding by itself, for which the library has no call: the patch and the model, and listed bits. Also of numbers of up to 2^20
/// in size, larger than any cell's roll that was seen.
fn foldings(t: &mut Tally, s: &mut Seeded, count: u64) {
    for (roll, to) in FOLDED {
        t.same("folding, listed", Ok(patch::fold(roll)), to, &|| format!("{roll:e}"));
    }
    for _ in 0..count {
        let roll = match s.below(4) {
            0 => s.between(-360.0, 360.0),
            1 => s.between(-1_048_576.0, 1_048_576.0),
            // Every size alike.
            2 => f64::from_bits(s.below(1_048_576f64.to_bits()) | s.below(2) << 63),
            _ => beside(s.one_of(&FOLDED).0, s.below(9) as i64 - 4),
        };
        let ours = model::roll::folded(roll);
        t.same("folding, plain model", Ok(ours), patch::fold(roll), &|| format!("{roll:e}"));
        t.within("folding, from 0 to below 360", &[ours], &|| format!("{roll:e}"));
    }
}

fn random(calls: &dyn Calls, t: &mut Tally, s: &mut Seeded, (rows, times): (usize, usize), n: u64, entries: Entries) {
    let p = plan(s, Targets::Unit, rows, times);
    one(calls, t, s, p, n, entries, None);
}

/// One geometry: first with settings for sweeps of n rolls, then with settings for marks at one roll.
pub fn one(calls: &dyn Calls, t: &mut Tally, s: &mut Seeded, mut p: Plan, n: u64, entries: Entries, told: Option<Positions>) {
    let (rows, times) = (p.rows(), p.times());
    let instants = rows::times(s, times);
    let cells = p.cells();
    let room = cells + s.index(3);

    for_sweep(s, &mut p, n, entries);
    let o = Original::counted(t, &p, &instants, told);
    let shown = || format!("{p:?}");
    rolls(calls, t, &p, &o, room);
    let swept = o.says(t, "sweep", Oracle::sweep);
    t.count_rows(&swept.0, times);
    sweep(calls, t, s, &p, swept.clone());
    for _ in 0..if times > 8000 { 6 } else { 1 } {
        ranges(calls, t, s, &p, &swept);
    }
    let theirs = o.says(t, "every roll", |o| o.constrained_at_every_roll(n));
    t.mask("every roll", calls.constrained_at_every_roll(&p, n, room), theirs, &shown);
    let j = s.index(times);
    let ours = calls.field_of_regard_violated_batch(&p, j as u64, n, rows);
    let theirs = o.says(t, "field of regard", |o| o.field_of_regard_violated_batch(j, n));
    t.mask("field of regard", ours, theirs, &|| format!("time {j} {}", shown()));
    if s.once_in(8) {
        let theirs = o.says(t, "every roll of none", |o| o.constrained_at_every_roll(0));
        t.same("every roll of none", calls.constrained_at_every_roll(&p, 0, room), theirs, &shown);
        let ours = calls.field_of_regard_violated_batch(&p, j as u64, 0, rows);
        let theirs = o.says(t, "field of regard of no rolls", |o| o.field_of_regard_violated_batch(j, 0));
        t.same("field of regard of no rolls", ours, theirs, &shown);
    }

    p.roll_deg = if s.once_in(4) { None } else { Some(roll(s, &p)) };
    for_roll(s, &mut p, entries);
    let o = Original::new(&p, &instants, told);
    let asked = roll(s, &p);
    let shown = || format!("roll {asked:e} {p:?}");
    for (kind, roll) in [("at a sweep's roll", Roll::Sweep(asked)), ("at a fixed roll", Roll::Fixed(asked))] {
        let theirs = o.says(t, kind, |o| o.in_constraint_batch_at_roll(roll));
        t.mask(kind, calls.in_constraint_batch_at_roll(&p, roll, room), theirs, &shown);
    }
    let ours = calls.field_of_regard_violated_at_roll(&p, j as u64, asked, rows);
    let theirs = o.says(t, "field of regard at a roll", |o| o.field_of_regard_violated_at_roll(j, asked));
    t.mask("field of regard at a roll", ours, theirs, &|| format!("time {j} {}", shown()));
    let (ours, theirs) = (calls.in_constraint_batch(&p, room), o.says(t, "batch", Oracle::in_constraint_batch));
    if p.roll_deg.is_some() {
        t.mask("batch", ours, theirs, &shown);
    } else {
        t.same("batch without a roll", ours, theirs, &shown);
    }
    for i in 0..rows.min(4) {
        row(calls, t, &p, &o, s.index(rows), &instants, i);
    }
}

/// Free, and every roll to the bit, from 0 to below 360.
fn rolls(calls: &dyn Calls, t: &mut Tally, p: &Plan, o: &Original, room: usize) {
    let (named, not_free) = (o.says(t, "named values", Oracle::named_values), o.says(t, "not Free", Oracle::not_free));
    t.count_unfolded(&without(&patch::FOLD, || o.by_row.named_values()));
    let shown = || format!("{p:?}");
    let ours = calls.named_values(p, room);
    t.within("named values from 0 to below 360", ours.as_deref().unwrap_or(&[]), &shown);
    if p.cells() < 4000 {
        let times = p.times();
        for c in 0..p.cells() {
            let (i, j) = (c / times, c % times);
            let at = (p.target(i), p.sun(j), p.observer(j), p.panel(i));
            let shown = || format!("target {i} time {j} {p:?}");
            let of = |answer: Answer<Optimal>| {
                answer.map(|optimal| match optimal {
                    Optimal::Free => (0u8, 0.0),
                    Optimal::At(roll) => (1, roll),
                })
            };
            let cell = of(calls.cell(at.0, at.1, at.2, at.3));
            t.within("cell from 0 to below 360", &cell.map_or(vec![], |(_, roll)| vec![roll]), &shown);
            t.same("cell", cell, if not_free[c] == 1 { (1, named[c]) } else { (0, 0.0) }, &shown);
            t.same("cell, plain model", cell, of(Model.cell(at.0, at.1, at.2, at.3)).expect("accepted"), &shown);
        }
        t.same("named values, plain model", ours.clone(), Model.named_values(p, room).expect("accepted"), &shown);
    }
    t.same("named values", ours, named, &shown);
}

/// Section 4's line of each chunk, from each cell's mark and how often it was tried.
pub fn lines((mask, tried): &(Vec<u8>, Vec<u64>)) -> Vec<Vec<u8>> {
    let line = |(c, (mask, tried)): (usize, (&[u8], &[u64]))| {
        let word: u64 = mask.iter().enumerate().map(|(k, &mark)| (mark as u64) << k).sum();
        format!("{c:08x}{word:016x}{:08x}\n", tried.iter().sum::<u64>()).into_bytes()
    };
    mask.chunks(64).zip(tried.chunks(64)).enumerate().map(line).collect()
}

fn shuffle<T>(s: &mut Seeded, list: &mut [T]) {
    for k in (1..list.len()).rev() {
        list.swap(k, s.index(k + 1));
    }
}

/// How many chunks hold cells of targets whose tolerances differ.
fn mixed_chunks(p: &Plan) -> u64 {
    let times = p.times();
    let mixed = |c: &usize| {
        let (first, last) = (64 * c / times, (64 * c + 63).min(p.cells() - 1) / times);
        (first..=last).any(|i| bits(p.tolerance(i)) != bits(p.tolerance(first)))
    };
    (0..p.cells().div_ceil(64)).filter(mixed).count() as u64
}

/// The chunks in a random order: each line, the mask, the sum of probes, and that they follow from the plan's size. Where a chunk has several
/// tolerances, and over a table, the model's journal too.
pub fn sweep(calls: &dyn Calls, t: &mut Tally, s: &mut Seeded, p: &Plan, swept: (Vec<u8>, Vec<u64>)) {
    let mut order: Vec<u64> = (0..p.cells().div_ceil(64) as u64).collect();
    shuffle(s, &mut order);
    let lines = lines(&swept);
    let (mask, tried) = swept;
    let shown = || format!("order {order:?} {p:?}");
    let mixed = mixed_chunks(p);
    match calls.swept(p, &order) {
        Ok((journal, ours, sum)) => {
            t.mixed_chunks += mixed;
            if mixed > 0 || p.rolls.table().is_some() {
                t.same("journal, plain model", Ok(journal.clone()), Model.swept(p, &order).expect("accepted").0, &shown);
            }
            t.mask("sweep", Ok(ours), mask, &shown);
            let tried = tried.iter().sum();
            t.same("probes", Ok(sum), tried, &shown);
            cost::of_sweep(calls, t, p, &journal, tried);
            t.same("lines", Ok(journal[HEADER..].to_vec()), order.iter().flat_map(|&c| lines[c as usize].clone()).collect(), &shown);
        }
        Err(number) => {
            t.mask("sweep", Err(number), mask, &shown);
        }
    }
}

/// All chunks by ranges in a random order: short ones, the whole, and ones about where the library changes how it works.
pub fn ranges(calls: &dyn Calls, t: &mut Tally, s: &mut Seeded, p: &Plan, swept: &(Vec<u8>, Vec<u64>)) {
    let chunks = p.cells().div_ceil(64) as u64;
    let mut list = Vec::new();
    let mut from = 0;
    while from < chunks {
        let length = match s.below(8) {
            0 => chunks,
            1..=3 => s.within(1, 9),
            _ => around_the_turn(s, p),
        };
        let to = chunks.min(from + length);
        list.push(from..to);
        from = to;
    }
    shuffle(s, &mut list);
    let lines = lines(swept);
    let shown = || format!("ranges {list:?} {p:?}");
    let ours = calls.ranged(p, &list);
    let mut at = HEADER;
    for range in &list {
        let kind = RANGES[units(p, range.end - range.start) as usize];
        let theirs = lines[range.start as usize..range.end as usize].concat();
        let end = at + theirs.len();
        t.same(kind, ours.clone().map(|(journal, ..)| journal[at..end].to_vec()), theirs, &shown);
        at = end;
    }
    t.same("mask by ranges", ours.clone().map(|(_, mask, _)| mask), swept.0.clone(), &shown);
    t.same("probes by ranges", ours.map(|(.., sum)| sum), swept.1.iter().sum(), &shown);
}

/// A row of `evaluate`, and the windows of it.
fn row(calls: &dyn Calls, t: &mut Tally, p: &Plan, o: &Original, i: usize, instants: &[i64], at: usize) {
    let times = p.times();
    if times > 3000 && at > 0 {
        return;
    }
    let shown = || format!("target {i} {p:?}");
    // Of the row's evaluator alone: it takes one call per sample, and asked twice would take half as long again as all else.
    let (mask, severities) = o.by_row.row(i);
    let (ours_mask, ours_severities) = match calls.evaluate(p, i as u64, times, times) {
        Ok((m, v)) => (Ok(m), Ok(v)),
        Err(number) => (Err(number), Err(number)),
    };
    let (m, v) = (ours_mask.clone(), ours_severities.clone());
    if p.roll_deg.is_some() {
        t.mask("row", ours_mask, mask, &shown);
    } else {
        t.same("row without a roll", ours_mask, mask, &shown);
    }
    t.same("severities", ours_severities, severities, &shown);
    if let (Ok(m), Ok(v)) = (m, v) {
        // An infinite severity is refused by the listing.
        if v.iter().all(|x| x.is_finite()) {
            let places = times.div_ceil(2);
            let list = calls.violation_windows(&m, instants, &v, [places; 6]);
            let (ends, highest) =
                o.says(t, "windows of a row", |o| -> (Vec<_>, Vec<_>) { o.row_windows(i).iter().map(|w| ((w.0, w.1), w.2)).unzip() });
            t.same("windows of a row", list.clone().map(|l| l.iter().map(|w| (w.first_time, w.last_time)).collect()), ends, &shown);
            t.same("severities of windows", list.map(|l| l.iter().map(|w| w.severity).collect()), highest, &shown);
        }
    }
}
