//! What each call refuses, and in which order: faulty inputs, often several faults at once, compared with the plain model. Every call is checked to
//! change nothing if it refuses, and nothing beyond its answer if it accepts.
//! `refusals [FACTOR]` multiplies the number of inputs.
use cases::catalogue::{positions, DEC, RA};
use cases::{plans, rows, Seeded};
use checks::examples::{Asked, REQUEST_SEVEN};
use checks::{lent, rolls, runs, work_range, Calls, Library, Model};
use model::cost::{Extreme, Size};
use model::journal::{Sweep, HEADER, LINE};
use model::plan::{Rolls, Third};
use model::{arithmetic::bits, Answer, Optimal, Plan, Roll};
use std::collections::{BTreeMap, BTreeSet};
use std::ops::Range;
use std::process::exit;

#[derive(Default)]
struct Tally {
    /// How often each call gave each answer; 0 for accepted.
    answers: BTreeMap<&'static str, BTreeMap<u8, u64>>,
    differ: u64,
}

impl Tally {
    /// The library's number, 0 for accepted.
    fn same<T: PartialEq + std::fmt::Debug>(
        &mut self,
        call: &'static str,
        ours: Answer<T>,
        theirs: Answer<T>,
        input: &dyn Fn() -> String,
    ) -> u8 {
        *self.answers.entry(call).or_default().entry(theirs.as_ref().err().copied().unwrap_or(0)).or_default() += 1;
        let number = ours.as_ref().err().copied().unwrap_or(0);
        if ours != theirs {
            self.differ += 1;
            if self.differ <= 10 {
                println!("DIFFERS {call}: {}\n  library {ours:?}\n  model   {theirs:?}", input());
            }
        }
        number
    }
}

/// A call, and the numbers that it lists.
type Listed = (&'static str, &'static [u8]);

/// The calls with a plan that make masks, those of a journal by even steps, and those of one by a table, among those below.
const MASKS: Range<usize> = 2..9;
const EVEN: Range<usize> = 9..14;
const TABLE: Range<usize> = 14..19;
/// How many of them take one plan, whose rolls are one or the other.
const PLAN_CALLS: usize = 12;

static LISTED: [Listed; 28] = [
    ("cell", &[0, 4, 5, 6, 20]),
    ("catalogue", &[0, 1, 7, 16]),
    ("named values", &[0, 1, 2, 4, 5, 6, 7, 17, 20]),
    ("batch", &[0, 1, 2, 4, 5, 6, 7, 17, 20]),
    ("at a roll", &[0, 1, 2, 4, 5, 6, 7, 17, 20]),
    ("every roll", &[0, 1, 2, 3, 4, 5, 6, 7, 17, 20]),
    ("row", &[0, 1, 2, 4, 5, 6, 7, 9, 17, 20]),
    ("field of regard", &[0, 1, 2, 3, 4, 5, 6, 7, 9, 17, 20]),
    ("field of regard at a roll", &[0, 1, 2, 4, 5, 6, 7, 9, 17, 20]),
    ("begin", &[0, 1, 2, 3, 4, 5, 6, 7, 13, 17, 20]),
    ("work", &[0, 1, 2, 3, 4, 5, 6, 7, 9, 10, 11, 12, 17, 20]),
    ("work over a range", &[0, 1, 2, 3, 4, 5, 6, 7, 9, 10, 11, 12, 17, 20]),
    ("recover", &[0, 1, 2, 3, 4, 5, 6, 11, 17, 20]),
    ("collect", &[0, 1, 2, 3, 4, 5, 6, 7, 11, 12, 15, 17, 20]),
    ("begin, table", &[0, 1, 2, 4, 5, 6, 7, 13, 17, 18, 19, 20]),
    ("work, table", &[0, 1, 2, 4, 5, 6, 7, 9, 10, 11, 12, 17, 18, 19, 20]),
    ("work over a range, table", &[0, 1, 2, 4, 5, 6, 7, 9, 10, 11, 12, 17, 18, 19, 20]),
    ("recover, table", &[0, 1, 2, 4, 5, 6, 11, 17, 18, 19, 20]),
    ("collect, table", &[0, 1, 2, 4, 5, 6, 7, 11, 12, 15, 17, 18, 19, 20]),
    ("cost", &[0, 2, 3, 7]),
    ("costliest plan", &[0, 2, 3, 7]),
    ("cheapest plan", &[0, 2, 3, 7]),
    ("violation windows", &[0, 1, 2, 7, 8, 14]),
    ("visibility windows", &[0, 1, 2, 7, 8, 14]),
    ("violation records", &[0, 1, 2, 7, 8, 14]),
    ("visibility records", &[0, 1, 2, 7, 8, 14]),
    ("expand", &[0, 1, 2, 7, 8]),
    ("seconds", &[0, 1, 2, 8]),
];

/// The calls of a journal whose plan has these rolls.
fn of_journal(rolls: &Rolls) -> &'static [Listed] {
    match rolls {
        Rolls::Even(_) => &LISTED[EVEN],
        Rolls::Table(_) => &LISTED[TABLE],
    }
}

const BAD_POSITION: [f64; 5] = [f64::NAN, f64::INFINITY, f64::NEG_INFINITY, 1.0000000000000002e100, -1e101];
const BAD_DIRECTION: [f64; 6] = [f64::NAN, f64::INFINITY, 1.0000000000000002, -1.0000000000000002, -7.0, 1e308];
const BAD_N: [u64; 8] = [0, 3601, 1 << 32, (1 << 32) + 5, 1 << 40, u64::MAX, 65_536, 1 << 63];
const BAD_ROLL: [f64; 8] = [f64::NAN, 360.0, 360.00000000000006, -5e-324, -1.0, f64::INFINITY, f64::NEG_INFINITY, 1e300];

fn spoil(s: &mut Seeded, list: &mut [f64], with: &[f64]) {
    if !list.is_empty() {
        let at = s.index(list.len());
        list[at] = s.one_of(with);
    }
}

/// Faults that refusals 3, 18 and 19 name.
fn bad_rolls(s: &mut Seeded, good: &Rolls) -> Rolls {
    let Rolls::Table(table) = good else { return Rolls::Even(s.one_of(&BAD_N)) };
    let mut table = table.clone();
    let at = s.index(table.len());
    let (roll, next) = (table[at], (at + 1) % table.len());
    match s.below(8) {
        0 => table.clear(),
        1 if s.once_in(8) => table.resize(s.one_of(&[3601, 3602, 65_536]), 359.5),
        1 | 2 => table.insert(at, roll),
        3 if next != at => table.swap(at, next),
        // Not the only fault, nor the first.
        4 => {
            spoil(s, &mut table, &BAD_ROLL);
            spoil(s, &mut table, &BAD_ROLL);
        }
        _ => spoil(s, &mut table, &BAD_ROLL),
    }
    Rolls::Table(table)
}

/// A small plan, and the same with any of the faults that refusals 1 to 6 and 17 to 20 name.
fn faulty(s: &mut Seeded) -> (Plan, Plan) {
    let (rows, times) = (s.index(6), s.index(9));
    let mut good = plans::plan(s, plans::Targets::Unit, rows, times);
    let n = if s.once_in(20) { 3600 } else { s.one_of(&[1, 1, 2, 3, 7, 20]) };
    let spread = s.one_of(&plans::SPREADS);
    let rolls = if s.once_in(2) { Rolls::Even(n) } else { Rolls::Table(plans::table(s, &good, spread, n as usize)) };
    plans::for_rolls(s, &mut good, rolls, plans::Entries::Either);
    let mut p = good.clone();
    if s.once_in(8) {
        p.rolls = bad_rolls(s, &good.rolls);
    }
    if s.once_in(12) {
        p.targets.extend([0.5].repeat(s.within(1, 2) as usize));
    }
    if s.once_in(12) {
        p.suns.truncate(p.suns.len().saturating_sub(s.within(1, 3) as usize));
    }
    if s.once_in(12) {
        let more = s.within(1, 3) as usize;
        p.observers.extend([1.0].repeat(more));
        if s.once_in(2) {
            p.suns.extend([2.0].repeat(more));
        }
    }
    if s.once_in(400) {
        // At the limits of 2, and one over.
        let (rows, times) =
            s.one_of(&[(1025, 1024), (65_537, 1), (1, 65_537), (65_537, 0), (0, 65_537), (0, 65_536), (65_536, 0), (17, 65_536)]);
        p.targets = [1.0, 0.0, 0.0].repeat(rows);
        p.suns = [0.0, 1.0, 0.0].repeat(times);
        p.observers = vec![0.0; 3 * times];
        p.tolerances = vec![10.0; rows];
    }
    if s.once_in(10) {
        spoil(s, &mut p.suns, &BAD_POSITION);
    }
    if s.once_in(10) {
        spoil(s, &mut p.observers, &BAD_POSITION);
    }
    if s.once_in(8) {
        p.targets = plans::plan(s, plans::Targets::Any, p.rows(), 1).targets;
    }
    if s.once_in(8) {
        spoil(s, &mut p.targets, &BAD_DIRECTION);
    }
    if s.once_in(8) {
        spoil(s, &mut p.panels, &BAD_POSITION);
    }
    if s.once_in(6) {
        // One fewer, none, one more, as many as numbers or times.
        let length = s.one_of(&[p.rows().saturating_sub(1), 0, p.rows() + 1, p.targets.len(), p.times()]);
        p.tolerances.resize(length, 10.0);
    }
    (good, p)
}

/// About as much room as is needed: sometimes too little, sometimes none.
fn room(s: &mut Seeded, needed: usize) -> usize {
    match s.below(8) {
        0 => needed.saturating_sub(1),
        1 => 0,
        2 => needed / 2,
        _ => needed + s.index(3),
    }
}

/// An index that is mostly below n.
fn index(s: &mut Seeded, n: usize) -> u64 {
    match s.below(8) {
        0 => n as u64,
        1 => s.one_of(&[u64::MAX, 1 << 32, 1 << 40, n as u64 + 1]),
        _ => s.below(n as u64 + 1),
    }
}

fn floats(answer: Answer<Vec<f64>>) -> Answer<Vec<u64>> {
    answer.map(|list| list.into_iter().map(bits).collect())
}

/// What the calls with a plan are given beside it.
struct Beside {
    roll: Roll,
    /// Places of the masks and of the named values.
    cells: usize,
    target: u64,
    /// Places of the row's mask and of its severities.
    row: [usize; 2],
    time: u64,
    /// Places of the fields of regard.
    marks: usize,
    /// The journal's buffer.
    file: Vec<u8>,
    used: u64,
    chunks: Range<u64>,
    /// Places of the collected mask.
    mask: usize,
}

/// Every call with a plan, those of masks first: the library's number, 0 for accepted. `sweep`: of the plan, once it is accepted.
fn with_plan(t: &mut Tally, p: &Plan, sweep: Option<&Sweep>, b: &Beside) -> [u8; PLAN_CALLS] {
    // Section 6's calls have even steps, whatever the plan's rolls are.
    let n = p.n();
    let shown = || if p.cells() > 1000 { format!("{} rows {} times", p.rows(), p.times()) } else { format!("{p:?}") };
    let roll = match b.roll {
        Roll::Sweep(roll) | Roll::Fixed(roll) => roll,
    };
    let named = |c: &dyn Calls| floats(c.named_values(p, b.cells));
    let batch = |c: &dyn Calls| c.in_constraint_batch(p, b.cells);
    let at = |c: &dyn Calls| c.in_constraint_batch_at_roll(p, b.roll, b.cells);
    let every = |c: &dyn Calls| c.constrained_at_every_roll(p, n, b.cells);
    let row = |c: &dyn Calls| c.evaluate(p, b.target, b.row[0], b.row[1]).map(|(m, v)| (m, v.into_iter().map(bits).collect::<Vec<_>>()));
    let regard = |c: &dyn Calls| c.field_of_regard_violated_batch(p, b.time, n, b.marks);
    let regard_at = |c: &dyn Calls| c.field_of_regard_violated_at_roll(p, b.time, roll, b.marks);
    let masks = [
        t.same("named values", named(&Library), named(&Model), &shown),
        t.same("batch", batch(&Library), batch(&Model), &shown),
        t.same("at a roll", at(&Library), at(&Model), &shown),
        t.same("every roll", every(&Library), every(&Model), &shown),
        t.same("row", row(&Library), row(&Model), &shown),
        t.same("field of regard", regard(&Library), regard(&Model), &shown),
        t.same("field of regard at a roll", regard_at(&Library), regard_at(&Model), &shown),
    ];
    let journals = journal(t, p, sweep, b, &shown);
    std::array::from_fn(|k| if k < masks.len() { masks[k] } else { journals[k - masks.len()] })
}

fn of_plans(s: &mut Seeded, t: &mut Tally) {
    let (good, p) = faulty(s);
    // A plan that is refused is passed with the good plan's journal.
    let sweep = Sweep::new(p.clone()).or_else(|_| Sweep::new(good)).expect("accepted");
    let roll = plans::roll(s, &p);
    let (file, used) = some_journal(s, &sweep);
    let chunk = index(s, sweep.chunks());
    let to = s.one_of(&[chunk.wrapping_sub(1), chunk, chunk.saturating_add(1), chunk.saturating_add(2), u64::MAX]);
    let beside = Beside {
        roll: if s.once_in(2) { Roll::Sweep(roll) } else { Roll::Fixed(roll) },
        cells: room(s, p.cells()),
        target: index(s, p.rows()),
        row: [room(s, p.times()), room(s, p.times())],
        time: index(s, p.times()),
        marks: room(s, p.rows()),
        file,
        used,
        chunks: chunk..to,
        mask: room(s, p.cells()),
    };
    with_plan(t, &p, Some(&sweep), &beside);
}

/// A journal as far along as chance has it, in a buffer, and its used length.
fn some_journal(s: &mut Seeded, sweep: &Sweep) -> (Vec<u8>, u64) {
    let mut file = Vec::new();
    if !s.once_in(4) {
        file = sweep.header.clone();
        let from = s.index(sweep.chunks() + 1);
        for c in 0..s.within(from as u64, sweep.chunks() as u64) {
            file.extend(&sweep.lines[c as usize]);
        }
    }
    if s.once_in(4) && !file.is_empty() {
        file.truncate(s.index(file.len()));
    }
    if s.once_in(6) && !file.is_empty() {
        let at = s.index(file.len());
        file[at] = s.one_of(b"0123456789abcdef\nx");
    }
    let used = file.len() as u64;
    file.resize(file.len() + s.one_of(&[0, 32, 33, 106, 107, 150]), 0x5a);
    let beyond = s.once_in(16).then(|| s.one_of(&[file.len() as u64 + 1, u64::MAX, 1 << 32]));
    (file, beyond.unwrap_or(used))
}

/// The calls of a journal.
fn journal(t: &mut Tally, p: &Plan, sweep: Option<&Sweep>, b: &Beside, shown: &dyn Fn() -> String) -> [u8; 5] {
    let Beside { file, used, chunks, mask, .. } = b;
    let (used, chunk, number) = (*used, chunks.start, |r: wilfnusk::Refusal| r.number());
    // What the model answers, once the plan is accepted.
    let refusal = p.refusal(Third::Sweep, used > file.len() as u64);
    let theirs = refusal.map(|()| sweep.unwrap_or_else(|| panic!("the model accepts {}", shown())));
    let (l, rolls) = (lent(p), rolls(p));
    let bits_of_table = || p.rolls.table().into_iter().flatten().map(|roll| roll.to_bits()).collect::<Vec<_>>();
    let before = bits_of_table();
    let &[(begin, _), (work, _), (range, _), (recover, _), (collect, _)] = of_journal(&p.rolls) else { unreachable!("five calls") };

    let mut buffer = file.clone();
    let ours = l.begin(rolls, &mut buffer, used).map_err(number);
    assert!(ours.is_ok() || buffer == *file, "begin refused and wrote");
    let expected = theirs.and_then(|sweep| {
        let header = sweep.begin(file.len(), used)?;
        let mut after = file.clone();
        after[..HEADER].copy_from_slice(header);
        Ok((HEADER as u64, after))
    });
    let begin = t.same(begin, ours.map(|u| (u, buffer)), expected, shown);
    let mut buffer = file.clone();
    let ours = l.work(rolls, chunk, &mut buffer, used).map_err(number);
    assert!(ours.is_ok() || buffer == *file, "work refused and wrote");
    let expected = theirs.and_then(|sweep| {
        let line = sweep.work(chunk, file, used)?;
        let mut after = file.clone();
        after[used as usize..][..LINE].copy_from_slice(line);
        Ok((used + LINE as u64, after))
    });
    let work = t.same(work, ours.map(|u| (u, buffer)), expected, shown);
    let mut buffer = file.clone();
    let ours = work_range(p, chunks.clone(), &mut buffer, used);
    assert!(ours.is_ok() || buffer == *file, "work over a range refused and wrote");
    let expected = theirs.and_then(|sweep| {
        let (lines, stopped) = sweep.work_range(chunk, chunks.end, file, used)?;
        let mut after = file.clone();
        after[used as usize..][..lines.len()].copy_from_slice(&lines);
        Ok(((used + lines.len() as u64, stopped), after))
    });
    let range = t.same(range, ours.map(|u| (u, buffer)), expected, shown);

    let recovered = theirs.and_then(|sweep| sweep.recover(file, used));
    let recover = t.same(recover, l.recover(rolls, file, used).map_err(number), recovered, shown);

    let mut out = vec![0x5a; *mask];
    let ours = l.collect(rolls, file, used, &mut out).map_err(number);
    assert!(ours.is_ok() || out.iter().all(|&b| b == 0x5a), "collect refused and wrote");
    let written = p.cells().min(out.len());
    let ours = ours.map(|sum| (out[..written].to_vec(), sum));
    let collect = t.same(collect, ours, theirs.and_then(|sweep| sweep.collect(file, used, *mask)), shown);
    assert_eq!(bits_of_table(), before, "a roll of the lent table has changed");
    [begin, work, range, recover, collect]
}

/// Two targets, forty times, two chunks.
fn two_targets() -> Plan {
    Plan {
        targets: vec![1.0, 0.0, 0.0, 0.6, 0.0, 0.8],
        suns: [[0.0, 1.0, 0.0], [0.0, 0.0, 1.0]].concat().repeat(20),
        observers: vec![0.0; 120],
        tolerances: vec![10.0, 80.0],
        roll_deg: Some(20.0),
        panels: vec![0.0, 1.0, 0.0],
        rolls: Rolls::Even(3),
    }
}

/// What makes every call accept that plan, and refuse it for each of its own reasons.
fn own_reasons(sweep: &Sweep) -> [Beside; 11] {
    let header = &sweep.header[..];
    let (one, both) = ([header, &sweep.lines[0]].concat(), [header, &sweep.lines.concat()].concat());
    let spoiled = [b"x", &header[1..]].concat();
    let given = |file: &[u8], more: usize, chunks: Range<u64>, at: u64, places: usize| Beside {
        roll: Roll::Sweep(5.0),
        cells: places,
        target: at,
        row: [places, 80],
        time: 20 * at,
        marks: places,
        file: [file, &vec![0x5a; more]].concat(),
        used: file.len() as u64,
        chunks,
        mask: places,
    };
    [
        given(&[], 200, 0..2, 0, 80),
        given(header, 200, 0..2, 0, 80),
        // No room.
        given(&[], 106, 0..2, 0, 1),
        given(&one, 32, 1..2, 0, 1),
        given(&both, 200, 0..2, 0, 79),
        // No such target, time or chunk; no chunk in a range.
        given(&one, 200, 2..3, 2, 80),
        given(&one, 200, 1..1, 1, 80),
        // Not right; a tail; a line that is there; all lines there.
        given(&spoiled, 200, 0..2, 0, 80),
        given(&both[..150], 200, 1..2, 0, 80),
        given(&one, 200, 0..2, 0, 80),
        given(&both, 200, 0..2, 0, 80),
    ]
}

/// What makes a plan be refused by a number.
type Fault = (u8, fn(&mut Plan));

/// Faults of a plan for two targets, but for its rolls'.
const FAULTS: [Fault; 10] = [
    (1, |p| p.targets.push(0.5)),
    (1, |p| p.suns.truncate(117)),
    (2, |p| p.targets = [1.0, 0.0, 0.0].repeat(65_537)),
    (4, |p| p.suns[119] = f64::NAN),
    (4, |p| p.observers[0] = f64::INFINITY),
    (5, |p| p.targets[5] = 1.5),
    (20, |p| p.targets[1] = 0.5),
    (20, |p| p.targets[4] = 0.5),
    (6, |p| p.panels[0] = f64::NAN),
    (17, |p| p.tolerances.push(10.0)),
];

fn spoiled(p: &Plan, spoil: fn(&mut Plan)) -> Plan {
    let mut p = p.clone();
    spoil(&mut p);
    p
}

/// The numbers that a plan is refused by, in the order in which they are tried.
const IN_ORDER: [u8; 10] = [1, 2, 3, 18, 19, 4, 5, 20, 6, 17];

/// What a call with this list of numbers answers to two faults of a plan: the number of the first of those that it lists.
fn first_of((_, listed): &Listed, faults: [u8; 2]) -> u8 {
    *IN_ORDER.iter().find(|n| faults.contains(n) && listed.contains(n)).expect("a number that the call lists")
}

/// The rolls that the calls with a plan take, and what makes them refuse these.
fn of_both_rolls() -> [(Rolls, &'static [Fault]); 2] {
    [
        (Rolls::Even(3), &[(3, |p| p.rolls = Rolls::Even(3601))]),
        (
            Rolls::Table(vec![0.0, 35.0, 200.0]),
            &[(18, |p| p.rolls = Rolls::Table(vec![])), (19, |p| p.rolls = Rolls::Table(vec![0.0, 35.0, 35.0]))],
        ),
    ]
}

/// By even steps and by a table: with a list of tolerances that is too short or too long each call answers 17 before all of its own reasons, and what comes
/// before 17 before it.
fn of_tolerances(t: &mut Tally) {
    for (rolls, faults_of_rolls) in of_both_rolls() {
        let listed: Vec<&Listed> = LISTED[MASKS].iter().chain(of_journal(&rolls)).collect();
        let good = Plan { rolls, ..two_targets() };
        let sweep = Sweep::new(good.clone()).expect("accepted");
        let own = own_reasons(&sweep);
        let mut seen: [BTreeSet<u8>; PLAN_CALLS] = Default::default();
        for b in &own {
            for (seen, number) in seen.iter_mut().zip(with_plan(t, &good, Some(&sweep), b)) {
                seen.insert(number);
            }
        }
        for ((call, numbers), seen) in listed.iter().zip(&seen) {
            let own: BTreeSet<u8> = numbers.iter().copied().filter(|n| !IN_ORDER.contains(n)).collect();
            assert_eq!(*seen, own, "{call}: each of its own answers");
        }

        for length in [0, 1, 3, 6, 40] {
            let mut wrong = good.clone();
            wrong.tolerances.resize(length, 10.0);
            let none: Fault = (17, |_| ());
            let beside = FAULTS.iter().chain(faults_of_rolls).filter(|fault| fault.0 != 17).chain([&none]);
            for &(number, spoil) in beside {
                let p = spoiled(&wrong, spoil);
                let expected: Vec<u8> = listed.iter().map(|call| first_of(call, [number, 17])).collect();
                for b in &own {
                    assert_eq!(with_plan(t, &p, None, b)[..], expected[..], "{length} tolerances for two targets, and {number}");
                }
            }
        }
        // No targets, or no times: 17 as well, before 9.
        let none = Plan { targets: vec![], ..good.clone() };
        let no_times = Plan { suns: vec![], observers: vec![], tolerances: vec![10.0], ..good.clone() };
        for p in [none, no_times] {
            for b in &own {
                assert_eq!(with_plan(t, &p, None, b), [17; PLAN_CALLS]);
            }
        }
    }
}

/// Request Seven's targets, each beside one that is accepted, before it and behind it, in every call that takes targets: by even steps and by a
/// table, beside all of the call's own reasons and each other fault of the plan.
fn of_directions(t: &mut Tally) {
    const GOOD: [f64; 3] = [0.0, 0.6, -0.8];
    for (rolls, faults_of_rolls) in of_both_rolls() {
        let listed: Vec<&Listed> = LISTED[MASKS].iter().chain(of_journal(&rolls)).collect();
        let good = Plan { rolls, ..two_targets() };
        for (asked, printed) in REQUEST_SEVEN {
            let Asked::Directions(targets, panel) = asked else { unreachable!("a list of directions") };
            let number: u8 = printed.parse().expect("a number");
            let pairs = match *targets {
                [one] => vec![[one, GOOD], [GOOD, one]],
                [one, two] => vec![[one, two], [two, one]],
                _ => vec![],
            };
            for pair in pairs {
                let p = Plan { targets: pair.concat(), panels: panel.to_vec(), ..good.clone() };
                let sweep = Sweep::new(p.clone());
                assert_eq!(sweep.as_ref().err().copied().unwrap_or(0), number, "{pair:?}");
                // A plan that is refused is passed with the good plan's journal.
                let own = own_reasons(sweep.as_ref().unwrap_or(&Sweep::new(good.clone()).expect("accepted")));
                for b in &own {
                    let said = with_plan(t, &p, sweep.as_ref().ok(), b);
                    assert!(number == 0 || said == [number; PLAN_CALLS], "{pair:?}: {said:?}");
                    for &(other, spoil) in FAULTS.iter().chain(faults_of_rolls).filter(|_| number > 0) {
                        let said = with_plan(t, &spoiled(&p, spoil), None, b);
                        let expected: Vec<u8> = listed.iter().map(|call| first_of(call, [number, other])).collect();
                        assert_eq!(said[..], expected[..], "{pair:?}, and {other}");
                    }
                }
            }
        }
    }
}

/// One target among as many as a plan can have is checked like any other, wherever it is: 5 and 20.
fn of_many_directions(t: &mut Tally) {
    const ROWS: usize = 65_536;
    for (rolls, _) in of_both_rolls() {
        let good = Plan { rolls, ..two_targets() };
        let own = own_reasons(&Sweep::new(good.clone()).expect("accepted"));
        let (suns, observers) = (good.suns[..3].to_vec(), good.observers[..3].to_vec());
        let many = Plan { targets: [0.6, 0.0, 0.8].repeat(ROWS), suns, observers, tolerances: vec![10.0; ROWS], ..good };
        for row in [0, 1, 7, 63, 64, 300, ROWS - 1] {
            for (x, number) in [(0.5, 20), (1.5, 5)] {
                let mut p = many.clone();
                p.targets[3 * row] = x;
                assert_eq!(with_plan(t, &p, None, &own[0]), [number; PLAN_CALLS], "target {row} begins with {x}");
            }
        }
    }
}

/// The five calls of a journal with each listed table, beside all of their own reasons and each fault of the plan: 18 and 19 follow 1 and 2, and
/// come before all else. A number of even steps is refused there by 3.
fn of_tables(t: &mut Tally) {
    let even = two_targets();
    // The even steps of every n are a table that is accepted.
    for n in 1..=3600 {
        let p = Plan { rolls: Rolls::Even(n), ..even.clone() };
        assert_eq!(lent(&p).recover(&p.all_rolls()[..], &[], 0), Ok(0), "{n}");
    }
    let sweep = Sweep::new(even.clone()).expect("accepted");
    let own = own_reasons(&sweep);
    let answers = |t: &mut Tally, p: &Plan, sweep: Option<&Sweep>, b: &Beside| journal(t, p, sweep, b, &|| format!("{:?}", p.rolls));
    let tables = cases::plans::listed_tables().into_iter().map(|(number, table)| (number, Rolls::Table(table)));
    for (number, rolls) in tables.chain(BAD_N.map(|n| (3, Rolls::Even(n)))) {
        let p = Plan { rolls, ..even.clone() };
        if number == 0 {
            // As even steps: to each of its own reasons the same number, and to each fault of the plan that of the fault.
            let swept = Sweep::new(p.clone()).expect("accepted");
            for (b, as_even) in own_reasons(&swept).iter().zip(&own) {
                assert_eq!(answers(t, &p, Some(&swept), b), answers(t, &even, Some(&sweep), as_even), "{:?}", p.rolls);
                for (other, spoil) in FAULTS {
                    assert_eq!(answers(t, &spoiled(&p, spoil), None, b), [other; 5], "{:?}, and {other}", p.rolls);
                }
            }
            continue;
        }
        for b in &own {
            assert_eq!(answers(t, &p, None, b), [number; 5], "{:?}", p.rolls);
            let beyond = Beside { file: vec![0x5a; 200], used: 201, chunks: 0..2, ..*b };
            assert_eq!(answers(t, &p, None, &beyond), [1; 5], "{:?}, and a used length beyond its buffer", p.rolls);
            for (other, spoil) in FAULTS {
                let first = if other <= 2 { other } else { number };
                assert_eq!(answers(t, &spoiled(&p, spoil), None, b), [first; 5], "{:?}, and {other}", p.rolls);
            }
        }
    }
}

fn of_cells(s: &mut Seeded, t: &mut Tally) {
    let targets = if s.once_in(4) { plans::Targets::Any } else { plans::Targets::Unit };
    let p = plans::plan(s, targets, 1, 1);
    let (mut target, mut sun, mut observer, mut panel) = (p.target(0), p.sun(0), p.observer(0), p.panel(0));
    if s.once_in(4) {
        spoil(s, &mut target, &BAD_DIRECTION);
    }
    if s.once_in(6) {
        spoil(s, &mut sun, &BAD_POSITION);
    }
    if s.once_in(6) {
        spoil(s, &mut observer, &BAD_POSITION);
    }
    if s.once_in(4) {
        spoil(s, &mut panel, &BAD_POSITION);
    }
    let answer = |c: &dyn Calls| {
        c.cell(target, sun, observer, panel).map(|o| match o {
            Optimal::Free => None,
            Optimal::At(roll) => Some(bits(roll)),
        })
    };
    t.same("cell", answer(&Library), answer(&Model), &|| format!("{target:?} {sun:?} {observer:?} {panel:?}"));
}

/// Both sides' answer for these lists, which it gives.
fn vectors(t: &mut Tally, ra: &[f64], dec: &[f64], lent: usize) -> Answer<Vec<u64>> {
    let of = |c: &dyn Calls| floats(c.radec_to_unit_vectors_batch(ra, dec, lent));
    let theirs = of(&Model);
    let shown = || if ra.len() > 300 { format!("{} positions", ra.len()) } else { format!("{ra:?} {dec:?} {lent}") };
    t.same("catalogue", of(&Library), theirs.clone(), &shown);
    theirs
}

fn of_positions(s: &mut Seeded, t: &mut Tally) {
    let count = if s.once_in(20) { s.index(300) } else { s.index(9) };
    let (mut ra, mut dec) = positions(s, count);
    resized(s, &mut ra);
    resized(s, &mut dec);
    if s.once_in(6) {
        spoil(s, &mut ra, &RA.outside());
    }
    if s.once_in(6) {
        spoil(s, &mut dec, &DEC.outside());
    }
    let lent = room(s, 3 * count);
    let _ = vectors(t, &ra, &dec, lent);
}

/// Each end and each number outside, at each place of three; then two faults at once, the first of which decides.
fn of_ends(t: &mut Tally) {
    let said = |t: &mut Tally, ra: &[f64], dec: &[f64], lent: usize| vectors(t, ra, dec, lent).err().unwrap_or(0);
    for k in 0..3 {
        let with = |ra: f64, dec: f64| {
            let (mut ras, mut decs) = ([10.0, 359.5, 200.0], [-89.5, 0.5, 60.0]);
            (ras[k], decs[k]) = (ra, dec);
            (ras, decs)
        };
        for (ra, dec) in [(0.0, 0.0), (-0.0, -0.0), (360.0, 90.0), (0.0, -90.0), (360.0, -90.0)] {
            let (ras, decs) = with(ra, dec);
            assert_eq!([9, 10, 8, 0].map(|lent| said(t, &ras, &decs, lent)), [0, 0, 7, 7], "{ras:?} {decs:?}");
        }
        let bad = RA.outside().map(|ra| (ra, 5.0)).into_iter().chain(DEC.outside().map(|dec| (5.0, dec)));
        for (ra, dec) in bad {
            let (ras, decs) = with(ra, dec);
            assert_eq!([9, 8, 0].map(|lent| said(t, &ras, &decs, lent)), [16; 3], "{ras:?} {decs:?}");
            assert_eq!([said(t, &ras, &decs[..2], 9), said(t, &ras[1..], &decs, 0)], [1; 2], "{ras:?} {decs:?}");
        }
    }
    for (ras, decs) in [([f64::NAN, 1.0], [1.0, f64::NAN]), ([1.0, 361.0], [91.0, 1.0])] {
        assert_eq!(said(t, &ras, &decs, 6), 16);
    }
    assert_eq!([said(t, &[], &[], 0), said(t, &[], &[], 4), said(t, &[], &[1.0], 0)], [0, 0, 1]);
    // More than a plan takes, and no 2.
    for count in [65_536, 65_537, 400_000] {
        let (ra, dec) = (vec![123.0; count], vec![-45.0; count]);
        assert_eq!([said(t, &ra, &dec, 3 * count), said(t, &ra, &dec, 3 * count - 1)], [0, 7]);
    }
}

/// Sizes that are accepted: without targets, times or both; a cell, a chunk, a cell more; at each limit.
const ACCEPTED: [(u64, u64); 14] = [
    (0, 0),
    (0, 1),
    (1, 0),
    (0, 7),
    (5, 0),
    (0, 65_536),
    (65_536, 0),
    (1, 1),
    (8, 8),
    (5, 13),
    (1, 65_536),
    (65_536, 16),
    (16, 65_536),
    (1024, 1024),
];
/// Sizes that are not: one over each limit, then numbers of which 32 or 64 bits, of themselves, their product or three times them, leave little.
const OVER: [(u64, u64); 25] = [
    (65_537, 0),
    (0, 65_537),
    (65_537, 1),
    (1, 65_537),
    (1025, 1024),
    (65_536, 17),
    (17, 65_536),
    (65_536, 65_536),
    (1 << 32, 0),
    (0, 1 << 32),
    ((1 << 32) + 1, 1),
    (2, (1 << 32) + 3),
    (1 << 32, 1 << 32),
    ((1 << 32) + 1, (1 << 32) - 1),
    (1 << 48, 1 << 16),
    (1 << 63, 0),
    (0, 1 << 63),
    (1 << 63, 2),
    (2, 1 << 63),
    ((1 << 63) + 1, 2),
    (u64::MAX, 0),
    (0, u64::MAX),
    (u64::MAX, u64::MAX),
    (u64::MAX / 3 + 1, 1),
    (1, u64::MAX / 3 + 1),
];

/// What cost and both plans answer to a size, with outputs of these lengths: 0 for accepted.
fn of_size(t: &mut Tally, (targets, times): (u64, u64), n: u64, places: usize, lists: [usize; 5]) -> [u8; 3] {
    let size = Size { targets, times, n };
    let shown = || format!("{size:?} {places} {lists:?}");
    let cost = |c: &dyn Calls| c.cost(size, places);
    let costliest = |c: &dyn Calls| c.extreme_plan(Extreme::Costliest, size, lists).map(|p| runs(&p));
    let cheapest = |c: &dyn Calls| c.extreme_plan(Extreme::Cheapest, size, lists).map(|p| runs(&p));
    [
        t.same("cost", cost(&Library), cost(&Model), &shown),
        t.same("costliest plan", costliest(&Library), costliest(&Model), &shown),
        t.same("cheapest plan", cheapest(&Library), cheapest(&Model), &shown),
    ]
}

/// Lists for a plan of this size, each of at most so many elements.
fn room_for((targets, times): (u64, u64), most: u128) -> [usize; 5] {
    Size { targets, times, n: 1 }.places().map(|places| places.min(most) as usize)
}

/// Each size, each n and each short list, alone and with the ones after it: 2 before 3 before 7.
fn of_sizes(t: &mut Tally) {
    // More than the most that is accepted needs.
    const ALL: u128 = 200_000;
    for size in OVER {
        let lists = room_for(size, ALL);
        for (n, places, lists) in [(1, 3, lists), (3600, 4, [9; 5]), (0, 3, lists), (u64::MAX, 0, [0; 5]), (7, 2, [0; 5])] {
            assert_eq!(of_size(t, size, n, places, lists), [2; 3], "{size:?} {n} {places} {lists:?}");
        }
    }
    for size in ACCEPTED {
        let lists = room_for(size, ALL);
        for n in BAD_N {
            assert_eq!(of_size(t, size, n, 3, lists), [3; 3], "{size:?} {n}");
            assert_eq!(of_size(t, size, n, 2, [0; 5]), [3; 3], "{size:?} {n}");
        }
        for n in [1, 2, 7, 3599, 3600] {
            assert_eq!(of_size(t, size, n, 3, lists), [0; 3], "{size:?} {n}");
            assert_eq!(of_size(t, size, n, 5, lists.map(|places| places + 2)), [0; 3], "{size:?} {n}");
        }
        for places in 0..3 {
            assert_eq!(of_size(t, size, 1, places, lists)[0], 7, "{size:?} {places}");
        }
        // Each list one short, and none at all, in turn.
        for k in (0..5).filter(|&k| lists[k] > 0) {
            for left in [lists[k] - 1, 0] {
                let mut short = lists;
                short[k] = left;
                assert_eq!(of_size(t, size, 3600, 3, short), [0, 7, 7], "{size:?} {short:?}");
            }
        }
    }
}

/// Numbers of every length, mostly small, and about as much room as they need.
fn of_random_size(s: &mut Seeded, t: &mut Tally) {
    let number = |s: &mut Seeded| match s.below(8) {
        0 => s.bits() >> s.below(64),
        1 => s.one_of(&[65_535, 65_536, 65_537, 1 << 32, 1 << 63, u64::MAX]),
        _ => s.below(20),
    };
    let size = (number(s), number(s));
    let n = if s.once_in(6) { s.one_of(&BAD_N) } else { s.within(1, 3600) };
    // Seldom as long as the largest sizes need: it takes long.
    let mut lists = room_for(size, if s.once_in(300) { 200_000 } else { 60 });
    if s.once_in(2) {
        lists = lists.map(|places| room(s, places));
    }
    let places = room(s, 3);
    of_size(t, size, n, places, lists);
}

const LATE: [i64; 4] = [4_000_000_000_000_000_001, -4_000_000_000_000_000_001, i64::MAX, i64::MIN];

fn spoil_times(s: &mut Seeded, times: &mut [i64]) {
    if !times.is_empty() && s.once_in(8) {
        let at = s.index(times.len());
        times[at] = s.one_of(&LATE);
    }
}

/// Removes or adds an element once in a while.
fn resized<T: Clone + Default>(s: &mut Seeded, list: &mut Vec<T>) {
    if s.once_in(12) {
        match list.pop() {
            Some(_) if s.once_in(2) => {}
            Some(last) => list.extend([last, T::default()]),
            None => list.push(T::default()),
        }
    }
}

fn of_rows(s: &mut Seeded, t: &mut Tally) {
    let samples = if s.once_in(3000) { s.within(65_535, 65_538) as usize } else { s.index(20) };
    let mut mask = rows::mask(s, samples);
    let (mut times, mut severities) = (rows::times(s, samples), rows::severities(s, samples));
    resized(s, &mut mask);
    resized(s, &mut times);
    resized(s, &mut severities);
    spoil_times(s, &mut times);
    if s.once_in(8) && !mask.is_empty() {
        let at = s.index(mask.len());
        mask[at] = s.within(2, 255) as u8;
    }
    if s.once_in(6) {
        spoil(s, &mut severities, &[f64::NAN, f64::INFINITY, -0.0, -1.0, f64::NEG_INFINITY, -5e-324]);
    }
    let places = room(s, samples.div_ceil(2));
    let mut columns = [places; 6];
    if s.once_in(10) {
        columns[s.index(6)] += 1;
    }
    let shown =
        || if mask.len() > 1000 { format!("{} samples", mask.len()) } else { format!("{mask:?} {times:?} {severities:?} {columns:?}") };
    let columns_of = |c: &dyn Calls| c.violation_windows(&mask, &times, &severities, columns);
    t.same("violation windows", columns_of(&Library), columns_of(&Model), &shown);
    let columns_of = |c: &dyn Calls| c.visibility_windows(&mask, &times, columns);
    t.same("visibility windows", columns_of(&Library), columns_of(&Model), &shown);
    let records_of = |c: &dyn Calls| c.violation_records(&mask, &times, &severities, places);
    t.same("violation records", records_of(&Library), records_of(&Model), &shown);
    let records_of = |c: &dyn Calls| c.visibility_records(&mask, &times, places);
    t.same("visibility records", records_of(&Library), records_of(&Model), &shown);

    let (mut first, mut last) = rows::windows(s, &times, 6);
    if s.once_in(1500) {
        first.resize(65_537, 0);
        last.resize(65_537, 0);
    }
    first.iter_mut().chain(&mut last).for_each(|x| *x = (*x).clamp(-4_000_000_000_000_000_000, 4_000_000_000_000_000_000));
    resized(s, &mut first);
    resized(s, &mut last);
    spoil_times(s, &mut first);
    spoil_times(s, &mut last);
    let lent = room(s, times.len());
    let shown = || format!("{first:?} {last:?} {times:?} {lent}");
    t.same("expand", Library.expand(&first, &last, &times, lent), Model.expand(&first, &last, &times, lent), &shown);
    t.same("seconds", Library.seconds(&first, &last), Model.seconds(&first, &last), &shown);
}

fn main() {
    let factor: u64 = std::env::args().nth(1).map_or(1, |a| a.parse().expect("a whole number"));
    let mut s = Seeded::new(5);
    let mut t = Tally::default();
    of_ends(&mut t);
    of_tolerances(&mut t);
    of_directions(&mut t);
    of_many_directions(&mut t);
    of_tables(&mut t);
    of_sizes(&mut t);
    let (mut of_catalogue, mut of_cost) = (Seeded::new(6), Seeded::new(7));
    for _ in 0..60_000 * factor {
        of_positions(&mut of_catalogue, &mut t);
        of_random_size(&mut of_cost, &mut t);
        of_cells(&mut s, &mut t);
        of_plans(&mut s, &mut t);
        of_rows(&mut s, &mut t);
    }
    let mut asked = 0;
    let mut good = t.differ == 0;
    for (call, numbers) in &t.answers {
        asked += numbers.values().sum::<u64>();
        println!("{call:<27} {}", numbers.iter().map(|(n, k)| format!("{n}: {k}")).collect::<Vec<_>>().join("  "));
    }
    for (call, numbers) in LISTED {
        let given: BTreeSet<u8> = t.answers.get(call).into_iter().flat_map(|a| a.keys().copied()).collect();
        let listed = numbers.iter().copied().collect();
        if given != listed {
            println!("FAILED {call}: answers {given:?}, listed are {listed:?}");
            good = false;
        }
    }
    println!("refusals: {asked} answers, {} differ from the plain model's", t.differ);
    if !good {
        exit(1);
    }
}
