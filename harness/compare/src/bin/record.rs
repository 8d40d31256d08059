//! Writes a sample of the customer's Rust's answers for the program `replay`: one file per section of document 01, catalogue positions in a file of
//! their own, and sweeps over tables of rolls in another. The seeds are here, so every run writes the same files. At the repository's root, after
//! `harness/run`, which builds it:
//!
//!     build/cargo/release/record crates/replay/data
//!
//! A line is words of hexadecimal digits, the first its kind. A line of kind 0 gives a plan, a row of samples or positions. Each other line
//! asks about what was given last: two words of what is asked (0 where nothing is), then the Rust's answer up to the line's end. A float is
//! its bits (every NaN 7ff8000000000000), a time its 64 bits, a mask one word per sample.
//!
//! A line of kind 19, `TABLE`, has its table behind the answer, by these words:
//!
//! | word | |
//! |---|---|
//! | 0 | 19 |
//! | 1 | how many rolls the table has, 1 to 156: the header's n |
//! | 2 | the word at which they begin, 100 |
//! | 3 | probes |
//! | 4 up to 4 + cells | the mask |
//! | 4 + cells up to 100 | 7 each: what the program's words are past a line's last, and its mask of 96 bytes before a call |
//! | 100 up to 100 + rolls | the rolls' bits, in their order |
use cases::catalogue::{beside, positions};
use cases::plans::{self, for_roll, for_rolls, for_sweep, plan, roll, samples, Entries, Targets, SPREADS};
use cases::{rows, Seeded};
use model::arithmetic::bits;
use model::plan::{direction_refusals, Rolls};
use model::windows::Window;
use model::{Plan, Roll};
use oracle::patch::{self, without};
use oracle::Oracle;
use std::{env, fs, path::Path};

// A plan, of at most 8 targets and 24 times: how many numbers the targets have, and the Suns; the words at which the Suns begin, the observers and
// the tolerances; configured (0 or 1), roll, panel; targets, Suns, observers, tolerances.
// A row: samples, windows; the words at which the times begin, the severities, the windows' first times, their last times; mask, times,
// severities, first times, last times.
// Positions: how many, at most 12; the word at which the declinations begin; right ascensions, declinations.
const GIVEN: u64 = 0;
const DIFFERENCE: u64 = 1; // a, b: their difference
const CELL: u64 = 2; // target, time: 0 where Free, else 1 and the roll
const NAMED_VALUES: u64 = 3; // the values
const BATCH: u64 = 4; // mask
const AT_SWEEP: u64 = 5; // roll: mask
const AT_FIXED: u64 = 6; // roll: mask
const ROW: u64 = 7; // target: each sample's mark and severity
const SWEEP: u64 = 8; // n: probes, mask
const EVERY_ROLL: u64 = 9; // n: mask
const FIELD: u64 = 10; // time, n: mask of the targets
const FIELD_AT_ROLL: u64 = 11; // time, roll: mask of the targets
const VIOLATIONS: u64 = 12; // how many, each window's six words
const VISIBILITY: u64 = 13; // the same, of `MovingBodyResult`
const EXPAND: u64 = 14; // mask, at times that never fall
const EXPAND_REORDERED: u64 = 15; // mask, at other times
const RESULT: u64 = 16; // how many visibility windows of `ConstraintResult`, each one's first and last time
const SECONDS: u64 = 17; // the seconds
const VECTORS: u64 = 18; // x, y, z of each position
const TABLE: u64 = 19; // how many rolls, the word at which they begin: probes, mask; see above

/// The program's mask begins with word 4 and has 96 bytes.
const TABLE_BEGINS: usize = 100;
/// The program's `UNWRITTEN`.
const UNWRITTEN: u64 = 7;

#[derive(Default)]
struct File(String);

impl File {
    fn line(&mut self, words: &[u64]) {
        let words: Vec<String> = words.iter().map(|w| format!("{w:x}")).collect();
        self.0 += &words.join(" ");
        self.0.push('\n');
    }
    fn given(&mut self, words: &[&[u64]]) {
        self.line(&[&[GIVEN], words.concat().as_slice()].concat());
    }
    fn asked(&mut self, kind: u64, what: [u64; 2], answer: &[u64]) {
        self.line(&[&[kind], &what[..], answer].concat());
    }
}

fn floats(list: &[f64]) -> Vec<u64> {
    list.iter().map(|&x| bits(x)).collect()
}
fn times(list: &[i64]) -> Vec<u64> {
    list.iter().map(|&t| t as u64).collect()
}
fn mask(bytes: &[u8]) -> Vec<u64> {
    bytes.iter().map(|&b| b as u64).collect()
}
fn windows(list: &[Window]) -> Vec<u64> {
    let window = |w: &Window| [w.first as u64, w.last as u64, w.first_time as u64, w.last_time as u64, bits(w.severity), w.is_last as u64];
    std::iter::once(list.len() as u64).chain(list.iter().flat_map(window)).collect()
}

fn small(s: &mut Seeded) -> Plan {
    let (rows, times) = s.one_of(&[(1, 1), (1, 5), (3, 4), (2, 7), (5, 3), (4, 20)]);
    plan(s, Targets::Unit, rows, times)
}

fn oracle(p: &Plan) -> Oracle {
    Oracle::new(p, &(0..p.times() as i64).collect::<Vec<_>>())
}

fn given(f: &mut File, p: &Plan) -> Oracle {
    assert!(p.rows() <= 8 && p.times() <= 24 && p.tolerances.len() == p.rows(), "the program has room for it");
    assert!(direction_refusals(&p.targets).iter().all(|(holds, _)| !holds), "targets that are accepted");
    let (t, s) = (p.targets.len() as u64, p.suns.len() as u64);
    let roll = [p.roll_deg.is_some() as u64, bits(p.roll_deg.unwrap_or(0.0))];
    let lists = floats(&[&p.head_panel()[..], &p.targets, &p.suns, &p.observers, &p.tolerances].concat());
    let head = [t, s, 11 + t, 11 + t + s, 11 + t + 2 * s];
    f.given(&[&head, &roll, &lists]);
    oracle(p)
}

/// How many of a file's plans have several targets with equal tolerances, and with tolerances that differ: by the words, as the program reads them.
fn equal_and_differing(file: &File) -> [usize; 2] {
    let words = |line: &str| -> Vec<u64> { line.split(' ').map(|word| u64::from_str_radix(word, 16).expect("a number")).collect() };
    let plans: Vec<Vec<u64>> = file.0.lines().map(words).filter(|line| line[0] == GIVEN).collect();
    let equal = |line: &Vec<u64>| {
        let list = &line[line[5] as usize..];
        assert_eq!(list.len() as u64, line[1] / 3, "a tolerance a target");
        list.iter().all(|x| *x == list[0])
    };
    [true, false].map(|kind| plans.iter().filter(|line| line[1] > 3 && equal(line) == kind).count())
}

/// Panels, and Suns with the roll of target [1, 0, 0] before it is folded: some for each case of the folding.
const TURNS: [([f64; 3], &[([f64; 3], f64)]); 4] = [
    ([0.0, -1.0, 0.0], &[([-0.0, -1.0, -0.0], -360.0), ([0.0, -1.0, -4.0 * f64::EPSILON], -359.99999999999994)]),
    ([0.0, -1.0, -0.0], &[([0.0, -1.0, 0.0], 360.0)]),
    // The second is Free.
    ([0.0, 0.0, 1.0], &[([-0.0, -1.0, -0.0], -270.0), ([1.0, 0.0, 0.0], -90.0)]),
    (
        [0.0, 1.0, 0.0],
        &[
            ([0.0, 0.0, -1.0], -90.0),
            ([-0.0, -1.0, -0.0], -180.0),
            ([0.0, 1.0, -1e-16], -5.729577951308232e-15),
            // -2^-45, and the number below it.
            ([0.0, 1.0, -4.960524086056721e-16], -2.842170943040401e-14),
            ([0.0, 1.0, -4.960524086056722e-16], -2.8421709430404014e-14),
        ],
    ),
];

/// The plan with this panel, and with these Suns for its first target.
fn turned(p: &mut Plan, (panel, suns): ([f64; 3], &[([f64; 3], f64)])) {
    p.panels = panel.to_vec();
    p.targets[..3].copy_from_slice(&[1.0, 0.0, 0.0]);
    for (j, (sun, _)) in suns.iter().enumerate() {
        p.suns[3 * j..3 * j + 3].copy_from_slice(sun);
        p.observers[3 * j..3 * j + 3].fill(0.0);
    }
    let row = Plan { targets: p.targets[..3].to_vec(), tolerances: vec![0.0], ..p.clone() };
    let values = without(&patch::FOLD, || Oracle::new(&row, &vec![0; p.times()]).named_values());
    for ((_, roll), value) in suns.iter().zip(values) {
        assert_eq!(bits(value), bits(*roll), "before it is folded");
    }
}

/// Section 2: rolls, marks at one roll, a row.
fn rolls(f: &mut File, s: &mut Seeded, mut p: Plan) {
    p.roll_deg = if s.once_in(4) { None } else { Some(roll(s, &p)) };
    for_roll(s, &mut p, Entries::Either);
    let o = given(f, &p);
    let (not_free, values) = (o.not_free(), floats(&o.named_values()));
    for c in 0..p.cells() {
        let (i, j) = (c / p.times(), c % p.times());
        let answer: &[u64] = if not_free[c] == 1 { &[1, values[c]] } else { &[0] };
        f.asked(CELL, [i as u64, j as u64], answer);
    }
    f.asked(NAMED_VALUES, [0, 0], &values);
    f.asked(BATCH, [0, 0], &mask(&o.in_constraint_batch()));
    let (sweep, fixed, target) = (roll(s, &p), roll(s, &p), s.index(p.rows()));
    f.asked(AT_SWEEP, [bits(sweep), 0], &mask(&o.in_constraint_batch_at_roll(Roll::Sweep(sweep))));
    f.asked(AT_FIXED, [bits(fixed), 0], &mask(&o.in_constraint_batch_at_roll(Roll::Fixed(fixed))));
    let (marks, severities) = o.row(target);
    let samples: Vec<u64> = marks.iter().zip(&severities).flat_map(|(&m, &x)| [m as u64, bits(x)]).collect();
    f.asked(ROW, [target as u64, 0], &samples);
}

/// Section 3: sweeps.
fn sweeps(f: &mut File, s: &mut Seeded, mut p: Plan) {
    let n = samples(s);
    for_sweep(s, &mut p, n, Entries::Either);
    let (marks, tried) = given(f, &p).sweep();
    f.asked(SWEEP, [n, 0], &[&[tried.iter().sum()], mask(&marks).as_slice()].concat());
}

/// Section 6.
fn others(f: &mut File, s: &mut Seeded, mut p: Plan) {
    let n = if s.once_in(10) { 0 } else { samples(s) };
    for_sweep(s, &mut p, n.max(1), Entries::Either);
    let (o, time, at) = (given(f, &p), s.index(p.times()), roll(s, &p));
    f.asked(EVERY_ROLL, [n, 0], &mask(&o.constrained_at_every_roll(n)));
    f.asked(FIELD, [time as u64, n], &mask(&o.field_of_regard_violated_batch(time, n)));
    f.asked(FIELD_AT_ROLL, [time as u64, bits(at)], &mask(&o.field_of_regard_violated_at_roll(time, at)));
}

/// Records of one kind of plan, each by its own seed.
fn many(seed: u64, count: u64, mut record: impl FnMut(&mut File, &mut Seeded, Plan)) -> File {
    let mut f = File::default();
    for k in 0..count {
        let mut s = Seeded::new(seed * 1000 + k);
        let p = small(&mut s);
        record(&mut f, &mut s, p);
    }
    f
}

fn section_2() -> File {
    let mut turns = TURNS.into_iter();
    // Seed 12 makes more than the 65,535 bytes for which the program has room.
    let mut f = many(42, 30, |f, s, mut p| {
        if p.times() == 20 {
            turns.next().into_iter().for_each(|turn| turned(&mut p, turn));
        }
        rolls(f, s, p);
    });
    assert!(turns.next().is_none(), "every turn is recorded");
    let mut s = Seeded::new(12);
    let none = Plan::default();
    for _ in 0..100 {
        let (a, b) = (roll(&mut s, &none), roll(&mut s, &none));
        f.asked(DIFFERENCE, [bits(a), bits(b)], &floats(&[oracle::circular_diff_deg(a, b)]));
    }
    f
}

fn section_5() -> File {
    let (mut f, mut s) = (File::default(), Seeded::new(15));
    for k in 0..75u64 {
        // All masks of up to four samples, then longer ones.
        let m = match k {
            0..=30 => rows::mask_of(k + 1 - (1 << (k + 1).ilog2()), (k + 1).ilog2() as usize),
            _ => {
                let n = s.within(5, 40) as usize;
                rows::mask(&mut s, n)
            }
        };
        let (at, severities) = (rows::times(&mut s, m.len()), rows::severities(&mut s, m.len()));
        let (first, last) = rows::windows(&mut s, &at, 12);
        let (n, w) = (m.len() as u64, first.len() as u64);
        let head = [n, w, 7 + n, 7 + 2 * n, 7 + 3 * n, 7 + 3 * n + w];
        f.given(&[&head, &mask(&m), &times(&at), &floats(&severities), &times(&first), &times(&last)]);
        f.asked(VIOLATIONS, [0, 0], &windows(&oracle::violation_windows(&m, &severities, &at)));
        f.asked(VISIBILITY, [0, 0], &windows(&oracle::visibility_windows(&m, &at)));
        let kind = if at.windows(2).all(|pair| pair[0] <= pair[1]) { EXPAND } else { EXPAND_REORDERED };
        f.asked(kind, [0, 0], &mask(&oracle::expand(&first, &last, &at)));
        let ends = oracle::visibility_of_result(&first, &last, &at);
        let numbers: Vec<u64> = ends.iter().flat_map(|&(a, b)| [a as u64, b as u64]).collect();
        f.asked(RESULT, [0, 0], &[&[ends.len() as u64], numbers.as_slice()].concat());
        f.asked(SECONDS, [0, 0], &floats(&[oracle::seconds(&first, &last)]));
    }
    f
}

/// How many of the lines of `table` are of a plan with a configured roll, and how many of the others have another answer by as many even steps;
/// marked cells, and clear ones.
#[derive(Debug, Default)]
struct Told {
    configured: usize,
    other: usize,
    marked: usize,
    clear: usize,
}

/// Request Five: each plan is swept over two tables, its settings being drawn for the first.
fn table() -> File {
    // 12 lengths and 5 spreads: each of both comes together.
    let mut kinds = SPREADS.into_iter().cycle().zip([1, 2, 5, 24, 3, 1, 2, 5, 64, 24, 2, 156].into_iter().cycle());
    let mut told = Told::default();
    // Seed 19 makes too few plans with equal tolerances.
    let f = many(69, 30, |f, s, mut p| {
        let tables = [0, 1].map(|_| {
            let (spread, length) = kinds.next().expect("without end");
            plans::table(s, &p, spread, length)
        });
        for_rolls(s, &mut p, Rolls::Table(tables[0].clone()), Entries::Either);
        given(f, &p);
        for table in tables {
            p.rolls = Rolls::Table(table);
            let even = oracle(&p.stepped()).sweep();
            let (marks, tried) = oracle(&p).sweep();
            let mut answer = [&[tried.iter().sum()], mask(&marks).as_slice()].concat();
            // Behind the kind and two words of what is asked.
            answer.resize(TABLE_BEGINS - 3, UNWRITTEN);
            f.asked(TABLE, [p.n(), TABLE_BEGINS as u64], &[answer, floats(&p.all_rolls())].concat());
            let marked = marks.iter().filter(|&&mark| mark == 1).count();
            told.marked += marked;
            told.clear += marks.len() - marked;
            told.configured += p.roll_deg.is_some() as usize;
            told.other += (p.roll_deg.is_none() && (marks, tried) != even) as usize;
        }
    });
    println!("table: {told:?}");
    assert!(told.marked >= 150 && told.clear >= 150 && told.configured >= 5 && told.other >= 20, "sweeps of every kind");
    f
}

fn catalogue() -> File {
    let mut f = File::default();
    let mut asked = |list: &[(f64, f64)]| {
        let (ra, dec): (Vec<f64>, Vec<f64>) = list.iter().copied().unzip();
        let vectors: Vec<f64> = oracle::radec_to_unit_vectors_batch(&ra, &dec).iter().copied().collect();
        assert!(list.len() <= 12, "the program has room for it");
        f.given(&[&[ra.len() as u64, 3 + ra.len() as u64], &floats(&ra), &floats(&dec)]);
        f.asked(VECTORS, [0, 0], &floats(&vectors));
    };
    // Eighths of a turn and the numbers beside them, as far as they are accepted.
    let eighths = |low: i64, high: i64| (low..=high).flat_map(|k| [-1, 0, 1].map(|steps| beside(45.0 * k as f64, steps)));
    let ras: Vec<f64> = eighths(0, 8).filter(|ra| (0.0..=360.0).contains(ra)).collect();
    let decs: Vec<f64> = eighths(-2, 2).filter(|dec| (-90.0..=90.0).contains(dec)).collect();
    let mut list: Vec<(f64, f64)> = ras.iter().map(|&ra| (ra, 0.0)).collect();
    list.extend(decs.iter().map(|&dec| (0.0, dec)));
    list.extend(ras.iter().zip(decs.iter().cycle()).map(|(&ra, &dec)| (ra, dec)));
    // 28 and 29 of the smallest steps: 0 and not 0 in radians.
    for x in [5e-324, 28.0 * 5e-324, 29.0 * 5e-324, 1e-310, f64::MIN_POSITIVE] {
        list.extend([(x, x), (x, -x)]);
    }
    list.chunks(12).for_each(&mut asked);
    asked(&[(-0.0, -0.0), (-0.0, 90.0), (360.0, -90.0), (359.0, 89.0), (1.0, -1.0), (30.0, 60.0), (200.0, -45.0), (300.0, 10.0)]);
    asked(&[]);
    let mut s = Seeded::new(18);
    for count in 1..=12 {
        let (ra, dec) = positions(&mut s, count);
        asked(&ra.into_iter().zip(dec).collect::<Vec<_>>());
    }
    f
}

fn main() {
    let folder = env::args().nth(1).expect("record FOLDER");
    let plans = [
        ("section-2", section_2()),
        // Seed 13 makes too many bytes too.
        ("section-3", many(43, 80, sweeps)),
        ("section-6", many(16, 50, others)),
        ("table", table()),
    ];
    for (name, file) in &plans {
        let [equal, differing] = equal_and_differing(file);
        println!("{name}: {equal} plans of several targets with equal tolerances, {differing} with tolerances that differ");
        assert!(equal >= 5 && differing >= 5, "tolerances of both kinds");
    }
    for (name, file) in plans.into_iter().chain([("section-5", section_5()), ("catalogue", catalogue())]) {
        let longest = file.0.lines().map(|l| l.split(' ').count()).max().unwrap();
        println!("{name}: {} lines, {} bytes, at most {longest} words", file.0.lines().count(), file.0.len());
        assert!(longest <= 256 && file.0.len() < 65_536, "the program has room for it");
        fs::write(Path::new(&folder).join(name), file.0).expect("the folder can be written");
    }
}
