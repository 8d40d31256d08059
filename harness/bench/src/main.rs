//! The library and the customer's Rust timed in one process, on the same inputs.
//!
//! `bench [--quick] [--strict] [--only TEXT]`: a table of the least times of several rounds, the two sides taken in turns. `--quick` sweeps
//! fewer targets where n is 3,600. `--strict`: exit status 1 if a limit is not met.
//!
//! `bench --case NAME --side port|original [--targets COUNT]`: one run of one side, for counting instructions: those of `bench_measured`.
mod case;
mod catalogue;
mod clock;
mod floats;
mod inputs;
mod journals;
mod rows;
mod sweeps;

use case::{Case, Limit, Side};
use catalogue::Original::{Batch, Libm, Single};
use rows::Listing::{Violation, Visibility};
use std::collections::HashMap;
use std::hint::black_box;
use std::process::exit;

const TIMES: usize = 1000;
const ROW: rows::Shape = (1000, TIMES);
/// The longest row that is accepted.
const LONG_ROW: rows::Shape = (1, 65_536);

/// A case's name, and how it is made of the number of targets.
type Entry = (&'static str, fn(&'static str, usize) -> Case);

const PER_PROBE: Limit = Limit::Ratio(0.4);
const PER_CELL: Limit = Limit::Aim(1.2, 0.8);
const ENTRIES: &[Entry] = &[
    ("sweep-72-10", |name, t| sweeps::sweep_case(name, (t, TIMES), 72, 10.0, PER_PROBE)),
    ("sweep-72-0.01", |name, t| sweeps::sweep_case(name, (t, TIMES), 72, 0.01, PER_PROBE)),
    ("sweep-72-180", |name, t| sweeps::sweep_case(name, (t, TIMES), 72, 180.0, PER_CELL)),
    ("sweep-3600-10", |name, t| sweeps::sweep_case(name, (t, TIMES), 3600, 10.0, PER_PROBE)),
    ("sweep-3600-0.01", |name, t| sweeps::sweep_case(name, (t, TIMES), 3600, 0.01, PER_PROBE)),
    ("sweep-3600-180", |name, t| sweeps::sweep_case(name, (t, TIMES), 3600, 180.0, PER_CELL)),
    ("sweep-1-10", |name, t| sweeps::sweep_case(name, (t, TIMES), 1, 10.0, PER_CELL)),
    ("sweep-1-90", |name, t| sweeps::sweep_case(name, (t, TIMES), 1, 90.0, PER_CELL)),
    ("sweep-table-72", |name, t| sweeps::table_case(name, (t, TIMES), 72, 10.0, Limit::Ratio(1.05))),
    ("named", |name, t| sweeps::named_case(name, (t, TIMES), true, PER_CELL)),
    ("named-libm", |name, t| sweeps::named_case(name, (t, TIMES), false, Limit::None)),
    ("mask", |name, t| sweeps::mask_case(name, (t, TIMES), 90.0, PER_CELL)),
    ("root", |name, _| floats::root_case(name, false, Limit::Ratio(5.0))),
    ("root-chained", |name, _| floats::root_case(name, true, Limit::Ratio(5.0))),
    ("root-subnormal", |name, _| floats::subnormal_case(name, Limit::None)),
    ("arctangent", |name, _| floats::angle_case(name, false, Limit::Ratio(4.0))),
    ("arctangent-chained", |name, _| floats::angle_case(name, true, Limit::Ratio(4.0))),
    ("sine", |name, _| floats::turn_case(name, Limit::None)),
    ("cosine", |name, _| floats::turn_case(name, Limit::None)),
    ("catalogue", |name, _| catalogue::vectors_case(name, Batch, Limit::Ratio(1.0))),
    ("catalogue-single", |name, _| catalogue::vectors_case(name, Single, Limit::None)),
    ("catalogue-libm", |name, _| catalogue::vectors_case(name, Libm, Limit::None)),
    ("begin", |name, _| journals::begin_case(name, Limit::None)),
    ("right-check", |name, _| journals::right_check_case(name, true, Limit::Rate(1.0))),
    ("right-check-shuffled", |name, _| journals::right_check_case(name, false, Limit::Rate(1.0))),
    ("collect", |name, _| journals::collect_case(name, false, Limit::Ratio(3.0))),
    ("collect-vectors", |name, _| journals::collect_case(name, true, Limit::None)),
    ("violation-clear", |name, _| rows::windows_case(name, ROW, Violation, "clear", &[0], Limit::Rate(1.0))),
    ("violation-alternating", |name, _| {
        rows::windows_case(name, ROW, Violation, "alternating", &[0, 1], Limit::Times(3.0, "violation-clear"))
    }),
    ("visibility-marked", |name, _| rows::windows_case(name, ROW, Visibility, "all marked", &[1], Limit::Rate(1.0))),
    ("visibility-alternating", |name, _| {
        rows::windows_case(name, ROW, Visibility, "two and two", &[0, 0, 1, 1], Limit::Times(3.0, "visibility-marked"))
    }),
    ("long-violation-clear", |name, _| rows::windows_case(name, LONG_ROW, Violation, "clear", &[0], Limit::Rate(1.0))),
    ("long-violation-alternating", |name, _| rows::windows_case(name, LONG_ROW, Violation, "alternating", &[0, 1], Limit::None)),
    ("chunks-1024", |name, _| sweeps::chunks_case(name, 64, Limit::None)),
    ("chunks-4096", |name, _| sweeps::chunks_case(name, 256, Limit::Times(1.2, "chunks-1024"))),
    ("chunks-16384", |name, _| sweeps::chunks_case(name, 1024, Limit::Times(1.2, "chunks-1024"))),
];

/// Callgrind collects inside of it: so its call must not be its last act, which would be a jump.
#[no_mangle]
#[inline(never)]
extern "C" fn bench_measured(side: &mut Box<dyn Side>) {
    side.run();
    black_box(());
}

/// A unit's time; a byte's as bytes per second.
fn shown(unit: &str, seconds: f64) -> String {
    let ns = seconds * 1e9;
    match unit {
        "byte" => format!("{:.2} GB/s", 1.0 / ns),
        _ if ns < 10.0 => format!("{ns:.2} ns"),
        _ if ns < 1000.0 => format!("{ns:.1} ns"),
        _ => format!("{:.1} µs", ns / 1000.0),
    }
}

/// A row of the table, and whether the limit is met. `before`: title and time of a unit, on the library's side, of each case so far.
fn row(case: &mut Case, before: &mut HashMap<&'static str, (String, f64)>) -> (String, bool) {
    let mut other = case.other.take();
    let mut port = || case.port.run();
    let (ours, theirs) = match &mut other {
        Some(other) => {
            let [ours, theirs] = clock::least([&mut port, &mut || other.run()], 4.0);
            (ours, Some(theirs))
        }
        None => (clock::least([&mut port], 1.0)[0], None),
    };
    let (units, answer) = (case.port.units(), case.port.answer());
    if let Some(other) = &other {
        assert_eq!(units, other.units(), "{}: different work", case.name);
        assert!(answer == other.answer(), "{}: different answers", case.name);
    }
    let (ours, theirs) = (ours / units as f64, theirs.map(|t| t / units as f64));
    let ratio = theirs.map(|t| ours / t);
    before.insert(case.name, (case.title.clone(), ours));
    let (limit, met) = match case.limit {
        Limit::Ratio(most) => (format!("{most}"), ratio.map(|r| r <= most)),
        Limit::Aim(most, aim) => (format!("{most}, aim {aim}"), ratio.map(|r| r <= most)),
        Limit::Rate(least) => (format!("at least {least} GB/s"), Some(1e-9 / ours >= least)),
        Limit::Times(most, name) => match before.get(name) {
            Some((title, time)) => (format!("{most} times {title}: is {:.2}", ours / time), Some(ours / time <= most)),
            None => (format!("{most} times {name}"), None),
        },
        Limit::None => (String::new(), None),
    };
    let share = || 100.0 * answer.iter().filter(|&&b| b == 1).count() as f64 / answer.len() as f64;
    let line = [
        case.title.clone(),
        if case.mask { format!("{:.1} %", share()) } else { String::new() },
        case.unit.into(),
        shown(case.unit, ours),
        theirs.map_or(String::new(), |t| shown(case.unit, t)),
        ratio.map_or(String::new(), |r| format!("{r:.2}")),
        limit,
        met.map_or("", |met| if met { "yes" } else { "NO" }).into(),
    ];
    (format!("| {} |", line.join(" | ")), met != Some(false))
}

fn usage() -> ! {
    eprintln!("bench [--quick] [--strict] [--only TEXT], or bench --case NAME --side port|original [--targets COUNT]");
    eprintln!("cases: {}", ENTRIES.iter().map(|e| e.0).collect::<Vec<_>>().join(" "));
    exit(2)
}

fn once(name: &str, port: bool, targets: usize) {
    let Some(&(name, make)) = ENTRIES.iter().find(|e| e.0 == name) else { usage() };
    let case = make(name, targets);
    let Some(mut side) = (if port { Some(case.port) } else { case.other }) else { return println!("{name}: no such side") };
    bench_measured(&mut side);
    println!("{name}: {} {}s", side.units(), case.unit);
}

fn main() {
    let (mut quick, mut strict, mut only, mut name, mut port, mut targets) = (false, false, String::new(), None, None, 1000);
    let mut arguments = std::env::args().skip(1);
    while let Some(a) = arguments.next() {
        let mut value = || arguments.next().unwrap_or_else(|| usage());
        match a.as_str() {
            "--quick" => quick = true,
            "--strict" => strict = true,
            "--only" => only = value(),
            "--case" => name = Some(value()),
            "--side" => port = Some(value() == "port"),
            "--targets" => targets = value().parse().unwrap_or_else(|_| usage()),
            _ => usage(),
        }
    }
    if let (Some(name), Some(port)) = (&name, port) {
        return once(name, port, targets);
    }
    println!("| | marked | per | this library | compared with | ratio | limit | met |");
    println!("|---|---|---|---|---|---|---|---|");
    let mut before = HashMap::new();
    let mut met = true;
    for &(name, make) in ENTRIES.iter().filter(|e| e.0.contains(&only)) {
        let targets = if quick && name.starts_with("sweep-3600") && !name.ends_with("180") { targets / 20 } else { targets };
        let (line, within) = row(&mut make(name, targets), &mut before);
        println!("{line}");
        met &= within;
    }
    if strict && !met {
        exit(1);
    }
}
