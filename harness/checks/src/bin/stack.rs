//! How much stack each C name takes at its largest inputs, and that include/wilfnusk.h's promise holds: a thread with that much runs them all.
//! `stack [KIB]` takes KIB for the promise: with too little, the thread overflows its stack, which ends the program.
use cases::catalogue::positions;
use cases::plans::direction;
use checks::{lent, rolls, Lists};
use model::plan::{is_unit, Rolls};
use std::hint::black_box;
use std::process::exit;
use std::thread;
use wilfnusk::{Plan, PlanLists, Refusal, Roll, Window};

/// What a thread in Rust takes besides: its own data and start, and the frames of this program down to a call.
const RUST: usize = 8 << 10;
/// More than any call takes.
const PAINTED: usize = 1 << 20;
const PAINT: u64 = 0x5afe_57ac_c0de_d00d;

/// The number of KiB in the one sentence that promises the stack.
fn promised(text: &str) -> usize {
    let words: Vec<&str> = text.split_whitespace().filter(|w| !["*", "//!"].contains(w)).collect();
    let promises = words.windows(4).filter(|w| w[1..3] == ["KiB", "of"] && w[3].starts_with("stack"));
    let found: Vec<usize> = promises.map(|w| w[0].parse().expect("a number")).collect();
    assert_eq!(found.len(), 1, "one sentence promises the stack");
    found[0]
}

/// The largest lists that the calls take.
struct Inputs {
    ra: Vec<f64>,
    dec: Vec<f64>,
    targets: Vec<f64>,
    suns: Vec<f64>,
    observers: Vec<f64>,
    values: Vec<f64>,
    mask: Vec<u8>,
    journal: Vec<u8>,
    times: Vec<i64>,
    severities: Vec<f64>,
    columns: Lists,
    records: Vec<Window>,
}

const CELLS: usize = 1 << 20;
const SAMPLES: usize = 1 << 16;
const CHUNKS: u64 = 1 << 14;
const ROLLS: u64 = 3600;

impl Inputs {
    fn new() -> Inputs {
        let mut s = cases::Seeded::new(6);
        let targets: Vec<[f64; 3]> = (0..SAMPLES).map(|_| direction(&mut s)).collect();
        assert!(targets.iter().all(|&v| is_unit(v)), "targets of length 1");
        let (ra, dec) = positions(&mut s, SAMPLES);
        let mut numbers = |count: usize, size: f64| (0..3 * count).map(|_| s.between(-size, size)).collect::<Vec<f64>>();
        Inputs {
            ra,
            dec,
            targets: targets.concat(),
            suns: numbers(SAMPLES, 1.5e8),
            observers: numbers(SAMPLES, 7000.0),
            values: vec![0.0; CELLS],
            mask: vec![0; CELLS],
            journal: vec![0; (wilfnusk::HEADER_BYTES + CHUNKS * wilfnusk::LINE_BYTES) as usize],
            times: (0..SAMPLES as i64).collect(),
            severities: vec![1.0; SAMPLES],
            columns: Lists::new([SAMPLES; 6]),
            records: vec![Window::default(); SAMPLES],
        }
    }
}

/// Each C name at its largest sizes, through `run`.
fn each(i: &mut Inputs, run: &mut dyn FnMut(&'static str, &mut dyn FnMut())) {
    run("wilfnusk_sqrt", &mut || {
        for x in [2.0, 4.0, 5e-324, f64::MAX, -0.0, f64::NAN] {
            black_box(wilfnusk::sqrt(black_box(x)));
        }
    });
    run("wilfnusk_atan2", &mut || {
        for (y, z) in [(1.0, 3.0), (-3.0, -1.0), (5e-324, f64::MAX), (f64::NAN, 0.0)] {
            black_box(wilfnusk::atan2(black_box(y), black_box(z)));
        }
    });
    for (name, call) in [("wilfnusk_sin", wilfnusk::sin as fn(f64) -> f64), ("wilfnusk_cos", wilfnusk::cos)] {
        run(name, &mut || {
            for r in [0.7, -2.0, 3.5, 5.0, -6.2, 1e300, f64::NAN] {
                black_box(call(black_box(r)));
            }
        });
    }
    run("wilfnusk_circular_diff_deg", &mut || {
        for (a, b) in [(350.0, 10.0), (1e300, -7.0), (f64::NAN, 0.0)] {
            black_box(wilfnusk::circular_diff_deg(black_box(a), black_box(b)));
        }
    });
    run("wilfnusk_cell", &mut || {
        for (target, sun) in [([0.6, 0.0, 0.8], [3.0, 4.0, 5.0]), ([0.0, 0.0, 1.0], [3.0, 4.0, 5.0]), ([1.0, 0.0, 0.0], [7.0, 0.0, 0.0])] {
            black_box(wilfnusk::cell(target, sun, [0.0; 3], [0.1, 0.9, -0.3])).expect("accepted");
        }
    });
    run("wilfnusk_radec_to_unit_vectors_batch", &mut || {
        wilfnusk::radec_to_unit_vectors_batch(&i.ra, &i.dec, &mut i.values).expect("accepted");
    });
    of_sizes(&mut i.values, run);
    // The most targets, the most times, and the most times for which work_range holds the Sun's units in a table.
    for (rows, times, roll_deg) in [(65_536, 1, Some(33.0)), (16, 65_536, None), (119, 8784, None), (119, 8784, Some(33.0))] {
        let even = model::Plan {
            targets: i.targets[..3 * rows].to_vec(),
            suns: i.suns[..3 * times].to_vec(),
            observers: i.observers[..3 * times].to_vec(),
            tolerances: vec![170.0; rows],
            roll_deg,
            panels: vec![0.1, 0.9, -0.3],
            rolls: Rolls::Even(ROLLS),
        };
        of_plan(lent(&even), ROLLS, &mut i.values, &mut i.mask, run);
        let table = model::Plan { rolls: Rolls::Table(even.all_rolls()), ..even.clone() };
        of_journal(EVEN, &even, &mut i.mask, &mut i.journal, run);
        of_journal(TABLE, &table, &mut i.mask, &mut i.journal, run);
    }
    // The most windows, and one as long as the row.
    for step in [2, SAMPLES] {
        let mask: Vec<u8> = (0..SAMPLES).map(|k| (k % step == 0) as u8).collect();
        of_row(i, &mask, run);
    }
}

fn of_sizes(values: &mut [f64], run: &mut dyn FnMut(&'static str, &mut dyn FnMut())) {
    // Room for the most targets and the most times at once.
    let (target_numbers, values) = values.split_at_mut(3 * SAMPLES);
    let (suns, values) = values.split_at_mut(3 * SAMPLES);
    let (observers, values) = values.split_at_mut(3 * SAMPLES);
    let (tolerances, panel) = values.split_at_mut(SAMPLES);
    for (targets, times) in [(65_536, 16), (16, 65_536)] {
        run("wilfnusk_cost", &mut || assert_eq!(wilfnusk::cost(targets, times, ROLLS).map(|c| c.most_probes), Ok(ROLLS * CELLS as u64)));
        for (name, call) in [
            ("wilfnusk_costliest_plan", wilfnusk::costliest_plan as fn(u64, u64, u64, PlanLists) -> Result<(), Refusal>),
            ("wilfnusk_cheapest_plan", wilfnusk::cheapest_plan),
        ] {
            run(name, &mut || {
                call(targets, times, ROLLS, PlanLists { target_numbers, suns, observers, tolerances, panel }).expect("accepted");
            });
        }
    }
}

fn of_plan(plan: Plan, n: u64, values: &mut [f64], mask: &mut [u8], run: &mut dyn FnMut(&'static str, &mut dyn FnMut())) {
    run("wilfnusk_named_values", &mut || plan.named_values(values).expect("accepted"));
    run("wilfnusk_in_constraint_batch", &mut || plan.in_constraint_batch(mask).expect("accepted"));
    for roll in [Roll::Sweep(77.0), Roll::Fixed(77.0)] {
        run("wilfnusk_in_constraint_batch_at_roll", &mut || plan.in_constraint_batch_at_roll(roll, mask).expect("accepted"));
    }
    run("wilfnusk_constrained_at_every_roll", &mut || plan.constrained_at_every_roll(n, mask).expect("accepted"));
    run("wilfnusk_evaluate", &mut || plan.evaluate(0, mask, values).expect("accepted"));
    run("wilfnusk_field_of_regard_violated_batch", &mut || plan.field_of_regard_violated_batch(0, n, mask).expect("accepted"));
    run("wilfnusk_field_of_regard_violated_at_roll", &mut || plan.field_of_regard_violated_at_roll(0, 77.0, mask).expect("accepted"));
}

/// The C names of a journal: begin, work, work over a range, recover, collect.
type Names = [&'static str; 5];
const EVEN: Names = ["wilfnusk_begin", "wilfnusk_work", "wilfnusk_work_range", "wilfnusk_recover", "wilfnusk_collect"];
const TABLE: Names =
    ["wilfnusk_begin_rolls", "wilfnusk_work_rolls", "wilfnusk_work_range_rolls", "wilfnusk_recover_rolls", "wilfnusk_collect_rolls"];

/// A journal of all chunks but the last two in one range, those two by work and by a range of one, then all of it.
fn of_journal(names: Names, plan: &model::Plan, mask: &mut [u8], journal: &mut [u8], run: &mut dyn FnMut(&'static str, &mut dyn FnMut())) {
    let (chunks, rolls, plan) = (plan.cells().div_ceil(64) as u64, rolls(plan), lent(plan));
    let [begin, work, work_range, recover, collect] = names;
    let line = |k: u64| wilfnusk::HEADER_BYTES + k * wilfnusk::LINE_BYTES;
    run(begin, &mut || assert_eq!(plan.begin(rolls, journal, 0), Ok(line(0))));
    run(work_range, &mut || {
        assert_eq!(plan.work_range(rolls, 0..chunks - 2, journal, line(0)), Ok((line(chunks - 2), chunks - 2)));
    });
    run(work, &mut || assert_eq!(plan.work(rolls, chunks - 2, journal, line(chunks - 2)), Ok(line(chunks - 1))));
    run(work_range, &mut || {
        assert_eq!(plan.work_range(rolls, chunks - 1..u64::MAX, journal, line(chunks - 1)), Ok((line(chunks), chunks)));
    });
    run(recover, &mut || assert_eq!(plan.recover(rolls, journal, line(chunks)), Ok(line(chunks))));
    run(collect, &mut || assert!(plan.collect(rolls, journal, line(chunks), mask).is_ok()));
}

fn of_row(i: &mut Inputs, mask: &[u8], run: &mut dyn FnMut(&'static str, &mut dyn FnMut())) {
    let windows = mask.iter().filter(|&&b| b == 1).count() as u64;
    run("wilfnusk_violation_records", &mut || {
        assert_eq!(wilfnusk::violation_records(mask, &i.times, &i.severities, &mut i.records), Ok(windows));
    });
    run("wilfnusk_visibility_records", &mut || {
        wilfnusk::visibility_records(mask, &i.times, &mut i.records).expect("accepted");
    });
    let mut columns = |clear: bool| {
        let out = i.columns.lend();
        if clear {
            wilfnusk::visibility_windows(mask, &i.times, out).expect("accepted");
        } else {
            assert_eq!(wilfnusk::violation_windows(mask, &i.times, &i.severities, out), Ok(windows));
        }
    };
    run("wilfnusk_visibility_windows", &mut || columns(true));
    run("wilfnusk_violation_windows", &mut || columns(false));
    run("wilfnusk_expand", &mut || wilfnusk::expand(&i.columns.first_time, &i.columns.last_time, &i.times, &mut i.mask).expect("accepted"));
    run("wilfnusk_total_violation_duration", &mut || {
        wilfnusk::total_violation_duration(&i.columns.first_time, &i.columns.last_time).expect("accepted");
    });
}

/// This frame and a little below it, which is not painted: painting must not touch what it runs on.
const KEPT: usize = 1 << 10;

/// Paints the stack below this frame, calls, and gives how far down it is not paint any more: at least `KEPT`.
#[inline(never)]
fn taken(call: &mut dyn FnMut()) -> usize {
    let mut word = 0u64;
    let here = black_box(&mut word) as *mut u64 as usize & !7;
    for at in (here - PAINTED..here - KEPT).step_by(8) {
        // Below every frame in use, in a thread whose stack is larger than this.
        unsafe { (at as *mut u64).write_volatile(PAINT) };
    }
    call();
    let used = (here - PAINTED..here - KEPT).step_by(8).find(|&at| unsafe { (at as *const u64).read_volatile() } != PAINT);
    assert!(used != Some(here - PAINTED), "more stack than was painted");
    here - used.unwrap_or(here - KEPT)
}

/// Every C name that the header declares, in its order.
fn names(header: &str) -> Vec<&str> {
    let name = |line: &'_ str| {
        let start = line.find(" wilfnusk_")? + 1;
        let end = start + line[start..].find('(')?;
        (line.starts_with("double ") || line.starts_with("int64_t ")).then_some((start, end))
    };
    header.lines().filter_map(|line| name(line).map(|(a, b)| &line[a..b])).collect()
}

fn in_thread(stack: usize, work: impl FnOnce() + Send + 'static) {
    thread::Builder::new().stack_size(stack).spawn(work).expect("a thread").join().expect("every call is accepted");
}

/// Prints how much each name takes, and gives the most.
fn table(names: &[&str], inputs: &mut Inputs) -> usize {
    let mut most = vec![0; names.len()];
    each(inputs, &mut |name, call| {
        let k = names.iter().position(|n| *n == name).expect("a name of the header");
        most[k] = taken(call).max(most[k]);
    });
    for (name, bytes) in names.iter().zip(&most) {
        let shown = if *bytes == KEPT { "under 1 KiB".to_string() } else { format!("{bytes} bytes") };
        println!("{name:<42} {shown:>12}");
    }
    assert!(most.iter().all(|&bytes| bytes > 0), "every name of the header is called");
    most.into_iter().max().unwrap()
}

fn main() {
    let header = include_str!("../../../../include/wilfnusk.h");
    let said = promised(header);
    assert_eq!(said, promised(include_str!("../../../../bindings/rust/src/lib.rs")), "header and wrapper promise the same");
    let promise = std::env::args().nth(1).map_or(said, |a| a.parse().expect("KiB"));
    in_thread(PAINTED + (64 << 10), move || {
        let mut inputs = Inputs::new();
        let most = table(&names(header), &mut inputs);
        println!("stack: a call takes at most {} KiB, {promise} KiB are promised", most.div_ceil(1 << 10));
        // While this thread has its stack: the C library may hand the stack of one that ended to the next.
        in_thread((promise << 10) + RUST, move || each(&mut inputs, &mut |_, call| call()));
        println!("stack: a thread with {promise} KiB, and {} KiB for Rust, runs every call", RUST >> 10);
        if most > promise << 10 {
            exit(1);
        }
    });
}
