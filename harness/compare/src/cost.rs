//! Request Four. The original has no such call: what is compared with it is how often its sweep tries a roll. Both plans of every small
//! shape are swept by both sides, into a journal that is written to a file and read back; and the journal and the probes of every random plan are those
//! that follow from its size.
use crate::plans::{lines, Original};
use crate::tally::Tally;
use cases::Seeded;
use checks::{runs, Calls, Model};
use model::cost::{Extreme, Size};
use model::journal::{HEADER, LINE};
use model::{Answer, Plan};
use oracle::Oracle;
use std::io::Write;
use std::path::{Path, PathBuf};
use std::{env, fs, process};

/// Of a small shape; one without targets or times has up to so many of the other.
pub const MOST_CELLS: u64 = 130;
pub const SAMPLES: [u64; 4] = [1, 2, 7, 3600];
/// Without cells, the most targets and the most times; with them, beyond the original's own chunks of 65,536 cells, and the most.
pub const LARGE: [(u64, u64, u64); 5] = [(65_536, 0, 3600), (0, 65_536, 3600), (257, 256, 7), (65_536, 2, 2), (1024, 1024, 2)];

pub fn run(calls: &dyn Calls, t: &mut Tally) {
    let mut s = Seeded::new(7);
    let folder = Folder::new();
    for (targets, times) in (0..=MOST_CELLS).flat_map(|targets| (0..=MOST_CELLS).map(move |times| (targets, times))) {
        if targets * times <= MOST_CELLS {
            t.shapes += 1;
            for n in SAMPLES {
                one(calls, t, &mut s, Size { targets, times, n }, &folder.0);
            }
        }
    }
    for (targets, times, n) in LARGE {
        one(calls, t, &mut s, Size { targets, times, n }, &folder.0);
    }
}

/// For journals, until it is dropped.
struct Folder(PathBuf);

impl Folder {
    fn new() -> Folder {
        let path = env::temp_dir().join(format!("wilfnusk-cost-{}", process::id()));
        fs::create_dir(&path).expect("a folder for journals");
        Folder(path)
    }
}

impl Drop for Folder {
    fn drop(&mut self) {
        let _ = fs::remove_dir_all(&self.0);
    }
}

/// What is read from a file to which header and lines were appended one after the other.
fn read_back(folder: &Path, journal: &[u8]) -> Vec<u8> {
    let path = folder.join("journal");
    let mut file = fs::File::create_new(&path).expect("a new journal");
    let (header, lines) = journal.split_at(HEADER.min(journal.len()));
    for bytes in [header].into_iter().chain(lines.chunks(LINE)) {
        file.write_all(bytes).expect("written");
    }
    drop(file);
    let bytes = fs::read(&path).expect("a journal");
    fs::remove_file(&path).expect("removed");
    bytes
}

fn one(calls: &dyn Calls, t: &mut Tally, s: &mut Seeded, size: Size, folder: &Path) {
    let shown = || format!("{size:?}");
    let cost = calls.cost(size, 3 + s.index(3));
    t.held("cost, plain model", [("ours", cost), ("model", Model.cost(size, 3))], &shown);
    let Ok(cost) = cost else { return };
    for (extreme, foretold) in [(Extreme::Costliest, cost.most), (Extreme::Cheapest, cost.fewest)] {
        let shown = || format!("{extreme:?} {size:?}");
        let (written, tried, collected) = match extreme {
            Extreme::Costliest => ("costliest plan, plain model", "most probes, the original's", "most probes, collected"),
            Extreme::Cheapest => ("cheapest plan, plain model", "fewest probes, the original's", "fewest probes, collected"),
        };
        // Just long enough, or longer.
        let room = size.places().map(|places| places as usize + s.index(3));
        let plan = calls.extreme_plan(extreme, size, room);
        let lists = |plan: &Answer<Plan>| plan.as_ref().map(runs).map_err(|&number| number);
        t.held(written, [("ours", lists(&plan)), ("model", lists(&Model.extreme_plan(extreme, size, room)))], &shown);
        let Ok(plan) = plan else { continue };
        t.plans += 1;
        t.cells += plan.cells() as u64;
        let instants: Vec<i64> = (0..plan.times() as i64).collect();
        let swept = Original::new(&plan, &instants, None).says(t, "sweep", Oracle::sweep);
        let probes: u64 = swept.1.iter().sum();
        t.probes += probes;
        t.held(tried, [("foretold", foretold), ("original", probes)], &shown);
        // Work chunk by chunk would take a time that grows with the square of their number. A range without chunks is refused.
        let chunks = plan.cells().div_ceil(64) as u64;
        let range = (chunks > 0).then_some(0..chunks);
        match calls.ranged(&plan, range.as_slice()) {
            Ok((journal, mask, sum)) => {
                let due = lines(&swept).concat();
                t.mask("sweep", Ok(mask), swept.0, &shown);
                t.held(collected, [("foretold", foretold), ("collected", sum)], &shown);
                t.held("journal's length", [("foretold", cost.length), ("used", journal.len() as u64)], &shown);
                let file = read_back(folder, &journal);
                t.held("file's length", [("foretold", cost.length), ("on disk", file.len() as u64)], &shown);
                // Recovery looks at each byte of the header, but takes a line whose marks or count could be the plan's.
                t.held("file, recovered", [("foretold", Ok(cost.length)), ("kept", calls.recover(&plan, &file))], &shown);
                t.same("file's lines", Ok(file.get(HEADER..).unwrap_or_default().to_vec()), due, &shown);
                t.file_bytes += file.len() as u64;
            }
            Err(number) => {
                t.mask("sweep", Err(number), swept.0, &shown);
            }
        }
    }
}

/// A random plan's sweep: its journal has the length computed beforehand, and the original's probes lie from the fewest to the most.
pub fn of_sweep(calls: &dyn Calls, t: &mut Tally, p: &Plan, journal: &[u8], tried: u64) {
    let size = Size::of(p);
    let shown = || format!("{size:?} {p:?}");
    let cost = calls.cost(size, 3);
    t.held("cost, plain model", [("ours", cost), ("model", Model.cost(size, 3))], &shown);
    if let Ok(cost) = cost {
        t.held("length foretold by the size", [("foretold", cost.length), ("used", journal.len() as u64)], &shown);
        let ends = [cost.fewest, cost.most];
        t.held(
            "probes within those foretold",
            [("foretold", ends), ("with the original's", [ends[0].min(tried), ends[1].max(tried)])],
            &shown,
        );
        if ends[0] < ends[1] {
            t.reached[if tried == ends[0] { 0 } else { 1 + (tried == ends[1]) as usize }] += 1;
        }
    }
}
