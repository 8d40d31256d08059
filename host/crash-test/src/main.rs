//! Cuts the power of `wilfnusk sweep` on purpose, and often, and compares what is left with document 01's ledger. Sweeps run on 1, 2 and 5 threads.
//!
//! `crash-test [SECONDS]`: every byte and every system call of small sweeps, damage and trouble always; random moments and splits for
//! as many seconds. `crash-test --without-syncs` lets the syncs of every traced run do nothing, and must fail. What a journal, a mask and a window
//! must be comes from the model of documents 01 and 02, never from the program itself.
mod case;
mod cuts;
mod damage;
mod evidence;
mod machine;
mod split;
mod syncs;
mod trace;
mod trouble;

use case::{Case, Given};
use cases::Seeded;
use machine::{Machine, WAYS};
use std::{
    env, fs,
    path::{Path, PathBuf},
    process,
    sync::atomic::Ordering,
    time::{Duration, Instant},
};

/// What was done.
#[derive(Default)]
pub struct Tally {
    /// Power cuts.
    pub cuts: u64,
    /// Those of plans whose targets are right ascensions and declinations.
    pub catalogue: u64,
    /// Those of plans whose targets have tolerances of their own.
    pub by_target: u64,
    /// Those of plans over a table of rolls.
    pub by_table: u64,
    /// Bytes of journals at which it was cut.
    pub bytes: u64,
    /// System calls at which it was cut.
    pub calls: u64,
    /// Cuts that took bytes which were written and not synced.
    pub unsynced: u64,
    /// The most cuts in a row on one journal.
    pub longest: u64,
    /// Sweeps that were split over machines and merged.
    pub splits: u64,
    /// Damaged journals, and how many of them were refused.
    pub damaged: u64,
    pub refused: u64,
}

impl Tally {
    /// So many cuts of a machine, or of several with the same plan.
    pub fn cut(&mut self, machine: &Machine, cuts: u64) {
        self.cuts += cuts;
        self.catalogue += cuts * u64::from(machine.is_catalogue());
        self.by_target += cuts * u64::from(machine.case.has_tolerances());
        self.by_table += cuts * u64::from(machine.case.has_table());
    }
}

fn main() {
    let words: Vec<_> = env::args().skip(1).collect();
    let seconds = match words.iter().map(String::as_str).collect::<Vec<_>>()[..] {
        [] => Ok(20),
        ["--without-syncs"] => {
            trace::WITHOUT_SYNCS.store(true, Ordering::Relaxed);
            Ok(0)
        }
        [text] => text.parse(),
        _ => "".parse(),
    };
    let seconds: u64 = seconds.unwrap_or_else(|_| {
        eprintln!("usage: crash-test [SECONDS | --without-syncs]");
        process::exit(2);
    });
    let seed = env::var("SEED").ok().and_then(|text| text.parse().ok()).unwrap_or(1);
    // Memory, if there is a folder for it: a cut is the kernel's doing and the same there, and syncing costs nothing.
    let memory = Path::new("/dev/shm");
    let base = if memory.is_dir() { memory.to_owned() } else { env::temp_dir() };
    let folder = base.join(format!("wilfnusk-crash-test-{}", process::id()));
    println!("cutting the power of {} in {} (seed {})", machine::program().display(), folder.display(), seed);
    let tally = run(&folder, seconds, seed);
    fs::remove_dir_all(&folder).unwrap();
    println!(
        "{} power cuts ({} of them took bytes that were not synced, {} were on targets by right ascension and declination, {} on tolerances by \
         target, {} on a table of rolls), up to {} in a row on one journal, {} split sweeps, {} damaged journals ({} refused, the rest still \
         right): nothing was lost",
        tally.cuts + tally.unsynced,
        tally.unsynced,
        tally.catalogue,
        tally.by_target,
        tally.by_table,
        tally.longest,
        tally.splits,
        tally.damaged,
        tally.refused
    );
}

fn run(folder: &Path, seconds: u64, seed: u64) -> Tally {
    let mut tally = Tally::default();
    let mut seeded = Seeded::new(seed);
    let at = |name: &str| -> PathBuf { folder.join(name) };
    let begun = Instant::now();
    let done = |what: String| println!("{:7.1} s  {}", begun.elapsed().as_secs_f64(), what);

    let example = Case::example();
    let four = Case::drawn("3 targets, 70 times, 8 rolls", 2, 3, 70, 8, 15.0, None);
    let fixed = Case::drawn("2 targets, 50 times, a configured roll", 3, 2, 50, 3, 30.0, Some(-40.5));
    let none = Case::drawn("no targets", 4, 0, 5, 360, f64::NAN, None);
    let catalogue = Case::drawn("3 targets by ra and dec, 21 times, 24 rolls", 7, 3, 21, 24, 5.0, None).of_catalogue(5);
    // The first chunk has cells of all six targets, and the second the last of them.
    let list = Case::drawn("6 targets, a list of tolerances, 11 times, 8 rolls", 8, 6, 11, 8, 15.0, None)
        .with_tolerances(Given::List, &[15.0, 3.0, f64::NAN, -1.0, 21.0, 9.0]);
    let column = Case::drawn("4 targets by ra and dec, a column of tolerances, 19 times, a configured roll", 9, 4, 19, 5, 30.0, Some(20.5))
        .of_catalogue(6)
        .with_tolerances(Given::Column, &[30.0, -1.0, f64::INFINITY, 75.0]);
    let table = Case::drawn("5 targets, 14 times, a table of 7 rolls", 10, 5, 14, 7, 12.0, None)
        .over(&[0.0, 15.5, 47.0, 90.0, 200.125, 240.0, 305.25]);
    let mut ways = WAYS.into_iter().cycle();
    for case in [&example, &four, &fixed, &none, &catalogue, &list, &column, &table] {
        let chunks = case.chunks();
        let mut orders = vec![(0..chunks).collect::<Vec<_>>()];
        if chunks > 1 {
            orders.push((0..chunks).rev().collect());
        }
        if chunks > 2 {
            orders.push(cuts::shuffled(&mut seeded, chunks));
        }
        let orders: Vec<_> = orders.into_iter().zip(&mut ways).collect();
        let (writes, syncs) = syncs::watched(case, &orders, &syncs::LEFT, &at("watched"));
        done(format!("watched: {}, {} writes, {} syncs", case.name, writes, syncs));
        let before = tally.cuts;
        for (order, way) in &orders {
            cuts::every_byte(case, order, *way, &at("bytes"), &mut tally);
        }
        let jobs: Vec<_> = orders.iter().map(|(_, way)| way.jobs.to_string()).collect();
        done(format!(
            "every byte: {}, orders of chunks: {}, jobs: {}, cuts: {}",
            case.name,
            orders.len(),
            jobs.join(" "),
            tally.cuts - before
        ));
    }
    assert!(tally.catalogue > 0, "no plan by right ascension and declination was cut");
    assert!(tally.by_target > 0, "no plan with a tolerance for each target was cut");
    assert!(tally.by_table > 0, "no plan over a table of rolls was cut");
    let missed: u64 = [WAYS[0], WAYS[2]].into_iter().map(|way| syncs::missed(&four, way, &at("missed"))).sum();
    done(format!("a sync that is missing: {} of {} reported", missed, missed));
    cuts::every_byte_of_the_digest(&example, &at("digest"), &mut tally);
    done("every byte of the digest".into());
    cuts::every_call(&fixed, &[WAYS[0], WAYS[4], WAYS[2]], &at("calls"), &mut seeded, &mut tally);
    done(format!(
        "every system call with 1, 2 and 5 jobs: {} of them; {} cuts took bytes that were not synced",
        tally.calls, tally.unsynced
    ));
    let before = tally.calls;
    cuts::every_call_over_an_old_digest(&fixed, &at("old"), &mut tally);
    done(format!("every system call over an earlier program's digest: {} of them", tally.calls - before));
    let before = tally.calls;
    split::every_call_of_merge(&four, &at("merge"), &mut tally);
    done(format!("every system call of a merge: {} of them", tally.calls - before));
    damage::all(&four, &at("damage"), &mut seeded, &mut tally);
    done(format!("damage, and tails of zero bytes: {} journals", tally.damaged));
    let others = Case::drawn("other targets and Suns", 12, 3, 70, 8, 15.0, None);
    let refused = evidence::all(&four, &others, &at("evidence"));
    done(format!("lines that are right and not the plan's: {} journals, each refused", refused));
    for what in trouble::all(&four, &at("trouble")) {
        done(what);
    }
    for (case, file, key, what) in [
        (&list, "plan.toml", "tolerance = ", "tolerance of the last target"),
        (&column, "targets.csv", "", "tolerance of the last target"),
        (&table, "plan.toml", "rolls = ", "last roll of the table"),
    ] {
        trouble::edited_last(case, file, key, &at("trouble"));
        done(format!("an edited {} in {}", what, file));
    }

    let large = Case::drawn("40 targets, 1,000 times, 3,600 rolls", 5, 40, 1000, 3600, 0.03, None);
    let (writes, syncs) = syncs::watched(&large, &[((0..large.chunks()).collect(), WAYS[1])], &[None], &at("watched"));
    done(format!("watched: {}, {} writes, {} syncs", large.name, writes, syncs));
    let until = Instant::now() + Duration::from_secs(seconds);
    let half = Instant::now() + Duration::from_secs(seconds) / 2;
    let before = tally.cuts;
    cuts::any_moment(&large, &at("moments"), &mut seeded, half, &mut tally);
    done(format!("any moment: {}: {} cuts on one journal", large.name, tally.cuts - before));
    let middle = Case::drawn("9 targets, a list of tolerances, 200 times, 90 rolls", 6, 9, 200, 90, 1.7, None)
        .with_tolerances(Given::List, &[1.7, 0.4, 1.2]);
    let squares: Vec<_> = (0..90).map(|k| f64::from(k * k) / 22.5).collect();
    let uneven = Case::drawn("7 targets, 250 times, a table of 90 rolls", 11, 7, 250, 90, 1.7, None).over(&squares);
    loop {
        for (case, machines) in [(&middle, 2), (&middle, 5), (&uneven, 2), (&uneven, 5)] {
            split::split(case, machines, &at("split"), &mut seeded, &mut tally);
            split::with_parallel(case, machines, &at("parallel"), &mut seeded, &mut tally);
        }
        cuts::any_moment(&middle, &at("moments"), &mut seeded, until, &mut tally);
        if Instant::now() >= until {
            break;
        }
    }
    done(format!("split over two and five machines: {} sweeps, merged", tally.splits));
    tally
}
