//! One plan split over machines: each sweeps its part, is killed and goes on, in any order; then the journals are merged.
use crate::{
    case::Case,
    cuts::{pause, whole},
    evidence::still_right,
    machine::{ended, program, Machine, WAYS},
    trace::{run_to, Stop},
    Tally,
};
use cases::Seeded;
use model::journal::{HEADER, LINE};
use std::{
    fs,
    path::Path,
    process::{Command, Stdio},
    time::Duration,
};

pub fn split(case: &Case, machines: usize, folder: &Path, seeded: &mut Seeded, tally: &mut Tally) {
    let _ = fs::remove_dir_all(folder);
    let mut all: Vec<_> = (0..machines).map(|k| Machine::new(case, &folder.join(format!("machine{}", k)))).collect();
    let part = |k: usize| format!("{}/{}", k + 1, machines);
    let mut going: Vec<_> = (0..machines).collect();
    while !going.is_empty() {
        let i = seeded.index(going.len());
        let (k, machine) = (going[i], &mut all[going[i]]);
        machine.way = WAYS[seeded.index(WAYS.len())];
        let mut command = machine.sweep_command(None);
        command.args(["--part", &part(k)]);
        if seeded.once_in(3) {
            let ended = ended(command.spawn().unwrap());
            assert_eq!(ended.status, 0, "{}", ended.stderr);
            going.remove(i);
        } else {
            let mut child = command.spawn().unwrap();
            std::thread::sleep(Duration::from_micros(seeded.below(4000)));
            let _ = child.kill();
            ended(child);
            tally.cut(machine, 1);
        }
    }
    merged(case, folder, &all, tally);
}

/// The same with GNU parallel as the engine that spreads the parts; its first runs are killed with all their processes.
pub fn with_parallel(case: &Case, machines: usize, folder: &Path, seeded: &mut Seeded, tally: &mut Tally) {
    let _ = fs::remove_dir_all(folder);
    let all: Vec<_> = (0..machines).map(|k| Machine::new(case, &folder.join(format!("machine{}", k)))).collect();
    for killed in [true, true, false] {
        let mut command = Command::new("timeout");
        let seconds = if killed { 0.15 + 0.1 * seeded.unit() } else { 600.0 };
        command.args(["-s", "KILL", &seconds.to_string(), "parallel", "--will-cite", "--jobs", "2"]);
        command.arg(format!("cd {{}} && {} sweep plan.toml --quiet --range 4 --wait --part {{#}}/{}", program().display(), machines));
        command.arg(":::").args(all.iter().map(|m| &m.folder));
        let run = command.stdin(Stdio::null()).stdout(Stdio::null()).stderr(Stdio::null()).status();
        let status = run.expect("timeout and GNU parallel");
        assert!(killed || status.success(), "parallel: {}", status);
        tally.cut(&all[0], killed as u64);
        pause();
    }
    merged(case, folder, &all, tally);
}

fn merged(case: &Case, folder: &Path, all: &[Machine], tally: &mut Tally) {
    let target = Machine::new(case, &folder.join("merged"));
    let journals: Vec<_> = all.iter().map(|m| m.path().display().to_string()).collect();
    let mut words = vec!["merge", "plan.toml", "-o", "plan.journal"];
    words.extend(journals.iter().map(String::as_str));
    let ended = target.run(&words);
    assert_eq!(ended.status, 0, "{}", ended.stderr);
    whole(&target, &target.sweep(None));
    assert!(target.windows_csv() == case.windows_csv(), "the windows are not those of one machine");

    // Once more, with the merged journal and a part of it: nothing is new.
    let words = ["merge", "plan.toml", "-o", "again.journal", "plan.journal", &journals[0]];
    assert_eq!(target.run(&words).status, 0);
    assert!(fs::read(target.folder.join("again.journal")).unwrap() == target.journal());
    let good = target.journal();
    let other = (0..case.chunks()).find_map(|line| still_right(&good, line)).expect("a mask of some cells");
    fs::write(target.folder.join("other.journal"), &other).unwrap();
    fs::copy(target.folder.join("plan.journal.plan"), target.folder.join("other.journal.plan")).unwrap();
    // Every line is worked out again, and the one that differs is named. Where the lines are trusted, two that differ are refused all the same.
    let words = ["merge", "plan.toml", "-o", "never.journal", "plan.journal", "other.journal"];
    let at = good.iter().zip(&other).position(|(a, b)| a != b).unwrap();
    let ended = target.run(&words);
    let says = format!("other.journal: {} lines worked out again, and 1 is not the same", case.chunks());
    let line = format!("\n  line {}, chunk ", (at - HEADER) / LINE + 2);
    assert!(ended.status == 1 && ended.stderr.contains(&says) && ended.stderr.contains(&line), "{}", ended.stderr);
    let ended = target.run(&[&words[..], &["--trust-journal"]].concat());
    assert!(ended.status == 3 && ended.stderr.contains("has two different lines"), "{}", ended.stderr);
    let ended = target.run(&["check", "plan.toml", "--recompute"]);
    let says = format!("plan.journal: {} lines worked out again: each is the same", case.chunks());
    let said = String::from_utf8(ended.stdout).unwrap();
    assert!(ended.status == 0 && said.contains(&says) && said.contains("plan.journal.plan is this plan's"), "{}{}", said, ended.stderr);
    assert!(!target.folder.join("never.journal").exists());
    tally.splits += 1;
}

/// The power fails on entry to each system call of a merge: the new journal is there whole or not at all, and this plan's digest stands beside it only
/// if the lines were worked out again or every part had one, though another stood there before.
pub fn every_call_of_merge(case: &Case, folder: &Path, tally: &mut Tally) {
    let machine = Machine::new(case, folder);
    let file = |name: &str| machine.folder.join(name);
    for part in ["1", "2"] {
        let journal = format!("part{}.journal", part);
        let ended = machine.run(&["sweep", "plan.toml", "--quiet", "--journal", &journal, "--part", &format!("{}/2", part)]);
        assert_eq!(ended.status, 0, "{}", ended.stderr);
    }
    let digest = fs::read_to_string(file("part1.journal.plan")).unwrap();
    // Another plan's digest: the first digit of the settings' is another.
    let at = digest.find("settings ").unwrap() + "settings ".len();
    let other = [&digest[..at], if &digest[at..=at] == "0" { "1" } else { "0" }, &digest[at + 1..]].concat();
    let whole = [&case.sweep.header[..], &case.sweep.lines.concat()].concat();
    for trusted in [false, true] {
        if trusted {
            fs::remove_file(file("part2.journal.plan")).unwrap();
        }
        for number in 1.. {
            let _ = fs::remove_file(file("all.journal"));
            fs::write(file("all.journal.plan"), if trusted { &digest } else { &other }).unwrap();
            let mut command = machine.command(&["merge", "plan.toml", "part1.journal", "part2.journal", "-o", "all.journal"]);
            command.args(Some("--trust-journal").filter(|_| trusted));
            let killed = run_to(&machine, command, Stop::Call(number), 0).killed;
            if file("all.journal").exists() {
                assert!(fs::read(file("all.journal")).unwrap() == whole, "a part of the merged journal");
                let beside = fs::read_to_string(file("all.journal.plan")).ok();
                assert!(beside.as_ref() == Some(&digest).filter(|_| !trusted), "a digest that speaks for other lines");
            } else {
                assert!(killed, "no merged journal");
            }
            tally.cut(&machine, killed as u64);
            if !killed {
                break;
            }
            tally.calls += 1;
        }
    }
}
