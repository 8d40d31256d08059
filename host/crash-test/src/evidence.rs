//! Evidence: lines that document 01 calls right and that are not what the plan gives. Every command that lists them, merges them or goes on names the
//! first of them, and writes nothing.
use crate::{case::Case, cuts::whole, machine::Machine};
use model::journal::{HEADER, LINE};
use std::{collections::BTreeMap, fs, path::Path};

/// The journals of two plans with the same header, each in the other's place, and one with a changed digit in each line. How many were refused.
pub fn all(case: &Case, other: &Case, folder: &Path) -> u64 {
    assert!(
        case.sweep.header == other.sweep.header && case.sweep.lines != other.sweep.lines,
        "two plans that a header does not tell apart"
    );
    let machines = [Machine::new(case, &folder.join("a")), Machine::new(other, &folder.join("b"))];
    for machine in &machines {
        whole(machine, &machine.sweep(None));
    }
    let [own, others] = [machines[0].journal(), machines[1].journal()];
    // The other plan's journal, whole and in part, beside this plan's J.plan; then both journals swapped.
    let part = &others[..others.len() - LINE];
    let swapped = [(&machines[0], &others[..]), (&machines[0], part), (&machines[1], &own[..])];
    let digits = (0..case.chunks()).filter_map(|line| still_right(&own, line));
    let digits: Vec<_> = digits.map(|journal| (&machines[0], journal)).collect();
    assert!(!digits.is_empty());
    for (machine, journal) in swapped.into_iter().chain(digits.iter().map(|(machine, journal)| (*machine, &journal[..]))) {
        refused(machine, journal);
    }
    for (machine, journal) in machines.iter().zip([own, others]) {
        fs::write(machine.path(), journal).unwrap();
        whole(machine, &machine.sweep(None));
    }
    3 + digits.len() as u64
}

fn refused(machine: &Machine, journal: &[u8]) {
    let sweep = &machine.case.sweep;
    assert!(sweep.right(journal), "a journal that is not right by document 01");
    let lines = journal[HEADER..].chunks_exact(LINE).enumerate();
    let differ = lines.map(|(i, line)| (i, line, &sweep.lines[i])).find(|(_, line, due)| line != due);
    let number = differ.expect("a line that is not the plan's").0;
    let name = format!("\n  line {}, chunk {}: ", number + 2, number);
    fs::write(machine.path(), journal).unwrap();
    let before = files(&machine.folder);
    for words in [
        &["windows", "plan.toml"][..],
        &["windows", "plan.toml", "--csv", "w.csv"],
        &["mask", "plan.toml"],
        &["sweep", "plan.toml", "--csv", "w.csv"],
        &["merge", "plan.toml", "plan.journal", "-o", "all.journal"],
    ] {
        let ended = machine.run(words);
        // Of an unfinished sweep nothing is listed anyway.
        if journal.len() < HEADER + LINE * machine.case.chunks() && ["windows", "mask"].contains(&words[0]) {
            assert_eq!(ended.status, 4, "{:?}: {}", words, ended.stderr);
        } else {
            let named =
                ended.stderr.contains("plan.journal: ") && ended.stderr.contains("worked out again") && ended.stderr.contains(&name);
            assert!(ended.status == 1 && named, "{:?}: status {}, and not `{}` in {}", words, ended.status, name, ended.stderr);
        }
        assert!(ended.stdout.is_empty() && files(&machine.folder) == before, "{:?} listed or wrote something", words);
    }
}

/// The files of a folder and their bytes.
fn files(folder: &Path) -> BTreeMap<String, Vec<u8>> {
    let entries = fs::read_dir(folder).unwrap().map(|entry| entry.unwrap());
    entries.map(|entry| (entry.file_name().into_string().unwrap(), fs::read(entry.path()).unwrap_or_default())).collect()
}

/// The journal with one line, counted from 0, changed so that it is still right: as many of its cells are marked. None if all or none of them are.
pub fn still_right(journal: &[u8], line: usize) -> Option<Vec<u8>> {
    let mut journal = journal.to_vec();
    let digit = |at: usize| char::from(journal[at]).to_digit(16).unwrap();
    let mask = HEADER + line * LINE + 8..HEADER + line * LINE + 24;
    // The last chunk may have fewer than 64 cells, which are the low digits.
    let at = mask.rev().find(|&at| ![0, 15].contains(&digit(at)))?;
    journal[at] = char::from_digit((digit(at) << 1 | digit(at) >> 3) & 15, 16).unwrap() as u8;
    Some(journal)
}
