//! Damage: flipped bits, zero-filled tails, doubled and lost lines. The program says what is wrong and changes nothing. What the model of document 01
//! calls right it accepts where each line is the plan's. A tail of zero bytes is dropped when that is asked for.
use crate::{
    case::Case,
    cuts::whole,
    machine::{ended, Machine},
    trace::{run_to, Stop},
    Tally,
};
use cases::Seeded;
use model::journal::{HEADER, LINE};
use std::{fs, path::Path};

pub fn all(case: &Case, folder: &Path, seeded: &mut Seeded, tally: &mut Tally) {
    let machine = Machine::new(case, folder);
    whole(&machine, &machine.sweep(None));
    let good = machine.journal();
    let mut journals = Vec::new();
    for byte in 0..good.len() {
        let mut journal = good.clone();
        journal[byte] ^= 1 << seeded.below(8);
        journals.push(journal);
    }
    for zeros in [1, 32, 33, 34, 66, 100, 512] {
        journals.push([&good[..], &vec![0; zeros]].concat());
        let mut journal = good.clone();
        let from = good.len().saturating_sub(zeros);
        journal[from..].fill(0);
        journals.push(journal);
    }
    for chunk in 0..case.chunks() {
        let line = HEADER + chunk * LINE..HEADER + (chunk + 1) * LINE;
        journals.push([&good[..], &good[line.clone()]].concat());
        journals.push([&good[..line.start], &good[line.end..]].concat());
        // A line that lost its end, and one that lost its beginning.
        journals.push([&good[..line.end - 1], &good[line.end..]].concat());
        journals.push([&good[..line.start], &good[line.start + 5..]].concat());
    }
    for journal in journals {
        one(&machine, &journal, tally);
    }
    // After whole frames, within a frame and from the first byte on.
    for length in [0, HEADER / 2, HEADER, HEADER + LINE, HEADER + 2 * LINE + 9, good.len() - 1, good.len()] {
        for zeros in [33, 66, 2112] {
            zero_tail(&machine, &good[..length], zeros, tally);
        }
    }
}

/// A journal that ends with zero bytes: where it is refused, the option that drops them is named and drops them, also if the power fails meanwhile.
fn zero_tail(machine: &Machine, before: &[u8], zeros: usize, tally: &mut Tally) {
    let journal = [before, &vec![0; zeros]].concat();
    let is_right = machine.case.sweep.right(&journal);
    one(machine, &journal, tally);
    if is_right {
        return;
    }
    const OPTION: &str = "--drop-zero-tail";
    for words in ["sweep", "windows", "status", "check"] {
        let ended = machine.run(&[words, "plan.toml"]);
        assert!(ended.status == 1 && ended.stderr.contains(OPTION), "{}: {}", words, ended.stderr);
    }
    let command = || {
        let mut command = machine.sweep_command(None);
        command.arg(OPTION);
        command
    };
    assert!(run_to(machine, command(), Stop::Of(libc::SYS_ftruncate, 1), journal.len()).killed);
    assert!(machine.journal() == journal, "a start that lost power changed the journal");
    assert!(run_to(machine, command(), Stop::After(libc::SYS_ftruncate), journal.len()).killed);
    let keep = machine.case.sweep.recover(before, before.len() as u64).unwrap() as usize;
    assert!(machine.journal() == before[..keep], "other bytes than the zeros were dropped");
    tally.cut(machine, 2);
    fs::write(machine.path(), &journal).unwrap();
    let ended = ended(command().spawn().unwrap());
    assert!(ended.stderr.contains(&format!("{} dropped", counted(journal.len() - keep))), "{}", ended.stderr);
    whole(machine, &ended);
}

/// A number of bytes as the program writes it.
fn counted(bytes: usize) -> String {
    match bytes {
        1..=999 => format!("{} bytes", bytes),
        _ => format!("{},{:03} bytes", bytes / 1000, bytes % 1000),
    }
}

fn one(machine: &Machine, journal: &[u8], tally: &mut Tally) {
    fs::write(machine.path(), journal).unwrap();
    let checked = machine.run(&["check", "plan.toml"]);
    let swept = machine.sweep(None);
    tally.damaged += 1;
    let sweep = &machine.case.sweep;
    if sweep.right(journal) {
        let keep = sweep.recover(journal, journal.len() as u64).unwrap() as usize;
        let mut lines = journal[HEADER.min(keep)..keep].chunks(LINE);
        if lines.all(|line| sweep.lines.iter().any(|due| due == line)) {
            assert_eq!((checked.status, swept.status), (0, 0), "{}{}", checked.stderr, swept.stderr);
            assert!(machine.journal().starts_with(&journal[..keep]), "a line of a right journal was lost");
        } else {
            // A line that is right and not the plan's.
            assert_eq!((checked.status, swept.status), (0, 1), "{}{}", checked.stderr, swept.stderr);
            assert!(swept.stderr.contains("worked out again") && machine.journal() == journal, "{}", swept.stderr);
        }
        return;
    }
    tally.refused += 1;
    for ended in [checked, swept] {
        assert_eq!(ended.status, 1, "{}", ended.stderr);
        let place = ended.stderr.contains("refused with 11: plan.journal: ") && ended.stderr.contains("\n  line ");
        assert!(place && ended.stderr.contains("nothing was changed"), "{}", ended.stderr);
    }
    assert!(machine.journal() == journal, "a refused journal was changed");
}
