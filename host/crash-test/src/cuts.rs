//! Power cuts: at every byte of the journal, at every system call, at any moment.
use crate::{
    case::Case,
    machine::{Ended, Machine, Way, WAYS},
    trace::{run_to, Stop},
    Tally,
};
use cases::Seeded;
use model::{
    journal::{HEADER, LINE},
    ledger::{Entry, Ledger},
};
use std::{
    collections::BTreeSet,
    fs,
    path::Path,
    time::{Duration, Instant},
};

/// An order of chunks as the command line says it.
pub fn words(order: &[usize]) -> String {
    order.iter().map(usize::to_string).collect::<Vec<_>>().join(",")
}

/// An order in which runs of chunks are shuffled, mostly runs of one.
pub fn shuffled(seeded: &mut Seeded, n: usize) -> Vec<usize> {
    let longest = [1, 1, 1, 1, 1, 1, 4, 100][seeded.index(8)];
    let mut runs = Vec::new();
    let mut from = 0;
    while from < n {
        let to = n.min(from + 1 + seeded.index(longest));
        runs.push(from..to);
        from = to;
    }
    for i in (1..runs.len()).rev() {
        runs.swap(i, seeded.index(i + 1));
    }
    runs.into_iter().flatten().collect()
}

/// The entries of a sweep in this order, whose power fails when the journal has this many bytes.
pub fn swept(ledger: &mut Ledger, order: &[usize], bytes: usize) {
    let room = usize::MAX;
    let begin = [Entry::Begin { lent: room }];
    let works = order.iter().map(|&c| Entry::Work { chunk: c as u64, lent: room });
    ledger.enter(Entry::Recover).unwrap();
    for entry in begin.into_iter().chain(works) {
        let before = ledger.length();
        // A header or a line that stands is not written again.
        if ledger.enter(entry).is_ok() && ledger.length() > bytes {
            ledger.enter(Entry::Cut { k: bytes - before }).unwrap();
            return;
        }
    }
}

/// How many whole lines the ledger's journal has.
fn lines(ledger: &Ledger) -> usize {
    ledger.length().saturating_sub(HEADER) / LINE
}

fn looked_at(machine: &Machine, ledger: &Ledger) {
    assert!(machine.journal() == ledger.journal(), "the journal is not the ledger's");
    let status = machine.run(&["status", "plan.toml"]);
    let says = format!("chunks   {} of {} have a line", lines(ledger), machine.case.chunks());
    let said = String::from_utf8(status.stdout).unwrap();
    let finished = ledger.length() >= HEADER && lines(ledger) == machine.case.chunks();
    let due = if finished { 0 } else { 4 };
    assert!(status.status == due && said.contains(&says), "status says\n{}{}", said, status.stderr);
    assert!(machine.journal() == ledger.journal(), "status changed the journal");
}

/// Every chunk has its line and the mask is that of section 3.
pub fn whole(machine: &Machine, ended: &Ended) {
    assert_eq!(ended.status, 0, "{}", ended.stderr);
    assert!(machine.mask() == machine.case.sweep.mask, "the mask is not that of section 3");
    let mut journal: Vec<_> = machine.journal()[HEADER..].chunks(LINE).map(<[u8]>::to_vec).collect();
    journal.sort();
    assert!(journal == machine.case.sweep.lines, "the lines are not those of an unbroken run");
}

/// For every byte: the power fails there; the journal is looked at; the next start loses power between recovery and shortening, and
/// once more directly after it; then the sweep goes on to its end, in the same order or from the first chunk on. With five threads, which take the
/// tracer longest, at every third byte: with one and two each plan of several chunks is cut at all of them.
pub fn every_byte(case: &Case, order: &[usize], way: Way, folder: &Path, tally: &mut Tally) {
    let machine = Machine::new(case, folder).sweeping(way);
    let said = words(order);
    let said = if order.is_empty() { None } else { Some(said.as_str()) };
    whole(&machine, &machine.sweep(said));
    assert!(machine.windows_csv() == case.windows_csv(), "the windows are not those of section 5");
    let length = machine.journal().len();
    let ascending: Vec<_> = (0..case.chunks()).collect();
    let step = if way.jobs < 5 { 1 } else { 3 };
    for byte in (0..length).step_by(step).chain([length]) {
        machine.without_journal();
        let mut ledger = Ledger::new(&case.sweep);
        let ended = machine.sweep_to_byte(said, byte);
        assert_eq!(ended.status, if byte < length { -libc::SIGKILL } else { 0 }, "{}", ended.stderr);
        swept(&mut ledger, order, byte);
        assert_eq!(ledger.length(), byte);
        tally.cut(&machine, (byte < length) as u64);
        looked_at(&machine, &ledger);

        let again = |stop| run_to(&machine, machine.sweep_command(said), stop, 0).killed;
        let to_shorten = {
            let mut recovered = Ledger::new(&case.sweep);
            swept(&mut recovered, order, byte);
            recovered.enter(Entry::Recover).unwrap();
            recovered.length() < byte
        };
        if to_shorten {
            assert!(again(Stop::Of(libc::SYS_ftruncate, 1)));
            assert!(machine.journal() == ledger.journal(), "a recovery that lost power changed the journal");
            assert!(again(Stop::After(libc::SYS_ftruncate)));
            ledger.enter(Entry::Recover).unwrap();
            assert!(machine.journal() == ledger.journal(), "recovery left other bytes than the ledger's");
            tally.cut(&machine, 2);
        }
        let rest = if byte % 2 == 0 { order } else { &ascending };
        let ended = machine.sweep(if byte % 2 == 0 { said } else { None });
        swept(&mut ledger, rest, usize::MAX);
        assert!(machine.journal() == ledger.journal(), "the resumed journal is not the ledger's");
        whole(&machine, &ended);
    }
    tally.bytes += (length / step) as u64 + 1;
}

/// The power fails while the digest is written, before the first byte of the journal: at every byte of it.
pub fn every_byte_of_the_digest(case: &Case, folder: &Path, tally: &mut Tally) {
    let machine = Machine::new(case, folder);
    whole(&machine, &machine.sweep(None));
    let digest = machine.folder.join("plan.journal.plan");
    let text = fs::read(&digest).unwrap();
    for byte in 0..text.len() {
        machine.without_journal();
        fs::remove_file(&digest).unwrap();
        assert_eq!(machine.sweep_to_byte(None, byte).status, -libc::SIGKILL);
        assert!(machine.journal().is_empty() && !digest.exists());
        tally.cut(&machine, 1);
        whole(&machine, &machine.sweep(None));
        assert!(fs::read(&digest).unwrap() == text);
    }
}

/// The power fails on entry to each system call of a sweep that finds an earlier program's digest beside a journal without a line: it is replaced
/// before the first line is there, as every later command would refuse that line.
pub fn every_call_over_an_old_digest(case: &Case, folder: &Path, tally: &mut Tally) {
    let machine = Machine::new(case, folder);
    whole(&machine, &machine.sweep(None));
    let (journal, digest) = (machine.journal(), machine.folder.join("plan.journal.plan"));
    let new = fs::read_to_string(&digest).unwrap();
    let old = new.replacen("wilfnusk plan 3\n", "wilfnusk plan 2\n", 1);
    assert_ne!(old, new);
    for left in [0, HEADER] {
        for number in 1.. {
            fs::write(machine.path(), &journal[..left]).unwrap();
            fs::write(&digest, &old).unwrap();
            let killed = run_to(&machine, machine.sweep_command(None), Stop::Call(number), left).killed;
            let beside = fs::read_to_string(&digest).unwrap();
            assert!(beside == new || beside == old && machine.journal().len() <= HEADER, "a line beside an earlier program's digest");
            whole(&machine, &machine.sweep(None));
            assert!(fs::read_to_string(&digest).unwrap() == new);
            if !killed {
                break;
            }
            tally.cut(&machine, 1);
            tally.calls += 1;
        }
    }
}

/// The power fails on entry to each system call of a sweep, the first to the last; then on entry to another of the run after it. Of bytes
/// that were not synced when it failed, it may have taken any number from the end: each is tried.
pub fn every_call(case: &Case, ways: &[Way], folder: &Path, seeded: &mut Seeded, tally: &mut Tally) {
    // The lengths of journals that were tried, which are the same in each way.
    let mut tried = BTreeSet::new();
    for way in ways {
        let machine = Machine::new(case, folder).sweeping(*way);
        every_call_of(&machine, &mut tried, seeded, tally);
    }
}

fn every_call_of(machine: &Machine, tried: &mut BTreeSet<usize>, seeded: &mut Seeded, tally: &mut Tally) {
    let case = machine.case;
    let all: Vec<_> = (0..case.chunks()).collect();
    let mut number = 0;
    loop {
        number += 1;
        let _ = fs::remove_file(machine.folder.join("plan.journal.plan"));
        machine.without_journal();
        let first = run_to(machine, machine.sweep_command(None), Stop::Call(number), 0);
        tally.cut(machine, first.killed as u64);
        between_entries(machine, &all);
        let before = machine.journal();
        let second = run_to(machine, machine.sweep_command(None), Stop::Call(1 + seeded.below(number + 1)), first.durable);
        tally.cut(machine, second.killed as u64);
        between_entries(machine, &all);
        let after = machine.journal();
        assert!(after.starts_with(&before), "a whole line was lost");
        whole(machine, &machine.sweep(None));
        for (journal, durable) in [(before, first.durable), (after, second.durable)] {
            for bytes in (durable..journal.len()).filter(|&bytes| tried.insert(bytes)) {
                fs::write(machine.path(), &journal[..bytes]).unwrap();
                let mut ledger = Ledger::new(&case.sweep);
                swept(&mut ledger, &all, bytes);
                assert!(machine.journal() == ledger.journal(), "the journal is not the ledger's");
                whole(machine, &machine.sweep(None));
                tally.unsynced += 1;
            }
        }
        if !first.killed {
            break;
        }
    }
    tally.calls += number - 1;
}

/// The journal is the ledger's after some number of whole entries: no write is cut when a process ends between two calls.
fn between_entries(machine: &Machine, order: &[usize]) {
    let mut ledger = Ledger::new(&machine.case.sweep);
    let journal = machine.journal();
    if !journal.is_empty() {
        swept(&mut ledger, order, journal.len());
        ledger.enter(Entry::Recover).unwrap();
    }
    assert!(journal == ledger.journal(), "the journal is not the ledger's");
}

/// One journal, killed at random moments and bytes, each run in another order of chunks and in another way, until it is whole.
pub fn any_moment(case: &Case, folder: &Path, seeded: &mut Seeded, until: Instant, tally: &mut Tally) {
    let mut machine = Machine::new(case, folder);
    // What a start takes that works no line out, not even one that it found.
    whole(&machine, &machine.sweep(None));
    let begun = Instant::now();
    machine.run(&["sweep", "plan.toml", "--quiet", "--trust-journal"]);
    let start = begun.elapsed();
    machine.without_journal();

    let mut ledger = Ledger::new(&case.sweep);
    let mut kills = 0;
    while lines(&ledger) < case.chunks() && Instant::now() < until {
        let order = shuffled(seeded, case.chunks());
        let said = words(&order);
        let before = ledger.journal();
        machine.way = WAYS[seeded.index(WAYS.len())];
        if !seeded.once_in(6) {
            // A write for each line, as else few cuts would do until the journal is whole.
            machine.way.range = Some(1);
        }
        let mut durable = usize::MAX;
        match seeded.below(5) {
            0 => drop(machine.sweep_to_byte(Some(&said), before.len() + seeded.index(4 * LINE))),
            1 => drop(machine.sweep_for(Some(&said), start.mul_f64(1.2 * seeded.unit()))),
            2 => {
                let stop = Stop::Of(libc::SYS_fdatasync, 1 + seeded.below(3));
                durable = run_to(&machine, machine.sweep_command(Some(&said)), stop, before.len()).durable
            }
            _ => drop(machine.sweep_beyond(Some(&said), before.len() + seeded.index(2 * LINE), Duration::from_micros(seeded.below(500)))),
        };
        kills += 1;
        let mut now = machine.journal();
        if durable < now.len() {
            // The power takes some of what was not synced.
            now.truncate(durable + seeded.index(now.len() - durable));
            fs::write(machine.path(), &now).unwrap();
            tally.unsynced += 1;
        }
        // A process that ended before it shortened has left the tail; else the tail is gone and whole lines may follow.
        if now != before {
            swept(&mut ledger, &order, now.len());
            assert!(now == ledger.journal(), "the journal is not the ledger's");
        }
        if kills % 16 == 0 {
            looked_at(&machine, &ledger);
        }
    }
    tally.cut(&machine, kills);
    tally.longest = tally.longest.max(kills);
    let ended = machine.sweep(None);
    whole(&machine, &ended);
    assert!(machine.windows_csv() == case.windows_csv(), "the windows are not those of section 5");
}

/// Waits a little; for processes that are ending.
pub fn pause() {
    std::thread::sleep(Duration::from_millis(5));
}
