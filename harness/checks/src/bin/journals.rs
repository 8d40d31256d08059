//! Begin, work, work over a range, cut, recover and collect over random lists against section 4's ledger, and over damaged journals against
//! its bytes, half of both by tables of rolls; what a list of tolerances, and a table, does to header and lines; and that a whole journal has the
//! length and the probes that follow from its plan's size.
//! `journals [FACTOR]` multiplies the number of lists.
use cases::{plans, Seeded};
use checks::{lent, rolls, Calls, Model};
use model::arithmetic::bits;
use model::cost::{Cost, Size};
use model::journal::{Sweep, HEADER, LINE};
use model::ledger::{Entry, Ledger, Said};
use model::plan::Rolls;
use model::{Answer, Plan};
use std::process::exit;

/// The calls, on a buffer and a used length. A range also gives the chunk at which it stopped.
trait Machine {
    fn begin(&self, sweep: &Sweep, journal: &mut [u8], used: u64) -> Answer<u64>;
    fn work(&self, sweep: &Sweep, chunk: u64, journal: &mut [u8], used: u64) -> Answer<u64>;
    fn work_range(&self, sweep: &Sweep, from: u64, to: u64, journal: &mut [u8], used: u64) -> Answer<(u64, u64)>;
    fn recover(&self, sweep: &Sweep, journal: &[u8], used: u64) -> Answer<u64>;
    fn collect(&self, sweep: &Sweep, journal: &[u8], used: u64, mask: &mut [u8]) -> Answer<u64>;
    fn cost(&self, size: Size) -> Answer<Cost>;
}

/// The library under its C names.
struct Library;

impl Machine for Library {
    fn begin(&self, sweep: &Sweep, journal: &mut [u8], used: u64) -> Answer<u64> {
        lent(&sweep.plan).begin(rolls(&sweep.plan), journal, used).map_err(|r| r.number())
    }
    fn work(&self, sweep: &Sweep, chunk: u64, journal: &mut [u8], used: u64) -> Answer<u64> {
        lent(&sweep.plan).work(rolls(&sweep.plan), chunk, journal, used).map_err(|r| r.number())
    }
    fn work_range(&self, sweep: &Sweep, from: u64, to: u64, journal: &mut [u8], used: u64) -> Answer<(u64, u64)> {
        lent(&sweep.plan).work_range(rolls(&sweep.plan), from..to, journal, used).map_err(|r| r.number())
    }
    fn recover(&self, sweep: &Sweep, journal: &[u8], used: u64) -> Answer<u64> {
        lent(&sweep.plan).recover(rolls(&sweep.plan), journal, used).map_err(|r| r.number())
    }
    fn collect(&self, sweep: &Sweep, journal: &[u8], used: u64, mask: &mut [u8]) -> Answer<u64> {
        lent(&sweep.plan).collect(rolls(&sweep.plan), journal, used, mask).map_err(|r| r.number())
    }
    fn cost(&self, size: Size) -> Answer<Cost> {
        checks::Library.cost(size, 3)
    }
}

/// Section 4's bytes in plain Rust, so that the model itself is compared with its ledger.
struct Bytes;

impl Machine for Bytes {
    fn begin(&self, sweep: &Sweep, journal: &mut [u8], used: u64) -> Answer<u64> {
        let header = sweep.begin(journal.len(), used)?;
        journal[..HEADER].copy_from_slice(header);
        Ok(HEADER as u64)
    }
    fn work(&self, sweep: &Sweep, chunk: u64, journal: &mut [u8], used: u64) -> Answer<u64> {
        let line = sweep.work(chunk, journal, used)?;
        journal[used as usize..][..LINE].copy_from_slice(line);
        Ok(used + LINE as u64)
    }
    fn work_range(&self, sweep: &Sweep, from: u64, to: u64, journal: &mut [u8], used: u64) -> Answer<(u64, u64)> {
        let (lines, stopped) = sweep.work_range(from, to, journal, used)?;
        journal[used as usize..][..lines.len()].copy_from_slice(&lines);
        Ok((used + lines.len() as u64, stopped))
    }
    fn recover(&self, sweep: &Sweep, journal: &[u8], used: u64) -> Answer<u64> {
        sweep.recover(journal, used)
    }
    fn collect(&self, sweep: &Sweep, journal: &[u8], used: u64, mask: &mut [u8]) -> Answer<u64> {
        let (held, sum) = sweep.collect(journal, used, mask.len())?;
        mask[..held.len()].copy_from_slice(&held);
        Ok(sum)
    }
    fn cost(&self, size: Size) -> Answer<Cost> {
        Model.cost(size, 3)
    }
}

#[derive(Default)]
struct Tally {
    lists: u64,
    entries: u64,
    accepted: u64,
    ranges: u64,
    /// Lines of accepted ranges, by how they got the Sun's units.
    range_lines: [u64; 3],
    cuts: u64,
    range_cuts: u64,
    collected: u64,
    damaged: u64,
    differ: u64,
    by_table: ByTable,
}

/// Those of the above whose rolls are a table; and those of its lists that were cut and then collected.
#[derive(Default)]
struct ByTable {
    lists: u64,
    ranges: u64,
    cuts: u64,
    collected: u64,
    resumed: u64,
    damaged: u64,
}

impl Tally {
    fn same<T: PartialEq + std::fmt::Debug>(&mut self, what: &dyn Fn() -> String, ours: T, theirs: T) {
        if ours != theirs {
            self.differ += 1;
            if self.differ <= 10 {
                println!("DIFFERS {}\n  library {ours:?}\n  model   {theirs:?}", what());
            }
        }
    }
}

const FILL: u8 = 0xa5;

/// A chunk that exists, mostly; sometimes none, or a number that must not be cut down to one that does.
fn chunk(s: &mut Seeded, sweep: &Sweep) -> u64 {
    let chunks = sweep.chunks() as u64;
    match s.below(12) {
        0 => chunks,
        1 => s.one_of(&[1 << 32, 1 << 40, u64::MAX, (1 << 32) + 1, 1 << 63, 16_384]),
        _ if chunks == 0 => 0,
        _ => s.below(chunks),
    }
}

/// A range's end: mostly some chunks on, and often beyond the last; sometimes none.
fn end(s: &mut Seeded, sweep: &Sweep, from: u64) -> u64 {
    match s.below(10) {
        0 => from.saturating_sub(s.below(2)),
        1 => s.one_of(&[1 << 32, u64::MAX, 16_384]),
        2 | 3 => from.saturating_add(plans::around_the_turn(s, &sweep.plan)),
        _ => from.saturating_add(s.within(1, sweep.chunks() as u64 + 1)),
    }
}

/// 1 where the rolls are a table.
fn of_table(sweep: &Sweep) -> u64 {
    sweep.plan.rolls.table().is_some() as u64
}

/// A write of so many bytes is a range's of several lines.
fn of_range(cuttable: usize) -> bool {
    cuttable > LINE && cuttable != HEADER
}

/// The journal's buffer for a call that may add `more` bytes to `used`: it always holds J.
fn room(s: &mut Seeded, used: usize, more: usize) -> usize {
    match s.below(6) {
        0 => used + s.index(more),
        1 => used + more,
        _ => used + more + s.index(100),
    }
}

/// One list of entries from an empty journal. Every entry gives the same answer and leaves the same bytes as the ledger.
fn list(s: &mut Seeded, sweep: &Sweep, machine: &dyn Machine, t: &mut Tally) {
    let mut ledger = Ledger::new(sweep);
    let mut file: Vec<u8> = Vec::new();
    let cells = sweep.mask.len();
    let entries = s.within(1, 6 + 3 * sweep.chunks().min(40) as u64);
    let mut history = Vec::new();
    let unworked = s.index(sweep.chunks() + 1);
    let table = of_table(sweep);
    let mut cut = 0;
    t.lists += 1;
    t.by_table.lists += table;
    for _ in 0..entries {
        let next = (file.len().saturating_sub(HEADER) / LINE + unworked) % sweep.chunks().max(1);
        let entry = match s.below(20) {
            0 => Entry::Collect { lent: s.one_of(&[cells, cells + 3, cells.saturating_sub(1), 0]) },
            1 => Entry::Begin { lent: room(s, file.len(), HEADER) },
            2 | 3 => Entry::Recover,
            4..=6 if ledger.cuttable() > 0 => Entry::Cut { k: s.index(ledger.cuttable() + 1) },
            7..=12 if of_range(ledger.cuttable()) => Entry::Cut { k: s.index(ledger.cuttable() + 1) },
            _ if file.is_empty() => Entry::Begin { lent: room(s, 0, HEADER) },
            7 | 8 => Entry::Work { chunk: chunk(s, sweep), lent: room(s, file.len(), LINE) },
            9..=12 => {
                let from = if s.once_in(2) { chunk(s, sweep) } else { next as u64 };
                let lines = if s.once_in(2) { s.within(1, 9) as usize } else { sweep.chunks().max(1) };
                Entry::WorkRange { from, to: end(s, sweep, from), lent: room(s, file.len(), lines * LINE) }
            }
            // Lists that come to an end: the next chunk, from one that differs by list.
            _ if file.len() >= HEADER + sweep.chunks() * LINE => Entry::Collect { lent: cells },
            _ => Entry::Work { chunk: next as u64, lent: file.len() + 100 },
        };
        history.push(entry);
        t.entries += 1;
        let used = file.len() as u64;
        let cuttable = ledger.cuttable();
        let mut stopped = None;
        let said = ledger.enter(entry);
        let mut buffer = file.clone();
        let mut mask = vec![FILL; if let Entry::Collect { lent } = entry { lent } else { 0 }];
        let answer = match entry {
            Entry::Begin { lent } => {
                buffer.resize(lent.max(file.len()), FILL);
                machine.begin(sweep, &mut buffer, used)
            }
            Entry::Work { chunk, lent } => {
                buffer.resize(lent, FILL);
                machine.work(sweep, chunk, &mut buffer, used)
            }
            Entry::WorkRange { from, to, lent } => {
                t.ranges += 1;
                t.by_table.ranges += table;
                buffer.resize(lent, FILL);
                machine.work_range(sweep, from, to, &mut buffer, used).map(|(after, chunk)| {
                    stopped = Some(chunk);
                    after
                })
            }
            Entry::Cut { k } => {
                t.cuts += 1;
                t.by_table.cuts += table;
                cut = table;
                t.range_cuts += of_range(cuttable) as u64;
                Ok(used - (cuttable - k) as u64)
            }
            Entry::Recover => machine.recover(sweep, &buffer, used),
            Entry::Collect { .. } => machine.collect(sweep, &buffer, used, &mut mask),
        };
        let shown = || format!("{:?} after {history:?}", sweep.plan);
        t.same(&shown, answer.map(|_| ()), said.as_ref().map(|_| ()).map_err(|&e| e));
        if answer.is_ok() {
            t.accepted += 1;
        }
        let used = match (&said, answer) {
            (Ok(Said::Collected(expected, sum)), Ok(answer)) => {
                t.collected += 1;
                t.by_table.collected += table;
                t.by_table.resumed += std::mem::take(&mut cut);
                t.same(&shown, answer, *sum);
                t.same(&shown, &mask[..cells], expected);
                t.same(&shown, mask[cells..].iter().all(|&b| b == FILL), true);
                foretold(machine, sweep, &file, answer, t, &shown);
                used
            }
            (Ok(Said::Done), Ok(after)) => after,
            (Ok(Said::Stopped(chunk)), Ok(after)) => {
                t.same(&shown, stopped, Some(*chunk));
                if let Entry::WorkRange { from, to, .. } = entry {
                    t.range_lines[plans::units(&sweep.plan, to - from) as usize] += (after - used) / LINE as u64;
                }
                after
            }
            _ => {
                t.same(&shown, mask.iter().all(|&b| b == FILL), true);
                used
            }
        };
        // What the call did not add is as it was: the bytes before, and beyond the new used length.
        let kept = (used as usize).min(file.len());
        t.same(&shown, &buffer[..kept], &file[..kept]);
        t.same(&shown, buffer[(used as usize).max(file.len())..].iter().all(|&b| b == FILL), true);
        buffer.truncate(used as usize);
        file = buffer;
        t.same(&shown, &file, &ledger.journal());
        if t.differ > 0 {
            return;
        }
    }
}

/// A journal that can be collected, whatever was cut from it and recovered, has the length that follows from its plan's size, and its probes are
/// within the bounds that do.
fn foretold(machine: &dyn Machine, sweep: &Sweep, file: &[u8], probes: u64, t: &mut Tally, shown: &dyn Fn() -> String) {
    let cost = machine.cost(Size::of(&sweep.plan));
    t.same(shown, cost.map(|c| (c.length, (c.fewest..=c.most).contains(&probes))), Ok((file.len() as u64, true)));
}

/// A journal as a disk may give it back: some lines, then bytes changed, lost, doubled, or of another plan.
fn damaged(s: &mut Seeded, sweep: &Sweep, other: &Sweep) -> Vec<u8> {
    let mut j = sweep.header.clone();
    for _ in 0..s.index(2 * sweep.chunks() + 2) {
        let own = if s.once_in(12) { other } else { sweep };
        if own.chunks() > 0 {
            let c = s.index(own.chunks());
            if s.once_in(3) || j[HEADER..].chunks(LINE).all(|l| l[..8] != own.lines[c][..8]) {
                j.extend(&own.lines[c]);
            }
        }
    }
    for _ in 0..s.one_of(&[0, 0, 1, 1, 2, 5]) {
        let at = s.index(j.len());
        match s.below(10) {
            0 => j[at] = s.bits() as u8,
            1 => j[at] = s.one_of(b"0123456789abcdefABF\n g"),
            2 => drop(j.remove(at)),
            3 => j.insert(at, b'0'),
            4 => j.truncate(at),
            5 if j.len() > HEADER => j.truncate(HEADER + (j.len() - HEADER) / LINE * LINE),
            _ if j.len() > HEADER + LINE => {
                // A digit of a line's chunk, mask or probes.
                let line = s.index((j.len() - HEADER) / LINE);
                let digit = s.one_of(&[6, 7, 8, 15, 20, 23, 24, 28, 29, 30, 31]);
                j[HEADER + LINE * line + digit] = s.one_of(b"0123456789abcdef");
            }
            _ => {}
        }
        if j.is_empty() {
            break;
        }
    }
    j
}

/// The calls on bytes that no call wrote.
fn on_damage(s: &mut Seeded, sweep: &Sweep, other: &Sweep, machine: &dyn Machine, t: &mut Tally) {
    let j = damaged(s, sweep, other);
    t.damaged += 1;
    t.by_table.damaged += of_table(sweep);
    let mut buffer = j.clone();
    let more = s.one_of(&[0, 32, 33, 107, 200]);
    buffer.resize(j.len() + more, FILL);
    let used = if s.once_in(20) { s.one_of(&[buffer.len() as u64 + 1, u64::MAX, 1 << 32, 0]) } else { j.len() as u64 };
    let c = chunk(s, sweep);
    let to = end(s, sweep, c);
    let shown = || format!("{:?} chunk {c} to {to} used {used} of {:?}", sweep.plan, String::from_utf8_lossy(&buffer));
    let mask_room = sweep.mask.len() + s.one_of(&[0, 1, 5]);
    let mut ours = (buffer.clone(), buffer.clone(), buffer.clone(), vec![FILL; mask_room]);
    let mut theirs = ours.clone();
    let answers = |m: &dyn Machine, b: &mut (Vec<u8>, Vec<u8>, Vec<u8>, Vec<u8>)| {
        let calls = [
            m.recover(sweep, &buffer, used),
            m.collect(sweep, &buffer, used, &mut b.3),
            m.begin(sweep, &mut b.0, used),
            m.work(sweep, c, &mut b.1, used),
        ];
        (calls, m.work_range(sweep, c, to, &mut b.2, used))
    };
    let (a, b) = (answers(machine, &mut ours), answers(&Bytes, &mut theirs));
    t.same(&shown, a, b);
    t.same(&shown, &ours, &theirs);
}

/// A sweep of each size, `count` times: every other time by a table.
fn sweeps(s: &mut Seeded, sizes: &[(usize, usize)], count: usize) -> Vec<Sweep> {
    let one = |k: usize| {
        let (rows, times) = sizes[k % sizes.len()];
        let mut plan = plans::plan(s, plans::Targets::Unit, rows, times);
        let n = s.one_of(&[1, 1, 2, 3, 5, 8, 12]);
        let rolls = if k / sizes.len() % 2 == 0 {
            Rolls::Even(n)
        } else {
            // Not the even steps.
            let spread = s.one_of(&plans::SPREADS[1..]);
            Rolls::Table(plans::table(s, &plan, spread, n as usize))
        };
        plans::for_rolls(s, &mut plan, rolls, plans::Entries::Either);
        Sweep::new(plan).expect("an accepted plan")
    };
    (0..sizes.len() * count).map(one).collect()
}

/// How many sweeps with cells are by a table, and how many of those have other lines than over as many even steps.
fn other_lines(sweeps: &[Sweep]) -> [usize; 2] {
    let by_table: Vec<&Sweep> = sweeps.iter().filter(|sweep| of_table(sweep) == 1 && sweep.chunks() > 0).collect();
    let even = |sweep: &Sweep| Sweep::new(sweep.plan.stepped()).expect("accepted");
    [by_table.len(), by_table.iter().filter(|sweep| even(sweep).lines != sweep.lines).count()]
}

/// The journal of a whole sweep, the mask and the sum of probes: by one range from an empty buffer, then collected.
fn whole(machine: &dyn Machine, sweep: &Sweep) -> (Vec<u8>, Vec<u8>, u64) {
    let chunks = sweep.chunks() as u64;
    let (mut journal, mut mask) = (vec![FILL; HEADER + LINE * sweep.chunks()], vec![FILL; sweep.mask.len()]);
    let used = machine.begin(sweep, &mut journal, 0).expect("begun");
    if chunks > 0 {
        let end = machine.work_range(sweep, 0, chunks, &mut journal, used).expect("worked");
        assert_eq!(end, (journal.len() as u64, chunks));
    }
    let sum = machine.collect(sweep, &journal, journal.len() as u64, &mut mask).expect("collected");
    assert_eq!((&journal, &mask, sum), (&[&sweep.header[..], &sweep.lines.concat()].concat(), &sweep.mask, sweep.probes), "the model's");
    (journal, mask, sum)
}

/// Three targets at thirty times, so that the first chunk has cells of all three. They are one direction: each row's optimal rolls rise from 0
/// to about 71.
fn three_targets() -> Plan {
    Plan {
        targets: [1.0, 0.0, 0.0].repeat(3),
        suns: (0..30).flat_map(|j| [0.0, 1.0, j as f64 / 10.0]).collect(),
        observers: vec![0.0; 90],
        tolerances: vec![20.0, 5.0, 30.0],
        roll_deg: None,
        panels: vec![0.0, 1.0, 0.0],
        rolls: Rolls::Even(4),
    }
}

/// Request Two's header and lines, where they can be worked out by hand.
fn tolerances(machine: &dyn Machine) {
    let plan = three_targets();
    let with = |list: &[f64]| Sweep::new(Plan { tolerances: list.to_vec(), ..plan.clone() }).expect("accepted");
    let field = |journal: &[u8]| String::from_utf8(journal[24..40].to_vec()).expect("text");

    // Two lists that differ at target 1 alone: the header is the same, lines and row 1 differ.
    let (narrow, wide) = (with(&[20.0, 5.0, 30.0]), with(&[20.0, 40.0, 30.0]));
    let (a, b) = (whole(machine, &narrow), whole(machine, &wide));
    assert_eq!(a.0[..HEADER], b.0[..HEADER], "one header");
    assert_eq!(field(&a.0), "4034000000000000");
    assert_ne!(a.0[HEADER..][..LINE], b.0[HEADER..][..LINE], "another line");
    assert_eq!([&a.1[..30], &a.1[60..]], [&b.1[..30], &b.1[60..]], "rows 0 and 2");
    assert_ne!(a.1[30..60], b.1[30..60], "row 1");
    assert!(a.2 > b.2, "fewer probes where more is allowed");
    assert_eq!(machine.recover(&wide, &a.0, a.0.len() as u64), Ok(a.0.len() as u64), "nothing in it tells the list");
    // Another first entry is another plan.
    assert_eq!(machine.recover(&with(&[21.0, 5.0, 30.0]), &a.0, a.0.len() as u64), Err(11));

    // A tolerance that marks nothing, and one that marks every cell, at each place.
    let (nothing, all) = ([f64::NAN, f64::INFINITY], [-1.0, f64::NEG_INFINITY]);
    for (none, every) in [0, 1].into_iter().flat_map(|k| [0, 1].map(|m| (nothing[k], all[m]))) {
        for place in 0..3 {
            for (list, odd, others) in [([every; 3], none, 1), ([none; 3], every, 0)] {
                let mut list = list;
                list[place] = odd;
                let (journal, mask, _) = whole(machine, &with(&list));
                assert!(mask.chunks(30).enumerate().all(|(i, row)| row == [if i == place { 1 - others } else { others }; 30]), "{list:?}");
                assert_eq!(field(&journal), format!("{:016x}", bits(list[0])), "{list:?}");
            }
        }
    }
    // Every NaN has one field.
    for nan in [0x7ff8_0000_0000_0001, 0xfff8_0000_0000_0000, 0x7ff0_0000_0000_0001] {
        assert_eq!(field(&whole(machine, &with(&[f64::from_bits(nan), 5.0, 30.0])).0), "7ff8000000000000");
    }
    assert_eq!(field(&whole(machine, &with(&[-0.0, 5.0, 30.0])).0), "8000000000000000");

    // Without targets zeros; without times the first entry.
    let none = Sweep::new(Plan { targets: vec![], tolerances: vec![], ..plan.clone() }).expect("accepted");
    assert_eq!(field(&whole(machine, &none).0), "0000000000000000");
    let no_times = Sweep::new(Plan { suns: vec![], observers: vec![], ..plan.clone() }).expect("accepted");
    assert_eq!(field(&whole(machine, &no_times).0), "4034000000000000");

    // Document 01's example with a second target, the same direction, whose tolerance no cell exceeds.
    let example = Plan {
        targets: [1.0, 0.0, 0.0].repeat(2),
        suns: vec![0.0, 1.0, 0.0, 0.0, 0.0, 1.0],
        observers: vec![0.0; 6],
        tolerances: vec![10.0, 90.0],
        rolls: Rolls::Even(1),
        ..plan
    };
    let (journal, ..) = whole(machine, &Sweep::new(example).expect("accepted"));
    let zeros = "0".repeat(16);
    let header = format!("0000000200000002000000014024000000000000{}{zeros}{zeros}3ff0000000000000{zeros}\n", "00");
    assert_eq!(String::from_utf8(journal).expect("text"), header + "00000000000000000000000200000004\n");
}

/// What request Five's header holds of a table, and what it does not.
fn tables(machine: &dyn Machine) {
    let over = |rolls: Rolls| Sweep::new(Plan { rolls, ..three_targets() }).expect("accepted");
    let table = |list: &[f64]| over(Rolls::Table(list.to_vec()));
    for length in [1, 2, 64, 3600] {
        let (even, lent) = (over(Rolls::Even(length)), over(Rolls::Table(over(Rolls::Even(length)).plan.all_rolls())));
        assert_eq!(whole(machine, &even), whole(machine, &lent), "{length} even steps, and the same lent as a table");
        assert_eq!(lent.header[16..24], *format!("{length:08x}").as_bytes(), "the header's n");
    }

    // Two tables of one length: the header is the same, both lines differ.
    let (first, second) = (table(&[0.0, 20.0, 40.0]), table(&[50.0, 60.0, 70.0]));
    let (a, b) = (whole(machine, &first), whole(machine, &second));
    assert_eq!(a.0[..HEADER], b.0[..HEADER], "one header");
    assert!((0..2).all(|c| first.lines[c] != second.lines[c]), "other lines");
    // The header is also that of as many even steps. Another length is another plan.
    let (even, longer) = (over(Rolls::Even(3)), table(&[0.0, 20.0, 40.0, 60.0]));
    let length = a.0.len() as u64;
    assert_eq!([&second, &even, &longer].map(|other| machine.recover(other, &a.0, length)), [Ok(length), Ok(length), Err(11)]);

    // So a sweep that was cut off and is resumed with the other one is accepted, and ends as no sweep with one table does.
    let mut file = a.0[..HEADER + LINE + 7].to_vec();
    let used = machine.recover(&second, &file, file.len() as u64).expect("nothing in it tells the table");
    assert_eq!(used, (HEADER + LINE) as u64);
    file.resize(HEADER + 2 * LINE, FILL);
    assert_eq!(machine.work(&second, 1, &mut file, used), Ok(length));
    assert_eq!(
        file,
        [&first.header[..], &first.lines[0], &second.lines[1]].concat(),
        "the first chunk by one table, the second by the other"
    );
    let mut mask = vec![FILL; 90];
    for collected in [&first, &second] {
        machine.collect(collected, &file, length, &mut mask).expect("collected");
        assert_eq!(mask, [&first.mask[..64], &second.mask[64..]].concat());
        assert!(mask != first.mask && mask != second.mask);
    }
}

/// Few cells, chunks that are not full, no cells at all, chunks of a dozen targets, and some of many chunks.
const SMALL: [(usize, usize); 13] =
    [(0, 0), (0, 3), (2, 0), (1, 1), (1, 2), (7, 9), (8, 8), (5, 13), (30, 5), (3, 43), (10, 20), (1, 640), (31, 33)];
/// Times on both sides of 8,784, up to which work over a range has the Sun's units in a table.
const LONG: [(usize, usize); 8] = [(1, 8784), (2, 8784), (3, 8784), (1, 8785), (2, 8785), (3, 8785), (4, 4095), (1, 20_000)];

fn main() {
    let arguments: Vec<String> = std::env::args().skip(1).collect();
    let own = arguments.iter().any(|a| a == "model");
    let factor: u64 = arguments.iter().find_map(|a| a.parse().ok()).unwrap_or(1);
    let machine: &dyn Machine = if own { &Bytes } else { &Library };
    tolerances(machine);
    tables(machine);
    let mut s = Seeded::new(4);
    let (small, long) = (sweeps(&mut s, &SMALL, 30), sweeps(&mut s, &LONG, 4));
    let mut t = Tally::default();
    for k in 0..120_000 * factor {
        let sweeps = if k % 300 == 0 { &long } else { &small };
        let sweep = &sweeps[s.index(sweeps.len())];
        list(&mut s, sweep, machine, &mut t);
        if k % 2 == 0 {
            let other = &sweeps[s.index(sweeps.len())];
            on_damage(&mut s, sweep, other, machine, &mut t);
        }
    }
    let [table, short, many] = t.range_lines;
    println!(
        "lines of ranges: {table} by a table of the Sun's units, {short} of ranges too short for one, {many} of too many times for one"
    );
    println!(
        "journals: {} lists of {} entries ({} accepted, {} ranges, {} cuts, {} of them of a range, {} collected at the cost foretold) \
         against the ledger, {} damaged journals: {} differ",
        t.lists, t.entries, t.accepted, t.ranges, t.cuts, t.range_cuts, t.collected, t.damaged, t.differ
    );
    let b = &t.by_table;
    let [tables, other] = other_lines(&small);
    println!(
        "journals by a table: {} lists ({} ranges, {} cuts, {} collected, {} of them after a cut), {} damaged journals; \
         {other} of {tables} sweeps with cells have other lines than over as many even steps",
        b.lists, b.ranges, b.cuts, b.collected, b.resumed, b.damaged
    );
    // Else even steps instead of a table's rolls would not be noticed.
    let tables_tell = 5 * b.lists >= 2 * t.lists && b.resumed >= 1_000 && 3 * other >= tables;
    let enough = t.lists >= 100_000 && t.range_cuts >= 5_000 && t.range_lines.iter().all(|&lines| lines >= 5_000);
    if t.differ > 0 || !enough || !tables_tell {
        exit(1);
    }
}
