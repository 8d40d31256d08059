//! Syncs: the tracer sees that each write is synced before the next one, and reports a sync that is missing.
use crate::{
    case::Case,
    cuts::{whole, words},
    machine::{Machine, Way},
    trace::{run_to, trace, Lost, Stop},
};
use model::journal::{HEADER, LINE};
use std::{fs, path::Path};

/// What a cut may leave of a journal: no file, or this many bytes.
pub const LEFT: [Option<usize>; 5] = [None, Some(0), Some(HEADER / 2), Some(HEADER), Some(HEADER + LINE - 1)];

/// Sweeps to the end in these orders and ways from what is left, watched. How often the journals were written and synced.
pub fn watched(case: &Case, orders: &[(Vec<usize>, Way)], left: &[Option<usize>], folder: &Path) -> (u64, u64) {
    let (mut writes, mut syncs) = (0, 0);
    for (order, way) in orders {
        let machine = Machine::new(case, folder).sweeping(*way);
        let said = words(order);
        let said = if order.is_empty() { None } else { Some(said.as_str()) };
        for &left in left {
            let journal = machine.journal();
            match left {
                None => machine.without_journal(),
                Some(left) => fs::write(machine.path(), &journal[..left.min(journal.len())]).unwrap(),
            }
            let traced = run_to(&machine, machine.sweep_command(said), Stop::Never, 0);
            assert_eq!(traced.durable, HEADER + LINE * case.chunks(), "the sweep did not reach its end");
            if left.is_none() {
                // How many chunks the program chooses to write at once depends on the machine.
                let ranges = match way.range {
                    Some(1) => case.chunks()..=case.chunks(),
                    _ => case.chunks().min(1)..=case.chunks(),
                };
                assert!(
                    ranges.contains(&(traced.writes as usize - 1)),
                    "the header and each range is one write, and not {}",
                    traced.writes
                );
            }
            whole(&machine, &machine.sweep(None));
            writes += traced.writes;
            syncs += traced.syncs;
        }
    }
    (writes, syncs)
}

/// The syncs of a sweep do nothing, each by itself and all together: the tracer reports each. How many were tried.
pub fn missed(case: &Case, way: Way, folder: &Path) -> u64 {
    let machine = Machine::new(case, folder).sweeping(way);
    let mut tried = 0;
    // From nothing, where the first sync of file and folder may be missing, as the digest's comes before the first byte; and from a journal
    // that was found.
    for (left, needed_from) in [(0, 3), (HEADER + LINE, 1), (HEADER + LINE + 1, 1)] {
        let start = |lost| {
            let journal = machine.journal();
            let _ = fs::remove_file(machine.path());
            if left == 0 {
                let _ = fs::remove_file(machine.folder.join("plan.journal.plan"));
            } else {
                fs::write(machine.path(), &journal[..left]).unwrap();
            }
            trace(&machine, machine.sweep_command(None), Stop::Never, lost, 0)
        };
        let good = start(Lost::None);
        assert!(good.faults.is_empty(), "{:?}", good.faults);
        for lost in (needed_from..=good.syncs).map(Lost::One).chain([Lost::All]) {
            assert!(
                !start(lost).faults.is_empty(),
                "a sync was missing and not reported: {:?} of {}, {} bytes found",
                lost,
                good.syncs,
                left
            );
            tried += 1;
        }
        whole(&machine, &machine.sweep(None));
    }
    tried
}
