//! Chunks worked out on several threads, and handed over in the order in which they were asked for.
//!
//! Each thread takes the next range of chunks from the list and has the library work it out into a journal of its own, which has this plan's
//! header and nothing else: so the check of the journal before each call stays short. A range grows until it takes about `RANGE_TIME`, so that
//! what the library and the caller do once per range, a check of the plan and a synced write, costs little beside it.
use crate::{
    engine::{self, Refusal, CHUNK_CELLS, LINE_BYTES},
    explain,
    fault::Fault,
    plan::Plan,
};
use std::{
    collections::BTreeMap,
    num::NonZeroUsize,
    ops::Range,
    sync::{mpsc, Mutex},
    thread,
    time::{Duration, Instant},
};

/// About how long a range takes to work out.
const RANGE_TIME: Duration = Duration::from_millis(100);
/// The chunks of the first range, before it is known how long a chunk takes. With the most rolls they take about `RANGE_TIME`.
const FIRST: usize = 256;

/// The number of cores.
pub fn cores() -> NonZeroUsize {
    thread::available_parallelism().unwrap_or(NonZeroUsize::MIN)
}

/// How chunks are worked out.
pub struct Workers {
    pub jobs: NonZeroUsize,
    /// The most chunks of a range; as many as take about `RANGE_TIME` if there is none.
    pub most: Option<NonZeroUsize>,
}

/// What is left to be taken from a list of chunks.
struct Left {
    /// The place in the list of the first chunk that no thread has taken.
    at: usize,
    /// The number of the next range.
    number: usize,
    /// How many chunks take about `RANGE_TIME`, as far as is known.
    length: usize,
    /// A fault has ended the work.
    ended: bool,
}

impl Workers {
    /// Works out the lines of these chunks. `take` is called on the caller's thread with each range of the list and its lines, in the order of the
    /// list. The first fault that it returns ends the work. So does `stop`, which is asked before each range: ranges that were begun are still
    /// handed over.
    pub fn work(
        &self,
        plan: &Plan,
        chunks: &[u64],
        stop: impl Fn() -> bool + Sync,
        mut take: impl FnMut(&[u64], &[u8]) -> Result<(), Fault>,
    ) -> Result<(), Fault> {
        let refused = |refusal| explain::plan(plan, refusal);
        let (header, bridged) = (engine::header(plan).map_err(refused)?, bridged(plan));
        let most = self.most.map_or(usize::MAX, NonZeroUsize::get);
        let first = FIRST.min(most);
        // A single range needs no thread of its own.
        if chunks.len() <= first / 4 {
            return match chunks.is_empty() || stop() {
                true => Ok(()),
                false => lines_of(plan, &header, chunks, bridged).map_err(refused).and_then(|lines| take(chunks, &lines)),
            };
        }
        let left = Mutex::new(Left { at: 0, number: 0, length: first, ended: false });
        let locked = || left.lock().expect("no thread panics while it holds this");
        let jobs = self.jobs.get().min(chunks.len());
        // A thread whose lines the caller has not taken yet waits, so that a stop loses little.
        let (sender, receiver) = mpsc::sync_channel(jobs);
        let next = || {
            let mut left = locked();
            if left.at == chunks.len() || left.ended || stop() {
                return None;
            }
            let range = left.at..left.at + next_length(left.length, chunks.len() - left.at, jobs);
            left.at = range.end;
            left.number += 1;
            Some((left.number - 1, range))
        };
        let took = |length: usize, time: Duration| {
            let fitting = (length as f64 * RANGE_TIME.as_secs_f64() / time.as_secs_f64().max(1e-6)) as usize;
            locked().length = fitting.clamp(1, 4 * length).min(most);
        };
        let work = |sender: mpsc::SyncSender<_>| {
            while let Some((number, range)) = next() {
                let begun = Instant::now();
                let lines = lines_of(plan, &header, &chunks[range.clone()], bridged);
                took(range.len(), begun.elapsed());
                // Nobody receives it where the caller has ended with a fault.
                if sender.send((number, range, lines)).is_err() {
                    return;
                }
            }
        };
        thread::scope(|scope| {
            for started in 0..jobs {
                let (sender, work) = (sender.clone(), &work);
                match thread::Builder::new().spawn_scoped(scope, move || work(sender)) {
                    Ok(_) => {}
                    // Fewer threads do the same work.
                    Err(_) if started > 0 => break,
                    Err(e) => return Err(Fault::Files(format!("no thread can be started to work chunks out: {}", e))),
                }
            }
            drop(sender);
            // Moved here, so that it is dropped where a fault ends this, and no thread waits for it to be read.
            let receiver = receiver;
            let mut early = BTreeMap::new();
            let mut number = 0;
            while let Ok((n, range, lines)) = receiver.recv() {
                early.insert(n, (range, lines));
                while let Some((range, lines)) = early.remove(&number) {
                    let taken = lines.map_err(refused).and_then(|lines: Vec<u8>| take(&chunks[range], &lines));
                    if taken.is_err() {
                        locked().ended = true;
                        return taken;
                    }
                    number += 1;
                }
            }
            Ok(())
        })
    }
}

/// How many chunks the next range has, of those that are left: as many as take about `RANGE_TIME`, and towards the end fewer, so that all threads
/// end at about the same time.
fn next_length(length: usize, left: usize, jobs: usize) -> usize {
    let share = (left + jobs - 1) / jobs;
    length.min(share.max(length / 4)).clamp(1, left)
}

/// The lines of these chunks, in their order. Gaps of up to `bridged` chunks between them are worked out too, and their lines left out.
fn lines_of(plan: &Plan, header: &[u8], chunks: &[u64], bridged: u64) -> Result<Vec<u8>, Refusal> {
    let line = LINE_BYTES as usize;
    let mut lines = Vec::with_capacity(chunks.len() * line);
    let mut left = chunks;
    while !left.is_empty() {
        let (run, count) = first_run(left, bridged);
        let mut journal = header.to_vec();
        journal.resize(header.len() + line * (run.end - run.start) as usize, 0);
        let used = engine::work(plan, run.clone(), &mut journal, header.len())?;
        // Each chunk exists and is worked out once, and there is room for each line: nothing ends the run early.
        assert_eq!(used, journal.len(), "the library left out a line");
        for chunk in &left[..count] {
            lines.extend_from_slice(&journal[header.len() + line * (chunk - run.start) as usize..][..line]);
        }
        left = &left[count..];
    }
    Ok(lines)
}

/// The run of chunks at the front of the list, as long as each follows the one before or comes at most so many chunks after it; and how many entries of
/// the list it has.
fn first_run(chunks: &[u64], bridged: u64) -> (Range<u64>, usize) {
    let follows = |pair: &&[u64]| pair[0] < pair[1] && pair[1] - pair[0] <= bridged + 1;
    let count = 1 + chunks.windows(2).take_while(follows).count();
    (chunks[0]..chunks[count - 1] + 1, count)
}

/// The gap between two chunks that is worked out in less time than a call of its own takes to look at the plan: about 7 ns per target and time, where a
/// cell takes about 30 ns and 2 ns per roll.
fn bridged(plan: &Plan) -> u64 {
    (plan.names.len() + plan.times.len()) as u64 * 7 / (CHUNK_CELLS * (30 + 2 * plan.rolls.count()))
}

#[cfg(test)]
mod tests {
    use super::*;
    use crate::{
        testing::{journal, small},
        tried::Rolls,
    };
    use proptest::prelude::*;

    fn lists() -> impl Strategy<Value = (Vec<u64>, usize, Option<usize>)> {
        (Just((0..5u64).collect::<Vec<_>>()).prop_shuffle(), 1usize..7, prop_oneof![Just(None), (1usize..4).prop_map(Some)])
    }

    #[test]
    fn a_run_ends_where_a_chunk_does_not_follow_the_one_before_it_or_the_gap_is_too_long() {
        assert_eq!(first_run(&[7], 0), (7..8, 1));
        assert_eq!(first_run(&[3, 4, 5, 7, 8], 0), (3..6, 3));
        assert_eq!(first_run(&[3, 4, 5, 7, 8, 11, 2], 1), (3..9, 5));
        assert_eq!(first_run(&[5, 4, 3], 9), (5..6, 1));
        assert_eq!(first_run(&[5, 5], 9), (5..6, 1));
        assert_eq!(first_run(&(0..1000).collect::<Vec<_>>(), 0), (0..1000, 1000));
    }
    #[test]
    fn no_gap_is_bridged_that_takes_longer_than_a_look_at_the_plan() {
        assert_eq!(bridged(&small()), 0);
        let mut long = small();
        long.times = (0..52_560).collect();
        long.names = vec![String::new(); 19];
        long.rolls = Rolls::Even(24);
        assert_eq!(bridged(&long), 73);
        long.rolls = Rolls::Even(3600);
        assert_eq!(bridged(&long), 0);
    }
    proptest! {
        #![proptest_config(ProptestConfig::with_cases(64))]
        #[test]
        fn lines_are_handed_over_in_the_order_of_the_list_for_any_number_of_threads((order, jobs, most) in lists(), count in 0usize..=5) {
            let plan = small();
            let workers = Workers { jobs: NonZeroUsize::new(jobs).unwrap(), most: most.and_then(NonZeroUsize::new) };
            let (mut chunks, mut lines) = (Vec::new(), Vec::new());
            let done = workers.work(&plan, &order[..count], || false, |run, bytes| {
                assert_eq!(run.len() * LINE_BYTES as usize, bytes.len());
                chunks.extend_from_slice(run);
                lines.extend_from_slice(bytes);
                Ok(())
            });
            prop_assert!(done.is_ok());
            prop_assert_eq!(&chunks, &order[..count]);
            prop_assert_eq!(&journal(&order[..count])[engine::HEADER_BYTES as usize..], &lines[..]);
            for bridged in 0..4 {
                prop_assert_eq!(&lines_of(&plan, &engine::header(&plan).unwrap(), &order[..count], bridged).unwrap(), &lines);
            }
        }
    }
    #[test]
    fn ranges_are_as_long_as_was_measured_and_towards_the_end_shorter() {
        assert_eq!([next_length(256, 100_000, 2), next_length(256, 100_000, 5)], [256, 256]);
        // Shared among the threads, and no shorter than a quarter.
        assert_eq!([next_length(4096, 5000, 2), next_length(4096, 5000, 1), next_length(4096, 5000, 100)], [2500, 4096, 1024]);
        assert_eq!([next_length(256, 3, 2), next_length(1, 3, 5), next_length(2, 1, 1)], [3, 1, 1]);
    }
    #[test]
    fn a_fault_of_the_caller_ends_the_work() {
        let workers = Workers { jobs: NonZeroUsize::new(3).unwrap(), most: NonZeroUsize::new(1) };
        let mut taken = 0;
        let done = workers.work(
            &small(),
            &[0, 1, 2, 3, 4],
            || false,
            |_, _| {
                taken += 1;
                if taken == 2 {
                    Err(Fault::Files("no".into()))
                } else {
                    Ok(())
                }
            },
        );
        assert_eq!((done.unwrap_err().to_string(), taken), ("no".into(), 2));
    }
    #[test]
    fn a_stop_is_asked_for_before_each_range_and_begun_ranges_are_handed_over() {
        let workers = Workers { jobs: NonZeroUsize::MIN, most: NonZeroUsize::new(2) };
        let (asked, mut taken) = (std::sync::atomic::AtomicUsize::new(0), Vec::new());
        let stop = || asked.fetch_add(1, std::sync::atomic::Ordering::Relaxed) == 1;
        let done = workers.work(&small(), &[4, 3, 2, 1, 0], stop, |run, _| Ok(taken.extend_from_slice(run)));
        assert!(done.is_ok());
        assert_eq!(taken, [4, 3]);
    }
}
