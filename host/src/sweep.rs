//! `wilfnusk sweep`: lock the journal, recover, shorten, work out what is missing, list the windows.
use crate::{
    digest::{is_known, Digest},
    engine::{self, HEADER_BYTES},
    explain::{self, zero_tail},
    fault::Fault,
    from_1_up,
    journal::{done, Journal},
    listing::Listing,
    outputs::Outputs,
    plan::Plan,
    progress::Progress,
    remarks::tell_remarks,
    selection::{Selected, Selection},
    source::shown,
    stop,
    text::{counted, grouped, ranges},
    verify::{Evidence, Trust},
    workers::{cores, Workers},
    Files,
};
use clap::Args;
use std::{num::NonZeroUsize, ops::Range, str::FromStr};

#[derive(Args)]
pub struct Sweep {
    #[command(flatten)]
    files: Files,
    /// Work out one of N equal parts, such as 2/5
    #[arg(long, value_name = "K/N", conflicts_with = "chunks")]
    part: Option<Part>,
    /// Work out these chunks in this order, such as 40..80 or 7,0..5
    #[arg(long, value_name = "A..B", value_delimiter = ',')]
    chunks: Option<Vec<Chunks>>,
    /// Wait while another process sweeps into the journal
    #[arg(long)]
    wait: bool,
    /// Work out on N threads [default: one per core]. The journal's bytes are the same for any N
    #[arg(long, value_name = "N", value_parser = from_1_up)]
    jobs: Option<NonZeroUsize>,
    /// Write after at most N chunks [default: as many as take about 100 ms]
    #[arg(long, value_name = "N", value_parser = from_1_up)]
    range: Option<NonZeroUsize>,
    /// Drop the zero bytes that a power cut left at the journal's end, where all that stands before them is right
    #[arg(long)]
    drop_zero_tail: bool,
    #[command(flatten)]
    trust: Trust,
    #[command(flatten)]
    selection: Selection,
    #[command(flatten)]
    outputs: Outputs,
}

/// Part k of n, k from 1.
#[derive(Clone, Copy, Debug, PartialEq, Eq)]
pub struct Part {
    k: u64,
    n: u64,
}

impl FromStr for Part {
    type Err = String;
    fn from_str(text: &str) -> Result<Part, String> {
        let read = text.split_once('/').and_then(|(k, n)| Some(Part { k: k.parse().ok()?, n: n.parse().ok()? }));
        match read {
            Some(part) if (1..=part.n).contains(&part.k) && part.n <= u64::from(u32::MAX) => Ok(part),
            _ => Err("allowed: K/N with K from 1 to N".into()),
        }
    }
}

impl Part {
    /// The parts follow each other and are as equal as possible.
    fn of(self, chunks: u64) -> Range<u64> {
        chunks * (self.k - 1) / self.n..chunks * self.k / self.n
    }
}

/// A chunk, or a run of them.
#[derive(Clone, Debug, PartialEq, Eq)]
pub struct Chunks(Range<u64>);

impl FromStr for Chunks {
    type Err = String;
    fn from_str(text: &str) -> Result<Chunks, String> {
        let read = match text.split_once("..") {
            Some((a, b)) => a.parse().ok().zip(b.parse().ok()),
            None => text.parse().ok().filter(|&a| a < u64::MAX).map(|a| (a, a + 1)),
        };
        match read {
            Some((a, b)) if a <= b => Ok(Chunks(a..b)),
            _ => Err("allowed: A..B with A up to B (B itself is left out), or one chunk's number".into()),
        }
    }
}

impl Sweep {
    pub fn run(&self) -> Result<(), Fault> {
        let (plan, path) = self.files.read()?;
        let asked = self.asked(&plan)?;
        let selected = self.selection.of(&plan)?;
        self.outputs.check(&plan, &path, &selected)?;
        tell_remarks(&plan);
        stop::listen();
        let mut journal = Journal::open(&path, Some(self.wait))?;
        let evidence = self.start(&plan, &mut journal)?;

        // A chunk that was asked for twice is worked out once.
        let mut has_line = done(journal.used(), plan.chunks());
        let missing: Vec<u64> = asked.into_iter().filter(|&c| !std::mem::replace(&mut has_line[c as usize], true)).collect();
        let mut progress = Progress::of(missing.len());
        let workers = Workers { jobs: self.jobs.unwrap_or_else(cores), most: self.range };
        workers.work(&plan, &missing, stop::asked, |range, lines| {
            journal.append(lines)?;
            progress.add(range.len());
            Ok(())
        })?;
        journal.as_left()?;
        progress.end();
        self.end(&plan, &journal, selected, evidence)
    }
    /// The start of every sweep, after a power cut or not: recover, compare the plan with the digest, work the lines found out again, and only then
    /// shorten and begin.
    fn start(&self, plan: &Plan, journal: &mut Journal) -> Result<Evidence, Fault> {
        let found = journal.used().len();
        let zeros = if self.drop_zero_tail { zero_tail(plan, journal.used()) } else { None };
        let keep = match &zeros {
            Some(tail) => tail.keep,
            None => engine::recover(plan, journal.used()).map_err(|r| explain::journal(plan, &journal.path, journal.used(), r))?,
        };
        let origin_known = keep <= HEADER_BYTES as usize || is_known(plan, &journal.path)?;
        let evidence = self.trust.evidence(plan, &journal.path, &journal.used()[..keep], origin_known)?;
        journal.shorten(keep)?;
        let (path, bytes) = (shown(&journal.path), counted(found - keep, "byte"));
        match zeros {
            Some(tail) => tell!("{}: the last {} dropped, {}", path, bytes, tail.in_words()),
            None if keep < found => tell!("recovered {}: removed {} of a write that did not end", path, bytes),
            None => {}
        }
        // Without a line nothing depends on the digest: it is made this plan's, before the first line can follow.
        if keep <= HEADER_BYTES as usize {
            Digest::of(plan).write(&journal.path)?;
        }
        if keep == 0 {
            journal.append(&engine::header(plan).map_err(|r| explain::plan(plan, r))?)?;
        }
        Ok(evidence)
    }
    /// The chunks that the command line asks for, in its order.
    fn asked(&self, plan: &Plan) -> Result<Vec<u64>, Fault> {
        let chunks = plan.chunks() as u64;
        match (&self.part, &self.chunks) {
            (Some(part), _) => Ok(part.of(chunks).collect()),
            (None, Some(list)) => {
                if let Some(beyond) = list.iter().find(|c| c.0.end > chunks) {
                    let (a, b) = (beyond.0.start, beyond.0.end);
                    return Err(Fault::Usage(format!("--chunks {}..{}: this plan has the chunks 0..{}", a, b, chunks)));
                }
                Ok(list.iter().flat_map(|c| c.0.clone()).collect())
            }
            (None, None) => Ok((0..chunks).collect()),
        }
    }
    fn end(&self, plan: &Plan, journal: &Journal, selected: Selected, evidence: Evidence) -> Result<(), Fault> {
        let has_line = done(journal.used(), plan.chunks());
        let count = has_line.iter().filter(|&&d| d).count();
        let about = format!("{}: {} of {} chunks have a line", shown(&journal.path), grouped(count), grouped(plan.chunks()));
        if stop::asked() {
            let unwritten = self.outputs.unwritten().map_or(String::new(), |what| format!("\n{}", what));
            return Err(Fault::Stopped(format!("stopped. {}; the same command goes on{}", about, unwritten)));
        }
        if count < plan.chunks() {
            tell!("{}; missing: {}", about, ranges(&has_line, false));
            if let Some(what) = self.outputs.unwritten() {
                tell!("{}\nto list the windows, sweep the missing chunks, or merge the journals of the other parts and use `wilfnusk windows`", what);
            }
            return Ok(());
        }
        let bytes = journal.used();
        let (mask, probes) = engine::collect(plan, bytes).map_err(|r| explain::journal(plan, &journal.path, bytes, r))?;
        tell!("{}; {} tried", about, counted(probes, "roll"));
        let listing = Listing::of_mask(plan, selected, &mask, probes, evidence).map_err(|(i, r)| explain::row(plan, i, r))?;
        self.outputs.write(&listing)
    }
}

#[cfg(test)]
mod tests {
    use super::*;
    use proptest::prelude::*;

    #[test]
    fn parts_and_chunks_of_the_command_line_are_read_or_refused() {
        assert_eq!("2/5".parse(), Ok(Part { k: 2, n: 5 }));
        for wrong in ["", "2", "0/5", "6/5", "-1/5", "1/0", "1/2/3"] {
            assert!(wrong.parse::<Part>().is_err(), "{}", wrong);
        }
        assert_eq!("3..7".parse(), Ok(Chunks(3..7)));
        assert_eq!("7".parse(), Ok(Chunks(7..8)));
        assert_eq!("7..7".parse(), Ok(Chunks(7..7)));
        for wrong in ["", "7..3", "..3", "3..", "a", "18446744073709551615"] {
            assert!(wrong.parse::<Chunks>().is_err(), "{}", wrong);
        }
    }
    proptest! {
        #[test]
        fn the_parts_together_are_all_chunks_once_each(chunks in 0u64..20_000, n in 1u64..300) {
            let all: Vec<_> = (1..=n).flat_map(|k| Part { k, n }.of(chunks)).collect();
            prop_assert_eq!(all, (0..chunks).collect::<Vec<_>>());
        }
    }
}
