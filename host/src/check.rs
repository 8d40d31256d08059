//! `wilfnusk check`: a plan and its journal looked at, and its lines worked out again where that is asked for.
use crate::{
    cost,
    digest::{is_known, warn_missing, Digest},
    engine::{self, HEADER_BYTES},
    explain,
    fault::Fault,
    from_1_up,
    journal::{done, look, Journal},
    look::about,
    plan::Plan,
    remarks::{remarks, sun},
    say,
    source::shown,
    text::grouped,
    verify::{missing_but_same, same, Lines},
    Files,
};
use clap::Args;
use std::{num::NonZeroUsize, path::Path};

#[derive(Args)]
pub struct Check {
    #[command(flatten)]
    files: Files,
    /// Work every line out again, and name each chunk whose line differs
    #[arg(long)]
    recompute: bool,
    /// Only this many lines of the journal, drawn at random
    #[arg(long, value_name = "N", value_parser = from_1_up, requires = "recompute")]
    sample: Option<NonZeroUsize>,
    /// Draw the lines that were drawn with this seed
    #[arg(long, requires = "sample")]
    seed: Option<u32>,
    /// Write the missing digest J.plan beside the journal, once every line was worked out again and found the same
    #[arg(long, requires = "recompute", conflicts_with = "sample")]
    write_digest: bool,
}

impl Check {
    pub fn run(&self) -> Result<(), Fault> {
        let (plan, path) = self.files.read()?;
        // The digest is written even where nobody reads the output.
        let said = say(about(&plan)).and_then(|()| sun(&plan).into_iter().chain(remarks(&plan)).try_for_each(say));
        if !self.write_digest {
            said?;
        }
        let journal = self.journal(&plan, &path);
        // The cost is printed also where the journal is not right.
        let cost = cost::of_plan(&plan).and_then(|cost| say(cost::line(&cost)));
        journal.and(cost)
    }
    fn journal(&self, plan: &Plan, path: &Path) -> Result<(), Fault> {
        if !path.exists() {
            return say(format_args!("accepted; {} is not begun", shown(path)));
        }
        // Where the digest is to be written, nobody else adds a line meanwhile.
        let locked = if self.write_digest { Some(Journal::open(path, None)?) } else { None };
        let bytes = match &locked {
            Some(journal) => journal.used().to_vec(),
            None => look(path)?,
        };
        let keep = engine::recover(plan, &bytes).map_err(|r| explain::journal(plan, path, &bytes, r))?;
        let bytes = &bytes[..keep];
        let has_lines = keep > HEADER_BYTES as usize;
        let mut known = has_lines && is_known(plan, path)?;
        let sentences = match (self.recompute, self.sample) {
            (false, _) => Vec::new(),
            (true, Some(many)) => same(plan, &[Lines::drawn(path, bytes, many.get(), self.seed)], usize::MAX)?,
            (true, None) => same(plan, &[Lines::all(path, bytes)], usize::MAX)?,
        };
        if has_lines && !known {
            match (self.write_digest, self.recompute && self.sample.is_none()) {
                (true, _) => {
                    Digest::of(plan).write(path)?;
                    tell!("wrote {}", shown(&Digest::path(path)));
                    known = true;
                }
                (false, true) => tell!("{}", missing_but_same(plan, path)),
                (false, false) => warn_missing(plan, path),
            }
        }
        sentences.into_iter().try_for_each(say)?;
        let with_line = done(bytes, plan.chunks()).into_iter().filter(|&d| d).count();
        let known = if known { format!("; {} is this plan's", shown(&Digest::path(path))) } else { String::new() };
        say(format_args!(
            "accepted; {} is right: {} of {} chunks have a line{}",
            shown(path),
            grouped(with_line),
            grouped(plan.chunks()),
            known
        ))?;
        if has_lines && !self.recompute {
            let again = explain::command("check", plan, path);
            say(format_args!("its lines could be this plan's; to work every line out again: {} --recompute", again))?;
        }
        Ok(())
    }
}
