//! `wilfnusk merge`: the lines of several journals of one plan in a new one.
use crate::{
    digest::{is_known, Digest},
    engine::{self, HEADER_BYTES},
    explain,
    fault::Fault,
    files::{self, folder_of, write_whole, Place},
    journal::{chunk_of, done, lines, look},
    plan::Plan,
    say,
    source::shown,
    text::{counted, grouped, ranges},
    verify::{digits, Part, Trust},
    Files,
};
use clap::Args;
use std::{
    collections::HashMap,
    fs, io,
    path::{Path, PathBuf},
};

#[derive(Args)]
pub struct Merge {
    /// The plan that the journals are of
    #[arg(value_name = "PLAN.toml")]
    plan: PathBuf,
    /// The journals, each with its digest J.plan beside it
    #[arg(value_name = "JOURNAL", required = true)]
    journals: Vec<PathBuf>,
    /// The new journal
    #[arg(short, long, value_name = "FILE")]
    output: PathBuf,
    #[command(flatten)]
    trust: Trust,
    /// What is done anyway, unless the journals are trusted; earlier versions had to be asked
    #[arg(long, hide = true, conflicts_with = "trust_journal")]
    recompute: bool,
}

impl Merge {
    pub fn run(&self) -> Result<(), Fault> {
        if self.output == Path::new("-") {
            return Err(Fault::Usage("-o -: a journal is written to a file, with its digest beside it; allowed: a file's name".into()));
        }
        if self.plan.extension().map_or(false, |e| e == "journal") {
            let plan = shown(&self.plan);
            return Err(Fault::Usage(format!("{}: the plan comes first: wilfnusk merge PLAN.toml JOURNAL.. -o FILE", plan)));
        }
        let (plan, _) = Files { plan: self.plan.clone(), journal: None }.read()?;
        if fs::symlink_metadata(&self.output).is_ok() {
            return Err(Fault::Files(format!("{}: the file exists, and nothing was written; name another", shown(&self.output))));
        }
        self.has_folder()?;
        let mut parts = Vec::new();
        for path in &self.journals {
            let mut journal = look(path)?;
            let keep = engine::recover(&plan, &journal).map_err(|r| explain::journal(&plan, path, &journal, r))?;
            journal.truncate(keep);
            let origin_known = keep <= HEADER_BYTES as usize || is_known(&plan, path)?;
            parts.push(Part { path, journal, origin_known });
        }
        let mut sentences = self.trust.parts(&plan, &parts)?;
        let merged = united(&plan, &parts, &mut sentences)?;
        engine::recover(&plan, &merged).map_err(|r| explain::journal(&plan, &self.output, &merged, r))?;
        // The digest first, or its absence: the new journal never stands beside one that vouches for lines of unknown origin.
        if !self.trust.trust_journal || parts.iter().all(|part| part.origin_known) {
            Digest::of(&plan).write(&self.output)?;
        } else {
            Digest::remove(&self.output)?;
            tell!("warning: {} has lines of unknown origin, so no {} is written", shown(&self.output), shown(&Digest::path(&self.output)));
        }
        write_whole(&self.output, &merged)?;
        sentences.push(self.result(&plan, &merged));
        sentences.into_iter().try_for_each(say)
    }
    /// Refuses, before any work, a new journal in a folder that does not exist, and a folder's name. Nothing is made there to try it: the first new
    /// name in that folder is synced with the digest.
    fn has_folder(&self) -> Result<(), Fault> {
        let folder = folder_of(&self.output);
        if fs::metadata(folder).map_or_else(|e| e.kind() == io::ErrorKind::NotFound, |now| !now.is_dir()) {
            let (output, folder) = (shown(&self.output), shown(folder));
            return Err(Fault::Files(format!("-o {}: there is no folder {}; make it, or name another", output, folder)));
        }
        Place::of(&self.output).map(drop).map_err(|e| files::fault(&self.output, &e))
    }
    /// How many chunks have a line in the new journal.
    fn result(&self, plan: &Plan, merged: &[u8]) -> String {
        let has_line = done(merged, plan.chunks());
        let count = has_line.iter().filter(|&&d| d).count();
        let about = format!("{}: {} of {} chunks have a line", shown(&self.output), grouped(count), grouped(plan.chunks()));
        match ranges(&has_line, false) {
            missing if missing.is_empty() => about,
            missing => format!("{}; missing: {}; `{}` works out the rest", about, missing, explain::command("sweep", plan, &self.output)),
        }
    }
}

/// The plan's header and each line of these right journals once, in the order in which they come. A sentence on what each of them adds.
fn united(plan: &Plan, parts: &[Part], sentences: &mut Vec<String>) -> Result<Vec<u8>, Fault> {
    let mut merged = engine::header(plan).map_err(|r| explain::plan(plan, r))?;
    let mut from: HashMap<u64, (&Path, usize, &[u8])> = HashMap::new();
    for Part { path, journal, .. } in parts {
        let before = from.len();
        for (i, line) in lines(journal).enumerate() {
            let chunk = chunk_of(line).expect("a line of a right journal");
            match from.get(&chunk) {
                None => {
                    from.insert(chunk, (path, i, line));
                    merged.extend_from_slice(line);
                }
                Some((_, _, same)) if *same == line => {}
                Some((other, j, theirs)) => {
                    return Err(Fault::Files(format!(
                        "chunk {} has two different lines, and nothing was written; without --trust-journal both are worked out again and the wrong one \
                         is named\n  {} in {}, line {}\n  {} in {}, line {}",
                        chunk,
                        digits(theirs),
                        shown(other),
                        j + 2,
                        digits(line),
                        shown(path),
                        i + 2
                    )));
                }
            }
        }
        sentences.push(format!(
            "{}: {}, {} of them new",
            shown(path),
            counted(lines(journal).count(), "line"),
            grouped(from.len() - before)
        ));
    }
    Ok(merged)
}

#[cfg(test)]
mod tests {
    use super::*;
    use crate::testing::{journal, small};

    fn part(name: &'static str, journal: Vec<u8>) -> Part<'static> {
        Part { path: Path::new(name), journal, origin_known: true }
    }
    fn merge(parts: &[&[u64]]) -> (Vec<u8>, Vec<String>) {
        let parts: Vec<_> = parts.iter().map(|chunks| part("j", journal(chunks))).collect();
        let mut sentences = Vec::new();
        (united(&small(), &parts, &mut sentences).unwrap(), sentences)
    }

    #[test]
    fn each_line_once_in_the_order_in_which_they_come() {
        let (merged, sentences) = merge(&[&[3, 1], &[], &[1, 0, 3], &[4, 2]]);
        assert_eq!(merged, journal(&[3, 1, 0, 4, 2]));
        assert_eq!(
            sentences,
            ["j: 2 lines, 2 of them new", "j: 0 lines, 0 of them new", "j: 3 lines, 1 of them new", "j: 2 lines, 2 of them new"]
        );
        assert_eq!(merge(&[]).0, journal(&[]));
        // A journal that was not begun adds nothing.
        assert_eq!(united(&small(), &[part("j", Vec::new())], &mut Vec::new()).unwrap(), journal(&[]));
    }
    #[test]
    fn two_lines_of_a_chunk_name_both_journals() {
        let mut other = journal(&[2, 1]);
        let last = other.len() - 2;
        other[last] = b'x';
        let parts = [part("a", journal(&[0, 1])), part("b", other)];
        let fault = united(&small(), &parts, &mut Vec::new()).unwrap_err().to_string();
        assert!(
            fault.starts_with("chunk 1 has two different lines") && fault.contains(" in a, line 3\n") && fault.ends_with("x in b, line 3"),
            "{}",
            fault
        );
    }
}
