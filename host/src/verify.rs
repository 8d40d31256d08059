//! The lines of journals worked out again and compared byte by byte, before they are listed, merged or added to.
//!
//! A journal that is right by document 01 has lines that its plan could give: another plan's lines, or a line with a changed digit, may be right too.
//! And J.plan tells which files a journal was begun with, not which lines stand in it now. So only working a line out again shows that it is the plan's.
use crate::{
    digest::{warn_missing, Digest},
    engine::{HEADER_BYTES, LINE_BYTES},
    explain,
    fault::Fault,
    journal::{chunk_of, lines},
    plan::Plan,
    progress::Progress,
    source::shown,
    stop,
    text::{counted, grouped},
    workers::{cores, Workers},
};
use clap::Args;
use rand::{rngs::StdRng, seq::index, SeedableRng};
use std::path::Path;

/// How many wrong lines of a journal are named, except by `check --recompute`, which names each.
const NAMED: usize = 5;

#[derive(Args)]
pub struct Trust {
    /// Use the journal's lines without working them out again; standard error and what is listed then say that they are not verified
    #[arg(long)]
    pub trust_journal: bool,
}

/// A right journal that is merged with others.
pub struct Part<'a> {
    pub path: &'a Path,
    pub journal: Vec<u8>,
    /// The J.plan beside it is this plan's, or it has no line.
    pub origin_known: bool,
}

/// What is known of the lines that windows are listed from.
#[derive(Clone, Copy, Debug, PartialEq, Eq)]
pub struct Evidence {
    /// Each line was worked out again and is the same, or was written by this process.
    pub verified: bool,
    /// The J.plan beside the journal is this plan's, or it has no line.
    pub origin_known: bool,
}

impl Evidence {
    /// What the table and the picture say of lines that were not worked out again.
    pub const UNVERIFIED: &'static str = "not verified: the journal's lines were not worked out again (--trust-journal)";
}

impl Trust {
    /// Works every line of a right journal out again, unless it is trusted. `origin_known`: whether its J.plan is this plan's.
    pub fn evidence(&self, plan: &Plan, path: &Path, journal: &[u8], origin_known: bool) -> Result<Evidence, Fault> {
        let all = Lines::all(path, journal);
        let verified = all.numbers.is_empty() || !self.trust_journal;
        if verified {
            same(plan, &[all], NAMED)?;
        }
        if !origin_known {
            match verified {
                true => tell!("{}", missing_but_same(plan, path)),
                false => warn_missing(plan, path),
            }
        }
        if !verified {
            tell!("{}", trusted(&shown(path)));
        }
        Ok(Evidence { verified, origin_known })
    }
    /// The same of the parts of a split sweep. What was compared, in words.
    pub fn parts(&self, plan: &Plan, parts: &[Part]) -> Result<Vec<String>, Fault> {
        let mut compared = Vec::new();
        if !self.trust_journal {
            compared = same(plan, &parts.iter().map(|part| Lines::all(part.path, &part.journal)).collect::<Vec<_>>(), NAMED)?;
        }
        for path in parts.iter().filter(|part| !part.origin_known).map(|part| part.path) {
            match self.trust_journal {
                true => warn_missing(plan, path),
                false => {
                    let digest = Digest::path(path);
                    tell!("{} is missing; every line of {} was worked out again and is the same", shown(&digest), shown(path));
                }
            }
        }
        let with_lines = parts.iter().filter(|part| lines(&part.journal).next().is_some());
        let names: Vec<_> = with_lines.map(|part| shown(part.path)).collect();
        if self.trust_journal && !names.is_empty() {
            tell!("{}", trusted(&names.join(", ")));
        }
        Ok(compared)
    }
}

/// The remark on a journal without a J.plan whose lines were all worked out again.
pub fn missing_but_same(plan: &Plan, journal: &Path) -> String {
    format!(
        "{} is missing; every line of {} was worked out again and is the same. To write it: {} --recompute --write-digest",
        shown(&Digest::path(journal)),
        shown(journal),
        explain::command("check", plan, journal)
    )
}

fn trusted(journals: &str) -> String {
    format!("warning: --trust-journal: the lines of {} were not worked out again", journals)
}

/// Some or all lines of a right journal.
pub struct Lines<'a> {
    path: &'a Path,
    journal: &'a [u8],
    /// Which lines, counted from 0.
    numbers: Vec<usize>,
    /// The same in words.
    which: String,
}

impl<'a> Lines<'a> {
    pub fn all(path: &'a Path, journal: &'a [u8]) -> Lines<'a> {
        let count = lines(journal).count();
        Lines { path, journal, numbers: (0..count).collect(), which: counted(count, "line") }
    }
    /// So many lines drawn at random, by a seed of one's own or a new one; all if there are no more.
    pub fn drawn(path: &'a Path, journal: &'a [u8], many: usize, seed: Option<u32>) -> Lines<'a> {
        let all = Lines::all(path, journal);
        let count = all.numbers.len();
        if many >= count {
            return all;
        }
        let seed = seed.unwrap_or_else(rand::random);
        let numbers = index::sample(&mut StdRng::seed_from_u64(seed.into()), count, many).into_vec();
        let which = format!("{} of {} lines, drawn with --seed {},", grouped(many), grouped(count), seed);
        Lines { numbers, which, ..all }
    }
    fn line(&self, number: usize) -> &'a [u8] {
        &self.journal[HEADER_BYTES as usize + number * LINE_BYTES as usize..][..LINE_BYTES as usize]
    }
    fn chunk(&self, number: usize) -> u64 {
        chunk_of(self.line(number)).expect("a line of a right journal")
    }
}

/// Works these lines out again. A sentence for each journal if all are the same; else a fault that names up to so many lines of each journal.
pub fn same(plan: &Plan, journals: &[Lines], named: usize) -> Result<Vec<String>, Fault> {
    let differ = differing(plan, journals)?;
    let looked_at = |lines: &Lines| format!("{}: {} worked out again", shown(lines.path), lines.which);
    let mut faults = String::new();
    for (lines, differ) in journals.iter().zip(&differ).filter(|(_, differ)| !differ.is_empty()) {
        let count = if differ.len() == 1 { "1 is".into() } else { format!("{} are", grouped(differ.len())) };
        faults += &format!("{}, and {} not the same; nothing was changed\n", looked_at(lines), count);
        for (number, due) in differ.iter().take(named) {
            let (chunk, has) = (lines.chunk(*number), digits(lines.line(*number)));
            faults += &format!("  line {}, chunk {}: the journal has {}, the plan gives {}\n", number + 2, chunk, has, digits(due));
        }
        if differ.len() > named {
            let command = explain::command("check", plan, lines.path);
            faults += &format!("  and {} more; `{} --recompute` names each\n", grouped(differ.len() - named), command);
        }
    }
    if faults.is_empty() {
        return Ok(journals.iter().map(|lines| format!("{}: each is the same", looked_at(lines))).collect());
    }
    let advice =
        "Such lines are damaged, or were made from other files or by a wilfnusk before 0.3.0. To work all out again, sweep into another \
        journal with --journal";
    Err(Fault::Differs(faults + advice))
}

/// The lines of each journal that are not what the plan gives, by their number, with what it gives.
fn differing(plan: &Plan, journals: &[Lines]) -> Result<Vec<Vec<(usize, Vec<u8>)>>, Fault> {
    // A chunk that several journals have is worked out once.
    let mut wanted: Vec<(u64, usize, usize)> = Vec::new();
    for (j, lines) in journals.iter().enumerate() {
        wanted.extend(lines.numbers.iter().map(|&number| (lines.chunk(number), j, number)));
    }
    wanted.sort_unstable();
    let mut chunks: Vec<u64> = wanted.iter().map(|(chunk, _, _)| *chunk).collect();
    chunks.dedup();

    let mut differ = vec![Vec::new(); journals.len()];
    if chunks.is_empty() {
        return Ok(differ);
    }
    let mut left = wanted.as_slice();
    let mut progress = Progress::again(chunks.len());
    let take = |run: &[u64], again: &[u8]| {
        for (chunk, due) in run.iter().zip(again.chunks_exact(LINE_BYTES as usize)) {
            while let Some(((_, j, number), after)) = left.split_first().filter(|(wanted, _)| wanted.0 == *chunk) {
                if journals[*j].line(*number) != due {
                    differ[*j].push((*number, due.to_vec()));
                }
                left = after;
            }
        }
        progress.add(run.len());
        Ok(())
    };
    let workers = Workers { jobs: cores(), most: None };
    let worked = stop::while_listening(|| workers.work(plan, &chunks, stop::asked, take));
    progress.end();
    worked?;
    if !left.is_empty() || stop::asked() {
        let names: Vec<_> = journals.iter().map(|lines| shown(lines.path)).collect();
        let names = names.join(", ");
        return Err(Fault::Stopped(format!("stopped while the lines of {} were worked out again; nothing was changed", names)));
    }
    differ.iter_mut().for_each(|lines| lines.sort_unstable());
    Ok(differ)
}

/// A line without its end.
pub fn digits(line: &[u8]) -> String {
    String::from_utf8_lossy(&line[..line.len() - 1]).into_owned()
}

#[cfg(test)]
mod tests {
    use super::*;
    use crate::testing::{journal, small};
    use proptest::prelude::*;

    /// Another last digit in this line, counted from 0.
    fn spoil(journal: &mut [u8], number: usize) {
        let at = HEADER_BYTES as usize + number * LINE_BYTES as usize + 31;
        journal[at] = if journal[at] == b'0' { b'1' } else { b'0' };
    }

    proptest! {
        #![proptest_config(ProptestConfig::with_cases(32))]
        #[test]
        fn any_lines_in_any_order_are_worked_out_again(order in Just((0..5u64).collect::<Vec<_>>()).prop_shuffle(), count in 0usize..=5, wrong in 0usize..5) {
            let (plan, path) = (small(), Path::new("j"));
            let mut journal = journal(&order[..count]);
            let sentence = format!("j: {} worked out again: each is the same", counted(count, "line"));
            prop_assert_eq!(same(&plan, &[Lines::all(path, &journal)], 5).unwrap(), vec![sentence]);
            if wrong < count {
                spoil(&mut journal, wrong);
                let fault = same(&plan, &[Lines::all(path, &journal)], 5).unwrap_err();
                let named = format!("and 1 is not the same; nothing was changed\n  line {}, chunk {}: the journal has ", wrong + 2, order[wrong]);
                prop_assert!(fault.status() == 1 && fault.to_string().contains(&named), "{}", fault);
            }
        }
    }
    #[test]
    fn lines_of_several_journals_are_compared_each_with_its_own() {
        let plan = small();
        let [mut a, b, mut c] = [journal(&[3, 1, 0]), journal(&[]), journal(&[1, 4, 3])];
        let differ = |a: &[u8], c: &[u8]| {
            let journals = [a, &b, c].map(|bytes| Lines::all(Path::new("j"), bytes));
            differing(&plan, &journals)
                .unwrap()
                .into_iter()
                .map(|lines| lines.iter().map(|(number, _)| *number).collect())
                .collect::<Vec<Vec<_>>>()
        };
        assert!(differ(&a, &c).concat().is_empty());
        spoil(&mut c, 0);
        assert_eq!(differ(&a, &c), [vec![], vec![], vec![0]]);
        spoil(&mut a, 2);
        spoil(&mut a, 0);
        assert_eq!(differ(&a, &c), [vec![0, 2], vec![], vec![0]]);
    }
    #[test]
    fn a_sample_has_each_line_once_and_is_drawn_again_by_its_seed() {
        let plan = small();
        let mut journal = journal(&[0, 1, 2, 3, 4]);
        (0..5).for_each(|number| spoil(&mut journal, number));
        let drawn = |many, seed| differing(&plan, &[Lines::drawn(Path::new("j"), &journal, many, seed)]).unwrap().remove(0);
        assert!((0..20).all(|seed| drawn(3, Some(seed)).len() == 3 && drawn(3, Some(seed)) == drawn(3, Some(seed))));
        assert!((1..20).any(|seed| drawn(3, Some(seed)) != drawn(3, Some(0))));
        assert_eq!(drawn(9, None).len(), 5);
    }
}
