//! Where a listing goes: files, which are whole or not written at all, and then standard output.
use crate::{
    digest::{begins_as_digest, Digest},
    engine::{HEADER_BYTES, LINE_BYTES},
    fault::Fault,
    files::{self, buffered, write_output, Place},
    journal::{is_digit, is_line, lines},
    listing::Listing,
    plan::Plan,
    selection::Selected,
    source::shown,
    stop, svg,
    text::grouped,
};
use clap::Args;
use std::{
    fs::File,
    io::{self, Write},
    os::{
        fd::{AsFd, BorrowedFd},
        unix::ffi::OsStrExt,
    },
    path::{Path, PathBuf},
};

#[derive(Args)]
pub struct Outputs {
    /// Write the windows as CSV ("-" for standard output, in place of the table). A single clear sample is no window, unless it is the last
    #[arg(long, value_name = "FILE")]
    csv: Option<PathBuf>,
    /// Write the windows and totals as JSON
    #[arg(long, value_name = "FILE")]
    json: Option<PathBuf>,
    /// Write a timeline as SVG, of at most 400 targets
    #[arg(long, value_name = "FILE")]
    svg: Option<PathBuf>,
    /// Write the totals of each target and of all as CSV
    #[arg(long, value_name = "FILE")]
    summary: Option<PathBuf>,
    /// Leave the table out
    #[arg(long, short)]
    quiet: bool,
}

/// An option that asks for an output, and where it shall go.
struct Asked<'a> {
    option: &'static str,
    path: &'a Path,
    write: fn(&Listing, &mut dyn Write) -> io::Result<()>,
}

impl Asked<'_> {
    fn on_stdout(&self) -> bool {
        self.path == Path::new("-")
    }
}

impl Outputs {
    fn asked(&self) -> Vec<Asked<'_>> {
        type Write = fn(&Listing, &mut dyn io::Write) -> io::Result<()>;
        let all: [(_, _, Write); 4] = [
            ("--csv", &self.csv, |listing, out| listing.csv(out)),
            ("--json", &self.json, |listing, out| listing.json(out)),
            ("--svg", &self.svg, |listing, out| svg::write(listing, out)),
            ("--summary", &self.summary, |listing, out| listing.summary(out)),
        ];
        all.into_iter().filter_map(|(option, path, write)| path.as_deref().map(|path| Asked { option, path, write })).collect()
    }
    /// Refuses, before any work, what could not be written or would overwrite a file that the command needs.
    pub fn check(&self, plan: &Plan, journal: &Path, selected: &Selected) -> Result<(), Fault> {
        let (on_stdout, to_files): (Vec<_>, Vec<_>) = self.asked().into_iter().partition(Asked::on_stdout);
        if let [first, second, ..] = &on_stdout[..] {
            let (a, b) = (first.option, second.option);
            return Err(Fault::Usage(format!("{} - and {} -: only one can go to standard output; name a file for the other", a, b)));
        }
        if let (Some(path), true) = (&self.svg, selected.targets.len() > svg::MOST_TARGETS) {
            return Err(Fault::Usage(format!(
                "--svg {}: a picture of {} targets would be too tall to read; allowed: at most {}; select some with --target, which takes names and \
                 patterns such as 'M *'",
                shown(path),
                grouped(selected.targets.len()),
                svg::MOST_TARGETS
            )));
        }
        can_be_written(to_files.iter().map(|asked| (asked.option, asked.path)), plan, journal)
    }
    /// Writes the files, then the table or what takes its place: nobody need read that.
    pub fn write(&self, listing: &Listing) -> Result<(), Fault> {
        let (on_stdout, to_files): (Vec<_>, Vec<_>) = self.asked().into_iter().partition(Asked::on_stdout);
        for Asked { path, write, .. } in &to_files {
            write_output(path, |out| write(listing, out))?;
            tell!("wrote {}", shown(path));
        }
        // What follows can be left at any byte.
        stop::end_at_once();
        if stop::asked() {
            return Err(Fault::Stopped("stopped".into()));
        }
        let table = !self.quiet && on_stdout.is_empty();
        if !table && !self.asked().is_empty() {
            if let Some(note) = listing.single_note() {
                tell!("{}", note);
            }
        }
        let done = match on_stdout.first() {
            Some(Asked { write, .. }) => buffered(io::stdout().lock(), |out| write(listing, out)),
            None if table => buffered(io::stdout().lock(), |out| listing.table(out)),
            None => Ok(()),
        };
        done.map_err(Fault::output)
    }
    /// What a sweep that lacks lines leaves unwritten, in words; and which of these files are older ones.
    pub fn unwritten(&self) -> Option<String> {
        let asked = self.asked();
        let joined = |words: Vec<String>, one, more| {
            Some((words.join(", "), if words.len() == 1 { one } else { more })).filter(|_| !words.is_empty())
        };
        let all = asked.iter().map(|asked| format!("{} {}", asked.option, shown(asked.path))).collect();
        let older = asked.iter().filter(|asked| !asked.on_stdout() && asked.path.is_file()).map(|asked| shown(asked.path));
        let (all, were) = joined(all, "was", "were")?;
        let mut text = format!("{} {} not written, as windows are listed of a whole sweep only", all, were);
        if let Some((older, are)) = joined(older.collect(), "is an older file", "are older files") {
            text += &format!("\n{} {}, not of this sweep", older, are);
        }
        Some(text)
    }
}

/// Refuses outputs, each an option and the file that it names, that could not be written or would overwrite the plan's files, the journal, its
/// digest or each other.
pub fn can_be_written<'a>(outputs: impl Iterator<Item = (&'static str, &'a Path)>, plan: &Plan, journal: &Path) -> Result<(), Fault> {
    let needed = [
        ("the plan", plan.path()),
        ("the plan's targets", &plan.targets_sheet.source.path),
        ("the plan's ephemeris", &plan.ephemeris_sheet.source.path),
        ("the journal", journal),
        ("the journal's digest", &Digest::path(journal)),
    ];
    // A file that is not there and cannot be made is no output's either.
    let mut taken: Vec<_> = needed.iter().filter_map(|(what, path)| Place::of(path).ok().map(|place| (*what, place))).collect();
    let open = |fd: BorrowedFd| fd.try_clone_to_owned().ok().map(File::from);
    let streams = [("standard output", open(io::stdout().as_fd())), ("standard error", open(io::stderr().as_fd()))];
    for (option, path) in outputs {
        let usage = |text: String| Err(Fault::Usage(format!("{} {}: {}", option, shown(path), text)));
        let place = Place::of(path).map_err(|e| files::fault(path, &e))?;
        if let Some((what, _)) = taken.iter().find(|(_, other)| place.is(other)) {
            return usage(format!("this is the file of {}; name another", what));
        }
        if let Some((what, _)) = streams.iter().find(|(_, file)| file.as_ref().map_or(false, |file| place.is_open(file))) {
            return usage(format!("{} goes into this file; name another, or \"-\" for standard output", what));
        }
        if let Some(sign) = of_a_sweep(path, &place).map_err(|e| files::fault(path, &e))? {
            return usage(format!("this file {}, and is not overwritten; name another, or remove it first", sign));
        }
        place.try_write().map_err(|e| files::fault(path, &e))?;
        if stop::asked() {
            return Err(Fault::Stopped("stopped".into()));
        }
        taken.push((option, place));
    }
    Ok(())
}

/// The fewest digits that are taken for the start of a journal's header where the file ends with them.
const HEADER_START: usize = 24;

/// How much of a file is searched for a chunk line.
const SEARCHED: u64 = 1 << 16;

/// The sign by which a plain file that stands in an output's place is a journal or a digest, damaged or not.
fn of_a_sweep(path: &Path, place: &Place) -> io::Result<Option<String>> {
    let Some(existing) = place.existing() else { return Ok(None) };
    let head = place.head(SEARCHED)?;
    if let Some(what) = begins_as(&head) {
        return Ok(Some(format!("begins as {} does", what)));
    }
    // By the name that was given, too, which may be a link.
    let ends_with = |end: &&&str| [path, existing].iter().any(|name| name.as_os_str().as_bytes().ends_with(end.as_bytes()));
    if let Some(end) = [".journal", ".journal.plan"].iter().find(ends_with) {
        return Ok(Some(format!("has a name that ends with {}", end)));
    }
    let line = lines(&head).position(is_line).map(|i| HEADER_BYTES as usize + i * LINE_BYTES as usize);
    Ok(line.map(|at| format!("has a chunk line of a journal at byte {}", grouped(at + 1))))
}

/// What a file that begins so is, if it belongs to a sweep. No CSV, JSON or SVG begins so.
fn begins_as(head: &[u8]) -> Option<&'static str> {
    let digits = head.iter().take_while(|byte| is_digit(byte)).count();
    let is_header = digits + 1 == HEADER_BYTES as usize && head.get(digits) == Some(&b'\n');
    if is_header || digits == head.len() && (HEADER_START..HEADER_BYTES as usize).contains(&digits) {
        Some("a journal")
    } else if begins_as_digest(head) {
        Some("the digest of a journal (J.plan)")
    } else {
        None
    }
}

#[cfg(test)]
mod tests {
    use super::*;
    use crate::{selection::Selection, testing::small};

    fn outputs(csv: &str, json: &str) -> Outputs {
        let path = |text: &str| if text.is_empty() { None } else { Some(PathBuf::from(text)) };
        Outputs { csv: path(csv), json: path(json), svg: None, summary: None, quiet: true }
    }

    #[test]
    fn outputs_that_cannot_be_written_are_refused_before_any_work() {
        let plan = small();
        let folder = tempfile::tempdir().unwrap();
        let at = |name: &str| folder.path().join(name).to_str().unwrap().to_owned();
        let journal = folder.path().join("j");
        let selected = Selection::default().of(&plan).unwrap();
        let status = |csv: &str, json: &str| outputs(csv, json).check(&plan, &journal, &selected).map_err(|fault| fault.status());
        assert_eq!(status("", ""), Ok(()));
        assert_eq!(status("-", &at("a")), Ok(()));
        assert_eq!(status("-", "-"), Err(2));
        assert_eq!(status(&at("a"), &at("a")), Err(2));
        // By another path, and before any of the two is there.
        assert_eq!(status(&at("a"), &at("./a")), Err(2));
        for needed in ["j", "j.plan"] {
            assert_eq!(status(&at(needed), ""), Err(2), "{}", needed);
        }
        assert_eq!(status(&at("none/a"), ""), Err(3));
        assert_eq!(status(folder.path().to_str().unwrap(), ""), Err(3));
        // It only looked.
        assert_eq!(std::fs::read_dir(folder.path()).unwrap().count(), 0);
    }
    #[test]
    fn outputs_that_are_not_written_are_named_with_older_files_in_their_place() {
        let words = "not written, as windows are listed of a whole sweep only";
        assert_eq!(outputs("", "").unwritten(), None);
        assert_eq!(outputs("w.csv", "").unwritten().unwrap(), format!("--csv w.csv was {}", words));
        assert_eq!(outputs("w.csv", "-").unwritten().unwrap(), format!("--csv w.csv, --json - were {}", words));
        let older = "Cargo.toml is an older file, not of this sweep";
        assert_eq!(outputs("Cargo.toml", "w").unwritten().unwrap(), format!("--csv Cargo.toml, --json w were {}\n{}", words, older));
        assert!(outputs("Cargo.toml", "src/main.rs")
            .unwritten()
            .unwrap()
            .ends_with("\nCargo.toml, src/main.rs are older files, not of this sweep"));
    }
}
