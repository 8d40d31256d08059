//! The digest that stands beside a journal. Targets, positions, the tolerances after the first and a table's rolls are not in its header: J.plan has a
//! digest of every number of the plan, and shows which file was edited since. It knows the files that a journal was begun with, not its lines.
use crate::{
    explain,
    fault::Fault,
    files::{self, sync_folder, write_whole},
    journal::{is_digit, opened, read},
    plan::Plan,
    source::{shown, Source},
    tolerance::{common, Told},
};
use sha2::{Digest as _, Sha256};
use std::{
    ffi::OsString,
    fs, io,
    path::{Path, PathBuf},
};

/// The first line: this and the version.
const TITLE: &str = "wilfnusk plan ";
/// The version that is written. An older one shows that the lines rest on rolls that were not yet folded: it is known as a digest, and refused
/// beside lines.
const VERSION: u64 = 3;
const PARTS: [&str; 3] = ["settings", "targets", "ephemeris"];

/// Three digests: of the settings, of the targets' numbers, of the ephemeris' numbers; and the file of each.
#[derive(Debug, Clone, PartialEq, Eq)]
pub struct Digest {
    version: u64,
    digests: [String; 3],
    files: [String; 3],
}

impl Digest {
    pub fn of(plan: &Plan) -> Digest {
        let targets = hash(plan.targets.iter().map(bits));
        let ephemeris = hash(plan.times.iter().map(|&t| t as u64).chain(plan.suns.iter().chain(&plan.observers).map(bits)));
        let name = plan.path().file_name().unwrap_or_default().to_string_lossy();
        let files = [&name, &*plan.targets_file, &plan.ephemeris_file].map(one_line);
        Digest { version: VERSION, digests: [settings(plan), targets, ephemeris], files }
    }
    /// Where the digest of a journal stands.
    pub fn path(journal: &Path) -> PathBuf {
        let mut path = OsString::from(journal);
        path.push(".plan");
        path.into()
    }
    fn text(&self) -> String {
        let lines = (0..3).map(|i| format!("{} {} {}\n", PARTS[i], self.digests[i], self.files[i]));
        format!("{}{}\n{}", TITLE, self.version, lines.collect::<String>())
    }
    /// The digest beside a journal, if there is one. `lines_of`: the plan of the journal's lines, if it has some; without the digest they would have
    /// to be worked out again, and the message on a file that cannot be read says how.
    fn beside(journal: &Path, lines_of: Option<&Plan>) -> Result<Option<Digest>, Fault> {
        let path = Digest::path(journal);
        let bytes = match opened(&path) {
            // A file too large for a digest is read as one without a word, which is no digest either.
            Ok(file) => read(&path, &file)?.unwrap_or_default(),
            Err(e) if e.kind() == io::ErrorKind::NotFound => return Ok(None),
            Err(e) => return Err(files::fault(&path, &e)),
        };
        let again = lines_of.map_or(String::new(), |plan| format!(" and {}", worked_out_again(plan, journal)));
        // Bytes that are no text are no digest either.
        let source = Source::of(&path, bytes).or_else(|_| Source::of(&path, Vec::new()))?;
        Digest::parse(&source, &again).map(Some)
    }
    fn parse(source: &Source, again: &str) -> Result<Digest, Fault> {
        let mut lines = source.text.lines();
        let version = lines.next().and_then(version).unwrap_or(0);
        if version > VERSION {
            return Err(source.fault(
                0,
                format!("a digest of version {}, which a newer wilfnusk wrote and this one cannot read", version),
                &format!("version {}; use that program, or move the file away{}", VERSION, again),
            ));
        }
        let mut digest = Digest { version, digests: Default::default(), files: Default::default() };
        let mut good = version > 0;
        for i in 0..3 {
            let words: Vec<_> = lines.next().unwrap_or("").splitn(3, ' ').collect();
            good &= words.len() == 3 && words[0] == PARTS[i] && is_sha256(words[1]) && !words[2].is_empty();
            if good {
                digest.digests[i] = words[1].to_owned();
                digest.files[i] = words[2].to_owned();
            }
        }
        if good && lines.next().is_none() {
            Ok(digest)
        } else {
            Err(source.fault(0, "no digest of a plan", &format!("what `wilfnusk sweep` writes. Move the file away{}", again)))
        }
    }
    /// The files of this one whose numbers are not the other's.
    pub fn changed<'a>(&'a self, other: &Digest) -> Vec<&'a str> {
        (0..3).filter(|&i| self.digests[i] != other.digests[i]).map(|i| self.files[i].as_str()).collect()
    }
    /// Writes it beside a journal, whole or not at all. Only a digest is overwritten: another file of that name is a fault.
    pub fn write(&self, journal: &Path) -> Result<(), Fault> {
        match Digest::beside(journal, None)? {
            Some(there) if there == *self => Ok(()),
            _ => write_whole(&Digest::path(journal), self.text().as_bytes()),
        }
    }
    /// Removes the digest of a journal that is gone, which would vouch for lines that it does not know. Whether there was one.
    pub fn remove(journal: &Path) -> Result<bool, Fault> {
        let path = Digest::path(journal);
        match Digest::beside(journal, None)? {
            None => Ok(false),
            Some(_) => {
                let removed = fs::remove_file(&path).and_then(|()| sync_folder(&path));
                removed.map(|()| true).map_err(|e| files::fault(&path, &e))
            }
        }
    }
}

/// The version that a first line names.
fn version(line: &str) -> Option<u64> {
    let version = line.strip_prefix(TITLE)?.parse().ok()?;
    (line == format!("{}{}", TITLE, version)).then_some(version)
}

/// Whether a word is of the form that [`hash`] gives.
fn is_sha256(word: &str) -> bool {
    word.len() == 64 && word.as_bytes().iter().all(is_digit)
}

/// Whether a file begins as a digest does.
pub fn begins_as_digest(head: &[u8]) -> bool {
    head.starts_with(TITLE.as_bytes())
}

/// A file's name on one line of the digest.
fn one_line(name: &str) -> String {
    name.chars().map(|c| if c.is_control() { c.escape_default().to_string() } else { c.to_string() }).collect()
}

/// Compares the plan with the digest beside a journal that has lines. Whether there is one; one of another plan is refused.
pub fn is_known(plan: &Plan, journal: &Path) -> Result<bool, Fault> {
    let then = match Digest::beside(journal, Some(plan))? {
        Some(then) => then,
        None => return Ok(false),
    };
    if then.version < VERSION {
        return Err(unfolded(then.version, plan, journal));
    }
    let mut now = Digest::of(plan);
    // The settings that the header does not have: which rolls they are, and the tolerances after the first, wherever they stand.
    now.files[0] = match plan.told {
        _ if plan.names.len() < 2 => format!("`rolls` in {}", now.files[0]),
        Told::Column(_) => format!("`rolls` in {} or the column `tolerance` of {}", now.files[0], now.files[1]),
        Told::Number | Told::List => format!("`rolls` or `tolerance` in {}", now.files[0]),
    };
    let changed = now.changed(&then);
    if changed.is_empty() {
        return Ok(true);
    }
    Err(Fault::Files(format!(
        "{0}: its numbers are not those that {1} was begun with, as {2} shows; put the old file back, or sweep the new one \
         into a journal of its own with --journal. If the file is right and {2} is not, move {2} away and {3}",
        changed.join(", "),
        shown(journal),
        shown(&Digest::path(journal)),
        worked_out_again(plan, journal)
    )))
}

/// The refusal of lines beside a digest of an older version.
fn unfolded(version: u64, plan: &Plan, journal: &Path) -> Fault {
    Fault::Files(format!(
        "{1}, line 1, column 1: a digest of version {2}; allowed: version {3}. The lines of {0} were worked out by an earlier wilfnusk (before 0.3.0), \
         whose optimal rolls were not yet folded into 0 to 360, so some lines might come out differently now; nothing was changed\n  \
         to work all out again: sweep into another journal with --journal, or move {0} and {1} away and sweep\n  \
         to keep the lines: move {1} away and {4}",
        shown(journal),
        shown(&Digest::path(journal)),
        version,
        VERSION,
        worked_out_again(plan, journal)
    ))
}

/// What puts a new digest into the place of one that was moved away.
fn worked_out_again(plan: &Plan, journal: &Path) -> String {
    format!(
        "work every line out again with `{} --recompute --write-digest`, which writes a new digest if every line is the same",
        explain::command("check", plan, journal)
    )
}

/// Warns on standard error that lines which were not worked out again have no digest beside them.
pub fn warn_missing(plan: &Plan, journal: &Path) {
    tell!(
        "warning: {} is missing: nothing shows whether {} was made from these targets, positions, tolerances and rolls. To work every line out again: {} --recompute",
        shown(&Digest::path(journal)),
        shown(journal),
        explain::command("check", plan, journal)
    );
}

/// The settings' digest: n, whether a roll is configured, that roll or 0; then lists, each after the count of its numbers: tolerances, panels
/// (three numbers each), rolls. Even steps are given by n alone, and their list of rolls is empty. It stands last, so that a table of rolls
/// moves nothing before it.
///
/// The tolerances are one number where it is the same for all targets, so that it does not matter how the files give it, else one per target;
/// without targets +0, as the header has it.
fn settings(plan: &Plan) -> String {
    let (n, is_configured, roll) = (plan.rolls.count(), plan.configured_roll.is_some() as u64, bits(&plan.configured_roll.unwrap_or(0.0)));
    let tolerances = match common(&plan.tolerances) {
        Some(same) => vec![same],
        None if plan.tolerances.is_empty() => vec![0.0],
        None => plan.tolerances.clone(),
    };
    let list = |numbers: &[f64]| [vec![numbers.len() as u64], numbers.iter().map(bits).collect()].concat();
    hash([vec![n, is_configured, roll], list(&tolerances), list(&plan.panel), list(plan.rolls.table().unwrap_or(&[]))].concat())
}

/// A number's bits; one NaN stands for all, as in the journal's header.
pub fn bits(x: &f64) -> u64 {
    if x.is_nan() {
        0x7ff8_0000_0000_0000
    } else {
        x.to_bits()
    }
}

fn hash(words: impl IntoIterator<Item = u64>) -> String {
    let mut hash = Sha256::new();
    for word in words {
        hash.update(word.to_le_bytes());
    }
    hash.finalize().iter().map(|b| format!("{:02x}", b)).collect()
}

#[cfg(test)]
mod tests {
    use super::*;
    use crate::testing::plan;

    const TOML: &str = "targets = \"t.csv\"\nephemeris = \"e.csv\"\nrolls = 1\ntolerance = 10\n";
    const TARGETS: &str = "name,x,y,z\nA,1,0,0\nB,0,1,0\n";
    const EPHEMERIS: &str = "time,sun_x,sun_y,sun_z,observer_x,observer_y,observer_z\n2026-03-20T00:00:00Z,0,1,0,0,0,0\n";

    /// What the programs of versions 1 and 2 wrote for these files.
    const OLD: [&str; 2] = [
        "wilfnusk plan 1\n\
        settings 5e754224acbd7ed75550e75c950b02210a9ba34f0e4b182532ee82cdf068f5b0 plan.toml\n\
        targets e7c6bff0f84ed48b4f18ee4f3f45716a62d7b2c9d6000334483986fa86bbbe3d t.csv\n\
        ephemeris 0aa904f16e78fce6fddc61f3eba8c681186152119d04de730795ef52040e3888 e.csv\n",
        "wilfnusk plan 2\n\
        settings 839d7dfb8d119dcd36c4670a61e9227371d375e531cf4d9fdd4d100dffbd07c1 plan.toml\n\
        targets e7c6bff0f84ed48b4f18ee4f3f45716a62d7b2c9d6000334483986fa86bbbe3d t.csv\n\
        ephemeris 0aa904f16e78fce6fddc61f3eba8c681186152119d04de730795ef52040e3888 e.csv\n",
    ];

    fn digest(toml: &str, targets: &str, ephemeris: &str) -> Digest {
        Digest::of(&plan(toml, targets, ephemeris).unwrap())
    }
    /// What version 3 writes for these files: hashed as by version 2.
    fn new() -> String {
        OLD[1].replace("plan 2\n", "plan 3\n")
    }

    /// The settings as bytes put together by another program: 1, 0, 0; 1, 10.0; 3, 0.0, 1.0, 0.0; 0.
    #[test]
    fn one_tolerance_is_hashed_alike_however_it_is_given() {
        let without = TOML.replace("tolerance = 10\n", "");
        let column = TARGETS.replace("z\n", "z,tolerance\n").replace("0\n", "0,10\n");
        for (toml, targets) in [(TOML, TARGETS), (&(without.clone() + "tolerance = [10, 1e1]\n"), TARGETS), (&without, &column)] {
            assert_eq!(digest(toml, targets, EPHEMERIS).text(), new(), "{}", toml);
        }
    }
    #[test]
    fn an_older_digest_is_refused_beside_lines() {
        let folder = tempfile::tempdir().unwrap();
        let journal = folder.path().join("j");
        let path = Digest::path(&journal);
        for old in OLD {
            fs::write(&path, old).unwrap();
            // Whether the plan changed since or not.
            for toml in [TOML.to_owned(), TOML.replace("10", "11")] {
                let plan = plan(&toml, TARGETS, EPHEMERIS).unwrap();
                let fault = is_known(&plan, &journal).unwrap_err();
                let says = format!("j.plan, line 1, column 1: a digest of version {}; allowed: version 3. ", &old[14..15]);
                assert!(fault.status() == 3 && fault.to_string().contains(&says), "{}", fault);
            }
            assert_eq!(fs::read_to_string(&path).unwrap(), old);
            // Without lines it is a digest like any other: it is replaced, and may be removed.
            digest(TOML, TARGETS, EPHEMERIS).write(&journal).unwrap();
            assert_eq!(fs::read_to_string(&path).unwrap(), new());
            assert!(is_known(&plan(TOML, TARGETS, EPHEMERIS).unwrap(), &journal).unwrap());
            fs::write(&path, old).unwrap();
            assert!(Digest::remove(&journal).unwrap() && !path.exists());
        }
    }
    #[test]
    fn a_newer_version_and_another_title_are_refused() {
        let folder = tempfile::tempdir().unwrap();
        let journal = folder.path().join("j");
        let path = Digest::path(&journal);
        let same = plan(TOML, TARGETS, EPHEMERIS).unwrap();
        for (version, says) in
            [("4", "a digest of version 4, which a newer"), ("10", "a digest of version 10, which a newer"), ("0", "no digest of a plan")]
        {
            fs::write(&path, new().replace("plan 3", &format!("plan {}", version))).unwrap();
            let fault = is_known(&same, &journal).unwrap_err();
            assert!(fault.status() == 3 && fault.to_string().contains(says), "{}", fault);
            assert!(Digest::of(&same).write(&journal).is_err() && Digest::remove(&journal).is_err());
        }
        for title in ["wilfnusk plan", "wilfnusk plan ", "wilfnusk plan 03", "wilfnusk plan +3", "wilfnusk plan 3 ", "wilfnusk plan three"]
        {
            fs::write(&path, new().replace("wilfnusk plan 3", title)).unwrap();
            assert!(Digest::beside(&journal, None).unwrap_err().to_string().contains("no digest of a plan"), "{}", title);
        }
    }
    /// As a program of version 2 hashed it, too.
    #[test]
    fn every_nan_is_hashed_alike() {
        let without = TOML.replace("tolerance = 10\n", "");
        let column = TARGETS.replace("z\n", "z,tolerance\n").replace("A,1,0,0", "A,1,0,0,nan").replace("B,0,1,0", "B,0,1,0,-NaN");
        for (toml, targets) in
            [(TOML.replace("10", "nan"), TARGETS), (TOML.replace("10", "[nan, -nan]"), TARGETS), (without, column.as_str())]
        {
            let plan = plan(&toml, targets, EPHEMERIS).unwrap();
            assert_eq!(settings(&plan), "a1358abd4afafe6cf76725ec2d67b15dbe9196f02854e5337e083c9fb038c20d", "{}", toml);
        }
    }
    /// The fault of a plan beside the digest of another, which differs in the settings alone.
    fn fault_after(then: &Plan, now: &Plan) -> String {
        let folder = tempfile::tempdir().unwrap();
        let journal = folder.path().join("j");
        let digest = Digest::of(then);
        digest.write(&journal).unwrap();
        assert!(is_known(then, &journal).unwrap() && digest.digests[1..] == Digest::of(now).digests[1..]);
        let fault = is_known(now, &journal).unwrap_err();
        assert_eq!(fault.status(), 3);
        fault.to_string()
    }
    /// The second of each pair has another digest than the first.
    fn hashed_apart(read: impl Fn(&str) -> Plan, pairs: &[(&str, &str)]) {
        for (then, now) in pairs {
            let fault = fault_after(&read(then), &read(now));
            assert!(fault.starts_with("`rolls` or `tolerance` in plan.toml: its numbers are not those"), "{}", fault);
        }
    }
    /// Bytes put together by another program.
    #[test]
    fn tolerances_that_differ_are_all_hashed() {
        let read = |tolerance: &str| plan(&TOML.replace("10", tolerance), TARGETS, EPHEMERIS).unwrap();
        // 1, 0, 0; 2, 10.0, NaN; 3, 0.0, 1.0, 0.0; 0.
        assert_eq!(settings(&read("[10, nan]")), "e934991011da3d711366f3316cc99451ea276b79f88bee9dfbcc46e5ee9636d0");
        hashed_apart(
            read,
            &[
                ("10", "[10, 11]"),
                ("[10, 11]", "10"),
                ("[10, 11]", "[10, 11.000000000000002]"),
                ("[10, 0.0]", "[10, -0.0]"),
                ("[10, nan]", "[10, 10]"),
                ("[10, 11]", "[11, 10]"),
            ],
        );
    }
    /// Bytes put together by another program; even steps are hashed as by the programs before there were tables.
    #[test]
    fn a_table_of_rolls_is_hashed_last() {
        let read = |rolls: &str| plan(&TOML.replace("rolls = 1", &format!("rolls = {}", rolls)), TARGETS, EPHEMERIS).unwrap();
        // 2, 0, 0; 1, 10.0; 3, 0.0, 1.0, 0.0; and 0, or 2, 0.0, 15.5.
        assert_eq!(settings(&read("2")), "10b2efad041951a65c8327edc97b31e8751356e834201956d45500355fd97bf2");
        assert_eq!(settings(&read("[0, 15.5]")), "cd68ffdeec0c59ba8c1c2966983e4db02aea162825ef84271a936e6863654ef3");
        assert_eq!(settings(&read("[-0.0, 15.5]")), "d365948426dc30e043bbebc4d02a9875514c1bc6c2de7ca4533cf3d56c35b810");
        // The same numbers in other words.
        assert_eq!(settings(&read("[\n  0.0, # first\n  1.55e1,\n]")), settings(&read("[0, 15.5]")));
        // The even steps as a table are the same rolls, and another record of them.
        hashed_apart(read, &[("[0, 180]", "2"), ("2", "[0, 180]")]);
        hashed_apart(read, &[("[0, 15.5]", "[0, 15.500000000000002]"), ("[0, 15.5]", "[1, 15.5]"), ("[0, 15.5]", "[-0.0, 15.5]")]);
    }
    /// Of one target or none the header has the tolerance, so it can only be the rolls.
    #[test]
    fn only_what_may_have_changed_is_named() {
        let toml = TOML.replace("rolls = 1", "rolls = [0, 90]");
        for (targets, files) in [
            ("name,x,y,z\n", "`rolls` in plan.toml: its numbers"),
            ("name,x,y,z\nA,1,0,0\n", "`rolls` in plan.toml: its numbers"),
            (TARGETS, "`rolls` or `tolerance` in plan.toml: its numbers"),
        ] {
            let read = |toml: &str| plan(toml, targets, EPHEMERIS).unwrap();
            let fault = fault_after(&read(&toml), &read(&toml.replace("90", "91")));
            assert!(fault.starts_with(files), "{}", fault);
        }
    }
    #[test]
    fn a_column_that_changed_names_its_file() {
        let toml = TOML.replace("tolerance = 10\n", "");
        let column = |a: &str, b: &str| format!("name,x,y,z,tolerance\nA,1,0,0,{}\nB,0,1,0,{}\n", a, b);
        let folder = tempfile::tempdir().unwrap();
        let journal = folder.path().join("j");
        Digest::of(&plan(&toml, column("10", "11"), EPHEMERIS).unwrap()).write(&journal).unwrap();
        let written = fs::read_to_string(Digest::path(&journal)).unwrap();
        let list = plan(TOML.replace("10", "[10, 11]"), TARGETS, EPHEMERIS).unwrap();
        assert_eq!(Digest::of(&list).text(), written);
        for (targets, files) in [
            (column("10", "12"), "`rolls` in plan.toml or the column `tolerance` of t.csv: its numbers"),
            (column("12", "11"), "`rolls` in plan.toml or the column `tolerance` of t.csv: its numbers"),
            (column("10", "12").replace("0,1,0", "0,0,1"), "`rolls` in plan.toml or the column `tolerance` of t.csv, t.csv: its numbers"),
            (column("10", "11").replace("0,1,0", "0,0,1"), "t.csv: its numbers"),
        ] {
            let fault = is_known(&plan(&toml, &targets, EPHEMERIS).unwrap(), &journal).unwrap_err();
            assert!(fault.status() == 3 && fault.to_string().starts_with(files), "{}", fault);
        }
    }
    #[test]
    fn without_targets_the_tolerance_is_hashed_as_zero() {
        let read = |tolerance: &str| plan(&TOML.replace("10", tolerance), "name,x,y,z\n", EPHEMERIS).unwrap();
        let zero = Digest::of(&plan(&TOML.replace("10", "0"), TARGETS, EPHEMERIS).unwrap());
        for tolerance in ["10", "nan", "-0.0", "[]"] {
            assert_eq!(Digest::of(&read(tolerance)).digests[0], zero.digests[0]);
        }
    }

    #[test]
    fn a_changed_number_names_its_file() {
        let d = digest(TOML, TARGETS, EPHEMERIS);
        for (toml, targets, ephemeris, changed) in [
            (TOML.to_owned() + "panel = [0, 1.0, 0] # as before", TARGETS.replace('A', "a"), EPHEMERIS.replace(",0", ",0.0"), vec![]),
            (TOML.replace("10", "10.000000000000002"), TARGETS.into(), EPHEMERIS.into(), vec!["plan.toml"]),
            (TOML.to_owned() + "configured_roll = 0", TARGETS.into(), EPHEMERIS.into(), vec!["plan.toml"]),
            (TOML.into(), TARGETS.replace("0,1,0", "0,1,1e-300"), EPHEMERIS.into(), vec!["t.csv"]),
            (TOML.into(), "name,x,y,z\nB,0,1,0\nA,1,0,0\n".into(), EPHEMERIS.into(), vec!["t.csv"]),
            (TOML.into(), TARGETS.into(), EPHEMERIS.replace("00:00Z", "00:00.000000001Z"), vec!["e.csv"]),
            (TOML.into(), TARGETS.into(), EPHEMERIS.replace("1,0,0", "1,-0,0"), vec!["e.csv"]),
        ] {
            assert_eq!(digest(&toml, &targets, &ephemeris).changed(&d), changed);
        }
    }
    #[test]
    fn a_digest_that_was_written_is_read_again() {
        let folder = tempfile::tempdir().unwrap();
        let journal = folder.path().join("j");
        assert_eq!(Digest::beside(&journal, None).unwrap(), None);
        let d = digest(TOML, TARGETS, EPHEMERIS);
        d.write(&journal).unwrap();
        assert_eq!(Digest::beside(&journal, None).unwrap(), Some(d));
        let path = Digest::path(&journal);
        let text = fs::read_to_string(&path).unwrap();
        for cut in 0..text.len() - TARGETS.len() {
            fs::write(&path, &text[..cut]).unwrap();
            assert!(Digest::beside(&journal, None).is_err());
        }
    }
    #[test]
    fn a_digest_has_four_lines_and_no_more() {
        let folder = tempfile::tempdir().unwrap();
        let journal = folder.path().join("j");
        let d = digest(TOML, TARGETS, EPHEMERIS);
        let text = d.text();
        for same in [text.clone(), text.replace('\n', "\r\n"), text.trim_end().to_owned()] {
            fs::write(Digest::path(&journal), same).unwrap();
            assert_eq!(Digest::beside(&journal, None).unwrap(), Some(d.clone()));
        }
        let nameless = PARTS.map(|part| {
            let at = text.find(part).unwrap() + part.len() + 66;
            format!("{}{}", &text[..at], &text[at + text[at..].find('\n').unwrap()..])
        });
        let more = ["\n", "\r\n", " ", "x", "settings", &text].map(|more| text.clone() + more);
        for other in nameless.iter().chain(&more) {
            fs::write(Digest::path(&journal), other).unwrap();
            let read = Digest::beside(&journal, None).map_err(|e| e.to_string());
            assert!(matches!(&read, Err(e) if e.contains("no digest of a plan")), "{:?} of {}", read, other);
        }
    }
    #[test]
    fn a_name_of_two_lines_is_written_on_one() {
        let folder = tempfile::tempdir().unwrap();
        let journal = folder.path().join("j");
        let mut d = digest(TOML, TARGETS, EPHEMERIS);
        d.files = ["a\nb", " c\r", "\u{85}\té"].map(one_line);
        d.write(&journal).unwrap();
        assert_eq!(Digest::beside(&journal, None).unwrap(), Some(d));
        assert_eq!(fs::read_to_string(Digest::path(&journal)).unwrap().lines().count(), 4);
    }
    #[test]
    fn only_a_digest_is_overwritten_or_removed() {
        let folder = tempfile::tempdir().unwrap();
        let journal = folder.path().join("j");
        let (d, other) = (digest(TOML, TARGETS, EPHEMERIS), digest(&TOML.replace("10", "11"), TARGETS, EPHEMERIS));
        other.write(&journal).unwrap();
        d.write(&journal).unwrap();
        assert_eq!(Digest::beside(&journal, None).unwrap(), Some(d.clone()));
        assert!(Digest::remove(&journal).unwrap() && !Digest::remove(&journal).unwrap());
        let path = Digest::path(&journal);
        fs::write(&path, TOML).unwrap();
        assert!(d.write(&journal).is_err() && Digest::remove(&journal).is_err());
        assert_eq!(fs::read_to_string(&path).unwrap(), TOML);
    }
}
