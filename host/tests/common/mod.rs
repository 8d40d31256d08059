//! A folder with a plan whose marks are chosen, and runs of the program in it.
// Each file of tests uses its part.
#![allow(dead_code)]

use std::{
    env, fs,
    path::PathBuf,
    process::{Child, Command, Output, Stdio},
    thread::sleep,
    time::{Duration, Instant},
};
use tempfile::TempDir;

pub const HEADER: usize = 107;
pub const LINE: usize = 33;

pub struct Folder(TempDir);

impl Folder {
    /// A time each minute from 2026-03-20T00:00:00Z on, marked where the text has 1; each of the targets looks along x.
    pub fn new(targets: &[&str], marks: &str, settings: &str) -> Folder {
        let folder = Folder(tempfile::tempdir().unwrap());
        folder.write("plan.toml", &format!("targets = \"t.csv\"\nephemeris = \"e.csv\"\nrolls = 1\n{}", settings));
        let rows = targets.iter().map(|name| format!("\"{}\",1,0,0\n", name));
        folder.write("t.csv", &format!("name,x,y,z\n{}", rows.collect::<String>()));
        let sun = |mark| if mark == '0' { "0,1,0" } else { "0,0,1" };
        let rows = marks.chars().enumerate().map(|(j, mark)| format!("2026-03-20T{:02}:{:02}:00Z,{},0,0,0\n", j / 60, j % 60, sun(mark)));
        folder.write("e.csv", &format!("time,sun_x,sun_y,sun_z,observer_x,observer_y,observer_z\n{}", rows.collect::<String>()));
        folder
    }
    /// Two plans of 3 targets at 100 times, 300 cells in 5 chunks, which have the same journal header: other.toml differs from plan.toml in the
    /// position of target C alone, a number of t.csv that is another in other.csv.
    pub fn of_two_plans() -> Folder {
        let folder = Folder(tempfile::tempdir().unwrap());
        folder.plan("plan.toml", "t.csv");
        folder.write("t.csv", "name,x,y,z\nA,1,0,0\nB,0,0.6,0.8\nC,0,-1,0\n");
        folder.plan("other.toml", "other.csv");
        folder.write("other.csv", "name,x,y,z\nA,1,0,0\nB,0,0.6,0.8\nC,0,0,-1\n");
        folder.write("e.csv", ephemeris(100));
        folder
    }
    /// A plan file with 8 rolls and these targets, at the times of e.csv.
    pub fn plan(&self, name: &str, targets: &str) {
        self.write(name, format!("targets = \"{}\"\nephemeris = \"e.csv\"\nrolls = 8\ntolerance = 15\n", targets));
    }
    pub fn path(&self, name: &str) -> PathBuf {
        self.0.path().join(name)
    }
    pub fn write(&self, name: &str, bytes: impl AsRef<[u8]>) {
        fs::write(self.path(name), bytes).unwrap();
    }
    pub fn read(&self, name: &str) -> String {
        fs::read_to_string(self.path(name)).unwrap()
    }
    pub fn has(&self, name: &str) -> bool {
        fs::symlink_metadata(self.path(name)).is_ok()
    }
    pub fn remove(&self, name: &str) {
        fs::remove_file(self.path(name)).unwrap();
    }
    pub fn copy(&self, from: &str, to: &str) {
        fs::copy(self.path(from), self.path(to)).unwrap();
    }
    /// The header and lines of a journal, in an order that does not tell which was worked out first.
    pub fn sorted(&self, journal: &str) -> Vec<String> {
        let mut lines: Vec<_> = self.read(journal).lines().map(str::to_owned).collect();
        lines.sort();
        lines
    }
    /// Every file and what it holds.
    pub fn all(&self) -> Vec<(String, Vec<u8>)> {
        let entries = fs::read_dir(self.0.path()).unwrap().map(|entry| entry.unwrap());
        let mut all: Vec<_> = entries.map(|e| (e.file_name().into_string().unwrap(), fs::read(e.path()).unwrap_or_default())).collect();
        all.sort();
        all
    }
    pub fn command(&self, words: &[&str]) -> Command {
        let mut command = Command::new(program());
        command.args(words).current_dir(self.0.path());
        command
    }
    pub fn run(&self, words: &[&str]) -> Ended {
        Ended::of(self.command(words).output().unwrap())
    }
    /// A run whose standard output nobody reads.
    pub fn run_unread(&self, words: &str) -> Ended {
        let mut command = self.command(&words.split(' ').collect::<Vec<_>>());
        let mut child = command.stdin(Stdio::null()).stdout(Stdio::piped()).stderr(Stdio::piped()).spawn().unwrap();
        drop(child.stdout.take());
        Ended::of_child(child)
    }
    /// The same from a shell's line, where $W is the program.
    pub fn shell(&self, line: &str) -> Ended {
        Ended::of(self.shell_output(line))
    }
    pub fn shell_output(&self, line: &str) -> Output {
        let mut command = Command::new("sh");
        command.args(["-c", line]).env("W", program()).current_dir(self.0.path()).output().unwrap()
    }
    pub fn swept(self) -> Folder {
        assert_eq!(self.run(&["sweep", "plan.toml", "-q"]).status, 0);
        self
    }
}

/// A run with the words of this text, none of which has a space.
pub fn run(f: &Folder, words: &str) -> Ended {
    f.run(&words.split(' ').collect::<Vec<_>>())
}
/// What such a run prints, which must end with 0.
pub fn done(f: &Folder, words: &str) -> String {
    let ended = run(f, words);
    assert_eq!(ended.status, 0, "{}: {}", words, ended.stderr);
    ended.stdout
}
/// Each command that reads a plan says this alone of one that cannot be taken, and no file is written.
#[track_caller]
pub fn refused_by_every_command(f: &Folder, status: i32, says: &str) {
    let before = f.all();
    for words in [
        "check plan.toml",
        "check plan.toml --recompute --write-digest",
        "status plan.toml --json",
        "sweep plan.toml --csv s.csv",
        "windows plan.toml --csv -",
        "mask plan.toml --roll 30",
        "mask plan.toml",
        "regard plan.toml --sample 3",
        "regard plan.toml --sample 3 --roll 30",
        "rolls plan.toml --csv r.csv",
        "cost plan.toml",
        "merge plan.toml a.journal -o all.journal",
    ] {
        let ended = run(f, words);
        assert_eq!((ended.status, ended.stdout, ended.stderr), (status, String::new(), format!("wilfnusk: {}\n", says)), "{}", words);
    }
    assert!(f.all() == before, "a file was written: {}", says);
}
/// Each command that reads the lines of plan.journal says that what this names has other numbers than when it was begun, and no file is changed.
#[track_caller]
pub fn refused_as_another_plan(f: &Folder, changed: &str) {
    let before = f.all();
    let says = format!(
        "wilfnusk: {}: its numbers are not those that plan.journal was begun with, as plan.journal.plan shows; put the old file back, or sweep \
         the new one into a journal of its own with --journal. If the file is right and plan.journal.plan is not, move plan.journal.plan away and work \
         every line out again with `wilfnusk check plan.toml --recompute --write-digest`, which writes a new digest if every line is the same\n",
        changed
    );
    for words in [
        "check plan.toml",
        "check plan.toml --recompute --write-digest",
        "status plan.toml",
        "status plan.toml --json",
        "windows plan.toml",
        "mask plan.toml",
        "sweep plan.toml",
        "sweep plan.toml --part 2/2",
        "merge plan.toml plan.journal -o all.journal",
    ] {
        run(f, words).says(3, &[&says]);
    }
    assert!(f.all() == before, "a file was changed");
}
/// A number as messages write it.
pub fn grouped(number: usize) -> String {
    if number < 1000 {
        number.to_string()
    } else {
        format!("{},{:03}", grouped(number / 1000), number % 1000)
    }
}
pub fn json(text: &str) -> serde_json::Value {
    serde_json::from_str(text).unwrap()
}
/// A time each minute from 2026-03-20T00:00:00Z on; the Sun turns, so that marks come in runs.
pub fn ephemeris(times: usize) -> String {
    let mut text = String::from("time,sun_x,sun_y,sun_z,observer_x,observer_y,observer_z\n");
    for j in 0..times {
        let ((s, c), z) = ((j as f64 * 0.3).sin_cos(), (j as f64 * 0.7).cos());
        text += &format!("2026-03-20T{:02}:{:02}:00Z,{},{},{},0,0,0\n", j / 60, j % 60, c, s, 0.4 * z);
    }
    text
}
/// The documents on the program, one after the other, and the same with each run of spaces and line ends as one space.
pub fn document() -> (String, String) {
    let read = |name| fs::read_to_string(format!("{}/../docs/{}.md", env!("CARGO_MANIFEST_DIR"), name)).unwrap();
    let text = ["GUIDE", "PLAN_FILE", "JOURNAL", "INSTALL"].map(read).concat();
    let unwrapped = text.split_whitespace().collect::<Vec<_>>().join(" ");
    (text, unwrapped)
}

/// The journal with another mask digit in the line with this number, from 0. The line is still right: as many cells are marked.
pub fn changed(journal: &str, number: usize) -> String {
    let mask = HEADER + number * LINE + 8;
    let at = (mask..mask + 16).rev().find(|&i| !["0", "f"].contains(&&journal[i..=i])).expect("a mask of some cells");
    let digit = u8::from_str_radix(&journal[at..=at], 16).unwrap();
    format!("{}{:x}{}", &journal[..at], (digit << 1 | digit >> 3) & 15, &journal[at + 1..])
}

/// Waits until the program in this process listens for SIGTERM, the last of its signals, or was started with it ignored.
pub fn until_it_listens(child: &Child) {
    until(child, "listens for signals", |field| (hex(field("SigCgt:")) | hex(field("SigIgn:"))) >> 14 & 1 == 1);
}
/// Waits until the program in this process works chunks out, which it does on other threads.
pub fn until_it_works(child: &Child) {
    until(child, "works chunks out", |field| field("Threads:").parse::<u32>().unwrap() > 1);
}
fn until(child: &Child, what: &str, holds: impl Fn(&dyn Fn(&str) -> String) -> bool) {
    let begun = Instant::now();
    let now = || {
        let text = fs::read_to_string(format!("/proc/{}/status", child.id())).unwrap();
        let field = |name: &str| text.lines().find_map(|line| line.strip_prefix(name)).unwrap().trim().to_owned();
        text.starts_with("Name:\twilfnusk\n") && holds(&field)
    };
    while !now() {
        assert!(begun.elapsed() < Duration::from_secs(10), "it never {}", what);
        sleep(Duration::from_millis(2));
    }
}
fn hex(digits: String) -> u64 {
    u64::from_str_radix(&digits, 16).unwrap()
}
pub fn signal(child: &Child, signal: &str) {
    assert!(Command::new("kill").args(["-s", signal, &child.id().to_string()]).status().unwrap().success());
}

/// The program that was built, or what WILFNUSK names.
fn program() -> PathBuf {
    env::var_os("WILFNUSK").map_or_else(|| env!("CARGO_BIN_EXE_wilfnusk").into(), PathBuf::from)
}

#[derive(Debug)]
pub struct Ended {
    pub status: i32,
    pub stdout: String,
    pub stderr: String,
}

impl Ended {
    /// Standard error without the warning that the test's Sun is not where an almanac has it.
    pub fn said(&self) -> String {
        self.stderr.lines().filter(|line| !line.starts_with("warning: e.csv, ")).map(|line| line.to_owned() + "\n").collect()
    }
    fn of(output: Output) -> Ended {
        let text = |bytes: Vec<u8>| String::from_utf8(bytes).unwrap();
        Ended { status: output.status.code().unwrap_or(-1), stdout: text(output.stdout), stderr: text(output.stderr) }
    }
    /// Waits for a child that prints little, and fails if it does not end.
    pub fn of_child(mut child: Child) -> Ended {
        let begun = Instant::now();
        while child.try_wait().unwrap().is_none() {
            if begun.elapsed() > Duration::from_secs(20) {
                child.kill().unwrap();
                panic!("it did not end");
            }
            sleep(Duration::from_millis(3));
        }
        Ended::of(child.wait_with_output().unwrap())
    }
    /// Ended with this status and said these words on standard error.
    #[track_caller]
    pub fn says(&self, status: i32, words: &[&str]) {
        assert!(
            self.status == status && words.iter().all(|word| self.stderr.contains(word)),
            "not {} with {:?}: {:#?}",
            status,
            words,
            self
        );
    }
}
