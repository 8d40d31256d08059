//! A machine: a folder with a plan and its journal, on which the program runs until its power is cut.
use crate::{
    case::{Case, CATALOGUE_HEAD},
    trace::run_to_limit,
};
use std::{
    env, fs, io,
    os::unix::process::{CommandExt, ExitStatusExt},
    path::{Path, PathBuf},
    process::{Child, Command, Output, Stdio},
    thread::sleep,
    time::Duration,
};

pub struct Machine<'a> {
    pub case: &'a Case,
    pub folder: PathBuf,
    pub way: Way,
}

/// How a sweep shares and writes its work, which must make no difference to the journal: on how many threads, and after at most how many chunks
/// it writes.
#[derive(Clone, Copy, Debug)]
pub struct Way {
    pub jobs: u32,
    pub range: Option<u32>,
}

/// Ways to sweep. Every number of jobs is there with a write for each line, and with as many lines per write as the program chooses: of a small plan all
/// of them, without a thread.
pub const WAYS: [Way; 6] = [
    Way { jobs: 1, range: Some(1) },
    Way { jobs: 2, range: None },
    Way { jobs: 5, range: Some(1) },
    Way { jobs: 1, range: None },
    Way { jobs: 2, range: Some(1) },
    Way { jobs: 5, range: None },
];

/// How a run ended.
#[derive(Debug)]
pub struct Ended {
    /// The exit status, or the signal that ended it, negated.
    pub status: i32,
    pub stdout: Vec<u8>,
    pub stderr: String,
}

/// The program: beside this one, or what WILFNUSK names.
pub fn program() -> PathBuf {
    env::var_os("WILFNUSK").map_or_else(|| env::current_exe().unwrap().with_file_name("wilfnusk"), PathBuf::from)
}

impl<'a> Machine<'a> {
    /// A new machine with the plan's files and no journal.
    pub fn new(case: &'a Case, folder: &Path) -> Machine<'a> {
        let _ = fs::remove_dir_all(folder);
        case.write(folder);
        Machine { case, folder: folder.to_owned(), way: WAYS[0] }
    }
    /// The same machine, which sweeps in this way.
    pub fn sweeping(self, way: Way) -> Machine<'a> {
        Machine { way, ..self }
    }
    pub fn path(&self) -> PathBuf {
        self.folder.join("plan.journal")
    }
    /// Whether the program is given targets by right ascension and declination.
    pub fn is_catalogue(&self) -> bool {
        fs::read_to_string(self.folder.join("targets.csv")).unwrap().starts_with(CATALOGUE_HEAD)
    }
    /// The journal's bytes; none if the file is not there.
    pub fn journal(&self) -> Vec<u8> {
        match fs::read(self.path()) {
            Err(e) if e.kind() == io::ErrorKind::NotFound => Vec::new(),
            read => read.unwrap(),
        }
    }
    /// Takes the journal away, and leaves the digest beside it.
    pub fn without_journal(&self) {
        let _ = fs::remove_file(self.path());
    }
    pub fn command(&self, words: &[&str]) -> Command {
        let mut command = Command::new(program());
        command.current_dir(&self.folder).args(words).stdin(Stdio::null()).stdout(Stdio::piped()).stderr(Stdio::piped());
        command
    }
    /// Runs to its end.
    pub fn run(&self, words: &[&str]) -> Ended {
        ended(self.command(words).spawn().unwrap())
    }
    /// The command of a sweep of these chunks in this order, or of all of them.
    pub fn sweep_command(&self, order: Option<&str>) -> Command {
        let words = self.sweep_words(order);
        self.command(&words.iter().map(String::as_str).collect::<Vec<_>>())
    }
    pub fn sweep_words(&self, order: Option<&str>) -> Vec<String> {
        let mut words: Vec<_> = ["sweep", "plan.toml", "--quiet", "--jobs"].map(str::to_owned).into();
        words.push(self.way.jobs.to_string());
        words.extend(self.way.range.iter().flat_map(|range| ["--range".to_owned(), range.to_string()]));
        words.extend(order.iter().flat_map(|order| ["--chunks".to_owned(), order.to_string()]));
        words
    }
    pub fn sweep(&self, order: Option<&str>) -> Ended {
        ended(self.sweep_command(order).spawn().unwrap())
    }
    /// Sweeps until the journal would grow beyond this many bytes: the kernel cuts the write there, and the next is the end.
    pub fn sweep_to_byte(&self, order: Option<&str>, bytes: usize) -> Ended {
        run_to_limit(limited(self.sweep_command(order), bytes))
    }
    /// Sweeps until the kernel refuses to write beyond this many bytes, and lets the program answer that itself.
    pub fn sweep_to_full(&self, bytes: usize) -> Ended {
        ended(limited(self.sweep_command(None), bytes).spawn().unwrap())
    }
    /// Sweeps, and is killed after this long.
    pub fn sweep_for(&self, order: Option<&str>, time: Duration) -> Ended {
        let mut child = self.sweep_command(order).spawn().unwrap();
        sleep(time);
        // It may have ended by itself.
        let _ = child.kill();
        ended(child)
    }
    /// Sweeps, and is killed this long after the journal has grown beyond this many bytes.
    pub fn sweep_beyond(&self, order: Option<&str>, bytes: usize, time: Duration) -> Ended {
        let mut child = self.sweep_command(order).spawn().unwrap();
        while fs::metadata(self.path()).map_or(true, |m| m.len() as usize <= bytes) && child.try_wait().unwrap().is_none() {
            sleep(Duration::from_micros(50));
        }
        sleep(time);
        let _ = child.kill();
        ended(child)
    }
    /// The mask that the program collects.
    pub fn mask(&self) -> Vec<u8> {
        let ended = self.run(&["mask", "plan.toml", "--form", "raw"]);
        assert_eq!(ended.status, 0, "{}", ended.stderr);
        ended.stdout
    }
    /// The windows that the program lists.
    pub fn windows_csv(&self) -> String {
        let ended = self.run(&["windows", "plan.toml", "--csv", "-"]);
        assert_eq!(ended.status, 0, "{}", ended.stderr);
        String::from_utf8(ended.stdout).unwrap()
    }
}

/// No file may grow beyond this many bytes.
fn limited(mut command: Command, bytes: usize) -> Command {
    let limit = libc::rlimit { rlim_cur: bytes as u64, rlim_max: bytes as u64 };
    let no_core = libc::rlimit { rlim_cur: 0, rlim_max: 0 };
    unsafe {
        command.pre_exec(move || {
            if libc::setrlimit(libc::RLIMIT_FSIZE, &limit) != 0 || libc::setrlimit(libc::RLIMIT_CORE, &no_core) != 0 {
                return Err(io::Error::last_os_error());
            }
            Ok(())
        });
    }
    command
}

pub fn ended(child: Child) -> Ended {
    Ended::of(child.wait_with_output().unwrap())
}

impl Ended {
    pub fn of(output: Output) -> Ended {
        Ended {
            status: output.status.code().unwrap_or_else(|| -output.status.signal().unwrap()),
            stdout: output.stdout,
            stderr: String::from_utf8_lossy(&output.stderr).into_owned(),
        }
    }
}
