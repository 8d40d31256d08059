//! Runs the program under a tracer, which watches its system calls: what was written must be synced before the journal is written again, and all
//! of it when the program ends with status 0. It can kill the program on entry to a call, and let its syncs do nothing.
//!
//! Calls are those of the main thread, which is the only one that may write. The threads that work chunks out are watched too: one that writes, syncs
//! or renames is a fault.
use crate::machine::{Ended, Machine};
use std::{
    collections::{BTreeMap, BTreeSet},
    fs,
    io::{self, Read},
    os::unix::process::{CommandExt, ExitStatusExt},
    path::{Path, PathBuf},
    process::{Child, Command, ExitStatus, Output, Stdio},
    sync::atomic::{AtomicBool, Ordering},
};

/// Where a traced run is killed: on entry to a system call, which then is not done.
#[derive(Clone, Copy, Debug)]
pub enum Stop {
    Never,
    /// The call with this number in the run, from 1. Calls that wait for other threads are not counted, as their number is left to chance.
    Call(u64),
    /// The call with this number, from 1, among those of this kind.
    Of(i64, u64),
    /// The call that follows the first of this kind.
    After(i64),
}

/// Which syncs do nothing, though they answer as if they had.
#[derive(Clone, Copy, Debug, PartialEq)]
pub enum Lost {
    None,
    All,
    /// The one with this number, from 1.
    One(u64),
}

/// `crash-test --without-syncs`: none of the syncs of a traced run does anything, and the tracer must report it.
pub static WITHOUT_SYNCS: AtomicBool = AtomicBool::new(false);

#[derive(Debug)]
pub struct Traced {
    /// Whether the stop came; else the run ended by itself.
    pub killed: bool,
    /// How often the journal was written, and anything synced.
    pub writes: u64,
    pub syncs: u64,
    /// How many bytes of the journal are synced.
    pub durable: usize,
    /// What was not synced when it had to be.
    pub faults: Vec<String>,
}

/// Runs under the tracer until the stop, on a journal of which this many bytes are synced. What it finds unsynced is a fault.
pub fn run_to(machine: &Machine, command: Command, stop: Stop, durable: usize) -> Traced {
    let lost = if WITHOUT_SYNCS.load(Ordering::Relaxed) { Lost::All } else { Lost::None };
    let traced = trace(machine, command, stop, lost, durable);
    assert!(traced.faults.is_empty(), "a power cut may take more than the last write:\n  {}", traced.faults.join("\n  "));
    traced
}

pub fn trace(machine: &Machine, mut command: Command, stop: Stop, lost: Lost, durable: usize) -> Traced {
    let mut watch = Watch::of(machine, durable);
    command.stdout(Stdio::null()).stderr(Stdio::null());
    let mut child = Tracee::start(command, libc::PTRACE_O_TRACECLONE | libc::PTRACE_O_TRACEFORK | libc::PTRACE_O_TRACEVFORK);
    let (mut calls, mut of_kind, mut passed) = (0, 0, false);
    // The calls that the threads are in, and whether each was made to do nothing.
    let mut inside: BTreeMap<libc::pid_t, (Call, bool)> = BTreeMap::new();
    let killed = loop {
        let (thread, status) = match child.next() {
            Some(stopped) => stopped,
            None => break false,
        };
        let is_main = thread == child.main;
        let mut signal = 0;
        match libc::WSTOPSIG(status) {
            // A thread that is gone by now was ended by the program's end.
            CALL => match (registers(thread), inside.remove(&thread)) {
                (None, _) => {}
                (Some(registers), None) if !is_main => {
                    let call = Call::of(thread, &registers);
                    watch.beside(&call);
                    inside.insert(thread, (call, false));
                }
                (Some(mut registers), None) => {
                    let call = Call::of(thread, &registers);
                    calls += u64::from(!waits(call.kind));
                    let here = match stop {
                        Stop::Never => false,
                        Stop::Call(number) => calls == number,
                        Stop::Of(kind, number) => {
                            of_kind += (call.kind == kind) as u64;
                            of_kind == number
                        }
                        Stop::After(_) => passed,
                    };
                    passed |= matches!(stop, Stop::After(kind) if call.kind == kind);
                    if here {
                        child.kill();
                        break true;
                    }
                    watch.enters(&call);
                    let does_nothing = call.syncs() && (lost == Lost::All || lost == Lost::One(watch.syncs));
                    if does_nothing {
                        registers.orig_rax = u64::MAX;
                        set_registers(thread, &registers);
                    }
                    inside.insert(thread, (call, does_nothing));
                }
                (Some(_), Some(_)) if !is_main => {}
                (Some(mut registers), Some((_, true))) => {
                    registers.rax = 0;
                    set_registers(thread, &registers);
                }
                (Some(registers), Some((call, false))) => watch.leaves(thread, &call, registers.rax as i64),
            },
            libc::SIGTRAP => {
                if [libc::PTRACE_EVENT_FORK, libc::PTRACE_EVENT_VFORK].contains(&(status >> 16)) {
                    watch.faults.push("the program starts another process".into());
                }
            }
            // How a new thread starts.
            libc::SIGSTOP if !is_main => {}
            other => signal = other,
        }
        go_on(thread, libc::PTRACE_SYSCALL, signal);
    };
    Traced { killed, writes: watch.writes, syncs: watch.syncs, durable: watch.durable, faults: watch.faults }
}

/// What a stop at a system call says.
const CALL: i32 = libc::SIGTRAP | 0x80;

/// Runs until the kernel refuses to let a file grow further, and is killed there.
pub fn run_to_limit(command: Command) -> Ended {
    let mut tracee = Tracee::start(command, 0);
    while let Some((thread, status)) = tracee.next() {
        match libc::WSTOPSIG(status) {
            libc::SIGXFSZ => {
                tracee.kill();
                break;
            }
            signal => go_on(thread, libc::PTRACE_CONT, signal),
        }
    }
    let (mut stdout, mut stderr) = (Vec::new(), Vec::new());
    tracee.child.stdout.take().unwrap().read_to_end(&mut stdout).unwrap();
    tracee.child.stderr.take().unwrap().read_to_end(&mut stderr).unwrap();
    Ended::of(Output { status: tracee.ended, stdout, stderr })
}

/// A program that is traced from its first call on, in a process group of its own.
struct Tracee {
    child: Child,
    main: libc::pid_t,
    ended: ExitStatus,
}

impl Tracee {
    fn start(mut command: Command, options: i32) -> Tracee {
        unsafe {
            command.process_group(0).pre_exec(|| match libc::ptrace(libc::PTRACE_TRACEME, 0, 0, 0) {
                0 => Ok(()),
                _ => Err(io::Error::last_os_error()),
            });
        }
        let child = command.spawn().unwrap();
        let main = child.id() as libc::pid_t;
        let mut tracee = Tracee { child, main, ended: ExitStatus::default() };
        let (thread, status) = tracee.next().expect("it stops when it is loaded");
        assert_eq!((thread, libc::WSTOPSIG(status)), (main, libc::SIGTRAP));
        let options = options | libc::PTRACE_O_TRACESYSGOOD | libc::PTRACE_O_EXITKILL;
        assert_eq!(unsafe { libc::ptrace(libc::PTRACE_SETOPTIONS, main, 0, options) }, 0);
        go_on(main, if options & libc::PTRACE_O_TRACECLONE != 0 { libc::PTRACE_SYSCALL } else { libc::PTRACE_CONT }, 0);
        tracee
    }
    /// The next thread that stops, and its status; none where the process has ended.
    fn next(&mut self) -> Option<(libc::pid_t, i32)> {
        loop {
            let mut status = 0;
            let thread = unsafe { libc::waitpid(-self.main, &mut status, libc::__WALL) };
            assert!(thread > 0, "{}", io::Error::last_os_error());
            if libc::WIFSTOPPED(status) {
                return Some((thread, status));
            }
            // The kernel has the main thread end last.
            if thread == self.main {
                self.ended = ExitStatus::from_raw(status);
                return None;
            }
        }
    }
    /// Kills the process, and waits until it is gone.
    fn kill(&mut self) {
        assert_eq!(unsafe { libc::kill(self.main, libc::SIGKILL) }, 0);
        while self.next().is_some() {}
    }
}

/// Lets a thread run on, with this signal; one that was ended by the program's end is gone.
fn go_on(thread: libc::pid_t, how: libc::c_uint, signal: i32) {
    let done = unsafe { libc::ptrace(how, thread, 0, signal) };
    assert!(done == 0 || io::Error::last_os_error().raw_os_error() == Some(libc::ESRCH));
}

/// A system call, and the file of its first argument.
struct Call {
    kind: i64,
    arguments: [u64; 3],
    file: PathBuf,
}

impl Call {
    fn of(pid: libc::pid_t, registers: &libc::user_regs_struct) -> Call {
        let kind = registers.orig_rax as i64;
        let file = if writes(kind) || syncs(kind) { linked(pid, registers.rdi as i32) } else { PathBuf::new() };
        Call { kind, arguments: [registers.rdi, registers.rsi, registers.rdx], file }
    }
    fn syncs(&self) -> bool {
        syncs(self.kind)
    }
}

fn linked(pid: libc::pid_t, descriptor: i32) -> PathBuf {
    fs::read_link(format!("/proc/{}/fd/{}", pid, descriptor)).unwrap_or_default()
}

/// Calls that wait for other threads.
fn waits(kind: i64) -> bool {
    [libc::SYS_futex, libc::SYS_sched_yield].contains(&kind)
}

fn writes(kind: i64) -> bool {
    use libc::*;
    [SYS_write, SYS_pwrite64, SYS_writev, SYS_pwritev, SYS_pwritev2, SYS_ftruncate, SYS_fallocate, SYS_sendfile, SYS_copy_file_range]
        .contains(&kind)
}

fn syncs(kind: i64) -> bool {
    use libc::*;
    [SYS_fsync, SYS_fdatasync, SYS_sync, SYS_syncfs, SYS_sync_file_range, SYS_msync].contains(&kind)
}

fn names(kind: i64) -> bool {
    use libc::*;
    [SYS_rename, SYS_renameat, SYS_renameat2, SYS_link, SYS_linkat, SYS_symlink, SYS_symlinkat, SYS_unlink, SYS_unlinkat].contains(&kind)
}

/// What a power cut would take now, of the machine's folder.
struct Watch {
    folder: PathBuf,
    journal: PathBuf,
    /// The names that the folder had or got.
    known: BTreeSet<PathBuf>,
    /// Files with bytes that were not synced.
    unsynced: BTreeSet<PathBuf>,
    /// Whether names were made, and whether names were changed or taken away, since the folder was synced.
    made: bool,
    changed: bool,
    /// Whether the write before was cut short, so that the next one goes on with it.
    short: bool,
    durable: usize,
    writes: u64,
    syncs: u64,
    faults: Vec<String>,
}

impl Watch {
    fn of(machine: &Machine, durable: usize) -> Watch {
        let folder = fs::canonicalize(&machine.folder).unwrap();
        let journal = folder.join(machine.path().file_name().unwrap());
        let known: BTreeSet<_> = fs::read_dir(&folder).unwrap().map(|entry| entry.unwrap().path()).collect();
        // The program cannot know whether what it finds was ever synced.
        let found = known.contains(&journal);
        let unsynced = Some(journal.clone()).filter(|_| found && !machine.journal().is_empty()).into_iter().collect();
        Watch {
            folder,
            journal,
            known,
            unsynced,
            made: found,
            changed: false,
            short: false,
            durable,
            writes: 0,
            syncs: 0,
            faults: Vec::new(),
        }
    }
    /// A file in the folder, or in one that a new file is made in.
    fn ours(&self, file: &Path) -> bool {
        file != self.folder && file.starts_with(&self.folder)
    }
    /// A fault if anything is not synced when this happens.
    fn lasts(&mut self, when: &str) {
        let mut left: Vec<_> =
            self.unsynced.iter().map(|file| format!("{}", file.file_name().unwrap_or_default().to_string_lossy())).collect();
        left.extend(Some("the names in its folder".to_owned()).filter(|_| self.made || self.changed));
        if !left.is_empty() {
            self.faults.push(format!("{}, and not synced: {}", when, left.join(", ")));
        }
    }
    fn enters(&mut self, call: &Call) {
        if writes(call.kind) && call.file == self.journal {
            self.writes += 1;
            if !self.short {
                let what = if call.kind == libc::SYS_ftruncate { "shortened" } else { "written" };
                self.lasts(&format!("the journal is {} (call {} that changes it)", what, self.writes));
            }
        }
        self.syncs += syncs(call.kind) as u64;
        match call.kind {
            // A file that gets its name has its bytes, and the names before it last; only the name that it had may be new.
            libc::SYS_rename | libc::SYS_renameat | libc::SYS_renameat2 | libc::SYS_link | libc::SYS_linkat => {
                let made = std::mem::replace(&mut self.made, false);
                self.lasts("a file is renamed");
                self.made = made;
            }
            libc::SYS_exit_group | libc::SYS_exit if call.arguments[0] == 0 => self.lasts("the program ends with status 0"),
            _ => {}
        }
    }
    /// A call of another thread than the main one.
    fn beside(&mut self, call: &Call) {
        if writes(call.kind) && self.ours(&call.file) || syncs(call.kind) || names(call.kind) {
            self.faults.push(format!("system call {} of another thread than the main one", call.kind));
        }
    }
    fn leaves(&mut self, pid: libc::pid_t, call: &Call, answer: i64) {
        if answer < 0 {
            return;
        }
        if writes(call.kind) && self.ours(&call.file) {
            self.unsynced.insert(call.file.clone());
            if call.file == self.journal {
                self.short = call.kind == libc::SYS_write && (answer as u64) < call.arguments[2];
                self.durable = self.durable.min(self.length());
            }
        }
        match call.kind {
            libc::SYS_fsync | libc::SYS_fdatasync => {
                if call.file == self.folder {
                    (self.made, self.changed) = (false, false);
                }
                self.unsynced.remove(&call.file);
                if call.file == self.journal {
                    self.durable = self.length();
                }
            }
            libc::SYS_open | libc::SYS_openat | libc::SYS_openat2 | libc::SYS_creat => {
                let file = linked(pid, answer as i32);
                if self.ours(&file) {
                    self.made |= self.known.insert(file);
                }
            }
            kind if names(kind) => {
                self.changed = true;
                self.known = fs::read_dir(&self.folder).unwrap().map(|entry| entry.unwrap().path()).collect();
            }
            _ => {}
        }
    }
    fn length(&self) -> usize {
        fs::metadata(&self.journal).map_or(0, |m| m.len() as usize)
    }
}

/// The registers of a thread that is stopped; none if it is gone.
#[cfg(target_arch = "x86_64")]
fn registers(thread: libc::pid_t) -> Option<libc::user_regs_struct> {
    let mut registers: libc::user_regs_struct = unsafe { std::mem::zeroed() };
    match unsafe { libc::ptrace(libc::PTRACE_GETREGS, thread, 0, &mut registers) } {
        0 => Some(registers),
        _ => None,
    }
}

#[cfg(target_arch = "x86_64")]
fn set_registers(thread: libc::pid_t, registers: &libc::user_regs_struct) {
    assert_eq!(unsafe { libc::ptrace(libc::PTRACE_SETREGS, thread, 0, registers) }, 0);
}
