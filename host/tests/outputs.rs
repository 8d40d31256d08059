//! Outputs: whole or not at all, refused before any work, and never in place of a file that is needed.
mod common;

use common::Folder;
use std::{
    fs, io,
    os::{
        fd::OwnedFd,
        unix::{
            fs::{symlink, PermissionsExt},
            net::{UnixDatagram, UnixStream},
            process::CommandExt,
        },
    },
    process::{Command, Stdio},
    thread,
    time::Duration,
};

fn folder() -> Folder {
    Folder::new(&["Vega", "M 31"], "0010110", "tolerance = 10\n")
}

/// A standard output that nobody reads.
fn closed() -> Stdio {
    let (ours, theirs) = UnixStream::pair().unwrap();
    drop(theirs);
    OwnedFd::from(ours).into()
}

#[test]
fn files_are_written_though_nobody_reads_standard_output() {
    let f = folder();
    let lines = |name: &str| f.read(name).lines().count();
    for (words, files) in [
        (vec!["sweep", "plan.toml", "--csv", "a.csv", "--svg", "a.svg"], vec!["a.csv", "a.svg"]),
        (vec!["windows", "plan.toml", "--csv", "b.csv", "--json", "b.json"], vec!["b.csv", "b.json"]),
        (vec!["windows", "plan.toml", "--csv", "-", "--summary", "c.csv"], vec!["c.csv"]),
        (vec!["merge", "plan.toml", "plan.journal", "-o", "all.journal"], vec!["all.journal", "all.journal.plan"]),
    ] {
        let status = f.command(&words).stdout(closed()).status().unwrap();
        assert!(status.success(), "{:?}", words);
        for file in files {
            assert!(f.path(file).exists(), "{:?} did not write {}", words, file);
        }
    }
    assert_eq!((lines("a.csv"), lines("b.csv"), lines("c.csv")), (9, 9, 4));
}

#[test]
fn an_output_never_overwrites_a_file_of_the_plan_or_another_output() {
    let f = folder().swept();
    fs::hard_link(f.path("t.csv"), f.path("hard")).unwrap();
    symlink("e.csv", f.path("soft")).unwrap();
    fs::create_dir(f.path("d")).unwrap();
    let before = f.all();
    for command in ["windows", "sweep"] {
        for option in ["--csv", "--json", "--svg", "--summary"] {
            for file in ["plan.toml", "t.csv", "e.csv", "plan.journal", "plan.journal.plan", "hard", "soft", "d/../t.csv", "./plan.toml"] {
                f.run(&[command, "plan.toml", option, file]).says(2, &[option, file, "this is the file of the ", "; name another"]);
            }
        }
        for (a, b) in [("z", "z"), ("z", "./z"), ("d/z", "d/../d/z")] {
            f.run(&[command, "plan.toml", "--csv", a, "--json", b]).says(2, &["--json", "this is the file of --csv"]);
        }
    }
    f.run(&["windows", "plan.toml", "--journal", "other.journal", "--csv", "other.journal"]).says(2, &["the file of the journal"]);
    assert!(f.all() == before, "a refused command changed a file");
}

#[test]
fn outputs_that_cannot_be_written_are_refused_before_the_sweep() {
    let f = folder();
    fs::create_dir(f.path("d")).unwrap();
    symlink("nowhere", f.path("loose")).unwrap();
    let before = f.all();
    for (words, status, says) in [
        (["--csv", "-", "--json", "-"], 2, "only one can go to standard output"),
        (["--csv", "no/w.csv", "--svg", "w.svg"], 3, "no/w.csv: there is no such file or folder"),
        (["--csv", "w.csv", "--svg", "d"], 3, "d: it is a folder"),
        (["--csv", "w.csv", "--summary", "loose"], 3, "loose: it is a link to a file that is not there"),
        (["--csv", "w.csv", "--target", "Nobody"], 2, "--target Nobody: no target of t.csv has that name"),
        (["--from", "2026-03-20T00:00:02Z", "--to", "2026-03-20T00:00:01Z"], 2, "is after --to"),
    ] {
        f.run(&[&["sweep", "plan.toml"], &words[..]].concat()).says(status, &[says]);
        assert!(f.all() == before, "{:?} began the sweep", words);
    }
    f.shell("$W sweep plan.toml --csv out > out").says(2, &["--csv out: standard output goes into this file"]);
    assert_eq!(f.read("out"), "");
    assert!(!f.path("plan.journal").exists());
}

#[test]
fn a_partial_sweep_names_the_outputs_it_does_not_write() {
    let f = Folder::new(&["A", "B"], &"01".repeat(40), "tolerance = 10\n");
    let ended = f.run(&["sweep", "plan.toml", "--part", "1/2", "--csv", "w.csv", "--svg", "w.svg"]);
    ended.says(0, &["--csv w.csv, --svg w.svg were not written, as windows are listed of a whole sweep only", "wilfnusk windows"]);
    assert!(!f.path("w.csv").exists());
    f.run(&["sweep", "plan.toml", "--csv", "w.csv"]).says(0, &["wrote w.csv"]);
}

#[test]
fn a_write_that_fails_leaves_the_old_file_and_nothing_else() {
    let f = folder().swept();
    f.write("w.csv", "old\n");
    let before = f.all();
    let ended = f.shell("ulimit -f 0; exec $W windows plan.toml --csv w.csv");
    ended.says(3, &["w.csv: the file may not grow further"]);
    assert!(f.all() == before, "{:?}", f.all().iter().map(|(name, _)| name).collect::<Vec<_>>());
}

#[test]
fn permissions_follow_the_umask() {
    let f = folder().swept();
    f.shell("umask 027; $W windows plan.toml --csv w.csv && : > plain").says(0, &[]);
    let mode = |name: &str| fs::metadata(f.path(name)).unwrap().permissions().mode() & 0o7777;
    assert_eq!((mode("w.csv"), mode("plain")), (0o640, 0o640));
}

#[test]
fn pipes_and_devices_are_written_as_they_are() {
    let f = folder().swept();
    let ended = f.shell("$W windows plan.toml -q --csv /dev/null --json /dev/stdout | head -1");
    ended.says(0, &["wrote /dev/null", "wrote /dev/stdout"]);
    assert_eq!(ended.stdout, "{\n");
    assert!(!fs::metadata("/dev/null").unwrap().is_file());
}

/// Each write to a datagram socket is a datagram.
#[test]
fn a_long_table_is_few_writes() {
    let names: Vec<_> = (0..2000).map(|i| format!("T{}", i)).collect();
    let f = Folder::new(&names.iter().map(String::as_str).collect::<Vec<_>>(), "0010110", "tolerance = 10\n").swept();
    let (ours, theirs) = UnixDatagram::pair().unwrap();
    ours.set_read_timeout(Some(Duration::from_millis(100))).unwrap();
    let mut child = f.command(&["windows", "plan.toml"]).stdout(Stdio::from(OwnedFd::from(theirs))).spawn().unwrap();
    let (mut writes, mut lines, mut ended) = (0, 0, false);
    let mut buffer = vec![0; 1 << 20];
    loop {
        match ours.recv(&mut buffer) {
            Ok(length) if length > 0 => {
                writes += 1;
                lines += buffer[..length].iter().filter(|&&b| b == b'\n').count();
            }
            _ if ended => break,
            _ => ended = child.try_wait().unwrap().is_some(),
        }
        thread::yield_now();
    }
    assert!(lines > 10_000 && writes < lines / 100, "{} writes of {} lines", writes, lines);
}

/// The system calls of a run, by number.
fn calls(mut command: Command) -> Vec<i64> {
    unsafe {
        command.stdout(Stdio::null()).stderr(Stdio::null()).pre_exec(|| match libc::ptrace(libc::PTRACE_TRACEME, 0, 0, 0) {
            0 => Ok(()),
            _ => Err(io::Error::last_os_error()),
        });
    }
    let child = command.spawn().unwrap();
    let pid = child.id() as libc::pid_t;
    let (mut calls, mut entering, mut status) = (Vec::new(), true, 0);
    loop {
        assert_eq!(unsafe { libc::waitpid(pid, &mut status, 0) }, pid);
        if !libc::WIFSTOPPED(status) {
            return calls;
        }
        if libc::WSTOPSIG(status) == libc::SIGTRAP | 0x80 {
            if entering {
                let mut registers: libc::user_regs_struct = unsafe { std::mem::zeroed() };
                assert_eq!(unsafe { libc::ptrace(libc::PTRACE_GETREGS, pid, 0, &mut registers) }, 0);
                calls.push(registers.orig_rax as i64);
            }
            entering = !entering;
        } else {
            assert_eq!(unsafe { libc::ptrace(libc::PTRACE_SETOPTIONS, pid, 0, libc::PTRACE_O_TRACESYSGOOD) }, 0);
        }
        assert_eq!(unsafe { libc::ptrace(libc::PTRACE_SYSCALL, pid, 0, 0) }, 0);
    }
}

#[test]
fn a_file_is_synced_before_it_takes_the_name_and_its_folder_after() {
    let f = folder().swept();
    let calls = calls(f.command(&["windows", "plan.toml", "-q", "--csv", "w.csv"]));
    let seen: Vec<_> = calls.into_iter().filter(|call| [libc::SYS_fsync, libc::SYS_rename].contains(call)).collect();
    assert_eq!(seen, [libc::SYS_fsync, libc::SYS_rename, libc::SYS_fsync]);
}

/// A journal or its digest under any name is no output, whole or as a power cut left its header; other files are replaced.
#[test]
fn an_output_never_overwrites_a_journal_or_a_digest_whatever_its_name() {
    let f = folder().swept();
    let (journal, digest) = (f.read("plan.journal"), f.read("plan.journal.plan"));
    let refused = [
        ("part1.journal", &journal[..]),
        ("w.csv", &journal),
        ("header", &journal[..107]),
        ("cut", &journal[..106]),
        ("shorter", &journal[..24]),
        ("part1.journal.plan", &digest),
        ("w.json", &digest),
    ];
    for (name, text) in refused {
        f.write(name, text);
    }
    symlink("part1.journal", f.path("link")).unwrap();
    let before = f.all();
    let what = |text: &str| if text.starts_with("wilfnusk plan ") { "the digest of a journal (J.plan)" } else { "a journal" };
    for (name, text) in refused.into_iter().chain([("link", &journal[..])]) {
        let says =
            format!(" {}: this file begins as {} does, and is not overwritten; name another, or remove it first\n", name, what(text));
        for command in ["windows", "sweep"] {
            for option in ["--csv", "--json", "--svg", "--summary"] {
                f.run(&[command, "plan.toml", option, name]).says(2, &[&format!("{}{}", option, says)]);
            }
        }
        f.run(&["rolls", "plan.toml", "--csv", name]).says(2, &[&format!("--csv{}", says)]);
    }
    assert!(f.all() == before, "a refused command changed a file");
    let hexadecimal = "0123456789abcdef".repeat(8);
    for old in ["", "x", &hexadecimal[..23], &hexadecimal, &hexadecimal[..107], &journal[..106].to_uppercase(), "wilfnusk plans\n"] {
        f.write("old", old);
        f.run(&["windows", "plan.toml", "--csv", "old"]).says(0, &["wrote old\n"]);
    }
    // What the program writes itself is replaced.
    for option in ["--csv", "--json", "--svg", "--summary"] {
        for _ in 0..2 {
            f.run(&["windows", "plan.toml", option, "own"]).says(0, &["wrote own\n"]);
        }
        fs::remove_file(f.path("own")).unwrap();
    }
}

/// A journal whose header is spoiled and a spoiled digest, by their names or by a line that is left.
#[test]
fn an_output_never_overwrites_a_damaged_journal_or_digest() {
    let f = Folder::new(&["A"], &"01".repeat(100), "tolerance = 10\n").swept();
    let (journal, digest) = (f.read("plan.journal"), f.read("plan.journal.plan"));
    let spoiled = format!("X{}", &journal[1..]);
    // Only the last of 4 lines is right; and a line in the last place of the first 64 KiB.
    let last = format!("{}{}", "\0".repeat(107 + 3 * 33), &journal[107 + 3 * 33..]);
    let far = format!("{}{}", "\0".repeat(107 + 1981 * 33), &journal[107..140]);
    let named = |end: &str| format!("this file has a name that ends with {}", end);
    let line = |at: &str| format!("this file has a chunk line of a journal at byte {}", at);
    let refused = [
        ("part.journal", spoiled.clone(), named(".journal")),
        ("empty.journal", String::new(), named(".journal")),
        ("part.journal.plan", format!("X{}", &digest[1..]), named(".journal.plan")),
        ("w.csv", spoiled.clone(), line("108")),
        ("last", last, line("207")),
        ("far", far, line("65,481")),
    ];
    for (name, text, _) in &refused {
        f.write(name, text);
    }
    symlink("part.journal", f.path("link")).unwrap();
    f.write("plain", "x");
    symlink("plain", f.path("link.journal")).unwrap();
    let before = f.all();
    for (name, _, why) in refused.iter().chain(&["link", "link.journal"].map(|link| (link, String::new(), named(".journal")))) {
        let says = format!(" {}: {}, and is not overwritten; name another, or remove it first\n", name, why);
        f.run(&["windows", "plan.toml", "--json", name]).says(2, &[&format!("--json{}", says)]);
        f.run(&["rolls", "plan.toml", "--csv", name]).says(2, &[&format!("--csv{}", says)]);
    }
    assert!(f.all() == before, "a refused command changed a file");
    // A line in another place, a shorter one, upper case, one beyond the first 64 KiB; a name that only resembles; a file that is not there.
    let beyond = format!("{}{}", "\0".repeat(107 + 1982 * 33), &journal[107..140]);
    let upper = format!("{}{}\n", " ".repeat(107), "A".repeat(32));
    for old in [&spoiled[1..140], &spoiled[..139], &upper, &beyond] {
        f.write("old", old);
        f.run(&["windows", "plan.toml", "--csv", "old"]).says(0, &["wrote old\n"]);
    }
    f.write("journal", "x");
    for name in ["journal", "new.journal"] {
        f.run(&["windows", "plan.toml", "--csv", name]).says(0, &["wrote "]);
    }
}

/// Whether the folder in which an output is made is there, with the output in it if it is to be.
fn aside(f: &Folder, with_file: bool) -> bool {
    let entries = fs::read_dir(f.path(".")).unwrap().map(|entry| entry.unwrap());
    let mut aside = entries.filter(|entry| entry.file_name().to_string_lossy().starts_with(".wilfnusk-"));
    aside.any(|entry| !with_file || entry.path().join("new").exists())
}

/// The signal comes while the file is being written; a machine on which the writing ends first tries again.
#[test]
fn a_signal_while_an_output_is_written_leaves_no_folder_and_the_old_file() {
    let names: Vec<_> = (0..2000).map(|i| format!("T{}", i)).collect();
    let f = Folder::new(&names.iter().map(String::as_str).collect::<Vec<_>>(), &"0011".repeat(16), "tolerance = 10\n").swept();
    for signal in [libc::SIGINT, libc::SIGTERM] {
        let mut stopped = None;
        for _ in 0..100 {
            f.write("w.json", "old\n");
            let mut command = f.command(&["windows", "plan.toml", "-q", "--json", "w.json"]);
            // A shell starts what it runs in the background with SIGINT ignored, and the program keeps to that.
            unsafe {
                command.pre_exec(move || {
                    libc::signal(signal, libc::SIG_DFL);
                    Ok(())
                });
            }
            let mut child = command.stderr(Stdio::piped()).spawn().unwrap();
            while !aside(&f, true) && child.try_wait().unwrap().is_none() {}
            assert_eq!(unsafe { libc::kill(child.id() as libc::pid_t, signal) }, 0);
            let ended = child.wait_with_output().unwrap();
            assert!(!aside(&f, false), "signal {} left a folder behind", signal);
            if ended.status.code() == Some(130) {
                stopped = Some(ended);
                break;
            }
        }
        let ended = stopped.expect("the writing always ended before the signal");
        assert!(String::from_utf8(ended.stderr).unwrap().ends_with("wilfnusk: stopped; w.json was not written\n"));
        assert_eq!(f.read("w.json"), "old\n");
    }
}

#[test]
fn a_standard_output_that_cannot_be_written_is_named_with_the_reason() {
    let f = folder().swept();
    let words = ["windows plan.toml", "windows plan.toml --json -", "mask plan.toml --form csv", "status plan.toml", "rolls plan.toml"];
    for words in words {
        let full = f.shell(&format!("exec $W {} > /dev/full", words));
        full.says(3, &["wilfnusk: standard output: the disk is full\n"]);
        let limited = f.shell(&format!("ulimit -f 0; exec $W {} > out", words));
        limited.says(3, &["wilfnusk: standard output: the file may not grow further: a limit on the size of files (ulimit -f)"]);
        assert!(!full.stderr.contains("os error") && !limited.stderr.contains("os error"), "{:?} {:?}", full, limited);
    }
}
