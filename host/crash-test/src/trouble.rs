//! Trouble that is no power cut: a limit or a full disk, a read-only file, a second process, a file that grows, an edited plan.
//! A clear sentence each time, and every whole line is kept.
use crate::{
    case::Case,
    cuts::{pause, whole, words},
    machine::{ended, Ended, Machine},
};
use model::journal::{HEADER, LINE};
use std::{
    fs::{self, OpenOptions, Permissions},
    io::Write,
    os::unix::{fs::PermissionsExt, process::CommandExt},
    path::Path,
    process::{Child, Command},
    time::{Duration, Instant},
};

/// What was tried, a sentence each.
pub fn all(case: &Case, folder: &Path) -> Vec<String> {
    let machine = Machine::new(case, folder);
    full(&machine);
    let mut done = vec!["a limit on the size of files, at every byte".to_owned()];
    done.push(full_disk(case, folder));
    done.push(read_only(&machine));
    second_process(&machine);
    done.push("a second process on one journal".into());
    grown(&machine);
    done.push("a journal that another program writes".into());
    renamed(&machine);
    done.push("a journal that is renamed, and one that is replaced".into());
    edited(&machine);
    done.push("edited targets and positions, a lost digest, an earlier program's".into());
    done
}

fn says(ended: &Ended, status: i32, words: &[&str]) {
    let all = words.iter().all(|word| ended.stderr.contains(word));
    assert!(ended.status == status && all, "status {} and not {} with {:?}:\n{}", ended.status, status, words, ended.stderr);
}

/// Whether these are the header, lines and a beginning of a line of the unbroken run.
fn unbroken(machine: &Machine, journal: &[u8]) -> bool {
    [&machine.case.sweep.header[..], &machine.case.sweep.lines.concat()].concat().starts_with(journal)
}

/// The same of a run from the last chunk to the first.
fn unbroken_backwards(machine: &Machine, journal: &[u8]) -> bool {
    let lines: Vec<_> = machine.case.sweep.lines.iter().rev().cloned().collect();
    [&machine.case.sweep.header[..], &lines.concat()].concat().starts_with(journal)
}

fn full(machine: &Machine) {
    whole(machine, &machine.sweep(None));
    let length = machine.journal().len();
    for bytes in 0..length {
        machine.without_journal();
        says(&machine.sweep_to_full(bytes), 3, &["plan.journal: ", "every whole line is kept"]);
        assert!(machine.journal().len() == bytes && unbroken(machine, &machine.journal()));
    }
    whole(machine, &machine.sweep(None));
}

/// A file system of a few pages, filled up. Only root can make one.
fn full_disk(case: &Case, folder: &Path) -> String {
    let disk = folder.with_extension("disk");
    fs::create_dir_all(&disk).unwrap();
    let mounted = Command::new("mount").args(["-t", "tmpfs", "-o", "size=64k", "none"]).arg(&disk).output();
    if !mounted.map_or(false, |m| m.status.success()) {
        return "a full disk: left out, as only root can make a small one".into();
    }
    let tried = std::panic::catch_unwind(|| {
        let machine = Machine::new(case, &disk.join("m"));
        let ballast = disk.join("ballast");
        let mut file = fs::File::create(&ballast).unwrap();
        while file.write_all(&[0; 4096]).is_ok() {}
        drop(file);
        says(&machine.sweep(None), 3, &["the disk is full"]);
        fs::remove_file(&ballast).unwrap();
        whole(&machine, &machine.sweep(None));
    });
    let unmounted = Command::new("umount").arg(&disk).status().unwrap();
    tried.unwrap_or_else(|e| std::panic::resume_unwind(e));
    assert!(unmounted.success());
    "a full disk".into()
}

fn read_only(machine: &Machine) -> String {
    let last = machine.journal().len() - LINE;
    fs::write(machine.path(), &machine.journal()[..last]).unwrap();
    fs::set_permissions(machine.path(), Permissions::from_mode(0o444)).unwrap();
    let mut command = machine.sweep_command(None);
    let root = unsafe { libc::geteuid() } == 0;
    if root {
        // Root may write anything: somebody else tries.
        command.uid(65_534).gid(65_534);
    }
    says(&ended(command.spawn().unwrap()), 3, &["plan.journal: permission denied"]);
    assert_eq!(machine.journal().len(), last);
    fs::set_permissions(machine.path(), Permissions::from_mode(0o644)).unwrap();
    whole(machine, &machine.sweep(None));
    "a read-only journal".into()
}

/// A sweep that is stopped while it holds the journal, after its first lines.
fn stopped(machine: &Machine) -> Child {
    loop {
        machine.without_journal();
        let backwards: Vec<_> = (0..machine.case.chunks()).rev().collect();
        // One write per line.
        assert_eq!(machine.way.range, Some(1));
        let child = machine.sweep_command(Some(&words(&backwards))).spawn().unwrap();
        let begun = Instant::now();
        while machine.journal().len() <= HEADER && begun.elapsed() < Duration::from_secs(5) {}
        signal(&child, libc::SIGSTOP);
        pause();
        if machine.journal().len() < HEADER + LINE * machine.case.chunks() {
            return child;
        }
        // It was over already.
        signal(&child, libc::SIGCONT);
        ended(child);
    }
}

fn signal(child: &Child, signal: i32) {
    unsafe { libc::kill(child.id() as libc::pid_t, signal) };
}

fn second_process(machine: &Machine) {
    let first = stopped(machine);
    let journal = machine.journal();
    says(&machine.sweep(None), 3, &["plan.journal: another process sweeps into it", "--wait"]);
    assert!(machine.journal() == journal);
    let mut waiting = machine.sweep_command(None);
    let waiting = waiting.arg("--wait").spawn().unwrap();
    signal(&first, libc::SIGCONT);
    whole(machine, &ended(first));
    whole(machine, &ended(waiting));
}

fn grown(machine: &Machine) {
    let first = stopped(machine);
    let journal = machine.journal();
    OpenOptions::new().append(true).open(machine.path()).unwrap().write_all(b"other").unwrap();
    signal(&first, libc::SIGCONT);
    says(&ended(first), 3, &["plan.journal: ", "another program writes it", "nothing was overwritten"]);
    // The line that was being worked out when the process was stopped may have been written behind the foreign bytes, never over them.
    assert!(machine.journal().starts_with(&[&journal[..], b"other"].concat()));
    fs::write(machine.path(), &journal).unwrap();
    whole(machine, &machine.sweep(None));
}

fn renamed(machine: &Machine) {
    let other = machine.folder.join("other.journal");
    for replaced in [false, true] {
        let first = stopped(machine);
        let journal = machine.journal();
        fs::rename(machine.path(), &other).unwrap();
        if replaced {
            fs::write(machine.path(), &journal).unwrap();
        }
        signal(&first, libc::SIGCONT);
        says(&ended(first), 3, &["plan.journal: the file was renamed or replaced", "every whole line is still in it"]);
        assert!(unbroken_backwards(machine, &fs::read(&other).unwrap()));
        assert!(!replaced || machine.journal() == journal);
        fs::rename(&other, machine.path()).unwrap();
        whole(machine, &machine.sweep(None));
    }
}

fn edited(machine: &Machine) {
    let journal = machine.journal();
    for file in ["targets.csv", "ephemeris.csv"] {
        let path = machine.folder.join(file);
        let before = fs::read_to_string(&path).unwrap();
        // The last digit of the file: as many bytes, another number.
        let at = before.rfind(|c: char| c.is_ascii_digit()).unwrap();
        let digit = if &before[at..=at] == "1" { "2" } else { "1" };
        fs::write(&path, [&before[..at], digit, &before[at + 1..]].concat()).unwrap();
        for ended in [machine.sweep(None), machine.run(&["windows", "plan.toml"]), machine.run(&["check", "plan.toml"])] {
            says(&ended, 3, &[file, "its numbers are not those that plan.journal was begun with"]);
        }
        fs::write(&path, before).unwrap();
    }
    let digest = machine.folder.join("plan.journal.plan");
    let text = fs::read(&digest).unwrap();
    fs::remove_file(&digest).unwrap();
    says(&machine.sweep(None), 0, &["plan.journal.plan is missing", "worked out again"]);
    assert!(!digest.exists(), "a digest was made up for lines of unknown origin");
    fs::write(&digest, &text[..40]).unwrap();
    says(&machine.sweep(None), 3, &["plan.journal.plan, line 1, column 1: no digest of a plan"]);
    fs::write(&digest, String::from_utf8_lossy(&text).replacen("plan 3\n", "plan 2\n", 1)).unwrap();
    says(&machine.sweep(None), 3, &["plan.journal.plan, line 1, column 1: a digest of version 2", "by an earlier wilfnusk"]);
    fs::write(&digest, text).unwrap();
    assert!(machine.journal() == journal);
    whole(machine, &machine.sweep(None));
}

/// The header has the first tolerance and the number of rolls alone, so only J.plan shows that the last number of a list was edited; the message names
/// the file that it stands in. It is at the end of the key's list, or of the file where it is a column.
pub fn edited_last(case: &Case, file: &str, key: &str, folder: &Path) {
    let machine = Machine::new(case, folder);
    whole(&machine, &machine.sweep(None));
    let (journal, path) = (machine.journal(), machine.folder.join(file));
    let before = fs::read_to_string(&path).unwrap();
    let list = before.find(key).unwrap();
    let end = before[list..].find(']').map_or(before.trim_end().len(), |length| list + length);
    fs::write(&path, [&before[..end], "1", &before[end..]].concat()).unwrap();
    for ended in [machine.sweep(None), machine.run(&["windows", "plan.toml"]), machine.run(&["check", "plan.toml"])] {
        says(&ended, 3, &[file, "its numbers are not those that plan.journal was begun with"]);
    }
    fs::write(&path, before).unwrap();
    assert!(machine.journal() == journal);
    whole(&machine, &machine.sweep(None));
}
