//! The journal's file: document 01's bytes and nothing else. Locked, read, shortened, and written at its end only.
use crate::{
    engine::{HEADER_BYTES, LINE_BYTES},
    fault::Fault,
    files::{fault, reason, sync_folder},
    source::shown,
    stop,
    text::{counted, grouped, quoted},
};
use fs2::FileExt;
use std::{
    fs::{self, File, Metadata, OpenOptions},
    io::{self, Read, Write},
    os::unix::fs::{FileTypeExt, MetadataExt, OpenOptionsExt},
    path::{Path, PathBuf},
    thread::sleep,
    time::{Duration, Instant},
};

/// A journal that this process has locked.
pub struct Journal {
    pub path: PathBuf,
    file: File,
    /// The file's bytes, as this process left them.
    bytes: Vec<u8>,
}

/// No journal of any plan is longer; a larger file is something else.
const MOST: u64 = 1 << 24;

impl Journal {
    /// Opens the plan's journal, or makes an empty one, locks it and reads it. `wait`: whether to wait while another process has it locked, for a
    /// command with that option.
    pub fn open(path: &Path, wait: Option<bool>) -> Result<Journal, Fault> {
        let file = locked(path, wait)?;
        // What a killed process left may never have been synced: it is, before a line follows it or a window is listed from it.
        file.sync_all().and_then(|()| sync_name(path)).map_err(|e| fault(path, &e))?;
        Ok(Journal { path: path.to_owned(), bytes: whole(path, &file)?, file })
    }
    pub fn used(&self) -> &[u8] {
        &self.bytes
    }
    /// Shortens the file to this many bytes.
    pub fn shorten(&mut self, keep: usize) -> Result<(), Fault> {
        if keep < self.bytes.len() {
            self.as_left()?;
            self.file.set_len(keep as u64).and_then(|()| self.file.sync_data()).map_err(|e| self.fault(&e))?;
            self.bytes.truncate(keep);
        }
        Ok(())
    }
    /// Writes the header, or lines, at the end of the file with one write, and syncs it. A short write is continued; nothing that was written is ever
    /// taken back.
    pub fn append(&mut self, frames: &[u8]) -> Result<(), Fault> {
        self.as_left()?;
        self.file.write_all(frames).and_then(|()| self.file.sync_data()).map_err(|e| self.fault(&e))?;
        self.bytes.extend_from_slice(frames);
        Ok(())
    }
    /// Refuses a file that is not as this process left it: written, shortened, removed or renamed by another.
    pub fn as_left(&self) -> Result<(), Fault> {
        let now = self.file.metadata().map_err(|e| self.fault(&e))?;
        let path = shown(&self.path);
        if now.nlink() == 0 {
            return Err(Fault::Files(format!("{}: the file was removed while this sweep wrote it", path)));
        }
        if !is_named(&self.path, &now) {
            return Err(Fault::Files(format!(
                "{}: the file was renamed or replaced while this sweep wrote it; every whole line is still in it. \
                 Give it its name back, then sweep again",
                path
            )));
        }
        if now.len() != self.bytes.len() as u64 {
            return Err(Fault::Files(format!(
                "{}: the file has {} and had {} after this sweep's last write, so another program writes it; \
                 nothing was overwritten. Find that program, then sweep again",
                path,
                counted(now.len(), "byte"),
                grouped(self.bytes.len())
            )));
        }
        Ok(())
    }
    fn fault(&self, e: &io::Error) -> Fault {
        Fault::Files(format!(
            "{}: {}; every whole line is kept: once that is mended, the same command goes on",
            shown(&self.path),
            reason(e)
        ))
    }
}

/// Whether this file is the one that has this name.
fn is_named(path: &Path, file: &Metadata) -> bool {
    fs::metadata(path).map_or(false, |named| named.ino() == file.ino() && named.dev() == file.dev())
}

/// Makes the file's name last; where it is a link, also the name that it leads to.
fn sync_name(path: &Path) -> io::Result<()> {
    if fs::symlink_metadata(path)?.is_symlink() {
        sync_folder(&fs::canonicalize(path)?)?;
    }
    sync_folder(path)
}

/// Opens the file for this process alone, and makes an empty one if there is none.
fn locked(path: &Path, wait: Option<bool>) -> Result<File, Fault> {
    let advice = if wait.is_some() { "let it end, or wait for it with --wait" } else { "let it end, then check again" };
    let wait = wait.unwrap_or(false);
    let asked = Instant::now();
    let mut reported = false;
    loop {
        if path.is_dir() {
            return Err(Fault::Files(format!("{}: this is a folder; allowed: a journal's file", shown(path))));
        }
        let mut open = OpenOptions::new();
        let file = open.read(true).append(true).create(true).custom_flags(libc::O_NONBLOCK).open(path).map_err(|e| fault(path, &e))?;
        plain(path, &file)?;
        match file.try_lock_exclusive() {
            Ok(()) => {
                // The name may have been given to another file before the lock was ours.
                if is_named(path, &file.metadata().map_err(|e| fault(path, &e))?) {
                    return Ok(file);
                }
            }
            Err(e) if e.kind() == io::ErrorKind::WouldBlock => {
                // `wilfnusk status` looks at the lock for a moment.
                if !wait && asked.elapsed() > Duration::from_millis(300) {
                    return Err(Fault::Files(format!("{}: another process sweeps into it; {}", shown(path), advice)));
                }
                if wait && !reported && asked.elapsed() > Duration::from_secs(1) {
                    reported = true;
                    tell!("waiting: another process sweeps into {}", shown(path));
                }
            }
            Err(e) => return Err(fault(path, &e)),
        }
        if stop::asked() {
            return Err(Fault::Stopped("stopped while waiting; nothing was written".into()));
        }
        sleep(Duration::from_millis(30));
    }
}

/// Whether a sweep has the journal locked.
pub fn is_locked(path: &Path) -> bool {
    opened(path).map_or(false, |file| file.try_lock_shared().is_err())
}

/// Opens a file to be looked at, and waits for nobody who would write into a pipe.
pub fn opened(path: &Path) -> io::Result<File> {
    OpenOptions::new().read(true).custom_flags(libc::O_NONBLOCK).open(path)
}

/// Refuses what is no plain file and so cannot keep what is written.
fn plain(path: &Path, file: &File) -> Result<Metadata, Fault> {
    let about = file.metadata().map_err(|e| fault(path, &e))?;
    let kind = about.file_type();
    let what = match () {
        () if kind.is_file() => return Ok(about),
        () if kind.is_dir() => "a folder",
        () if kind.is_fifo() => "a pipe",
        () if kind.is_char_device() || kind.is_block_device() => "a device",
        () => "no file that keeps what is written",
    };
    Err(Fault::Files(format!("{}: this is {}; allowed: a plain file", shown(path), what)))
}

/// The bytes of a journal or of its digest, or the length of a file that is too large for either.
pub fn read(path: &Path, mut file: &File) -> Result<Result<Vec<u8>, u64>, Fault> {
    let about = plain(path, file)?;
    if about.len() > MOST {
        return Ok(Err(about.len()));
    }
    let mut bytes = Vec::new();
    file.read_to_end(&mut bytes).map_err(|e| fault(path, &e))?;
    Ok(Ok(bytes))
}

/// The bytes of a journal.
fn whole(path: &Path, file: &File) -> Result<Vec<u8>, Fault> {
    read(path, file)?.map_err(|length| {
        Fault::Files(format!(
            "{}: {} bytes; allowed: at most {}, which no journal exceeds. If it ends with zero bytes, as a power cut may leave them, shorten it: \
             truncate -s {} {}",
            shown(path),
            grouped(length),
            grouped(MOST),
            MOST,
            quoted(path)
        ))
    })
}

/// The bytes of a journal that is only looked at.
pub fn look(path: &Path) -> Result<Vec<u8>, Fault> {
    whole(path, &opened(path).map_err(|e| fault(path, &e))?)
}

/// The whole lines after the header.
pub fn lines(journal: &[u8]) -> impl Iterator<Item = &[u8]> {
    journal.get(HEADER_BYTES as usize..).unwrap_or(&[]).chunks_exact(LINE_BYTES as usize)
}

/// Whether a byte is a lowercase hexadecimal digit.
pub fn is_digit(byte: &u8) -> bool {
    matches!(byte, b'0'..=b'9' | b'a'..=b'f')
}

/// Whether a line is of the form that chunk lines have.
pub fn is_line(line: &[u8]) -> bool {
    matches!(line, [digits @ .., b'\n'] if digits.len() + 1 == LINE_BYTES as usize && digits.iter().all(is_digit))
}

/// A field of lowercase hexadecimal digits.
pub fn hex(digits: &[u8]) -> Option<u64> {
    digits.iter().try_fold(0, |value, digit| match digit {
        b'0'..=b'9' => Some(value << 4 | u64::from(digit - b'0')),
        b'a'..=b'f' => Some(value << 4 | u64::from(digit - b'a' + 10)),
        _ => None,
    })
}

/// The chunk that a line is of.
pub fn chunk_of(line: &[u8]) -> Option<u64> {
    hex(line.get(..8)?)
}

/// Which chunks have a line.
pub fn done(journal: &[u8], chunks: usize) -> Vec<bool> {
    let mut done = vec![false; chunks];
    for chunk in lines(journal).filter_map(chunk_of) {
        if let Some(d) = done.get_mut(chunk as usize) {
            *d = true;
        }
    }
    done
}

#[cfg(test)]
mod tests {
    use super::*;
    use crate::{engine, testing::small};
    use std::ops::Range;

    fn begun(folder: &Path) -> Journal {
        let mut journal = Journal::open(&folder.join("j"), Some(false)).unwrap();
        journal.append(&engine::header(&small()).unwrap()).unwrap();
        journal
    }
    /// The lines of these chunks.
    fn lines_of(range: Range<u64>) -> Vec<u8> {
        let mut journal = engine::header(&small()).unwrap();
        let header = journal.len();
        journal.resize(header + LINE_BYTES as usize * (range.end - range.start) as usize, 0);
        engine::work(&small(), range, &mut journal, header).unwrap();
        journal.split_off(header)
    }
    fn fault_after(change: impl Fn(&Path)) -> String {
        let folder = tempfile::tempdir().unwrap();
        let mut journal = begun(folder.path());
        change(&journal.path);
        let fault = journal.append(&lines_of(0..2)).unwrap_err();
        assert_eq!((fault.status(), journal.used().len() as u64), (3, HEADER_BYTES));
        fault.to_string()
    }

    #[test]
    fn lines_are_written_at_the_end_and_read_again() {
        let folder = tempfile::tempdir().unwrap();
        let mut journal = begun(folder.path());
        for range in [0..2, 3..4, 2..3] {
            journal.append(&lines_of(range)).unwrap();
        }
        journal.as_left().unwrap();
        let (path, bytes) = (journal.path.clone(), journal.used().to_vec());
        drop(journal);
        assert_eq!(look(&path).unwrap(), bytes);
        let mut journal = Journal::open(&path, Some(false)).unwrap();
        assert_eq!(journal.used(), &bytes[..]);
        assert_eq!(done(journal.used(), 5), [true, true, true, true, false]);
        journal.shorten(HEADER_BYTES as usize).unwrap();
        assert_eq!(look(&path).unwrap(), &bytes[..HEADER_BYTES as usize]);
    }
    #[test]
    fn a_file_that_another_program_changed_is_refused() {
        let away = |path: &Path| path.with_extension("away");
        assert!(fault_after(|j| fs::remove_file(j).unwrap()).contains("was removed"));
        assert!(fault_after(|j| fs::rename(j, away(j)).unwrap()).contains("was renamed or replaced"));
        let replace = |j: &Path| {
            fs::copy(j, away(j)).unwrap();
            fs::rename(away(j), j).unwrap();
        };
        // A second name keeps the file, as a rename does.
        let replaced_by_copy = fault_after(|j| {
            fs::hard_link(j, j.with_extension("second")).unwrap();
            replace(j);
        });
        assert!(replaced_by_copy.contains("was renamed or replaced"));
        assert!(fault_after(|j| OpenOptions::new().append(true).open(j).unwrap().write_all(b"x").unwrap())
            .contains("another program writes it"));
        assert!(fault_after(|j| OpenOptions::new().write(true).open(j).unwrap().set_len(7).unwrap()).contains("has 7 bytes"));
    }
    #[test]
    fn a_second_process_is_refused() {
        let folder = tempfile::tempdir().unwrap();
        let journal = begun(folder.path());
        assert!(is_locked(&journal.path));
        let second = Journal::open(&journal.path, Some(false)).err().unwrap();
        assert!(second.to_string().contains("another process sweeps into it"));
        let path = journal.path.clone();
        drop(journal);
        assert!(!is_locked(&path));
    }
    #[test]
    fn a_link_to_a_file_that_is_not_there_makes_it() {
        let folder = tempfile::tempdir().unwrap();
        fs::create_dir(folder.path().join("disk")).unwrap();
        std::os::unix::fs::symlink("disk/real", folder.path().join("j")).unwrap();
        begun(folder.path());
        assert_eq!(fs::read(folder.path().join("disk/real")).unwrap().len() as u64, HEADER_BYTES);
    }
    #[test]
    fn a_file_that_is_not_plain_or_too_large_is_refused() {
        let folder = tempfile::tempdir().unwrap();
        for (path, says) in [(folder.path(), "a folder"), (Path::new("/dev/zero"), "a device")] {
            assert!(look(path).unwrap_err().to_string().contains(says));
            assert!(Journal::open(path, Some(false)).err().unwrap().to_string().contains(says));
        }
        let path = folder.path().join("large");
        File::create(&path).unwrap().set_len(MOST + 1).unwrap();
        assert!(look(&path).unwrap_err().to_string().contains("16,777,217 bytes; allowed: at most 16,777,216"));
    }
    #[test]
    fn digits_and_chunks_are_read_and_other_bytes_are_not() {
        assert_eq!((hex(b"0fa9"), hex(b""), hex(b"0F"), hex(b"g")), (Some(0xfa9), Some(0), None, None));
        assert_eq!((chunk_of(b"0000001f.."), chunk_of(b"0000001")), (Some(31), None));
        assert_eq!(lines(&[0; 106]).count(), 0);
        assert_eq!(lines(&[0; 107 + 2 * 33 + 32]).count(), 2);
    }
}
