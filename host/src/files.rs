//! Writing files: whole or not at all, and never over another file by accident.
use crate::{fault::Fault, source::shown, stop};
use std::{
    fs::{self, File, Metadata, OpenOptions},
    io::{self, BufWriter, Read, Write},
    os::unix::{
        ffi::OsStrExt,
        fs::{FileTypeExt, MetadataExt},
    },
    path::{Path, PathBuf},
};
use tempfile::TempDir;

/// Where a file that is to be written will stand: links are followed, and the folder must be there.
#[derive(Debug)]
pub struct Place {
    /// Without links, so that two names of one file are equal.
    path: PathBuf,
    /// What stands there now.
    now: Option<Metadata>,
}

impl Place {
    pub fn of(path: &Path) -> io::Result<Place> {
        let no_file = || io::Error::from_raw_os_error(libc::EISDIR);
        match fs::metadata(path) {
            Ok(now) if now.is_dir() => Err(no_file()),
            Ok(now) if now.is_file() => Ok(Place { path: fs::canonicalize(path)?, now: Some(now) }),
            // What a pipe's name leads to may be no name.
            Ok(now) => Ok(Place { path: path.to_owned(), now: Some(now) }),
            Err(e) if e.kind() == io::ErrorKind::NotFound => {
                if path.symlink_metadata().is_ok() {
                    return Err(io::Error::new(io::ErrorKind::InvalidInput, "it is a link to a file that is not there"));
                }
                match path.file_name() {
                    Some(name) if !path.as_os_str().as_bytes().ends_with(b"/") => {
                        Ok(Place { path: fs::canonicalize(folder_of(path))?.join(name), now: None })
                    }
                    _ => Err(no_file()),
                }
            }
            Err(e) => Err(e),
        }
    }
    /// Whether both are one file: by name, or by device and inode.
    pub fn is(&self, other: &Place) -> bool {
        self.path == other.path || matches!((&self.now, &other.now), (Some(a), Some(b)) if same_file(a, b))
    }
    /// Whether it is the file that this process has open here.
    pub fn is_open(&self, file: &File) -> bool {
        matches!((&self.now, file.metadata()), (Some(a), Ok(b)) if a.is_file() && same_file(a, &b))
    }
    /// The first bytes of a plain file that stands there, at most so many.
    pub fn head(&self, most: u64) -> io::Result<Vec<u8>> {
        let mut head = Vec::new();
        if let Some(path) = self.existing() {
            File::open(path)?.take(most).read_to_end(&mut head)?;
        }
        Ok(head)
    }
    /// The name, without links, of a plain file that stands there.
    pub fn existing(&self) -> Option<&Path> {
        self.now.as_ref().filter(|now| now.is_file()).map(|_| &*self.path)
    }
    /// A pipe or a device, which is written as it is; a disk is refused.
    fn is_stream(&self) -> bool {
        self.now.as_ref().map_or(false, |now| !now.is_file())
    }
    /// Tries whether a file can be written here, and leaves nothing behind.
    pub fn try_write(&self) -> io::Result<()> {
        match &self.now {
            Some(now) if now.file_type().is_block_device() => Err(io::Error::new(io::ErrorKind::InvalidInput, "it is a disk")),
            Some(now) if !now.is_file() => Ok(()),
            Some(_) => OpenOptions::new().write(true).open(&self.path).and_then(|_| self.try_aside()),
            None => self.try_aside(),
        }
    }
    fn try_aside(&self) -> io::Result<()> {
        stop::while_listening(|| self.aside()?.close())
    }
    /// A folder of a random name beside the file.
    fn aside(&self) -> io::Result<TempDir> {
        tempfile::Builder::new().prefix(".wilfnusk-").tempdir_in(folder_of(&self.path))
    }
    /// The new file is made in a folder of its own, where no other process can have put anything, with the permissions that
    /// a new file gets or those of the file that it replaces. Synced, it takes the name. No signal leaves the folder behind.
    /// `goes_on`: whether it shall still take the name, asked once it is synced.
    fn replace(&self, write: impl FnOnce(&mut dyn Write) -> io::Result<()>, goes_on: fn() -> io::Result<()>) -> io::Result<()> {
        stop::while_listening(|| self.replace_listening(write, goes_on))
    }
    fn replace_listening(&self, write: impl FnOnce(&mut dyn Write) -> io::Result<()>, goes_on: fn() -> io::Result<()>) -> io::Result<()> {
        let aside = self.aside()?;
        let new = aside.path().join("new");
        let file = OpenOptions::new().write(true).create_new(true).open(&new)?;
        if let Some(now) = self.now.as_ref().filter(|now| file.metadata().map_or(true, |new| new.mode() != now.mode())) {
            file.set_permissions(now.permissions())?;
        }
        buffered(&file, write)?;
        file.sync_all()?;
        goes_on()?;
        fs::rename(&new, &self.path)?;
        aside.close()?;
        sync_folder(&self.path)
    }
}

fn same_file(a: &Metadata, b: &Metadata) -> bool {
    (a.dev(), a.ino()) == (b.dev(), b.ino())
}

/// The folder in which a file stands or shall stand.
pub fn folder_of(path: &Path) -> &Path {
    path.parent().filter(|p| !p.as_os_str().is_empty()).unwrap_or_else(|| Path::new("."))
}

/// Writes a plain file whole or not at all, and makes it last. A link stays: the file that it leads to is written.
pub fn write_whole(path: &Path, bytes: &[u8]) -> Result<(), Fault> {
    let done = Place::of(path).and_then(|place| match place.is_stream() {
        true => Err(io::Error::new(io::ErrorKind::InvalidInput, "it is no plain file")),
        false => place.replace(|out| out.write_all(bytes), || Ok(())),
    });
    done.map_err(|e| fault(path, &e))?;
    if stop::is_due() {
        return Err(Fault::Stopped(format!("stopped after {} was written", shown(path))));
    }
    Ok(())
}

/// The same with what the function writes, which may go into a pipe or a device too. A signal ends the writing, and the file is as it was.
pub fn write_output(path: &Path, write: impl FnOnce(&mut dyn Write) -> io::Result<()>) -> Result<(), Fault> {
    let done = Place::of(path).and_then(|place| match place.is_stream() {
        true => buffered(OpenOptions::new().write(true).open(&place.path)?, write),
        false => place.replace(|out| buffered(Stoppable(out), write), unless_stopped),
    });
    match done {
        Err(_) if stop::asked() => Err(Fault::Stopped(format!("stopped; {} was not written", shown(path)))),
        done => done.map_err(|e| fault(path, &e)),
    }
}

fn unless_stopped() -> io::Result<()> {
    match stop::asked() {
        true => Err(io::Error::new(io::ErrorKind::Other, "stopped")),
        false => Ok(()),
    }
}

/// Writes until a signal asks to stop.
struct Stoppable<'a>(&'a mut dyn Write);

impl Write for Stoppable<'_> {
    fn write(&mut self, bytes: &[u8]) -> io::Result<usize> {
        unless_stopped()?;
        self.0.write(bytes)
    }
    fn flush(&mut self) -> io::Result<()> {
        self.0.flush()
    }
}

/// Writes in few large pieces.
pub fn buffered(to: impl Write, write: impl FnOnce(&mut dyn Write) -> io::Result<()>) -> io::Result<()> {
    let mut out = BufWriter::with_capacity(1 << 16, to);
    write(&mut out)?;
    out.flush()
}

/// Makes a new name in a folder last. Some file systems cannot sync a folder, and need not.
pub fn sync_folder(path: &Path) -> io::Result<()> {
    match File::open(folder_of(path))?.sync_all() {
        Err(e) if e.kind() == io::ErrorKind::InvalidInput => Ok(()),
        synced => synced,
    }
}

/// A fault of a file.
pub fn fault(path: &Path, e: &io::Error) -> Fault {
    Fault::Files(format!("{}: {}", shown(path), reason(e)))
}

/// What went wrong with a file, in words.
pub fn reason(e: &io::Error) -> String {
    match e.kind() {
        io::ErrorKind::StorageFull => "the disk is full".into(),
        io::ErrorKind::QuotaExceeded => "the disk quota is used up".into(),
        io::ErrorKind::ReadOnlyFilesystem => "the file system is read-only".into(),
        io::ErrorKind::FileTooLarge => {
            "the file may not grow further: a limit on the size of files (ulimit -f) or of the file system".into()
        }
        io::ErrorKind::IsADirectory => "it is a folder".into(),
        io::ErrorKind::NotFound => "there is no such file or folder".into(),
        io::ErrorKind::PermissionDenied => "permission denied".into(),
        _ => e.to_string(),
    }
}

#[cfg(test)]
mod tests {
    use super::*;
    use std::{
        fs::Permissions,
        os::unix::fs::{symlink, PermissionsExt},
    };

    fn names(folder: &Path) -> Vec<String> {
        let mut names: Vec<_> = fs::read_dir(folder).unwrap().map(|e| e.unwrap().file_name().into_string().unwrap()).collect();
        names.sort();
        names
    }
    fn mode(path: &Path) -> u32 {
        fs::metadata(path).unwrap().permissions().mode() & 0o7777
    }

    #[test]
    fn a_file_is_whole_or_as_it_was() {
        let folder = tempfile::tempdir().unwrap();
        let path = folder.path().join("f");
        write_whole(&path, b"one").unwrap();
        let failed = write_output(&path, |out| {
            out.write_all(&[b'x'; 1 << 17])?;
            Err(io::Error::from_raw_os_error(libc::ENOSPC))
        });
        assert!(failed.unwrap_err().to_string().ends_with("f: the disk is full"));
        assert_eq!(fs::read(&path).unwrap(), b"one");
        write_whole(&path, b"two").unwrap();
        assert_eq!(fs::read(&path).unwrap(), b"two");
        assert_eq!(names(folder.path()), ["f"], "something was left behind");
    }
    #[test]
    fn a_signal_after_the_last_write_leaves_the_file_as_it_was() {
        const FILE: &str = "WILFNUSK_TEST_OUTPUT";
        // In a separate process: the signal would stop the other tests of this one.
        if let Some(path) = std::env::var_os(FILE) {
            let ended = write_output(Path::new(&path), |out| {
                out.write_all(b"new")?;
                out.flush()?;
                signal_hook::low_level::raise(libc::SIGTERM)
            });
            assert!(matches!(ended, Err(Fault::Stopped(_))));
            return;
        }
        let folder = tempfile::tempdir().unwrap();
        let path = folder.path().join("f");
        fs::write(&path, "old").unwrap();
        let own = std::thread::current().name().unwrap().to_owned();
        let run = std::process::Command::new(std::env::current_exe().unwrap()).args(["--exact", &own]).env(FILE, &path).output().unwrap();
        assert!(run.status.success() && String::from_utf8_lossy(&run.stdout).contains("1 passed"), "{:?}", run);
        assert_eq!(fs::read(&path).unwrap(), b"old");
        assert_eq!(names(folder.path()), ["f"], "something was left behind");
    }
    #[test]
    fn a_planted_link_is_not_followed() {
        let folder = tempfile::tempdir().unwrap();
        let (path, precious) = (folder.path().join("f"), folder.path().join("precious"));
        fs::write(&precious, "precious").unwrap();
        symlink(&precious, folder.path().join("f.new")).unwrap();
        write_whole(&path, b"bytes").unwrap();
        assert_eq!(fs::read(&precious).unwrap(), b"precious");
        assert_eq!(fs::read(&path).unwrap(), b"bytes");
    }
    #[test]
    fn permissions_are_those_of_a_plain_file_or_stay() {
        let folder = tempfile::tempdir().unwrap();
        let (path, plain) = (folder.path().join("f"), folder.path().join("plain"));
        File::create(&plain).unwrap();
        write_whole(&path, b"").unwrap();
        assert_eq!(mode(&path), mode(&plain));
        fs::set_permissions(&path, Permissions::from_mode(0o640)).unwrap();
        write_whole(&path, b"").unwrap();
        assert_eq!(mode(&path), 0o640);
    }
    #[test]
    fn a_link_stays_and_its_file_is_written() {
        let folder = tempfile::tempdir().unwrap();
        let (path, link) = (folder.path().join("f"), folder.path().join("link"));
        fs::write(&path, "old").unwrap();
        symlink("f", &link).unwrap();
        write_whole(&link, b"new").unwrap();
        assert!(link.symlink_metadata().unwrap().is_symlink());
        assert_eq!(fs::read(&path).unwrap(), b"new");
        fs::remove_file(&path).unwrap();
        let text = write_whole(&link, b"new").unwrap_err().to_string();
        assert!(text.ends_with("link: it is a link to a file that is not there"), "{}", text);
        assert!(!path.exists());
    }
    #[test]
    fn devices_stay_devices() {
        write_output(Path::new("/dev/null"), |out| out.write_all(b"bytes")).unwrap();
        assert!(write_whole(Path::new("/dev/null"), b"bytes").is_err());
        assert!(fs::metadata("/dev/null").unwrap().file_type().is_char_device());
    }
    #[test]
    fn two_names_of_one_file_are_recognised() {
        let folder = tempfile::tempdir().unwrap();
        let at = |name: &str| Place::of(&folder.path().join(name)).unwrap();
        assert!(at("f").is(&at("./f")) && !at("f").is(&at("g")));
        File::create(folder.path().join("f")).unwrap();
        fs::hard_link(folder.path().join("f"), folder.path().join("hard")).unwrap();
        symlink("f", folder.path().join("soft")).unwrap();
        fs::create_dir(folder.path().join("d")).unwrap();
        for other in ["hard", "soft", "d/../f"] {
            assert!(at("f").is(&at(other)), "{}", other);
        }
        assert!(!at("f").is(&at("d/f")));
    }
    #[test]
    fn places_that_cannot_be_written_are_faults() {
        let folder = tempfile::tempdir().unwrap();
        for (name, says) in
            [("no/f", "there is no such file or folder"), ("", "it is a folder"), ("f/", "it is a folder"), ("..", "it is a folder")]
        {
            let e = Place::of(&folder.path().join(name)).unwrap_err();
            assert_eq!(reason(&e), says, "{}", name);
        }
        let gone = tempfile::tempdir().unwrap();
        let place = Place::of(&gone.path().join("f")).unwrap();
        place.try_write().unwrap();
        assert_eq!(names(gone.path()).len(), 0);
        drop(gone);
        assert_eq!(reason(&place.try_write().unwrap_err()), "there is no such file or folder");
    }
}
