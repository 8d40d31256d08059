//! Why the program stops, and the exit status that says so.
use crate::files::reason;
use std::{fmt, io};

#[derive(Debug)]
pub enum Fault {
    /// The library said no, with its number.
    Refused(u8, String),
    /// Lines that are not what the plan gives.
    Differs(String),
    /// The command line asks for what cannot be.
    Usage(String),
    /// A file: it cannot be opened or written, or what it says cannot be read.
    Files(String),
    /// The sweep that is looked at lacks lines.
    Unfinished(String),
    /// Ctrl-C, or the machine's wish to end.
    Stopped(String),
    /// Nobody reads our output any more.
    Unread,
}

impl Fault {
    pub fn status(&self) -> i32 {
        match self {
            // Document 01's 15: a chunk lacks a line.
            Fault::Refused(15, _) | Fault::Unfinished(_) => 4,
            Fault::Refused(..) | Fault::Differs(_) => 1,
            Fault::Usage(_) => 2,
            Fault::Files(_) => 3,
            Fault::Stopped(_) => 130,
            Fault::Unread => 0,
        }
    }
    /// A fault of our own output, on a terminal or a pipe.
    pub fn output(e: io::Error) -> Fault {
        match e.kind() {
            io::ErrorKind::BrokenPipe => Fault::Unread,
            _ => Fault::Files(format!("standard output: {}", reason(&e))),
        }
    }
}

/// An error of writing CSV with the kind of the write that failed.
pub fn csv_error(e: csv::Error) -> io::Error {
    match e.into_kind() {
        csv::ErrorKind::Io(e) => e,
        other => io::Error::new(io::ErrorKind::Other, format!("{:?}", other)),
    }
}

impl fmt::Display for Fault {
    fn fmt(&self, f: &mut fmt::Formatter) -> fmt::Result {
        match self {
            Fault::Refused(number, text) => write!(f, "refused with {}: {}", number, text),
            Fault::Differs(text) | Fault::Usage(text) | Fault::Files(text) | Fault::Unfinished(text) | Fault::Stopped(text) => {
                f.write_str(text)
            }
            Fault::Unread => Ok(()),
        }
    }
}

#[cfg(test)]
mod tests {
    use super::*;

    #[test]
    fn each_kind_has_its_status() {
        let text = || "why".to_owned();
        for (fault, status, said) in [
            (Fault::Refused(5, text()), 1, "refused with 5: why"),
            (Fault::Refused(15, text()), 4, "refused with 15: why"),
            (Fault::Differs(text()), 1, "why"),
            (Fault::Usage(text()), 2, "why"),
            (Fault::Files(text()), 3, "why"),
            (Fault::Unfinished(text()), 4, "why"),
            (Fault::Stopped(text()), 130, "why"),
            (Fault::Unread, 0, ""),
        ] {
            assert_eq!((fault.status(), fault.to_string().as_str()), (status, said));
        }
    }
    #[test]
    fn a_reader_who_leaves_is_no_fault_and_a_full_disk_is() {
        assert!(matches!(Fault::output(io::ErrorKind::BrokenPipe.into()), Fault::Unread));
        assert_eq!(Fault::output(io::Error::from_raw_os_error(libc::ENOSPC)).status(), 3);
        let through_csv = csv_error(csv::Error::from(io::Error::from(io::ErrorKind::BrokenPipe)));
        assert_eq!(through_csv.kind(), io::ErrorKind::BrokenPipe);
    }
}
