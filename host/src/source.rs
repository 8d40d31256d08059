//! A text file kept whole in memory, so that every message can name the line and the column.
use crate::{
    fault::Fault,
    files,
    text::{grouped, printable},
};
use std::{
    fs::{self, File, FileType},
    io::Read,
    os::unix::fs::FileTypeExt,
    path::{Path, PathBuf},
};

#[derive(Debug)]
pub struct Source {
    pub path: PathBuf,
    pub text: String,
}

impl Source {
    /// Reads a plain file of at most this many bytes: a pipe may never end or begin, and a device has no end.
    pub fn read(path: &Path, most: u64) -> Result<Source, Fault> {
        let fault = |e| files::fault(path, &e);
        let kind = fs::metadata(path).map_err(fault)?.file_type();
        if !kind.is_file() {
            return Err(Fault::Files(format!("{}: it is a {}; allowed: a plain file", shown(path), word(kind))));
        }
        let file = File::open(path).map_err(fault)?;
        // The length is asked first, so that a file far too long is not read; what grows meanwhile is not followed.
        let length = file.metadata().map_err(fault)?.len();
        if length <= most {
            let mut bytes = Vec::with_capacity(length as usize + 1);
            file.take(most + 1).read_to_end(&mut bytes).map_err(fault)?;
            if bytes.len() as u64 <= most {
                return Source::of(path, bytes);
            }
        }
        Err(Fault::Files(format!("{}: more than {} bytes; allowed: at most that many", shown(path), grouped(most))))
    }
    pub fn of(path: &Path, bytes: Vec<u8>) -> Result<Source, Fault> {
        let unmarked = |mut text: String| {
            let marks = text.len() - text.trim_start_matches('\u{feff}').len();
            text.drain(..marks);
            Source { path: path.to_owned(), text }
        };
        match String::from_utf8(bytes) {
            Ok(text) => Ok(unmarked(text)),
            Err(e) => {
                let (good, bad) = e.as_bytes().split_at(e.utf8_error().valid_up_to());
                let what = match bad {
                    [0xff, 0xfe, ..] | [0xfe, 0xff, ..] if good.is_empty() => "the file is UTF-16".to_owned(),
                    _ => format!("byte {:#04x} is not UTF-8", bad.first().copied().unwrap_or(0)),
                };
                let source = unmarked(String::from_utf8_lossy(good).into_owned());
                Err(source.fault(source.text.len(), what, "text saved as UTF-8"))
            }
        }
    }
    /// The line of a byte, from 1, and the text of that line before it.
    fn line(&self, byte: usize) -> (usize, &str) {
        let mut byte = byte.min(self.text.len());
        while !self.text.is_char_boundary(byte) {
            byte -= 1;
        }
        let (mut line, mut start) = (1, 0);
        for (i, c) in self.text[..byte].bytes().enumerate() {
            // Of a carriage return and a line feed the second ends the line.
            if c == b'\n' || c == b'\r' && self.text.as_bytes().get(i + 1) != Some(&b'\n') {
                (line, start) = (line + 1, i + 1);
            }
        }
        (line, &self.text[start..byte])
    }
    /// The line of a byte, from 1.
    pub fn line_number(&self, byte: usize) -> usize {
        self.line(byte).0
    }
    /// The place of a byte: file, line and column, counted in characters from 1.
    pub fn at(&self, byte: usize) -> String {
        let (line, before) = self.line(byte);
        format!("{}, line {}, column {}", shown(&self.path), line, before.chars().count() + 1)
    }
    /// A fault at a byte: what was read there and what is allowed.
    pub fn fault(&self, byte: usize, read: impl AsRef<str>, allowed: &str) -> Fault {
        Fault::Files(format!("{}: {}; allowed: {}", self.at(byte), read.as_ref(), allowed))
    }
}

/// A file's name as a message shows it.
pub fn shown(path: &Path) -> String {
    printable(&path.to_string_lossy())
}

fn word(kind: FileType) -> &'static str {
    if kind.is_dir() {
        "folder"
    } else if kind.is_fifo() {
        "pipe"
    } else if kind.is_socket() {
        "socket"
    } else {
        "device"
    }
}

#[cfg(test)]
mod tests {
    use super::*;
    use proptest::prelude::*;

    #[test]
    fn a_place_is_a_line_and_a_column() {
        let s = Source::of(Path::new("f"), "ab\nçd\n".into()).unwrap();
        assert_eq!(s.at(0), "f, line 1, column 1");
        assert_eq!(s.at(3), "f, line 2, column 1");
        assert_eq!(s.at(5), "f, line 2, column 2");
        assert_eq!(s.at(99), "f, line 3, column 1");
        // A line ends with a line feed, a carriage return, or both.
        let s = Source::of(Path::new("f"), "a\r\nb\rc\n\rd".into()).unwrap();
        let places =
            ["1, column 1", "1, column 2", "1, column 3", "2, column 1", "2, column 2", "3, column 1", "3, column 2", "4, column 1"];
        for (byte, place) in places.iter().enumerate() {
            assert_eq!(s.at(byte), format!("f, line {}", place), "{}", byte);
        }
        assert_eq!(s.at(8), "f, line 5, column 1");
    }
    #[test]
    fn latin1_is_refused_where_it_stands() {
        let e = Source::of(Path::new("f"), b"a\nb\xe9".to_vec()).unwrap_err();
        assert!(e.to_string().starts_with("f, line 2, column 2: byte 0xe9 is not UTF-8"), "{}", e);
    }
    #[test]
    fn any_byte_has_a_place() {
        let s = Source::of(Path::new("f"), "\u{a0}\u{1f680}x".into()).unwrap();
        assert_eq!(s.at(1), "f, line 1, column 1");
        assert_eq!(s.at(5), "f, line 1, column 2");
        assert_eq!(s.at(6), "f, line 1, column 3");
    }
    #[test]
    fn a_byte_order_mark_is_skipped() {
        assert_eq!(Source::of(Path::new("f"), "\u{feff}x".into()).unwrap().text, "x");
        let e = Source::of(Path::new("f"), b"\xef\xbb\xbfa\xff".to_vec()).unwrap_err();
        assert!(e.to_string().starts_with("f, line 1, column 2: byte 0xff is not UTF-8"), "{}", e);
        let e = Source::of(Path::new("f"), b"\xff\xfea\0".to_vec()).unwrap_err();
        assert_eq!(e.to_string(), "f, line 1, column 1: the file is UTF-16; allowed: text saved as UTF-8");
    }
    #[test]
    fn a_file_s_name_is_shown_without_control_characters() {
        assert_eq!(Source::of(Path::new("a\n\u{1b}"), vec![]).unwrap().at(0), "a\\n\\u{1b}, line 1, column 1");
    }
    #[test]
    fn a_file_that_has_no_length_is_read_to_the_limit() {
        // Its length is 0 until it is read.
        let path = Path::new("/proc/self/maps");
        assert!(Source::read(path, 1 << 20).is_ok());
        assert_eq!(Source::read(path, 10).unwrap_err().to_string(), "/proc/self/maps: more than 10 bytes; allowed: at most that many");
    }
    proptest! {
        #[test]
        fn any_bytes_are_text_or_have_a_place(bytes in prop::collection::vec(any::<u8>(), 0..40), at in 0usize..50) {
            if let Ok(source) = Source::of(Path::new("f"), bytes) {
                source.at(at);
            }
        }
        #[test]
        fn any_byte_of_any_text_has_a_place(text in "(\\PC|\\s){0,20}", at in 0usize..90) {
            Source::of(Path::new("f"), text.into()).unwrap().at(at);
        }
    }
}
