//! Numbers, counts and names as messages show them.
use std::{os::unix::ffi::OsStrExt, path::Path};

/// A message of our own, whose line ends are meant; what is shown already stays as it is.
pub fn printable_lines(text: &str) -> String {
    text.split('\n').map(printable).collect::<Vec<_>>().join("\n")
}

/// A number of things: 1 roll, 2 rolls.
pub fn counted(n: impl ToString, thing: &str) -> String {
    let n = grouped(n);
    let s = if n == "1" { "" } else { "s" };
    format!("{} {}{}", n, thing, s)
}

/// A setting: as few digits as read back as it.
pub fn number(x: f64) -> String {
    let text = format!("{:?}", x);
    text.strip_suffix(".0").map_or(text.clone(), str::to_owned)
}

/// Prints a line on standard error; a sweep goes on where that cannot be written.
#[macro_export]
macro_rules! tell {
    ($($words:tt)*) => {{
        use std::io::Write;
        let _ = writeln!(std::io::stderr(), "{}", $crate::text::printable_lines(&format!($($words)*)));
    }};
}

/// A name or a cell as a terminal may show it: what would steer the terminal, or turn the direction of the text, is escaped.
pub fn printable(text: &str) -> String {
    let mut safe = String::with_capacity(text.len());
    for c in text.chars() {
        match c {
            '\u{61c}' | '\u{200e}' | '\u{200f}' | '\u{2028}'..='\u{202e}' | '\u{2066}'..='\u{2069}' => safe.extend(c.escape_default()),
            c if c.is_control() => safe.extend(c.escape_default()),
            c => safe.push(c),
        }
    }
    safe
}

/// A number with commas between thousands.
pub fn grouped(n: impl ToString) -> String {
    let digits = n.to_string();
    let mut text = String::new();
    for (i, d) in digits.chars().enumerate() {
        if i > 0 && (digits.len() - i) % 3 == 0 {
            text.push(',');
        }
        text.push(d);
    }
    text
}

/// What a message shows of a text that could not be read: its start, and escapes for characters that show nothing.
pub fn excerpt(text: &str) -> String {
    const MOST: usize = 80;
    let mut shown = String::new();
    for c in text.chars().take(MOST + 1) {
        match c {
            '\u{ad}' | '\u{200b}'..='\u{200d}' | '\u{2060}'..='\u{2065}' | '\u{feff}' => shown.extend(c.escape_default()),
            c => shown.push(c),
        }
    }
    shown = printable(&shown);
    match shown.char_indices().nth(MOST) {
        Some((end, _)) => format!("{} ..", &shown[..end]),
        None => shown,
    }
}

/// The indices with the wanted flag, as ranges: 0..3, 7.
pub fn ranges(flags: &[bool], wanted: bool) -> String {
    const SHOWN: usize = 8;
    let mut parts = all_ranges(flags, wanted);
    if parts.len() > SHOWN {
        let more = parts.len() - SHOWN;
        parts.truncate(SHOWN);
        parts.push(format!("and {} more ranges", grouped(more)));
    }
    parts.join(", ")
}

/// Each of them, however many there are.
pub fn all_ranges(flags: &[bool], wanted: bool) -> Vec<String> {
    let mut parts = Vec::new();
    let mut i = 0;
    while i < flags.len() {
        let start = i;
        while i < flags.len() && flags[i] == wanted {
            i += 1;
        }
        match i - start {
            0 => i += 1,
            1 => parts.push(start.to_string()),
            _ => parts.push(format!("{}..{}", start, i)),
        }
    }
    parts
}

/// A file's name as a shell takes it for one word.
pub fn quoted(path: &Path) -> String {
    let mut bytes = path.as_os_str().as_bytes().to_vec();
    if bytes.starts_with(b"-") {
        bytes.splice(..0, *b"./");
    }
    match std::str::from_utf8(&bytes) {
        Ok(name) if !name.chars().any(char::is_control) => {
            let plain = |c: char| c.is_alphanumeric() || "_./,:=@%+-".contains(c);
            match !name.is_empty() && name.chars().all(plain) {
                true => name.to_owned(),
                false => format!("'{}'", name.replace('\'', r"'\''")),
            }
        }
        _ => {
            let escaped = |&b: &u8| match b {
                b'\'' | b'\\' => format!("\\{}", char::from(b)),
                b' '..=b'~' => char::from(b).to_string(),
                _ => format!("\\x{:02x}", b),
            };
            format!("$'{}'", bytes.iter().map(escaped).collect::<String>())
        }
    }
}

#[cfg(test)]
mod tests {
    use super::*;
    use std::{ffi::OsStr, process::Command};

    #[test]
    fn a_count_of_one_has_no_plural() {
        assert_eq!(counted(1, "roll"), "1 roll");
        assert_eq!(counted(0, "time"), "0 times");
        assert_eq!(counted(3600, "roll"), "3,600 rolls");
    }
    #[test]
    fn numbers_have_as_few_digits_as_read_back() {
        assert_eq!([10.0, 0.4, -0.0, 1e-300, 1e300].map(number), ["10", "0.4", "-0", "1e-300", "1e300"]);
        assert_eq!([f64::NAN, f64::NEG_INFINITY].map(number), ["NaN", "-inf"]);
    }
    #[test]
    fn what_steers_a_terminal_is_escaped() {
        assert_eq!(printable("Véga \\ 星"), "Véga \\ 星");
        assert_eq!(printable("a\u{1b}[31m\r\n\tb\u{7f}\u{9b}"), "a\\u{1b}[31m\\r\\n\\tb\\u{7f}\\u{9b}");
        assert_eq!(printable("\u{202e}abc\u{2066}"), "\\u{202e}abc\\u{2066}");
        assert_eq!(printable_lines("one\u{7}\ntwo"), "one\\u{7}\ntwo");
        assert_eq!(printable_lines(&printable("one\ntwo")), "one\\ntwo");
    }
    #[test]
    fn commas_stand_between_thousands() {
        assert_eq!(grouped(0), "0");
        assert_eq!(grouped(999), "999");
        assert_eq!(grouped(1000), "1,000");
        assert_eq!(grouped(1048576), "1,048,576");
    }
    #[test]
    fn an_excerpt_is_short_and_escaped() {
        assert_eq!(printable("α Cen, 4\u{a0}ly"), "α Cen, 4\u{a0}ly");
        assert_eq!(printable("a\n\u{1b}[2J\0\u{9b}b\r\t"), "a\\n\\u{1b}[2J\\u{0}\\u{9b}b\\r\\t");
        assert_eq!(excerpt("\u{202e}\u{feff}1\n"), "\\u{202e}\\u{feff}1\\n");
        assert_eq!(excerpt(&"ä".repeat(80)), "ä".repeat(80));
        assert_eq!(excerpt(&"ä".repeat(81)), "ä".repeat(80) + " ..");
    }
    #[test]
    fn flags_are_shown_as_ranges() {
        assert_eq!(ranges(&[], true), "");
        assert_eq!(ranges(&[true, true, false, true], true), "0..2, 3");
        assert_eq!(ranges(&[true, true, false, true], false), "2");
        let every_other: Vec<bool> = (0..20).map(|i| i % 2 == 0).collect();
        assert!(ranges(&every_other, true).ends_with("14, and 2 more ranges"));
        assert_eq!(all_ranges(&every_other, true).len(), 10);
        assert_eq!(ranges(&[false; 5], false), "0..5");
    }
    #[test]
    fn quoted_names_are_one_word_of_a_shell() {
        let names: [&[u8]; 10] =
            [b"a/plan.toml", b"two words", b"it's", b"$HOME `x` \"y\" \\", b"-o", b"", b"*?", b"1\n2\t'\\", b"\x1b[31m", b"latin-1 \xe9"];
        for name in names {
            let word = quoted(Path::new(OsStr::from_bytes(name)));
            let said = Command::new("bash").args(["-c", &format!("printf %s {}", word)]).output().unwrap().stdout;
            assert_eq!(said.strip_prefix(b"./").unwrap_or(&said), name, "{}", word);
            assert!(!word.chars().any(char::is_control));
        }
        assert_eq!(quoted(Path::new("a/plan-é.toml")), "a/plan-é.toml");
    }
}
