//! The plan's TOML file: its keys, each value with the place where it stands.
use crate::{
    fault::Fault,
    source::{shown, Source},
    text::{excerpt, grouped},
    tolerance::{self, Told},
    tried::{self, Rolls},
};
use serde::de::{Deserialize, Deserializer, MapAccess, Visitor};
use std::{collections::BTreeMap, fmt};
use toml::{value::Value, Spanned};

const KEYS: &[&str] = &["targets", "ephemeris", "rolls", "tolerance", "panel", "configured_roll"];
/// How deep a value may stand in others: the TOML reader calls itself for each.
const MOST_DEPTH: usize = 16;

/// The keys and values of a TOML file in its order, a repeated key too.
struct Pairs(Vec<(Spanned<String>, Spanned<Value>)>);

impl<'de> Deserialize<'de> for Pairs {
    fn deserialize<D: Deserializer<'de>>(deserializer: D) -> Result<Pairs, D::Error> {
        struct Visit;
        impl<'de> Visitor<'de> for Visit {
            type Value = Pairs;
            fn expecting(&self, f: &mut fmt::Formatter) -> fmt::Result {
                f.write_str("keys and values")
            }
            fn visit_map<M: MapAccess<'de>>(self, mut map: M) -> Result<Pairs, M::Error> {
                let mut pairs = Vec::new();
                while let Some(pair) = map.next_entry()? {
                    pairs.push(pair);
                }
                Ok(Pairs(pairs))
            }
        }
        deserializer.deserialize_map(Visit)
    }
}

/// The values of the TOML file, each with the place where it stands.
pub struct Values<'a> {
    source: &'a Source,
    values: BTreeMap<String, Read>,
    /// The byte where each value that was asked for stands.
    pub places: BTreeMap<&'static str, usize>,
}

/// A value, its first byte in the file, and its text.
pub struct Read {
    pub at: usize,
    value: Value,
    pub text: String,
}

impl<'a> Values<'a> {
    pub fn of(source: &'a Source) -> Result<Values<'a>, Fault> {
        // TOML forbids it. A reader that took it for a space would read the next line as the end of a comment.
        if let Some(at) = lone_carriage_return(&source.text) {
            return Err(source.fault(at, "a carriage return without a line feed", "lines that end with a line feed, or with both"));
        }
        shallow(source)?;
        let no_toml = |e: toml::de::Error| {
            let (line, column) = e.line_col().unwrap_or((0, 0));
            let text = e.to_string();
            // The message ends with the place, which we say first.
            let text = text.rsplit_once(" at line ").map_or(text.as_str(), |(what, _)| what);
            let path = shown(&source.path);
            Fault::Files(format!("{}, line {}, column {}: {}; allowed: TOML", path, line + 1, column + 1, excerpt(text)))
        };
        let Pairs(read) = toml::from_str(&source.text).map_err(no_toml)?;
        let mut values = BTreeMap::new();
        for (key, value) in read {
            let name = excerpt(key.get_ref());
            if !KEYS.contains(&key.get_ref().as_str()) {
                return Err(source.fault(key.start(), format!("`{}` is not a key of a plan", name), &KEYS.join(", ")));
            }
            if values.contains_key(key.get_ref()) {
                return Err(source.fault(key.start(), format!("`{}` is given twice", name), "each key once"));
            }
            // The reader's own start of a number is after its decimal point, and a table of dotted keys has no end.
            let at = value_start(&source.text, key.end());
            let text = source.text.get(at..value.end()).map_or("a table".into(), excerpt);
            values.insert(key.into_inner(), Read { at, value: value.into_inner(), text });
        }
        Ok(Values { source, values, places: BTreeMap::new() })
    }
    fn optional(&mut self, key: &'static str) -> Option<Read> {
        let read = self.values.remove(key)?;
        self.places.insert(key, read.at);
        Some(read)
    }
    fn needed(&mut self, key: &'static str, allowed: &str) -> Result<Read, Fault> {
        let fault = self.source.fault(0, format!("`{}` is missing", key), allowed);
        self.optional(key).ok_or(fault)
    }
    fn wrong(&self, key: &str, read: &Read, allowed: &str) -> Fault {
        self.source.fault(read.at, format!("{} reads {}", key, read.text), allowed)
    }
    pub fn file(&mut self, key: &'static str) -> Result<String, Fault> {
        let allowed = format!("{} = \"{}.csv\", a file named from the plan's folder", key, key);
        match self.needed(key, &allowed)? {
            Read { value: Value::String(file), .. } => Ok(file),
            read => Err(self.wrong(key, &read, &allowed)),
        }
    }
    pub fn rolls(&mut self) -> Result<Rolls, Fault> {
        let read = self.needed("rolls", tried::ALLOWED)?;
        match read.value {
            Value::Integer(n) => u64::try_from(n).map(Rolls::Even).map_err(|_| self.wrong("rolls", &read, tried::ALLOWED)),
            _ => self.list("rolls", &read, tried::ALLOWED).map(Rolls::Table),
        }
    }
    fn list(&self, key: &str, read: &Read, allowed: &str) -> Result<Vec<f64>, Fault> {
        let items = read.value.as_array().ok_or_else(|| self.wrong(key, read, allowed))?;
        let numbers: Vec<_> = items.iter().map_while(number).collect();
        if numbers.len() < items.len() {
            let wrong = format!("{} reads {}, and its entry {} is not a number", key, read.text, grouped(numbers.len() + 1));
            return Err(self.source.fault(read.at, wrong, allowed));
        }
        Ok(numbers)
    }
    /// One number or a list of them, and what stands there.
    pub fn tolerance(&mut self) -> Result<Option<(Read, Told, Vec<f64>)>, Fault> {
        let read = match self.optional("tolerance") {
            None => return Ok(None),
            Some(read) => read,
        };
        if let Some(x) = number(&read.value) {
            return Ok(Some((read, Told::Number, vec![x])));
        }
        let numbers = self.list("tolerance", &read, tolerance::ALLOWED)?;
        Ok(Some((read, Told::List, numbers)))
    }
    pub fn panel(&mut self) -> Result<[f64; 3], Fault> {
        const ALLOWED: &str = "one panel normal of three numbers, such as [0, 1, 0]";
        let read = match self.optional("panel") {
            None => return Ok([0.0, 1.0, 0.0]),
            Some(read) => read,
        };
        let panel = match read.value.as_array().map(Vec::as_slice) {
            Some([Value::Array(panel)]) => Some(panel.as_slice()),
            Some(items) if items.iter().any(Value::is_array) => {
                return Err(self.source.fault(read.at, format!("panel reads {}: several panels cannot be swept yet", read.text), ALLOWED))
            }
            items => items,
        };
        let numbers: Option<Vec<f64>> = panel.and_then(|items| items.iter().map(number).collect());
        numbers.and_then(|v| <[f64; 3]>::try_from(v).ok()).ok_or_else(|| self.wrong("panel", &read, ALLOWED))
    }
    pub fn number(&mut self, key: &'static str) -> Result<Option<f64>, Fault> {
        match self.optional(key) {
            None => Ok(None),
            Some(read) => number(&read.value).map(Some).ok_or_else(|| self.wrong(key, &read, "a number of degrees")),
        }
    }
}

fn lone_carriage_return(text: &str) -> Option<usize> {
    text.match_indices('\r').map(|(at, _)| at).find(|&at| !text[at..].starts_with("\r\n"))
}

/// Refuses what no plan has and the TOML reader would follow as deep as it goes: tables, and brackets or dots inside each other.
/// Where a string or a bracket is wrong the TOML reader stops, so what follows need not be read as it would.
fn shallow(source: &Source) -> Result<(), Fault> {
    let text = source.text.as_bytes();
    let (mut at, mut depth, mut dots, mut line_starts) = (0, 0usize, 0, true);
    while let Some(&byte) = text.get(at) {
        match byte {
            b'[' if line_starts && depth == 0 => {
                return Err(source.fault(at, "a table starts here", &format!("keys and their values: {}", KEYS.join(", "))));
            }
            b'[' | b'{' => depth += 1,
            b']' | b'}' => depth = depth.saturating_sub(1),
            b'.' => dots += 1,
            b',' | b'=' | b'\n' => dots = 0,
            _ => {}
        }
        if depth + dots > MOST_DEPTH {
            let read = format!("values inside values, {} deep", depth + dots);
            return Err(source.fault(at, read, &format!("at most {}", MOST_DEPTH)));
        }
        line_starts = byte == b'\n' || line_starts && matches!(byte, b' ' | b'\t');
        at = match byte {
            b'"' | b'\'' => string_end(text, at),
            b'#' => text[at..].iter().position(|&b| b == b'\n').map_or(text.len(), |end| at + end),
            _ => at + 1,
        };
    }
    Ok(())
}

/// The byte after a string that starts here: one of three quotes ends with three, and with up to two more that are its own.
fn string_end(text: &[u8], start: usize) -> usize {
    let quote = text[start];
    let quotes = |at: usize| text[at..].iter().take(5).take_while(|&&b| b == quote).count();
    let needed = match quotes(start) {
        1 => 1,
        2 => return start + 2,
        _ => 3,
    };
    let mut at = start + needed;
    while at < text.len() {
        let found = quotes(at);
        match text[at] {
            b'\\' if quote == b'"' => at += 2,
            // The reader stops here.
            b'\n' if needed == 1 => return text.len(),
            _ if needed == 1 && found > 0 => return at + 1,
            _ if found >= needed => return at + found,
            _ => at += found.max(1),
        }
    }
    text.len()
}

/// Where the value of a key stands: after the `=` that follows it, if one does on that line.
fn value_start(text: &str, key_end: usize) -> usize {
    let line = text.get(key_end..).and_then(|rest| rest.split('\n').next()).unwrap_or("");
    match line.split_once('=') {
        Some((before, after)) => key_end + before.len() + 1 + after.len() - after.trim_start().len(),
        None => key_end,
    }
}

/// The byte and the text of an entry, from 0, of the list that starts here, up to which there are numbers alone. The reader's own place of a number
/// is after its decimal point.
pub fn entry(text: &str, list: usize, number: usize) -> Option<(usize, &str)> {
    let (mut at, mut before) = (list + 1, 0);
    loop {
        let rest = text.get(at..)?;
        at += match rest.bytes().next()? {
            b'#' => rest.find('\n')?,
            b',' => {
                before += 1;
                1
            }
            b' ' | b'\t' | b'\r' | b'\n' => 1,
            b']' => return None,
            _ => {
                let length = rest.find(|c: char| ",]#".contains(c) || c.is_whitespace()).unwrap_or(rest.len());
                if before == number {
                    return Some((at, &rest[..length]));
                }
                length
            }
        };
    }
}

/// A TOML number, whole or not.
fn number(value: &Value) -> Option<f64> {
    match value {
        Value::Float(x) => Some(*x),
        Value::Integer(n) => Some(*n as f64),
        _ => None,
    }
}

#[cfg(test)]
mod tests {
    use super::*;
    use crate::testing::{fault, with, PIECES};
    use proptest::prelude::*;
    use std::{
        path::Path,
        time::{Duration, Instant},
    };

    #[test]
    fn several_panels_are_refused_with_their_own_message() {
        assert!(fault("rolls = 1\ntolerance = 1\npanel = [[0, 1, 0], [0, 0, 1]]").contains("several panels cannot be swept yet"));
    }
    #[test]
    fn wrong_settings_are_refused_with_their_place() {
        for (settings, says) in [
            (
                "tolerance = 1",
                "plan.toml, line 1, column 1: `rolls` is missing; allowed: a whole number of rolls, 1 to 3600, or a list of 1 to 3600 rolls in degrees",
            ),
            ("rolls = 1", "plan.toml, line 1, column 1: `tolerance` is missing; allowed: one number of degrees for all targets, or a list"),
            ("rolls = -1\ntolerance = 1", "plan.toml, line 3, column 9: rolls reads -1; allowed: a whole number"),
            ("rolls = 1.5\ntolerance = 1", "plan.toml, line 3, column 9: rolls reads 1.5; allowed: a whole number"),
            ("rolls = true\ntolerance = 1", "plan.toml, line 3, column 9: rolls reads true; allowed: a whole number"),
            (
                "rolls = [0, \"90\"]\ntolerance = 1",
                "plan.toml, line 3, column 9: rolls reads [0, \"90\"], and its entry 2 is not a number; allowed: a whole number",
            ),
            (
                "rolls = [[0, 90]]\ntolerance = 1",
                "plan.toml, line 3, column 9: rolls reads [[0, 90]], and its entry 1 is not a number; allowed: a whole number",
            ),
            ("rolls = 1\ntolerance = \"2\"", "plan.toml, line 4, column 13: tolerance reads \"2\"; allowed: one number"),
            ("rolls = 1\ntolerance = 1\npanel = [0, 1]", "plan.toml, line 5, column 9: panel reads [0, 1]; allowed: one panel normal"),
            ("rolls = 1\ntolerance = 1\npanel = [0, \"y\", 0]", "plan.toml, line 5, column 9: panel reads"),
            ("rolls = 1\ntolerence = 1", "plan.toml, line 4, column 1: `tolerence` is not a key of a plan; allowed: targets, "),
            ("rolls = 1\ntolerance = 1\nrolls = 2", "plan.toml, line 5, column 1: `rolls` is given twice; allowed: each key once"),
            ("rolls = \ntolerance = 1", "plan.toml, line 3, column 9: "),
        ] {
            let text = fault(settings);
            assert!(text.starts_with(says), "{}", text);
        }
    }
    #[test]
    fn a_lone_carriage_return_is_refused_where_it_stands() {
        const ALLOWED: &str = "a carriage return without a line feed; allowed: lines that end with a line feed, or with both";
        for (settings, at) in [
            ("rolls = 1\rtolerance = 1\n", "line 3, column 10"),
            ("rolls = 1\n# note\rtolerance = 1\n", "line 4, column 7"),
            ("rolls = [1, # é\r2]\ntolerance = 1\n", "line 3, column 16"),
            ("rolls = 1\ntolerance = \"\"\"\r\"\"\"\n", "line 4, column 16"),
            ("rolls = 1\r\n\rtolerance = 1\n", "line 4, column 1"),
            ("rolls = 1\r\ntolerance = 1\r", "line 4, column 14"),
        ] {
            assert_eq!(fault(settings), format!("plan.toml, {}: {}", at, ALLOWED), "{:?}", settings);
        }
        assert!(with("rolls = 1\r\n# note\r\ntolerance = 1\r\n").is_ok());
    }
    #[test]
    fn deep_plans_are_refused_before_they_are_read() {
        for (deep, at) in [
            ("panel = ".to_owned() + &"[".repeat(100_000), "line 5, column 25"),
            ("panel = ".to_owned() + &"{a=".repeat(100_000), "line 5, column 57"),
            ("panel = [ # ]\n".to_owned() + &"[\n".repeat(100_000), "line 21, column 1"),
            ("panel".to_owned() + &".a".repeat(20_000) + " = 1", "line 5, column 38"),
            ("panel".to_owned() + &" . \"]\"".repeat(20_000) + "]", "line 5, column 103"),
        ] {
            let text = fault(&format!("rolls = 1\ntolerance = 1\n{}", deep));
            assert!(text.starts_with("plan.toml, "), "{}", text);
            assert!(text.contains("values inside values, 17 deep; allowed: at most 16"), "{}", text);
            assert!(text.contains(at), "{}, not {}", text, at);
        }
        let text = fault(&format!("rolls = 1\ntolerance = 1\n \t[panel{}]", ".a".repeat(20_000)));
        assert!(
            text.starts_with("plan.toml, line 5, column 3: a table starts here; allowed: keys and their values: targets, "),
            "{}",
            text
        );
        // Each quote is looked at a few times, not each with all that follow.
        let begun = Instant::now();
        assert!(fault(&"\"".repeat(1_000_000)).starts_with("plan.toml, line 3, column "));
        assert!(begun.elapsed() < Duration::from_secs(10));
        // Brackets and dots that nest nothing.
        let many = "[".repeat(100);
        let dots = "1.5, ".repeat(100);
        for text in [format!("# {}", many), format!("panel = [1.0, 1.0, \"{}\"]", many), format!("panel = [{}'{}']", dots, many)] {
            let message = match with(&format!("rolls = 1\ntolerance = 1\n{}", text)) {
                Ok(_) => String::new(),
                Err(e) => e.to_string(),
            };
            assert!(!message.contains("values inside values"), "{}", message);
        }
    }
    #[test]
    fn a_message_shows_what_the_plan_reads() {
        for (value, shown) in [
            ("{ a = { b = 1 }, c = 2 }", "rolls reads { a = { b = 1 }, c = 2 }; allowed"),
            ("[{a = 1}, 2]", "rolls reads [{a = 1}, 2], and its entry 1 is not a number"),
            ("\"\\u001b[2J\"", "rolls reads \"\\u001b[2J\"; allowed"),
            ("[1,\n '2']", "rolls reads [1,\\n '2'], and its entry 2 is not a number"),
        ] {
            let text = fault(&format!("tolerance = 1\nrolls = {}", value));
            assert!(text.starts_with("plan.toml, line 4, column 9: ") && text.contains(shown), "{}", text);
        }
        let text = fault(&format!("tolerance = 1\nrolls = [{}true]", "1, ".repeat(10_000)));
        assert!(text.len() < 300 && text.contains(" .., and its entry 10,001 is not a number; "), "{}", text);
        assert!(fault("tolerance = 1\n\"\\u001b[2J\" = 1").contains("`\\u{1b}[2J` is not a key"));
    }
    /// Reads the value of every key.
    fn read_all(source: &Source) -> Result<(), Fault> {
        let mut values = Values::of(source)?;
        let faults = [
            values.file("targets").err(),
            values.file("ephemeris").err(),
            values.rolls().err(),
            values.tolerance().err(),
            values.panel().err(),
            values.number("configured_roll").err(),
        ];
        faults.into_iter().flatten().next().map_or(Ok(()), Err)
    }
    fn depth(value: &Value) -> usize {
        match value {
            Value::Array(items) => 1 + items.iter().map(depth).max().unwrap_or(0),
            Value::Table(items) => 1 + items.values().map(depth).max().unwrap_or(0),
            _ => 0,
        }
    }

    proptest! {
        #[test]
        fn any_toml_is_read_or_refused(pieces in prop::collection::vec(prop::sample::select(PIECES), 0..40)) {
            let source = Source::of(Path::new("p"), pieces.concat().into()).unwrap();
            if let Err(fault) = read_all(&source) {
                prop_assert!(!fault.to_string().contains(|c: char| c.is_control()), "{}", fault);
            }
        }
        #[test]
        fn what_the_toml_reader_follows_is_shallow(wraps in prop::collection::vec(0usize..10, 0..24)) {
            const WRAPS: [(&str, &str); 10] = [
                ("[", "]"),
                ("[\n#]\n", ",]"),
                ("{a=", "}"),
                ("{ a.\"b]\".c = ", "}"),
                ("[\"]\\\"]\", ", "]"),
                ("['\\', ", "]"),
                ("['''\n]'']''', ", ", 1.5]"),
                ("[\"\"\"]\\\"\"\"]\"\"\"\"\", ", "]"),
                ("['''[''''', \"\"\"]\"\"\"\", ", "]"),
                ("[\"\", '', ", "]"),
            ];
            let mut text = "1".to_owned();
            for (before, after) in wraps.iter().map(|&i| WRAPS[i]) {
                text = before.to_owned() + &text + after;
            }
            let source = Source::of(Path::new("p"), format!("panel = {}", text).into()).unwrap();
            let read: Value = toml::from_str(&source.text).unwrap();
            // The dots of a key are counted only until its value starts.
            let brackets = wraps.len();
            match shallow(&source) {
                Ok(()) => prop_assert!(brackets <= MOST_DEPTH, "{}", depth(&read)),
                Err(_) => prop_assert!(brackets + 2 > MOST_DEPTH),
            }
        }
    }
}
