//! A CSV file with named columns, read whole; every field knows its place.
use crate::{
    fault::Fault,
    instant,
    source::{shown, Source},
    text::{counted, excerpt, grouped},
};
use csv::{ErrorKind, Position, ReaderBuilder, StringRecord};
use std::{io::Read, path::Path};

/// As many rows as a plan may have targets or times.
const MOST_ROWS: usize = 65_536;
/// A kilobyte per row, whatever other columns it has.
const MOST_BYTES: u64 = 1024 * MOST_ROWS as u64;
const MOST_LINE_BYTES: usize = 65_536;
/// Of each kind, as many warnings name a place; then the others are counted.
const NAMED: usize = 5;

/// Columns that a file must have together.
pub type Form = &'static [&'static str];

#[derive(Debug)]
pub struct Sheet {
    pub source: Source,
    form: Form,
    /// The wanted columns: those of the form, then those that the file has beside it.
    names: Vec<&'static str>,
    /// For each wanted column, its number in the file.
    columns: Vec<usize>,
    /// The columns that are not used and yet resemble a known one: the number in the file, the column's text, and the known one.
    lookalikes: Vec<(usize, String, &'static str)>,
    several: Several,
    /// The byte where the record starts that names the columns.
    header: usize,
    /// The first rows: one more than is allowed, so that the library sees it and refuses.
    kept: Kept,
    rows: usize,
}

/// The fields of several lines, in columns that are not used too: a quote that is missing makes one of the rows that follow it.
#[derive(Debug, Default)]
struct Several {
    /// Where the first ones have their opening and their closing quote.
    first: Vec<(usize, usize)>,
    count: usize,
}

/// The wanted columns of rows, in one text, as a list of texts per row takes most of the time that reading a large file does.
#[derive(Debug, Default)]
struct Kept {
    text: String,
    /// Where each field ends in the text, row after row.
    ends: Vec<usize>,
    /// For each row a byte of the file: its first one, or one of the line ends and comments before it.
    starts: Vec<usize>,
}

impl Kept {
    fn push(&mut self, record: &StringRecord, columns: &[usize], start: usize) {
        for &column in columns {
            self.text.push_str(record.get(column).unwrap_or("").trim());
            self.ends.push(self.text.len());
        }
        self.starts.push(start);
    }
    /// The field with this number, counted over all rows.
    fn field(&self, number: usize) -> &str {
        let start = number.checked_sub(1).map_or(0, |before| self.ends[before]);
        &self.text[start..self.ends[number]]
    }
}

/// A field of a sheet: record and wanted column, both from 0.
#[derive(Clone, Copy)]
pub struct Field<'a> {
    sheet: &'a Sheet,
    record: usize,
    column: usize,
}

impl Sheet {
    /// Reads a file with the columns of one of these forms, which may stand in any order and among others. Those of `beside` are read too where
    /// it has them. A line that starts with # is a comment.
    pub fn read(path: &Path, forms: &[Form], beside: &[&'static str]) -> Result<Sheet, Fault> {
        Sheet::of(Source::read(path, MOST_BYTES)?, forms, beside)
    }
    pub fn of(mut source: Source, forms: &[Form], beside: &[&'static str]) -> Result<Sheet, Fault> {
        // csv ends a record at any line end, but a comment at a line feed only: a lone carriage return after one would swallow the next row.
        source.text = with_line_feeds(source.text);
        short_lines(&source)?;
        let several = quotes(&source)?;
        // A comment that ends with the file would be read as a record.
        let text = source.text.as_bytes().chain(&b"\n"[..]);
        let mut reader = builder().from_reader(text);
        let mut record = StringRecord::new();
        let mut next = |record: &mut StringRecord| reader.read_record(record).map_err(|e| csv_fault(&source, e));
        if !next(&mut record)? {
            return Err(source.fault(0, "the file is empty", &allowed(forms)));
        }
        record.trim();
        let header = start(&source, byte_of(record.position()));
        let (form, names, columns) = find(&source, &record, forms, beside)?;
        let lookalikes = lookalikes(&record, forms, beside, &columns);
        let (mut kept, mut rows) = (Kept::default(), 0);
        while next(&mut record)? {
            rows += 1;
            if rows <= MOST_ROWS + 1 {
                kept.push(&record, &columns, byte_of(record.position()));
            }
        }
        Ok(Sheet { source, form, names, columns, lookalikes, several, header, kept, rows })
    }
    pub fn form(&self) -> Form {
        self.form
    }
    /// The wanted column of this name, if the file has it.
    pub fn column(&self, name: &str) -> Option<usize> {
        self.names.iter().position(|&n| n == name)
    }
    /// Where a wanted column is named.
    pub fn column_at(&self, column: usize) -> String {
        self.source.at(place(&self.source.text, self.header, self.columns[column], 0))
    }
    /// The first column that is not used and resembles this one.
    pub fn lookalike(&self, name: &str) -> Option<&str> {
        self.lookalikes.iter().find(|(.., known)| *known == name).map(|(_, text, _)| text.as_str())
    }
    /// Warnings of columns that are not used and yet resemble a known one, and of fields of several lines.
    pub fn warnings(&self) -> Vec<String> {
        let place = |column: usize| self.source.at(place(&self.source.text, self.header, column, 0));
        let warning = |(column, text, known): &(usize, String, &'static str)| {
            let instead = if self.column(known).is_some() { format!("`{}` is", known) } else { format!("did you mean `{}`?", known) };
            format!("{}: column `{}` is not used; {}", place(*column), excerpt(text), instead)
        };
        let mut warnings: Vec<_> = self.lookalikes.iter().take(NAMED).map(warning).collect();
        if self.lookalikes.len() > NAMED {
            let (count, path) = (self.lookalikes.len() - NAMED, shown(&self.source.path));
            warnings.push(match count {
                1 => format!("{}: 1 more column is not used and resembles a known one", path),
                _ => format!("{}: {} more columns are not used and resemble known ones", path, grouped(count)),
            });
        }
        let source = &self.source;
        warnings.extend(self.several.first.iter().map(|&(open, close)| {
            let lines = source.line_number(close) - source.line_number(open) + 1;
            let (at, text) = (source.at(open), excerpt(&source.text[open + 1..close]));
            format!("{}: field `{}` has {} lines; is a quote missing at the end of the first?", at, text, grouped(lines))
        }));
        if self.several.count > NAMED {
            let more = counted(self.several.count - NAMED, "more field");
            warnings.push(format!("{}: the same holds of {}", shown(&source.path), more));
        }
        warnings
    }
    /// How many rows the file has.
    pub fn len(&self) -> usize {
        self.rows
    }
    pub fn field(&self, record: usize, column: usize) -> Field<'_> {
        Field { sheet: self, record, column }
    }
    pub fn fields(&self) -> impl Iterator<Item = Vec<Field<'_>>> {
        (0..self.kept.starts.len()).map(move |r| (0..self.names.len()).map(|c| self.field(r, c)).collect())
    }
}

fn builder() -> ReaderBuilder {
    let mut builder = ReaderBuilder::new();
    builder.has_headers(false).comment(Some(b'#')).buffer_capacity(1 << 16);
    builder
}

/// The text with a line feed in place of each lone carriage return outside quotes, so that every byte keeps its place.
fn with_line_feeds(text: String) -> String {
    if !text.contains('\r') {
        return text;
    }
    let mut reading = Reading::Record;
    let mut chars = text.chars().peekable();
    let mut lines = String::with_capacity(text.len());
    while let Some(c) = chars.next() {
        let ends = matches!(reading.role(c), Role::End);
        lines.push(if c == '\r' && ends && chars.peek() != Some(&'\n') { '\n' } else { c });
    }
    lines
}

fn short_lines(source: &Source) -> Result<(), Fault> {
    let mut start = 0;
    for line in source.text.split_inclusive('\n') {
        if line.len() > MOST_LINE_BYTES {
            let allowed = format!("lines of at most {} bytes", grouped(MOST_LINE_BYTES));
            return Err(source.fault(start, format!("a line of {} bytes", grouped(line.len())), &allowed));
        }
        start += line.len();
    }
    Ok(())
}

fn allowed(forms: &[Form]) -> String {
    let forms: Vec<_> = forms.iter().map(|names| names.join(",")).collect();
    format!("a first line that names the columns {}, with commas between them; a line that starts with # is a comment", forms.join(" or "))
}

/// The form that the file's first record has; its columns and those beside it; and where they stand there.
fn find(
    source: &Source,
    header: &StringRecord,
    forms: &[Form],
    beside: &[&'static str],
) -> Result<(Form, Vec<&'static str>, Vec<usize>), Fault> {
    let fault = |read: String| source.fault(start(source, byte_of(header.position())), read, &allowed(forms));
    let form = form_of(header, forms).map_err(fault)?;
    let is_there = |name: &&&str| header.iter().any(|column| column.eq_ignore_ascii_case(name));
    let names: Vec<_> = form.iter().chain(beside.iter().filter(is_there)).copied().collect();
    let column = |name: &&str| {
        let mut found = (0..header.len()).filter(|&i| header[i].eq_ignore_ascii_case(name));
        match (found.next(), found.next()) {
            (Some(i), None) => Ok(i),
            (None, _) => Err(fault(format!("no column `{}` in `{}`{}", name, columns(header), rename(header, &[name])))),
            _ => Err(fault(format!("two columns `{}`: remove or rename one", name))),
        }
    };
    let columns = names.iter().map(column).collect::<Result<_, _>>()?;
    Ok((form, names, columns))
}

/// The one form of which the first record has columns; where that is none or several, what is wrong.
fn form_of(header: &StringRecord, forms: &[Form]) -> Result<Form, String> {
    if let [only] = forms {
        return Ok(only);
    }
    // A column that every form has does not distinguish them.
    let own = |form: Form| form.iter().copied().filter(|name| !forms.iter().all(|form| form.contains(name)));
    let found = |form: Form| own(form).filter(|name| header.iter().any(|column| column.eq_ignore_ascii_case(name))).collect::<Vec<_>>();
    let begun: Vec<_> = forms.iter().copied().filter(|form| !found(form).is_empty()).collect();
    match begun[..] {
        [form] => Ok(form),
        [] => {
            let all: Vec<_> = forms.iter().flat_map(|form| own(form)).collect();
            Err(format!("none of the columns {} in `{}`{}", all.join(","), columns(header), rename(header, &all)))
        }
        _ => {
            let begun: Vec<_> = begun.iter().map(|form| found(form).join(",")).collect();
            let (begun, columns) = (begun.join(" and "), columns(header));
            Err(format!("both {} in `{}`, and a file has one form: remove or rename the columns of the other", begun, columns))
        }
    }
}

/// The first record as a message shows it.
fn columns(header: &StringRecord) -> String {
    excerpt(&header.iter().collect::<Vec<_>>().join(","))
}

/// How other files name a column that we name otherwise, without capitals, spaces, signs and a unit at the end.
const OTHER_NAMES: [(&str, &[&str]); 3] = [
    ("ra", &["ra", "raicrs", "raj2000", "ra2000", "rightascension"]),
    ("dec", &["dec", "decicrs", "decj2000", "dec2000", "declination", "decl", "de", "deicrs", "dej2000", "de2000"]),
    ("tolerance", &["tolerance", "tolerances", "tol"]),
];

/// What to do where the file has wanted columns by such names.
fn rename(header: &StringRecord, wanted: &[&str]) -> String {
    let is_one = |column: &str, others: &[&str]| {
        let plain: String = column.chars().filter(char::is_ascii_alphanumeric).map(|c| c.to_ascii_lowercase()).collect();
        others.contains(&plain.strip_suffix("degrees").or(plain.strip_suffix("deg")).unwrap_or(&plain))
    };
    let mut text = String::new();
    for (name, others) in OTHER_NAMES.iter().filter(|(name, _)| wanted.contains(name)) {
        if let Some(column) = header.iter().find(|column| is_one(column, others)) {
            text += &format!("{} `{}` to `{}`", if text.is_empty() { "; rename" } else { " and" }, excerpt(column), name);
        }
    }
    text
}

/// Words after a column's name that give its unit or time scale.
const UNITS: [&str; 16] =
    ["deg", "degs", "degree", "degrees", "h", "hr", "hrs", "hour", "hours", "rad", "radians", "km", "m", "au", "utc", "iso"];

/// The columns that are not used and resemble a known one: without capitals, spaces, signs and units their names are the same, or one that other files use.
fn lookalikes(header: &StringRecord, forms: &[Form], beside: &[&'static str], used: &[usize]) -> Vec<(usize, String, &'static str)> {
    let plain = |name: &str| name.chars().filter(char::is_ascii_alphanumeric).collect::<String>().to_ascii_lowercase();
    let known: Vec<_> = forms.iter().copied().flatten().chain(beside).copied().collect();
    let resembled = |column: &str| {
        let column = column.to_ascii_lowercase();
        let words: Vec<_> = column.split(|c: char| !c.is_ascii_alphanumeric()).filter(|word| !word.is_empty()).collect();
        let units = words.iter().rev().take_while(|word| UNITS.contains(word)).count();
        let text = words[..words.len() - units].concat();
        let text = text.strip_suffix("degrees").or(text.strip_suffix("deg")).unwrap_or(&text);
        let other = |name: &str| OTHER_NAMES.iter().any(|(known, others)| *known == name && others.contains(&text));
        known.iter().copied().find(|name| plain(name) == text || other(name))
    };
    let unused = header.iter().enumerate().filter(|(i, _)| !used.contains(i));
    unused.filter_map(|(i, column)| Some((i, column.to_owned(), resembled(column)?))).collect()
}

fn byte_of(position: Option<&Position>) -> usize {
    position.map_or(0, |p| p.byte() as usize)
}

/// Where a record starts: after the line ends and the comments that its position still has before it.
fn start(source: &Source, byte: usize) -> usize {
    let mut rest = source.text.get(byte..).unwrap_or("").trim_start_matches(['\r', '\n']);
    while rest.starts_with('#') {
        rest = rest.find('\n').map_or("", |end| &rest[end..]).trim_start_matches(['\r', '\n']);
    }
    source.text.len() - rest.len()
}

/// How csv reads a character: a quote opens a field at its start only, and in an open one two stand for one.
#[derive(Clone, Copy)]
enum Reading {
    /// At the start of a record or a comment.
    Record,
    Comment,
    /// At the start of a field.
    Start,
    Plain,
    Quoted,
    /// After a quote in an open field, which closes it unless a second one follows.
    Quote,
}

/// What a character is to the record in which it stands.
enum Role {
    Value,
    Mark,
    Comma,
    End,
}

impl Reading {
    fn role(&mut self, c: char) -> Role {
        let (next, role) = match (*self, c) {
            (Reading::Record, '#') => (Reading::Comment, Role::Mark),
            (Reading::Comment, c) if !matches!(c, '\r' | '\n') => (Reading::Comment, Role::Mark),
            (Reading::Record | Reading::Start, '"') => (Reading::Quoted, Role::Mark),
            (Reading::Quoted, '"') => (Reading::Quote, Role::Mark),
            (Reading::Quoted, _) | (Reading::Quote, '"') => (Reading::Quoted, Role::Value),
            (_, ',') => (Reading::Start, Role::Comma),
            (_, '\r' | '\n') => (Reading::Record, Role::End),
            _ => (Reading::Plain, Role::Value),
        };
        *self = next;
        role
    }
}

/// The fields of several lines. Text after a closing quote is refused, and a quote that is not closed: where a quote is missing, csv would take
/// the rows up to the next one for part of a field.
fn quotes(source: &Source) -> Result<Several, Fault> {
    let text = &source.text;
    let (mut reading, mut open, mut several) = (Reading::Record, 0, Several::default());
    if !text.contains('"') {
        return Ok(several);
    }
    // A field may end with the file.
    for (i, c) in text.char_indices().chain([(text.len(), '\n')]) {
        let before = reading;
        reading.role(c);
        match (before, reading) {
            (Reading::Record | Reading::Start, Reading::Quoted) => open = i,
            (Reading::Quote, Reading::Plain) => {
                let after = text[i..].split([',', '\r', '\n']).next().unwrap_or("");
                let read =
                    format!("`{}` follows the quote that closes the field opened on line {}", excerpt(after), source.line_number(open));
                return Err(source.fault(i, read, "a comma or a line end there, and \"\" for a quote inside quotes"));
            }
            (Reading::Quote, Reading::Record | Reading::Start) if text[open..i].contains(['\r', '\n']) => {
                several.count += 1;
                if several.count <= NAMED {
                    several.first.push((open, i - 1));
                }
            }
            _ => {}
        }
    }
    match reading {
        Reading::Quoted => Err(source.fault(open, "this quote is not closed", "a second \" at the field's end")),
        _ => Ok(several),
    }
}

/// The byte of the file where byte `inside` of a trimmed field stands; of the field's end, that is its closing quote if it has one.
fn place(text: &str, record: usize, column: usize, inside: usize) -> usize {
    let (mut reading, mut commas, mut read, mut closing) = (Reading::Start, 0, 0, None);
    for (i, c) in text[record..].char_indices() {
        match reading.role(c) {
            Role::Comma if commas < column => commas += 1,
            Role::Comma | Role::End => return closing.unwrap_or(record + i),
            _ if commas < column => {}
            Role::Mark => closing = Some(record + i).filter(|_| read > 0),
            Role::Value if read == 0 && c.is_whitespace() => {}
            Role::Value if read >= inside => return record + i,
            Role::Value => {
                read += c.len_utf8();
                closing = None;
            }
        }
    }
    closing.unwrap_or(text.len())
}

fn csv_fault(source: &Source, e: csv::Error) -> Fault {
    match e.kind() {
        ErrorKind::UnequalLengths { pos, expected_len, len } => {
            let record = start(source, byte_of(pos.as_ref()));
            let is_comment = source.text[record..].trim_start().starts_with('#');
            let comment = if is_comment { "; a comment starts with # at the line's start" } else { "" };
            let allowed = format!("{} fields, as many as the first line has{}", expected_len, comment);
            source.fault(record, format!("{} field{}", len, if *len == 1 { "" } else { "s" }), &allowed)
        }
        _ => Fault::Files(format!("{}: {}", shown(&source.path), e)),
    }
}

/// Whether a text is an angle of several numbers, such as 05:34:31.94, -5 23 28 or 5h34m, or of hours.
fn is_sexagesimal(text: &str) -> bool {
    const MARKS: [char; 17] = [':', ' ', 'h', 'H', 'd', 'D', 'm', 'M', 's', 'S', '\'', '"', '°', '′', '″', '’', '”'];
    let text = text.trim_start_matches(['+', '-', '\u{2212}', '\u{2013}']);
    let parts: Vec<_> = text.split(MARKS).filter(|part| !part.is_empty()).collect();
    let digits = |part: &str| part.chars().all(|c| c.is_ascii_digit() || c == '.');
    // Minutes and seconds are below 60.
    let is_small = |part: &&str| part.split('.').next().map_or(true, |whole| whole.len() <= 2);
    let has_marks = match parts[..] {
        [] => false,
        [_] => text.ends_with(['h', 'H']),
        [_, ..] => parts[1..].iter().all(is_small),
    };
    has_marks && parts.into_iter().all(digits)
}

impl<'a> Field<'a> {
    pub fn text(self) -> &'a str {
        self.sheet.kept.field(self.record * self.sheet.columns.len() + self.column)
    }
    /// Its text as a message shows it.
    pub fn shown(self) -> String {
        excerpt(self.text())
    }
    pub fn name(self) -> &'static str {
        self.sheet.names[self.column]
    }
    /// The byte of the file where byte `inside` of its text stands.
    fn byte(self, inside: usize) -> usize {
        let source = &self.sheet.source;
        let record = start(source, self.sheet.kept.starts[self.record]);
        place(&source.text, record, self.sheet.columns[self.column], inside)
    }
    /// Its line, from 1.
    pub fn line(self) -> usize {
        self.sheet.source.line_number(self.byte(0))
    }
    /// File, line and column.
    pub fn at(self) -> String {
        self.sheet.source.at(self.byte(0))
    }
    /// A fault in it, `inside` bytes after its start.
    fn fault(self, inside: usize, allowed: &str) -> Fault {
        self.sheet.source.fault(self.byte(inside), format!("{} reads `{}`", self.name(), self.shown()), allowed)
    }
    pub fn number(self) -> Result<f64, Fault> {
        self.parsed("a number such as -0.5 or 1.5e8", |_| "")
    }
    /// An angle in degrees.
    pub fn degrees(self) -> Result<f64, Fault> {
        self.parsed("degrees as one number, such as 83.633 or -5.391", |text| match is_sexagesimal(text) {
            true => " (this has hours, minutes or seconds; an hour of right ascension is 15 degrees)",
            false => "",
        })
    }
    /// A tolerance, which may be any number.
    pub fn tolerance(self) -> Result<f64, Fault> {
        self.parsed("degrees of roll as one number, such as 5 or 0.25", |_| "")
    }
    fn parsed(self, allowed: &str, hint: impl Fn(&str) -> &'static str) -> Result<f64, Fault> {
        let text = self.text();
        let would_read = |from: &[char], to| text.replace(from, to).parse::<f64>().is_ok();
        text.parse().map_err(|_| {
            let hint = if would_read(&['\u{2212}', '\u{2013}'], "-") {
                " (this has a dash in place of the minus sign)"
            } else if would_read(&[','], ".") {
                " (this has a decimal comma)"
            } else if would_read(&['d', 'D'], "e") {
                " (this has D in place of e)"
            } else {
                hint(text)
            };
            self.fault(0, &format!("{}{}", allowed, hint))
        })
    }
    /// An RFC 3339 time.
    pub fn time(self) -> Result<i64, Fault> {
        instant::parse(self.text()).map_err(|(inside, allowed)| self.fault(inside, allowed))
    }
}

#[cfg(test)]
mod tests {
    use super::*;
    use proptest::prelude::*;

    fn sheet(text: &str) -> Result<Sheet, Fault> {
        Sheet::of(Source::of(Path::new("t.csv"), text.into()).unwrap(), &[&["name", "x"]], &[])
    }
    fn fault(text: &str) -> String {
        sheet(text).unwrap_err().to_string()
    }

    #[test]
    fn columns_are_found_by_name() {
        let s = sheet("X, mag ,Name\r\n 1.5 ,3,\"a, b\"\r\n\r\n2,4,c").unwrap();
        assert_eq!(s.len(), 2);
        assert_eq!(s.field(0, 0).text(), "a, b");
        assert_eq!(s.field(0, 1).number().unwrap(), 1.5);
        assert_eq!(s.field(1, 1).number().unwrap(), 2.0);
    }
    #[test]
    fn fields_have_the_place_of_their_text() {
        let s = sheet("name,x\n\"a, \"\"b\n\", 7\r\n\nc,  oops\n").unwrap();
        assert_eq!(s.field(0, 1).at(), "t.csv, line 3, column 4");
        assert_eq!(s.field(1, 0).at(), "t.csv, line 5, column 1");
        assert_eq!(
            s.field(1, 1).number().unwrap_err().to_string(),
            "t.csv, line 5, column 5: x reads `oops`; allowed: a number such as -0.5 or 1.5e8"
        );
    }
    #[test]
    fn an_empty_field_has_a_place() {
        let s = sheet("name,x\na,\nb,1\n").unwrap();
        assert!(s.field(0, 1).number().unwrap_err().to_string().starts_with("t.csv, line 2, column 3: x reads ``"));
    }
    #[test]
    fn numbers_of_other_programs_are_recognised() {
        for (number, says) in [
            ("\u{2212}0.5", "(this has a dash in place of the minus sign)"),
            ("\"0,5\"", "(this has a decimal comma)"),
            ("1.5D+08", "(this has D in place of e)"),
            ("1 000", "1.5e8"),
            ("0x1f", "1.5e8"),
            ("", "1.5e8"),
        ] {
            let text = sheet(&format!("name,x\na,{}\n", number)).unwrap().field(0, 1).number().unwrap_err().to_string();
            assert!(text.ends_with(says), "{}", text);
        }
    }
    #[test]
    fn wrong_first_lines_and_rows_are_refused() {
        assert!(fault("").starts_with("t.csv, line 1, column 1: the file is empty; allowed: a first line that names the columns name,x, "));
        assert!(fault("name;x\na;1\n").contains("no column `name` in `name;x`"));
        assert!(fault("name,x,X\n").contains("two columns `x`"));
        assert_eq!(
            fault("name,x\r\na,1\r\nb,1,5\r\n"),
            "t.csv, line 3, column 1: 3 fields; allowed: 2 fields, as many as the first line has"
        );
    }
    /// Two forms, as targets have them.
    fn in_forms(text: &str) -> Result<Sheet, Fault> {
        let forms: [Form; 2] = [&["name", "ra", "dec"], &["name", "x", "y", "z"]];
        Sheet::of(Source::of(Path::new("t.csv"), text.into()).unwrap(), &forms, &["tolerance"])
    }
    #[test]
    fn a_file_has_one_form() {
        for (head, form, columns) in [
            ("name,ra,dec", &["name", "ra", "dec"][..], vec![0, 1, 2]),
            ("mag, DEC ,Name,\"Ra\"", &["name", "ra", "dec"], vec![2, 3, 1]),
            ("name,x,y,z", &["name", "x", "y", "z"], vec![0, 1, 2, 3]),
            ("z,ra_deg,y,name,x", &["name", "x", "y", "z"], vec![3, 4, 2, 0]),
        ] {
            let s = in_forms(&format!("# of\n{}\n", head)).unwrap();
            assert_eq!((s.form(), s.columns), (form, columns), "{}", head);
        }
    }
    #[test]
    fn either_form_may_have_a_column_of_tolerances() {
        for (text, at, value) in [
            ("name,ra,dec,tolerance\nA,1,2, -5 \n", "t.csv, line 1, column 13", -5.0),
            ("# of\nTOLERANCE,dec,name,ra\ninf,1,A,2\n", "t.csv, line 2, column 1", f64::INFINITY),
            ("x,y,\" Tolerance\",z,name\n1,0,\"1e-3\",0,A\n", "t.csv, line 1, column 7", 1e-3),
        ] {
            let s = in_forms(text).unwrap();
            let column = s.column("tolerance").unwrap();
            assert_eq!((column, s.column_at(column).as_str()), (s.form().len(), at), "{}", text);
            assert_eq!((s.field(0, 0).text(), s.field(0, column).tolerance().unwrap()), ("A", value), "{}", text);
            assert_eq!((s.field(0, column).name(), s.fields().next().unwrap().len()), ("tolerance", column + 1));
        }
        let s = in_forms("name,ra,dec,tolerance_deg\nA,1,2,5\n").unwrap();
        assert_eq!((s.column("tolerance"), s.fields().next().unwrap().len()), (None, 3));
        assert!(in_forms("name,tolerance,ra,dec,Tolerance\n")
            .unwrap_err()
            .to_string()
            .contains("line 1, column 1: two columns `tolerance`"));
    }
    #[test]
    fn a_tolerance_is_any_one_number() {
        let read = |cell: &str| in_forms(&format!("name,ra,dec,tolerance\nA,0,0,{}\n", cell)).unwrap().field(0, 3).tolerance();
        for (cell, value) in
            [("5", 5.0), ("-1", -1.0), ("inf", f64::INFINITY), ("-inf", f64::NEG_INFINITY), ("1e300", 1e300), ("+0.5", 0.5)]
        {
            assert_eq!(read(cell).unwrap(), value);
        }
        assert!(["nan", "NaN", "-nan"].iter().all(|cell| read(cell).unwrap().is_nan()));
        assert_eq!(read("-0").unwrap().to_bits(), (-0.0f64).to_bits());
        for (cell, shown, hint) in
            [("", "", ""), ("wide", "wide", ""), ("5 deg", "5 deg", ""), ("\"0,5\"", "0,5", " (this has a decimal comma)")]
        {
            let says = format!(": tolerance reads `{}`; allowed: degrees of roll as one number, such as 5 or 0.25{}", shown, hint);
            let text = read(cell).unwrap_err().to_string();
            assert!(text.starts_with("t.csv, line 2, column ") && text.ends_with(&says), "{}", text);
        }
    }
    #[test]
    fn a_file_of_both_forms_neither_or_half_of_one_is_refused() {
        const ALLOWED: &str =
            "; allowed: a first line that names the columns name,ra,dec or name,x,y,z, with commas between them; a line that starts with # is a comment";
        for (head, says) in [
            (
                "name,x,y,z,ra,dec",
                "both ra,dec and x,y,z in `name,x,y,z,ra,dec`, and a file has one form: remove or rename the columns of the other",
            ),
            ("name,ra,dec,Z", "both ra,dec and z in `name,ra,dec,Z`, and a file has one form: remove or rename the columns of the other"),
            ("dec,name,y,x", "both dec and x,y in `dec,name,y,x`, and a file has one form: remove or rename the columns of the other"),
            ("name,l,b", "none of the columns ra,dec,x,y,z in `name,l,b`"),
            ("name;ra;dec", "none of the columns ra,dec,x,y,z in `name;ra;dec`"),
            ("name,ra", "no column `dec` in `name,ra`"),
            ("dec,name", "no column `ra` in `dec,name`"),
            ("name,x,z", "no column `y` in `name,x,z`"),
            ("id,ra,dec", "no column `name` in `id,ra,dec`"),
            ("name,ra,dec,RA", "two columns `ra`: remove or rename one"),
            // What catalogues call them.
            (
                "name,RA_ICRS,DE_ICRS",
                "none of the columns ra,dec,x,y,z in `name,RA_ICRS,DE_ICRS`; rename `RA_ICRS` to `ra` and `DE_ICRS` to `dec`",
            ),
            (
                "name,ra_deg,dec_deg",
                "none of the columns ra,dec,x,y,z in `name,ra_deg,dec_deg`; rename `ra_deg` to `ra` and `dec_deg` to `dec`",
            ),
            (
                "name,Right Ascension (deg),Dec",
                "no column `ra` in `name,Right Ascension (deg),Dec`; rename `Right Ascension (deg)` to `ra`",
            ),
            ("name,RA [deg],Dec", "no column `ra` in `name,RA [deg],Dec`; rename `RA [deg]` to `ra`"),
            ("name,ra,_DEJ2000", "no column `dec` in `name,ra,_DEJ2000`; rename `_DEJ2000` to `dec`"),
            ("name,radius,ra_h,deg", "none of the columns ra,dec,x,y,z in `name,radius,ra_h,deg`"),
            ("name,x,y,ra_deg", "no column `z` in `name,x,y,ra_deg`"),
        ] {
            let text = in_forms(&format!("# of\n{}\n", head)).unwrap_err().to_string();
            assert_eq!(text, format!("t.csv, line 2, column 1: {}{}", says, ALLOWED));
        }
        assert_eq!(in_forms("").unwrap_err().to_string(), format!("t.csv, line 1, column 1: the file is empty{}", ALLOWED));
    }
    #[test]
    fn angles_that_are_not_degrees_are_recognised() {
        const ALLOWED: &str = "; allowed: degrees as one number, such as 83.633 or -5.391";
        const PARTS: &str = " (this has hours, minutes or seconds; an hour of right ascension is 15 degrees)";
        for (angle, hint) in [
            ("05:34:31.94", PARTS),
            ("05:34", PARTS),
            ("-05:23:28", PARTS),
            ("+22 00 52.2", PARTS),
            ("5h34m31.94s", PARTS),
            ("5h", PARTS),
            ("5.575 h", PARTS),
            ("\u{2212}5°23′28″", PARTS),
            ("22d00m52s", PARTS),
            ("22d0'52\"", PARTS),
            ("83,633", " (this has a decimal comma)"),
            ("\u{2212}5.391", " (this has a dash in place of the minus sign)"),
            ("1 000", ""),
            ("83.633 deg", ""),
            ("83.633°", ""),
            ("M 31", ""),
            ("h", ""),
            ("", ""),
        ] {
            let text = in_forms(&format!("name,ra,dec\nA,0,\"{}\"\n", angle.replace('"', "\"\""))).unwrap();
            let text = text.field(0, 2).degrees().unwrap_err().to_string();
            let shown = text.find(": dec reads `").unwrap();
            assert_eq!(&text[shown..], format!(": dec reads `{}`{}{}", angle, ALLOWED, hint));
        }
        for (angle, degrees) in [("83.633", 83.633), ("+5", 5.0), ("-0", 0.0), ("1e2", 100.0), ("inf", f64::INFINITY)] {
            assert_eq!(in_forms(&format!("name,ra,dec\nA,{},0\n", angle)).unwrap().field(0, 1).degrees().unwrap(), degrees);
        }
    }
    #[test]
    fn a_file_without_rows_is_accepted() {
        assert_eq!(sheet("name,x\n").unwrap().len(), 0);
    }
    #[test]
    fn spaces_are_trimmed_and_counted_in_places() {
        let s = sheet("name,x\n\u{a0}2026-13-01T00:00:00Z,\u{3000}\u{2003}\tç\n").unwrap();
        let time = s.field(0, 0).time().unwrap_err().to_string();
        assert!(time.starts_with("t.csv, line 2, column 7: name reads `2026-13-01T00:00:00Z`; allowed: a month"), "{}", time);
        assert_eq!(s.field(0, 1).at(), "t.csv, line 2, column 26");
        // The fault's byte, counted from the first space, would be inside the second one.
        let s = sheet("name,x\na,\u{3000}\u{3000}2026/\n").unwrap();
        assert!(s.field(0, 1).time().unwrap_err().to_string().starts_with("t.csv, line 2, column 9: x reads `2026/`"));
    }
    #[test]
    fn quotes_are_counted_as_csv_reads_them() {
        // Inside a field a quote is a character; at its start it opens, and two stand for one.
        let s = sheet("name,x\na\"b,c\n\"\"\"\"\"\",\" \"\"2026-01-01\"\n").unwrap();
        assert_eq!(s.field(0, 1).at(), "t.csv, line 2, column 5");
        assert_eq!(s.field(1, 0).text(), "\"\"");
        assert_eq!(s.field(1, 1).text(), "\"2026-01-01");
        assert_eq!(s.field(1, 1).at(), "t.csv, line 3, column 11");
        let s = sheet("name,x\na,\"2026-01-01T00:00:00\"\n").unwrap();
        assert!(s.field(0, 1).time().unwrap_err().to_string().starts_with("t.csv, line 2, column 23: "));
    }
    #[test]
    fn a_quote_that_is_not_closed_swallows_no_row() {
        let text = fault("x,name\n1,\"a\n2,b\n3,c\n");
        assert_eq!(text, "t.csv, line 2, column 3: this quote is not closed; allowed: a second \" at the field's end");
        assert!(fault("x,name\n\"1,a\n2,b\n3,c\n").starts_with("t.csv, line 2, column 1: this quote is not closed; "));
        assert!(sheet("x,name\n1,\"a\"\n2,b\"\n3,\"c\"").is_ok());
    }
    #[test]
    fn text_after_a_closing_quote_is_refused_where_it_stands() {
        for (text, says) in [
            ("name,x\n\"a\" ,1\n", "line 2, column 4: ` ` follows the quote that closes the field opened on line 2"),
            ("name,x\na,\"\"1\r\n", "line 2, column 5: `1` follows the quote that closes the field opened on line 2"),
            ("name,x\n# \"a\"b\rc,\"\"\"\"é\"", "line 3, column 7: `é\"` follows the quote that closes the field opened on line 3"),
            ("\"name\";x\na,1\n", "line 1, column 7: `;x` follows the quote that closes the field opened on line 1"),
            // Before a row of another number of fields, which a missing quote makes as well.
            ("name,x\na,\"1\nb,2,3\nc,\"4\",\"\n", "line 4, column 4: `4\"` follows the quote that closes the field opened on line 2"),
        ] {
            assert_eq!(fault(text), format!("t.csv, {}; allowed: a comma or a line end there, and \"\" for a quote inside quotes", says));
        }
        let s = sheet("name,x\n# \"a\"b\n\"a\",\"\"\r\n\"b\"\"c\",5\" d\re,\"\"\"\"").unwrap();
        let read: Vec<_> = s.fields().flatten().map(|f| f.text()).collect();
        assert_eq!((&read[..], s.warnings().len()), (&["a", "", "b\"c", "5\" d", "e", "\""][..], 0));
    }
    #[test]
    fn comments_are_skipped_and_their_lines_counted() {
        let s = sheet("# of, \"2026\n#\r\nname,x\n#a,1\n\nb,2\r\n# \"\n\n#\nc,oops\n\"#d\",4\n#,\"end").unwrap();
        assert_eq!(s.len(), 3);
        assert_eq!(s.field(0, 0).at(), "t.csv, line 6, column 1");
        assert!(s.field(1, 1).number().unwrap_err().to_string().starts_with("t.csv, line 10, column 3: x reads `oops`"));
        assert_eq!(s.field(2, 0).text(), "#d");
        let text = fault("name,x\n# one\na,1\n  # two\n");
        assert_eq!(
            text,
            "t.csv, line 4, column 1: 1 field; allowed: 2 fields, as many as the first line has; a comment starts with # at the line's start"
        );
        assert!(fault("#name,x\na,1\n").contains("no column `name` in `a,1`; allowed: a first line that names the columns name,x"));
    }
    #[test]
    fn a_lone_carriage_return_ends_a_line() {
        let names = |text: &str| sheet(text).unwrap().fields().map(|f| f[0].text().to_owned()).collect::<Vec<_>>();
        for text in [
            "name,x\r# two\ra,1\rb,2\r",
            "name,x\ra,1\r# note\rb,2\n",
            "name,x\na,1\n# note\rb,2\n",
            "name,x\r\na,1\r\n# note\rb,2\r\n",
            "# first\rname,x\r\r\na,1\n\r#\r#\r\nb,2",
            "name,x\na,1\rb,2\n",
        ] {
            assert_eq!(names(text), ["a", "b"], "{:?}", text);
        }
        let s = sheet("name,x\r# two\ra,1\rb,oops\r").unwrap();
        assert!(s.field(1, 1).number().unwrap_err().to_string().starts_with("t.csv, line 4, column 3: "));
        let s = sheet("name,x\r\n# two\r\ra,1\n# five\rb,oops\n").unwrap();
        assert!(s.field(1, 1).number().unwrap_err().to_string().starts_with("t.csv, line 6, column 3: "));
        // Inside quotes it is part of the field, as a line feed is; and it starts no comment.
        let s = sheet("name,x\n\"a\r#\rb\",1\r\"c\r\n\",oops\r").unwrap();
        assert_eq!((s.len(), s.field(0, 0).text(), s.field(0, 1).at().as_str()), (2, "a\r#\rb", "t.csv, line 4, column 4"));
        assert!(s.field(1, 1).number().unwrap_err().to_string().starts_with("t.csv, line 6, column 3: "));
        assert!(fault("name,x\ra,1\r# \"\r\"b,2\rc,3\r").starts_with("t.csv, line 4, column 1: this quote is not closed"));
        // The line limit holds of such lines too.
        assert!(sheet(&format!("name,x\r{}", "a,1\r".repeat(20_000))).is_ok());
    }
    #[test]
    fn long_lines_are_refused_and_rows_beyond_the_limit_counted() {
        let text = fault(&format!("name,x\n{},1\n", "a".repeat(70_000)));
        assert_eq!(text, "t.csv, line 2, column 1: a line of 70,003 bytes; allowed: lines of at most 65,536 bytes");
        let s = sheet(&format!("name,x\n{}", "a,1\n".repeat(70_000))).unwrap();
        assert_eq!(s.len(), 70_000);
        assert_eq!(s.fields().count(), 65_537);
    }
    #[test]
    fn a_message_escapes_control_characters_of_a_cell() {
        let s = sheet("name,x\na,\"\u{1b}[2J\n\"\n").unwrap();
        assert!(s.field(0, 1).number().unwrap_err().to_string().contains("x reads `\\u{1b}[2J`; "));
        let s = sheet(&format!("name,x\na,{}\n", "7x".repeat(10_000))).unwrap();
        assert!(s.field(0, 1).number().unwrap_err().to_string().len() < 300);
        assert!(fault(&format!("{}\n", "\0".repeat(10_000))).len() < 400);
    }
    /// The line where a row starts, the line of the first character of its first field, and its fields.
    type Row = (usize, usize, Vec<String>);
    /// The rows of a text of two columns, its first row too, and how many fields have several lines. Where text follows a closing quote or a quote is left open, the line of the fault; else
    /// that of the first row of another number of fields.
    fn plainly_read(text: &str) -> Result<(Vec<Row>, usize), usize> {
        let chars: Vec<char> = text.chars().collect();
        let (mut i, mut line, mut rows, mut several, mut wrong) = (0, 1, Vec::new(), 0, None);
        // The length of the line end here, if there is one.
        let end = |i: usize| match (chars.get(i), chars.get(i + 1)) {
            (Some('\r'), Some('\n')) => 2,
            (Some('\r' | '\n'), _) => 1,
            _ => 0,
        };
        while i < chars.len() {
            if end(i) > 0 {
                (i, line) = (i + end(i), line + 1);
            } else if chars[i] == '#' {
                while i < chars.len() && end(i) == 0 {
                    i += 1;
                }
            } else {
                let (start, mut first, mut fields) = (line, None, Vec::new());
                loop {
                    let (mut field, opened) = (String::new(), line);
                    let mut quoted = chars.get(i) == Some(&'"');
                    i += usize::from(quoted);
                    while i < chars.len() && (quoted || chars[i] != ',' && end(i) == 0) {
                        if quoted && chars[i] == '"' {
                            quoted = chars.get(i + 1) == Some(&'"');
                            i += 1;
                            if !quoted && i < chars.len() && chars[i] != ',' && end(i) == 0 {
                                return Err(line);
                            }
                            if !quoted {
                                continue;
                            }
                        }
                        if fields.is_empty() && !chars[i].is_whitespace() {
                            first.get_or_insert(line);
                        }
                        for _ in 0..end(i).max(1) {
                            field.push(chars[i]);
                            line += usize::from(end(i) == 1);
                            i += 1;
                        }
                    }
                    if quoted {
                        return Err(opened);
                    }
                    if fields.is_empty() {
                        first.get_or_insert(line);
                    }
                    several += usize::from(field.contains(['\r', '\n']));
                    fields.push(field.trim().to_owned());
                    if chars.get(i) != Some(&',') {
                        break;
                    }
                    i += 1;
                }
                if fields.len() != 2 {
                    wrong.get_or_insert(start);
                }
                rows.push((start, first.unwrap_or(start), fields));
            }
        }
        wrong.map_or(Ok((rows, several)), Err)
    }
    const ENDS: &[&str] = &["\r", "\n", "\r\n"];
    const COMMENTS: &[&str] = &["", "#", "# a,b", "# \"", "#,\"", "#\"a\",\"b", "#,\"\"\""];
    const FIELDS: &[&str] =
        &["a", " é ", "", "b\"c", "\"a\"", "\"a,b\"", "\"\"\"\"", "\"a\rb\"", "\"a\nb\"", "\"a\r\nb\"", "\"\r#\"\"\r\"", "#"];
    const PIECES: &[&str] = &["a", ",", "\"", "#", " ", "\r", "\n", "\r\n", "\ra,b\r", "\"a\"b,c\n", "a,\"\"b\n"];
    fn line_of(texts: &'static [&'static str]) -> impl Strategy<Value = String> {
        (prop::sample::select(texts), prop::sample::select(ENDS)).prop_map(|(text, end)| text.to_owned() + end)
    }
    /// A row of two fields, a comment or an empty line, or any pieces.
    fn any_line() -> impl Strategy<Value = String> {
        let row = (prop::sample::select(FIELDS), line_of(FIELDS)).prop_map(|(name, x)| format!("{},{}", name, x));
        let pieces = prop::collection::vec(prop::sample::select(PIECES), 0..6).prop_map(|pieces| pieces.concat());
        prop_oneof![12 => row, 6 => line_of(COMMENTS), 1 => pieces]
    }
    proptest! {
        #[test]
        fn every_character_of_a_field_has_its_place(text in "[ab,\"\n\r# \u{a0}\u{3000}é]{0,60}") {
            let source = Source::of(Path::new("t.csv"), text.into()).unwrap();
            let reader = builder().flexible(true).from_reader(source.text.as_bytes().chain(&b"\n"[..]));
            for record in reader.into_records().map(Result::unwrap) {
                let from = start(&source, byte_of(record.position()));
                for (column, field) in record.iter().map(str::trim).enumerate() {
                    for (inside, c) in field.char_indices() {
                        let at = place(&source.text, from, column, inside);
                        prop_assert!(source.text[at..].starts_with(c), "{:?} {:?} {}", source.text, field, inside);
                    }
                    let end = place(&source.text, from, column, field.len());
                    prop_assert!(source.text.is_char_boundary(end));
                }
            }
        }
        /// Whatever ends the lines, the rows, their fields and their line numbers are those of a reader that goes character by character.
        #[test]
        fn rows_are_those_of_a_plain_reader(comment in line_of(COMMENTS), end in prop::sample::select(ENDS), lines in prop::collection::vec(any_line(), 0..7)) {
            let text = format!("{}name,x{}{}", comment, end, lines.concat());
            match (sheet(&text), plainly_read(&text)) {
                (Ok(s), Ok((rows, several))) => {
                    prop_assert_eq!(s.several.count, several, "{:?}", text);
                    let read: Vec<_> = s.fields().map(|f| (f[0].line(), [f[0].text().to_owned(), f[1].text().to_owned()].to_vec())).collect();
                    // The place of a name is that of its first character, which may be some lines down in a quoted field.
                    let due: Vec<_> = rows[1..].iter().map(|(_, line, fields)| (*line, fields.clone())).collect();
                    prop_assert_eq!(read, due, "{:?}", text);
                }
                (Err(fault), Err(line)) => prop_assert!(fault.to_string().starts_with(&format!("t.csv, line {}, ", line)), "{} not {} of {:?}", fault, line, text),
                (read, due) => prop_assert!(false, "{:?} and not {:?} of {:?}", read.map(|s| s.len()), due, text),
            }
        }
        #[test]
        fn any_text_is_a_sheet_or_a_fault(head in "(name,x\n)?", text in "(\\PC|\\s|[\",#\n]|[0-9a-z]{1,3},[0-9.]{1,3}\n){0,40}") {
            if let Ok(s) = sheet(&(head + &text)) {
                for f in s.fields().flatten() {
                    let faults = [f.number().err(), f.degrees().err(), f.tolerance().err(), f.time().err()].map(|e| e.map_or(String::new(), |e| e.to_string()));
                    prop_assert!(faults.iter().all(|text| text.len() < 800));
                    prop_assert!(f.line() <= s.source.text.split(['\r', '\n']).count());
                }
            }
        }
        /// Any columns are of one form, or refused with a message that names both forms.
        #[test]
        fn any_first_line_has_a_form_or_a_fault(columns in prop::collection::vec("(name|x|y|z|ra|dec|RA|Dec|ra_deg|de|\\PC{0,3})", 0..8)) {
            let has = |name: &&str| columns.iter().filter(|column| column.trim().eq_ignore_ascii_case(name)).count();
            let once = |form: &[&str]| form.iter().all(|name| has(name) == 1);
            let (position, vector) = (&["ra", "dec"][..], &["x", "y", "z"][..]);
            let any = |form: &[&str]| form.iter().any(|name| has(name) > 0);
            let quoted: Vec<_> = columns.iter().map(|column| format!("\"{}\"", column.replace('"', "\"\""))).collect();
            let right = has(&"name") == 1 && (once(position) && !any(vector) || once(vector) && !any(position));
            match in_forms(&format!("{}\n", quoted.join(","))) {
                Ok(s) => {
                    prop_assert!(right, "{:?}", columns);
                    prop_assert_eq!(&s.form()[1..], if any(position) { position } else { vector });
                }
                Err(fault) => {
                    prop_assert!(!right, "{:?}", columns);
                    prop_assert!(fault.to_string().contains("name,ra,dec or name,x,y,z"), "{}", fault);
                }
            }
        }
    }
}
