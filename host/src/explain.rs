//! A refusal in the terms of the files: which file, line and column, what was read and what is allowed.
//! The library decides; this only looks for what it saw.
use crate::{
    engine::{self, Refusal, Size, CHUNK_CELLS, HEADER_BYTES, LINE_BYTES},
    fault::Fault,
    instant,
    journal::{chunk_of, hex, is_digit, lines},
    plan::{Plan, VECTOR_COLUMNS},
    sheet::Sheet,
    source::shown,
    text::{counted, excerpt, grouped, number, quoted},
    tolerance, tried,
};
use std::path::{Path, PathBuf};

/// A command on a plan and its journal, as a shell takes it.
pub fn command(verb: &str, plan: &Plan, journal: &Path) -> String {
    let mut words = format!("wilfnusk {} {}", verb, quoted(plan.path()));
    if journal != plan.journal() {
        words += &format!(" --journal {}", quoted(journal));
    }
    words
}

/// The sizes that the library accepts.
const SIZES: &str = "65,536 targets and times each, 1,048,576 cells";
const ROLLS: &str = "1 to 3600";

/// A refusal of the plan, or of a call that found nothing wrong with the journal.
pub fn plan(plan: &Plan, refusal: Refusal) -> Fault {
    let found = match refusal.number() {
        2 => Some(format!(
            "{} has {} targets and {} has {} times, {} cells; allowed: {}",
            shown(&plan.targets_sheet.source.path),
            grouped(plan.targets_sheet.len()),
            shown(&plan.ephemeris_sheet.source.path),
            grouped(plan.ephemeris_sheet.len()),
            grouped(plan.targets_sheet.len() * plan.ephemeris_sheet.len()),
            SIZES
        )),
        3 => Some(format!("{}: rolls reads {}; allowed: {}", plan.at("rolls"), plan.rolls.count(), tried::ALLOWED)),
        4 => position(plan),
        // The vectors that the library makes of positions are never refused with 5 or 20.
        5 if plan.targets_sheet.form() == VECTOR_COLUMNS => {
            let wrong = plan.targets.iter().position(|x| !(-1.0..=1.0).contains(x));
            wrong.map(|i| target(&plan.targets_sheet, i / 3, 1 + i % 3, "-1 to 1"))
        }
        6 => {
            Some(format!("{}: panel reads {}; allowed: three finite numbers of at most 1e100 in size", plan.at("panel"), plan.panel_text()))
        }
        8 => {
            let most = 4_000_000_000_000_000_000;
            plan.times.iter().position(|t| !(-most..=most).contains(t)).map(|i| {
                let field = plan.ephemeris_sheet.field(i, 0);
                let (first, last) = (instant::format(-most, 0), instant::format(most, 0));
                format!("{}: time reads `{}`; allowed: {} to {}", field.at(), field.shown(), first, last)
            })
        }
        // Only of a list: a column has one entry per target, and a single number holds for each.
        17 => Some(format!(
            "{}: tolerance lists {}, and {} has {}; allowed: {}",
            plan.at("tolerance"),
            counted(plan.tolerances.len(), "number"),
            shown(&plan.targets_sheet.source.path),
            counted(plan.names.len(), "target"),
            tolerance::ALLOWED
        )),
        18 => {
            let count = counted(plan.rolls.count(), "number");
            Some(format!("{}: rolls lists {}; allowed: {}", plan.at("rolls"), count, tried::ALLOWED))
        }
        19 => plan.rolls.table().and_then(|table| roll(plan, table)),
        20 if plan.targets_sheet.form() == VECTOR_COLUMNS => not_unit(plan),
        _ => None,
    };
    Fault::Refused(refusal.number(), found.unwrap_or_else(|| refusal.sentence().to_owned()))
}

/// The fault of `regard` where the rolls are a table: without --roll it needs even steps.
pub fn needs_even_steps(plan: &Plan, journal: &Path) -> Fault {
    Fault::Usage(format!(
        "{}: rolls is {}, and without --roll even steps are needed; allowed: --roll DEG for the marks at one roll, or the mask of a sweep over the \
         table: `{} --from TIME --to TIME`",
        plan.at("rolls"),
        plan.rolls.in_words(""),
        command("mask", plan, journal)
    ))
}

/// A refusal of a size alone, which these words of the command line give.
pub fn size(words: &str, size: Size, refusal: Refusal) -> Fault {
    let Size { targets, times, rolls } = size;
    let found = match refusal.number() {
        2 => format!(
            "{} and {}, {}; allowed: {}",
            counted(targets, "target"),
            counted(times, "time"),
            counted(u128::from(targets) * u128::from(times), "cell"),
            SIZES
        ),
        3 => format!("{}; allowed: {}", counted(rolls, "roll"), ROLLS),
        _ => refusal.sentence().to_owned(),
    };
    Fault::Refused(refusal.number(), format!("{}: {}", words, found))
}

/// A refusal of the listing of one target's windows.
pub fn row(p: &Plan, target: usize, refusal: Refusal) -> Fault {
    match refusal.number() {
        // A severity is the difference less the tolerance, and may not be infinite.
        14 => Fault::Refused(
            14,
            format!(
                "{}, and the severities at the configured roll would be infinite; allowed with --evaluate: any number except -inf",
                tolerance::reads(p, target)
            ),
        ),
        _ => plan(p, refusal),
    }
}

/// A refusal of the targets' catalogue positions, which are converted to vectors before there is a plan.
pub fn catalogue(targets: &Sheet, refusal: Refusal) -> Fault {
    let outside = |row: usize| {
        let wrong = |column, least, most| !matches!(targets.field(row, column).degrees(), Ok(x) if (least..=most).contains(&x));
        if wrong(1, 0.0, 360.0) {
            Some(target(targets, row, 1, "0 to 360 degrees"))
        } else if wrong(2, -90.0, 90.0) {
            Some(target(targets, row, 2, "-90 to 90 degrees"))
        } else {
            None
        }
    };
    let found = if refusal.number() == 16 { (0..targets.fields().count()).find_map(outside) } else { None };
    Fault::Refused(refusal.number(), found.unwrap_or_else(|| refusal.sentence().to_owned()))
}

/// A number of a target that is refused.
fn target(targets: &Sheet, row: usize, column: usize, allowed: &str) -> String {
    let (field, name) = (targets.field(row, column), targets.field(row, 0).shown());
    format!("{}: {} of target `{}` reads `{}`; allowed: {}", field.at(), field.name(), name, field.shown(), allowed)
}

/// The first target that is not a unit vector, and its squared length.
fn not_unit(plan: &Plan) -> Option<String> {
    let squared = |v: &[f64]| v[0] * v[0] + v[1] * v[1] + v[2] * v[2];
    let wrong = |v: &[f64]| !((squared(v) - 1.0).abs() <= 1e-9);
    let (row, vector) = plan.targets.chunks_exact(3).enumerate().find(|(_, v)| wrong(v))?;
    Some(format!(
        "{}: x, y, z of target `{}` have the squared length {}; allowed: less than 1e-9 away from 1, so a unit vector of about ten digits \
         per number; or ra, dec in degrees",
        plan.targets_sheet.field(row, 1).at(),
        plan.targets_sheet.field(row, 0).shown(),
        number(squared(vector))
    ))
}

/// The first roll of a table that is refused.
fn roll(plan: &Plan, table: &[f64]) -> Option<String> {
    // A text of 16 digits or with an exponent may be another number than it seems to be.
    let reads = |i: usize| match plan.entry("rolls", i).1 {
        text if (text.len() > 16 || text.contains(['e', 'E'])) && text != number(table[i]) => {
            format!("{} ({})", excerpt(text), number(table[i]))
        }
        text => text.to_owned(),
    };
    let refused = |i: usize, before: &str| {
        let allowed = "0 up to but not at 360 degrees, each above the one before it";
        format!("{}: entry {} of rolls reads {}{}; allowed: {}", plan.entry("rolls", i).0, grouped(i + 1), reads(i), before, allowed)
    };
    (0..table.len()).find_map(|i| {
        if !(table[i] >= 0.0 && table[i] < 360.0) {
            Some(refused(i, ""))
        } else if i > 0 && !(table[i - 1] < table[i]) {
            Some(refused(i, &format!(", and entry {} before it {}", grouped(i), reads(i - 1))))
        } else {
            None
        }
    })
}

fn position(plan: &Plan) -> Option<String> {
    (0..plan.times.len()).flat_map(|j| (1..7).map(move |c| (j, c))).find_map(|(j, c)| {
        let field = plan.ephemeris_sheet.field(j, c);
        match field.number() {
            Ok(x) if x.abs() <= 1e100 => None,
            _ => Some(format!(
                "{}: {} reads `{}`; allowed: finite numbers of at most 1e100 in size",
                field.at(),
                field.name(),
                field.shown()
            )),
        }
    })
}

/// A refusal of the plan or of its journal. What is wrong with the journal is listed, and how much of it is right.
pub fn journal(p: &Plan, path: &Path, bytes: &[u8], refusal: Refusal) -> Fault {
    let done = || engine::recover(p, bytes).map_or(0, |keep| keep.saturating_sub(HEADER_BYTES as usize) / LINE_BYTES as usize);
    match refusal.number() {
        11 => Fault::Refused(11, damage(p, path, bytes)),
        15 => Fault::Refused(
            15,
            format!(
                "{}: {} of {} chunks have a line; `{}` works out the rest",
                shown(path),
                grouped(done()),
                grouped(p.chunks()),
                command("sweep", p, path)
            ),
        ),
        _ => plan(p, refusal),
    }
}

/// The end of a journal that is right up to there and is zero bytes from there on, as file systems leave a file after a power cut.
pub struct ZeroTail {
    /// The header and the whole lines before it.
    pub keep: usize,
    /// The bytes of a frame that was cut, then the zeros.
    cut: usize,
    zeros: usize,
}

impl ZeroTail {
    pub fn in_words(&self) -> String {
        let zeros = counted(self.zeros, "zero byte");
        match self.cut {
            0 => zeros,
            cut => format!("{} of a write that did not end and {}", counted(cut, "byte"), zeros),
        }
    }
}

/// The tail of zero bytes of a journal that the library refuses for nothing else. Bytes before them that are no digits are of no frame that was
/// cut: no write made them.
pub fn zero_tail(plan: &Plan, bytes: &[u8]) -> Option<ZeroTail> {
    if engine::recover(plan, bytes).map_or_else(|refusal| refusal.number(), |_| 0) != 11 {
        return None;
    }
    let end = bytes.iter().rposition(|&byte| byte != 0).map_or(0, |last| last + 1);
    let keep = engine::recover(plan, &bytes[..end]).ok()?;
    bytes[keep..end].iter().all(is_digit).then_some(ZeroTail { keep, cut: end - keep, zeros: bytes.len() - end })
}

/// How many faults of a damaged journal are listed one by one.
const LISTED: usize = 5;

fn damage(plan: &Plan, path: &Path, bytes: &[u8]) -> String {
    if let Some(tail) = zero_tail(plan, bytes) {
        let lines = tail.keep.saturating_sub(HEADER_BYTES as usize) / LINE_BYTES as usize;
        return format!(
            "{}: it ends with {}, as a file system may leave them after a power cut; nothing was changed\n  line {}, column 1: from here on; {} \
             before it {} right\nTo drop these bytes and go on: `{} --drop-zero-tail`",
            shown(path),
            tail.in_words(),
            if tail.keep == 0 { 1 } else { lines + 2 },
            counted(lines, "chunk line"),
            if lines == 1 { "is" } else { "are" },
            command("sweep", plan, path)
        );
    }
    let header = engine::header(plan).unwrap_or_default();
    let length = bytes.len().min(HEADER_BYTES as usize);
    if header[..length] != bytes[..length] {
        return format!("{}: the header is not this plan's; nothing was changed\n{}", shown(path), header_faults(&header, bytes));
    }
    let mut seen = vec![None; plan.chunks()];
    let faults: Vec<_> =
        lines(bytes).enumerate().filter_map(|(i, line)| line_fault(plan, line, i, &mut seen).map(|fault| (i, fault))).collect();
    let mut text = format!(
        "{}: {} of its {} lines {} not right; nothing was changed",
        shown(path),
        grouped(faults.len()),
        grouped(lines(bytes).count()),
        if faults.len() == 1 { "is" } else { "are" }
    );
    for (i, (column, fault)) in faults.iter().take(LISTED) {
        text += &format!("\n  line {}, column {}: {}", i + 2, column, fault);
    }
    if faults.len() > LISTED {
        text += &format!("\n  and {} more", grouped(faults.len() - LISTED));
    }
    if faults.len() == lines(bytes).count() {
        return text + "\nTo go on, sweep into another journal with --journal";
    }
    text += "\nThe other lines are right and need not be lost: a salvage that keeps them is to come.";
    match left_out(bytes, &faults) {
        Some(script) => {
            let (path, copy) = (quoted(path), quoted(&with_suffix(path, ".damaged")));
            text + &format!(" By hand, with a copy:\n  cp {path} {copy} && sed '{script}' {copy} > {path}")
        }
        None => text + " Until then, sweep into another journal with --journal",
    }
}

/// How many runs of wrong lines are left out by hand.
const BY_HAND: usize = 20;

/// The script that makes sed leave out the wrong lines, where the ends of the lines are right, so that sed sees the lines that we do.
fn left_out(bytes: &[u8], faults: &[(usize, (usize, String))]) -> Option<String> {
    if lines(bytes).any(|line| line.iter().position(|&b| b == b'\n') != Some(line.len() - 1)) {
        return None;
    }
    let mut runs: Vec<(usize, usize)> = Vec::new();
    for number in faults.iter().map(|(i, _)| i + 2) {
        match runs.last_mut() {
            Some((_, last)) if *last + 1 == number => *last = number,
            _ => runs.push((number, number)),
        }
    }
    let script: Vec<_> = runs.iter().map(|(a, b)| if a == b { format!("{}d", a) } else { format!("{},{}d", a, b) }).collect();
    Some(script.join(";")).filter(|_| runs.len() <= BY_HAND)
}

fn with_suffix(path: &Path, suffix: &str) -> PathBuf {
    let mut name = path.as_os_str().to_owned();
    name.push(suffix);
    name.into()
}

/// The header's fields and their widths, in digits.
const FIELDS: [(&str, usize); 9] = [
    ("targets", 8),
    ("times", 8),
    ("rolls", 8),
    ("first tolerance", 16),
    ("whether a roll is configured", 2),
    ("configured roll", 16),
    ("panel x", 16),
    ("panel y", 16),
    ("panel z", 16),
];

fn header_faults(header: &[u8], bytes: &[u8]) -> String {
    let digits = HEADER_BYTES as usize - 1;
    if let Some(i) = bytes.iter().take(digits).position(|byte| !is_digit(byte)) {
        return format!("  line 1, column {}: byte {:#04x}; allowed: 0 to 9 and a to f", i + 1, bytes[i]);
    }
    let mut faults = Vec::new();
    let mut start = 0;
    for (name, width) in FIELDS {
        let end = (start + width).min(bytes.len());
        if start < end && bytes[start..end] != header[start..end] {
            let (read, due) = (meaning(&bytes[start..end]), meaning(&header[start..end]));
            faults.push(format!("  line 1, column {}: {} reads {}; this plan's is {}", start + 1, name, read, due));
        }
        start += width;
    }
    if faults.is_empty() {
        faults.push(format!("  line 1, column {}: byte {:#04x}; allowed: 0x0a, the line's end", digits + 1, bytes[digits]));
    }
    faults.join("\n")
}

/// A field as it stands, and the number that it means.
fn meaning(digits: &[u8]) -> String {
    let text = String::from_utf8_lossy(digits);
    match (hex(digits), digits.len()) {
        (Some(value), 16) => format!("{} ({:?})", text, f64::from_bits(value)),
        (Some(value), 8) => format!("{} ({})", text, value),
        _ => text.into_owned(),
    }
}

/// What is wrong with a whole line: the column and a sentence.
fn line_fault(plan: &Plan, line: &[u8], number: usize, seen: &mut [Option<usize>]) -> Option<(usize, String)> {
    let digits = LINE_BYTES as usize - 1;
    if line.iter().all(|&b| b == 0) {
        return Some((1, "33 zero bytes, as a power cut may leave them where lines were not yet synced".into()));
    }
    if let Some(i) = line[..digits].iter().position(|byte| !is_digit(byte)) {
        return Some((i + 1, format!("byte {:#04x}; allowed: 0 to 9 and a to f", line[i])));
    }
    if line[digits] != b'\n' {
        return Some((digits + 1, format!("byte {:#04x}; allowed: 0x0a, the line's end", line[digits])));
    }
    let (chunk, mask, probes) = (chunk_of(line)?, hex(&line[8..24])?, hex(&line[24..32])?);
    let chunks = plan.chunks() as u64;
    if chunk >= chunks {
        return Some((1, format!("chunk {}; allowed: below {}", chunk, chunks)));
    }
    if let Some(before) = seen[chunk as usize].replace(number) {
        return Some((1, format!("chunk {} again, which line {} has; allowed: each chunk once", chunk, before + 2)));
    }
    let cells = CHUNK_CELLS.min(plan.cells() as u64 - CHUNK_CELLS * chunk);
    if cells < CHUNK_CELLS && mask >> cells != 0 {
        return Some((9, format!("mask {:016x} marks cells past the last; allowed: its low {} bits", mask, cells)));
    }
    let marked = u64::from(mask.count_ones());
    let rolls = plan.rolls.count();
    let (fewest, most) = (cells - marked + rolls * marked, rolls * cells);
    if !(fewest..=most).contains(&probes) {
        return Some((25, format!("{} probes; allowed for that mask: {} to {}", probes, fewest, most)));
    }
    None
}

#[cfg(test)]
mod tests {
    use super::*;
    use crate::testing::small;

    /// What is said of the plan's whole journal after this change.
    fn said(change: impl Fn(&mut Vec<u8>)) -> String {
        let plan = small();
        let mut bytes = engine::header(&plan).unwrap();
        let header = bytes.len();
        bytes.resize(header + LINE_BYTES as usize * plan.chunks(), 0);
        engine::work(&plan, 0..plan.chunks() as u64, &mut bytes, header).unwrap();
        change(&mut bytes);
        let refusal = engine::recover(&plan, &bytes).unwrap_err();
        let fault = journal(&plan, Path::new("a b"), &bytes, refusal);
        assert_eq!(fault.status(), 1);
        fault.to_string()
    }
    fn at(line: usize) -> usize {
        HEADER_BYTES as usize + (line - 2) * LINE_BYTES as usize
    }

    #[test]
    fn the_fields_of_a_wrong_header_are_named() {
        assert!(said(|j| j[23] ^= 1).contains("line 1, column 17: rolls reads 00000009 (9); this plan's is 00000008 (8)"));
        let first =
            "line 1, column 25: first tolerance reads 402e000000000001 (15.000000000000002); this plan's is 402e000000000000 (15.0)";
        assert!(said(|j| j[39] ^= 1).contains(first));
        assert!(said(|j| j[30] = b'G').contains("line 1, column 31: byte 0x47; allowed: 0 to 9 and a to f"));
        assert!(said(|j| j[106] = b' ').contains("line 1, column 107: byte 0x20; allowed: 0x0a"));
        assert!(!said(|j| j[23] ^= 1).contains("salvage"));
    }
    #[test]
    fn wrong_lines_are_listed_with_a_command_that_leaves_them_out() {
        let one = said(|j| j[at(4)] = b'f');
        assert!(one.contains("'a b'") && !one.contains(" a b "), "{}", one);
        assert!(
            one.contains("1 of its 5 lines is not right") && one.contains("\n  line 4, column 1: chunk 4026531842; allowed: below 5"),
            "{}",
            one
        );
        assert!(one.ends_with("cp 'a b' 'a b.damaged' && sed '4d' 'a b.damaged' > 'a b'"), "{}", one);
        let several = said(|j| [2, 3, 5, 6].into_iter().for_each(|line| j[at(line) + 31] = b'-'));
        assert!(several.contains("4 of its 5 lines are") && several.ends_with("sed '2,3d;5,6d' 'a b.damaged' > 'a b'"), "{}", several);
        // The last line's spare bits, and more probes than rolls.
        assert!(said(|j| j[at(6) + 8] = b'1').contains("line 6, column 9: mask 1"));
        assert!(said(|j| j[at(2) + 24] = b'1').contains("line 2, column 25: 2684"));
        assert!(said(|j| j.extend_from_within(at(2)..at(3))).contains("line 7, column 1: chunk 0 again, which line 2 has"));
    }
    #[test]
    fn no_command_is_advised_that_would_lose_a_right_line_or_keep_a_wrong_one() {
        let removed = said(|j| {
            j.remove(at(4) - 1);
        });
        for lost_end in [removed, said(|j| j[at(3) - 1] = b' '), said(|j| j[at(3) + 4] = b'\n')] {
            assert!(lost_end.contains("salvage") && !lost_end.contains("sed '") && lost_end.contains("--journal"), "{}", lost_end);
        }
        let all = said(|j| (2..7).for_each(|line| j[at(line)] = b'f'));
        assert!(all.contains("5 of its 5 lines are") && !all.contains("salvage") && all.contains("--journal"), "{}", all);
        assert!(said(|j| j[at(3)..at(4)].fill(0)).contains("line 3, column 1: 33 zero bytes"));
    }
    #[test]
    fn a_tail_of_zero_bytes_is_named_with_what_stands_before_it() {
        let tail = |keep: usize, zeros: usize| {
            said(move |j| {
                j.truncate(keep);
                j.resize(keep + zeros, 0);
            })
        };
        let none = tail(at(2), 165);
        assert!(
            none.contains("it ends with 165 zero bytes")
                && none.contains("line 2, column 1: from here on; 0 chunk lines before it are right")
        );
        assert!(tail(at(3), 33).contains("line 3, column 1: from here on; 1 chunk line before it is right"));
        let cut = tail(at(4) + 8, 60);
        assert!(
            cut.contains("it ends with 8 bytes of a write that did not end and 60 zero bytes") && cut.contains("line 4, column 1"),
            "{}",
            cut
        );
        assert!(tail(0, 200).contains("line 1, column 1") && tail(30, 200).contains("line 1, column 1"));
        assert!(
            none.contains("\nTo drop these bytes and go on: `wilfnusk sweep ") && none.ends_with(" --journal 'a b' --drop-zero-tail`"),
            "{}",
            none
        );
    }
    #[test]
    fn commands_are_quoted_for_a_shell() {
        let plan = small();
        let own = plan.journal();
        assert_eq!(command("sweep", &plan, &own), format!("wilfnusk sweep {}", plan.path().display()));
        assert!(command("check", &plan, Path::new("it's")).ends_with(r"plan.toml --journal 'it'\''s'"));
    }
}
