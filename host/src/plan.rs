//! A plan as its files give it: a TOML file that names a CSV file of targets and one of positions.
use crate::{
    engine, explain,
    fault::Fault,
    files,
    settings::{entry, Read, Values},
    sheet::{Form, Sheet},
    source::{shown, Source},
    text::{counted, excerpt, number},
    tolerance::{self, Told},
    tried::Rolls,
};
use std::{
    collections::{BTreeMap, HashMap},
    fs, io,
    path::{Path, PathBuf},
};

/// A target is a catalogue position in degrees, or a direction as a unit vector.
pub const CATALOGUE_COLUMNS: Form = &["name", "ra", "dec"];
pub const VECTOR_COLUMNS: Form = &["name", "x", "y", "z"];
pub const EPHEMERIS_COLUMNS: Form = &["time", "sun_x", "sun_y", "sun_z", "observer_x", "observer_y", "observer_z"];
/// A column of the targets file that may be left out.
pub const TOLERANCE_COLUMN: &str = "tolerance";
/// Lists of 65,536 tolerances and 3,600 rolls, each number with all its digits, and far more than the other keys and their comments take.
const MOST_BYTES: u64 = 1 << 21;

#[derive(Debug)]
pub struct Plan {
    pub source: Source,
    pub targets_file: String,
    pub ephemeris_file: String,
    pub rolls: Rolls,
    /// In degrees, one per target. A list of another length is read too; the library refuses it with 17.
    pub tolerances: Vec<f64>,
    pub told: Told,
    pub configured_roll: Option<f64>,
    pub panel: [f64; 3],
    pub names: Vec<String>,
    /// Three numbers per target, whichever form the file has.
    pub targets: Vec<f64>,
    /// Nanoseconds since 1970, strictly increasing.
    pub times: Vec<i64>,
    /// Three numbers per time, each.
    pub suns: Vec<f64>,
    pub observers: Vec<f64>,
    pub targets_sheet: Sheet,
    pub ephemeris_sheet: Sheet,
    /// The byte where each key's value stands in the TOML file.
    places: BTreeMap<&'static str, usize>,
}

impl Plan {
    pub fn read(path: &Path) -> Result<Plan, Fault> {
        let source = Source::read(path, MOST_BYTES)?;
        let mut values = Values::of(&source)?;
        let targets_file = values.file("targets")?;
        let ephemeris_file = values.file("ephemeris")?;
        let rolls = values.rolls()?;
        let tolerance_key = values.tolerance()?;
        let panel = values.panel()?;
        let configured_roll = values.number("configured_roll")?;
        let places = values.places;

        let beside = |key: &str, file: &str| {
            let path = path.parent().unwrap_or_else(|| Path::new("")).join(file);
            match fs::metadata(&path) {
                Ok(_) => Ok(path),
                // A name with a zero byte is no name.
                Err(e) if matches!(e.kind(), io::ErrorKind::NotFound | io::ErrorKind::InvalidInput) => {
                    let read = format!("{} reads \"{}\", and there is no such file", key, excerpt(file));
                    Err(source.fault(places.get(key).copied().unwrap_or(0), read, "a CSV file, named from the plan's folder"))
                }
                Err(e) => Err(files::fault(&path, &e)),
            }
        };
        let targets_sheet = Sheet::read(&beside("targets", &targets_file)?, &[CATALOGUE_COLUMNS, VECTOR_COLUMNS], &[TOLERANCE_COLUMN])?;
        let (told, of_key) = told(&source, tolerance_key, &targets_sheet)?;
        let ephemeris_sheet = Sheet::read(&beside("ephemeris", &ephemeris_file)?, &[EPHEMERIS_COLUMNS], &[])?;
        let is_catalogue = targets_sheet.form() == CATALOGUE_COLUMNS;
        let (mut names, mut ra, mut dec, mut vectors, mut of_column) = (Vec::new(), Vec::new(), Vec::new(), Vec::new(), Vec::new());
        for fields in targets_sheet.fields() {
            names.push(fields[0].text().to_owned());
            if is_catalogue {
                ra.push(fields[1].degrees()?);
                dec.push(fields[2].degrees()?);
            } else {
                for f in &fields[1..4] {
                    vectors.push(f.number()?);
                }
            }
            if let Told::Column(column) = told {
                of_column.push(fields[column].tolerance()?);
            }
        }
        let (mut times, mut suns, mut observers) = (Vec::new(), Vec::new(), Vec::new());
        for fields in ephemeris_sheet.fields() {
            let time = fields[0].time()?;
            if times.last().map_or(false, |&before| before >= time) {
                return Err(Fault::Files(format!(
                    "{}: time reads `{}`, which is not after the time before it; allowed: times that increase",
                    fields[0].at(),
                    fields[0].shown()
                )));
            }
            times.push(time);
            for f in &fields[1..4] {
                suns.push(f.number()?);
            }
            for f in &fields[4..] {
                observers.push(f.number()?);
            }
        }
        let tolerances = match told {
            Told::Number => of_key.repeat(names.len()),
            Told::List => of_key,
            Told::Column(_) => of_column,
        };
        // The library is asked once all files are read, as for the rest of the plan.
        let targets = match is_catalogue {
            true => engine::unit_vectors(&ra, &dec).map_err(|refusal| explain::catalogue(&targets_sheet, refusal))?,
            false => vectors,
        };
        Ok(Plan {
            source,
            targets_file,
            ephemeris_file,
            rolls,
            tolerances,
            told,
            configured_roll,
            panel,
            names,
            targets,
            times,
            suns,
            observers,
            targets_sheet,
            ephemeris_sheet,
            places,
        })
    }
    pub fn path(&self) -> &Path {
        &self.source.path
    }
    /// Where the journal stands unless another place is named; never where the plan does.
    pub fn journal(&self) -> PathBuf {
        let mut name = self.path().with_extension("journal");
        if name == self.path() {
            name.as_mut_os_string().push(".journal");
        }
        name
    }
    /// The place of a key's value in the TOML file; of the file's start for a key that is left out.
    pub fn at(&self, key: &str) -> String {
        self.source.at(self.place(key))
    }
    fn place(&self, key: &str) -> usize {
        self.places.get(key).copied().unwrap_or(0)
    }
    /// The place of an entry, from 0, of a key's list of numbers, and what it reads there.
    pub fn entry(&self, key: &str, number: usize) -> (String, &str) {
        let list = self.place(key);
        let (at, text) = entry(&self.source.text, list, number).unwrap_or((list, ""));
        (self.source.at(at), text)
    }
    /// What every command warns of: columns that are not used, fields of several lines, and two targets of one name.
    pub fn warnings(&self) -> Vec<String> {
        let of_files = [&self.targets_sheet, &self.ephemeris_sheet].into_iter().flat_map(Sheet::warnings);
        of_files.chain(self.warnings_of_names()).collect()
    }
    fn warnings_of_names(&self) -> Vec<String> {
        const NAMED: usize = 5;
        let (mut warnings, mut more) = (Vec::new(), 0);
        let mut first = HashMap::new();
        for (i, name) in self.names.iter().enumerate() {
            let field = |i| self.targets_sheet.field(i, 0);
            let before = *first.entry(name).or_insert(i);
            if before == i {
                continue;
            }
            if warnings.len() == NAMED {
                more += 1;
                continue;
            }
            let (at, name, line) = (field(i).at(), field(i).shown(), field(before).line());
            warnings.push(format!("{}: target `{}` has the name of line {}; both are listed under it", at, name, line));
        }
        if more > 0 {
            let more = counted(more, "more target");
            warnings.push(format!("{}: the same holds of {}", shown(&self.targets_sheet.source.path), more));
        }
        warnings
    }
    /// The panel normal as a message shows it.
    pub fn panel_text(&self) -> String {
        format!("[{}]", self.panel.map(number).join(", "))
    }
    pub fn cells(&self) -> usize {
        self.names.len() * self.times.len()
    }
    /// All that its sweep's cost depends on.
    pub fn size(&self) -> engine::Size {
        engine::Size { targets: self.names.len() as u64, times: self.times.len() as u64, rolls: self.rolls.count() }
    }
    pub fn chunks(&self) -> usize {
        (self.cells() + wilfnusk::CHUNK_CELLS as usize - 1) / wilfnusk::CHUNK_CELLS as usize
    }
}

/// Which way gives the tolerances, the key or the column and not both, and the key's numbers.
fn told(source: &Source, key: Option<(Read, Told, Vec<f64>)>, targets: &Sheet) -> Result<(Told, Vec<f64>), Fault> {
    match (key, targets.column(TOLERANCE_COLUMN)) {
        (Some((_, told, numbers)), None) => Ok((told, numbers)),
        (None, Some(column)) => Ok((Told::Column(column), Vec::new())),
        (Some((read, ..)), Some(column)) => {
            let both = format!("tolerance reads {}, and {} names a column `tolerance` too", read.text, targets.column_at(column));
            Err(source.fault(read.at, both, "one of the two: remove this key, or remove or rename that column"))
        }
        (None, None) => {
            let unused = targets.lookalike(TOLERANCE_COLUMN).map(|column| format!(" (its column `{}` is not used)", excerpt(column)));
            let (file, unused) = (shown(&targets.source.path), unused.unwrap_or_default());
            let allowed = format!("{}, or a column `tolerance` in {}{}", tolerance::ALLOWED, file, unused);
            Err(source.fault(0, "`tolerance` is missing", &allowed))
        }
    }
}

#[cfg(test)]
mod tests {
    use super::*;
    use crate::{
        digest::Digest,
        engine, explain,
        remarks::{remarks, sun},
        testing::{plan, with, CATALOGUE, COLUMN, EPHEMERIS, OUTSIDE, PIECES, TARGETS, TOML},
        text::excerpt,
    };
    use proptest::prelude::*;
    use std::fs;

    #[test]
    fn keys_and_files_are_read() {
        let p = with("rolls = 1\ntolerance = 10\n").unwrap();
        assert_eq!((&p.rolls, &p.tolerances[..], p.configured_roll, p.panel), (&Rolls::Even(1), &[10.0][..], None, [0.0, 1.0, 0.0]));
        assert_eq!((p.names.len(), p.times.len(), p.cells(), p.chunks()), (1, 2, 2, 1));
        assert_eq!(p.suns, [0.0, 1.0, 0.0, 0.0, 0.0, 1.0]);
        assert!(p.at("tolerance").ends_with("plan.toml, line 4, column 13"));
        assert!(p.journal().ends_with("plan.journal"));
        let p = with("rolls = 1\ntolerance = nan\nconfigured_roll = -inf\npanel = [[1, 0.5, -0.0]]").unwrap();
        assert!(p.tolerances[0].is_nan());
        assert_eq!(p.configured_roll, Some(f64::NEG_INFINITY));
        assert_eq!(p.panel, [1.0, 0.5, -0.0]);
    }
    #[test]
    fn a_plan_is_never_its_own_journal() {
        let folder = tempfile::tempdir().unwrap();
        let path = folder.path().join("day.journal");
        let toml = "targets = \"t.csv\"\nephemeris = \"e.csv\"\nrolls = 1\ntolerance = 10\n";
        for (file, text) in [("day.journal", toml), ("t.csv", TARGETS), ("e.csv", EPHEMERIS)] {
            fs::write(folder.path().join(file), text).unwrap();
        }
        assert!(Plan::read(&path).unwrap().journal().ends_with("day.journal.journal"));
    }
    /// The entries of `rolls`, each with what is written after it.
    fn list(entries: &[(String, &str)]) -> String {
        format!("[{}]", entries.iter().map(|(number, after)| number.clone() + after).collect::<String>())
    }
    #[test]
    fn rolls_may_be_a_table() {
        let read = |rolls: &str| {
            let p = with(&format!("rolls = {}\ntolerance = 1", rolls)).unwrap();
            engine::check(&p).unwrap();
            bits(p.rolls.table().unwrap())
        };
        assert_eq!(read("[0, 15.5, 90, 359.5]"), bits(&[0.0, 15.5, 90.0, 359.5]));
        assert_eq!(
            read("[\n  -0.0, # the first\n  1e-300,\n  3_0,\n  0x5a, 3.5999999999999994e2,\n]"),
            bits(&[-0.0, 1e-300, 30.0, 90.0, 359.99999999999994])
        );
        assert_eq!(read("[47]"), bits(&[47.0]));
        let most: Vec<f64> = (0..3600).map(|k| k as f64 * 0.1).collect();
        assert_eq!(read(&list(&most.iter().map(|x| (format!("{:?}", x), ",\n")).collect::<Vec<_>>())), bits(&most));
    }
    /// The message on a plan with these rolls, further keys and targets.
    fn rolls_fault(rolls: &str, more: &str, targets: &str) -> String {
        let (status, text) = fault_of(format!("targets = \"t.csv\"\nephemeris = \"e.csv\"\nrolls = {}\n{}\n", rolls, more), targets);
        assert_eq!(status, 1, "{}", text);
        text
    }
    #[test]
    fn a_refused_table_is_named_at_its_entry() {
        const ENTRY: &str = "; allowed: 0 up to but not at 360 degrees, each above the one before it";
        const LENGTH: &str = "; allowed: a whole number of rolls, 1 to 3600, or a list of 1 to 3600 rolls in degrees";
        for (rolls, says) in [
            ("[360]", "plan.toml, line 3, column 10: entry 1 of rolls reads 360"),
            ("[0, 3.6e2, 400]", "plan.toml, line 3, column 13: entry 2 of rolls reads 3.6e2 (360)"),
            ("[0, -1, 400]", "plan.toml, line 3, column 13: entry 2 of rolls reads -1"),
            ("[-5e-324]", "plan.toml, line 3, column 10: entry 1 of rolls reads -5e-324"),
            ("[nan]", "plan.toml, line 3, column 10: entry 1 of rolls reads nan"),
            ("[0, -nan, 90]", "plan.toml, line 3, column 13: entry 2 of rolls reads -nan"),
            ("[0, 90, nan]", "plan.toml, line 3, column 17: entry 3 of rolls reads nan"),
            ("[0, inf]", "plan.toml, line 3, column 13: entry 2 of rolls reads inf"),
            ("[-inf]", "plan.toml, line 3, column 10: entry 1 of rolls reads -inf"),
            ("[0, 0.0]", "plan.toml, line 3, column 13: entry 2 of rolls reads 0.0, and entry 1 before it 0"),
            ("[-0.0, 0]", "plan.toml, line 3, column 16: entry 2 of rolls reads 0, and entry 1 before it -0.0"),
            ("[0, -0.0]", "plan.toml, line 3, column 13: entry 2 of rolls reads -0.0, and entry 1 before it 0"),
            ("[359.99999999999999999]", "plan.toml, line 3, column 10: entry 1 of rolls reads 359.99999999999999999 (360)"),
            (
                "[1, 1.00000000000000001]",
                "plan.toml, line 3, column 13: entry 2 of rolls reads 1.00000000000000001 (1), and entry 1 before it 1",
            ),
            (
                "[64.00000000000001, 64.00000000000002]",
                "plan.toml, line 3, column 29: entry 2 of rolls reads 64.00000000000002 (64.00000000000001), and entry 1 before it 64.00000000000001",
            ),
            ("[5e-324, 6E-324]", "plan.toml, line 3, column 18: entry 2 of rolls reads 6E-324 (5e-324), and entry 1 before it 5e-324"),
            ("[0, 90, 15.5, 15]", "plan.toml, line 3, column 17: entry 3 of rolls reads 15.5, and entry 2 before it 90"),
            (
                "[ # 1, 2 ]\r\n\t0 , 15.5# 400,\r\n  ,\n\n   90,15.5\n]",
                "plan.toml, line 7, column 7: entry 4 of rolls reads 15.5, and entry 3 before it 90",
            ),
        ] {
            assert_eq!(rolls_fault(rolls, "tolerance = 1", TARGETS), format!("refused with 19: {}{}", says, ENTRY), "{}", rolls);
        }
        let more = list(&vec![("1".to_owned(), ","); 3601]);
        let digits = format!("[361.{}]", "1".repeat(1_000_000));
        assert!(rolls_fault(&digits, "tolerance = 1", TARGETS).len() < 300);
        for (rolls, count) in [("[]", "0 numbers"), ("[ ]", "0 numbers"), ("[ # 1\n]", "0 numbers"), (&more, "3,601 numbers")] {
            let says = format!("refused with 18: plan.toml, line 3, column 9: rolls lists {}{}", count, LENGTH);
            assert_eq!(rolls_fault(rolls, "tolerance = 1", TARGETS), says);
        }
    }
    /// 18, then 19, in the place of 3: after 2, before 4, 5, 20, 6 and 17.
    #[test]
    fn a_table_is_asked_for_in_the_place_of_3() {
        let said = |rolls: &str, more: &str, targets: &str| -> String { rolls_fault(rolls, more, targets)[13..15].to_owned() };
        let many = "name,x,y,z\n".to_owned() + &"A,1,0,0\n".repeat(65_537);
        for (more, targets, then) in [
            ("tolerance = 1", "name,x,y,z\nA,1.5,0,0\n", "5:"),
            ("tolerance = 1\npanel = [0, inf, 0]", TARGETS, "6:"),
            ("tolerance = [1, 2]", TARGETS, "17"),
            ("tolerance = [1, 2]\npanel = [0, inf, 0]", "name,x,y,z\nA,1.5,0,0\n", "5:"),
            ("tolerance = [1, 2]\npanel = [0, inf, 0]", "name,x,y,z\nA,0.5,0,0\n", "20"),
        ] {
            assert_eq!(said("[]", more, targets), "18");
            assert_eq!(said("[0, 90, 90]", more, targets), "19");
            assert_eq!(said("[0, 90]", more, targets), then);
        }
        assert_eq!(said(&list(&vec![("400".to_owned(), ","); 3601]), "tolerance = 1", TARGETS), "18");
        for rolls in ["[]", "[400]"] {
            assert_eq!(said(rolls, "tolerance = 1", &many), "2:");
        }
    }
    const THREE: &str = "name,x,y,z\nA,1,0,0\nB,0,1,0\nC,0,0,1\n";
    const KEYS_BUT_TOLERANCE: &str = "targets = \"t.csv\"\nephemeris = \"e.csv\"\nrolls = 1\n";

    #[test]
    fn tolerances_are_a_number_a_list_or_a_column() {
        let read = |tolerance: &str, targets: &str| {
            let p = plan(format!("{}{}\n", KEYS_BUT_TOLERANCE, tolerance), targets, EPHEMERIS).unwrap();
            engine::check(&p).unwrap();
            (p.told, bits(&p.tolerances), p.targets.len())
        };
        let five = bits(&[5.0, 5.0, 5.0]);
        let different = bits(&[-1.0, f64::NAN, 0.25]);
        assert_eq!(read("tolerance = 5", THREE), (Told::Number, five.clone(), 9));
        assert_eq!(read("tolerance = [5, 5.0, 5e0]", THREE), (Told::List, five, 9));
        assert_eq!(read("tolerance = [\n -1, # a field\n nan,\n 0.25,\n]", THREE), (Told::List, different.clone(), 9));
        for targets in [
            "name,x,y,z,tolerance\nA,1,0,0,-1\nB,0,1,0,nan\nC,0,0,1,0.25\n",
            "Tolerance , z,mag,name,y,x\n-1.0,0,,A,0,1\n NaN ,0,,B,1,0\n\"2.5e-1\",1,,C,0,0\n",
        ] {
            assert_eq!(read("", targets), (Told::Column(4), different.clone(), 9), "{}", targets);
        }
        for targets in
            ["name,ra,dec,tolerance\nA,0,0,-1\nB,90,0,nan\nC,0,90,0.25\n", "dec,tolerance,ra,name\n0,-1,0,A\n0,nan,90,B\n90,0.25,0,C\n"]
        {
            assert_eq!(read("", targets), (Told::Column(3), different.clone(), 9), "{}", targets);
        }
        let infinite = bits(&[f64::INFINITY, f64::NEG_INFINITY, -0.0]);
        assert_eq!(read("tolerance = [inf, -inf, -0.0]", THREE), (Told::List, infinite.clone(), 9));
        let column = THREE.replace("z\n", "z,tolerance\n").replace("0,0\n", "0,0,inf\n").replace("1,0\n", "1,0,-inf\n");
        assert_eq!(read("", &column.replace("0,1\n", "0,1,-0\n")), (Told::Column(4), infinite, 9));
        // Without targets there is no tolerance to give, and each way is accepted.
        for (tolerance, targets, told) in [
            ("tolerance = 5", "name,x,y,z\n", Told::Number),
            ("tolerance = []", "name,x,y,z\n", Told::List),
            ("", "name,x,y,z,tolerance\n", Told::Column(4)),
        ] {
            assert_eq!(read(tolerance, targets), (told, vec![], 0));
        }
    }
    #[test]
    fn each_of_65536_targets_may_have_its_tolerance() {
        let number = "-2.2250738585072014e-308";
        let list = vec![number; 65_536].join(",\n");
        let targets = format!("name,x,y,z\n{}", "A,1,0,0\n".repeat(65_536));
        let p = plan(format!("{}tolerance = [{}]\n", KEYS_BUT_TOLERANCE, list), targets, EPHEMERIS).unwrap();
        engine::check(&p).unwrap();
        assert_eq!(p.tolerances, [-2.2250738585072014e-308].repeat(65_536));
    }
    /// Status and message of a plan with this line for the tolerance and these targets.
    fn tolerance_fault(line: &str, targets: &str) -> (i32, String) {
        fault_of(format!("{}{}\n", KEYS_BUT_TOLERANCE, line), targets)
    }
    /// Status and message of a plan that cannot be read or is refused.
    fn fault_of(toml: String, targets: &str) -> (i32, String) {
        let fault = match plan(toml, targets, EPHEMERIS) {
            Ok(p) => explain::plan(&p, engine::check(&p).unwrap_err()),
            Err(fault) => fault,
        };
        // The folder's name stands before that of each file.
        let mut text = fault.to_string();
        for file in ["plan.toml", "t.csv"] {
            let words: Vec<_> = text.split(' ').map(|word| word.find(file).map_or(word, |at| &word[at..])).collect();
            text = words.join(" ");
        }
        (fault.status(), text)
    }
    #[test]
    fn a_list_of_another_length_is_refused_with_17_at_the_key() {
        const ALLOWED: &str = "allowed: one number of degrees for all targets, or a list with one for each";
        for (list, targets, counts) in [
            ("[]", THREE, "0 numbers, and t.csv has 3 targets"),
            ("[5]", THREE, "1 number, and t.csv has 3 targets"),
            ("[5, 5]", THREE, "2 numbers, and t.csv has 3 targets"),
            ("[5, 5, 5, 5]", THREE, "4 numbers, and t.csv has 3 targets"),
            ("[1, 2]", TARGETS, "2 numbers, and t.csv has 1 target"),
            ("[1]", "name,ra,dec\n", "1 number, and t.csv has 0 targets"),
        ] {
            let says = format!("refused with 17: plan.toml, line 4, column 13: tolerance lists {}; {}", counts, ALLOWED);
            assert_eq!(tolerance_fault(&format!("tolerance = {}", list), targets), (1, says));
        }
        // What the library asks before it.
        let first = |toml: &str, targets: &str| tolerance_fault(toml, targets).1;
        assert!(first("tolerance = [1]", "name,x,y,z\nA,1.5,0,0\nB,0,1,0\n").starts_with("refused with 5: t.csv, line 2, column 3: "));
        assert!(first("tolerance = [1, 2]\npanel = [0, inf, 0]", TARGETS).starts_with("refused with 6: plan.toml, line 5, column 9: "));
    }
    #[test]
    fn a_tolerance_given_twice_or_not_at_all_is_refused() {
        const COLUMN: &str = "name,x,tolerance,y,z\nA,1,5,0,0\n";
        for (line, targets, says) in [
            (
                "tolerance = 5",
                COLUMN,
                "plan.toml, line 4, column 13: tolerance reads 5, and t.csv, line 1, column 8 names a column `tolerance` too; \
                 allowed: one of the two: remove this key, or remove or rename that column",
            ),
            (
                "tolerance = [5]",
                "# of\nname,ra,dec,TOLERANCE\nA,1,0,\n",
                "plan.toml, line 4, column 13: tolerance reads [5], and t.csv, line 2, column 13 names a column `tolerance` too; \
                 allowed: one of the two: remove this key, or remove or rename that column",
            ),
            (
                "",
                TARGETS,
                "plan.toml, line 1, column 1: `tolerance` is missing; allowed: one number of degrees for all targets, or a list with one \
                 for each, or a column `tolerance` in t.csv",
            ),
            (
                "",
                "name,x,y,z,tolerance_deg\nA,1,0,0,5\n",
                "plan.toml, line 1, column 1: `tolerance` is missing; allowed: one number of degrees for all targets, or a list with one \
                 for each, or a column `tolerance` in t.csv (its column `tolerance_deg` is not used)",
            ),
            (
                "",
                "ra_deg,name,x,Tolerances,y,z,tol\n1,A,1,5,0,0,5\n",
                "plan.toml, line 1, column 1: `tolerance` is missing; allowed: one number of degrees for all targets, or a list with one \
                 for each, or a column `tolerance` in t.csv (its column `Tolerances` is not used)",
            ),
            (
                "",
                "name,ra,dec,Tol [deg]\nA,1,0,5\n",
                "plan.toml, line 1, column 1: `tolerance` is missing; allowed: one number of degrees for all targets, or a list with one \
                 for each, or a column `tolerance` in t.csv (its column `Tol [deg]` is not used)",
            ),
            (
                "",
                "name,x,y,z,tolerance\nA,1,0,0,5\nB,1,0,0,\n",
                "t.csv, line 3, column 9: tolerance reads ``; allowed: degrees of roll as one number, such as 5 or 0.25",
            ),
            (
                "",
                "tolerance,name,ra,dec\nwide,A,1,0\n",
                "t.csv, line 2, column 1: tolerance reads `wide`; allowed: degrees of roll as one number, such as 5 or 0.25",
            ),
            (
                "tolerance = [5, \"6\", 7]",
                THREE,
                "plan.toml, line 4, column 13: tolerance reads [5, \"6\", 7], and its entry 2 is not a number; allowed: one number of degrees for \
                 all targets, or a list with one for each",
            ),
            (
                "tolerance = [[5], [6], [7]]",
                THREE,
                "plan.toml, line 4, column 13: tolerance reads [[5], [6], [7]], and its entry 1 is not a number; allowed: one number of degrees \
                 for all targets, or a list with one for each",
            ),
            (
                "tolerance = true",
                THREE,
                "plan.toml, line 4, column 13: tolerance reads true; allowed: one number of degrees for all targets, or a list with one for each",
            ),
        ] {
            assert_eq!(tolerance_fault(line, targets), (3, says.to_owned()));
        }
    }
    #[test]
    fn wrong_numbers_and_times_are_refused_with_their_place() {
        let toml = "targets = \"t.csv\"\nephemeris = \"e.csv\"\nrolls = 1\ntolerance = 1\n";
        let says = |targets, ephemeris| plan(toml, targets, ephemeris).unwrap_err().to_string();
        assert!(says("name,x,y,z\nA,1,0,0\nB,1,zero,0\n", EPHEMERIS)
            .ends_with("t.csv, line 3, column 5: y reads `zero`; allowed: a number such as -0.5 or 1.5e8"));
        let late = EPHEMERIS.replace("00:01:00Z", "00:00:00.000Z");
        assert!(says(TARGETS, &late).contains("e.csv, line 3, column 1: time reads `2026-03-20T00:00:00.000Z`, which is not after"));
        let bad = EPHEMERIS.replace("00:01:00Z", "00:61:00Z");
        assert!(says(TARGETS, &bad).contains("e.csv, line 3, column 15: time reads `2026-03-20T00:61:00Z`; allowed: a minute"));
    }
    /// Each direction in the form of x, y, z, so that it reads as the same bits.
    fn as_vectors(names: &[&str], ra: &[f64], dec: &[f64]) -> String {
        let vectors = engine::unit_vectors(ra, dec).unwrap();
        let rows = names.iter().zip(vectors.chunks(3)).map(|(name, v)| format!("\"{}\",{},{},{}\n", name, v[0], v[1], v[2]));
        format!("name,x,y,z\n{}", rows.collect::<String>())
    }
    fn bits(list: &[f64]) -> Vec<u64> {
        list.iter().map(|x| x.to_bits()).collect()
    }
    #[test]
    fn positions_become_the_library_s_vectors() {
        let (names, ra, dec) = (["Crab, M 1", "S", "N"], [83.633, 360.0, 0.0], [22.0145, -90.0, 90.0]);
        let vectors = engine::unit_vectors(&ra, &dec).unwrap();
        assert!((vectors[0] - 0.1027).abs() < 1e-3 && (vectors[1] - 0.9214).abs() < 1e-3 && (vectors[2] - 0.3748).abs() < 1e-3);
        for targets in [
            "name,ra,dec\n\"Crab, M 1\",83.633,22.0145\nS,360,-90\nN,0,90\n",
            "\u{feff}# of ..\r\n mag ,DEC,\"Name\",Ra\r\n8.4, +22.0145 ,\"Crab, M 1\",\"83.633\"\r\n\r\n,-9e1,S,360.0\r\n#\r\n,90,N,0",
            &as_vectors(&names, &ra, &dec),
        ] {
            let p = plan(TOML, targets, EPHEMERIS).unwrap();
            assert_eq!((&p.names[..], bits(&p.targets)), (&names.map(str::to_owned)[..], bits(&vectors)), "{}", targets);
            assert_eq!(Digest::of(&p), Digest::of(&plan(TOML, as_vectors(&names, &ra, &dec), EPHEMERIS).unwrap()));
            engine::check(&p).unwrap();
        }
        assert_eq!(plan(TOML, "name,ra,dec\n", EPHEMERIS).unwrap().cells(), 0);
    }
    #[test]
    fn a_position_that_is_refused_is_named() {
        for (row, says) in [
            ("370,0", "column 6: ra of target `Vega` reads `370`; allowed: 0 to 360 degrees"),
            ("-10,0", "column 6: ra of target `Vega` reads `-10`; allowed: 0 to 360 degrees"),
            ("360.00000000000006,0", "column 6: ra of target `Vega` reads `360.00000000000006`; allowed: 0 to 360 degrees"),
            ("NaN,0", "column 6: ra of target `Vega` reads `NaN`; allowed: 0 to 360 degrees"),
            ("0,90.5", "column 8: dec of target `Vega` reads `90.5`; allowed: -90 to 90 degrees"),
            ("10,\"-90.01\"", "column 10: dec of target `Vega` reads `-90.01`; allowed: -90 to 90 degrees"),
            ("0,-inf", "column 8: dec of target `Vega` reads `-inf`; allowed: -90 to 90 degrees"),
            ("0,nan", "column 8: dec of target `Vega` reads `nan`; allowed: -90 to 90 degrees"),
            // Each is another's range.
            ("-45,0", "column 6: ra of target `Vega` reads `-45`; allowed: 0 to 360 degrees"),
            ("200,100", "column 10: dec of target `Vega` reads `100`; allowed: -90 to 90 degrees"),
            ("inf,nan", "column 6: ra of target `Vega` reads `inf`; allowed: 0 to 360 degrees"),
        ] {
            let fault = plan(TOML, format!("name,ra,dec\nA,0,-90\nB,360,90\nVega,{}\nC,-1,0\n", row), EPHEMERIS).unwrap_err();
            let text = fault.to_string();
            let file = text.find("t.csv").unwrap();
            assert_eq!((fault.status(), &text[file..]), (1, format!("t.csv, line 4, {}", says).as_str()));
            assert!(text.starts_with("refused with 16: "), "{}", text);
        }
    }
    #[test]
    fn unreadable_text_is_reported_before_refusals() {
        let says = |targets: &str, ephemeris: &str| plan(TOML, targets, ephemeris).unwrap_err().to_string();
        let outside = CATALOGUE.replace("10", "370");
        assert!(says(&outside, EPHEMERIS).contains("refused with 16: "));
        assert!(says(&outside, &EPHEMERIS.replace("0,1,0", "0,1,zero")).contains("e.csv, line 2, column 26: sun_z reads `zero`"));
        let text = says(&CATALOGUE.replace("10", "00:40:00"), EPHEMERIS);
        assert!(text.contains("t.csv, line 2, column 3: ra reads `00:40:00`; allowed: degrees as one number, such as 83.633"), "{}", text);
        let text = says(&CATALOGUE.replace("ra", "right"), EPHEMERIS);
        assert!(text.contains("t.csv, line 1, column 1: no column `ra` in `name,right,dec`; allowed: "), "{}", text);
    }
    #[test]
    fn two_targets_of_one_name_are_warned_of() {
        let toml = "targets = \"t.csv\"\nephemeris = \"e.csv\"\nrolls = 1\ntolerance = 1\n";
        let warnings = |targets: &str| plan(toml, targets, EPHEMERIS).unwrap().warnings();
        assert!(warnings("name,x,y,z\nA,1,0,0\na,1,0,0\n").is_empty());
        let told = warnings("name,x,y,z\nA,1,0,0\n# A\nB,1,0,0\n A ,0,1,0\nA,1,0,0\n");
        assert_eq!(told.len(), 2, "{:?}", told);
        assert!(told[0].ends_with("t.csv, line 5, column 2: target `A` has the name of line 2; both are listed under it"), "{}", told[0]);
        assert!(told[1].contains("line 6, column 1: target `A` has the name of line 2"), "{}", told[1]);
        let told = warnings(&format!("name,x,y,z\n{}", "A,1,0,0\n".repeat(1000)));
        assert_eq!(told.len(), 6);
        assert!(told[5].ends_with("t.csv: the same holds of 994 more targets"), "{}", told[5]);
    }
    #[test]
    fn a_name_of_several_lines_is_warned_of() {
        for (end, shown) in [("\n", "\\n"), ("\r\n", "\\r\\n"), ("\r", "\\r")] {
            let warnings = plan(TOML, format!("name,x,y,z\n\"A,1,0,0{}B\",1,0,0\n", end), EPHEMERIS).unwrap().warnings();
            let says =
                format!("t.csv, line 2, column 1: field `A,1,0,0{}B` has 2 lines; is a quote missing at the end of the first?", shown);
            assert!(warnings.len() == 1 && warnings[0].ends_with(&says), "{:?}", warnings);
        }
    }
    #[test]
    fn only_plain_files_of_a_plan_s_size_are_read() {
        let says = |file: &str| {
            let toml = format!("targets = \"{}\"\nephemeris = \"e.csv\"\nrolls = 1\ntolerance = 1\n", file);
            plan(&toml, TARGETS, EPHEMERIS).unwrap_err().to_string()
        };
        assert_eq!(says("/dev/zero"), "/dev/zero: it is a device; allowed: a plain file");
        assert_eq!(says("/dev"), "/dev: it is a folder; allowed: a plain file");
        assert!(says("\\u0000.csv").contains("targets reads \"\\u{0}.csv\", and there is no such file"));
        let folder = tempfile::tempdir().unwrap();
        let huge = folder.path().join("huge.csv");
        fs::File::create(&huge).unwrap().set_len(1 << 40).unwrap();
        let text = says(huge.to_str().unwrap());
        assert!(text.ends_with("huge.csv: more than 67,108,864 bytes; allowed: at most that many"), "{}", text);
        let text = Plan::read(&huge).unwrap_err().to_string();
        assert!(text.ends_with("huge.csv: more than 2,097,152 bytes; allowed: at most that many"), "{}", text);
    }
    #[test]
    fn a_missing_file_is_named() {
        let e = plan("targets = \"T.csv\"\nephemeris = \"e.csv\"\nrolls = 1\ntolerance = 1\n", TARGETS, EPHEMERIS).unwrap_err();
        assert!(e.to_string().contains("plan.toml, line 1, column 11: targets reads \"T.csv\", and there is no such file; allowed: "));
        let e = Plan::read(Path::new("/nowhere/plan.toml")).unwrap_err();
        assert_eq!(e.to_string(), "/nowhere/plan.toml: there is no such file or folder");
    }

    #[test]
    fn a_refusal_shows_a_cell_that_a_terminal_can_show() {
        let toml = "targets = \"t.csv\"\nephemeris = \"e.csv\"\nrolls = 1\ntolerance = 1\n";
        let p = plan(toml, "name,x,y,z\n\u{1b}[2J,1.5,0,0\n", EPHEMERIS).unwrap();
        let text = explain::plan(&p, engine::check(&p).unwrap_err()).to_string();
        assert!(text.contains("t.csv, line 2, column 6: x of target `\\u{1b}[2J` reads `1.5`; allowed: -1 to 1"), "{}", text);
        let rows = "A,1,0,0\n".repeat(70_000);
        let p = plan(toml, "name,x,y,z\n".to_owned() + &rows, EPHEMERIS).unwrap();
        let text = explain::plan(&p, engine::check(&p).unwrap_err()).to_string();
        assert!(
            text.starts_with("refused with 2: ") && text.contains("has 70,000 targets and") && text.contains("140,000 cells"),
            "{}",
            text
        );
    }

    /// An angle within a range, at its ends, just beyond them, or any number.
    fn angle(least: f64, most: f64) -> impl Strategy<Value = f64> {
        let beyond = |x: f64| if x == 0.0 { -5e-324 } else { f64::from_bits(x.to_bits() + 1) };
        prop_oneof![
            12 => least..=most,
            2 => prop::sample::select(vec![least, most, -0.0]),
            1 => prop::sample::select(vec![beyond(least), beyond(most), f64::NAN, f64::INFINITY]),
            1 => any::<f64>(),
        ]
    }
    /// Changes of a text: where, how many bytes are cut there, and what is put in their place.
    fn changes() -> impl Strategy<Value = Vec<(usize, usize, Vec<u8>)>> {
        let piece = prop_oneof![
            4 => prop::sample::select(PIECES).prop_map(|p| p.as_bytes().to_vec()),
            1 => prop::collection::vec(any::<u8>(), 0..3),
            1 => "\\PC{1,2}".prop_map(String::into_bytes),
        ];
        prop::collection::vec((any::<usize>(), prop_oneof![3 => 0usize..3, 1 => 0usize..200], piece), 0..4)
    }
    fn changed(text: &str, changes: &[(usize, usize, Vec<u8>)]) -> Vec<u8> {
        let mut bytes = text.as_bytes().to_vec();
        for (at, cut, put) in changes {
            let at = at % (bytes.len() + 1);
            let end = bytes.len().min(at + cut);
            bytes.splice(at..end, put.iter().copied());
        }
        bytes
    }
    proptest! {
        #[test]
        fn a_changed_plan_is_read_or_refused(targets in prop::sample::select(&[TARGETS, CATALOGUE, OUTSIDE, COLUMN][..]),
                tolerance in prop::sample::select(&["tolerance = 10\n", "tolerance = [10, 20.5]\n", ""][..]),
                rolls in prop::sample::select(&["1", "[0, 15.5, 90]", "[\n0, # the first\n3.6e2]"][..]), t in changes(), e in changes(), p in changes()) {
            let toml = format!("targets = \"t.csv\"\nephemeris = \"e.csv\"\nrolls = {}\n{}panel = [[0, 1, 0.5]]\n# ..\n", rolls, tolerance);
            let fault = match plan(changed(&toml, &p), changed(targets, &t), changed(EPHEMERIS, &e)) {
                Ok(plan) => {
                    Digest::of(&plan);
                    plan.warnings();
                    let refused = engine::check(&plan).map_err(|refusal| explain::plan(&plan, refusal)).err();
                    if refused.is_none() {
                        remarks(&plan);
                        sun(&plan);
                        prop_assert_eq!(plan.tolerances.len(), plan.names.len());
                    }
                    refused
                }
                Err(e) => Some(e),
            };
            if let Some(fault) = fault {
                prop_assert!(!fault.to_string().contains(|c: char| c.is_control()), "{}", fault);
            }
        }
        /// Positions become the vectors that the library makes of them, or the first that it refuses is named.
        #[test]
        fn any_positions_are_vectors_or_refused(list in prop::collection::vec((angle(0.0, 360.0), angle(-90.0, 90.0)), 0..6)) {
            let rows = list.iter().enumerate().map(|(i, (ra, dec))| format!("T{},{},{}\n", i, dec, ra));
            let read = plan(TOML, format!("name,dec,ra\n{}", rows.collect::<String>()), EPHEMERIS);
            let wrong = list.iter().enumerate().find_map(|(i, &(ra, dec))| {
                let (ra_at, dec_at) = (5 + dec.to_string().len(), 4);
                if !(ra >= 0.0 && ra <= 360.0) {
                    Some((i, ra_at, "ra", ra, "0 to 360"))
                } else if !(dec >= -90.0 && dec <= 90.0) {
                    Some((i, dec_at, "dec", dec, "-90 to 90"))
                } else {
                    None
                }
            });
            match (read, wrong) {
                (Ok(plan), None) => {
                    let (ra, dec): (Vec<_>, Vec<_>) = list.into_iter().unzip();
                    prop_assert_eq!(bits(&plan.targets), bits(&engine::unit_vectors(&ra, &dec).unwrap()));
                    prop_assert!(engine::check(&plan).is_ok());
                }
                (Err(fault), Some((i, at, name, value, allowed))) => {
                    let (line, value) = (i + 2, excerpt(&value.to_string()));
                    let says = format!("t.csv, line {line}, column {at}: {name} of target `T{i}` reads `{value}`; allowed: {allowed} degrees");
                    prop_assert!(fault.to_string().starts_with("refused with 16: ") && fault.to_string().ends_with(&says), "{} {}", fault, says);
                }
                (read, wrong) => prop_assert!(false, "{:?} {:?}", read.map(|p| p.targets), wrong),
            }
        }
        /// A table is accepted, or the first roll that is refused is named with its place.
        #[test]
        fn any_table_is_accepted_or_named(
            drawn in prop::collection::vec((angle(0.0, 360.0), prop::sample::select(&[",", ", ", " ,", ",\n", " # 3, ]\n,", ",#\r\n\t"][..])), 0..8),
            is_sorted in any::<bool>(),
        ) {
            let mut rolls: Vec<f64> = drawn.iter().map(|(roll, _)| *roll).collect();
            if is_sorted {
                rolls.sort_by(f64::total_cmp);
            }
            let written: Vec<_> = rolls.iter().zip(&drawn).map(|(roll, (_, after))| (format!("{:?}", roll).replace("NaN", "nan"), *after)).collect();
            let toml = format!("targets = \"t.csv\"\nephemeris = \"e.csv\"\ntolerance = 1\nrolls = {}\n", list(&written));
            let read = plan(&toml, TARGETS, EPHEMERIS).unwrap();
            let same = |list: &[f64]| list.iter().map(crate::digest::bits).collect::<Vec<_>>();
            prop_assert_eq!(read.rolls.table().map(same), Some(same(&rolls)));
            let wrong = (0..rolls.len()).find(|&i| !(0.0..360.0).contains(&rolls[i]) || i > 0 && rolls[..i].iter().any(|before| *before >= rolls[i]));
            let said = engine::check(&read).map_err(|r| explain::plan(&read, r).to_string());
            match (wrong, said) {
                (None, Ok(())) => prop_assert!(!rolls.is_empty()),
                (None, Err(said)) => prop_assert!(rolls.is_empty() && said.starts_with("refused with 18: "), "{}", said),
                (Some(i), Err(said)) => {
                    let before = toml.find("= [").unwrap() + 3 + written[..i].iter().map(|(number, after)| number.len() + after.len()).sum::<usize>();
                    let place = format!("{}: entry {} of rolls reads {}", read.source.at(before), i + 1, written[i].0);
                    prop_assert!(said.starts_with(&format!("refused with 19: {}", place)), "{} {}", said, place);
                }
                (Some(_), Ok(())) => prop_assert!(false, "{:?}", rolls),
            }
        }
    }
}
