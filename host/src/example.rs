//! `wilfnusk example`: a plan to start from, ninety days of a telescope in low orbit, 90 minutes apart; or one of a given size whose sweep
//! tries the most rolls that a plan of that size can, or the fewest. The same numbers on every machine.
use crate::{
    cost::whole_number,
    engine::{self, Extreme, Size},
    explain,
    fault::Fault,
    files, instant,
    plan::{CATALOGUE_COLUMNS, EPHEMERIS_COLUMNS, TOLERANCE_COLUMN, VECTOR_COLUMNS},
    say,
    source::shown,
    text::{counted, number, quoted},
};
use clap::{Arg, ArgAction, Args};
use std::{
    f64::consts::PI,
    fmt::Write,
    fs,
    path::{Path, PathBuf},
};

#[derive(Args)]
#[command(mut_arg("costliest", takes_a_size), mut_arg("cheapest", takes_a_size))]
pub struct Example {
    /// Folder for plan.toml, targets.csv and ephemeris.csv
    folder: PathBuf,
    /// Write a plan of T targets, N times and R rolls whose sweep tries the most rolls; its times are a minute apart
    #[arg(long)]
    costliest: Option<Vec<u64>>,
    /// Write one whose sweep tries the fewest
    #[arg(long, conflicts_with = "costliest")]
    cheapest: Option<Vec<u64>>,
}

/// An option with three numbers, at most once.
fn takes_a_size(option: Arg) -> Arg {
    let option = option.value_names(["T", "N", "R"]).num_args(3).action(ArgAction::Set);
    option.value_parser(whole_number).allow_negative_numbers(true)
}

/// The plan's three files.
struct Texts {
    targets: String,
    ephemeris: String,
    plan: String,
}

const PLAN: &str = "\
# Ninety days of a telescope in low orbit. Sweep it with: wilfnusk sweep plan.toml

# One equatorial frame for all: X toward the equinox, Z toward celestial north.
targets = \"targets.csv\"        # name, ra, dec: right ascension and declination in degrees
ephemeris = \"ephemeris.csv\"    # time, Sun x, y, z and observer x, y, z (here km from the Earth's centre)

# The bus settles at 24 rolls, 15 degrees apart. A target may be looked at while one of
# them is within 5 degrees of the roll that faces the panel to the Sun.
rolls = 24                     # tried at every cell: 0, 15, 30, .. 345 degrees; or a list, [0, 15.5, 47, ..]
tolerance = 5                  # degrees, for all targets; or a list with one number per target, [5, 3, ..];
                               # or leave this key out and give targets.csv a column `tolerance`
panel = [0, 1, 0]              # panel normal in the body's axes: x boresight; at roll 0 y east, z north

# With a configured roll every sample is that roll, and `windows --evaluate`
# lists how many degrees it lies beyond the tolerance.
# configured_roll = 30.0
";

/// Name, right ascension and declination in degrees.
const TARGETS: [(&str, f64, f64); 16] = [
    ("Andromeda Galaxy", 10.685, 41.269),
    ("Tycho's remnant", 6.340, 64.137),
    ("Chandra Deep Field S", 53.122, -27.805),
    ("Crab Nebula", 83.633, 22.014),
    ("Orion Nebula", 83.822, -5.391),
    ("SN 1987A", 83.867, -69.270),
    ("Vela X-1", 135.529, -40.555),
    ("COSMOS field", 150.119, 2.206),
    ("3C 273", 187.278, 2.052),
    ("M 87", 187.706, 12.391),
    ("Hubble Deep Field N", 189.206, 62.216),
    ("Centaurus A", 201.365, -43.019),
    ("Galactic Centre", 266.417, -29.008),
    ("Cat's Eye Nebula", 269.639, 66.633),
    ("Cygnus X-1", 299.590, 35.202),
    ("Fomalhaut", 344.413, -29.622),
];

const START: &str = "2026-03-20T00:00:00Z";
const TIMES: usize = 1440;
const STEP_MINUTES: usize = 90;
const DAY_MINUTES: f64 = 1440.0;
const ASTRONOMICAL_UNIT_KM: f64 = 149_597_870.7;
const OBLIQUITY_DEG: f64 = 23.439;
const ORBIT_KM: f64 = 6928.0;
const ORBIT_MINUTES: f64 = 95.65;
const INCLINATION_DEG: f64 = 53.0;

impl Example {
    pub fn run(&self) -> Result<(), Fault> {
        let texts = match (self.costliest.as_deref(), self.cheapest.as_deref()) {
            (Some(words), _) => of_size(Extreme::Costliest, words)?,
            (None, Some(words)) => of_size(Extreme::Cheapest, words)?,
            (None, None) => season(),
        };
        write(&self.folder, &texts)?;
        let plan = self.folder.join("plan.toml");
        say(format_args!("wrote {}, targets.csv and ephemeris.csv\nnext: wilfnusk sweep {}", shown(&plan), quoted(&plan)))
    }
}

/// Writes the three files into a folder, which is made if it is not there. No file is overwritten.
fn write(folder: &Path, texts: &Texts) -> Result<(), Fault> {
    fs::create_dir_all(folder).map_err(|e| files::fault(folder, &e))?;
    let contents = [("targets.csv", &texts.targets), ("ephemeris.csv", &texts.ephemeris), ("plan.toml", &texts.plan)];
    for (name, _) in &contents {
        let path = folder.join(name);
        if path.exists() {
            return Err(Fault::Files(format!("{}: the file exists, and nothing was written; name another folder", shown(&path))));
        }
    }
    for (name, text) in &contents {
        files::write_whole(&folder.join(name), text.as_bytes())?;
    }
    Ok(())
}

fn season() -> Texts {
    Texts { targets: targets(), ephemeris: ephemeris(), plan: PLAN.to_owned() }
}

/// A plan of a size (targets, times and rolls) that costs the most or the least, as the library writes it.
fn of_size(which: Extreme, size: &[u64]) -> Result<Texts, Fault> {
    let option = match which {
        Extreme::Costliest => "--costliest",
        Extreme::Cheapest => "--cheapest",
    };
    let (size, words) = match *size {
        [targets, times, rolls] => (Size { targets, times, rolls }, format!("{} {} {} {}", option, targets, times, rolls)),
        // The command line takes exactly three.
        _ => return Err(Fault::Usage(format!("{}: allowed: three numbers, of targets, of times and of rolls", option))),
    };
    let numbers = engine::extreme(which, size).map_err(|r| explain::size(&words, size, r))?;
    let row = |numbers: &[f64]| numbers.iter().copied().map(number).collect::<Vec<_>>();

    // A column has each tolerance as the library gave it, and none without targets.
    let mut targets = [VECTOR_COLUMNS, &[TOLERANCE_COLUMN]].concat().join(",") + "\n";
    for (i, (target, tolerance)) in numbers.targets.chunks(3).zip(&numbers.tolerances).enumerate() {
        let _ = writeln!(targets, "Target {},{},{}", i + 1, row(target).join(","), number(*tolerance));
    }
    let mut ephemeris = EPHEMERIS_COLUMNS.join(",") + "\n";
    for (minute, (sun, observer)) in numbers.suns.chunks(3).zip(numbers.observers.chunks(3)).enumerate() {
        let _ = writeln!(ephemeris, "{},{},{}", time(minute), row(sun).join(","), row(observer).join(","));
    }
    let (more, why) = match which {
        Extreme::Costliest => ("more", "every one at each cell, as none is within the tolerance"),
        Extreme::Cheapest => ("less", "one at each cell, as any is within the tolerance"),
    };
    let plan = format!(
        "\
# {}, {}, {}. No plan of this size costs {more}:
# the sweep tries {}, {why}.
# Sweep it with: wilfnusk sweep plan.toml

targets = \"targets.csv\"        # name, direction x, y, z, and tolerance in degrees
ephemeris = \"ephemeris.csv\"    # time, Sun x, y, z and observer x, y, z
rolls = {}
panel = [{}]
",
        counted(size.targets, "target"),
        counted(size.times, "time"),
        counted(size.rolls, "roll"),
        counted(numbers.probes, "roll"),
        size.rolls,
        row(&numbers.panel).join(", "),
    );
    Ok(Texts { targets, ephemeris, plan })
}

/// A minute after the first time, as the ephemeris has it.
fn time(minute: usize) -> String {
    let start = instant::parse(START).expect("a time");
    instant::format(start + 60_000_000_000 * minute as i64, 0)
}

fn targets() -> String {
    let mut text = CATALOGUE_COLUMNS.join(",") + "\n";
    for (name, ra, dec) in TARGETS {
        let _ = writeln!(text, "{},{},{}", name, ra, dec);
    }
    text
}

/// Sine and cosine by the library's rule, which is the same on every machine and made for angles within a turn.
fn sin_cos(degrees: f64) -> (f64, f64) {
    let radians = degrees.rem_euclid(360.0) * (PI / 180.0);
    (engine::sin(radians), engine::cos(radians))
}

/// The Sun moves a degree a day along the ecliptic, the observer along a circle about the Earth.
fn ephemeris() -> String {
    let ((so, co), (si, ci)) = (sin_cos(OBLIQUITY_DEG), sin_cos(INCLINATION_DEG));
    let mut text = EPHEMERIS_COLUMNS.join(",") + "\n";
    for minute in (0..TIMES).map(|j| j * STEP_MINUTES) {
        let (sl, cl) = sin_cos(359.4 + minute as f64 / DAY_MINUTES * 360.0 / 365.25);
        let (su, cu) = sin_cos(minute as f64 / ORBIT_MINUTES * 360.0);
        let _ = writeln!(
            text,
            "{},{:.3},{:.3},{:.3},{:.6},{:.6},{:.6}",
            time(minute),
            ASTRONOMICAL_UNIT_KM * cl,
            ASTRONOMICAL_UNIT_KM * sl * co,
            ASTRONOMICAL_UNIT_KM * sl * so,
            ORBIT_KM * cu,
            ORBIT_KM * su * ci,
            ORBIT_KM * su * si,
        );
    }
    text
}

#[cfg(test)]
mod tests {
    use super::*;
    use crate::{engine, plan::Plan};
    use sha2::{Digest, Sha256};

    fn read() -> Plan {
        let folder = tempfile::tempdir().unwrap();
        write(folder.path(), &season()).unwrap();
        assert!(write(folder.path(), &season()).is_err());
        Plan::read(&folder.path().join("plan.toml")).unwrap()
    }

    /// The digest of what another program, in another language, computes by the library's rule. With the C library's sine three lines differ.
    #[test]
    fn is_the_same_on_every_machine() {
        let digest: String = Sha256::digest(ephemeris()).iter().map(|b| format!("{:02x}", b)).collect();
        assert_eq!(digest, "7a1e006277dec6bd901238cec9b93c7b8b689f69b5d74ff71e9fb4e9f1e3c806");
    }
    #[test]
    fn is_by_right_ascension_and_declination() {
        assert!(targets().starts_with("name,ra,dec\nAndromeda Galaxy,10.685,41.269\nTycho's remnant,6.34,64.137\n"));
        assert!(PLAN.contains("# name, ra, dec: right ascension and declination in degrees"));
        let plan = read();
        let (ra, dec): (Vec<_>, Vec<_>) = TARGETS.iter().map(|&(_, ra, dec)| (ra, dec)).unzip();
        assert_eq!(plan.targets, engine::unit_vectors(&ra, &dec).unwrap());
    }
    /// As its comment says.
    #[test]
    fn its_tolerance_may_be_given_per_target() {
        let key = "tolerance = 5 ";
        assert!(PLAN.contains("a list with one number per target, [5, 3, ..]") && PLAN.contains("give targets.csv a column `tolerance`"));
        let folder = tempfile::tempdir().unwrap();
        write(folder.path(), &season()).unwrap();
        let read = |toml: String, targets: String| {
            fs::write(folder.path().join("plan.toml"), toml).unwrap();
            fs::write(folder.path().join("targets.csv"), targets).unwrap();
            let plan = Plan::read(&folder.path().join("plan.toml")).unwrap();
            engine::check(&plan).unwrap();
            plan.tolerances
        };
        let own: Vec<f64> = (0..TARGETS.len()).map(|i| 5.0 - 2.0 * (i % 2) as f64).collect();
        assert_eq!(read(PLAN.to_owned(), targets()), vec![5.0; TARGETS.len()]);
        assert_eq!(read(PLAN.replace(key, &format!("tolerance = {:?} ", own)), targets()), own);
        let lines = targets();
        let rows = lines.lines().skip(1).zip(&own).map(|(line, t)| format!("{},{}\n", line, t));
        assert_eq!(read(PLAN.replace(key, "# "), format!("name,ra,dec,tolerance\n{}", rows.collect::<String>())), own);
    }
    /// As its comment says.
    #[test]
    fn its_rolls_may_be_a_list() {
        assert!(PLAN.contains("or a list, [0, 15.5, 47, ..]"));
        let folder = tempfile::tempdir().unwrap();
        write(folder.path(), &season()).unwrap();
        fs::write(folder.path().join("plan.toml"), PLAN.replace("rolls = 24 ", "rolls = [0, 15.5, 47] ")).unwrap();
        let plan = Plan::read(&folder.path().join("plan.toml")).unwrap();
        engine::check(&plan).unwrap();
        assert_eq!(plan.rolls.table(), Some(&[0.0, 15.5, 47.0][..]));
    }
    #[test]
    fn is_a_plan_without_a_warning() {
        let plan = read();
        assert_eq!((plan.names.len(), plan.times.len(), plan.chunks()), (16, 1440, 360));
        assert_eq!((plan.warnings(), crate::remarks::remarks(&plan)), (vec![], vec![]));
    }
    /// A cell is clear while the optimal roll, which turns slowly, is within 5 degrees of a multiple of 15: two thirds of the cells, in windows
    /// of many samples. Near the ecliptic's pole the roll turns a degree a day: ten days clear, five violated.
    #[test]
    fn its_windows_follow_the_sun() {
        let plan = read();
        let mut journal = vec![0; 107 + 33 * plan.chunks()];
        let mut used = engine::begin(&plan, &mut journal).unwrap();
        while used < journal.len() {
            let next = (used - 107) as u64 / 33;
            used = engine::work(&plan, next..plan.chunks() as u64, &mut journal, used).unwrap();
        }
        let (mask, _) = engine::collect(&plan, &journal).unwrap();
        for (cell, &mark) in mask.iter().enumerate() {
            let (i, j) = (cell / TIMES, cell % TIMES);
            let at = |list: &[f64], k: usize| [list[3 * k], list[3 * k + 1], list[3 * k + 2]];
            let roll = match wilfnusk::cell(at(&plan.targets, i), at(&plan.suns, j), at(&plan.observers, j), plan.panel) {
                Ok(wilfnusk::OptimalRoll::At(roll)) => roll,
                other => panic!("{:?}", other),
            };
            assert_eq!(mark == 1, (roll / 15.0 - (roll / 15.0).round()).abs() * 15.0 > 5.0, "cell {}, roll {}", cell, roll);
        }
        let clear = mask.iter().filter(|&&mark| mark == 0).count() as f64 / mask.len() as f64;
        assert!((0.6..0.75).contains(&clear), "{}", clear);

        let mut violated = 0;
        for (i, name) in plan.names.iter().enumerate() {
            let row = &mask[i * TIMES..(i + 1) * TIMES];
            let windows = engine::violations(row, &plan.times, &[0.0; TIMES]).unwrap();
            violated += windows.len();
            if ["Cat's Eye Nebula", "SN 1987A"].contains(&name.as_str()) {
                for w in windows.iter().filter(|w| w.first > 0 && w.is_last == 0) {
                    let days = (w.last + 1 - w.first) as f64 * STEP_MINUTES as f64 / DAY_MINUTES;
                    assert!((4.5..5.5).contains(&days), "{}: {} days", name, days);
                }
            }
        }
        assert!(violated < 160, "{} windows", violated);
    }
}
