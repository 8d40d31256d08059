//! Whole commands on targets by right ascension and declination: each does what it does on the same directions by x, y, z.
mod common;

use common::{ephemeris, Folder};
use std::collections::BTreeSet;

/// Name, right ascension and declination in degrees, the ends of both ranges among them.
const TARGETS: [(&str, f64, f64); 5] =
    [("Vega", 279.234735, 38.783689), ("Crab, M 1", 83.633, 22.0145), ("S", 360.0, -90.0), ("N", 0.0, 90.0), ("Sirius", 101.287, -16.716)];

fn positions() -> String {
    let rows = TARGETS.iter().map(|(name, ra, dec)| format!("\"{}\",{},{}\n", name, ra, dec));
    format!("name,ra,dec\n{}", rows.collect::<String>())
}

/// The same directions as the library makes them, each number so that it reads as itself.
fn vectors() -> String {
    let (ra, dec) = (TARGETS.map(|target| target.1), TARGETS.map(|target| target.2));
    let mut vectors = [0.0; 3 * TARGETS.len()];
    wilfnusk::radec_to_unit_vectors_batch(&ra, &dec, &mut vectors).unwrap();
    let rows = TARGETS.iter().zip(vectors.chunks(3)).map(|((name, ..), v)| format!("\"{}\",{},{},{}\n", name, v[0], v[1], v[2]));
    format!("name,x,y,z\n{}", rows.collect::<String>())
}

/// A plan of these targets at 100 times; of five targets, 8 chunks.
fn folder(targets: &str) -> Folder {
    let f = Folder::new(&[], "", "tolerance = 15\n");
    f.write("plan.toml", "targets = \"t.csv\"\nephemeris = \"e.csv\"\nrolls = 8\ntolerance = 15\n");
    f.write("t.csv", targets);
    f.write("e.csv", &ephemeris(100));
    f
}

const COMMANDS: [&str; 15] = [
    "check plan.toml",
    "status plan.toml",
    "sweep plan.toml --journal a.journal --part 1/2",
    "status plan.toml --journal a.journal --json",
    "sweep plan.toml --journal b.journal --part 2/2",
    "merge plan.toml b.journal a.journal -o all.journal --recompute",
    "sweep plan.toml --csv s.csv --json s.json --svg s.svg --summary s.sum",
    "check plan.toml --recompute",
    "status plan.toml",
    "windows plan.toml --journal all.journal --target V* --csv -",
    "mask plan.toml",
    "mask plan.toml --roll 30 --form csv",
    "regard plan.toml --time 2026-03-20T00:17:00Z",
    "regard plan.toml --sample 3 --roll 30",
    "rolls plan.toml --target *a*",
];

#[test]
fn every_command_does_the_same_by_either_form() {
    let (by_position, by_vector) = (folder(&positions()), folder(&vectors()));
    for words in COMMANDS {
        let ended = [&by_position, &by_vector].map(|f| f.run(&words.split(' ').collect::<Vec<_>>()));
        let unfinished = words.starts_with("status plan.toml") && ended[0].stdout.contains("not begun") || words.ends_with("--json");
        assert_eq!(ended[0].status, if unfinished { 4 } else { 0 }, "{}: {}", words, ended[0].stderr);
        let [a, b] = ended.map(|e| (e.status, e.stdout, e.stderr));
        assert_eq!(a, b, "{}", words);
    }
    let but_targets = |f: &Folder| f.all().into_iter().filter(|(name, _)| name != "t.csv").collect::<Vec<_>>();
    let names: Vec<_> = but_targets(&by_position).into_iter().map(|(name, _)| name).collect();
    for made in ["all.journal", "all.journal.plan", "plan.journal", "plan.journal.plan", "s.csv", "s.json", "s.svg", "s.sum"] {
        assert!(names.iter().any(|name| name == made), "{} is missing", made);
    }
    assert!(but_targets(&by_position) == but_targets(&by_vector), "a file differs");
    // The marks depend on the directions, so the comparison can fail.
    let mask = by_position.run(&["mask", "plan.toml"]).stdout;
    let rows: Vec<_> = mask.lines().map(|line| line.split(' ').next().unwrap()).collect();
    assert!(rows.len() == 5 && rows.iter().all(|row| row.contains('0') && row.contains('1')), "{}", mask);
    // For both poles the Sun is at rolls that the eight do not distinguish.
    assert_eq!(rows.iter().collect::<BTreeSet<_>>().len(), 4, "{}", mask);
}

/// A lone carriage return ends a line, in a comment too, whatever ends the others: no target and no time is lost.
#[test]
fn no_row_is_swallowed_after_a_carriage_return() {
    let whole = folder("name,ra,dec\nA,10,20\nB,100,-45\nC,250,80\n").swept();
    for targets in ["name,ra,dec\rA,10,20\r# note\rB,100,-45\rC,250,80\n", "name,ra,dec\nA,10,20\n# note\rB,100,-45\nC,250,80\n"] {
        let f = folder(targets);
        let ephemeris = f.read("e.csv");
        for (from, to) in [("", ""), ("\n2026-03-20T00:07", "\n# note\r2026-03-20T00:07"), ("\n", "\r"), ("\n", "\r# note\r")] {
            f.write("e.csv", &ephemeris.replace(from, to));
            assert!(f.run(&["check", "plan.toml"]).stdout.contains(": 3 targets, 100 times, 300 cells"), "{:?} {:?}", targets, to);
            f.run(&["sweep", "plan.toml", "-q"]).says(0, &["5 of 5 chunks have a line"]);
            assert_eq!(f.run(&["windows", "plan.toml"]).stdout, whole.run(&["windows", "plan.toml"]).stdout);
        }
    }
}

#[test]
fn a_sweep_continues_with_the_other_form() {
    let unbroken = folder(&positions()).swept();
    for (first, second) in [(positions(), vectors()), (vectors(), positions())] {
        let f = folder(&first);
        f.run(&["sweep", "plan.toml", "--part", "1/2"]).says(0, &["4 of 8 chunks have a line"]);
        f.write("t.csv", &second);
        f.run(&["check", "plan.toml", "--recompute"]).says(0, &[]);
        f.run(&["sweep", "plan.toml", "-q"]).says(0, &["8 of 8 chunks have a line"]);
        for file in ["plan.journal", "plan.journal.plan"] {
            assert_eq!(f.read(file), unbroken.read(file));
        }
    }
}

#[test]
fn another_position_is_another_plan() {
    let f = folder(&positions()).swept();
    let journal = f.read("plan.journal");
    for targets in [positions().replace("83.633", "83.63300000000001"), positions().replace("-16.716", "-16.715999999999998")] {
        f.write("t.csv", &targets);
        for words in ["check", "status", "sweep", "windows", "mask"] {
            f.run(&[words, "plan.toml"]).says(3, &["t.csv: its numbers are not those that plan.journal was begun with"]);
        }
    }
    assert_eq!(f.read("plan.journal"), journal);
}

#[test]
fn every_command_refuses_wrong_positions() {
    let message = |text: &str| format!("wilfnusk: {}\n", text);
    const FORMS: &str =
        "; allowed: a first line that names the columns name,ra,dec or name,x,y,z, with commas between them; a line that starts \
        with # is a comment";
    for (targets, status, says) in [
        (
            "name,ra,dec\nA,0,0\nVega,370,0\n",
            1,
            "refused with 16: t.csv, line 3, column 6: ra of target `Vega` reads `370`; allowed: 0 to 360 degrees".to_owned(),
        ),
        (
            "name,ra,dec\nA,-10,0\n",
            1,
            "refused with 16: t.csv, line 2, column 3: ra of target `A` reads `-10`; allowed: 0 to 360 degrees".to_owned(),
        ),
        (
            "name,ra,dec\nA,0,-91\n",
            1,
            "refused with 16: t.csv, line 2, column 5: dec of target `A` reads `-91`; allowed: -90 to 90 degrees".to_owned(),
        ),
        (
            "name,ra,dec\nA,nan,0\n",
            1,
            "refused with 16: t.csv, line 2, column 3: ra of target `A` reads `nan`; allowed: 0 to 360 degrees".to_owned(),
        ),
        (
            "name,ra,dec\nA,0,inf\n",
            1,
            "refused with 16: t.csv, line 2, column 5: dec of target `A` reads `inf`; allowed: -90 to 90 degrees".to_owned(),
        ),
        ("name,x,y,z\nA,0,1.5,0\n", 1, "refused with 5: t.csv, line 2, column 5: y of target `A` reads `1.5`; allowed: -1 to 1".to_owned()),
        (
            "name,ra,dec\nA,east,0\n",
            3,
            "t.csv, line 2, column 3: ra reads `east`; allowed: degrees as one number, such as 83.633 or -5.391".to_owned(),
        ),
        (
            "name,ra,dec\nA,05:34:31.94,0\n",
            3,
            "t.csv, line 2, column 3: ra reads `05:34:31.94`; allowed: degrees as one number, such as 83.633 or \
            -5.391 (this has hours, minutes or seconds; an hour of right ascension is 15 degrees)"
                .to_owned(),
        ),
        (
            "name,x,y,z,ra,dec\nA,1,0,0,0,0\n",
            3,
            format!(
                "t.csv, line 1, column 1: both ra,dec and x,y,z in `name,x,y,z,ra,dec`, and a file has one \
            form: remove or rename the columns of the other{}",
                FORMS
            ),
        ),
        ("name,l,b\nA,1,0\n", 3, format!("t.csv, line 1, column 1: none of the columns ra,dec,x,y,z in `name,l,b`{}", FORMS)),
        ("name,ra\nA,1\n", 3, format!("t.csv, line 1, column 1: no column `dec` in `name,ra`{}", FORMS)),
        (
            "name,ra_deg,dec_deg\nA,1,0\n",
            3,
            format!(
                "t.csv, line 1, column 1: none of the columns ra,dec,x,y,z in `name,ra_deg,dec_deg`; rename \
            `ra_deg` to `ra` and `dec_deg` to `dec`{}",
                FORMS
            ),
        ),
    ] {
        let f = folder(targets);
        let before = f.all();
        for words in COMMANDS {
            let ended = f.run(&words.split(' ').collect::<Vec<_>>());
            assert_eq!((ended.status, ended.stdout, ended.stderr), (status, String::new(), message(&says)), "{}", words);
        }
        assert!(f.all() == before, "a file was written: {}", says);
    }
}
