//! `wilfnusk rolls`: the library's optimal rolls, each within 0 to 360, and which cells are Free.
mod common;

use common::{document, Folder};
use std::{
    fs,
    os::{
        fd::OwnedFd,
        unix::{fs::symlink, net::UnixStream},
    },
    process::Stdio,
};
use wilfnusk::{cell, OptimalRoll, Plan};

const HEAD: &str = "target,target_number,time,roll_deg,free\n";
const EPHEMERIS: &str = "time,sun_x,sun_y,sun_z,observer_x,observer_y,observer_z\n";

/// A folder whose targets look along these, with a time each second at these Suns and observers; numbers read as themselves.
fn folder(settings: &str, targets: &[[f64; 3]], positions: &[[f64; 6]]) -> Folder {
    let f = Folder::new(&[], "", settings);
    let rows = targets.iter().enumerate().map(|(i, [x, y, z])| format!("T{},{:?},{:?},{:?}\n", i, x, y, z));
    f.write("t.csv", &format!("name,x,y,z\n{}", rows.collect::<String>()));
    let numbers = |p: &[f64; 6]| p.map(|x| format!("{:?}", x)).join(",");
    let rows = positions.iter().enumerate().map(|(j, p)| format!("2026-03-20T00:{:02}:{:02}.25Z,{}\n", j / 60, j % 60, numbers(p)));
    f.write("e.csv", &format!("{}{}", EPHEMERIS, rows.collect::<String>()));
    f
}

/// Standard output of `rolls` with these words. Standard error has nothing, but for the warning of a range without a time.
fn rolls(f: &Folder, words: &[&str]) -> String {
    let ended = f.run(&[&["rolls", "plan.toml"], words].concat());
    let said: Vec<_> = ended.stderr.lines().filter(|line| !line.starts_with("warning: no time of e.csv lies in the range from ")).collect();
    assert_eq!((ended.status, said), (0, vec![]), "{:?}", words);
    assert!(ended.stdout.starts_with(HEAD), "{}", ended.stdout);
    ended.stdout
}

/// What CSV has of each cell: target, time, roll and whether it is Free.
fn read(text: &str) -> Vec<(String, String, f64, bool)> {
    let mut reader = csv::Reader::from_reader(text.as_bytes());
    let cells = reader.records().map(|record| {
        let record = record.unwrap();
        (record[0].to_owned(), record[2].to_owned(), record[3].parse().unwrap(), record[4].parse().unwrap())
    });
    cells.collect()
}

/// Targets all over the sky, and on its axes, where Suns along them make cells Free.
fn sky() -> (Vec<[f64; 3]>, Vec<[f64; 6]>) {
    let mut targets = vec![[1.0, 0.0, 0.0], [0.0, -1.0, 0.0], [0.0, 0.0, 1.0], [-0.0, 0.6, -0.8], [0.36, 0.48, 0.8]];
    let mut positions: Vec<_> = targets.iter().flat_map(|&[x, y, z]| [[x, y, z], [-3.0 * x, -3.0 * y, -3.0 * z]]).collect();
    for k in 0..40 {
        let ((s, c), z) = ((f64::from(k) * 0.3).sin_cos(), (f64::from(k) * 0.7).cos() * 0.6);
        let across = (1.0 - z * z).sqrt();
        if k < 7 {
            targets.push([c * across, s * across, z]);
        }
        positions.push([c, s, 0.4 * z]);
    }
    let observer = |j: usize| if j % 3 == 0 { [7e-3, -1e-3 * j as f64, 2e-3] } else { [0.0; 3] };
    let positions = positions.iter().enumerate().map(|(j, &[x, y, z])| {
        let [a, b, c] = observer(j);
        [x + a, y + b, z + c, a, b, c]
    });
    (targets, positions.collect())
}

/// That of a Free cell too. Neither tolerances nor a configured roll matter, whatever they are.
#[test]
fn each_roll_reads_back_as_the_library_s_number() {
    let (targets, positions) = sky();
    let column = |from: usize| positions.iter().flat_map(|p| p[from..from + 3].to_vec()).collect::<Vec<_>>();
    let (suns, observers) = (column(0), column(3));
    for panel in [[0.0, 1.0, 0.0], [0.0, -1.0, -0.0], [5.0, 0.3, -2.0], [1.0, 0.0, 0.0]] {
        let mut due = vec![0.0; targets.len() * positions.len()];
        let tolerances = vec![f64::NAN; targets.len()];
        let plan = Plan {
            targets: &targets.concat(),
            suns: &suns,
            observers: &observers,
            tolerances: &tolerances,
            roll_deg: None,
            panel_normal: panel,
        };
        plan.named_values(&mut due).unwrap();
        let mut texts = Vec::new();
        for settings in ["tolerance = 10", "tolerance = nan\nconfigured_roll = nan", "tolerance = inf\nconfigured_roll = 90"] {
            let f = folder(&format!("panel = {:?}\n{}\n", panel, settings), &targets, &positions);
            let before = f.all();
            texts.push(rolls(&f, &[]));
            assert!(f.all() == before, "a file was written");
        }
        assert!(texts.iter().all(|text| text == &texts[0]));
        let cells = read(&texts[0]);
        assert_eq!(cells.len(), due.len());
        let mut free_cells = 0;
        for (number, (target, time, roll, free)) in cells.iter().enumerate() {
            let (i, j) = (number / positions.len(), number % positions.len());
            assert_eq!((target, time), (&format!("T{}", i), &format!("2026-03-20T00:00:{:02}.250000000Z", j)));
            let [x, y, z, a, b, c] = positions[j];
            match cell(targets[i], [x, y, z], [a, b, c], panel).unwrap() {
                OptimalRoll::At(at) => assert!(!free && at.to_bits() == roll.to_bits(), "{} {}: {} is not {}", target, time, roll, at),
                OptimalRoll::Free => assert!(*free, "{} {}", target, time),
            }
            assert_eq!(roll.to_bits(), due[number].to_bits(), "{} {}", target, time);
            assert!((0.0..360.0).contains(roll), "{} {}: {}", target, time, roll);
            free_cells += usize::from(*free);
        }
        let all = panel[1] == 0.0 && panel[2] == 0.0;
        assert!(if all { free_cells == cells.len() } else { (10..20).contains(&free_cells) }, "{:?}: {}", panel, free_cells);
    }
}

/// Rolls that are at 360 or below 0 before they are folded. That a zero is negative is shown.
#[test]
fn no_roll_is_below_0_or_at_360() {
    for (panel, sun, roll) in [
        ("[0, 1, 0]", [0.0, 1.0, -1e-16], "0"),
        ("[0, -1, 0]", [-0.0, -1.0, -0.0], "-0"),
        ("[0, -1, -0.0]", [0.0, -1.0, 0.0], "0"),
        ("[0, 1, 0]", [0.0, 0.0, -1.0], "270"),
        ("[0, -1, 0]", [0.0, 0.0, -1.0], "90"),
    ] {
        let [x, y, z] = sun;
        let f = folder(&format!("tolerance = 10\npanel = {}\n", panel), &[[1.0, 0.0, 0.0]], &[[x, y, z, 0.0, 0.0, 0.0]]);
        assert_eq!(rolls(&f, &[]), format!("{}T0,1,2026-03-20T00:00:00.250000000Z,{},false\n", HEAD, roll), "{} {:?}", panel, sun);
    }
}

#[test]
fn the_sun_along_the_boresight_leaves_the_roll_free() {
    let suns = [[1.0, 0.0, 0.0], [-2.0, 0.0, 0.0], [1.0, 0.1, 0.0]].map(|[x, y, z]| [x, y, z, 0.0, 0.0, 0.0]);
    let f = folder("tolerance = -1\nconfigured_roll = 0\n", &[[1.0, 0.0, 0.0]], &suns);
    let free: Vec<_> = read(&rolls(&f, &[])).into_iter().map(|cell| cell.3).collect();
    assert_eq!(free, [true, true, false]);
}

/// A name stands as the targets file has it, quoted where CSV needs that.
#[test]
fn names_stand_as_in_the_targets_file() {
    let f = folder("tolerance = 10\n", &[], &[[0.0, 0.0, 1.0, 0.0, 0.0, 0.0]]);
    f.write("t.csv", "name,ra,dec\n\"Crab, M 1\",0,0\n\"a \"\"b\"\"\u{1b}\",0,0\nVéga,0,0\n");
    let rest = "2026-03-20T00:00:00.250000000Z,90,false\n";
    assert_eq!(rolls(&f, &[]), format!("{}\"Crab, M 1\",1,{2}\"a \"\"b\"\"{1}\",2,{2}Véga,3,{2}", HEAD, '\u{1b}', rest));
}

#[test]
fn a_selection_prints_the_cells_that_mask_prints() {
    let (targets, positions) = sky();
    let f = folder("tolerance = 10\n", &targets, &positions);
    let all = rolls(&f, &[]);
    for (words, count) in [
        (&["--target", "T3"][..], 50),
        (&["--target", "T1*", "--target", "T2"], 4 * 50),
        (&["--from", "2026-03-20T00:00:48Z"], 2 * 12),
        (&["--to", "2026-03-20T01:00:03.25+01:00", "--target", "T1?"], 4 * 2),
        (&["--from", "2026-03-20T00:00:03.25Z", "--to", "2026-03-20T00:00:03.25Z"], 12),
        (&["--from", "2026-03-20T00:00:03.3Z", "--to", "2026-03-20T00:00:03.4Z"], 0),
    ] {
        let printed = rolls(&f, words);
        assert_eq!(printed.lines().count(), count + 1, "{:?}", words);
        let of_all = all.lines().filter(|line| printed.contains(line));
        assert_eq!(printed, of_all.map(|line| format!("{}\n", line)).collect::<String>(), "{:?}", words);
        let mask = f.run(&[&["mask", "plan.toml", "--roll", "0", "--form", "csv"], words].concat()).stdout;
        let place = |text: &str| -> Vec<String> { text.lines().skip(1).map(|line| line.split(',').take(3).collect()).collect() };
        assert_eq!(place(&printed), place(&mask), "{:?}", words);
    }
}

#[test]
fn a_plan_without_targets_or_times_has_no_cell() {
    let position = [0.0, 1.0, 0.0, 0.0, 0.0, 0.0];
    for f in [
        folder("tolerance = 1\n", &[], &[position]),
        folder("tolerance = 1\n", &[[1.0, 0.0, 0.0]], &[]),
        folder("tolerance = []\n", &[], &[]),
    ] {
        assert_eq!(rolls(&f, &[]), HEAD);
        assert_eq!(rolls(&f, &["--from", "2026-03-20T00:00:00Z"]), HEAD);
        f.run(&["rolls", "plan.toml", "--csv", "r.csv"]).says(0, &["wrote r.csv\n"]);
        assert_eq!(f.read("r.csv"), HEAD);
    }
}

/// The lines that docs/GUIDE.md shows are those of the example.
#[test]
fn the_example_in_the_guide_is_what_is_printed() {
    let (document, _) = document();
    let f = small();
    f.run(&["example", "season"]).says(0, &[]);
    let printed = f.run(&["rolls", "season/plan.toml"]).stdout;
    assert_eq!(printed.lines().count(), 1 + 16 * 1440);
    let shown: String = printed.lines().take(3).map(|line| format!("{}\n", line)).collect();
    assert!(document.contains(&format!("```\n{}```\n", shown)), "{}", shown);
}

fn small() -> Folder {
    Folder::new(&["Vega", "M 31"], "0010110", "tolerance = 10\n")
}

#[test]
fn no_journal_is_needed_or_read() {
    let f = small();
    let printed = rolls(&f, &[]);
    assert_eq!(printed.lines().count(), 15);
    for journal in ["no journal", ""] {
        f.write("plan.journal", journal);
        f.write("plan.journal.plan", "no digest");
        let before = f.all();
        assert_eq!(rolls(&f, &[]), printed);
        assert!(f.all() == before);
    }
}

#[test]
fn a_file_is_whole_or_as_it_was() {
    let f = small();
    let printed = rolls(&f, &[]);
    assert_eq!(rolls(&f, &["--csv", "-"]), printed);
    f.write("r.csv", "old\n");
    let before = f.all();
    let ended = f.shell("ulimit -f 0; exec $W rolls plan.toml --csv r.csv");
    ended.says(3, &["r.csv: the file may not grow further"]);
    assert!(f.all() == before, "{:?}", f.all().iter().map(|(name, _)| name).collect::<Vec<_>>());
    let ended = f.run(&["rolls", "plan.toml", "--csv", "r.csv"]);
    assert_eq!((ended.status, ended.stdout.as_str(), ended.stderr.as_str()), (0, "", "wrote r.csv\n"));
    assert_eq!(f.read("r.csv"), printed);
    let ended = f.shell("$W rolls plan.toml --csv /dev/stdout | cat");
    assert_eq!((ended.stdout.as_str(), ended.stderr.as_str()), (printed.as_str(), "wrote /dev/stdout\n"));
}

#[test]
fn an_output_never_overwrites_a_file_of_the_plan() {
    let f = small().swept();
    fs::hard_link(f.path("t.csv"), f.path("hard")).unwrap();
    symlink("e.csv", f.path("soft")).unwrap();
    symlink("nowhere", f.path("loose")).unwrap();
    fs::create_dir(f.path("d")).unwrap();
    let before = f.all();
    for file in ["plan.toml", "t.csv", "e.csv", "plan.journal", "plan.journal.plan", "hard", "soft", "d/../t.csv", "./plan.toml"] {
        f.run(&["rolls", "plan.toml", "--csv", file]).says(2, &["--csv", file, "this is the file of the ", "; name another"]);
    }
    for (file, says) in [
        ("no/r.csv", "no/r.csv: there is no such file or folder"),
        ("d", "d: it is a folder"),
        ("loose", "loose: it is a link to a file that is not there"),
    ] {
        f.run(&["rolls", "plan.toml", "--csv", file]).says(3, &[says]);
    }
    assert!(f.all() == before, "a refused command changed a file");
    f.shell("$W rolls plan.toml --csv out > out").says(2, &["--csv out: standard output goes into this file"]);
    // Before the first sweep, where the journal will stand.
    let f = small();
    for file in ["plan.journal", "plan.journal.plan"] {
        f.run(&["rolls", "plan.toml", "--csv", file]).says(2, &["this is the file of the journal"]);
        assert!(!f.path(file).exists());
    }
}

#[test]
fn wrong_command_lines_are_refused_and_write_nothing() {
    let f = small();
    let before = f.all();
    for (words, status, says) in [
        (&[][..], 2, "PLAN.toml"),
        (&["plan.toml", "more.toml"], 2, "more.toml"),
        (&["plan.toml", "--csv"], 2, "--csv"),
        (&["plan.toml", "--journal", "j"], 2, "--journal"),
        (&["plan.toml", "--form", "csv"], 2, "--form"),
        (&["plan.toml", "--csv", "r.csv", "--target", "Nobody"], 2, "--target Nobody: no target of t.csv has that name"),
        (&["plan.toml", "--csv", "r.csv", "--from", "noon"], 2, "--from"),
        (&["plan.toml", "--from", "2026-03-20T00:00:02Z", "--to", "2026-03-20T00:00:01Z"], 2, "is after --to"),
        (&["none.toml"], 3, "none.toml: there is no such file or folder"),
        (&["t.csv"], 3, "t.csv, line 1"),
    ] {
        let ended = f.run(&[&["rolls"], words].concat());
        ended.says(status, &[says]);
        assert_eq!(ended.stdout, "");
        assert!(f.all() == before, "{:?}", words);
    }
    f.write("t.csv", "name,x,y,z\nVega,1.5,0,0\n");
    f.run(&["rolls", "plan.toml"]).says(1, &["refused with 5: t.csv, line 2, column 6: x of target `Vega` reads `1.5`; allowed: -1 to 1"]);
    let help = f.run(&["rolls", "--help"]).stdout.split_whitespace().collect::<Vec<_>>().join(" ");
    for words in ["from 0 up to but not at 360 degrees", "--csv <FILE>", "--target <NAME>", "--from <TIME>", "--to <TIME>"] {
        assert!(help.contains(words), "{}", help);
    }
}

/// A reader takes one line, or all.
#[test]
fn as_many_cells_as_a_plan_may_have_are_printed() {
    let turn = |k: usize| (k as f64 * 0.01).sin_cos();
    let targets: Vec<_> = (0..1024).map(turn).map(|(s, c)| [0.8 * c, 0.8 * s, 0.6]).collect();
    let positions: Vec<_> = (0..1024).map(turn).map(|(s, c)| [c, s, 0.1, 0.0, 0.0, 0.0]).collect();
    let f = folder("tolerance = 10\n", &targets, &positions);
    let (ours, theirs) = UnixStream::pair().unwrap();
    drop(theirs);
    let closed = f.command(&["rolls", "plan.toml"]).stdout(Stdio::from(OwnedFd::from(ours))).stderr(Stdio::piped()).output().unwrap();
    assert!(closed.status.success() && closed.stderr.is_empty());
    assert_eq!(f.shell("$W rolls plan.toml | head -1").stdout, HEAD);
    let printed = f.shell("$W rolls plan.toml | wc -l; $W rolls plan.toml --csv r.csv").stdout;
    assert_eq!(printed.trim(), "1048577");
    let text = f.read("r.csv");
    let last = cell(targets[1023], [positions[1023][0], positions[1023][1], 0.1], [0.0; 3], [0.0, 1.0, 0.0]).unwrap();
    assert!(matches!(last, OptimalRoll::At(at) if text.ends_with(&format!("T1023,1024,2026-03-20T00:17:03.250000000Z,{},false\n", at))));
}
