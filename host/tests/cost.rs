//! What a sweep costs: `cost`, the line with which `check` ends, and the plans of a size that `example` writes, which cost the most and the least.
mod common;

use common::{document, done, json, run, Folder, HEADER, LINE};
use fs2::FileExt;
use proptest::prelude::*;
use serde_json::json;
use std::{
    fs::{self, File},
    process::Command,
};

const EPHEMERIS: &str = "time,sun_x,sun_y,sun_z,observer_x,observer_y,observer_z\n";

fn empty() -> Folder {
    let f = Folder::new(&[], "", "");
    ["plan.toml", "t.csv", "e.csv"].iter().for_each(|file| fs::remove_file(f.path(file)).unwrap());
    f
}
fn by_numbers(f: &Folder, (targets, times, rolls): (u64, u64, u64), more: &str) -> String {
    done(f, &format!("cost --targets {} --times {} --rolls {}{}", targets, times, rolls, more))
}

/// Computed by hand: 107 bytes, and 33 per chunk of 64 cells; one roll per cell at least, and n at most.
#[test]
fn the_cost_is_that_computed_by_hand() {
    let f = empty();
    for (size, [chunks, bytes, fewest, most], line) in [
        ((0, 0, 1), [0u64, 107, 0, 0], "0 chunks, a journal of 107 bytes, at least 0 and at most 0 rolls tried"),
        ((0, 5, 72), [0, 107, 0, 0], "0 chunks, a journal of 107 bytes, at least 0 and at most 0 rolls tried"),
        ((65_536, 0, 3600), [0, 107, 0, 0], "0 chunks, a journal of 107 bytes, at least 0 and at most 0 rolls tried"),
        ((1, 1, 1), [1, 140, 1, 1], "1 chunk, a journal of 140 bytes, at least 1 and at most 1 roll tried"),
        ((1, 1, 3600), [1, 140, 1, 3600], "1 chunk, a journal of 140 bytes, at least 1 and at most 3,600 rolls tried"),
        ((7, 9, 72), [1, 140, 63, 4536], "1 chunk, a journal of 140 bytes, at least 63 and at most 4,536 rolls tried"),
        ((64, 1, 72), [1, 140, 64, 4608], "1 chunk, a journal of 140 bytes, at least 64 and at most 4,608 rolls tried"),
        ((5, 13, 72), [2, 173, 65, 4680], "2 chunks, a journal of 173 bytes, at least 65 and at most 4,680 rolls tried"),
        ((2, 64, 1), [2, 173, 128, 128], "2 chunks, a journal of 173 bytes, at least 128 and at most 128 rolls tried"),
        ((3, 43, 3600), [3, 206, 129, 464_400], "3 chunks, a journal of 206 bytes, at least 129 and at most 464,400 rolls tried"),
        (
            (1024, 1024, 3600),
            [16_384, 540_779, 1_048_576, 3_774_873_600],
            "16,384 chunks, a journal of 540,779 bytes, at least 1,048,576 and at most 3,774,873,600 rolls tried",
        ),
        (
            (16, 65_536, 72),
            [16_384, 540_779, 1_048_576, 75_497_472],
            "16,384 chunks, a journal of 540,779 bytes, at least 1,048,576 and at most 75,497,472 rolls tried",
        ),
        (
            (65_536, 16, 1),
            [16_384, 540_779, 1_048_576, 1_048_576],
            "16,384 chunks, a journal of 540,779 bytes, at least 1,048,576 and at most 1,048,576 rolls tried",
        ),
    ] {
        assert_eq!(by_numbers(&f, size, ""), format!("cost     {}\n", line), "{:?}", size);
        let told = json(&by_numbers(&f, size, " --json"));
        let due = json!({
            "targets": size.0, "times": size.1, "rolls": size.2,
            "chunks": chunks, "journal_bytes": bytes, "fewest_probes": fewest, "most_probes": most
        });
        assert_eq!(told, due, "{:?}", size);
    }
    assert!(f.all().is_empty(), "a file was written");
}

/// Sizes that the library refuses, with the words that follow them.
const REFUSED: [(&str, &str, &str, u8, &str); 12] = [
    ("65537", "1", "72", 2, "65,537 targets and 1 time, 65,537 cells; allowed: 65,536 targets and times each, 1,048,576 cells"),
    ("0", "65537", "72", 2, "0 targets and 65,537 times, 0 cells; allowed: 65,536 targets and times each, 1,048,576 cells"),
    ("65536", "17", "72", 2, "65,536 targets and 17 times, 1,114,112 cells; allowed: "),
    ("1", "1099511627776", "1", 2, "1 target and 1,099,511,627,776 times, 1,099,511,627,776 cells; allowed: "),
    // Of 2^63 times 2 and 2^40 times 2^40 cells nothing is left in 64 bits.
    ("9223372036854775808", "2", "1", 2, "9,223,372,036,854,775,808 targets and 2 times, 18,446,744,073,709,551,616 cells; allowed: "),
    ("1099511627776", "1099511627776", "1", 2, "1,208,925,819,614,629,174,706,176 cells; allowed: "),
    ("18446744073709551615", "18446744073709551615", "18446744073709551615", 2, "426,481,119,284,349,108,225 cells; allowed: "),
    // 2 comes before 3.
    ("65537", "1", "0", 2, "65,537 targets and 1 time, "),
    ("1", "1", "0", 3, "0 rolls; allowed: 1 to 3600"),
    ("0", "0", "3601", 3, "3,601 rolls; allowed: 1 to 3600"),
    ("1", "1", "9223372036854775808", 3, "9,223,372,036,854,775,808 rolls; allowed: 1 to 3600"),
    ("1", "1", "18446744073709551615", 3, "18,446,744,073,709,551,615 rolls; allowed: 1 to 3600"),
];

#[test]
fn sizes_beyond_the_limits_are_refused() {
    let f = empty();
    for (targets, times, rolls, number, says) in REFUSED {
        let size = format!("--targets {} --times {} --rolls {}", targets, times, rolls);
        for more in ["", " --json"] {
            let ended = run(&f, &format!("cost {}{}", size, more));
            ended.says(1, &[&format!("wilfnusk: refused with {}: {}: ", number, size), says]);
            assert_eq!((ended.stdout.as_str(), ended.stderr.lines().count()), ("", 1));
        }
        for option in ["--costliest", "--cheapest"] {
            let size = format!("{} {} {} {}", option, targets, times, rolls);
            let ended = run(&f, &format!("example made {}", size));
            ended.says(1, &[&format!("wilfnusk: refused with {}: {}: ", number, size), says]);
            assert_eq!((ended.stdout.as_str(), ended.stderr.lines().count()), ("", 1));
            assert!(f.all().is_empty(), "something was made");
        }
    }
}

#[test]
fn wrong_command_lines_end_with_2() {
    let f = Folder::new(&["A"], "01", "tolerance = 10\n");
    let before = f.all();
    const NUMBER: &str = "allowed: a whole number in plain digits: at most 65536 targets or times, 1 to 3600 rolls";
    for (words, says) in [
        (
            "cost",
            &[
                "<PLAN.toml|--targets <T>",
                "Usage: wilfnusk cost [--json] <PLAN.toml>\n   or: wilfnusk cost [--json] --targets <T> --times <N> --rolls <R>\n",
            ][..],
        ),
        ("cost --json", &["<PLAN.toml|--targets <T>"]),
        ("cost --targets 1", &["not provided", "  --times <N>\n", "  --rolls <R>\n"]),
        ("cost --times 1 --rolls 2", &["not provided", "  --targets <T>\n"]),
        ("cost --targets 1 --times 2", &["not provided", "  --rolls <R>\n"]),
        ("cost plan.toml --targets 1", &["'[PLAN.toml]' cannot be used with '--targets <T>'"]),
        ("cost --rolls 1 plan.toml", &["'--rolls <R>'", "cannot be used with"]),
        ("cost --targets 1 --times 2 --rolls 3 plan.toml", &["cannot be used with"]),
        ("cost plan.toml plan.toml", &["'plan.toml'"]),
        ("cost plan.toml --journal j", &["'--journal'"]),
        ("cost --targets 1 --targets 1 --times 2 --rolls 3", &["more than once"]),
        ("cost --targets -1 --times 2 --rolls 3", &["'-1' for '--targets <T>'", NUMBER]),
        ("cost --targets 1 --times=-9223372036854775808 --rolls 3", &["'-9223372036854775808' for '--times <N>'", NUMBER]),
        ("cost --targets 1 --times 2 --rolls ten", &["'ten' for '--rolls <R>'", NUMBER]),
        ("cost --targets 1 --times 2 --rolls 7.5", &["'7.5' for '--rolls <R>'", NUMBER]),
        ("cost --targets 65,536 --times 2 --rolls 3", &["'65,536' for '--targets <T>'", NUMBER]),
        ("cost --targets nan --times 2 --rolls 3", &["'nan' for '--targets <T>'", NUMBER]),
        ("cost --targets +1 --times 2 --rolls 3", &["'+1' for '--targets <T>'", NUMBER]),
        // 2^64.
        ("cost --targets 18446744073709551616 --times 2 --rolls 3", &["'18446744073709551616' for '--targets <T>'", NUMBER]),
        ("example", &["<FOLDER>"]),
        ("example --costliest 1 2 3", &["<FOLDER>"]),
        ("example made --costliest", &["'--costliest <T> <N> <R>'"]),
        ("example made --costliest 1 2", &["requires 3 values, but 2 were provided"]),
        ("example made --cheapest 1 2 3 4", &["'4'"]),
        ("example made --cheapest 1 -2 3", &["'-2' for '--cheapest <T> <N> <R>'", NUMBER]),
        ("example made --cheapest 1 2 18446744073709551616", &["'18446744073709551616' for '--cheapest <T> <N> <R>'", NUMBER]),
        ("example made --costliest 1 2 3 --cheapest 1 2 3", &["cannot be used with", "--costliest <T> <N> <R>", "--cheapest <T> <N> <R>"]),
        ("example made --costliest 1 2 3 --costliest 1 2 3", &["more than once"]),
    ] {
        let ended = run(&f, words);
        ended.says(2, says);
        assert_eq!(ended.stdout, "", "{}", words);
        assert!(f.all() == before, "{}", words);
    }
}

/// A plan's cost is that of its size, whatever else is in it; a journal is not looked at.
#[test]
fn a_plan_costs_what_its_size_costs() {
    for (names, marks, settings, size) in [
        (&["A", "B"][..], "0110", "tolerance = 10\n", (2, 4, 1)),
        (&["A"], "0110", "tolerance = nan\nconfigured_roll = nan\npanel = [5, 0, 0]\n", (1, 4, 1)),
        (&["A", "B", "C"], "01101", "tolerance = [-1, 180, inf]\nconfigured_roll = 40.5\n", (3, 5, 1)),
        (&["A", "B", "C"], "", "tolerance = 1\n", (3, 0, 1)),
        (&[], "01", "tolerance = []\n", (0, 2, 1)),
    ] {
        let f = Folder::new(names, marks, settings);
        for rolls in [1, 72, 3600] {
            let size = (size.0, size.1, rolls);
            let toml = f.read("plan.toml");
            f.write("plan.toml", &toml.replace("rolls = 1\n", &format!("rolls = {}\n", rolls)));
            for journal in [None, Some("no journal"), Some("")] {
                journal.iter().for_each(|text| f.write("plan.journal", text));
                let before = f.all();
                for more in ["", " --json"] {
                    let ended = run(&f, &format!("cost plan.toml{}", more));
                    assert_eq!((ended.status, ended.stderr.as_str()), (0, ""), "{:?}", size);
                    assert_eq!(ended.stdout, by_numbers(&f, size, more), "{:?}", size);
                }
                assert!(f.all() == before, "a file was written");
            }
            fs::remove_file(f.path("plan.journal")).unwrap();
            f.write("plan.toml", &toml);
        }
    }
}

#[test]
fn a_refused_plan_has_no_cost() {
    let f = Folder::new(&["Vega"], "01", "tolerance = 10\n");
    let toml = f.read("plan.toml");
    let refused = |status: i32, says: &[&str]| {
        let before = f.all();
        let ended = run(&f, "cost plan.toml");
        ended.says(status, says);
        assert_eq!(ended.stdout, "");
        let checked = run(&f, "check plan.toml");
        assert_eq!((checked.status, checked.stdout.as_str(), &checked.stderr), (status, "", &ended.stderr));
        assert!(f.all() == before);
    };
    for (rolls, status, refusal) in
        [("0", 1, "refused with 3: "), ("3601", 1, "refused with 3: "), ("9223372036854775807", 1, "refused with 3: "), ("-1", 3, "")]
    {
        f.write("plan.toml", &toml.replace("rolls = 1\n", &format!("rolls = {}\n", rolls)));
        let says = format!(
            "wilfnusk: {}plan.toml, line 3, column 9: rolls reads {}; allowed: a whole number of rolls, 1 to 3600, or a list of 1 to 3600 rolls in \
             degrees\n",
            refusal, rolls
        );
        refused(status, &[&says]);
    }
    f.write("plan.toml", &toml);
    let targets = f.read("t.csv");
    f.write("t.csv", &format!("name,x,y,z\n{}", (0..70_000).map(|i| format!("T{},1,0,0\n", i)).collect::<String>()));
    let cells = "refused with 2: t.csv has 70,000 targets and e.csv has 2 times, 140,000 cells; allowed: 65,536 targets and times each, 1,048,576 cells\n";
    refused(1, &[cells]);
    f.write("t.csv", &targets.replace(",1,", ",1.5,"));
    refused(1, &["refused with 5: t.csv, line 2, column 8: x of target `Vega` reads `1.5`; allowed: -1 to 1\n"]);
    fs::remove_file(f.path("t.csv")).unwrap();
    refused(3, &["plan.toml, line 1, column 11: targets reads \"t.csv\", and there is no such file; allowed: "]);
    run(&f, "cost none.toml").says(3, &["none.toml: there is no such file or folder"]);
}

/// The size of a plan's journal file and the rolls that its whole sweep tried, as `sweep` and `windows --json` print them.
fn swept(f: &Folder, folder: &str) -> (u64, u64) {
    let told = run(f, &format!("sweep {}/plan.toml -q", folder)).stderr;
    let probes = json(&done(f, &format!("windows {}/plan.toml --json -", folder)))["probes"].as_u64().unwrap();
    let tried = told.trim_end().rsplit("; ").next().unwrap().replace(',', "");
    assert_eq!(tried, format!("{} roll{} tried", probes, if probes == 1 { "" } else { "s" }), "{}", told);
    let bytes = fs::metadata(f.path(&format!("{}/plan.journal", folder))).unwrap().len();
    let status = json(&done(f, &format!("status {}/plan.toml --json", folder)));
    assert_eq!((&status["finished"], &status["journal_bytes"], &status["missing"]), (&json!(true), &json!(bytes), &json!([])));
    (bytes, probes)
}

/// A plan of a size that costs the most and one that costs the least are written, accepted and swept: each costs what was predicted.
fn both_ends_are_reached(f: &Folder, size: (u64, u64, u64)) {
    let predicted = json(&by_numbers(f, size, " --json"));
    let line = by_numbers(f, size, "");
    for (option, key, mark) in [("costliest", "most_probes", '1'), ("cheapest", "fewest_probes", '0')] {
        let folder = format!("{}-{}-{}-{}", option, size.0, size.1, size.2);
        let said = run(f, &format!("example {} --{} {} {} {}", folder, option, size.0, size.1, size.2));
        let due = format!("wrote {0}/plan.toml, targets.csv and ephemeris.csv\nnext: wilfnusk sweep {0}/plan.toml\n", folder);
        assert_eq!((said.status, said.stdout, said.stderr.as_str()), (0, due, ""), "{}", folder);
        assert_eq!(done(f, &format!("cost {}/plan.toml", folder)), line);
        assert_eq!(json(&done(f, &format!("cost {}/plan.toml --json", folder))), predicted);
        let checked = run(f, &format!("check {}/plan.toml", folder));
        assert_eq!((checked.status, checked.stderr.as_str()), (0, ""));
        assert!(checked.stdout.ends_with(&format!("accepted; {}/plan.journal is not begun\n{}", folder, line)), "{}", checked.stdout);
        let (bytes, probes) = swept(f, &folder);
        assert_eq!((bytes, probes), (predicted["journal_bytes"].as_u64().unwrap(), predicted[key].as_u64().unwrap()), "{}", folder);
        let mask = done(f, &format!("mask {}/plan.toml", folder));
        let marks: Vec<_> = mask.lines().map(|line| line.split(' ').next().unwrap()).collect();
        assert!(marks.len() as u64 == size.0 && marks.iter().all(|row| row.len() as u64 == size.1 && row.chars().all(|c| c == mark)));
    }
}

#[test]
fn the_costliest_and_the_cheapest_plan_cost_what_is_predicted() {
    let f = empty();
    for size in [
        (0, 0, 1),
        (0, 5, 72),
        (5, 0, 72),
        (1, 1, 1),
        (1, 1, 3600),
        (7, 9, 72),
        (8, 8, 3600),
        (5, 13, 72),
        (2, 64, 1),
        (64, 2, 7),
        (3, 1000, 24),
    ] {
        both_ends_are_reached(&f, size);
    }
}

/// As many cells as a plan may have, in either shape: written, read back and swept.
#[test]
fn plans_of_the_most_cells_cost_what_is_predicted() {
    let f = empty();
    both_ends_are_reached(&f, (65_536, 16, 3));
    both_ends_are_reached(&f, (16, 65_536, 2));
    assert_eq!(f.read("costliest-65536-16-3/targets.csv").lines().last(), Some("Target 65536,1,0,0,-1"));
    assert_eq!(f.read("cheapest-16-65536-2/ephemeris.csv").lines().last(), Some("2026-05-04T12:15:00Z,0,1,0,0,0,0"));
}

/// The numbers of the request: targets along x, the Sun along y, observers at 0, the panel along y, no roll configured, -1 or 180 everywhere. The
/// times are a minute apart.
#[test]
fn the_files_of_the_costliest_and_the_cheapest_plan() {
    let f = empty();
    for (option, tolerance, cost) in [
        ("costliest", "-1", "costs more:\n# the sweep tries 120 rolls, every one at each cell"),
        ("cheapest", "180", "costs less:\n# the sweep tries 20 rolls, one at each cell"),
    ] {
        done(&f, &format!("example {0} --{0} 4 5 6", option));
        let rows = (1..=4).map(|i| format!("Target {},1,0,0,{}\n", i, tolerance));
        assert_eq!(f.read(&format!("{}/targets.csv", option)), format!("name,x,y,z,tolerance\n{}", rows.collect::<String>()));
        let rows = (0..5).map(|j| format!("2026-03-20T00:0{}:00Z,0,1,0,0,0,0\n", j));
        assert_eq!(f.read(&format!("{}/ephemeris.csv", option)), format!("{}{}", EPHEMERIS, rows.collect::<String>()));
        let plan = f.read(&format!("{}/plan.toml", option));
        assert!(plan.starts_with(&format!("# 4 targets, 5 times, 6 rolls. No plan of this size {}", cost)), "{}", plan);
        let keys: Vec<_> = plan.lines().filter(|line| !line.starts_with('#')).map(|line| line.split(" #").next().unwrap().trim()).collect();
        assert_eq!(keys, ["", "targets = \"targets.csv\"", "ephemeris = \"ephemeris.csv\"", "rolls = 6", "panel = [0, 1, 0]"]);
        let mut files: Vec<_> = fs::read_dir(f.path(option)).unwrap().map(|e| e.unwrap().file_name().into_string().unwrap()).collect();
        files.sort();
        assert_eq!(files, ["ephemeris.csv", "plan.toml", "targets.csv"]);
    }
    // The words may stand in any order.
    done(&f, "example --cheapest 4 5 6 again");
    assert_eq!(f.read("again/targets.csv"), f.read("cheapest/targets.csv"));
}

#[test]
fn no_file_is_overwritten() {
    let f = empty();
    for name in ["plan.toml", "targets.csv", "ephemeris.csv"] {
        fs::create_dir(f.path(name)).unwrap();
        fs::write(f.path(name).join(name), "mine\n").unwrap();
        for option in ["--costliest 4 5 6", "--cheapest 4 5 6"] {
            let says = format!("wilfnusk: {0}/{0}: the file exists, and nothing was written; name another folder\n", name);
            run(&f, &format!("example {} {}", name, option)).says(3, &[&says]);
        }
        assert_eq!(fs::read_dir(f.path(name)).unwrap().count(), 1);
        assert_eq!(fs::read_to_string(f.path(name).join(name)).unwrap(), "mine\n");
    }
    // What is none of the three stays beside them.
    fs::create_dir(f.path("d")).unwrap();
    f.write("d/notes", "mine\n");
    done(&f, "example d --costliest 4 5 6");
    assert_eq!(f.read("d/notes"), "mine\n");
    let costliest = f.read("d/targets.csv");
    run(&f, "example d --cheapest 4 5 6").says(3, &["d/targets.csv: the file exists"]);
    run(&f, "example d").says(3, &["d/targets.csv: the file exists"]);
    assert_eq!(f.read("d/targets.csv"), costliest);
    f.write("file", "");
    run(&f, "example file --cheapest 4 5 6").says(3, &["file: "]);
}

/// Of the example's season some rolls are within the tolerance and some are not.
#[test]
fn the_example_costs_between_the_fewest_and_the_most() {
    let f = empty();
    done(&f, "example season");
    let predicted = json(&done(&f, "cost season/plan.toml --json"));
    assert_eq!(predicted, json(&by_numbers(&f, (16, 1440, 24), " --json")));
    let (bytes, probes) = swept(&f, "season");
    assert_eq!(bytes, predicted["journal_bytes"].as_u64().unwrap());
    assert!(predicted["fewest_probes"].as_u64().unwrap() < probes && probes < predicted["most_probes"].as_u64().unwrap(), "{}", probes);
}

/// Whatever the state of the journal, the plan that is accepted has its cost: the last line on standard output.
#[test]
fn check_ends_with_the_cost() {
    let f = Folder::new(&["A", "B"], &"01".repeat(48), "tolerance = 10\n");
    let line = done(&f, "cost plan.toml");
    assert_eq!(line, "cost     3 chunks, a journal of 206 bytes, at least 192 and at most 192 rolls tried\n");
    let ends = |words: &str, status: i32, before: &str, says: &[&str]| {
        let ended = run(&f, &format!("check plan.toml{}", words));
        ended.says(status, says);
        assert!(ended.stdout.ends_with(&format!("{}\n{}", before, line)), "{}: {}", words, ended.stdout);
        assert_eq!(ended.stdout.matches("cost ").count(), 1, "{}", ended.stdout);
    };
    // The last of the warnings on the plan: the test's Sun is not where an almanac has it.
    let warning = "check the axes, the signs and the dates";
    ends("", 0, "accepted; plan.journal is not begun", &[]);
    ends(" --journal none/j", 0, "accepted; none/j is not begun", &[]);
    ends(" --recompute --write-digest", 0, "accepted; plan.journal is not begun", &[]);
    f.write("plan.journal", "");
    ends("", 0, "accepted; plan.journal is right: 0 of 3 chunks have a line", &[]);
    done(&f, "sweep plan.toml --chunks 1");
    let right = |count: usize| format!("accepted; plan.journal is right: {} of 3 chunks have a line", count);
    let known = |count: usize| format!("{}; plan.journal.plan is this plan's", right(count));
    let again = "\nits lines could be this plan's; to work every line out again: wilfnusk check plan.toml --recompute";
    ends("", 0, &(known(1) + again), &[]);
    done(&f, "sweep plan.toml -q");
    ends("", 0, &(known(3) + again), &[]);
    ends(" --recompute", 0, &known(3), &[]);
    ends(" --recompute --sample 2", 0, &known(3), &[]);
    let (journal, digest) = (f.read("plan.journal"), f.read("plan.journal.plan"));
    assert_eq!(journal.len(), HEADER + 3 * LINE);
    f.write("plan.journal", &journal[..journal.len() - 1]);
    ends("", 0, &(known(2) + again), &[]);
    f.write("plan.journal", &journal[..HEADER - 1]);
    ends("", 0, &right(0), &[]);
    f.write("plan.journal", &journal);
    fs::remove_file(f.path("plan.journal.plan")).unwrap();
    ends("", 0, &(right(3) + again), &["warning: plan.journal.plan is missing"]);
    {
        let lock = File::open(f.path("plan.journal")).unwrap();
        lock.lock_exclusive().unwrap();
        ends(" --recompute --write-digest", 3, warning, &["another process sweeps into it"]);
    }
    ends(" --recompute --write-digest", 0, &known(3), &["wrote plan.journal.plan"]);
    assert_eq!(f.read("plan.journal.plan"), digest);
    // Why a journal is refused is printed on standard error.
    f.write("plan.journal.plan", &digest.replace("plan 3", "plan 4"));
    ends("", 3, warning, &["a digest of version 4"]);
    f.write("plan.journal.plan", &digest);
    let other = journal.replacen("aaaa", "5555", 1);
    assert_ne!(journal, other);
    f.write("plan.journal", &other);
    ends(" --recompute", 1, warning, &["1 is not the same"]);
    f.write("plan.journal", &journal.replacen("aaaa", "xxxx", 1));
    ends("", 1, warning, &["refused with 11: plan.journal: "]);
    fs::remove_file(f.path("plan.journal")).unwrap();
    assert!(Command::new("mkfifo").arg(f.path("plan.journal")).status().unwrap().success());
    ends("", 3, warning, &["plan.journal: this is a pipe"]);
}

/// The lines that docs/GUIDE.md shows are those of the example.
#[test]
fn the_guide_s_example_of_cost_holds() {
    let (document, unwrapped) = document();
    let f = empty();
    done(&f, "example season");
    let line = done(&f, "cost season/plan.toml");
    assert_eq!(line, "cost     360 chunks, a journal of 11,987 bytes, at least 23,040 and at most 552,960 rolls tried\n");
    assert!(document.contains(&format!("\n{}", line)), "{}", line);
    for (size, number) in [("--targets 65536 --times 1440 --rolls 24", 2), ("--targets 16 --times 1440 --rolls 0", 3)] {
        let refused = run(&f, &format!("cost {}", size));
        refused.says(1, &[&format!("wilfnusk: refused with {}: {}: ", number, size)]);
        assert!(unwrapped.contains(&format!(" {} ", refused.stderr.trim_end())), "{}", refused.stderr);
    }
}

proptest! {
    #![proptest_config(ProptestConfig { cases: 24, failure_persistence: None, ..ProptestConfig::default() })]
    /// Any plan's journal is as long as predicted, and its rolls are within the range whose ends the two plans of its size reach.
    #[test]
    fn any_plan_costs_what_is_predicted(
        tolerances in prop::collection::vec(prop_oneof![Just(-1.0), Just(180.0), Just(f64::NAN), -5.0..60.0f64], 0..5),
        suns in prop::collection::vec((-1.0..1.0f64, -1.0..1.0f64, -1.0..1.0f64), 0..50),
        rolls in 1u64..25,
        configured in prop::option::of(0.0..360.0f64),
    ) {
        let f = Folder::new(&[], "", "");
        let configured = configured.map_or(String::new(), |roll| format!("configured_roll = {:?}\n", roll));
        f.write("plan.toml", &format!("targets = \"t.csv\"\nephemeris = \"e.csv\"\nrolls = {}\n{}", rolls, configured));
        let rows = tolerances.iter().enumerate().map(|(i, t)| format!("T{},{},0.6,0,{:?}\n", i, if i % 2 == 0 { "0.8" } else { "-0.8" }, t));
        f.write("t.csv", &format!("name,x,y,z,tolerance\n{}", rows.collect::<String>()));
        let rows = suns.iter().enumerate().map(|(j, (x, y, z))| format!("2026-03-20T00:{:02}:00Z,{:?},{:?},{:?},0,0,0\n", j, x, y, z));
        f.write("e.csv", &format!("{}{}", EPHEMERIS, rows.collect::<String>()));
        let size = (tolerances.len() as u64, suns.len() as u64, rolls);
        let predicted = json(&done(&f, "cost plan.toml --json"));
        prop_assert_eq!(&predicted, &json(&by_numbers(&f, size, " --json")));
        let (bytes, probes) = swept(&f, ".");
        prop_assert_eq!(bytes, predicted["journal_bytes"].as_u64().unwrap());
        let (fewest, most) = (predicted["fewest_probes"].as_u64().unwrap(), predicted["most_probes"].as_u64().unwrap());
        prop_assert!(fewest <= probes && probes <= most, "{} is not within {} to {}", probes, fewest, most);
        both_ends_are_reached(&f, size);
    }
}
