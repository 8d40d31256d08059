//! Whole commands on tolerances: each target has its own, by a number, a list or a column; J.plan shows that a list was changed; and `check`, `sweep`
//! and `windows` warn where nothing can be violated.
mod common;

use common::{document, done, ephemeris, json, refused_as_another_plan, refused_by_every_command, run, Folder};
use serde_json::json;

const NAMES: [&str; 5] = ["A", "B", "C", "D", "E"];
const VECTORS: [&str; 5] = ["1,0,0", "0,0.6,0.8", "0,-1,0", "0.36,0.48,0.8", "0,0,-1"];
/// Of 8 rolls none is further than 22.5 degrees from the nearest.
const DIFFERENT: [&str; 5] = ["15", "3", "nan", "-1", "21.5"];

/// 5 targets at 30 times, 150 cells in 3 chunks: the first two have cells of several targets.
fn folder(tolerance: &str, targets: &str) -> Folder {
    let f = Folder::new(&[], "", "");
    write_plan(&f, &(tolerance.into(), targets.into()));
    f.write("e.csv", &ephemeris(30));
    f
}
fn plain() -> String {
    let rows = NAMES.iter().zip(VECTORS).map(|(name, vector)| format!("{},{}\n", name, vector));
    format!("name,x,y,z\n{}", rows.collect::<String>())
}
fn column(tolerances: &[&str; 5]) -> String {
    let rows = (0..5).map(|i| format!("{},{},{}\n", tolerances[i], NAMES[i], VECTORS[i]));
    format!("tolerance,name,x,y,z\n{}", rows.collect::<String>())
}
fn list(tolerances: &[&str]) -> String {
    format!("tolerance = [{}]\n", tolerances.join(", "))
}
/// The key's line and the targets file of each way to give these tolerances.
fn ways(tolerances: &[&str; 5]) -> Vec<(String, String)> {
    let mut ways = vec![(list(tolerances), plain()), (String::new(), column(tolerances))];
    if tolerances.iter().all(|t| t == &tolerances[0]) {
        ways.push((format!("tolerance = {}\n", tolerances[0]), plain()));
    }
    ways
}
/// Writes the folder's plan with this line for the tolerances, and these targets.
fn write_plan(f: &Folder, (tolerance, targets): &(String, String)) {
    f.write("plan.toml", &format!("targets = \"t.csv\"\nephemeris = \"e.csv\"\nrolls = 8\n{}", tolerance));
    f.write("t.csv", targets);
}
/// The lines of a listing, by target: of a CSV file without its first.
fn of_target<'a>(text: &'a str, name: &str) -> Vec<&'a str> {
    text.lines().filter(|line| line.split([',', ' ']).any(|word| word == name)).collect()
}

/// Each target's lines are those of a plan in which its tolerance holds for all, in every command that uses a tolerance.
#[test]
fn each_target_has_its_own_tolerance() {
    for settings in ["", "configured_roll = 40.5\n"] {
        let alone: Vec<_> = DIFFERENT.map(|t| folder(&format!("tolerance = {}\n{}", t, settings), &plain()).swept()).into();
        for (key, targets) in ways(&DIFFERENT) {
            let f = folder(&(key + settings), &targets).swept();
            let mut commands = vec![
                "mask plan.toml",
                "mask plan.toml --form csv",
                "mask plan.toml --roll 40.5",
                "mask plan.toml --fixed-roll -70",
                "windows plan.toml --csv -",
                "windows plan.toml --summary -",
                "regard plan.toml --sample 7",
                "regard plan.toml --sample 3 --roll 40.5",
            ];
            if !settings.is_empty() {
                commands.push("windows plan.toml --evaluate --csv -");
            }
            for words in commands {
                let told = done(&f, words);
                let mut differ = 0;
                for (i, name) in NAMES.iter().enumerate() {
                    let due = done(&alone[i], words);
                    assert_eq!(of_target(&told, name), of_target(&due, name), "{}: target {}", words, name);
                    assert!(!of_target(&told, name).is_empty(), "{}", words);
                    differ += usize::from(of_target(&done(&alone[0], words), name) != of_target(&due, name));
                    // A selection takes the target's own along.
                    if words.starts_with("windows") || words.starts_with("mask") {
                        let selected = done(&f, &format!("{} --target {}", words, name));
                        assert_eq!(of_target(&selected, name), of_target(&due, name), "{}: target {} alone", words, name);
                    }
                }
                // With the first tolerance for all, this would be another answer.
                assert!(differ > 0, "{}", words);
            }
            // A sweep that lists some targets, and the lines worked out again.
            done(&f, "sweep plan.toml -q --csv some.csv --target C --target E");
            for (name, i) in [("C", 2), ("E", 4)] {
                assert_eq!(of_target(&f.read("some.csv"), name), of_target(&done(&alone[i], "windows plan.toml --csv -"), name));
            }
            assert!(done(&f, "check plan.toml --recompute").contains("3 lines worked out again: each is the same"));
        }
    }
}

/// The probes of each line are sums over its cells, each with its target's tolerance: of all lines, the sum over the targets.
#[test]
fn probes_are_counted_with_each_target_s_tolerance() {
    let probes = |f: &Folder| json(&done(f, "windows plan.toml --json -"))["probes"].as_u64().unwrap();
    let of =
        |t: &str, i: usize| probes(&folder(&format!("tolerance = {}\n", t), &format!("name,x,y,z\n{},{}\n", NAMES[i], VECTORS[i])).swept());
    let due: u64 = (0..5).map(|i| of(DIFFERENT[i], i)).sum();
    assert_ne!(due, (0..5).map(|i| of(DIFFERENT[0], i)).sum::<u64>());
    for (key, targets) in ways(&DIFFERENT) {
        assert_eq!(probes(&folder(&key, &targets).swept()), due);
    }
}

#[test]
fn a_sweep_continues_with_tolerances_given_in_another_way() {
    for tolerances in [DIFFERENT, ["15"; 5], ["nan"; 5]] {
        let ways = ways(&tolerances);
        let unbroken = folder(&ways[0].0, &ways[0].1).swept();
        for first in &ways {
            for second in &ways {
                let f = folder(&first.0, &first.1);
                run(&f, "sweep plan.toml -q --chunks 1").says(0, &["1 of 3 chunks have a line"]);
                write_plan(&f, second);
                assert!(done(&f, "check plan.toml --recompute").contains("plan.journal.plan is this plan's"));
                run(&f, "sweep plan.toml -q").says(0, &["3 of 3 chunks have a line"]);
                assert_eq!(f.sorted("plan.journal"), unbroken.sorted("plan.journal"));
                assert_eq!(f.read("plan.journal.plan"), unbroken.read("plan.journal.plan"));
                assert_eq!(done(&f, "windows plan.toml"), done(&unbroken, "windows plan.toml"));
            }
        }
    }
}

/// The header holds the first entry alone; J.plan shows the change.
#[test]
fn a_changed_tolerance_of_any_target_is_another_plan() {
    let old = ways(&DIFFERENT);
    for (k, changed) in [(1, "3.0000000000000004"), (4, "nan"), (2, "-0"), (3, "15")] {
        let mut other = DIFFERENT;
        other[k] = changed;
        for (then, now, file) in [
            (0, 0, "`rolls` or `tolerance` in plan.toml"),
            (0, 1, "`rolls` in plan.toml or the column `tolerance` of t.csv"),
            (1, 1, "`rolls` in plan.toml or the column `tolerance` of t.csv"),
        ] {
            let f = folder(&old[then].0, &old[then].1);
            run(&f, "sweep plan.toml -q --part 1/2").says(0, &["1 of 3 chunks have a line"]);
            write_plan(&f, &ways(&other)[now]);
            refused_as_another_plan(&f, file);
        }
    }
    // Without J.plan the lines show it, where they are worked out again: chunk 0 has the first two targets and some of the third.
    let f = folder(&old[0].0, &old[0].1).swept();
    std::fs::remove_file(f.path("plan.journal.plan")).unwrap();
    write_plan(&f, &(list(&["15", "15", "nan", "-1", "21.5"]), plain()));
    run(&f, "check plan.toml").says(0, &["warning: plan.journal.plan is missing"]);
    run(&f, "check plan.toml --recompute").says(1, &["plan.journal: 3 lines worked out again, and 1 is not the same", "line 2, chunk 0: "]);
}

#[test]
fn a_changed_first_tolerance_is_refused_by_the_header() {
    for (key, targets) in ways(&DIFFERENT) {
        let f = folder(&key, &targets);
        run(&f, "sweep plan.toml -q --part 1/2").says(0, &[]);
        let mut other = DIFFERENT;
        other[0] = "16";
        for way in ways(&other) {
            write_plan(&f, &way);
            let says = "refused with 11: plan.journal: the header is not this plan's; nothing was changed\n  line 1, column 25: \
                first tolerance reads 402e000000000000 (15.0); this plan's is 4030000000000000 (16.0)";
            for words in ["check", "status", "windows", "mask", "sweep"] {
                run(&f, &format!("{} plan.toml", words)).says(1, &[says]);
            }
        }
    }
}

#[test]
fn the_header_holds_the_first_tolerance() {
    for (first, bits) in
        [("15", "402e000000000000"), ("nan", "7ff8000000000000"), ("-inf", "fff0000000000000"), ("-0.0", "8000000000000000")]
    {
        let mut tolerances = DIFFERENT;
        tolerances[0] = first;
        for (key, targets) in ways(&tolerances) {
            assert_eq!(&folder(&key, &targets).swept().read("plan.journal")[24..40], bits);
        }
    }
    for (key, targets) in [("tolerance = 15\n", "name,x,y,z\n"), ("tolerance = []\n", "name,ra,dec\n"), ("", "name,ra,dec,tolerance\n")] {
        let f = folder(key, targets).swept();
        assert_eq!(&f.read("plan.journal")[24..40], "0000000000000000");
        assert!(done(&f, "status plan.toml").contains("settings 8 rolls, tolerance none, panel"));
        let told = json(&done(&f, "status plan.toml --json"));
        assert_eq!((&told["tolerance_deg"], &told["tolerances_deg"]), (&json!(null), &json!([])));
        // Whichever way, it is the same plan.
        write_plan(&f, &("tolerance = 7\n".into(), "name,x,y,z\n".into()));
        run(&f, "sweep plan.toml").says(0, &["0 of 0 chunks have a line"]);
    }
}

#[test]
fn every_command_refuses_wrong_tolerances() {
    const ALLOWED: &str = "one number of degrees for all targets, or a list with one for each";
    const NUMBER: &str = "degrees of roll as one number, such as 5 or 0.25";
    let of_column = |cell| column(&["15", "3", cell, "-1", "21.5"]);
    for (key, targets, status, says) in [
        (
            list(&["1", "2"]),
            plain(),
            1,
            format!("refused with 17: plan.toml, line 4, column 13: tolerance lists 2 numbers, and t.csv has 5 targets; allowed: {}", ALLOWED),
        ),
        (
            list(&["1"; 6]),
            plain(),
            1,
            format!("refused with 17: plan.toml, line 4, column 13: tolerance lists 6 numbers, and t.csv has 5 targets; allowed: {}", ALLOWED),
        ),
        (
            "tolerance = 15\n".to_owned(),
            of_column("7"),
            3,
            "plan.toml, line 4, column 13: tolerance reads 15, and t.csv, line 1, column 1 names a column `tolerance` too; allowed: one of the \
             two: remove this key, or remove or rename that column"
                .to_owned(),
        ),
        (
            String::new(),
            plain(),
            3,
            format!("plan.toml, line 1, column 1: `tolerance` is missing; allowed: {}, or a column `tolerance` in t.csv", ALLOWED),
        ),
        (String::new(), of_column(""), 3, format!("t.csv, line 4, column 1: tolerance reads ``; allowed: {}", NUMBER)),
        (String::new(), of_column("5°"), 3, format!("t.csv, line 4, column 1: tolerance reads `5°`; allowed: {}", NUMBER)),
        (
            list(&["1", "2", "'3'", "4", "5"]),
            plain(),
            3,
            format!("plan.toml, line 4, column 13: tolerance reads [1, 2, '3', 4, 5], and its entry 3 is not a number; allowed: {}", ALLOWED),
        ),
    ] {
        refused_by_every_command(&folder(&key, &targets), status, &says);
    }
}

/// The ways and the sentences that docs/PLAN_FILE.md shows.
#[test]
fn the_document_s_examples_of_tolerances_hold() {
    let (document, shown) = document();
    let column = "name,ra,dec,tolerance\nVega,279.235,38.784,5\nDeneb,310.358,45.280,0.5\n";
    let three = "name,ra,dec\nVega,279.235,38.784\nDeneb,310.358,45.280\nAltair,297.696,8.868\n";
    let two = three.replace("Altair,297.696,8.868\n", "");
    let f = folder("", "");
    let check = |key: &str, targets: &str| {
        f.write("plan.toml", &format!("targets = \"targets.csv\"\nephemeris = \"e.csv\"\nrolls = 24\n{}", key));
        f.write("targets.csv", targets);
        run(&f, "check plan.toml")
    };
    assert!(document.contains(column) && document.contains("\ntolerance = 5\n") && document.contains("\ntolerance = [5, 0.5]\n"));
    assert!(check("tolerance = 5\n", &two).stdout.contains(" tolerance 5, "));
    for (key, targets) in [("tolerance = [5, 0.5]\n", &two[..]), ("", column)] {
        assert!(check(key, targets).stdout.contains(" tolerance 0.5 to 5 by target, "));
    }
    for (key, targets) in [
        ("tolerance = [5, 0.5]\n", three),
        ("tolerance = 5\n", column),
        ("", three),
        ("tolerance = [5, \"0.5\"]\n", three),
        ("", &column.replace("0.5", "")),
    ] {
        let said = check(key, targets).stderr;
        assert!(said.starts_with("wilfnusk: ") && shown.contains(said.trim_end()), "not in docs/PLAN_FILE.md: {}", said);
    }
}

#[test]
fn a_severity_that_would_be_infinite_names_its_target() {
    let mut tolerances = DIFFERENT;
    tolerances[3] = "-inf";
    const ALLOWED: &str = ", and the severities at the configured roll would be infinite; allowed with --evaluate: any number except -inf";
    for ((key, targets), at) in ways(&tolerances).into_iter().zip([
        "plan.toml, line 4, column 26: tolerance of target `D` reads -inf",
        "t.csv, line 5, column 1: tolerance of target `D` reads `-inf`",
    ]) {
        let f = folder(&(key + "configured_roll = 40.5\n"), &targets);
        run(&f, "windows plan.toml --evaluate").says(1, &[&format!("refused with 14: {}{}", at, ALLOWED)]);
        run(&f, "windows plan.toml --evaluate --target D").says(1, &[&format!("refused with 14: {}{}", at, ALLOWED)]);
        // Another target has severities.
        run(&f, "windows plan.toml --evaluate --target E").says(0, &[]);
    }
}

#[test]
fn listings_give_each_target_its_tolerance() {
    let numbers = [json!(15.0), json!(3.0), json!("nan"), json!(-1.0), json!(21.5)];
    for (key, targets) in ways(&DIFFERENT) {
        let f = folder(&key, &targets).swept();
        assert!(done(&f, "status plan.toml").contains("settings 8 rolls, tolerance -1 to 21.5, or NaN, by target, panel"));
        assert!(done(&f, "check plan.toml").contains("settings 8 rolls, tolerance -1 to 21.5, or NaN, by target, panel"));
        let told = json(&done(&f, "status plan.toml --json"));
        assert_eq!((&told["tolerance_deg"], &told["tolerances_deg"]), (&json!(null), &json!(numbers)));
        let told = json(&done(&f, "windows plan.toml --json -"));
        assert_eq!(told["tolerance_deg"], json!(null));
        assert!((0..5).all(|i| told["targets"][i]["tolerance_deg"] == numbers[i]), "{}", told);
        let told = json(&done(&f, "windows plan.toml --json - --target E --target B"));
        assert_eq!([0, 1].map(|i| &told["targets"][i]["tolerance_deg"]), [&numbers[1], &numbers[4]]);
        let table = done(&f, "windows plan.toml --target [BE]");
        assert!(table.contains("\nB\n  tolerance 3\n  total ") && table.contains("\nE\n  tolerance 21.5\n  total "), "{}", table);
        let svg = done(&f, "windows plan.toml --svg - --target [BE]");
        assert!(svg.contains(", 8 rolls, tolerance -1° to 21.5°, or NaN, by target<"), "{}", svg);
        assert!(svg.contains("<title>B: tolerance 3°</title>") && svg.contains("<title>E: tolerance 21.5°</title>"), "{}", svg);
    }
    // A tolerance that is the same for all is printed once.
    let outputs = |f: &Folder| {
        ["status plan.toml", "status plan.toml --json", "windows plan.toml", "windows plan.toml --json -", "windows plan.toml --svg -"]
            .map(|words| done(f, words))
    };
    let same: Vec<_> = ways(&["15"; 5]).iter().map(|(key, targets)| outputs(&folder(key, targets).swept())).collect();
    assert!(same[0] == same[1] && same[0] == same[2]);
    let [status, state, table, windows, svg] = &same[0];
    assert!(status.contains("settings 8 rolls, tolerance 15, panel") && !table.contains("tolerance") && !svg.contains("A: tolerance"));
    let (state, windows) = (json(state), json(windows));
    assert_eq!((&state["tolerance_deg"], &state["tolerances_deg"]), (&json!(15.0), &json!(null)));
    assert_eq!((&windows["tolerance_deg"], &windows["targets"][4]["tolerance_deg"]), (&json!(15.0), &json!(15.0)));
}

/// Parts of a sweep whose plans give the same tolerances, in whichever way, are merged; a part with other tolerances is refused.
#[test]
fn parts_with_the_same_tolerances_are_merged() {
    let ways = ways(&DIFFERENT);
    let f = folder(&ways[0].0, &ways[0].1);
    done(&f, "sweep plan.toml -q --journal part1.journal --part 1/2");
    write_plan(&f, &ways[1]);
    done(&f, "sweep plan.toml -q --journal part2.journal --part 2/2");
    done(&f, "merge plan.toml part1.journal part2.journal -o plan.journal --recompute");
    let unbroken = folder(&ways[0].0, &ways[0].1).swept();
    assert_eq!((f.read("plan.journal"), f.read("plan.journal.plan")), (unbroken.read("plan.journal"), unbroken.read("plan.journal.plan")));
    write_plan(&f, &(list(&["15", "3", "nan", "-1", "22"]), plain()));
    done(&f, "sweep plan.toml -q --journal part3.journal --part 2/2");
    write_plan(&f, &ways[1]);
    run(&f, "merge plan.toml part1.journal part3.journal -o all.journal")
        .says(3, &["`rolls` in plan.toml or the column `tolerance` of t.csv: its numbers are not those that part3.journal was begun with"]);
    assert!(!f.path("all.journal").exists());
}

#[test]
fn a_tolerance_of_half_a_step_is_warned_of() {
    for (settings, is_warned) in [
        ("rolls = 24\ntolerance = 8\n", true),
        ("rolls = 24\ntolerance = 7.5\n", true),
        ("rolls = 24\ntolerance = 7\n", false),
        ("rolls = 24\ntolerance = 8\nconfigured_roll = 0\n", false),
    ] {
        let f = Folder::new(&["A"], "0", "");
        f.write("plan.toml", &format!("targets = \"t.csv\"\nephemeris = \"e.csv\"\n{}", settings));
        for command in ["check", "sweep", "windows"] {
            let ended = run(&f, &format!("{} plan.toml", command));
            assert_eq!(ended.status, 0, "{:?}", ended);
            let text = ended.stdout + &ended.stderr;
            assert_eq!(text.contains("nothing can be violated"), is_warned, "{} {}: {}", command, settings, text);
        }
    }
    const WIDE: &str = "2 of 5 tolerances are 22.5 or more (`B`, `E`), and no roll is further than 22.5 degrees from the nearest of 8: \
        nothing of these targets can be violated\n";
    for ((key, targets), at) in
        ways(&["15", "23", "nan", "-1", "inf"]).into_iter().zip(["plan.toml, line 4, column 18", "t.csv, line 3, column 1"])
    {
        let f = folder(&key, &targets);
        assert!(done(&f, "check plan.toml").contains(&format!("\nwarning: {}: {}", at, WIDE)));
        run(&f, "sweep plan.toml -q").says(0, &[&format!("warning: {}: {}", at, WIDE)]);
        run(&f, "windows plan.toml").says(0, &[&format!("warning: {}: {}", at, WIDE)]);
        // It is so.
        let mask = done(&f, "mask plan.toml");
        assert!(mask.lines().all(|line| line.contains('1') == (line.ends_with('A') || line.ends_with('D'))), "{}", mask);
    }
}
