//! Whole commands on a table of rolls: a sweep tries these and no others, J.plan shows that a table was changed, and a command that needs even steps says so.
mod common;

use common::{document, done, ephemeris, json, refused_as_another_plan, refused_by_every_command, run, Folder};
use serde_json::json;
use std::{
    fs,
    time::{Duration, Instant},
};

const TABLE: &str = "[0, 15.5, 90, 200.25, 359.5]";
const ROLLS: [f64; 5] = [0.0, 15.5, 90.0, 200.25, 359.5];
const TOLERANCE: &str = "tolerance = 20\n";
const CELLS: usize = 150;

/// 3 targets at 50 times, 150 cells in 3 chunks.
fn folder(rolls: &str, more: &str) -> Folder {
    let f = Folder::new(&[], "", "");
    write_plan(&f, rolls, more);
    f.write("t.csv", "name,x,y,z\nA,1,0,0\nB,0,0.6,0.8\nC,0,-1,0\n");
    f.write("e.csv", &ephemeris(50));
    f
}
/// Writes the folder's plan with these rolls and further keys.
fn write_plan(f: &Folder, rolls: &str, more: &str) {
    f.write("plan.toml", &format!("targets = \"t.csv\"\nephemeris = \"e.csv\"\nrolls = {}\n{}", rolls, more));
}

/// Rolls are tried in their order up to the first that does not violate the cell; where each does, the cell is marked. A configured roll
/// stands for each of them.
#[test]
fn a_cell_is_marked_when_every_roll_of_the_table_violates_it() {
    for (more, differs) in [
        (TOLERANCE, true),
        ("tolerance = [20, nan, -1]\n", true),
        ("tolerance = 70\n", true),
        ("tolerance = 20\nconfigured_roll = 100\n", false),
    ] {
        let f = folder(TABLE, more).swept();
        let at = |roll: f64| done(&f, &format!("mask plan.toml --form raw --roll {}", roll)).into_bytes();
        let masks = ROLLS.map(at);
        let tried: Vec<_> = (0..CELLS).map(|cell| masks.iter().position(|mask| mask[cell] == 0)).collect();
        let due: Vec<u8> = tried.iter().map(|first| first.is_none().into()).collect();
        let probes: usize = tried.iter().map(|first| first.map_or(ROLLS.len(), |k| k + 1)).sum();
        assert_eq!(done(&f, "mask plan.toml --form raw").into_bytes(), due, "{}", more);
        assert_eq!(json(&done(&f, "windows plan.toml --json -"))["probes"], json!(probes), "{}", more);
        assert!(due.contains(&0) && due.contains(&1), "{}", more);
        // As many even steps would mark other cells, unless a roll is configured: then every sample is that.
        let even = folder("5", more).swept();
        assert_eq!(even.read("plan.journal") != f.read("plan.journal"), differs, "{}", more);
        assert_eq!(&f.read("plan.journal")[16..24], "00000005");
        if !differs {
            for words in ["windows plan.toml --evaluate --csv -", "windows plan.toml --csv -", "mask plan.toml"] {
                assert_eq!(done(&f, words), done(&even, words));
            }
        }
    }
}

/// However the file writes its numbers, and wherever the sweep was cut.
#[test]
fn a_sweep_continues_with_the_same_table() {
    let unbroken = folder(TABLE, TOLERANCE).swept();
    let journal = unbroken.read("plan.journal");
    for other in [TABLE, "[0, 1.55e1, 9e1, 2.0025e2, 359.50]", "[\n  0.0, # rest\n  15.5,\n  90.0, 200.25,\n  359.5,\n]"] {
        let f = folder(TABLE, TOLERANCE);
        run(&f, "sweep plan.toml -q --chunks 1").says(0, &["1 of 3 chunks have a line; missing: 0, 2"]);
        run(&f, "status plan.toml").says(4, &[]);
        f.write("plan.journal", &(f.read("plan.journal") + "0000000"));
        write_plan(&f, other, TOLERANCE);
        assert!(done(&f, "check plan.toml --recompute").contains("1 line worked out again: each is the same"));
        run(&f, "sweep plan.toml -q")
            .says(0, &["recovered plan.journal: removed 7 bytes of a write that did not end\n", "3 of 3 chunks have a line"]);
        assert_eq!(f.sorted("plan.journal"), unbroken.sorted("plan.journal"));
        assert_eq!(f.read("plan.journal.plan"), unbroken.read("plan.journal.plan"));
        assert_eq!(done(&f, "windows plan.toml"), done(&unbroken, "windows plan.toml"));
        assert!(done(&f, "check plan.toml --recompute").contains("3 lines worked out again: each is the same"));
        assert!(done(&f, "check plan.toml --recompute --sample 2 --seed 1").contains("2 of 3 lines, drawn with --seed 1, worked out again"));
    }
    // Cut where no line is whole.
    for left in [0, 1, 106, 107, 139] {
        let f = folder(TABLE, TOLERANCE);
        f.write("plan.journal", &journal[..left]);
        run(&f, "sweep plan.toml -q").says(0, &["3 of 3 chunks have a line"]);
        assert_eq!((f.read("plan.journal"), f.read("plan.journal.plan")), (journal.clone(), unbroken.read("plan.journal.plan")));
    }
}

/// The header has the number of rolls alone; J.plan shows which they are.
#[test]
fn another_table_of_the_same_length_is_another_plan() {
    // It is refused too where the lines come out the same: the program cannot know that they do.
    for (then, now, same) in [
        (TABLE, "[0, 15.5, 90, 200.25, 359.49999999999994]", true),
        (TABLE, "[-0.0, 15.5, 90, 200.25, 359.5]", true),
        (TABLE, "[0, 15.5, 90, 230, 359.5]", false),
        (TABLE, "5", false),
        ("5", TABLE, false),
        ("5", "[0, 72, 144, 216, 288]", true),
        ("[0, 72, 144, 216, 288]", "5", true),
    ] {
        let f = folder(then, TOLERANCE);
        done(&f, "sweep plan.toml -q --part 1/2");
        write_plan(&f, now, TOLERANCE);
        refused_as_another_plan(&f, "`rolls` or `tolerance` in plan.toml");
        // What the sentence says to do: a journal of its own, and the old file.
        run(&f, "sweep plan.toml -q --journal own.journal").says(0, &["3 of 3 chunks have a line"]);
        write_plan(&f, then, TOLERANCE);
        run(&f, "sweep plan.toml -q").says(0, &["3 of 3 chunks have a line"]);
        assert_eq!(f.sorted("plan.journal") == f.sorted("own.journal"), same, "{} {}", then, now);
    }
    // Of one target it can be nothing else.
    let f = folder(TABLE, TOLERANCE);
    f.write("t.csv", "name,x,y,z\nA,1,0,0\n");
    done(&f, "sweep plan.toml -q");
    write_plan(&f, "5", TOLERANCE);
    refused_as_another_plan(&f, "`rolls` in plan.toml");
    // Without J.plan the lines show it, where they are worked out again.
    fs::remove_file(f.path("plan.journal.plan")).unwrap();
    run(&f, "check plan.toml")
        .says(0, &["warning: plan.journal.plan is missing: nothing shows whether", "positions, tolerances and rolls."]);
    run(&f, "check plan.toml --recompute").says(1, &["plan.journal: 1 line worked out again, and 1 is not the same"]);
}

#[test]
fn a_table_of_another_length_is_refused_by_the_header() {
    let f = folder(TABLE, TOLERANCE).swept();
    let before = f.all();
    for (rolls, digits) in [("[0, 15.5, 90, 200.25]", "00000004 (4)"), ("6", "00000006 (6)"), ("[7]", "00000001 (1)")] {
        write_plan(&f, rolls, TOLERANCE);
        let says = format!(
            "refused with 11: plan.journal: the header is not this plan's; nothing was changed\n  line 1, column 17: rolls reads 00000005 (5); \
             this plan's is {}\n",
            digits
        );
        for words in ["check", "status", "windows", "mask", "sweep"] {
            run(&f, &format!("{} plan.toml", words)).says(1, &[&says]);
        }
    }
    write_plan(&f, TABLE, TOLERANCE);
    assert!(f.all() == before);
}

/// They are the same rolls to the bit, and so is every output except the record in J.plan.
#[test]
fn even_steps_given_as_a_table_are_the_same_sweep() {
    for n in [1, 7, 8, 72] {
        let table = format!("{:?}", (0..n).map(|k| k as f64 * (360.0 / n as f64)).collect::<Vec<_>>());
        let (even, by_table) = (folder(&n.to_string(), TOLERANCE).swept(), folder(&table, TOLERANCE).swept());
        assert_eq!(even.read("plan.journal"), by_table.read("plan.journal"));
        for words in ["windows plan.toml", "windows plan.toml --csv -", "mask plan.toml", "cost plan.toml --json", "rolls plan.toml"] {
            assert_eq!(done(&even, words), done(&by_table, words), "{} of {}", words, n);
        }
        let (a, b) = (even.read("plan.journal.plan"), by_table.read("plan.journal.plan"));
        let same: Vec<_> = a.lines().zip(b.lines()).map(|(a, b)| a == b).collect();
        assert_eq!(same, [true, false, true, true]);
    }
}

/// A sweep split over machines is merged by the table; a part of another table is named.
#[test]
fn parts_with_the_same_table_are_merged() {
    let unbroken = folder(TABLE, TOLERANCE).swept();
    let f = folder(TABLE, TOLERANCE);
    done(&f, "sweep plan.toml -q --journal a.journal --part 1/2");
    done(&f, "sweep plan.toml -q --journal b.journal --part 2/2");
    done(&f, "merge plan.toml a.journal b.journal -o plan.journal --recompute");
    for file in ["plan.journal", "plan.journal.plan"] {
        assert_eq!(f.read(file), unbroken.read(file));
    }
    assert_eq!(done(&f, "sweep plan.toml -q --csv -"), done(&unbroken, "windows plan.toml --csv -"));
    for other in ["[0, 15.5, 90, 200.25, 300]", "5"] {
        write_plan(&f, other, TOLERANCE);
        let journal = format!("other{}.journal", other.len());
        done(&f, &format!("sweep plan.toml -q --journal {} --part 2/2", journal));
        write_plan(&f, TABLE, TOLERANCE);
        run(&f, &format!("merge plan.toml a.journal {} -o all.journal", journal))
            .says(3, &[&format!("`rolls` or `tolerance` in plan.toml: its numbers are not those that {} was begun with", journal)]);
        assert!(!f.path("all.journal").exists());
    }
}

#[test]
fn every_command_refuses_a_wrong_table() {
    const ALLOWED: &str = "; allowed: a whole number of rolls, 1 to 3600, or a list of 1 to 3600 rolls in degrees";
    const ENTRY: &str = "; allowed: 0 up to but not at 360 degrees, each above the one before it";
    let many = format!("{:?}", (0..3601).map(|k| k as f64 * 0.09).collect::<Vec<_>>());
    for (rolls, status, says) in [
        ("[]", 1, format!("refused with 18: plan.toml, line 3, column 9: rolls lists 0 numbers{}", ALLOWED)),
        (&many, 1, format!("refused with 18: plan.toml, line 3, column 9: rolls lists 3,601 numbers{}", ALLOWED)),
        ("[0, 90, 360]", 1, format!("refused with 19: plan.toml, line 3, column 17: entry 3 of rolls reads 360{}", ENTRY)),
        ("[-0.5, 90]", 1, format!("refused with 19: plan.toml, line 3, column 10: entry 1 of rolls reads -0.5{}", ENTRY)),
        ("[0, nan]", 1, format!("refused with 19: plan.toml, line 3, column 13: entry 2 of rolls reads nan{}", ENTRY)),
        ("[inf]", 1, format!("refused with 19: plan.toml, line 3, column 10: entry 1 of rolls reads inf{}", ENTRY)),
        (
            "[0,\n 90,\n 15.5,\n 10]",
            1,
            format!("refused with 19: plan.toml, line 5, column 2: entry 3 of rolls reads 15.5, and entry 2 before it 90{}", ENTRY),
        ),
        (
            "[-0.0, 0]",
            1,
            format!("refused with 19: plan.toml, line 3, column 16: entry 2 of rolls reads 0, and entry 1 before it -0.0{}", ENTRY),
        ),
        ("[0, \"90\"]", 3, format!("plan.toml, line 3, column 9: rolls reads [0, \"90\"], and its entry 2 is not a number{}", ALLOWED)),
        ("[[0, 90]]", 3, format!("plan.toml, line 3, column 9: rolls reads [[0, 90]], and its entry 1 is not a number{}", ALLOWED)),
        ("90.5", 3, format!("plan.toml, line 3, column 9: rolls reads 90.5{}", ALLOWED)),
    ] {
        refused_by_every_command(&folder(rolls, TOLERANCE), status, &says);
    }
}

/// At the place of refusal 3: before positions, directions, the panel and the tolerances, all of which are wrong here.
#[test]
fn a_table_is_checked_before_positions() {
    for (rolls, says) in [
        ("[]", "refused with 18: plan.toml, line 3, "),
        ("[0, 90, 90]", "refused with 19: plan.toml, line 3, "),
        ("3601", "refused with 3: plan.toml, line 3, "),
        ("[0, 90]", "refused with 4: e.csv, line 2, column 22: sun_x reads `1e101`"),
    ] {
        let f = folder(rolls, "tolerance = [1]\npanel = [0, inf, 0]\n");
        f.write("t.csv", "name,x,y,z\nA,1.5,0,0\nB,0,1,0\n");
        f.write("e.csv", &f.read("e.csv").replacen("Z,1,", "Z,1e101,", 1));
        run(&f, "check plan.toml").says(1, &[says]);
    }
}

/// Its marks are by the nearest of even steps. At one roll it needs none of them.
#[test]
fn the_field_of_regard_at_every_roll_needs_even_steps() {
    for (rolls, words) in [
        (TABLE, "a table of 5 rolls from 0 to 359.5"),
        ("[0, 72, 144, 216, 288]", "a table of 5 rolls from 0 to 288"),
        ("[47.5]", "a table of 1 roll at 47.5"),
    ] {
        let f = folder(rolls, TOLERANCE).swept();
        for sample in ["--sample 7", "--time 2026-03-20T00:07:00Z", "--sample 7 --target A"] {
            let ended = run(&f, &format!("regard plan.toml {}", sample));
            let says = format!(
                "wilfnusk: plan.toml, line 3, column 9: rolls is {}, and without --roll even steps are needed; allowed: --roll DEG for the marks at \
                 one roll, or the mask of a sweep over the table: `wilfnusk mask plan.toml --from TIME --to TIME`\n",
                words
            );
            assert_eq!((ended.status, ended.stdout.as_str(), ended.stderr), (2, "", says));
        }
        // What the sentence says to do.
        let at = "--from 2026-03-20T00:07:00Z --to 2026-03-20T00:07:00Z";
        let marks = |mask: String| mask.lines().map(|line| if line.starts_with('0') { "clear" } else { "violated" }).collect::<Vec<_>>();
        let regarded = done(&f, "regard plan.toml --sample 7 --roll 30");
        assert_eq!(
            regarded.lines().map(|line| line.split(' ').next().unwrap()).collect::<Vec<_>>(),
            marks(done(&f, &format!("mask plan.toml --roll 30 {}", at)))
        );
        assert_eq!(done(&f, &format!("mask plan.toml {}", at)).lines().count(), 3);
    }
    let even = folder("5", TOLERANCE);
    assert_eq!(done(&even, "regard plan.toml --sample 7").lines().count(), 3);
    assert!(done(&even, "regard --help").contains("at every roll of the plan, which must then be even steps"));
    // A configured roll stands for all: `--roll` gives its marks, whichever roll it names.
    let [f, even] = [TABLE, "5"].map(|rolls| folder(rolls, &format!("{}configured_roll = 30\n", TOLERANCE)));
    assert_eq!(run(&f, "regard plan.toml --sample 7").status, 2);
    assert_eq!(done(&f, "regard plan.toml --sample 7 --roll 0"), done(&even, "regard plan.toml --sample 7"));
}

#[test]
fn status_and_listings_show_the_table() {
    for (rolls, numbers, words, picture) in [
        (TABLE, json!(ROLLS), "a table of 5 rolls from 0 to 359.5", "a table of 5 rolls from 0° to 359.5°"),
        ("[47.5]", json!([47.5]), "a table of 1 roll at 47.5", "a table of 1 roll at 47.5°"),
        ("8", json!(null), "8 rolls", "8 rolls"),
    ] {
        let f = folder(rolls, TOLERANCE).swept();
        for command in ["check", "status"] {
            assert!(done(&f, &format!("{} plan.toml", command)).contains(&format!("\nsettings {}, tolerance 20, panel ", words)));
        }
        let count = numbers.as_array().map_or(8, Vec::len);
        for words in ["status plan.toml --json", "windows plan.toml --json -"] {
            let told = json(&done(&f, words));
            assert_eq!((&told["rolls"], &told["rolls_deg"]), (&json!(count), &numbers), "{}", words);
        }
        assert!(done(&f, "windows plan.toml --svg -").contains(&format!(">3 targets, 50 times, {}, tolerance 20°<", picture)));
        // The cost is that of as many rolls.
        let size = format!("cost --targets 3 --times 50 --rolls {}", count);
        assert_eq!(done(&f, "cost plan.toml"), done(&f, &size));
        assert_eq!(done(&f, "cost plan.toml --json"), done(&f, &format!("{} --json", size)));
        assert!(done(&f, "check plan.toml").ends_with(&done(&f, &size)));
    }
}

/// The rolls that a sweep tried are within what was foretold of as many.
#[test]
fn a_line_has_as_many_probes_as_the_table_allows() {
    let f = folder(TABLE, TOLERANCE).swept();
    let foretold = json(&done(&f, "cost plan.toml --json"));
    let probes = json(&done(&f, "windows plan.toml --json -"))["probes"].as_u64().unwrap();
    assert!((foretold["fewest_probes"].as_u64().unwrap()..=foretold["most_probes"].as_u64().unwrap()).contains(&probes));
    assert_eq!(foretold["journal_bytes"], json!(f.read("plan.journal").len()));
    // One more than five per cell is refused.
    let journal = f.read("plan.journal");
    let line = journal.lines().nth(1).unwrap();
    let wrong = format!("{}{:08x}", &line[..24], 5 * 64 + 1);
    f.write("plan.journal", &journal.replacen(line, &wrong, 1));
    run(&f, "check plan.toml").says(1, &["line 2, column 25: 321 probes; allowed for that mask: ", " to 320\n"]);
}

#[test]
fn a_tolerance_of_half_the_largest_gap_is_warned_of() {
    for (rolls, tolerance, warning) in [
        // Between 90 and 250.
        ("[0, 90, 250]", "80.5", Some("80 degrees from the nearest of 3: nothing can be violated\n")),
        (
            "[0, 90, 250]",
            "80",
            Some("80 degrees from the nearest of 3: nothing can be violated except by rounding, midway between two of them\n"),
        ),
        ("[0, 90, 250]", "79.9", None),
        // From 130 on to 100, through 0.
        ("[100, 110, 130]", "166", Some("165 degrees from the nearest of 3: nothing can be violated\n")),
        ("[100, 110, 130]", "164.9", None),
        ("[47.5]", "180", Some("180 degrees from the nearest of 1: nothing can be violated\n")),
        ("[47.5]", "179", None),
        ("[0, 90, 250]\nconfigured_roll = 1", "100", None),
    ] {
        let f = folder(rolls, &format!("tolerance = {}\n", tolerance));
        for command in ["check plan.toml", "sweep plan.toml -q", "windows plan.toml"] {
            let ended = run(&f, command);
            assert_eq!(ended.status, 0, "{:?}", ended);
            let text = ended.stdout + &ended.stderr;
            match warning {
                Some(says) => {
                    assert!(text.contains(&format!("tolerance reads {}, and no roll is further than {}", tolerance, says)), "{}", text)
                }
                None => assert!(!text.contains("nothing can be violated"), "{}", text),
            }
        }
        if matches!(warning, Some(says) if !says.contains("rounding")) {
            assert!(!done(&f, "mask plan.toml --form csv").contains(",1\n"));
        }
    }
}

#[test]
fn a_table_of_3600_rolls_is_swept() {
    let table: Vec<f64> = (0..3600).map(|k| 359.99999999999994 * (k as f64 / 3599.0).powf(1.5)).collect();
    let text = format!("{:?}", table);
    let f = folder(&text, "tolerance = 0.02\n");
    let begun = Instant::now();
    done(&f, "check plan.toml");
    assert!(begun.elapsed() < Duration::from_secs(10), "{:?}", begun.elapsed());
    run(&f, "sweep plan.toml -q").says(0, &["3 of 3 chunks have a line"]);
    assert_eq!(&f.read("plan.journal")[16..24], "00000e10");
    // As text, for the JSON reader is off by a bit at times.
    let told = done(&f, "status plan.toml --json");
    let list = told.split("\"rolls_deg\": [").nth(1).unwrap().split(']').next().unwrap();
    assert_eq!(list.split(',').map(|number| number.trim().parse().unwrap()).collect::<Vec<f64>>(), table);
    // The last of them counts, and its place is named where it is wrong.
    let last = text.rfind(' ').unwrap() + 1;
    write_plan(&f, &format!("{}360]", &text[..last]), "tolerance = 0.02\n");
    let says = format!("refused with 19: plan.toml, line 3, column {}: entry 3,600 of rolls reads 360; ", 9 + last);
    run(&f, "check plan.toml").says(1, &[&says]);
    write_plan(&f, &format!("{}359.9]", &text[..last]), "tolerance = 0.02\n");
    refused_as_another_plan(&f, "`rolls` or `tolerance` in plan.toml");
}

/// The table and the sentences that docs/PLAN_FILE.md shows.
#[test]
fn the_document_s_examples_of_a_table_hold() {
    let (document, shown) = document();
    assert!(document.contains("\nrolls = [0, 15.5, 90, 359.5]\n"));
    let f = folder("[0, 15.5, 90, 359.5]", TOLERANCE);
    assert!(done(&f, "check plan.toml").contains("\nsettings a table of 4 rolls from 0 to 359.5, "));
    let mut said = vec![run(&f, "regard plan.toml --sample 3").stderr];
    for rolls in ["[]", "[0, 15.5, 90, 360]", "[0, 90, 15.5, 359.5]"] {
        write_plan(&f, rolls, TOLERANCE);
        said.push(run(&f, "check plan.toml").stderr);
    }
    for said in said {
        assert!(said.starts_with("wilfnusk: ") && shown.contains(said.trim_end()), "not in docs/PLAN_FILE.md: {}", said);
    }
}
