//! Listings: what a terminal is shown, totals, selection, how far a sweep is.
mod common;

use common::{done, json, Folder};
use serde_json::{json, Value};
use std::{
    collections::{BTreeSet, HashMap},
    sync::OnceLock,
};

fn folder() -> Folder {
    Folder::new(&["Vega", "M 31"], "0010110", "tolerance = 10\n")
}

/// The example, swept once for all tests.
fn demo() -> &'static Folder {
    static SWEPT: OnceLock<Folder> = OnceLock::new();
    SWEPT.get_or_init(|| {
        let f = Folder::new(&[], "", "");
        f.run(&["example", "season"]).says(0, &[]);
        f.run(&["sweep", "season/plan.toml", "-q"]).says(0, &[]);
        f
    })
}

#[test]
fn control_characters_are_escaped_for_a_terminal_and_exact_in_files() {
    let names = ["Ve\u{1b}[31mga", "a\nb\rc", "\u{9b}2J", "\u{202e}x"];
    let f = Folder::new(&names, "0010110", "tolerance = 10\n").swept();
    for words in [&["windows", "plan.toml"][..], &["mask", "plan.toml"], &["regard", "plan.toml", "--sample", "2"]] {
        let ended = f.run(words);
        assert_eq!(ended.status, 0, "{:?}", ended);
        for shown in [r"Ve\u{1b}[31mga", r"a\nb\rc", r"\u{9b}2J", r"\u{202e}x"] {
            assert!(ended.stdout.lines().any(|line| line.ends_with(shown)), "{:?}: {}", words, ended.stdout);
        }
        assert!(!ended.stdout.contains(|c: char| (c.is_control() && c != '\n') || c == '\u{202e}'), "{:?}", words);
    }
    let csv = f.run(&["windows", "plan.toml", "--csv", "-"]).stdout;
    let json = json(&f.run(&["windows", "plan.toml", "--json", "-"]).stdout);
    for (i, name) in names.iter().enumerate() {
        assert!(csv.contains(name));
        assert_eq!(json["targets"][i]["name"], *name);
    }
    std::fs::copy(f.path("plan.toml"), f.path("p\u{1b}[2J.toml")).unwrap();
    let status = f.run(&["status", "p\u{1b}[2J.toml"]).stdout;
    assert!(status.contains(r"p\u{1b}[2J.toml: 4 targets") && !status.contains('\u{1b}'), "{}", status);
    // Messages, of a cell, a key and a word of the command line.
    f.write("t.csv", "name,x,y,z\nA,1\u{1b}[2J,0,0\n");
    let cell = f.run(&["windows", "plan.toml"]);
    f.write("plan.toml", "\"key\\u001b[2J\" = 1\n");
    let key = f.run(&["windows", "plan.toml"]);
    let path = f.run(&["windows", "\u{1b}[2J.toml"]);
    for ended in [cell, key, path] {
        ended.says(3, &[r"\u{1b}[2J"]);
        assert!(!ended.stderr.contains('\u{1b}'), "{:?}", ended);
    }
}

#[test]
fn nan_and_infinite_settings_are_texts_in_json() {
    for (setting, tolerance, roll) in [
        ("tolerance = inf\n", json!("inf"), json!(null)),
        ("tolerance = -inf\nconfigured_roll = nan\n", json!("-inf"), json!("nan")),
        ("tolerance = nan\nconfigured_roll = -inf\n", json!("nan"), json!("-inf")),
        ("tolerance = 10\nconfigured_roll = 0.5\n", json!(10.0), json!(0.5)),
    ] {
        let f = Folder::new(&["A"], "01", setting).swept();
        for words in [&["windows", "plan.toml", "--json", "-"][..], &["status", "plan.toml", "--json"]] {
            let parsed = json(&f.run(words).stdout);
            assert_eq!((&parsed["tolerance_deg"], &parsed["configured_roll_deg"]), (&tolerance, &roll), "{}", setting);
        }
    }
}

#[test]
fn a_tolerance_without_severities_is_refused_with_the_place_of_its_key() {
    let f = Folder::new(&["A"], "01", "tolerance = -inf\nconfigured_roll = 0\n");
    let ended = f.run(&["windows", "plan.toml", "--evaluate"]);
    ended.says(1, &["refused with 14: plan.toml, line 4, column 13: tolerance reads -inf", "allowed with --evaluate"]);
}

#[test]
fn columns_have_a_space_between_them_however_wide() {
    let f = Folder::new(&["A"], "0110", "tolerance = -1e9\nconfigured_roll = 0\n");
    let table = f.run(&["windows", "plan.toml", "--evaluate"]).stdout;
    let line = table.lines().find(|line| line.contains("violated  2026")).unwrap();
    let words: Vec<_> = line.split_whitespace().collect();
    assert_eq!(words, ["violated", "2026-03-20T00:00:00Z", "2026-03-20T00:03:00Z>", "180", "1000000090.000"], "{}", line);
}

#[test]
fn one_target_one_time_and_one_window_are_in_the_singular() {
    let f = Folder::new(&["A"], "0", "tolerance = 10\n").swept();
    let status = f.run(&["status", "plan.toml"]).stdout;
    assert!(status.contains("plan.toml: 1 target, 1 time, 1 cell in 1 chunk\nsettings 1 roll, tolerance 10,"), "{}", status);
    assert!(f.run(&["windows", "plan.toml", "--svg", "-"]).stdout.contains(">1 target, 1 time, 1 roll, tolerance 10°<"));
    let table = f.run(&["windows", "plan.toml"]).stdout;
    assert!(table.contains("  total visible: 100.0% of the time; 1 sample (100.0%)\n    in 1 window: 0 s, longest 0 s\n"), "{}", table);
}

#[test]
fn totals_agree_in_table_summary_and_json() {
    let f = folder().swept();
    let table = f.run(&["windows", "plan.toml"]).stdout;
    assert_eq!(
        table.lines().take(9).collect::<Vec<_>>(),
        [
            "Vega",
            "  total visible: 57.1% of the time; 4 samples (57.1%)",
            "    in 2 windows: 60 s, longest 60 s",
            "  total violated: 42.9% of the time; 3 samples (42.9%)",
            "    in 2 windows: 60 s, longest 60 s",
            "  visible   2026-03-20T00:00:00Z  2026-03-20T00:01:00Z  60 0-1",
            "  violated  2026-03-20T00:02:00Z  2026-03-20T00:02:00Z   0 2-2",
            "  violated  2026-03-20T00:04:00Z  2026-03-20T00:05:00Z  60 4-5",
            "  visible   2026-03-20T00:06:00Z  2026-03-20T00:06:00Z>  0 6-6",
        ]
    );
    let all =
        "in all: 2 targets, 14 samples\n  total visible: 57.1% of the time; 8 samples (57.1%)\n    in 4 windows: 120 s, longest 60 s\n  \
        total violated: 42.9% of the time; 6 samples (42.9%)\n    in 4 windows: 120 s, longest 60 s\n";
    assert!(table.contains(all), "{}", table);
    let unwrapped = table.split_whitespace().collect::<Vec<_>>().join(" ");
    for words in [
        "2 clear samples stand alone and are in no window: a single one is listed only if it is the last",
        "seconds: from a window's first sample to its last, cut to whole ones",
    ] {
        assert!(unwrapped.contains(words), "{}", table);
    }

    let ended = f.run(&["windows", "plan.toml", "--summary", "-"]);
    let (visible, violated) = (4.0 / 7.0, 3.0 / 7.0);
    assert_eq!(
        ended.stdout,
        format!(
            "of,target,samples,visible_samples,visible_share,visible_windows,visible_seconds,visible_longest_seconds,violated_samples,\
             violated_share,violated_windows,violated_seconds,violated_longest_seconds,single_clear_samples,visible_clipped_seconds,\
             visible_time_share,violated_clipped_seconds,violated_time_share,from,to,target_number\n\
             target,Vega,7,4,{0},2,60,60,3,{1},2,60,60,1,60,{0},60,{1},,,1\n\
             target,M 31,7,4,{0},2,60,60,3,{1},2,60,60,1,60,{0},60,{1},,,2\n\
             all,,14,8,{0},4,120,60,6,{1},4,120,60,2,120,{0},120,{1},,,\n",
            visible, violated
        )
    );
    assert!(ended.stderr.contains("2 clear samples stand alone"));

    let parsed = json(&f.run(&["windows", "plan.toml", "--json", "-"]).stdout);
    let of_kind = |samples: usize, share: f64| json!({"samples": samples, "share": share, "windows": 2, "seconds": 60, "longest_seconds": 60, "clipped_seconds": 60, "time_share": share});
    let totals = json!({"samples": 7, "visible": of_kind(4, visible), "violated": of_kind(3, violated), "single_clear_samples": 1});
    assert_eq!(parsed["targets"][1]["totals"], totals);
    assert_eq!(parsed["totals"]["violated"]["seconds"], 120);
    assert_eq!(parsed["part"], Value::Null);
}

#[test]
fn csv_and_json_have_each_window_with_its_seconds_and_number() {
    let f = folder().swept();
    f.run(&["windows", "plan.toml", "--target", "Vega", "--csv", "w.csv", "--json", "w.json"]).says(0, &[]);
    assert_eq!(
        f.read("w.csv"),
        "target,kind,first_sample,last_sample,start,end,seconds,severity_deg,data_end,target_number\n\
         Vega,visible,0,1,2026-03-20T00:00:00.000000000Z,2026-03-20T00:01:00.000000000Z,60,0,false,1\n\
         Vega,violated,2,2,2026-03-20T00:02:00.000000000Z,2026-03-20T00:02:00.000000000Z,0,0,false,1\n\
         Vega,violated,4,5,2026-03-20T00:04:00.000000000Z,2026-03-20T00:05:00.000000000Z,60,0,false,1\n\
         Vega,visible,6,6,2026-03-20T00:06:00.000000000Z,2026-03-20T00:06:00.000000000Z,0,0,true,1\n"
    );
    let last = &json(&f.read("w.json"))["targets"][0]["visible"][1];
    assert_eq!((&last["seconds"], &last["data_end"], &last["first_sample"]), (&json!(0), &json!(true), &json!(6)));
}

#[test]
fn the_seconds_of_each_window_are_cut_to_whole_ones() {
    let f = Folder::new(&["A"], "0", "tolerance = 10\n");
    let row = |time: &str, sun: &str| format!("2026-03-20T00:00:{}Z,{},0,0,0\n", time, sun);
    let rows = [("00", "0,1,0"), ("01.9", "0,1,0"), ("02", "0,0,1"), ("03", "0,1,0"), ("04.999999999", "0,1,0")];
    let rows = rows.map(|(time, sun)| row(time, sun)).concat();
    f.write("e.csv", &format!("time,sun_x,sun_y,sun_z,observer_x,observer_y,observer_z\n{}", rows));
    f.run(&["sweep", "plan.toml", "--json", "w.json"]).says(0, &[]);
    let parsed = json(&f.read("w.json"));
    assert_eq!(parsed["totals"]["visible"]["seconds"], 2);
}

#[test]
fn windows_of_selected_targets_and_times_are_whole() {
    let f = folder().swept();
    let csv = |words: &[&str]| {
        let ended = f.run(&[&["windows", "plan.toml", "--csv", "-"], words].concat());
        assert_eq!(ended.status, 0, "{:?}", ended);
        ended.stdout.lines().skip(1).map(|line| line.split(',').take(4).collect::<Vec<_>>().join(" ")).collect::<Vec<_>>()
    };
    assert_eq!(csv(&["--target", "M*"]).len(), 4);
    assert_eq!(csv(&["--target", "M 31", "--target", "V?ga"]).len(), 8);
    // A window that meets the range is whole.
    let one = ["--target", "Vega", "--from", "2026-03-20T00:05:00Z"];
    assert_eq!(csv(&one), ["Vega violated 4 5", "Vega visible 6 6"]);
    assert_eq!(csv(&["--target", "Vega", "--to", "2026-03-20T00:00:30Z"]), ["Vega visible 0 1"]);
    // Between two samples of a window the window is met; between two windows none is.
    let between = |from, to| csv(&["--target", "Vega", "--from", from, "--to", to]);
    assert_eq!(between("2026-03-20T00:00:30Z", "2026-03-20T00:00:31Z"), ["Vega visible 0 1"]);
    assert_eq!(between("2026-03-20T00:02:30Z", "2026-03-20T00:03:30Z"), Vec::<String>::new());

    let part = [
        "part of the plan: 1 of 2 targets; windows that meet the times from\n    2026-03-20T00:05:00Z\n",
        "in this part: 1 target, 2 samples",
    ];
    let table = f.run(&[&["windows", "plan.toml"], &one[..]].concat()).stdout;
    assert!(part.iter().all(|words| table.contains(words)), "{}", table);
    // Of the samples in the range one is violated; its window is whole and has 60 s, of which none is within the range.
    let violated = "  total violated: 50.0% of the time; 1 sample (50.0%)\n    in 1 window: 60 s, longest 60 s\n    clipped: 0 s\n";
    assert!(table.contains(violated), "{}", table);
    for words in [
        "samples and % of the time: from 2026-03-20T00:05:00Z\n",
        "seconds of windows: of whole windows, also where they leave these times\n",
        "clipped: the seconds of each window within these times\n",
    ] {
        assert!(table.contains(words), "{}", table);
    }
    let parsed = json(&f.run(&[&["windows", "plan.toml", "--json", "-"], &one[..]].concat()).stdout);
    assert_eq!(parsed["part"], json!({"targets": 1, "of_targets": 2, "from": "2026-03-20T00:05:00.000000000Z", "to": null}));
    let svg = f.run(&[&["windows", "plan.toml", "--svg", "-"], &one[..]].concat()).stdout;
    assert!(svg.contains("Part of the plan: 1 of 2 targets; windows that meet the times from 2026-03-20T00:05:00Z"));

    let words = [&["mask", "plan.toml"], &one[..]].concat();
    assert_eq!(f.run(&words).stdout, "10 Vega\n");
    assert_eq!(f.run(&[&words[..], &["--form", "csv"]].concat()).stdout.lines().count(), 3);
    assert_eq!(f.run(&[&words[..], &["--form", "raw"]].concat()).stdout, "\u{1}\0");
    assert_eq!(f.run(&["regard", "plan.toml", "--sample", "2", "--target", "M*"]).stdout, "violated M 31\n");
    f.run(&["sweep", "plan.toml", "--csv", "swept.csv", "--target", "Vega"]).says(0, &[]);
    assert_eq!(f.read("swept.csv").lines().count(), 5);
    f.run(&["windows", "plan.toml", "--from", "noon"]).says(2, &["--from", "at character 1"]);
}

#[test]
fn an_unfinished_sweep_exits_with_4() {
    let f = Folder::new(&["A", "B"], &"01".repeat(48), "tolerance = 10\n");
    let status = |json: bool| f.run(&["status", "plan.toml", "--json"][..if json { 3 } else { 2 }]);
    let unfinished = || {
        f.run(&["windows", "plan.toml"]).says(4, &["plan.journal: "]);
        f.run(&["mask", "plan.toml"]).says(4, &["plan.journal: "]);
        f.run(&["check", "plan.toml"]).says(0, &[]);
        assert_eq!((status(false).status, status(true).status), (4, 4));
        assert_eq!(status(true).stderr, "");
    };
    unfinished();
    let parsed = json(&status(true).stdout);
    assert_eq!((&parsed["journal_bytes"], &parsed["missing"], &parsed["finished"]), (&json!(null), &json!(["0..3"]), &json!(false)));

    f.run(&["sweep", "plan.toml", "--chunks", "1"]).says(0, &["missing: 0, 2"]);
    unfinished();
    f.run(&["windows", "plan.toml"]).says(4, &["refused with 15: plan.journal: 1 of 3 chunks have a line"]);
    let parsed = json(&status(true).stdout);
    assert_eq!((&parsed["chunks"], &parsed["chunks_with_line"], &parsed["missing"]), (&json!(3), &json!(1), &json!(["0", "2"])));
    assert_eq!((&parsed["journal_bytes"], &parsed["tail_bytes"], &parsed["running"]), (&json!(140), &json!(0), &json!(false)));

    let f = f.swept();
    assert_eq!(f.run(&["windows", "plan.toml"]).status, 0);
    let ended = f.run(&["status", "plan.toml", "--json"]);
    assert_eq!((ended.status, &json(&ended.stdout)["finished"]), (0, &json!(true)));
    assert_eq!(f.run(&["status", "plan.toml"]).status, 0);
}

/// The months of the demo, over whose ends windows reach: the seconds of whole windows add up to more than there are.
#[test]
fn clipped_seconds_of_consecutive_ranges_never_add_up_to_more_than_the_whole() {
    let f = demo();
    let months = ["2026-03-20", "2026-04-01", "2026-05-01", "2026-06-01", "2026-07-01"].map(|day| format!("{}T00:00:00Z", day));
    let summary = |words: &[&str]| {
        let text = f.run(&[&["windows", "season/plan.toml", "--summary", "-"], words].concat()).stdout;
        let mut reader = csv::Reader::from_reader(text.as_bytes());
        reader.deserialize::<HashMap<String, String>>().collect::<Result<Vec<_>, _>>().unwrap()
    };
    let number = |line: &HashMap<String, String>, column: &str| line[column].parse::<u64>().unwrap();
    let whole = summary(&[]);
    assert_eq!(whole.len(), 17);
    let parts: Vec<_> = months.windows(2).map(|ends| summary(&["--from", &ends[0], "--to", &ends[1]])).collect();
    for kind in ["visible", "violated"] {
        let (seconds, clipped) = (format!("{}_seconds", kind), format!("{}_clipped_seconds", kind));
        assert!(whole.iter().all(|line| line[&seconds] == line[&clipped] && line["from"].is_empty() && line["to"].is_empty()));
        for (i, line) in whole.iter().enumerate() {
            let sum = |column: &str| parts.iter().map(|part| number(&part[i], column)).sum::<u64>();
            assert!(sum(&clipped) <= number(line, &seconds), "{} of {}", clipped, line["target"]);
        }
        let all = whole.last().unwrap();
        let sum = |column: &str| parts.iter().map(|part| number(part.last().unwrap(), column)).sum::<u64>();
        // Every edge of a month is a whole second, so the cut loses nothing either; a whole window counts in each month that it meets.
        assert_eq!(sum(&clipped), number(all, &seconds), "{}", clipped);
        assert!(sum(&seconds) > number(all, &seconds), "{}", seconds);
    }
}

/// Months of the demo, whole and in part: the same numbers in JSON, in the summary and in the table.
#[test]
fn totals_of_a_range_agree_in_table_summary_and_json() {
    let f = demo();
    for range in
        [&[][..], &["--from", "2026-04-01T00:00:00Z", "--to", "2026-05-01T12:34:56.5Z"], &["--to", "2026-03-21T00:00:00.000000001Z"]]
    {
        let output = |option: &[&str]| {
            let ended = f.run(&[&["windows", "season/plan.toml"], range, option].concat());
            assert_eq!(ended.status, 0, "{:?}", ended);
            ended.stdout
        };
        let (table, parsed) = (output(&[]), json(&output(&["--json", "-"])));
        let summary = output(&["--summary", "-"]);
        let mut reader = csv::Reader::from_reader(summary.as_bytes());
        let lines: Vec<HashMap<String, String>> = reader.deserialize().collect::<Result<_, _>>().unwrap();
        let mut shown = table.lines().filter(|line| line.starts_with("  total ") || line.starts_with("    "));
        for (i, line) in lines.iter().enumerate() {
            let totals = if i < 16 { &parsed["targets"][i]["totals"] } else { &parsed["totals"] };
            assert_eq!(line["from"], parsed["part"]["from"].as_str().unwrap_or(""), "{:?}", line);
            assert_eq!(line["to"], parsed["part"]["to"].as_str().unwrap_or(""), "{:?}", line);
            for kind in ["visible", "violated"] {
                for key in ["samples", "share", "windows", "seconds", "longest_seconds", "clipped_seconds", "time_share"] {
                    let column = line[&format!("{}_{}", kind, key)].parse().unwrap_or(f64::NAN);
                    let due = totals[kind][key].as_f64().unwrap_or(f64::NAN);
                    assert!(
                        column.is_nan() && due.is_nan() || (column - due).abs() <= 1e-15 * due,
                        "{} {}: {} and {}",
                        kind,
                        key,
                        column,
                        due
                    );
                }
                let next = shown.by_ref().find(|line| line.starts_with("  total ")).unwrap();
                let percent = format!("{:.1}%", 100.0 * totals[kind]["time_share"].as_f64().unwrap());
                assert!(next.starts_with(&format!("  total {}: {} of the time; ", kind, percent)), "{}", next);
                let windows = shown.next().unwrap().replace(',', "");
                assert!(windows.contains(&format!(": {} s", totals[kind]["seconds"])), "{}", windows);
                if !range.is_empty() {
                    assert_eq!(shown.next().unwrap().replace(',', ""), format!("    clipped: {} s", totals[kind]["clipped_seconds"]));
                }
            }
            let sum = totals["visible"]["time_share"].as_f64().unwrap() + totals["violated"]["time_share"].as_f64().unwrap();
            assert!((sum - 1.0).abs() < 1e-15, "{}", sum);
        }
    }
}

/// Steps of 1, 8, 1 and 2 minutes; the last sample weighs as much as the one before it.
#[test]
fn the_time_share_weighs_each_sample_by_the_step_to_the_next_one() {
    let f = Folder::new(&["A"], "", "tolerance = 10\n");
    let row = |minute: u32, mark: bool| format!("2026-03-20T00:{:02}:00Z,0,{},0,0,0\n", minute, if mark { "0,1" } else { "1,0" });
    let rows = [(0, false), (1, true), (9, false), (10, true), (12, false)].map(|(minute, mark)| row(minute, mark));
    f.write("e.csv", &format!("time,sun_x,sun_y,sun_z,observer_x,observer_y,observer_z\n{}", rows.concat()));
    let f = f.swept();
    let shares = |words: &[&str]| {
        let parsed = json(&f.run(&[&["windows", "plan.toml", "--json", "-"], words].concat()).stdout);
        ["visible", "violated"].map(|kind| {
            let total = &parsed["totals"][kind];
            (total["share"].as_f64(), total["time_share"].as_f64())
        })
    };
    let some = |share: f64, by_time: f64| (Some(share), Some(by_time));
    assert_eq!(shares(&[]), [some(0.6, 4.0 / 14.0), some(0.4, 10.0 / 14.0)]);
    // The last sample of a range reaches to the next one of the ephemeris, so that ranges add up.
    assert_eq!(shares(&["--to", "2026-03-20T00:01:00Z"]), [some(0.5, 1.0 / 9.0), some(0.5, 8.0 / 9.0)]);
    assert_eq!(shares(&["--from", "2026-03-20T00:12:00Z"]), [some(1.0, 1.0), some(0.0, 0.0)]);
    assert_eq!(shares(&["--from", "2026-03-20T00:02:00Z", "--to", "2026-03-20T00:03:00Z"]), [(None, None), (None, None)]);
    let one = Folder::new(&["A"], "1", "tolerance = 10\n").swept();
    let parsed = json(&one.run(&["windows", "plan.toml", "--json", "-"]).stdout);
    assert_eq!((&parsed["totals"]["visible"]["time_share"], &parsed["totals"]["violated"]["time_share"]), (&json!(0.0), &json!(1.0)));
}

#[test]
fn the_demo_table_fits_into_80_columns_and_its_totals_do_not_look_like_windows() {
    let f = demo();
    let nano = "2026-04-01T00:00:00.000000001Z";
    for words in ["", " --from 2026-04-01T00:00:00Z", &format!(" --target M* --from {} --to {}", nano, nano.replace("04", "05"))] {
        let table = done(f, &format!("windows season/plan.toml{}", words));
        for line in table.lines() {
            assert!(line.chars().count() <= 80, "{}", line);
        }
        let csv = done(f, &format!("windows season/plan.toml --csv -{}", words));
        for kind in ["visible", "violated"] {
            let due = csv.lines().filter(|line| line.contains(&format!(",{},", kind))).count();
            let found = |line: &&str| line.contains(&format!(" {} ", kind));
            assert!(due > 0 && table.lines().filter(found).count() == due, "{}", table);
            assert!(table.lines().filter(found).all(|line| line.starts_with(&format!("  {} ", kind))), "{}", table);
        }
    }
}

#[test]
fn targets_of_one_name_are_told_apart_by_their_number() {
    let f = Folder::new(&["A", "B", "A"], "01", "tolerance = 10\n").swept();
    for words in ["", " --target A"] {
        let csv = done(&f, &format!("windows plan.toml --csv -{}", words));
        let lines: Vec<_> = csv.lines().filter(|line| line.starts_with("A,")).collect();
        assert!(lines.len() == 2 && lines[0].ends_with(",1") && lines[1].ends_with(",3"), "{}", csv);
        let parsed = json(&done(&f, &format!("windows plan.toml --json -{}", words)));
        let numbers: Vec<_> =
            parsed["targets"].as_array().unwrap().iter().filter(|t| t["name"] == "A").map(|t| t["number"].clone()).collect();
        assert_eq!(numbers, [json!(1), json!(3)]);
        let summary = done(&f, &format!("windows plan.toml --summary -{}", words));
        let lines: Vec<_> = summary.lines().filter(|line| line.starts_with("target,A,")).collect();
        assert!(lines.len() == 2 && lines[0].ends_with(",1") && lines[1].ends_with(",3"), "{}", summary);
    }
}

/// Any name that CSV must quote reads back as it is.
#[test]
fn names_in_csv_are_quoted_where_they_must_be() {
    let f = Folder::new(&[], "01", "tolerance = 10\n");
    f.write("t.csv", "name,x,y,z\n\"Crab, M 1\",1,0,0\n\"a \"\"b\"\"\",1,0,0\n\"two\nlines\",1,0,0\nplain,1,0,0\n");
    let text = done(&f.swept(), "windows plan.toml --csv -");
    let mut reader = csv::Reader::from_reader(text.as_bytes());
    let names: Vec<_> = reader.records().map(|record| record.unwrap()[0].to_owned()).collect();
    assert_eq!(names, ["Crab, M 1", "a \"b\"", "two\nlines", "plain"]);
    assert!(text.contains("\nplain,violated,"), "{}", text);
}

#[test]
fn a_configured_roll_that_overrides_the_roll_asked_for_is_reported() {
    let f = Folder::new(&["A"], "01", "tolerance = 10\nconfigured_roll = 30\n");
    f.run(&["mask", "plan.toml", "--roll", "100"])
        .says(0, &["warning: the plan's configured_roll 30 overrides --roll 100: this is the mask at roll 30; use --fixed-roll 100\n"]);
    f.run(&["regard", "plan.toml", "--sample", "1", "--roll", "100"])
        .says(0, &["warning: the plan's configured_roll 30 overrides --roll 100: these are the marks at roll 30\n"]);
    for words in [
        "mask plan.toml --fixed-roll 100",
        "mask plan.toml --roll 30",
        "regard plan.toml --sample 1",
        "regard plan.toml --sample 1 --roll 30",
    ] {
        assert_eq!(common::run(&f, words).stderr, "", "{}", words);
    }
    let none = Folder::new(&["A"], "01", "tolerance = 10\n");
    assert_eq!(none.run(&["mask", "plan.toml", "--roll", "100"]).stderr, "");
}

/// The number follows the name: a reader of the last column still finds the mark or `free` there.
#[test]
fn masks_and_rolls_in_csv_have_the_number_of_the_target() {
    let f = Folder::new(&["A", "B", "A"], "01", "tolerance = 10\n");
    for (words, head) in [
        ("rolls plan.toml --target A", "target,target_number,time,roll_deg,free"),
        ("mask plan.toml --roll 0 --form csv --target A", "target,target_number,time,marked"),
    ] {
        let csv = done(&f, words);
        let numbers: Vec<_> = csv.lines().skip(1).map(|line| line.split(',').nth(1).unwrap()).collect();
        assert!(csv.starts_with(&format!("{}\n", head)) && numbers == ["1", "1", "3", "3"], "{}", csv);
    }
}

/// A name with a star or brackets, as catalogues have them, is a pattern only where no target has it.
#[test]
fn an_exact_name_selects_that_name_alone() {
    let f = Folder::new(&["* R Lyr", "V* R Lyr", "[HB89] 1", "H 1"], "01", "tolerance = 10\n").swept();
    let names = |name: &str| f.run(&["regard", "plan.toml", "--sample", "0", "--target", name]).stdout;
    assert_eq!(names("* R Lyr"), "clear    * R Lyr\n");
    assert_eq!(names("[HB89] 1"), "clear    [HB89] 1\n");
    assert_eq!(names("*R Lyr"), "clear    * R Lyr\nclear    V* R Lyr\n");
    assert_eq!(names("[H] 1"), "clear    H 1\n");
}

/// At a roll that is no number no cell is violated, so that a slip would read as all clear.
#[test]
fn a_roll_that_is_not_finite_is_refused() {
    for settings in ["tolerance = 10\n", "tolerance = 10\nconfigured_roll = 30\n"] {
        let f = Folder::new(&["A"], "01", settings);
        for words in ["mask plan.toml --roll", "mask plan.toml --fixed-roll", "regard plan.toml --sample 0 --roll"] {
            for roll in ["nan", "-nan", "inf", "-inf", "infinity", "1e400", "x", ""] {
                let ended = f.run(&words.split(' ').chain([roll]).collect::<Vec<_>>());
                let option = words.rsplit(' ').next().unwrap();
                ended.says(2, &[&format!("'{}' for '{} <DEG>': allowed: a finite number of degrees\n", roll, option)]);
                assert_eq!(ended.stdout, "", "{} {}", words, roll);
            }
            assert_ne!(done(&f, &format!("{} -1e300", words)), "");
        }
    }
}

#[test]
fn a_count_that_is_no_whole_number_from_1_up_is_refused() {
    let f = folder().swept();
    let before = f.all();
    for words in ["sweep plan.toml --jobs", "sweep plan.toml --range", "check plan.toml --recompute --sample"] {
        for count in ["0", "x", "1.5", "99999999999999999999"] {
            let option = words.rsplit(' ').next().unwrap();
            common::run(&f, &format!("{} {}", words, count))
                .says(2, &[&format!("'{}' for '{} <N>': allowed: a whole number from 1 up\n", count, option)]);
        }
        done(&f, &format!("{} 1", words));
    }
    assert!(f.all() == before, "a file was changed");
}

#[test]
fn a_range_without_a_time_of_the_ephemeris_is_reported() {
    let f = folder().swept();
    let commands = ["windows plan.toml", "mask plan.toml", "rolls plan.toml", "sweep plan.toml"];
    let ends = "its first time is 2026-03-20T00:00:00Z, its last 2026-03-20T00:06:00Z\n";
    for command in commands {
        for (range, when) in [
            ("--from 2027-01-01T00:00:00Z", "from 2027-01-01T00:00:00Z"),
            ("--to 2026-03-19T23:59:59.5Z", "up to 2026-03-19T23:59:59.500Z"),
            ("--from 2026-03-20T00:02:01Z --to 2026-03-20T00:02:59Z", "from 2026-03-20T00:02:01Z to 2026-03-20T00:02:59Z"),
        ] {
            let said = format!("warning: no time of e.csv lies in the range {}; {}", when, ends);
            common::run(&f, &format!("{} {}", command, range)).says(0, &[&said]);
        }
        for range in ["", " --from 2026-03-20T00:06:00Z", " --to 2026-03-20T00:00:00Z"] {
            let ended = common::run(&f, &format!("{}{}", command, range));
            assert!(ended.status == 0 && !ended.stderr.contains("lies in the range"), "{:?}", ended);
        }
    }
    let one = Folder::new(&["A"], "0", "tolerance = 10\n");
    common::run(&one, "rolls plan.toml --from 2027-01-01T00:00:00Z").says(0, &["; its only time is 2026-03-20T00:00:00Z\n"]);
    let empty = Folder::new(&["A"], "", "tolerance = 10\n").swept();
    for command in commands {
        let said = "warning: no time of e.csv lies in the range from 2027-01-01T00:00:00Z; it has none\n";
        common::run(&empty, &format!("{} --from 2027-01-01T00:00:00Z", command)).says(0, &[said]);
        assert!(!common::run(&empty, command).stderr.contains("lies in the range"));
    }
}

#[test]
fn from_may_equal_to_but_not_be_after_it() {
    let f = folder().swept();
    let mask = |from: &str, to: &str| common::run(&f, &format!("mask plan.toml --from 2026-03-20T00:{}Z --to 2026-03-20T00:{}Z", from, to));
    assert_eq!(mask("02:00", "02:00").stdout, "1 Vega\n1 M 31\n");
    mask("02:01", "02:00").says(2, &["--from 2026-03-20T00:02:01Z is after --to 2026-03-20T00:02:00Z; allowed: --from not after --to\n"]);
}

/// Many shells take `[^H]` as `[!H]`; here it would be a class of ^ and H, the opposite.
#[test]
fn a_pattern_with_a_caret_class_is_refused_and_one_with_an_exclamation_mark_excludes() {
    let f = Folder::new(&["H 1", "M 31", "x[^2]"], "01", "tolerance = 10\n").swept();
    let regard = |name: &str| f.run(&["regard", "plan.toml", "--sample", "0", "--target", name]);
    assert_eq!(regard("[!H]*").stdout, "clear    M 31\nclear    x[^2]\n");
    // A name that a target has is no pattern.
    assert_eq!(regard("x[^2]").stdout, "clear    x[^2]\n");
    let says = "--target [^H]*: no target of t.csv has that name, and [^ is not allowed in a pattern; allowed: [!ab] for neither a nor b\n";
    regard("[^H]*").says(2, &[says]);
    for command in ["windows", "mask", "rolls", "sweep"] {
        f.run(&[command, "plan.toml", "--target", "[^H]*"]).says(2, &[says]);
    }
    for command in ["windows", "mask", "rolls", "sweep", "regard"] {
        let help = f.run(&[command, "--help"]).stdout.split_whitespace().collect::<Vec<_>>().join(" ");
        assert!(help.contains("[ab] for a or b, [!ab] for neither a nor b"), "{}", help);
    }
    assert!(common::document().1.contains("`[ab]` for a or b, and `[!ab]` for neither a nor b"));
}

/// Every key, at any depth.
fn keys(value: &Value, found: &mut BTreeSet<String>) {
    match value {
        Value::Object(map) => map.iter().for_each(|(key, value)| {
            found.insert(key.clone());
            keys(value, found);
        }),
        Value::Array(list) => list.iter().for_each(|value| keys(value, found)),
        _ => {}
    }
}

#[test]
fn every_key_of_json_is_in_the_guide() {
    let f = folder().swept();
    let (guide, _) = common::document();
    for words in ["status plan.toml --json", "windows plan.toml --json - --from 2026-03-20T00:01:00Z", "cost plan.toml --json"] {
        let mut found = BTreeSet::new();
        keys(&json(&done(&f, words)), &mut found);
        let missing: Vec<_> = found.iter().filter(|key| !guide.contains(&format!("`{}`", key))).collect();
        assert!(missing.is_empty(), "{}: {:?}", words, missing);
    }
}

/// As the guide has it: nothing was taken on trust.
#[test]
fn a_sweep_that_finds_no_line_is_verified_with_trust_journal_too() {
    let f = folder();
    let verified = |words: &str| json(&done(&f, &format!("{} --trust-journal --json -", words)))["verified"].clone();
    assert_eq!(verified("sweep plan.toml"), json!(true));
    assert_eq!(verified("sweep plan.toml"), json!(false));
    assert_eq!(verified("windows plan.toml"), json!(false));
}
