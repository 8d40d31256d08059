//! Whole commands on hostile or careless files: each ends soon, with a message and a status.
use std::{
    fs,
    path::Path,
    process::{Command, Output, Stdio},
};

const PLAN: &str = "targets = \"t.csv\"\nephemeris = \"e.csv\"\nrolls = 4\ntolerance = 5\n";
const TARGETS: &str = "name,x,y,z\nA,1,0,0\nB,0,1,0\n";
const EPHEMERIS: &str = "time,sun_x,sun_y,sun_z,observer_x,observer_y,observer_z\n\
    2026-03-20T00:00:00Z,0,1,0,0,0,0\n2026-03-20T00:01:00Z,0,0,1,0,0,0\n";

fn check(plan: &Path) -> Output {
    Command::new(env!("CARGO_BIN_EXE_wilfnusk")).arg("check").arg(plan).stdin(Stdio::null()).output().unwrap()
}

/// Status and messages of `check` on these three files.
fn checked(plan: &str, targets: &str, ephemeris: &str) -> (Option<i32>, String) {
    let folder = tempfile::tempdir().unwrap();
    for (name, text) in [("plan.toml", plan), ("t.csv", targets), ("e.csv", ephemeris)] {
        fs::write(folder.path().join(name), text).unwrap();
    }
    let output = check(&folder.path().join("plan.toml"));
    let message = String::from_utf8(output.stderr).unwrap();
    (output.status.code(), message.replace(folder.path().to_str().unwrap(), ""))
}

#[test]
fn a_faulty_time_after_a_no_break_space_is_refused_with_its_column() {
    let (status, message) = checked(PLAN, TARGETS, &EPHEMERIS.replace("2026-03-20T00:00", "\u{a0}2x26-03-20T00:00"));
    assert_eq!(status, Some(3), "{}", message);
    assert!(message.starts_with("wilfnusk: /e.csv, line 2, column 2: time reads `2x26-03-20T00:00:00Z`; allowed: RFC 3339"), "{}", message);
}

#[test]
fn values_nested_too_deep_are_refused() {
    let (status, message) = checked(&format!("{}panel = {}", PLAN, "[".repeat(100_000)), TARGETS, EPHEMERIS);
    assert_eq!(status, Some(3), "{}", message);
    assert_eq!(message, "wilfnusk: /plan.toml, line 5, column 25: values inside values, 17 deep; allowed: at most 16\n");
}

#[test]
fn two_targets_of_one_name_are_warned_about() {
    let (status, message) = checked(PLAN, &TARGETS.replace('B', "# B\nA"), EPHEMERIS);
    assert_eq!(status, Some(0), "{}", message);
    assert_eq!(message, "warning: /t.csv, line 4, column 1: target `A` has the name of line 2; both are listed under it\n");
}

/// The ephemeris with a column of notes.
fn noted(notes: [&str; 2]) -> String {
    let mut lines = EPHEMERIS.lines();
    let mut line = |note: &str| format!("{},{}\n", lines.next().unwrap(), note);
    ["note", notes[0], notes[1]].map(&mut line).concat()
}

#[test]
fn text_after_a_closing_quote_is_refused_in_every_column_of_both_files() {
    const ALLOWED: &str = "; allowed: a comma or a line end there, and \"\" for a quote inside quotes\n";
    for (targets, ephemeris, says) in [
        (
            "name,ra,dec,note\nA,10,20,\"bright\nB,100,-45,ok\nC,250,80,\"dim\"\n",
            EPHEMERIS,
            "/t.csv, line 4, column 11: `dim\"` follows the quote that closes the field opened on line 2",
        ),
        (
            "name,ra,dec\n\"A\"x,10,20\n",
            EPHEMERIS,
            "/t.csv, line 2, column 4: `x` follows the quote that closes the field opened on line 2",
        ),
        (
            TARGETS,
            &noted(["\"eclipse", "\"sunlit\""]),
            "/e.csv, line 3, column 35: `sunlit\"` follows the quote that closes the field opened on line 2",
        ),
        (
            TARGETS,
            &EPHEMERIS.replace("2026-03-20T00:01:00Z", "\"2026-03-20T00:01:00\"Z"),
            "/e.csv, line 3, column 22: `Z` follows the quote that closes the field opened on line 3",
        ),
    ] {
        let (status, message) = checked(PLAN, targets, ephemeris);
        assert_eq!((status, message), (Some(3), format!("wilfnusk: {}{}", says, ALLOWED)));
    }
    // Inside a field without quotes, a quote is a character.
    let (status, message) = checked(PLAN, "name,ra,dec,note\nA,10,20,5\" disc\nB\"\",20,30,\n", &noted(["a\"b", "\"\""]));
    assert_eq!((status, message.as_str()), (Some(0), ""));
}

#[test]
fn a_field_of_several_lines_is_warned_of_in_every_column_of_both_files() {
    const ASKED: &str = "; is a quote missing at the end of the first?\n";
    for (targets, ephemeris, says) in [
        (
            "name,ra,dec,note\nA,10,20,\"bright\nB,100,-45,ok\"\n",
            EPHEMERIS,
            "/t.csv, line 2, column 9: field `bright\\nB,100,-45,ok` has 2 lines",
        ),
        (TARGETS, &noted(["\"\r", "\""]), "/e.csv, line 2, column 34: field `\\r\\n2026-03-20T00:01:00Z,0,0,1,0,0,0,` has 2 lines"),
        ("name,ra,dec\n\"A\rB\r\nC\",10,20\n", EPHEMERIS, "/t.csv, line 2, column 1: field `A\\rB\\r\\nC` has 3 lines"),
        ("name,ra,dec,\"note\r\"\rA,10,20,\r", EPHEMERIS, "/t.csv, line 1, column 13: field `note\\r` has 2 lines"),
    ] {
        let (status, message) = checked(PLAN, targets, ephemeris);
        assert_eq!((status, message), (Some(0), format!("warning: {}{}", says, ASKED)));
    }
    for (rows, last) in [
        (5, "/t.csv, line 10, column 5: field `a\\nb` has 2 lines"),
        (6, "/t.csv: the same holds of 1 more field"),
        (9, "/t.csv: the same holds of 4 more fields"),
    ] {
        let targets: String = (0..rows).map(|i| format!("TT{},\"a\nb\",{},0\n", i, 10 * i)).collect();
        let (status, message) = checked(PLAN, &format!("name,note,ra,dec\n{}", targets), EPHEMERIS);
        let warnings: Vec<_> = message.lines().filter(|line| line.contains("field")).collect();
        assert_eq!((status, warnings.len()), (Some(0), rows.min(6)), "{}", message);
        assert!(warnings.last().unwrap().starts_with(&format!("warning: {}", last)), "{}", message);
    }
}

#[test]
fn a_device_and_a_pipe_are_refused_as_inputs() {
    let (status, message) = checked(&PLAN.replace("t.csv", "/dev/zero"), TARGETS, EPHEMERIS);
    assert_eq!((status, message.as_str()), (Some(3), "wilfnusk: /dev/zero: it is a device; allowed: a plain file\n"));
    let folder = tempfile::tempdir().unwrap();
    let pipe = folder.path().join("plan.toml");
    assert!(Command::new("mkfifo").arg(&pipe).status().unwrap().success());
    let output = check(&pipe);
    assert_eq!(output.status.code(), Some(3));
    assert!(String::from_utf8(output.stderr).unwrap().ends_with("plan.toml: it is a pipe; allowed: a plain file\n"));
}
