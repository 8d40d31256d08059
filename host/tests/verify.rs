//! Lines are worked out again before they are listed, merged or added to. Lines that are not what the plan gives are refused and named, nothing is
//! listed and no file changes, unless --trust-journal is given; what is listed then says so.
mod common;

use common::{changed, document, done, json, run, signal, until_it_works, Ended, Folder, HEADER, LINE};
use std::{
    io::Read,
    process::{Command, Stdio},
    time::{Duration, Instant},
};

const LISTING: &str = "--csv w.csv --json w.json --svg w.svg --summary s.csv";

/// Every command that lists or merges the lines of plan.journal, or adds to them, refuses them with these words on standard error, prints
/// nothing and changes no file.
#[track_caller]
fn refused(f: &Folder, status: i32, says: &[&str]) {
    let before = f.all();
    for words in [
        "windows plan.toml",
        &format!("windows plan.toml {}", LISTING),
        "windows plan.toml --csv -",
        "windows plan.toml --target A --to 2026-03-20T00:10:00Z",
        "mask plan.toml",
        "mask plan.toml --form raw",
        "sweep plan.toml",
        &format!("sweep plan.toml -q {}", LISTING),
        "sweep plan.toml --chunks 0..0",
        "merge plan.toml plan.journal -o all.journal",
    ] {
        let ended = run(f, words);
        ended.says(status, says);
        assert_eq!(ended.stdout, "", "{}", words);
        assert!(f.all() == before, "{}: a file was changed", words);
    }
}

/// The first line in which two journals differ, as a message names it: the first journal has it, the second one's plan gives another.
fn first_difference(journal: &str, due: &str) -> String {
    let differ = journal.lines().zip(due.lines()).enumerate().find(|(_, (a, b))| a != b);
    let (i, (has, gives)) = differ.expect("two journals that differ");
    let chunk = u32::from_str_radix(&has[..8], 16).unwrap();
    format!("\n  line {}, chunk {}: the journal has {}, the plan gives {}\n", i + 1, chunk, has, gives)
}

/// Both plans swept: plan.journal and other.journal are finished and have the same header.
fn both_swept() -> Folder {
    let f = Folder::of_two_plans().swept();
    done(&f, "sweep other.toml -q");
    assert_eq!(f.read("plan.journal")[..HEADER], f.read("other.journal")[..HEADER]);
    f
}

#[test]
fn the_journal_of_another_plan_with_the_same_header_is_refused() {
    let f = both_swept();
    let (own, other) = (f.read("plan.journal"), f.read("other.journal"));
    let named = first_difference(&other, &own);
    // J.plan is still this plan's.
    f.write("plan.journal", &other);
    refused(&f, 1, &["wilfnusk: plan.journal: 5 lines worked out again, and ", " not the same; nothing was changed\n", &named]);
    // With some of its lines, and without a J.plan.
    f.write("plan.journal", &other[..HEADER + 4 * LINE]);
    let part = |f: &Folder| {
        let before = f.all();
        for words in ["sweep plan.toml", "sweep plan.toml --chunks 4", "merge plan.toml plan.journal -o all.journal"] {
            run(f, words)
                .says(1, &["wilfnusk: plan.journal: 4 lines worked out again, and 1 is not the same; nothing was changed", &named]);
        }
        assert!(f.all() == before, "a file was changed");
    };
    part(&f);
    let (_, document) = document();
    let message = run(&f, "sweep plan.toml").said().split_whitespace().collect::<Vec<_>>().join(" ");
    assert!(document.contains(&message), "docs/JOURNAL.md does not show: {}", message);
    f.remove("plan.journal.plan");
    part(&f);
}

#[test]
fn two_journals_that_were_swapped_are_refused() {
    let f = both_swept();
    let (own, other) = (f.read("plan.journal"), f.read("other.journal"));
    f.write("plan.journal", &other);
    f.write("other.journal", &own);
    refused(&f, 1, &[&first_difference(&other, &own)]);
    run(&f, "windows other.toml").says(1, &["wilfnusk: other.journal: 5 lines worked out again", &first_difference(&own, &other)]);
    // Swapped with their digests, they are journals of edited files.
    f.copy("plan.journal.plan", "j");
    f.copy("other.journal.plan", "plan.journal.plan");
    f.copy("j", "other.journal.plan");
    refused(&f, 3, &["t.csv: its numbers are not those that plan.journal was begun with"]);
}

#[test]
fn a_changed_digit_that_still_reads_as_right_is_refused() {
    let f = Folder::of_two_plans();
    done(&f, "sweep plan.toml -q --chunks 4,0..2,3,2");
    let good = f.read("plan.journal");
    for number in 0..5 {
        let wrong = changed(&good, number);
        f.write("plan.journal", &wrong);
        done(&f, "check plan.toml");
        refused(&f, 1, &["5 lines worked out again, and 1 is not the same; nothing was changed", &first_difference(&wrong, &good)]);
    }
    // Nor is the unfinished line at the end cut off, or a missing chunk worked out.
    f.write("plan.journal", changed(&good, 1)[..good.len() - 2 * LINE].to_owned() + "0000000");
    let before = f.all();
    run(&f, "sweep plan.toml").says(1, &["plan.journal: 3 lines worked out again, and 1 is not the same"]);
    assert!(f.all() == before);
    // Nor is a tail of zero bytes dropped.
    f.write("plan.journal", changed(&good, 1) + &"\0".repeat(2 * LINE));
    let before = f.all();
    run(&f, "sweep plan.toml --drop-zero-tail").says(1, &["plan.journal: 5 lines worked out again, and 1 is not the same"]);
    assert!(f.all() == before, "a tail of zero bytes was dropped");
}

/// Five lines are named, and the command that names each.
#[test]
fn not_every_one_of_many_wrong_lines_is_named() {
    let f = Folder::of_two_plans();
    f.write("e.csv", common::ephemeris(200));
    done(&f, "sweep plan.toml -q");
    let good = f.read("plan.journal");
    f.write("plan.journal", (0..8).fold(good, |journal, number| changed(&journal, number)));
    let listed = run(&f, "windows plan.toml");
    listed.says(1, &["8 are not the same", "\n  line 6, chunk 4: ", "\n  and 3 more; `wilfnusk check plan.toml --recompute` names each\n"]);
    assert!(!listed.stderr.contains("line 7,"), "{}", listed.stderr);
    run(&f, "check plan.toml --recompute").says(1, &["8 are not the same", "\n  line 6, chunk 4: ", "\n  line 9, chunk 7: "]);
}

#[test]
fn trusted_lines_are_listed_and_called_unverified() {
    let f = both_swept();
    let (own, other) = (f.read("plan.journal"), f.read("other.journal"));
    let (windows, mask) = (done(&f, "windows other.toml"), done(&f, "mask other.toml"));
    f.write("plan.journal", &other);
    let warning = "warning: --trust-journal: the lines of plan.journal were not worked out again\n";
    let note = "not verified: the journal's lines were not worked out again (--trust-journal)\n";
    for words in ["windows", "sweep"] {
        let listed = run(&f, &format!("{} plan.toml --trust-journal", words));
        listed.says(0, &[warning]);
        assert_eq!(listed.stdout, format!("{}{}", note, windows), "{}", words);
        run(&f, &format!("{} plan.toml --trust-journal -q {}", words, LISTING)).says(0, &[warning]);
        let listed = json(&f.read("w.json"));
        assert_eq!((&listed["verified"], &listed["origin_known"]), (&false.into(), &true.into()));
        assert!(f.read("w.svg").contains(">Not verified: the journal's lines were not worked out again (--trust-journal)</text>"));
        run(&f, &format!("{} plan.toml --trust-journal --csv -", words)).says(0, &[warning]);
    }
    let printed = run(&f, "mask plan.toml --trust-journal");
    printed.says(0, &[warning]);
    assert_eq!(printed.stdout, mask);
    let merged = run(&f, "merge plan.toml plan.journal -o all.journal --trust-journal");
    merged.says(0, &[warning]);
    assert!(f.read("all.journal") == other && !merged.stdout.contains("worked out again"), "{}", merged.stdout);
    // Lines that were worked out again.
    f.write("plan.journal", own);
    for words in ["windows", "sweep"] {
        let listed = run(&f, &format!("{} plan.toml {}", words, LISTING));
        assert!(!listed.stderr.contains("trust") && !listed.stdout.contains("verified"), "{:?}", listed);
        assert!(!f.read("w.svg").contains("erified"));
        let listed = json(&f.read("w.json"));
        assert_eq!((&listed["verified"], &listed["origin_known"]), (&true.into(), &true.into()));
    }
}

/// Lines that the process wrote itself are known to be the plan's.
#[test]
fn a_sweep_that_found_no_line_is_verified_though_it_trusts_the_journal() {
    let f = Folder::of_two_plans();
    let swept = run(&f, "sweep plan.toml --trust-journal --json -");
    assert_eq!((json(&swept.stdout)["verified"].clone(), json(&swept.stdout)["origin_known"].clone()), (true.into(), true.into()));
    assert!(!swept.said().contains("warning"), "{}", swept.stderr);
    // One that found some is not.
    f.write("plan.journal", &f.read("plan.journal")[..HEADER + LINE]);
    let swept = run(&f, "sweep plan.toml --trust-journal --json -");
    swept.says(0, &["warning: --trust-journal: the lines of plan.journal were not worked out again\n", "5 of 5 chunks have a line"]);
    assert_eq!(json(&swept.stdout)["verified"], false);
}

#[test]
fn windows_at_the_configured_roll_rest_on_no_journal() {
    let f = Folder::of_two_plans();
    f.write("plan.toml", f.read("plan.toml") + "configured_roll = 30\n");
    let listed = json(&done(&f, "windows plan.toml --evaluate --json -"));
    for key in ["verified", "origin_known"] {
        assert_eq!(listed.get(key), Some(&serde_json::Value::Null), "{}", key);
    }
}

#[test]
fn a_missing_digest_is_a_remark_where_every_line_was_worked_out_again() {
    let f = Folder::of_two_plans();
    done(&f, "sweep plan.toml -q --part 1/2");
    f.remove("plan.journal.plan");
    let remark = "plan.journal.plan is missing; every line of plan.journal was worked out again and is the same. To write it: \
                  wilfnusk check plan.toml --recompute --write-digest\n";
    for words in ["sweep plan.toml -q --json w.json", "windows plan.toml -q --json w.json"] {
        let listed = run(&f, words);
        listed.says(0, &[remark]);
        assert!(!listed.said().contains("warning"), "{}", listed.stderr);
        let listed = json(&f.read("w.json"));
        assert_eq!((&listed["verified"], &listed["origin_known"]), (&true.into(), &false.into()));
    }
    assert_eq!(run(&f, "mask plan.toml").stderr, remark);
    assert!(!f.has("plan.journal.plan"), "a digest that nobody asked for");
    let listed = run(&f, "windows plan.toml -q --trust-journal");
    listed.says(
        0,
        &["warning: plan.journal.plan is missing: nothing shows whether plan.journal was made from", "warning: --trust-journal: "],
    );
}

#[test]
fn a_spoiled_digest_is_refused_with_advice_that_works() {
    let f = Folder::of_two_plans().swept();
    let digest = f.read("plan.journal.plan");
    let not_text = [&digest.as_bytes()[..60], b"\xff", &digest.as_bytes()[61..]].concat();
    for spoiled in [digest[..40].as_bytes().to_vec(), b"my notes\n".to_vec(), vec![0; 300], not_text, Vec::new()] {
        f.write("plan.journal.plan", &spoiled);
        let says = "plan.journal.plan, line 1, column 1: no digest of a plan; allowed: what `wilfnusk sweep` writes. Move the file away and work every \
                    line out again with `wilfnusk check plan.toml --recompute --write-digest`, which writes a new digest if every line is the same\n";
        refused(&f, 3, &[says]);
        for words in
            ["check plan.toml", "check plan.toml --recompute --write-digest", "status plan.toml --json", "sweep plan.toml --trust-journal"]
        {
            run(&f, words).says(3, &[says]);
        }
        assert!(std::fs::read(f.path("plan.journal.plan")).unwrap() == spoiled);
        // As advised.
        let advised = run(&f, "check plan.toml").stderr.split('`').nth(3).unwrap().replacen("wilfnusk", "$W", 1);
        f.shell(&format!("mv plan.journal.plan away && {}", advised)).says(0, &["wrote plan.journal.plan\n"]);
        assert_eq!(f.read("plan.journal.plan"), digest);
    }
}

/// A journal whose lines take some ten seconds to be worked out again: no roll of the costliest plan is within the tolerance, so every cell is
/// marked and 3,600 rolls were tried for each.
fn costliest() -> Folder {
    let f = Folder::of_two_plans();
    f.remove("plan.toml");
    done(&f, "example . --costliest 256 4096 3600");
    done(&f, "sweep plan.toml --chunks 0..0");
    let lines = (0..16_384).map(|chunk| format!("{:08x}{:016x}{:08x}\n", chunk, u64::MAX, 64 * 3600));
    f.write("plan.journal", f.read("plan.journal") + &lines.collect::<String>());
    f
}

#[test]
fn a_signal_while_lines_are_worked_out_again_ends_the_command() {
    let f = costliest();
    let before = f.all();
    for words in [
        &format!("windows plan.toml {}", LISTING),
        "mask plan.toml",
        "sweep plan.toml",
        "merge plan.toml plan.journal -o all.journal",
        "check plan.toml --recompute",
    ] {
        let mut command = f.command(&words.split(' ').collect::<Vec<_>>());
        let child = command.stdin(Stdio::null()).stdout(Stdio::piped()).stderr(Stdio::piped()).spawn().unwrap();
        until_it_works(&child);
        let asked = Instant::now();
        signal(&child, "TERM");
        let ended = Ended::of_child(child);
        ended.says(130, &["stopped while the lines of plan.journal were worked out again; nothing was changed\n"]);
        assert!(asked.elapsed() < Duration::from_secs(2), "{}: {:?}", words, asked.elapsed());
        assert!(f.all() == before, "{}: a file was changed", words);
    }
}

/// The output of a command is not held up by a signal that only asks: a reader who does not read would keep it waiting.
#[test]
fn a_signal_after_lines_were_worked_out_again_ends_the_command_at_once() {
    let f = Folder::of_two_plans();
    f.write("e.csv", common::ephemeris(1000));
    let f = f.swept();
    let mut command = f.command(&["mask", "plan.toml", "--form", "csv"]);
    let mut child = command.stdin(Stdio::null()).stdout(Stdio::piped()).stderr(Stdio::piped()).spawn().unwrap();
    // The first of more bytes than a pipe holds.
    child.stdout.as_mut().unwrap().read_exact(&mut [0]).unwrap();
    signal(&child, "TERM");
    // By the signal itself, or with the status of a stop.
    assert!([-1, 130].contains(&Ended::of_child(child).status));
}

/// On a terminal, which `script` makes.
#[test]
fn a_bar_is_shown_where_lines_take_more_than_a_second() {
    let on_terminal = |f: &Folder| {
        let mut command = Command::new("script");
        command.args(["-qec", &format!("{} mask plan.toml", env!("CARGO_BIN_EXE_wilfnusk")), "/dev/null"]).current_dir(f.path(""));
        command.stdin(Stdio::null()).stdout(Stdio::piped()).spawn().unwrap()
    };
    let f = costliest();
    let (mut child, begun) = (on_terminal(&f), Instant::now());
    let (mut shown, mut more) = (String::new(), [0; 4096]);
    while !shown.contains("/16,384 lines worked out again, ") {
        let count = child.stdout.as_mut().unwrap().read(&mut more).unwrap();
        assert!(count > 0, "no bar: {:?}", shown);
        shown += &String::from_utf8_lossy(&more[..count]);
    }
    assert!(begun.elapsed() >= Duration::from_secs(1), "after {:?}", begun.elapsed());
    // The terminal goes, and with it the program.
    child.kill().unwrap();
    child.wait().unwrap();
    let short = Ended::of_child(on_terminal(&Folder::of_two_plans().swept())).stdout;
    assert!(short.contains(" A\r\n") && !short.contains("worked out"), "{:?}", short);
}
