//! Whole commands on journals: merging, lines worked out again, digests, signals, what is no file.
mod common;

use common::{changed, done, run, until_it_listens, Ended, Folder, HEADER, LINE};
use fs2::FileExt;
use sha2::{Digest, Sha256};
use std::{
    fs::{self, File},
    process::{Command, Stdio},
    thread::sleep,
    time::Duration,
};

const CHUNKS: usize = 5;

/// The numbers of a CSV file's columns, line by line.
fn numbers(f: &Folder, name: &str, columns: std::ops::Range<usize>) -> Vec<u64> {
    let line = |line: &str| line.split(',').skip(columns.start).take(columns.len()).map(|x| bits(x.parse().unwrap())).collect();
    f.read(name).lines().skip(1).flat_map(|l| -> Vec<u64> { line(l) }).collect()
}

/// J.plan of plan.toml with this tolerance and these targets, put together here by the rules that docs/JOURNAL.md has.
fn digest(f: &Folder, tolerance: f64, targets: &str) -> String {
    const START: u64 = 1_773_964_800;
    // Three words; the tolerances, the panels and the rolls, each after its length.
    let settings = [8, 0, bits(0.0), 1, bits(tolerance), 3, bits(0.0), bits(1.0), bits(0.0), 0];
    let times = (0..100).map(|j| (START + 60 * j) * 1_000_000_000).collect();
    let ephemeris = [times, numbers(f, "e.csv", 1..4), numbers(f, "e.csv", 4..7)].concat();
    format!(
        "wilfnusk plan 3\nsettings {} plan.toml\ntargets {} t.csv\nephemeris {} e.csv\n",
        hash(&settings),
        hash(&numbers(f, targets, 1..4)),
        hash(&ephemeris)
    )
}

/// Both halves of the sweep, part 2 from the other plan's targets.
fn halves_of_two_plans(f: &Folder) {
    done(f, "sweep plan.toml -q --journal part1.journal --part 1/2");
    done(f, "sweep other.toml -q --journal part2.journal --part 2/2");
}

#[track_caller]
fn refused(f: &Folder, status: i32, words: &str, says: &[&str]) {
    run(f, words).says(status, says);
}

fn bits(x: f64) -> u64 {
    x.to_bits()
}

fn hash(words: &[u64]) -> String {
    let bytes: Vec<u8> = words.iter().flat_map(|word| word.to_le_bytes()).collect();
    Sha256::digest(bytes).iter().map(|b| format!("{:02x}", b)).collect()
}

#[test]
fn merge_writes_a_digest_for_lines_that_it_worked_out_again() {
    let f = Folder::of_two_plans();
    done(&f, "sweep plan.toml -q --journal part1.journal --part 1/2");
    done(&f, "sweep plan.toml -q --journal part2.journal --part 2/2");
    f.remove("part2.journal.plan");
    let merged = run(&f, "merge plan.toml part1.journal part2.journal -o all.journal");
    merged.says(0, &["part2.journal.plan is missing; every line of part2.journal was worked out again and is the same\n"]);
    assert!(!merged.stderr.contains("warning") && !merged.stderr.contains("part1.journal.plan"), "{}", merged.stderr);
    assert_eq!(f.read("all.journal.plan"), f.read("part1.journal.plan"));
    assert!(merged.stdout.ends_with(
        "part2.journal: 3 lines worked out again: each is the same\n\
         part1.journal: 2 lines, 2 of them new\npart2.journal: 3 lines, 3 of them new\nall.journal: 5 of 5 chunks have a line\n"
    ));
    // What merge does anyway may be asked for, and no sample of it.
    done(&f, "merge plan.toml part1.journal part2.journal -o again.journal --recompute");
    refused(&f, 2, "merge plan.toml part1.journal -o a.journal --recompute --trust-journal", &["cannot be used with"]);
    for option in ["--sample 2", "--seed 2"] {
        refused(&f, 2, &format!("merge plan.toml part1.journal -o a.journal --recompute {}", option), &[option.split_once(" ").unwrap().0]);
    }
}

#[test]
fn merge_of_some_parts_says_how_many_chunks_have_a_line() {
    let f = Folder::of_two_plans();
    done(&f, "sweep plan.toml -q --journal part1.journal --part 1/2");
    let merged = done(&f, "merge plan.toml part1.journal -o half.journal");
    let rest =
        "half.journal: 2 of 5 chunks have a line; missing: 2..5; `wilfnusk sweep plan.toml --journal half.journal` works out the rest\n";
    assert!(merged.ends_with(rest), "{}", merged);
}

#[test]
fn trusted_lines_of_unknown_origin_get_no_digest() {
    let f = Folder::of_two_plans();
    halves_of_two_plans(&f);
    f.remove("part2.journal.plan");
    // A digest of this very plan stands where the new journal's would.
    f.copy("part1.journal.plan", "all.journal.plan");
    let words = "merge plan.toml part1.journal part2.journal -o all.journal --trust-journal";
    let says = [
        "warning: part2.journal.plan is missing: nothing shows whether part2.journal was made from",
        "warning: --trust-journal: the lines of part1.journal, part2.journal were not worked out again\n",
        "warning: all.journal has lines of unknown origin, so no all.journal.plan is written\n",
    ];
    run(&f, words).says(0, &says);
    assert!(!f.has("all.journal.plan"));
    for words in ["check", "status", "windows --trust-journal", "mask --trust-journal", "sweep --trust-journal"] {
        let looked = run(&f, &format!("{} plan.toml --journal all.journal", words));
        looked.says(0, &["warning: all.journal.plan is missing"]);
        assert!(!looked.stdout.contains("all.journal.plan is this plan's"), "{}", looked.stdout);
        assert!(!f.has("all.journal.plan"), "{}", words);
    }
    for (journal, known) in [("all.journal", "\"origin_known\": false"), ("part1.journal", "\"origin_known\": true")] {
        let status = run(&f, &format!("status plan.toml --json --journal {}", journal)).stdout;
        assert!(status.contains(known), "{}", status);
    }
    run(&f, "merge plan.toml all.journal part1.journal -o again.journal --trust-journal")
        .says(0, &["warning: all.journal.plan is missing"]);
    assert!(!f.has("again.journal.plan"));
    // Which of the lines are wrong.
    for words in ["check plan.toml --journal all.journal --recompute", "check plan.toml --journal all.journal --recompute --write-digest"] {
        refused(&f, 1, words, &["all.journal: 5 lines worked out again", "not the same", "  line ", ", chunk "]);
    }
    assert!(!f.has("all.journal.plan"));
}

#[test]
fn merge_keeps_the_digest_of_its_parts() {
    let f = Folder::of_two_plans();
    done(&f, "sweep plan.toml -q --journal part1.journal --part 1/2");
    done(&f, "sweep plan.toml -q --journal part2.journal --part 2/2");
    // Journals without a line, with another digest, with none, and not even begun.
    done(&f, "sweep other.toml -q --journal bare.journal --chunks 0..0");
    assert_eq!(f.read("bare.journal").len(), HEADER);
    assert!(!done(&f, "check plan.toml --journal bare.journal").contains("is this plan's"));
    f.write("cut.journal", &f.read("part1.journal")[..HEADER + LINE - 1]);
    f.write("empty.journal", "");
    f.copy("bare.journal.plan", "all.journal.plan");
    let merged = run(&f, "merge plan.toml empty.journal bare.journal cut.journal part1.journal part2.journal -o all.journal");
    assert_eq!((merged.status, merged.stderr.as_str()), (0, ""));
    assert_eq!(f.read("all.journal.plan"), f.read("part1.journal.plan"));
    let checked = done(&f, "check plan.toml --journal all.journal --recompute");
    assert!(checked.contains("all.journal: 5 lines worked out again: each is the same\n"), "{}", checked);
    assert!(checked.contains("5 of 5 chunks have a line; all.journal.plan is this plan's\n"), "{}", checked);
    done(&f, "sweep plan.toml -q");
    assert_eq!(done(&f, "windows plan.toml --journal all.journal"), done(&f, "windows plan.toml"));
}

#[test]
fn a_digest_of_version_3_is_written() {
    let f = Folder::of_two_plans();
    done(&f, "sweep plan.toml -q --part 1/2");
    assert_eq!(f.read("plan.journal.plan"), digest(&f, 15.0, "t.csv"));
}

#[test]
fn a_digest_of_another_plan_is_refused() {
    let f = Folder::of_two_plans();
    done(&f, "sweep plan.toml -q --part 1/2");
    let journal = f.read("plan.journal");
    for (digest, file) in [(digest(&f, 15.0, "other.csv"), "t.csv"), (digest(&f, 15.000000000000002, "t.csv"), "plan.toml")] {
        f.write("plan.journal.plan", &digest);
        let says = format!("{}: its numbers are not those that plan.journal was begun with", file);
        for words in ["check", "status", "windows", "mask", "sweep", "sweep --trust-journal", "check --recompute --write-digest"] {
            refused(&f, 3, &format!("{} plan.toml", words), &[&says]);
        }
        refused(&f, 3, "merge plan.toml plan.journal -o all.journal", &[&says]);
        refused(&f, 3, "merge plan.toml plan.journal -o all.journal --trust-journal", &[&says]);
        assert_eq!(f.read("plan.journal.plan"), digest);
    }
    assert!(f.read("plan.journal") == journal && !f.has("all.journal") && !f.has("all.journal.plan"));
}

/// Beside a journal with lines: no file of the plan is to blame.
#[test]
fn a_digest_that_is_not_of_lowercase_hexadecimal_digits_is_no_digest() {
    let f = Folder::of_two_plans();
    done(&f, "sweep plan.toml -q --part 1/2");
    let good = f.read("plan.journal.plan");
    let digits = |part: &str| good.find(part).unwrap() + part.len() + 1;
    let of = |part: &str, to: &str| format!("{}{}{}", &good[..digits(part)], to, &good[digits(part) + to.len()..]);
    let upper = of("ephemeris", &good[digits("ephemeris")..][..64].to_uppercase());
    let spoiled = [of("settings", "x"), of("targets", &"X".repeat(64)), of("targets", "\0"), upper];
    for text in spoiled.into_iter().map(String::into_bytes).chain([vec![0; (1 << 24) + 1]]) {
        f.write("plan.journal.plan", &text);
        let says = "plan.journal.plan, line 1, column 1: no digest of a plan; allowed: what `wilfnusk sweep` writes. Move the file away and work \
                    every line out again with `wilfnusk check plan.toml --recompute --write-digest`, which writes a new digest if every line is the same\n";
        for words in ["check", "status", "windows", "mask", "sweep", "check --recompute --write-digest"] {
            refused(&f, 3, &format!("{} plan.toml", words), &[says]);
        }
        assert!(fs::read(f.path("plan.journal.plan")).unwrap() == text);
    }
    f.remove("plan.journal.plan");
    done(&f, "check plan.toml --recompute --write-digest");
    assert_eq!(f.read("plan.journal.plan"), good);
}

#[test]
fn a_newer_digest_is_refused() {
    let f = Folder::of_two_plans();
    done(&f, "sweep plan.toml -q --part 1/2");
    let journal = f.read("plan.journal");
    let newer = f.read("plan.journal.plan").replace("wilfnusk plan 3", "wilfnusk plan 4") + "more\n";
    f.write("plan.journal.plan", &newer);
    let says = "plan.journal.plan, line 1, column 1: a digest of version 4, which a newer wilfnusk wrote and this one cannot read; allowed: version 3";
    let again = "; use that program, or move the file away and work every line out again with `wilfnusk check plan.toml --recompute --write-digest`, \
                 which writes a new digest if every line is the same\n";
    for words in ["check", "status", "windows", "mask", "sweep", "check --recompute --write-digest"] {
        refused(&f, 3, &format!("{} plan.toml", words), &[says, again]);
    }
    refused(&f, 3, "merge plan.toml plan.journal -o all.journal", &[says, again]);
    // Nor is it written over where a journal has no line, or where a merged one shall stand, whether with a digest or without: there is no
    // line to work out again.
    let away = "version 3; use that program, or move the file away\n";
    f.write("plan.journal", &journal[..HEADER]);
    refused(&f, 3, "sweep plan.toml", &[says, away]);
    done(&f, "sweep plan.toml -q --journal part1.journal --part 1/2");
    f.write("all.journal.plan", &newer);
    for known in [true, false] {
        if !known {
            f.remove("part1.journal.plan");
        }
        let says = "all.journal.plan, line 1, column 1: a digest of version 4";
        refused(&f, 3, "merge plan.toml part1.journal -o all.journal", &[says, away]);
        refused(&f, 3, "merge plan.toml part1.journal -o all.journal --trust-journal", &[says, away]);
    }
    assert!(f.read("plan.journal.plan") == newer && f.read("all.journal.plan") == newer);
    assert!(f.read("plan.journal") == journal[..HEADER] && !f.has("all.journal"));
    // What the message advises works.
    f.write("plan.journal", &journal);
    f.remove("plan.journal.plan");
    done(&f, "check plan.toml --recompute --write-digest");
    assert!(done(&f, "check plan.toml").contains("plan.journal.plan is this plan's"));
}

#[test]
fn merge_names_the_journal_that_is_not_the_plan_s() {
    let f = Folder::of_two_plans();
    halves_of_two_plans(&f);
    f.write("empty.journal", "");
    let words = "merge plan.toml empty.journal part1.journal part2.journal -o all.journal";
    refused(&f, 3, words, &["t.csv: its numbers are not those that part2.journal was begun with"]);
    // Another header, and what only the library's check sees: more probes than rolls, and a chunk twice.
    let part = f.read("part1.journal");
    let mut header = part.clone().into_bytes();
    header[23] ^= 1;
    let mut probes = part.clone().into_bytes();
    probes[HEADER + LINE - 5] = b'f';
    let twice = (part.clone() + &part[HEADER..HEADER + LINE]).into_bytes();
    for (journal, says) in [(header, "line 1, column 17: rolls"), (probes, "probes; allowed"), (twice, "chunk 0 again")] {
        f.write("part2.journal", journal);
        refused(&f, 1, words, &["refused with 11: part2.journal: ", says]);
    }
    assert!(!f.has("all.journal") && !f.has("all.journal.plan"));
}

#[test]
fn merge_names_the_wrong_one_of_two_lines_of_a_chunk() {
    let f = Folder::of_two_plans().swept();
    let (good, number) = (f.read("plan.journal"), 2);
    f.write("bad.journal", changed(&good, number));
    f.copy("plan.journal.plan", "bad.journal.plan");
    let words = "merge plan.toml plan.journal bad.journal -o all.journal";
    let line = |journal: &str| journal[HEADER + number * LINE..][..LINE - 1].to_owned();
    let named = format!("\n  line 4, chunk 2: the journal has {}, the plan gives {}\n", line(&f.read("bad.journal")), line(&good));
    refused(&f, 1, words, &["wilfnusk: bad.journal: 5 lines worked out again, and 1 is not the same; nothing was changed", &named]);
    let says = ["chunk 2 has two different lines", "without --trust-journal", "in plan.journal, line 4", "in bad.journal, line 4"];
    refused(&f, 3, &format!("{} --trust-journal", words), &says);
    assert!(!f.has("all.journal") && !f.has("all.journal.plan"));
}

#[test]
fn check_without_recompute_says_what_it_did_not_do() {
    let f = Folder::of_two_plans();
    done(&f, "sweep plan.toml -q --part 1/2");
    let again = "its lines could be this plan's; to work every line out again: wilfnusk check plan.toml --recompute\n";
    let checked = done(&f, "check plan.toml");
    let right = "accepted; plan.journal is right: 2 of 5 chunks have a line";
    assert!(checked.contains(&format!("{}; plan.journal.plan is this plan's\n{}", right, again)), "{}", checked);
    let checked = done(&f, "check plan.toml --recompute");
    assert!(checked.contains(&format!("2 lines worked out again: each is the same\n{}; plan.journal.plan is", right)), "{}", checked);
    assert!(!checked.contains(again), "{}", checked);
    f.remove("plan.journal.plan");
    let checked = run(&f, "check plan.toml");
    checked.says(0, &["warning: plan.journal.plan is missing: nothing shows whether plan.journal was made from"]);
    assert!(checked.stdout.contains(&format!("{}\n{}", right, again)), "{}", checked.stdout);
}

#[test]
fn check_recompute_finds_a_changed_digit_in_a_right_line() {
    let f = Folder::of_two_plans();
    done(&f, "sweep plan.toml -q --chunks 4,0..2,3,2");
    let good = f.read("plan.journal");
    for (number, chunk) in [4, 0, 1, 3, 2].into_iter().enumerate() {
        f.write("plan.journal", changed(&good, number));
        done(&f, "check plan.toml");
        let says = format!("1 is not the same; nothing was changed\n  line {}, chunk {}: ", number + 2, chunk);
        refused(&f, 1, "check plan.toml --recompute", &["plan.journal: 5 lines worked out again", &says]);
        refused(&f, 1, "check plan.toml --recompute --sample 5", &[&says]);
    }
    let all = (0..CHUNKS).fold(good.clone(), |journal, number| changed(&journal, number));
    f.write("plan.journal", &all);
    refused(&f, 1, "check plan.toml --recompute", &["5 are not the same", "line 2, ", "line 3, ", "line 4, ", "line 5, ", "line 6, "]);
    refused(&f, 1, "check plan.toml --recompute --sample 2", &["2 of 5 lines, drawn with --seed ", "2 are not the same"]);
    assert_eq!(f.read("plan.journal"), all);
    // A cut line at the end is no line.
    f.write("plan.journal", &good[..good.len() - 1]);
    let checked = done(&f, "check plan.toml --recompute --sample 3 --seed 7");
    assert!(checked.contains("plan.journal: 3 of 4 lines, drawn with --seed 7, worked out again: each is the same"), "{}", checked);
    refused(&f, 2, "check plan.toml --sample 3", &["--recompute"]);
    refused(&f, 2, "check plan.toml --recompute --sample 0", &["--sample"]);
    refused(&f, 2, "check plan.toml --recompute --sample 3 --write-digest", &["--write-digest"]);
}

#[test]
fn a_digest_is_written_when_asked_for_and_every_line_is_the_same() {
    let f = Folder::of_two_plans();
    done(&f, "sweep plan.toml -q --part 1/2");
    let digest = f.read("plan.journal.plan");
    f.remove("plan.journal.plan");
    let remark = "plan.journal.plan is missing; every line of plan.journal was worked out again and is the same. To write it: \
                  wilfnusk check plan.toml --recompute --write-digest\n";
    assert_eq!(run(&f, "check plan.toml --recompute").stderr, remark);
    // Not every line.
    let checked = run(&f, "check plan.toml --recompute --sample 1");
    assert!(checked.stderr.starts_with("warning: plan.journal.plan is missing: nothing shows whether"), "{}", checked.stderr);
    assert!(!f.has("plan.journal.plan"));
    let lock = File::open(f.path("plan.journal")).unwrap();
    lock.lock_exclusive().unwrap();
    // `check` has no --wait.
    let says = "plan.journal: another process sweeps into it; let it end, then check again\n";
    refused(&f, 3, "check plan.toml --recompute --write-digest", &[says]);
    let says = "plan.journal: another process sweeps into it; let it end, or wait for it with --wait\n";
    refused(&f, 3, "sweep plan.toml", &[says]);
    assert!(!f.has("plan.journal.plan"));
    drop(lock);
    assert_eq!(run(&f, "check plan.toml --recompute --write-digest").stderr, "wrote plan.journal.plan\n");
    assert_eq!(f.read("plan.journal.plan"), digest);
    f.remove("plan.journal.plan");
    assert_eq!(f.run_unread("check plan.toml --recompute --write-digest").status, 0);
    assert_eq!(f.read("plan.journal.plan"), digest);
}

#[test]
fn merge_refuses_outputs_that_it_must_not_write() {
    let f = Folder::of_two_plans().swept();
    refused(&f, 2, "merge plan.toml plan.journal -o -", &["-o -: ", "allowed: a file's name"]);
    refused(&f, 2, "merge plan.journal plan.journal -o all.journal", &["the plan comes first"]);
    std::os::unix::fs::symlink("nowhere", f.path("link")).unwrap();
    refused(&f, 3, "merge plan.toml plan.journal -o link", &["link: the file exists"]);
    // Before a line is worked out: this one is not the plan's.
    f.write("bad.journal", changed(&f.read("plan.journal"), 2));
    for folder in ["nodir", "nodir/deep", "t.csv"] {
        let says = format!("wilfnusk: -o {0}/x.journal: there is no folder {0}; make it, or name another\n", folder);
        refused(&f, 3, &format!("merge plan.toml bad.journal -o {}/x.journal", folder), &[&says]);
    }
    refused(&f, 3, "merge plan.toml bad.journal -o nodir/", &["nodir/: it is a folder"]);
    assert!(!f.has("nodir"));
    // No digest is written over a file that is none.
    f.write("x.plan", "my notes");
    refused(&f, 3, "merge plan.toml plan.journal -o x", &["x.plan, line 1, column 1: no digest of a plan"]);
    refused(&f, 3, "sweep plan.toml --journal x", &["x.plan, line 1, column 1: no digest of a plan"]);
    assert_eq!(f.read("x.plan"), "my notes");
    assert!(!f.has("-") && !f.has("all.journal") && !f.has("nowhere"));
    // Nobody reads what it prints; the journal is written all the same.
    assert_eq!(f.run_unread("merge plan.toml plan.journal -o all.journal").status, 0);
    assert_eq!(f.read("all.journal"), f.read("plan.journal"));
}

#[test]
fn a_pipe_is_no_journal() {
    let f = Folder::of_two_plans();
    let pipe = |name: &str| assert!(Command::new("mkfifo").arg(f.path(name)).status().unwrap().success());
    // A run that waited for somebody to write into the pipe would not end.
    let refused = |words: &str, says: &str| f.shell(&format!("timeout 20 $W {}", words)).says(3, &[says]);
    pipe("plan.journal");
    for words in ["sweep", "check", "status", "windows", "mask"] {
        refused(&format!("{} plan.toml", words), "plan.journal: this is a pipe; allowed: a plain file");
    }
    refused("merge plan.toml plan.journal -o all.journal", "plan.journal: this is a pipe");
    refused("sweep plan.toml --journal /dev/zero", "/dev/zero: this is a device");
    refused("check plan.toml --journal /dev/zero", "/dev/zero: this is a device");
    done(&f, "sweep plan.toml -q --journal j");
    f.remove("j.plan");
    pipe("j.plan");
    refused("check plan.toml --journal j", "j.plan: this is a pipe");
}

#[test]
fn a_line_end_in_a_file_name_is_escaped() {
    let f = Folder::of_two_plans();
    f.copy("t.csv", "two\nlines.csv");
    f.plan("plan.toml", "two\\nlines.csv");
    done(&f, "sweep plan.toml -q --part 1/2");
    done(&f, "sweep plan.toml -q");
    assert!(done(&f, "check plan.toml").contains("plan.journal.plan is this plan's"));
    f.copy("other.csv", "two\nlines.csv");
    refused(&f, 3, "check plan.toml", &["two\\nlines.csv: its numbers are not those that plan.journal was begun with"]);
}

#[test]
fn the_advice_on_a_damaged_journal_keeps_the_right_lines() {
    let f = Folder::of_two_plans();
    fs::create_dir(f.path("a day's work")).unwrap();
    for file in ["plan.toml", "t.csv", "e.csv"] {
        f.copy(file, &format!("a day's work/{}", file));
    }
    let run = |words: &[&str]| f.run(&[words, &["a day's work/plan.toml"]].concat());
    assert_eq!(run(&["sweep", "-q"]).status, 0);
    let journal = "a day's work/plan.journal";
    let good = f.read(journal);
    // A byte that is no digit, a chunk twice, a chunk that does not exist; the lines are numbered from 2.
    let mut damaged = (good.clone() + &good[HEADER..HEADER + LINE]).into_bytes();
    damaged[HEADER + LINE + 3] = b'x';
    damaged[HEADER + 2 * LINE] = b'f';
    f.write(journal, &damaged);
    let refused = run(&["check"]);
    refused.says(1, &["3 of its 6 lines are not right", "line 3, ", "line 4, ", "line 7, ", "salvage", "sed '3,4d;7d'"]);
    let advice = refused.stderr.lines().last().unwrap();
    assert_eq!(f.shell(advice).status, 0, "{}", advice);
    assert_eq!(f.read(journal), good[..HEADER + LINE].to_owned() + &good[HEADER + 3 * LINE..]);
    assert_eq!(f.read("a day's work/plan.journal.damaged").into_bytes(), damaged);
    assert_eq!(run(&["check"]).status, 0);
    let status = run(&["status"]);
    assert!(status.stdout.ends_with("next     wilfnusk sweep 'a day'\\''s work/plan.toml'\n"), "{}", status.stdout);
    // Where a line lost its end, sed would see other lines.
    damaged.remove(HEADER + 2 * LINE - 1);
    f.write(journal, damaged);
    let refused = run(&["check"]);
    assert!(refused.status == 1 && refused.stderr.contains("salvage") && !refused.stderr.contains("sed '"), "{}", refused.stderr);
}

#[test]
fn advice_names_the_journal_that_was_asked_for() {
    let f = Folder::of_two_plans();
    done(&f, "sweep plan.toml -q --journal half.journal --part 1/2");
    let status = run(&f, "status plan.toml --journal half.journal");
    assert!(status.stdout.ends_with("next     wilfnusk sweep plan.toml --journal half.journal\n"), "{}", status.stdout);
    let says = "2 of 5 chunks have a line; `wilfnusk sweep plan.toml --journal half.journal` works out the rest";
    refused(&f, 4, "windows plan.toml --journal half.journal", &[says]);
    refused(&f, 4, "windows plan.toml --journal none.journal", &["`wilfnusk sweep plan.toml --journal none.journal` makes one"]);
}

/// A sweep that waits for the journal, started with some signals ignored, and hit by one; then the journal is free.
fn hit_by(signal: &str, ignored: &str) -> Ended {
    let f = Folder::of_two_plans();
    let journal = File::create(f.path("plan.journal")).unwrap();
    journal.lock_exclusive().unwrap();
    // Signals that this test was started with ignored are set to their default: a shell's background job has INT ignored.
    let mut command = Command::new("env");
    let script = format!("trap '' {}; exec \"$0\" sweep plan.toml -q --wait", ignored);
    command.args(["--default-signal", "bash", "-c", &script, env!("CARGO_BIN_EXE_wilfnusk")]);
    let child = command.current_dir(f.path("")).stdin(Stdio::null()).stdout(Stdio::piped()).stderr(Stdio::piped()).spawn().unwrap();
    until_it_listens(&child);
    // With TERM ignored, the line above comes too soon.
    sleep(Duration::from_millis(60));
    common::signal(&child, signal);
    sleep(Duration::from_millis(20));
    drop(journal);
    Ended::of_child(child)
}

#[test]
fn signals_that_were_ignored_stay_ignored() {
    for signal in ["HUP", "INT", "TERM"] {
        let ended = hit_by(signal, signal);
        assert_eq!(ended.status, 0, "{} ignored: {}", signal, ended.stderr);
        hit_by(signal, "USR1").says(130, &["stopped"]);
    }
}
