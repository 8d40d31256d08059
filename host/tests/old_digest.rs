//! J.plan of an earlier program, whose optimal rolls were not yet folded into 0 to 360. Beside lines it is refused, and no byte changes; where there
//! is none it is replaced.
mod common;

use common::{Folder, HEADER, LINE};

/// What the programs of versions 1 and 2 wrote for the plan below, and what this one writes.
const OLD: [&str; 2] = [
    "wilfnusk plan 1\n\
    settings 5e754224acbd7ed75550e75c950b02210a9ba34f0e4b182532ee82cdf068f5b0 plan.toml\n\
    targets 4787a52766c2d47c0d1ba11d22ddb34a2beee258c82364eb9a6fbb8754c63d20 t.csv\n\
    ephemeris ed8df92f9ec4858c6a17c84cbe660f1558dcfacaf17b236ccb9485aa5a1f7b9d e.csv\n",
    "wilfnusk plan 2\n\
    settings 839d7dfb8d119dcd36c4670a61e9227371d375e531cf4d9fdd4d100dffbd07c1 plan.toml\n\
    targets 4787a52766c2d47c0d1ba11d22ddb34a2beee258c82364eb9a6fbb8754c63d20 t.csv\n\
    ephemeris ed8df92f9ec4858c6a17c84cbe660f1558dcfacaf17b236ccb9485aa5a1f7b9d e.csv\n",
];
const NEW: &str = "wilfnusk plan 3\n\
    settings 839d7dfb8d119dcd36c4670a61e9227371d375e531cf4d9fdd4d100dffbd07c1 plan.toml\n\
    targets 4787a52766c2d47c0d1ba11d22ddb34a2beee258c82364eb9a6fbb8754c63d20 t.csv\n\
    ephemeris ed8df92f9ec4858c6a17c84cbe660f1558dcfacaf17b236ccb9485aa5a1f7b9d e.csv\n";

/// Two targets at 40 times, 80 cells in 2 chunks.
fn folder() -> Folder {
    Folder::new(&["A", "B"], &"01".repeat(20), "tolerance = 10\n")
}

/// The refusal of an old digest beside a journal of plan.toml.
fn says(old: &str, journal: &str) -> Vec<String> {
    let option = if journal == "plan.journal" { String::new() } else { format!(" --journal {}", journal) };
    vec![
        format!("wilfnusk: {}.plan, line 1, column 1: a digest of version {}; allowed: version 3. ", journal, &old[14..15]),
        format!("The lines of {} were worked out by an earlier wilfnusk (before 0.3.0), whose optimal rolls were not yet folded", journal),
        "into 0 to 360, so some lines might come out differently now; nothing was changed\n".into(),
        format!("sweep into another journal with --journal, or move {0} and {0}.plan away and sweep\n", journal),
        format!(
            "move {}.plan away and work every line out again with `wilfnusk check plan.toml{} --recompute --write-digest`",
            journal, option
        ),
    ]
}

/// Refused with these words, and no file in the folder changes.
#[track_caller]
fn refused(f: &Folder, words: &str, says: &[String]) {
    let before = f.all();
    let ended = f.run(&words.split(' ').collect::<Vec<_>>());
    ended.says(3, &says.iter().map(String::as_str).collect::<Vec<_>>());
    for certified in ["origin_known", "accepted", "is the same", "is this plan's"] {
        assert!(!ended.stdout.contains(certified), "{}: {}", words, ended.stdout);
    }
    assert!(f.all() == before, "{}: a file was changed", words);
}

#[test]
fn every_command_that_reads_lines_refuses_those_with_an_older_digest() {
    for old in OLD {
        // Some lines, a line more whose writing did not end, all lines.
        for (part, tail) in [("1/2", ""), ("1/2", "0000"), ("1/1", "")] {
            let f = folder();
            f.run(&["sweep", "plan.toml", "-q", "--part", part]).says(0, &[]);
            assert_eq!(f.read("plan.journal.plan"), NEW);
            f.write("plan.journal", &(f.read("plan.journal") + tail));
            f.write("plan.journal.plan", old);
            let says = says(old, "plan.journal");
            for words in [
                "sweep plan.toml",
                "sweep plan.toml --chunks 1",
                "sweep plan.toml --chunks 0..0",
                "sweep plan.toml --csv w.csv",
                "windows plan.toml",
                "windows plan.toml --csv w.csv --json -",
                "status plan.toml",
                "status plan.toml --json",
                "check plan.toml",
                "check plan.toml --recompute",
                "check plan.toml --recompute --sample 1",
                "check plan.toml --recompute --write-digest",
                "mask plan.toml",
                "mask plan.toml --form csv",
                "merge plan.toml plan.journal -o all.journal",
                "merge plan.toml plan.journal -o all.journal --trust-journal",
                "windows plan.toml --trust-journal",
            ] {
                refused(&f, words, &says);
            }
            // Of an edited plan too: the lines are not this program's, whatever they were made from.
            f.write("plan.toml", &f.read("plan.toml").replace("rolls = 1", "# rolls\nrolls = 1"));
            f.write("t.csv", "name,x,y,z\nA,1,0,0\nB,0,1,0\n");
            refused(&f, "sweep plan.toml", &says);
        }
    }
}

#[test]
fn commands_that_read_no_line_ignore_an_older_digest() {
    let f = folder().swept();
    f.write("plan.toml", &(f.read("plan.toml") + "configured_roll = 0\n"));
    f.write("plan.journal.plan", OLD[1]);
    let before = f.all();
    for words in [
        "mask plan.toml --roll 0",
        "mask plan.toml --fixed-roll 0",
        "regard plan.toml --sample 1",
        "rolls plan.toml",
        "windows plan.toml --evaluate",
    ] {
        let ended = f.run(&words.split(' ').collect::<Vec<_>>());
        assert_eq!((ended.status, ended.said()), (0, String::new()), "{}", words);
    }
    assert!(f.all() == before);
}

/// Each part is compared with its own digest, in whatever order they are given.
#[test]
fn merge_refuses_a_part_with_an_older_digest() {
    for old in OLD {
        let f = folder();
        for (part, journal) in [("1/2", "a.journal"), ("2/2", "b.journal")] {
            f.run(&["sweep", "plan.toml", "-q", "--journal", journal, "--part", part]).says(0, &[]);
        }
        for (journal, other) in [("a.journal", "b.journal"), ("b.journal", "a.journal")] {
            let digest = format!("{}.plan", journal);
            f.write(&digest, old);
            for trust in ["", " --trust-journal"] {
                refused(&f, &format!("merge plan.toml a.journal b.journal -o all.journal{}", trust), &says(old, journal));
                refused(&f, &format!("merge plan.toml {} {} -o all.journal{}", other, journal, trust), &says(old, journal));
            }
            f.write(&digest, NEW);
        }
        // One that stands where the new journal's will, and one beside a part without a line, do no harm.
        f.write("all.journal.plan", old);
        f.write("bare.journal", &f.read("a.journal")[..HEADER + LINE - 1]);
        f.write("bare.journal.plan", old);
        f.run(&["merge", "plan.toml", "bare.journal", "a.journal", "b.journal", "-o", "all.journal"]).says(0, &[]);
        assert_eq!((f.read("all.journal.plan").as_str(), f.read("bare.journal.plan").as_str()), (NEW, old));
        // It is removed where the merged lines are of unknown origin, and replaced where they were worked out again.
        f.remove("b.journal.plan");
        f.write("more.journal.plan", old);
        f.run(&["merge", "plan.toml", "a.journal", "b.journal", "-o", "more.journal", "--trust-journal"])
            .says(0, &["warning: b.journal.plan is missing"]);
        assert!(!f.has("more.journal.plan"));
        f.write("again.journal.plan", old);
        f.run(&["merge", "plan.toml", "a.journal", "b.journal", "-o", "again.journal"]).says(0, &["b.journal.plan is missing; every line"]);
        assert_eq!(f.read("again.journal.plan"), NEW);
    }
}

#[test]
fn an_older_digest_is_replaced_where_the_journal_has_no_line() {
    let whole = folder().swept();
    let (journal, windows) = (whole.read("plan.journal"), whole.run(&["windows", "plan.toml"]).stdout);
    assert_eq!((journal.len(), whole.read("plan.journal.plan").as_str()), (HEADER + 2 * LINE, NEW));
    for old in OLD {
        for left in [None, Some(0), Some(1), Some(HEADER - 1), Some(HEADER), Some(HEADER + 1), Some(HEADER + LINE - 1)] {
            let f = folder();
            f.write("plan.journal.plan", old);
            if let Some(left) = left {
                f.write("plan.journal", &journal[..left]);
            }
            let before = f.all();
            f.run(&["check", "plan.toml", "--recompute"]).says(0, &[]);
            for words in ["status", "windows", "mask"] {
                f.run(&[words, "plan.toml"]).says(4, &[]);
            }
            assert!(f.all() == before, "{:?}: a file was changed", left);
            let ended = f.run(&["sweep", "plan.toml", "--chunks", "0..0"]);
            ended.says(0, &["0 of 2 chunks have a line"]);
            assert_eq!((f.read("plan.journal.plan").as_str(), f.read("plan.journal").as_str()), (NEW, &journal[..HEADER]), "{:?}", left);
            // And at once, in the sweep that writes the lines.
            f.write("plan.journal.plan", old);
            match left {
                Some(left) => f.write("plan.journal", &journal[..left]),
                None => f.remove("plan.journal"),
            }
            let ended = f.run(&["sweep", "plan.toml"]);
            ended.says(0, &["2 of 2 chunks have a line"]);
            assert_eq!((f.read("plan.journal.plan").as_str(), f.read("plan.journal").as_str()), (NEW, journal.as_str()), "{:?}", left);
            assert_eq!(ended.stdout, windows);
        }
    }
}

/// The command that the message shows, once J.plan is moved away; and another journal.
#[test]
fn the_advice_on_an_older_digest_works() {
    for journal in ["plan.journal", "it's.journal"] {
        let f = folder();
        f.run(&["sweep", "plan.toml", "-q", "--journal", journal, "--part", "1/2"]).says(0, &[]);
        let (lines, digest) = (f.read(journal), format!("{}.plan", journal));
        f.write(&digest, OLD[1]);
        let said = f.run(&["check", "plan.toml", "--journal", journal]).stderr;
        let command = said.split('`').nth(1).unwrap().replacen("wilfnusk", "$W", 1);

        f.run(&["sweep", "plan.toml", "--journal", "another.journal"]).says(0, &["2 of 2 chunks have a line"]);
        assert_eq!((f.read(&digest).as_str(), f.read(journal)), (OLD[1], lines.clone()));

        f.remove(&digest);
        f.shell(&command).says(0, &[&format!("wrote {}\n", digest)]);
        assert_eq!((f.read(&digest).as_str(), &f.read(journal)), (NEW, &lines));
        f.run(&["sweep", "plan.toml", "--journal", journal]).says(0, &["2 of 2 chunks have a line"]);

        // A line that comes out differently now is named, and no digest is written: here the marks of four cells are changed.
        f.remove(&digest);
        f.write(journal, &lines.replacen("aaaa", "aaa5", 1));
        f.shell(&command).says(1, &["1 is not the same", "line 2, chunk 0: ", "or by a wilfnusk before 0.3.0"]);
        assert!(!f.has(&digest));
    }
}

/// The hashes of version 1 are not this plan's under the title of version 3.
#[test]
fn an_older_digest_with_the_new_title_is_refused() {
    let f = folder().swept();
    f.write("plan.journal.plan", &OLD[0].replace("plan 1\n", "plan 3\n"));
    refused(&f, "sweep plan.toml", &["plan.toml: its numbers are not those that plan.journal was begun with".into()]);
}
