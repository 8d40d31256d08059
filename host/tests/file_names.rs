//! File names with a line feed: every message shows them escaped, so that no line of output is part of a name.
mod common;

use common::{ephemeris, Ended, Folder};

const PLAN: &str = "pl\nan.toml";

/// The name is nowhere in what was printed, and its escaped form is.
#[track_caller]
fn escaped(ended: &Ended, status: i32, shown: &[&str]) {
    let text = format!("{}{}", ended.stdout, ended.stderr);
    assert_eq!(ended.status, status, "{}", text);
    for name in ["pl\nan", "t\n.csv", "e\n.csv", "e\n/", "o\n."] {
        assert!(!text.contains(name), "{}", text);
    }
    assert!(shown.iter().all(|shown| text.contains(shown)), "not {:?} in {}", shown, text);
}

#[test]
fn a_line_feed_in_a_file_name_is_escaped_in_every_message() {
    let f = Folder::new(&[], "", "");
    let write =
        |more: &str| f.write(PLAN, &format!("targets = \"t\\n.csv\"\nephemeris = \"e\\n.csv\"\nrolls = 8\ntolerance = 15\n{}", more));
    write("");
    f.write("t\n.csv", "name,x,y,z\nA,1,0,0\nB,0,1,0\n");
    f.write("e\n.csv", &ephemeris(100));
    let (toml, journal) = ("pl\\nan.toml", "pl\\nan.journal");
    let run = |words: &[&str]| f.run(words);
    escaped(&run(&["check", PLAN]), 0, &[toml, journal]);
    escaped(&run(&["status", PLAN]), 4, &[toml, journal]);
    escaped(&run(&["windows", PLAN]), 4, &[journal]);
    escaped(&run(&["windows", PLAN, "--evaluate"]), 2, &[toml]);
    escaped(&run(&["sweep", PLAN, "--part", "1/2", "--csv", "o\n.csv"]), 0, &[journal, "o\\n.csv"]);
    escaped(&run(&["windows", PLAN]), 4, &[journal]);
    f.write("pl\nan.journal", &(f.read("pl\nan.journal") + "0"));
    escaped(&run(&["sweep", PLAN, "-q", "--csv", "o\n.csv"]), 0, &["recovered pl\\nan.journal: removed 1 byte of", "wrote o\\n.csv"]);
    escaped(&run(&["check", PLAN, "--recompute"]), 0, &[journal]);
    escaped(&run(&["status", PLAN]), 0, &[journal]);
    escaped(&run(&["status", PLAN, "--json"]), 0, &[journal]);
    escaped(&run(&["windows", PLAN, "--target", "C"]), 2, &["t\\n.csv"]);
    escaped(&run(&["regard", PLAN, "--time", "2026-03-20T00:00:30Z"]), 2, &["e\\n.csv"]);
    escaped(&run(&["rolls", PLAN, "--csv", "o\n.csv"]), 0, &["wrote o\\n.csv"]);
    escaped(&run(&["rolls", PLAN, "--csv", "t\n.csv"]), 2, &["t\\n.csv"]);
    escaped(&run(&["merge", PLAN, "pl\nan.journal", "-o", "o\n.journal"]), 0, &[journal, "o\\n.journal"]);
    escaped(&run(&["merge", PLAN, "pl\nan.journal", "-o", "o\n.journal"]), 3, &["o\\n.journal"]);
    escaped(&run(&["example", "e\n"]), 0, &["e\\n/plan.toml"]);
    escaped(&run(&["example", "e\n"]), 3, &["e\\n/targets.csv"]);
    // A journal that is damaged, of another plan, of unknown origin.
    let whole = f.read("pl\nan.journal");
    f.write("pl\nan.journal", &whole.replacen('\n', "x", 1));
    escaped(&run(&["check", PLAN]), 1, &[journal]);
    f.write("pl\nan.journal", &format!("{}x{}", &whole[..110], &whole[111..]));
    escaped(&run(&["check", PLAN]), 1, &[journal]);
    f.write("pl\nan.journal", &whole);
    std::fs::remove_file(f.path("pl\nan.journal.plan")).unwrap();
    escaped(&run(&["check", PLAN]), 0, &["pl\\nan.journal.plan is missing"]);
    escaped(&run(&["check", PLAN, "--recompute"]), 0, &["pl\\nan.journal.plan is missing"]);
    escaped(&run(&["check", PLAN, "--recompute", "--write-digest"]), 0, &["wrote pl\\nan.journal.plan"]);
    f.write("t\n.csv", "name,x,y,z\nA,1,0,0\nB,0,-1,0\n");
    escaped(&run(&["check", PLAN]), 3, &["t\\n.csv: its numbers", journal]);
    // Plans that are refused.
    f.write("t\n.csv", &format!("name,x,y,z\n{}", "A,1,0,0\n".repeat(70_000)));
    escaped(&run(&["check", PLAN]), 1, &["t\\n.csv has 70,000", "e\\n.csv has 100"]);
    f.write("t\n.csv", "name,x,y,z\nA,1,0,0\n");
    f.write(PLAN, &f.read(PLAN).replace("= 15", "= [1, 2]"));
    escaped(&run(&["check", PLAN]), 1, &[toml, "t\\n.csv has 1 target"]);
    escaped(&run(&["check", "o\n.toml"]), 3, &["o\\n.toml: there is no such file"]);
}
