//! Whole sweeps: jobs and ranges, tails of zero bytes, sweeps that lack chunks, limits on the size of files.
mod common;

use common::{done, ephemeris, run, Folder};
use std::{fs, os::unix::process::ExitStatusExt};

const HEADER: usize = 107;
const LINE: usize = 33;

/// 7 targets at 300 times, 33 chunks.
fn folder() -> Folder {
    let folder = Folder::new(&["A"], "0", "");
    folder.write("plan.toml", "targets = \"t.csv\"\nephemeris = \"e.csv\"\nrolls = 8\ntolerance = 15\n");
    let rows: String = (0..7).map(|i| format!("T{},{},{}\n", i, 51 * i, 25 * i - 75)).collect();
    folder.write("t.csv", &format!("name,ra,dec\n{}", rows));
    folder.write("e.csv", &ephemeris(300));
    folder
}
fn bytes(folder: &Folder) -> Vec<u8> {
    fs::read(folder.path("plan.journal")).unwrap()
}
fn put(folder: &Folder, bytes: &[u8]) {
    fs::write(folder.path("plan.journal"), bytes).unwrap();
}

#[test]
fn the_journal_has_the_same_bytes_for_any_number_of_jobs_and_any_range() {
    let folder = folder();
    for chunks in ["", " --chunks 5,4,3,20..33,0..20"] {
        done(&folder, &format!("sweep plan.toml -q --jobs 1{}", chunks));
        let one = bytes(&folder);
        assert_eq!(one.len(), HEADER + 33 * LINE);
        for words in ["--jobs 2", "--jobs 5", "--jobs 5 --range 1", "--jobs 2 --range 3", "--range 7", "--jobs 1000"] {
            // From nothing, and from a journal in which every third chunk is missing.
            put(&folder, b"");
            done(&folder, &format!("sweep plan.toml -q {}{}", words, chunks));
            assert!(bytes(&folder) == one, "{}{}", words, chunks);
            let (found, missing): (Vec<_>, Vec<_>) = one[HEADER..].chunks(LINE).enumerate().partition(|(i, _)| i % 3 > 0);
            let lines = |lines: Vec<(usize, &[u8])>| lines.into_iter().flat_map(|(_, line)| line.to_vec()).collect::<Vec<_>>();
            let (found, missing) = (lines(found), lines(missing));
            put(&folder, &[&one[..HEADER], &found].concat());
            done(&folder, &format!("sweep plan.toml -q {}{}", words, chunks));
            assert!(bytes(&folder) == [&one[..HEADER], &found, &missing].concat(), "{}{}", words, chunks);
        }
        put(&folder, b"");
    }
    for wrong in ["--jobs 0", "--range 0", "--jobs x"] {
        assert_eq!(run(&folder, &format!("sweep plan.toml {}", wrong)).status, 2, "{}", wrong);
    }
}

#[test]
fn a_tail_of_zero_bytes_is_named_and_dropped_when_asked_for() {
    let folder = folder();
    done(&folder, "sweep plan.toml -q");
    let (whole, windows) = (bytes(&folder), done(&folder, "windows plan.toml --csv -"));
    let lines = |count: usize| whole[..HEADER + count * LINE].to_vec();
    let cut = |length: usize| whole[..length].to_vec();
    for (before, zeros, keep) in [
        (lines(33), 33, HEADER + 33 * LINE),
        (lines(5), 66, HEADER + 5 * LINE),
        (lines(5), 2112, HEADER + 5 * LINE),
        (lines(0), 40, HEADER),
        // A line that was cut, then zeros; a header that was cut; zeros alone.
        (cut(HEADER + 5 * LINE + 9), 100, HEADER + 5 * LINE),
        (cut(50), 4046, 0),
        (Vec::new(), 4096, 0),
    ] {
        let found = [&before[..], &vec![0; zeros]].concat();
        put(&folder, &found);
        let says = format!("{} zero bytes, as a file system may leave them", common::grouped(zeros));
        let advice = "`wilfnusk sweep plan.toml --drop-zero-tail`";
        for words in ["sweep", "windows", "status", "check", "mask"] {
            let ended = run(&folder, &format!("{} plan.toml", words));
            ended.says(1, &["refused with 11: plan.journal: it ends with ", &says, "nothing was changed\n  line ", advice]);
        }
        fs::write(folder.path("part.journal"), &found).unwrap();
        run(&folder, "merge plan.toml part.journal -o all.journal")
            .says(1, &[&says, "`wilfnusk sweep plan.toml --journal part.journal --drop-zero-tail`"]);
        assert!(!folder.path("all.journal").exists());
        assert!(bytes(&folder) == found, "{} zeros", zeros);
        let ended = run(&folder, "sweep plan.toml -q --chunks 0..0 --drop-zero-tail");
        let dropped = format!("plan.journal: the last {} bytes dropped, ", common::grouped(found.len() - keep));
        ended.says(0, &[&dropped, &format!("{} zero bytes", common::grouped(zeros))]);
        assert!(bytes(&folder) == whole[..keep.max(HEADER)], "{} zeros", zeros);
        done(&folder, "sweep plan.toml -q");
        assert_eq!(done(&folder, "windows plan.toml --csv -"), windows);
    }
    // Damage before the zeros, bytes of no line before them, and zeros with a line after them, are not a tail: nothing is dropped.
    let mut wrong = [&whole[..], &[0; 66]].concat();
    wrong[HEADER + 3] = b'x';
    let no_write = |bytes: &[u8]| [&whole[..HEADER + 2 * LINE + 8], bytes, &[0; 40]].concat();
    let between = [&lines(5)[..], &[0; LINE], &whole[HEADER + 5 * LINE..]].concat();
    for found in [wrong, no_write(b"zz"), no_write(b"A"), no_write(b"\n"), no_write(b"\0a"), between] {
        put(&folder, &found);
        let ended = run(&folder, "sweep plan.toml --drop-zero-tail");
        ended.says(1, &["refused with 11: plan.journal: ", "not right; nothing was changed"]);
        assert!(!ended.stderr.contains("--drop-zero-tail") && bytes(&folder) == found, "{}", ended.stderr);
    }
    // Where nothing is to be dropped, the option changes nothing.
    put(&folder, &whole);
    assert!(!run(&folder, "sweep plan.toml -q --drop-zero-tail").stderr.contains("dropped"));
    assert!(bytes(&folder) == whole);
}

/// As docs/JOURNAL.md has it.
#[test]
fn fewer_than_33_bytes_after_the_last_line_are_removed_and_other_zero_bytes_refused() {
    let folder = folder();
    done(&folder, "sweep plan.toml -q");
    let whole = bytes(&folder);
    let zeros = |keep: usize, zeros: usize| [&whole[..keep], &vec![0; zeros]].concat();
    let five = HEADER + 5 * LINE;
    for found in [zeros(five, 1), zeros(five, 32), zeros(HEADER, 32), zeros(five + 10, 22)] {
        put(&folder, &found);
        run(&folder, "sweep plan.toml -q").says(0, &["recovered plan.journal: removed "]);
        assert!(bytes(&folder) == whole);
    }
    for found in [zeros(five + 10, 23), zeros(five + 10, 32), zeros(50, 1), zeros(0, 1)] {
        put(&folder, &found);
        run(&folder, "sweep plan.toml").says(1, &["refused with 11", "--drop-zero-tail`\n"]);
        assert!(bytes(&folder) == found);
        done(&folder, "sweep plan.toml -q --drop-zero-tail");
        assert!(bytes(&folder) == whole);
    }
    let says = "Fewer than 33 bytes after the last whole line are what a cut may leave of a line, and every sweep removes them, zero bytes too. Zero \
                bytes elsewhere (after a cut line, so that both together are 33 bytes or more; after a beginning of the header; in a file of nothing else) \
                are refused with 11, however few they are, and `--drop-zero-tail` removes them.";
    assert!(common::document().1.contains(says));
}

#[test]
fn a_tail_of_zero_bytes_beyond_any_journal_is_cut_off_as_advised() {
    let folder = folder();
    done(&folder, "sweep plan.toml -q");
    let whole = bytes(&folder);
    fs::OpenOptions::new().write(true).open(folder.path("plan.journal")).unwrap().set_len(200 << 20).unwrap();
    let says = "plan.journal: 209,715,200 bytes; allowed: at most 16,777,216, which no journal exceeds. If it ends with zero bytes, as a power cut may \
                leave them, shorten it: truncate -s 16777216 plan.journal\n";
    for words in ["sweep", "windows", "status", "check"] {
        run(&folder, &format!("{} plan.toml", words)).says(3, &[says]);
    }
    let advice = says.split_once("shorten it: ").unwrap().1;
    assert_eq!(folder.shell(advice).status, 0);
    run(&folder, "sweep plan.toml").says(1, &["refused with 11: plan.journal: it ends with 16,776,020 zero bytes"]);
    done(&folder, "sweep plan.toml -q --drop-zero-tail");
    assert!(bytes(&folder) == whole);
}

#[test]
fn a_sweep_that_lacks_chunks_says_how_many_and_that_an_old_output_is_not_its_own() {
    let folder = folder();
    folder.write("w.csv", "old\n");
    let ended = run(&folder, "sweep plan.toml --part 1/2 --csv w.csv --json w.json");
    ended.says(
        0,
        &[
            "plan.journal: 16 of 33 chunks have a line; missing: 16..33\n",
            "--csv w.csv, --json w.json were not written, as windows are listed of a whole sweep only",
            "\nw.csv is an older file, not of this sweep\n",
        ],
    );
    assert_eq!(folder.read("w.csv"), "old\n");
    assert!(!folder.path("w.json").exists());
    let ended = run(&folder, "sweep plan.toml --part 1/2 --json w.json");
    assert!(ended.status == 0 && !ended.stderr.contains("older"), "{}", ended.stderr);
}

#[test]
fn a_limit_on_the_size_of_files_is_reported() {
    let folder = folder();
    // A block of `ulimit -f` has 512 or 1,024 bytes, by the shell: less than the journal's 1,196 either way.
    for (words, file) in [("sweep plan.toml -q", "plan.journal"), ("rolls plan.toml --csv r.csv", "r.csv")] {
        let line = format!("ulimit -c 0; ulimit -f 1; exec \"$W\" {}", words);
        let output = folder.shell_output(&line);
        assert_eq!(output.status.signal(), None, "{}: killed", words);
        let text = String::from_utf8(output.stderr).unwrap();
        assert!(
            output.status.code() == Some(3) && text.contains(&format!("{}: the file may not grow further", file)),
            "{}: {}",
            words,
            text
        );
    }
    done(&folder, "sweep plan.toml -q");
    assert_eq!(bytes(&folder).len(), HEADER + 33 * LINE);
}
