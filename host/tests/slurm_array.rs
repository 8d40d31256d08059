//! docs/slurm-array.sh: which part a task sweeps, and which submissions are refused. In the program's place stands one that prints its arguments;
//! `tools/try-slurm` runs the script under Slurm.
use std::{fs, os::unix::fs::PermissionsExt, process::Command};

const SCRIPT: &str = concat!(env!("CARGO_MANIFEST_DIR"), "/../docs/slurm-array.sh");

/// Status, standard output and standard error of one task of an array, given as its first, its last and this task's number.
fn task(array: Option<(&str, &str, &str)>, arguments: &[&str]) -> (Option<i32>, String, String) {
    let folder = tempfile::tempdir().unwrap();
    let program = folder.path().join("wilfnusk");
    fs::write(&program, "#!/bin/sh\necho \"$@\"\n").unwrap();
    fs::set_permissions(&program, fs::Permissions::from_mode(0o755)).unwrap();
    let mut command = Command::new("bash");
    command.arg(SCRIPT).args(arguments).current_dir(folder.path());
    command.env("PATH", format!("{}:{}", folder.path().display(), std::env::var("PATH").unwrap()));
    for name in ["ID", "MIN", "MAX", "COUNT"] {
        command.env_remove(format!("SLURM_ARRAY_TASK_{}", name));
    }
    if let Some((first, last, id)) = array {
        for (name, value) in [("MIN", first), ("MAX", last), ("ID", id), ("COUNT", "1")] {
            command.env(format!("SLURM_ARRAY_TASK_{}", name), value);
        }
    }
    let output = command.output().unwrap();
    let text = |bytes| String::from_utf8(bytes).unwrap();
    (output.status.code(), text(output.stdout), text(output.stderr))
}

#[test]
fn a_task_sweeps_its_part_whatever_other_tasks_the_array_has() {
    for (first, last, id) in [("1", "20", "7"), ("7", "7", "7"), ("1", "2", "1"), ("1", "2", "2"), ("1", "20", "20")] {
        let (status, stdout, stderr) = task(Some((first, last, id)), &["sky/plan.toml", "20"]);
        let arguments = format!("sweep sky/plan.toml --quiet --wait --journal sky/plan.part{id}.journal --part {id}/20\n");
        assert_eq!((status, stdout, stderr), (Some(0), arguments, String::new()), "--array={}-{}, task {}", first, last, id);
    }
}

#[track_caller]
fn refused(array: Option<(&str, &str, &str)>, arguments: &[&str], sentence: &str) {
    let (status, stdout, stderr) = task(array, arguments);
    assert_eq!((status, stdout, stderr), (Some(2), String::new(), format!("slurm-array.sh: {}\n", sentence)));
}

#[test]
fn every_task_of_an_array_beyond_the_parts_is_refused() {
    for (first, last, id, outside) in [("0", "19", "0", "0"), ("0", "19", "7", "0"), ("1", "21", "21", "21"), ("1", "21", "7", "21")] {
        let advice = "submit it with --array within 1-20, as in: sbatch --array=1-20 slurm-array.sh plan.toml 20";
        let sentence = format!("the array has task {}, and the parts are 1 to 20: {}", outside, advice);
        refused(Some((first, last, id)), &["plan.toml", "20"], &sentence);
    }
}

#[test]
fn a_submission_without_an_array_or_a_number_of_parts_is_refused() {
    let usual = "as in: sbatch --array=1-20 slurm-array.sh plan.toml 20";
    refused(None, &["plan.toml", "20"], &format!("no part is chosen: submit it as an array, {}", usual));
    refused(Some(("1", "20", "1")), &["plan.toml"], &format!("it takes the plan and the number of parts, {}", usual));
    for parts in ["0", "-1", "20x", "", "1.5", "08", "99999999999999999999"] {
        let sentence = format!("the number of parts is '{}', and must be a whole number from 1 up", parts);
        refused(Some(("1", "20", "1")), &["plan.toml", parts], &sentence);
    }
}
