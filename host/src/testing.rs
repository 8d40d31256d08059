//! Plans for the unit tests.
use crate::{
    engine::{self, LINE_BYTES},
    fault::Fault,
    plan::Plan,
};
use std::fs;

pub const TARGETS: &str = "name,x,y,z\nA,1,0,0\n";
pub const CATALOGUE: &str = "name,ra,dec\nA,10,-20.5\n";
pub const OUTSIDE: &str = "name,ra,dec\nA,360,-20.5\n\"B\",360,95\n";
pub const COLUMN: &str = "name,ra,dec,tolerance\nA,360,-20.5,5\n\"B\",360,9,nan\n";
pub const EPHEMERIS: &str = "time,sun_x,sun_y,sun_z,observer_x,observer_y,observer_z\n\
    2026-03-20T00:00:00Z,0,1,0,0,0,0\n2026-03-20T00:01:00Z,0,0,1,0,0,0\n";
pub const TOML: &str = "targets = \"t.csv\"\nephemeris = \"e.csv\"\nrolls = 1\ntolerance = 1\n";

/// A plan made of these three texts.
pub fn plan(toml: impl AsRef<[u8]>, targets: impl AsRef<[u8]>, ephemeris: impl AsRef<[u8]>) -> Result<Plan, Fault> {
    let folder = tempfile::tempdir().unwrap();
    fs::write(folder.path().join("t.csv"), targets).unwrap();
    fs::write(folder.path().join("e.csv"), ephemeris).unwrap();
    let path = folder.path().join("plan.toml");
    fs::write(&path, toml).unwrap();
    Plan::read(&path)
}
/// A plan of 5 chunks, 300 cells, whose masks have both kinds.
pub fn small() -> Plan {
    let mut ephemeris = String::from("time,sun_x,sun_y,sun_z,observer_x,observer_y,observer_z\n");
    for j in 0..100 {
        let ((s, c), z) = ((j as f64 * 0.3).sin_cos(), (j as f64 * 0.7).cos());
        ephemeris += &format!("2026-03-20T{:02}:{:02}:00Z,{},{},{},0,0,0\n", j / 60, j % 60, c, s, 0.4 * z);
    }
    let settings = "targets = \"t.csv\"\nephemeris = \"e.csv\"\nrolls = 8\ntolerance = 15\n";
    plan(settings, "name,x,y,z\nA,1,0,0\nB,0,0.6,0.8\nC,0,-1,0\n", &ephemeris).unwrap()
}
/// The journal of [`small`] with the lines of these chunks, each worked out by a call of its own.
pub fn journal(chunks: &[u64]) -> Vec<u8> {
    let plan = small();
    let mut journal = engine::header(&plan).unwrap();
    for &chunk in chunks {
        let used = journal.len();
        journal.resize(used + LINE_BYTES as usize, 0);
        engine::work(&plan, chunk..chunk + 1, &mut journal, used).unwrap();
    }
    journal
}
/// A plan of one target and two times with these settings.
pub fn with(settings: &str) -> Result<Plan, Fault> {
    plan(&format!("targets = \"t.csv\"\nephemeris = \"e.csv\"\n{}", settings), TARGETS, EPHEMERIS)
}
/// What is said of such a plan, from its file name on.
pub fn fault(settings: &str) -> String {
    let e = with(settings).unwrap_err();
    assert_eq!(e.status(), 3);
    let text = e.to_string();
    text[text.find("plan.toml").unwrap()..].to_owned()
}

/// What a reader may trip over, beside bytes that are no text.
#[rustfmt::skip]
pub const PIECES: &[&str] = &[
    "[", "[[", "]", "{", "}", "=", ".", ",", "\"", "\"\"\"", "'", "'''", "\\", "\\u0000", "#", "\n", "\r", "\r\n", " ", "\t", "\0",
    "\u{1b}", "\u{a0}", "\u{3000}", "\u{feff}", "é", "targets", "rolls", "panel", "rolls=", "a.b", "0", "-1", "1.5", "1e999", "0x1f",
    "1_000", "nan", "-inf", "true", "A,1,0,0", "9e99", ";", "00:00Z", "99:99", "ra", "dec", ",x", "ra_deg", "A,1,0", "360", "-90",
    "5h", "5:34:31", "°", "tolerance", ",tolerance", "tolerance=", "[5, 6]", "[]", "rolls=[0, 90.5]", "[0, 359.5,\n90 # ]\n]", "360,",
];
