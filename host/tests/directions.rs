//! Whole commands on targets by x, y, z that are not unit vectors, or not to enough digits: each is refused, and nothing is written.
mod common;

use common::{document, done, ephemeris, refused_by_every_command, run, Folder};

const ALLOWED: &str = "; allowed: less than 1e-9 away from 1, so a unit vector of about ten digits per number; or ra, dec in degrees";

/// A plan of these targets, of one form or the other, at 50 times.
fn folder(targets: &str, more: &str) -> Folder {
    let f = Folder::new(&[], "", "");
    f.write("plan.toml", &format!("targets = \"t.csv\"\nephemeris = \"e.csv\"\nrolls = 8\n{}", more));
    f.write("t.csv", targets);
    f.write("e.csv", &ephemeris(50));
    f
}

/// Vega and the Crab Nebula, with so many digits per number.
fn rounded(digits: usize) -> String {
    let mut v = [0.0; 6];
    wilfnusk::radec_to_unit_vectors_batch(&[279.234735, 83.633], &[38.783689, 22.0145], &mut v).unwrap();
    let row = |name: &str, v: &[f64]| format!("{},{:.d$},{:.d$},{:.d$}\n", name, v[0], v[1], v[2], d = digits);
    format!("name,x,y,z\n{}{}", row("Vega", &v[..3]), row("Crab", &v[3..]))
}

#[test]
fn the_first_target_that_is_not_a_unit_vector_is_named() {
    for (targets, says) in [
        ("name,x,y,z\nA,0.5,0,0\n", "line 2, column 3: x, y, z of target `A` have the squared length 0.25"),
        ("name,x,y,z\nA,0,0,0\n", "line 2, column 3: x, y, z of target `A` have the squared length 0"),
        ("z,name,y,x\n1,A,0,0\n# B\n0.5,Vega,0.5,0\n0,C,0,0\n", "line 4, column 14: x, y, z of target `Vega` have the squared length 0.5"),
        ("name,x,y,z\nA,1,1,0\n", "line 2, column 3: x, y, z of target `A` have the squared length 2"),
        // Six digits.
        (
            "name,x,y,z\nA,1,0,0\nB,0.577350,0.577350,0.577350\n",
            "line 3, column 3: x, y, z of target `B` have the squared length 0.9999990675000001",
        ),
        (
            "name,x,y,z,tolerance\nA,0.9999999994,0,0,5\n",
            "line 2, column 3: x, y, z of target `A` have the squared length 0.9999999987999999",
        ),
    ] {
        let more = if targets.contains("tolerance") { "" } else { "tolerance = 15\n" };
        let f = folder(targets, more);
        refused_by_every_command(&f, 1, &format!("refused with 20: t.csv, {}{}", says, ALLOWED));
    }
}

/// 5 of any target, then 20, then 6 and 17.
#[test]
fn refusal_20_comes_right_after_5() {
    let said = |targets: &str, more: &str| run(&folder(targets, more), "check plan.toml").stderr;
    let both = "panel = [0, inf, 0]\ntolerance = [1, 2, 3]\n";
    for (targets, more, number) in [
        ("name,x,y,z\nA,0.5,0,0\nB,2,0,0\n", both, "5: t.csv, line 3, column 3: x of target `B` reads `2`"),
        ("name,x,y,z\nA,1,0,0\nB,0,0.5,0\n", both, "20: t.csv, line 3, column 3: x, y, z of target `B`"),
        ("name,x,y,z\nA,1,0,0\nB,0,1,0\n", both, "6: plan.toml, line 4, column 9: panel reads"),
        ("name,x,y,z\nA,1,0,0\nB,0,1,0\n", "tolerance = [1, 2, 3]\n", "17: plan.toml, line 4, column 13: tolerance lists 3 numbers"),
    ] {
        let text = said(targets, more);
        assert!(text.starts_with(&format!("wilfnusk: refused with {}", number)), "{}", text);
    }
}

/// Ten digits of a vector are enough, six are not; positions in degrees need no more than they have.
#[test]
fn ten_digits_are_enough() {
    for digits in [4, 6, 8] {
        run(&folder(&rounded(digits), "tolerance = 15\n"), "check plan.toml")
            .says(1, &["refused with 20: t.csv, line 2, column 6", ALLOWED]);
    }
    for targets in
        [&rounded(10), &rounded(12), "name,ra,dec\nVega,279.2,38.8\nCrab,83.6,22\n", "name,x,y,z\n", "name,x,y,z\nA,-0.6,0,0.8\n"]
    {
        done(&folder(targets, "tolerance = 15\n"), "check plan.toml");
    }
}

/// A journal that an earlier program made from such vectors has this plan's header and right lines: what is refused is the plan, with 20 and not 11.
#[test]
fn a_journal_of_vectors_of_another_length_is_refused_with_20() {
    let f = folder("name,x,y,z\nA,1,0,0\n", "tolerance = 15\n").swept();
    let journal = f.read("plan.journal");
    f.write("t.csv", "name,x,y,z\nA,0.5,0,0\n");
    let says = format!("refused with 20: t.csv, line 2, column 3: x, y, z of target `A` have the squared length 0.25{}", ALLOWED);
    refused_by_every_command(&f, 1, &says);
    std::fs::remove_file(f.path("plan.journal.plan")).unwrap();
    refused_by_every_command(&f, 1, &says);
    assert_eq!(f.read("plan.journal"), journal);
}

#[test]
fn the_guide_shows_the_message_of_refusal_20() {
    let f = folder("name,x,y,z\nAltair,1,0,0\nVega,0.122,-0.770,0.626\n", "tolerance = 15\n");
    let said = run(&f, "check plan.toml").stderr.replace("t.csv", "targets.csv");
    assert!(said.contains("refused with 20: ") && document().1.contains(said.trim_end()), "{}", said);
}
