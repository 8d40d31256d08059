//! Whole commands on plans that are accepted and can hardly be meant: `check` warns on standard output, `sweep` and `windows` on standard error.
mod common;

use common::{document, done, refused_by_every_command, run, Folder};

const NAMES: [&str; 3] = ["A", "B", "C"];

/// Three targets with the Sun across each boresight and where an almanac has it, so that only what is asked for is warned of.
fn folder(settings: &str, tolerances: Option<[&str; 3]>) -> Folder {
    let f = Folder::new(&[], "", "");
    f.write("plan.toml", &format!("targets = \"t.csv\"\nephemeris = \"e.csv\"\nrolls = 8\n{}", settings));
    let vectors = ["0,1,0", "0,0.6,0.8", "0,-1,0"];
    let rows = (0..3).map(|i| format!("{},{}{}\n", NAMES[i], vectors[i], tolerances.map_or(String::new(), |t| format!(",{}", t[i]))));
    let column = if tolerances.is_some() { ",tolerance" } else { "" };
    f.write("t.csv", &format!("name,x,y,z{}\n{}", column, rows.collect::<String>()));
    f.write("e.csv", &ephemeris(&["1.5e8,0,3e6,7e3,0,0", "1.5e8,1e6,3e6,7e3,0,0", "1.5e8,0,3e6,0,7e3,0"]));
    f
}
/// Sun and observer at each minute from 2026-03-20T00:00:00Z on.
fn ephemeris(rows: &[&str]) -> String {
    let rows = rows.iter().enumerate().map(|(j, row)| format!("2026-03-20T00:{:02}:00Z,{}\n", j, row));
    format!("time,sun_x,sun_y,sun_z,observer_x,observer_y,observer_z\n{}", rows.collect::<String>())
}
/// The three commands print these warnings and no others.
#[track_caller]
fn warned(f: &Folder, due: &[&str]) {
    let warnings = |text: &str| text.lines().filter_map(|line| line.strip_prefix("warning: ")).map(str::to_owned).collect::<Vec<_>>();
    let checked = run(f, "check plan.toml");
    assert_eq!((checked.status, checked.stderr.as_str(), warnings(&checked.stdout)), (0, "", due.iter().map(|w| w.to_string()).collect()));
    for words in ["sweep plan.toml -q", "windows plan.toml"] {
        let ended = run(f, words);
        assert_eq!((ended.status, warnings(&ended.stderr)), (0, due.iter().map(|w| w.to_string()).collect()), "{}", words);
        assert!(!ended.stdout.contains("warning"), "{}: {}", words, ended.stdout);
    }
}
/// The three targets' rows of the sweep's mask.
fn masks(f: &Folder) -> Vec<String> {
    done(f, "mask plan.toml").lines().map(|line| line.split(' ').next().unwrap().to_owned()).collect()
}

#[test]
fn a_panel_that_no_roll_turns_is_warned_of() {
    for (panel, more) in [
        ("[1, 0, 0]", "tolerance = 1"),
        ("[0, 0, 0]", "tolerance = -1"),
        ("[0, 1e-13, 0]", "tolerance = nan"),
        ("[-5, 1e-12, 0]", "tolerance = 1\nconfigured_roll = nan"),
        ("[0, 7e-13, -7e-13]", "tolerance = 180"),
    ] {
        let f = folder(&format!("panel = {}\n{}\n", panel, more), None);
        let says = format!(
            "plan.toml, line 4, column 9: panel reads {}, and its part across the boresight, in y and z, is 1e-12 or shorter, so that every cell is \
             Free: nothing can be violated",
            panel
        );
        warned(&f, &[&says]);
        assert_eq!(masks(&f), ["000"; 3]);
    }
    for panel in ["[0, 1, 0]", "[0, 1.1e-12, 0]", "[9, 0, -2e-12]"] {
        let f = folder(&format!("panel = {}\ntolerance = 1\n", panel), None);
        warned(&f, &[]);
        assert!(masks(&f).concat().contains('1'));
    }
}

#[test]
fn a_configured_roll_that_leaves_one_answer_is_warned_of() {
    for (roll, shown, tolerance) in [("nan", "NaN", "1"), ("-nan", "NaN", "-1"), ("inf", "inf", "nan"), ("-inf", "-inf", "180")] {
        let f = folder(&format!("tolerance = {}\nconfigured_roll = {}\n", tolerance, roll), None);
        let says = format!(
            "plan.toml, line 5, column 19: configured_roll reads {}, and its difference from an optimal roll is not a number: nothing can be violated",
            shown
        );
        warned(&f, &[&says]);
        assert_eq!(masks(&f), ["000"; 3]);
    }
    // So large that the optimal roll, up to 360, is lost in its difference.
    for (roll, difference, tolerance, mask) in
        [("1e300", "0", "1", "000"), ("1e20", "80", "81", "000"), ("1e20", "80", "79", "111"), ("-1e300", "0", "1", "000")]
    {
        let f = folder(&format!("tolerance = {}\nconfigured_roll = {}\n", tolerance, roll), None);
        let says = format!(
            "plan.toml, line 5, column 19: configured_roll reads {}, and numbers of that size are so far apart that its difference from every optimal \
             roll is {}: of a target's cells that are not Free all are violated or none is",
            roll, difference
        );
        warned(&f, &[&says]);
        assert_eq!(masks(&f), [mask; 3]);
    }
    let f = folder("tolerance = 1\nconfigured_roll = 1e15\n", None);
    warned(&f, &[]);
    assert!(masks(&f).concat().contains('1'));
}

#[test]
fn a_tolerance_that_leaves_one_answer_is_warned_of() {
    for configured in ["", "configured_roll = 30\n"] {
        let f = folder(&format!("tolerance = nan\n{}", configured), None);
        warned(&f, &["plan.toml, line 4, column 13: tolerance reads NaN, and no difference exceeds NaN: nothing can be violated"]);
        assert_eq!(masks(&f), ["000"; 3]);
        let f = folder(&format!("tolerance = -1\n{}", configured), None);
        warned(
            &f,
            &["plan.toml, line 4, column 13: tolerance reads -1, and no difference is below 0: every cell that is not Free is violated"],
        );
        assert_eq!(masks(&f), ["111"; 3]);
        let f = folder(configured, Some(["20", "nan", "20"]));
        warned(
            &f,
            &["t.csv, line 3, column 13: 1 of 3 tolerances is NaN (`B`), and no difference exceeds NaN: nothing of these targets can be violated"],
        );
        assert_eq!(masks(&f)[1], "000");
        let f = folder(&format!("tolerance = [-1, 181, -0.5]\n{}", configured), None);
        let (least, nearest) = if configured.is_empty() { ("22.5", "the nearest of 8") } else { ("180", "the configured one") };
        let wide = format!(
            "plan.toml, line 4, column 18: 1 of 3 tolerances is {} or more (`B`), and no roll is further than {} degrees from {}: nothing of these \
             targets can be violated",
            least, least, nearest
        );
        warned(
            &f,
            &[
                &wide,
                "plan.toml, line 4, column 14: 2 of 3 tolerances are below 0 (`A`, `C`), and no difference is below 0: every cell of these targets \
                 that is not Free is violated",
            ],
        );
        assert_eq!(masks(&f), ["111", "000", "111"]);
    }
}

/// The library takes [1, 0, 0] for its direction.
#[test]
fn a_sun_at_the_observer_is_warned_of_with_its_lines() {
    let f = folder("tolerance = 10\n", None);
    f.write("e.csv", &ephemeris(&["1.5e8,0,0,7e3,0,0", "0,0,0,0,0,0", "1.5e8,0,0,0,0,0"]));
    const TAKEN: &str = "and the Sun's direction is taken as [1, 0, 0]; was a gap filled with zeros?";
    warned(&f, &[&format!("e.csv, line 3, column 22: Sun and observer are less than 1e-12 apart at 1 of 3 times (line 3), {}", TAKEN)]);
    let mut rows = vec!["7e3,1,2,7e3,1,2"; 9];
    rows[1] = "1.5e8,0,0,7e3,0,0";
    rows[8] = "1e-12,0,0,0,0,0";
    f.write("e.csv", &ephemeris(&rows).replacen('\n', "\n# a comment\n", 1));
    std::fs::remove_file(f.path("plan.journal")).unwrap();
    warned(
        &f,
        &[&format!(
            "e.csv, line 3, column 22: Sun and observer are less than 1e-12 apart at 7 of 9 times (lines 3, 5, 6, 7, 8, and 2 more), {}",
            TAKEN
        )],
    );
    assert!(done(&f, "check plan.toml")
        .contains("\nsun      at the observer at 2026-03-20T00:00:00Z\n         ra 0, dec 0, distance 1e-12 at 2026-"));
}

#[test]
fn a_sun_that_no_almanac_has_there_is_warned_of() {
    let f = folder("tolerance = 10\n", None);
    let off = |rows: &[&str], says: &[&str]| {
        let g = folder("tolerance = 10\n", None);
        g.write("e.csv", &ephemeris(rows));
        warned(&g, says);
    };
    // Axes in another order; the Earth as seen from the Sun.
    off(
        &["0,1.5e8,0,0,0,0", "1.5e8,0,0,0,0,0"],
        &["e.csv, line 2, column 22: at 2026-03-20T00:00:00Z the Sun is at ra 90, dec 0 as seen from the observer, but an almanac has it at ra \
           359.444, dec -0.241 as seen from the Earth, 90.6 degrees away (more than 3 at 1 of 2 times); check the axes, the signs and the dates"],
    );
    off(
        &["1.5e8,0,0,0,0,0", "-1,0,0,0,0,0", "0,0,0,1.5e8,0,0"],
        &["e.csv, line 3, column 22: at 2026-03-20T00:01:00Z the Sun is at ra 180, dec 0 as seen from the observer, but an almanac has it at ra \
           359.444, dec -0.241 as seen from the Earth, 179.4 degrees away (more than 3 at 2 of 3 times); check the axes, the signs and the dates"],
    );
    // Just within 3 degrees of ra 359.443, and just beyond.
    off(&["1.5e8,0.0637e8,0,0,0,0"], &[]);
    f.write("e.csv", &ephemeris(&["1.5e8,0.0645e8,0,0,0,0"]));
    let text = done(&f, "check plan.toml");
    assert!(text.contains("the Sun is at ra 2.462, dec 0 ") && text.contains(" 3.0 degrees away (more than 3 at 1 of 1 time)"), "{}", text);
    // Before 1950 nothing is compared.
    f.write("e.csv", &ephemeris(&["0,1.5e8,0,0,0,0"]).replace("2026", "1949"));
    assert!(!done(&f, "check plan.toml").contains("warning"));
    // The example's Sun is within 3 degrees for ninety days.
    done(&f, "example season");
    assert!(!done(&f, "check season/plan.toml").contains("warning"));
    assert!(!run(&f, "sweep season/plan.toml -q").stderr.contains("warning"));
}

#[test]
fn check_prints_the_sun_at_the_first_and_the_last_time() {
    let f = folder("tolerance = 10\n", None);
    f.write("e.csv", &ephemeris(&["1.5e8,0,0,7e3,0,0", "1,2,3,0,0,0", "1.5e8,1e6,3e5,7e3,0,0"]));
    let text = done(&f, "check plan.toml");
    assert!(
        text.contains(
            "\nsettings 8 rolls, tolerance 10, panel [0, 1, 0], configured roll none\nsun      ra 0, dec 0, distance 149993000 at 2026-03-20T00:00:00Z\n         ra 0.382, dec 0.115, distance \
             149996600 at 2026-03-20T00:02:00Z\nwarning: "
        ),
        "{}",
        text
    );
    f.write("e.csv", &ephemeris(&["0.7,0,0.7,0,0,0"]));
    assert!(done(&f, "check plan.toml").contains("\nsun      ra 0, dec 45, distance 0.9899495 at 2026-03-20T00:00:00Z\nwarning: "));
    f.write("e.csv", &ephemeris(&[]));
    assert!(!done(&f, "check plan.toml").contains("\nsun "));
}

#[test]
fn right_ascensions_that_look_like_hours_are_warned_of() {
    for (ra, is_warned) in [
        (&["5.575", "18.615", "0"][..], true),
        (&["24", "0", "12", "7"], true),
        (&["5.575", "18.615", "24.1"], false),
        (&["5.575", "18.615"], false),
    ] {
        let f = folder("tolerance = 10\n", None);
        let rows = ra.iter().enumerate().map(|(i, ra)| format!("20,T{},{}\n", i, ra));
        f.write("t.csv", &format!("dec,name,RA\n{}", rows.collect::<String>()));
        let says = format!(
            "t.csv, line 1, column 10: every ra, of {} targets, lies within 0 to 24; ra is in degrees: multiply hours by 15",
            ra.len()
        );
        warned(&f, &[says.as_str()][..usize::from(is_warned)]);
    }
}

#[test]
fn a_refused_plan_prints_the_refusal_alone() {
    let f = folder("panel = [1, 0, 0]\ntolerance = nan\n", None);
    f.write("t.csv", "name,x,y,z,ra_deg\nA,1,0,0,0\nA,1,0,0,0\nB,2,0,0,0\n");
    f.write("e.csv", &ephemeris(&["0,0,0,0,0,0"]));
    refused_by_every_command(&f, 1, "refused with 5: t.csv, line 4, column 3: x of target `B` reads `2`; allowed: -1 to 1");
}

#[test]
fn columns_that_resemble_known_ones_are_named() {
    let f = folder("tolerance = 10\n", None);
    let ephemeris = f.read("e.csv");
    for (head, rows, warnings) in [
        (
            "name,x,y,z,tolerance_deg",
            "A,0,1,0,5\n",
            &["t.csv, line 1, column 12: column `tolerance_deg` is not used; did you mean `tolerance`?"][..],
        ),
        (
            "Tolerance (deg),name,x,y,z",
            "5,A,0,1,0\n",
            &["t.csv, line 1, column 1: column `Tolerance (deg)` is not used; did you mean `tolerance`?"],
        ),
        (
            "name,x,y,z,ra_deg,Dec [deg]",
            "A,0,1,0,90,0\n",
            &[
                "t.csv, line 1, column 12: column `ra_deg` is not used; did you mean `ra`?",
                "t.csv, line 1, column 19: column `Dec [deg]` is not used; did you mean `dec`?",
            ],
        ),
        (
            "name_,name,ra,dec,RA_hours,mag,radius,decade,dec_err,x_err",
            "1,A,90,0,6,1,1,1,1,1\n",
            &[
                "t.csv, line 1, column 1: column `name_` is not used; `name` is",
                "t.csv, line 1, column 19: column `RA_hours` is not used; `ra` is",
            ],
        ),
        (
            "name,ra,dec,RAJ2000,toleranceDeg",
            "A,90,0,6,5\n",
            &[
                "t.csv, line 1, column 13: column `RAJ2000` is not used; `ra` is",
                "t.csv, line 1, column 21: column `toleranceDeg` is not used; did you mean `tolerance`?",
            ],
        ),
        ("\" NAME \",X,Y,Z,id,mag", "A,0,1,0,5,7\n", &[]),
        (
            "name,x,y,z,x (km),y (km),z (km),x_m,y_m,z_m",
            "A,0,1,0,1,1,1,1,1,1\n",
            &[
                "t.csv, line 1, column 12: column `x (km)` is not used; `x` is",
                "t.csv, line 1, column 19: column `y (km)` is not used; `y` is",
                "t.csv, line 1, column 26: column `z (km)` is not used; `z` is",
                "t.csv, line 1, column 33: column `x_m` is not used; `x` is",
                "t.csv, line 1, column 37: column `y_m` is not used; `y` is",
                "t.csv: 1 more column is not used and resembles a known one",
            ],
        ),
    ] {
        f.write("t.csv", &format!("{}\n{}", head, rows));
        for words in ["check plan.toml", "cost plan.toml", "mask plan.toml --roll 0", "rolls plan.toml"] {
            let ended = run(&f, words);
            let due: String = warnings.iter().map(|w| format!("warning: {}\n", w)).collect();
            assert_eq!((ended.status, ended.stderr), (0, due), "{}: {}", words, head);
        }
    }
    f.write("t.csv", "name,x,y,z\nA,0,1,0\n");
    f.write(
        "e.csv",
        &ephemeris
            .replacen("observer_z", "observer_z,Sun X [km],Time_UTC", 1)
            .replace(",0,0\n", ",0,0,1,1\n")
            .replace(",7e3,0\n", ",7e3,0,1,1\n"),
    );
    assert_eq!(
        run(&f, "check plan.toml").stderr,
        "warning: e.csv, line 1, column 57: column `Sun X [km]` is not used; `sun_x` is\n\
         warning: e.csv, line 1, column 68: column `Time_UTC` is not used; `time` is\n"
    );
}

#[test]
fn the_document_s_examples_of_warnings_hold() {
    let (document, unwrapped) = document();
    let f = folder("panel = [1, 0, 0]\ntolerance = 5\n", None);
    done(&f, "example season");
    let checked = done(&f, "check season/plan.toml");
    let sun: Vec<_> = checked.lines().filter(|line| line.contains(", distance ")).collect();
    assert!(sun.len() == 2 && document.contains(&format!("\n{}\n", sun.join("\n"))), "{}", checked);
    let shown = |plan: &Folder| {
        let text = done(plan, "check plan.toml").replace("t.csv", "targets.csv").replace("e.csv", "ephemeris.csv");
        let warnings: Vec<_> = text.lines().filter(|line| line.starts_with("warning: ")).collect();
        assert!(warnings.len() == 1 && unwrapped.contains(warnings[0]), "not in docs/PLAN_FILE.md: {}", text);
    };
    shown(&f);
    let f = folder("", None);
    f.write("t.csv", "name,ra,dec,tolerance\nVega,279.235,38.784,5\nDeneb,310.358,45.280,nan\n");
    shown(&f);
    let f = folder("tolerance = 5\n", None);
    f.write("e.csv", &ephemeris(&["0,1,0,0,0,0", "0,1,0,0,0,0"]));
    shown(&f);
}
