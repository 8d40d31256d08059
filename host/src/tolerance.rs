//! The tolerances of a plan, one per target, whichever way its files give them; and warnings where one leaves a target's cells a single answer. One
//! of half the largest gap between the rolls that are tried is never exceeded, as no roll is further from the nearest of them.
use crate::{
    digest::bits,
    plan::Plan,
    text::{counted, grouped, number},
};

/// How a plan gives its tolerances.
#[derive(Clone, Copy, Debug, PartialEq, Eq)]
pub enum Told {
    /// The key has one number for all targets.
    Number,
    /// The key has a list.
    List,
    /// The targets file has a column: its number among those that are read.
    Column(usize),
}

/// What the key may be.
pub const ALLOWED: &str = "one number of degrees for all targets, or a list with one for each";

/// The tolerance of every target, where it is the same: to the bit, as the journal's header has it, so that one NaN stands for all.
pub fn common(tolerances: &[f64]) -> Option<f64> {
    let (first, rest) = tolerances.split_first()?;
    rest.iter().all(|t| bits(t) == bits(first)).then_some(*first)
}

/// The tolerances in a few words, with a unit after each number. NaN is in no range.
pub fn in_words(tolerances: &[f64], unit: &str) -> String {
    let shown = |x: f64| number(x) + unit;
    if let Some(x) = common(tolerances) {
        return shown(x);
    }
    let mut numbers: Vec<f64> = tolerances.iter().copied().filter(|t| !t.is_nan()).collect();
    numbers.sort_by(f64::total_cmp);
    let range = match (common(&numbers), &numbers[..]) {
        (Some(x), _) => shown(x),
        (None, [least, .., most]) => format!("{} to {}", shown(*least), shown(*most)),
        // Only NaN would be the same for all.
        _ => return "none".into(),
    };
    let nan = if numbers.len() < tolerances.len() { ", or NaN," } else { "" };
    format!("{}{} by target", range, nan)
}

/// Where a target's tolerance stands: the key's value, its entry of the key's list, or its cell of the column.
fn place(plan: &Plan, target: usize) -> String {
    match plan.told {
        Told::Number => plan.at("tolerance"),
        Told::List => plan.entry("tolerance", target).0,
        Told::Column(column) => plan.targets_sheet.field(target, column).at(),
    }
}

/// Where a target's tolerance stands, and what it reads there.
pub fn reads(plan: &Plan, target: usize) -> String {
    let (place, name) = (place(plan, target), plan.targets_sheet.field(target, 0).shown());
    match plan.told {
        Told::Number => format!("{}: tolerance reads {}", place, number(plan.tolerances[target])),
        Told::List => format!("{}: tolerance of target `{}` reads {}", place, name, number(plan.tolerances[target])),
        Told::Column(column) => {
            format!("{}: tolerance of target `{}` reads `{}`", place, name, plan.targets_sheet.field(target, column).shown())
        }
    }
}

/// What is said where no position can make the sweep mark a cell.
pub const NOTHING: &str = "nothing can be violated";
const NOTHING_OF_THESE: &str = "nothing of these targets can be violated";

/// What rounding can add to a difference of two rolls, in degrees: the step or the gap, a sample, the difference and its arc are each rounded once
/// or twice at up to 360, as an optimal roll lies within 0 to 360, so it stays below 3e-13.
const ROUNDING: f64 = 1e-12;

/// How many targets a warning names; the rest are counted.
const NAMED: usize = 5;

/// A warning of each kind of tolerance by which, at a finite roll, no cell of some targets can be violated, or every one that is not Free is.
pub fn remarks(plan: &Plan) -> Vec<String> {
    // A configured roll stands for every sample, and an optimal one is at most half a turn from it.
    let (furthest, nearest) = match plan.configured_roll {
        None => (plan.rolls.half_gap(), format!("the nearest of {}", plan.rolls.count())),
        Some(_) => (180.0, "the configured one".to_owned()),
    };
    let least = number(furthest);
    let wide = |t: f64| t >= furthest;
    // A difference is at most 180, whatever is rounded.
    let may_round = |t: f64| wide(t) && t < 180.0 && t <= furthest + ROUNDING;
    let rounding = if plan.tolerances.iter().any(|&t| may_round(t)) { " except by rounding, midway between two of them" } else { "" };
    let too_wide = |which: &str| format!("no roll is further than {} degrees from {}: {}{}", least, nearest, which, rounding);
    let not_free = |which: &str| format!("no difference is below 0: every cell{} that is not Free is violated", which);
    [
        of_kind(plan, wide, &format!("{} or more", least), [too_wide(NOTHING), too_wide(NOTHING_OF_THESE)]),
        of_kind(plan, f64::is_nan, "NaN", [NOTHING, NOTHING_OF_THESE].map(|which| format!("no difference exceeds NaN: {}", which))),
        of_kind(plan, |t| t < 0.0, "below 0", ["", " of these targets"].map(not_free)),
    ]
    .into_iter()
    .flatten()
    .collect()
}

/// Which tolerances are of a kind, and what follows: where all are, and where some are.
fn of_kind(plan: &Plan, is_one: impl Fn(f64) -> bool, kind: &str, follows: [String; 2]) -> Option<String> {
    let found: Vec<usize> = (0..plan.tolerances.len()).filter(|&i| is_one(plan.tolerances[i])).collect();
    let (first, count, all) = (*found.first()?, found.len(), plan.tolerances.len());
    let which = match common(&plan.tolerances) {
        Some(x) => format!("tolerance reads {}", number(x)),
        None if count == all => format!("each of {} is {}", counted(all, "tolerance"), kind),
        None => {
            let mut names: Vec<_> = found.iter().take(NAMED).map(|&i| format!("`{}`", plan.targets_sheet.field(i, 0).shown())).collect();
            if count > NAMED {
                names.push(format!("and {} more", grouped(count - NAMED)));
            }
            let are = if count == 1 { "is" } else { "are" };
            format!("{} of {} {} {} ({})", grouped(count), counted(all, "tolerance"), are, kind, names.join(", "))
        }
    };
    let [of_all, of_some] = follows;
    Some(format!("{}: {}, and {}", place(plan, first), which, if count == all { of_all } else { of_some }))
}

#[cfg(test)]
mod tests {
    use super::*;
    use crate::{engine, testing::plan, tried::Rolls};
    use proptest::prelude::*;

    /// A plan of one target along x, with these settings and the Sun here.
    fn with(settings: &str, sun: [f64; 3]) -> Plan {
        of_targets(settings, "name,x,y,z\nA,1,0,0\n", sun)
    }
    fn of_targets(settings: &str, targets: &str, sun: [f64; 3]) -> Plan {
        let ephemeris = format!(
            "time,sun_x,sun_y,sun_z,observer_x,observer_y,observer_z\n2026-03-20T00:00:00Z,{},{},{},0,0,0\n",
            sun[0], sun[1], sun[2]
        );
        plan(&format!("targets = \"t.csv\"\nephemeris = \"e.csv\"\n{}", settings), targets, &ephemeris).unwrap()
    }
    /// Whether no cell can be violated, without rounding.
    fn nothing(plan: &Plan) -> bool {
        remarks(plan).iter().any(|text| text.ends_with(NOTHING))
    }
    /// The warnings of one target with these settings, from the file's name on.
    fn said(settings: &str) -> Vec<String> {
        let from = |text: String| text[text.find("plan.toml").unwrap()..].to_owned();
        remarks(&with(settings, [0.0, 1.0, 0.0])).into_iter().map(from).collect()
    }
    /// The warnings of 24 rolls and targets A, B, .. with these tolerances, by the key's list and by the column: for each the number of the target
    /// whose place it names, and what follows the place.
    fn said_of(tolerances: &[&str]) -> [Vec<(usize, String)>; 2] {
        let names = (b'A'..).map(char::from);
        let rows = || names.clone().zip(tolerances);
        let plain: String = rows().map(|(name, _)| format!("{},1,0,0\n", name)).collect();
        let column: String = rows().map(|(name, t)| format!("{},1,0,0,{}\n", name, t)).collect();
        let list =
            of_targets(&format!("rolls = 24\ntolerance = [{}]", tolerances.join(", ")), &format!("name,x,y,z\n{}", plain), [0.0, 1.0, 0.0]);
        let column = of_targets("rolls = 24", &format!("name,x,y,z,tolerance\n{}", column), [0.0, 1.0, 0.0]);
        assert_eq!(list.tolerances.iter().map(bits).collect::<Vec<_>>(), column.tolerances.iter().map(bits).collect::<Vec<_>>());
        let of = |plan: &Plan, place: &dyn Fn(usize) -> String| {
            let split = |text: String| {
                let found = (0..tolerances.len()).find_map(|i| text.split_once(&place(i)).map(|(_, rest)| (i, rest.to_owned())));
                found.unwrap_or_else(|| panic!("{}", text))
            };
            remarks(plan).into_iter().map(split).collect::<Vec<_>>()
        };
        let entry = |i: usize| format!("plan.toml, line 4, column {}: ", 14 + tolerances[..i].iter().map(|t| t.len() + 2).sum::<usize>());
        [of(&list, &entry), of(&column, &|i| format!("t.csv, line {}, column 9: ", i + 2))]
    }
    /// Whether the sweep marks the plan's only cell.
    fn marked(plan: &Plan) -> bool {
        let mut journal = vec![0; 140];
        let used = engine::begin(plan, &mut journal).unwrap();
        engine::work(plan, 0..1, &mut journal, used).unwrap();
        engine::collect(plan, &journal).unwrap().0 == [1]
    }

    #[test]
    fn a_tolerance_of_half_a_step_or_more_is_warned_of() {
        for (rolls, tolerance, half, count) in [("24", "10", "7.5", "24"), ("[0, 90, 250]", "100", "80", "3")] {
            assert_eq!(
                said(&format!("rolls = {}\ntolerance = {}", rolls, tolerance)),
                [format!(
                    "plan.toml, line 4, column 13: tolerance reads {}, and no roll is further than {} degrees from the nearest of {}: \
                     nothing can be violated",
                    tolerance, half, count
                )]
            );
        }
        assert!(said("rolls = 24\ntolerance = 7.5")[0].ends_with("nothing can be violated except by rounding, midway between two of them"));
        assert!(said("rolls = 1\ntolerance = 180")[0].ends_with("nothing can be violated"));
        assert!(said("rolls = 3600\ntolerance = inf")[0].ends_with("nothing can be violated"));
        for can in [
            "rolls = 24\ntolerance = 7.499999999999999",
            "rolls = 24\ntolerance = 5",
            "rolls = 24\ntolerance = 0",
            "rolls = 24\ntolerance = -0.0",
            "rolls = 1\ntolerance = 179.9",
            "rolls = 24\ntolerance = 10\nconfigured_roll = 30",
            "rolls = 24\ntolerance = 179.9\nconfigured_roll = 30",
        ] {
            assert_eq!(said(can), [""; 0], "{}", can);
        }
        assert_eq!(
            said("rolls = 24\ntolerance = 180\nconfigured_roll = 30"),
            ["plan.toml, line 4, column 13: tolerance reads 180, and no roll is further than 180 degrees from the configured one: nothing can \
              be violated"]
        );
    }
    /// A difference of NaN exceeds nothing and nothing exceeds NaN; a difference is never below 0.
    #[test]
    fn a_tolerance_that_is_nan_or_below_0_is_warned_of() {
        for settings in ["", "configured_roll = 30"] {
            let of = |tolerance: &str| said(&format!("rolls = 24\ntolerance = {}\n{}", tolerance, settings));
            for nan in ["nan", "-nan", "[nan]"] {
                let column = if nan.starts_with('[') { 14 } else { 13 };
                let says = format!(
                    "plan.toml, line 4, column {}: tolerance reads NaN, and no difference exceeds NaN: nothing can be violated",
                    column
                );
                assert_eq!(of(nan), [says]);
            }
            for below in ["-10", "-5e-324", "-inf"] {
                let says = format!(
                    "plan.toml, line 4, column 13: tolerance reads {}, and no difference is below 0: every cell that is not Free is violated",
                    below
                );
                assert_eq!(of(below), [says]);
            }
        }
        // It is so, with the Sun at the roll that is tried, and opposite.
        for y in [1.0, -1.0] {
            for settings in ["", "\nconfigured_roll = 0"] {
                let of = |tolerance: &str| marked(&with(&format!("rolls = 1\ntolerance = {}{}", tolerance, settings), [0.0, y, 0.0]));
                assert!(!of("nan") && of("-5e-324") && of("-inf"), "{} {}", y, settings);
            }
        }
    }
    /// Of a table half the largest gap takes the place of 180 / n, also where that is the one from the last roll to the first.
    #[test]
    fn a_tolerance_of_half_the_largest_gap_of_a_table_is_warned_of() {
        const ROUNDING: &str = "nothing can be violated except by rounding, midway between two of them";
        for (table, half) in [("[0, 90, 250]", "80"), ("[100, 110, 130]", "165"), ("[0, 15.5, 90, 359.5]", "134.75")] {
            let at = |tolerance: &str| said(&format!("rolls = {}\ntolerance = {}", table, tolerance));
            assert!(at(half)[0].ends_with(ROUNDING) && at("165.5")[0].ends_with("nothing can be violated"), "{}", table);
            let below = half.parse::<f64>().unwrap() - 1e-9;
            assert_eq!(at(&below.to_string()), [""; 0], "{}", table);
        }
        // One roll is 180 from its opposite, wherever it is, and so are rolls that lie together.
        for table in ["[0]", "[0.1]", "[359.99999999999994]", "[0, 1e-14]"] {
            assert!(said(&format!("rolls = {}\ntolerance = 180", table))[0].ends_with("nothing can be violated"));
            assert_eq!(said(&format!("rolls = {}\ntolerance = 179.9", table)), [""; 0]);
        }
        assert_eq!(said("rolls = [0, 180]\ntolerance = 100\nconfigured_roll = 30"), [""; 0]);
    }
    /// The worst place is midway in the largest gap: there a cell is marked just below half of it, and not above.
    #[test]
    fn below_half_the_largest_gap_a_cell_can_be_marked() {
        for (table, midway, half) in [("[0, 90, 250]", 170.0, 80.0), ("[100, 110, 130]", 295.0, 165.0), ("[47.5]", 227.5, 180.0)] {
            let (z, y) = f64::to_radians(midway).sin_cos();
            let at = |tolerance: f64| with(&format!("rolls = {}\ntolerance = {}", table, tolerance), [0.0, y, z]);
            assert!(marked(&at(half - 0.01)) && !marked(&at(half + 0.01)), "{}", table);
            assert!(!nothing(&at(half - 0.01)) && nothing(&at(half + 0.01)), "{}", table);
        }
    }
    #[test]
    fn targets_with_such_tolerances_are_counted_and_the_first_five_named() {
        const NEAREST: &str = "and no roll is further than 7.5 degrees from the nearest of 24: nothing";
        const SOME: &str = "of these targets can be violated";
        const ROUNDING: &str = " except by rounding, midway between two of them";
        let nan = |which: &str| format!("{}, and no difference exceeds NaN: nothing of these targets can be violated", which);
        let below =
            |which: &str| format!("{}, and no difference is below 0: every cell of these targets that is not Free is violated", which);
        for (tolerances, says) in [
            (&["5", "7"][..], vec![]),
            (&["10", "10"], vec![(0, format!("tolerance reads 10, {} can be violated", NEAREST))]),
            (&["10", "inf"], vec![(0, format!("each of 2 tolerances is 7.5 or more, {} can be violated", NEAREST))]),
            (&["10", "7.5"], vec![(0, format!("each of 2 tolerances is 7.5 or more, {} can be violated{}", NEAREST, ROUNDING))]),
            (
                &["5", "8", "nan"],
                vec![
                    (1, format!("1 of 3 tolerances is 7.5 or more (`B`), {} {}", NEAREST, SOME)),
                    (2, nan("1 of 3 tolerances is NaN (`C`)")),
                ],
            ),
            (&["8", "5", "7.5"], vec![(0, format!("2 of 3 tolerances are 7.5 or more (`A`, `C`), {} {}{}", NEAREST, SOME, ROUNDING))]),
            (
                &["5", "8", "9", "8", "8", "8", "8", "8"],
                vec![(1, format!("7 of 8 tolerances are 7.5 or more (`B`, `C`, `D`, `E`, `F`, and 2 more), {} {}", NEAREST, SOME))],
            ),
            (&["nan", "nan"], vec![(0, "tolerance reads NaN, and no difference exceeds NaN: nothing can be violated".to_owned())]),
            (
                &["-1", "-inf"],
                vec![(
                    0,
                    "each of 2 tolerances is below 0, and no difference is below 0: every cell that is not Free is violated".to_owned(),
                )],
            ),
            (
                &["5", "nan", "-1", "-inf", "nan"],
                vec![(1, nan("2 of 5 tolerances are NaN (`B`, `E`)")), (2, below("2 of 5 tolerances are below 0 (`C`, `D`)"))],
            ),
        ] {
            assert_eq!(said_of(tolerances), [says.clone(), says], "{:?}", tolerances);
        }
        // Without targets there is no tolerance.
        let none = of_targets("rolls = 24\ntolerance = 10", "name,x,y,z\n", [0.0, 1.0, 0.0]);
        assert_eq!((none.tolerances.len(), remarks(&none)), (0, vec![]));
    }
    #[test]
    fn a_common_tolerance_is_the_same_to_the_bit_and_every_nan_is_one() {
        let other_nan = f64::from_bits(0xfff0_0000_0000_0001);
        assert_eq!((common(&[]), common(&[5.0]), common(&[5.0, 5.0, 5.0])), (None, Some(5.0), Some(5.0)));
        assert!(matches!(common(&[f64::NAN, other_nan, f64::NAN]), Some(x) if x.is_nan()));
        for different in [&[5.0, 5.0, 5.000000000000001][..], &[0.0, -0.0], &[f64::NAN, 5.0], &[5.0, f64::NAN]] {
            assert_eq!(common(different), None, "{:?}", different);
        }
    }
    #[test]
    fn tolerances_in_words() {
        for (tolerances, words) in [
            (&[][..], "none"),
            (&[5.0, 5.0], "5°"),
            (&[30.0, 0.25, 5.0], "0.25° to 30° by target"),
            (&[-0.0, 0.0], "-0° to 0° by target"),
            (&[f64::NAN, f64::from_bits(0xfff8_0000_0000_0000)], "NaN°"),
            (&[f64::NAN, f64::NEG_INFINITY], "-inf°, or NaN, by target"),
            (&[f64::from_bits(0xfff8_0000_0000_0000), 7.0, 1.0], "1° to 7°, or NaN, by target"),
        ] {
            assert_eq!(in_words(tolerances, "°"), words);
        }
    }
    /// 180 degrees are midway between two of seven rolls, of which the nearer is 7e-15 further than half a step.
    #[test]
    fn at_just_half_a_step_rounding_marks_a_cell() {
        let sun = [0.0, -1.0, 0.0];
        let half_step = 180.0 / 7.0;
        let just = with(&format!("rolls = 7\ntolerance = {}", half_step), sun);
        assert_eq!(just.tolerances, [half_step]);
        assert!(marked(&just));
        assert!(remarks(&just)[0].contains("except by rounding"));
        let more = with(&format!("rolls = 7\ntolerance = {}", half_step + 2.0 * ROUNDING), sun);
        assert!(!marked(&more));
        assert!(nothing(&more));
    }
    #[test]
    fn below_half_a_step_a_cell_can_be_marked() {
        let (z, y) = 7.5f64.to_radians().sin_cos();
        assert!(marked(&with("rolls = 24\ntolerance = 7.49", [0.0, y, z])));
        assert!(!marked(&with("rolls = 24\ntolerance = 7.51", [0.0, y, z])));
    }
    proptest! {
        /// The worst places are midway between two samples.
        #[test]
        fn rounding_stays_below_its_bound(n in 1u64..=3600, k in 0u64..3600, ulps in -4i64..=4) {
            let step = 360.0 / n as f64;
            let k = k % n;
            let midway = (k as f64 + 0.5) * step;
            let roll = f64::from_bits((midway.to_bits() as i64 + ulps) as u64);
            let nearest = [k + n - 1, k, k + 1].iter().map(|k| wilfnusk::circular_diff_deg((k % n) as f64 * step, roll)).fold(180.0, f64::min);
            prop_assert!(nearest <= 180.0 / n as f64 + ROUNDING / 2.0, "{} from {}", nearest, roll);
        }
        /// No roll is further from a table than half its largest gap, and one is as far.
        #[test]
        fn rounding_stays_below_its_bound_over_a_table(drawn in prop::collection::vec(0.0f64..360.0, 1..9), ulps in -4i64..=4) {
            let mut table = drawn;
            table.sort_by(f64::total_cmp);
            table.dedup();
            let half_gap = Rolls::Table(table.clone()).half_gap();
            let mut furthest = 0.0;
            for (i, roll) in table.iter().enumerate() {
                let next = table.get(i + 1).copied().unwrap_or(table[0] + 360.0);
                let midway = ((roll + next) / 2.0) % 360.0;
                let from = f64::from_bits((midway.to_bits() as i64 + if midway > 1.0 { ulps } else { 0 }) as u64);
                let nearest = table.iter().map(|&roll| wilfnusk::circular_diff_deg(roll, from)).fold(180.0, f64::min);
                prop_assert!(nearest <= half_gap + ROUNDING / 2.0, "{} from {}", nearest, from);
                furthest = f64::max(furthest, nearest);
            }
            prop_assert!(furthest >= half_gap - ROUNDING, "{} of {}", furthest, half_gap);
        }
    }
}
