//! Which targets and which times a listing is asked for.
use crate::{fault::Fault, instant, plan::Plan, text::printable};
use clap::Args;
use glob::Pattern;
use std::ops::{Range, RangeInclusive};

#[derive(Args, Default)]
pub struct Names {
    /// List this target alone; may be given again. Where no target has exactly this name, * stands for any characters, ? for one, [ab] for a or b,
    /// [!ab] for neither a nor b
    #[arg(long = "target", value_name = "NAME")]
    names: Vec<String>,
}

#[derive(Args, Default)]
pub struct Selection {
    #[command(flatten)]
    targets: Names,
    /// Leave out what ends before this time (RFC 3339); windows that meet it are listed whole
    #[arg(long, value_name = "TIME", value_parser = time)]
    from: Option<i64>,
    /// Leave out what starts after this time
    #[arg(long, value_name = "TIME", value_parser = time)]
    to: Option<i64>,
}

/// A selection of a plan's targets and times.
pub struct Selected {
    /// The targets' numbers, in the order of their file.
    pub targets: Vec<usize>,
    pub all_targets: bool,
    pub from: Option<i64>,
    pub to: Option<i64>,
}

impl Selection {
    pub fn of(&self, plan: &Plan) -> Result<Selected, Fault> {
        if let (Some(from), Some(to)) = (self.from, self.to) {
            if from > to {
                return Err(Fault::Usage(format!(
                    "--from {} is after --to {}; allowed: --from not after --to",
                    shortest(from),
                    shortest(to)
                )));
            }
        }
        let all_targets = self.targets.names.is_empty();
        let selected = Selected { targets: self.targets.of(plan)?, all_targets, from: self.from, to: self.to };
        if let Some(text) = selected.no_time(plan) {
            tell!("warning: {}", text);
        }
        Ok(selected)
    }
}

impl Selected {
    pub fn is_whole(&self) -> bool {
        self.all_targets && self.has_all_times()
    }
    pub fn has_all_times(&self) -> bool {
        self.from.is_none() && self.to.is_none()
    }
    pub fn times(&self) -> RangeInclusive<i64> {
        self.from.unwrap_or(i64::MIN)..=self.to.unwrap_or(i64::MAX)
    }
    /// The samples whose times are selected.
    pub fn samples(&self, times: &[i64]) -> Range<usize> {
        let range = self.times();
        times.partition_point(|t| t < range.start())..times.partition_point(|t| t <= range.end())
    }
    /// The selected times in words, to follow a noun.
    pub fn when(&self) -> String {
        match (self.from, self.to) {
            (Some(from), Some(to)) => format!("from {} to {}", shortest(from), shortest(to)),
            (Some(from), None) => format!("from {}", shortest(from)),
            (None, Some(to)) => format!("up to {}", shortest(to)),
            (None, None) => "at all times".into(),
        }
    }
    /// That no sample lies in the range asked for, if it is so: an empty listing does not show that the range misses the ephemeris.
    fn no_time(&self, plan: &Plan) -> Option<String> {
        if self.has_all_times() || !self.samples(&plan.times).is_empty() {
            return None;
        }
        let has = match &plan.times[..] {
            [] => "it has none".into(),
            [only] => format!("its only time is {}", shortest(*only)),
            [first, .., last] => format!("its first time is {}, its last {}", shortest(*first), shortest(*last)),
        };
        Some(format!("no time of {} lies in the range {}; {}", printable(&plan.ephemeris_file), self.when(), has))
    }
}

/// A time with as few digits as it needs.
fn shortest(time: i64) -> String {
    instant::format(time, instant::digits([time]))
}

impl Names {
    /// The targets that these names select, by their numbers; all if there is none. A name that a target has exactly selects that name alone, so
    /// that one with a star or brackets is no pattern; any other is a pattern.
    pub fn of(&self, plan: &Plan) -> Result<Vec<usize>, Fault> {
        let mut chosen = vec![self.names.is_empty(); plan.names.len()];
        for name in &self.names {
            let is_name = plan.names.contains(name);
            let no_name = || format!("--target {}: no target of {} has that name", printable(name), printable(&plan.targets_file));
            // Many shells read it as [!, and the crate as a class that has ^: the opposite.
            if !is_name && name.contains("[^") {
                let text = format!("{}, and [^ is not allowed in a pattern; allowed: [!ab] for neither a nor b", no_name());
                return Err(Fault::Usage(text));
            }
            let pattern = if is_name { Pattern::new(&Pattern::escape(name)) } else { Pattern::new(name) };
            let mut found = false;
            for (target, chosen) in plan.names.iter().zip(&mut chosen) {
                if pattern.as_ref().map_or(false, |p| p.matches(target)) {
                    (found, *chosen) = (true, true);
                }
            }
            if !found {
                let wrong = pattern.err().map_or(String::new(), |e| format!(", and as a pattern it is wrong ({})", e.msg));
                return Err(Fault::Usage(format!(
                    "{}{}; allowed: a name as it stands there, or a pattern with *, ?, [ab] and [!ab]",
                    no_name(),
                    wrong
                )));
            }
        }
        Ok((0..chosen.len()).filter(|&i| chosen[i]).collect())
    }
}

fn time(text: &str) -> Result<i64, String> {
    instant::parse(text).map_err(|(at, allowed)| format!("at character {}, allowed: {}", at + 1, allowed))
}

#[cfg(test)]
mod tests {
    use super::*;
    use crate::testing::plan;

    fn of(names: &[&str]) -> Result<Vec<usize>, String> {
        let toml = "targets = \"t.csv\"\nephemeris = \"e.csv\"\nrolls = 1\ntolerance = 10\n";
        let rows = ["M 31", "M 87", "NGC [1]", "NGC 1", "m 31", "Véga", "M 31"].map(|name| format!("{},1,0,0\n", name));
        let plan = plan(
            toml,
            &format!("name,x,y,z\n{}", rows.concat()),
            "time,sun_x,sun_y,sun_z,observer_x,observer_y,observer_z\n2026-03-20T00:00:00Z,0,1,0,0,0,0\n",
        );
        let names = Names { names: names.iter().map(|n| n.to_string()).collect() };
        names.of(&plan.unwrap()).map_err(|e| e.to_string())
    }

    #[test]
    fn an_exact_name_goes_before_a_pattern() {
        assert_eq!(of(&[]), Ok((0..7).collect()));
        assert_eq!(of(&["M 31"]), Ok(vec![0, 6]));
        assert_eq!(of(&["M *"]), Ok(vec![0, 1, 6]));
        assert_eq!(of(&["V?ga", "M 87"]), Ok(vec![1, 5]));
        assert_eq!(of(&["NGC [1]"]), Ok(vec![2]));
        assert_eq!(of(&["NGC [12]"]), Ok(vec![3]));
        assert_eq!(of(&["[Mm] 31"]), Ok(vec![0, 4, 6]));
        assert_eq!(of(&["*"]), Ok((0..7).collect()));
        assert!(of(&["M 31", "Vega"]).unwrap_err().starts_with("--target Vega: no target of t.csv has that name; allowed: "));
        assert!(of(&["[1"]).unwrap_err().contains("as a pattern it is wrong"));
    }
    #[test]
    fn a_range_selects_the_samples_within_it() {
        let times = [10, 20, 30];
        let samples = |from, to| Selected { targets: vec![], all_targets: true, from, to }.samples(&times);
        assert_eq!(samples(None, None), 0..3);
        assert_eq!(samples(Some(10), Some(20)), 0..2);
        assert_eq!(samples(Some(11), Some(19)), 1..1);
        assert_eq!(samples(Some(30), None), 2..3);
        assert_eq!(samples(None, Some(9)), 0..0);
    }
}
