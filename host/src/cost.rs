//! `wilfnusk cost`: what a sweep will cost, by the plan's size alone. It reads no journal and writes no file.
use crate::{
    engine::{self, Size},
    explain,
    fault::Fault,
    plan::Plan,
    say, say_json,
    text::{counted, grouped},
    Files,
};
use clap::{ArgGroup, Args};
use serde::Serialize;
use std::path::PathBuf;

#[derive(Args)]
#[command(
    group = ArgGroup::new("size").required(true).multiple(true).args(["plan", "targets", "times", "rolls"]),
    // help2man makes a synopsis of both.
    override_usage = "wilfnusk cost [--json] <PLAN.toml>\n   or: wilfnusk cost [--json] --targets <T> --times <N> --rolls <R>"
)]
pub struct Cost {
    /// The plan
    #[arg(value_name = "PLAN.toml", conflicts_with_all = ["targets", "times", "rolls"])]
    plan: Option<PathBuf>,
    /// In place of a plan, how many targets it will have
    #[arg(long, value_name = "T", value_parser = whole_number, allow_negative_numbers = true, requires = "times", requires = "rolls")]
    targets: Option<u64>,
    /// How many times
    #[arg(long, value_name = "N", value_parser = whole_number, allow_negative_numbers = true, requires = "targets", requires = "rolls")]
    times: Option<u64>,
    /// How many rolls, even steps or a table
    #[arg(long, value_name = "R", value_parser = whole_number, allow_negative_numbers = true, requires = "targets", requires = "times")]
    rolls: Option<u64>,
    /// Print it as JSON
    #[arg(long)]
    json: bool,
}

/// A size and what it costs, as JSON has them.
#[derive(Serialize)]
struct Told {
    targets: u64,
    times: u64,
    rolls: u64,
    chunks: u64,
    /// Once each chunk has its line.
    journal_bytes: u64,
    fewest_probes: u64,
    most_probes: u64,
}

impl Cost {
    pub fn run(&self) -> Result<(), Fault> {
        let (size, cost) = match (&self.plan, self.targets, self.times, self.rolls) {
            (None, Some(targets), Some(times), Some(rolls)) => {
                let size = Size { targets, times, rolls };
                let words = format!("--targets {} --times {} --rolls {}", targets, times, rolls);
                (size, engine::cost(size).map_err(|r| explain::size(&words, size, r))?)
            }
            (Some(plan), ..) => {
                let (plan, _) = Files { plan: plan.clone(), journal: None }.read()?;
                (plan.size(), of_plan(&plan)?)
            }
            // The command line takes one of the two.
            _ => return Err(Fault::Usage("allowed: a plan, or --targets, --times and --rolls".into())),
        };
        if self.json {
            let Size { targets, times, rolls } = size;
            let engine::Cost { journal_bytes, fewest_probes, most_probes } = cost;
            let chunks = engine::chunks(&cost);
            return say_json(&Told { targets, times, rolls, chunks, journal_bytes, fewest_probes, most_probes });
        }
        say(line(&cost))
    }
}

/// What the sweep of a plan that the library takes costs.
pub fn of_plan(plan: &Plan) -> Result<engine::Cost, Fault> {
    engine::cost(plan.size()).map_err(|r| explain::plan(plan, r))
}

/// The line that `cost` prints and with which `check` ends its standard output.
pub fn line(cost: &engine::Cost) -> String {
    format!(
        "cost     {}, a journal of {}, at least {} and at most {} tried",
        counted(engine::chunks(cost), "chunk"),
        counted(cost.journal_bytes, "byte"),
        grouped(cost.fewest_probes),
        counted(cost.most_probes, "roll")
    )
}

/// A number of the command line, which may be larger than the library takes.
pub fn whole_number(text: &str) -> Result<u64, String> {
    // `parse` alone takes a plus sign.
    let digits = text.bytes().all(|byte| byte.is_ascii_digit());
    let number = text.parse().ok().filter(|_| digits);
    number.ok_or_else(|| "allowed: a whole number in plain digits: at most 65536 targets or times, 1 to 3600 rolls".into())
}

#[cfg(test)]
mod tests {
    use super::*;

    #[test]
    fn numbers_of_the_command_line() {
        for (text, number) in [("0", 0), ("65536", 65_536), ("1099511627776", 1 << 40), ("18446744073709551615", u64::MAX)] {
            assert_eq!(whole_number(text), Ok(number));
        }
        for wrong in ["", "-1", "+1", "1.5", "1e3", "65,536", "ten", "0x10", " 1", "18446744073709551616"] {
            assert!(whole_number(wrong).is_err(), "{}", wrong);
        }
    }
}
