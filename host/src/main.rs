//! wilfnusk: sweeps a plan over rolls, keeps a journal that survives power cuts, and lists its windows.
//!
//! The program owns files, time, locks and screens. Every number comes from the proved library (engine.rs).
#![forbid(unsafe_code)]

#[macro_use]
mod text;

mod almanac;
mod check;
mod cost;
mod digest;
mod engine;
mod example;
mod explain;
mod fault;
mod files;
mod instant;
mod journal;
mod listing;
mod look;
mod merge;
mod outputs;
mod plan;
mod progress;
mod remarks;
mod rolls;
mod selection;
mod settings;
mod sheet;
mod source;
mod stop;
mod svg;
mod sweep;
#[cfg(test)]
mod testing;
mod tolerance;
mod tried;
mod verify;
mod workers;

use clap::{Args, CommandFactory, Parser, Subcommand};
use fault::Fault;
use serde::Serialize;
use std::{
    io::{self, Write},
    num::NonZeroUsize,
    path::PathBuf,
    process::exit,
};

#[derive(Parser)]
#[command(
    name = "wilfnusk",
    version,
    about = "Sweeps a plan of targets over rolls and lists when each may be looked at. The sweep is kept in a journal: \
        the same command goes on after a power cut, which costs at most the chunks being worked out, about a tenth of a second of work per job.",
    // help2man makes sections of the manual page of the two.
    after_help = "Examples:\n  \
        wilfnusk example season                            a plan to start from\n  \
        wilfnusk cost season/plan.toml                     what its sweep will cost\n  \
        wilfnusk sweep season/plan.toml --svg windows.svg  its windows, and a picture of them\n\n\
        Exit status:\n  \
        0    done\n  \
        1    refused, with the number of the reason; or a line is not what the plan gives\n  \
        2    wrong command line\n  \
        3    files\n  \
        4    the sweep is not finished: status, windows, mask\n  \
        130  stopped by Ctrl-C or a signal"
)]
struct Cli {
    #[command(subcommand)]
    command: Command,
}

#[derive(Subcommand)]
enum Command {
    /// Work out the chunks that the journal lacks, then list the windows
    Sweep(sweep::Sweep),
    /// List the windows of a finished sweep: table, CSV, JSON, SVG
    Windows(look::Windows),
    /// Show how far a sweep is
    Status(look::Status),
    /// Check a plan and its journal, explain what is refused, and end with the cost
    Check(check::Check),
    /// Print what a sweep will cost: bytes of its journal, fewest and most rolls tried
    Cost(cost::Cost),
    /// Print the sweep's mask, or the mask at one roll
    Mask(look::Mask),
    /// Print each target's mark at one time
    Regard(look::Regard),
    /// Print each cell's optimal roll, from 0 up to but not at 360 degrees, as CSV
    Rolls(rolls::Rolls),
    /// Put the lines of several journals of one plan into a new one
    Merge(merge::Merge),
    /// Write a plan: ninety days in low orbit, or one of a size that costs most or least
    Example(example::Example),
    /// Print what completes this program's command lines in a shell
    Completions { shell: clap_complete::Shell },
}

/// A plan and its journal.
#[derive(Args)]
struct Files {
    /// The plan, a TOML file that names a CSV file of targets and one of positions
    #[arg(value_name = "PLAN.toml")]
    plan: PathBuf,
    /// The journal [default: the plan's name with .journal]
    #[arg(long, value_name = "FILE")]
    journal: Option<PathBuf>,
}

impl Files {
    /// The plan, as far as the library takes it, and the journal's place.
    fn read(&self) -> Result<(plan::Plan, PathBuf), Fault> {
        let plan = plan::Plan::read(&self.plan)?;
        engine::check(&plan).map_err(|refusal| explain::plan(&plan, refusal))?;
        for warning in plan.warnings() {
            tell!("warning: {}", warning);
        }
        let journal = self.journal.clone().unwrap_or_else(|| plan.journal());
        Ok((plan, journal))
    }
}

/// A count of the command line.
fn from_1_up(text: &str) -> Result<NonZeroUsize, String> {
    text.parse().map_err(|_| "allowed: a whole number from 1 up".into())
}

fn run(command: Command) -> Result<(), Fault> {
    match command {
        Command::Sweep(c) => c.run(),
        Command::Windows(c) => c.run(),
        Command::Status(c) => c.run(),
        Command::Check(c) => c.run(),
        Command::Cost(c) => c.run(),
        Command::Mask(c) => c.run(),
        Command::Regard(c) => c.run(),
        Command::Rolls(c) => c.run(),
        Command::Merge(c) => c.run(),
        Command::Example(c) => c.run(),
        Command::Completions { shell } => io::stdout().write_all(&completions(shell)).map_err(Fault::output),
    }
}

/// What a shell reads to complete our command lines. In memory first, as clap's crate panics where it cannot write.
fn completions(shell: clap_complete::Shell) -> Vec<u8> {
    let mut text = Vec::new();
    clap_complete::generate(shell, &mut Cli::command(), "wilfnusk", &mut text);
    text
}

/// Prints a line.
fn say(text: impl std::fmt::Display) -> Result<(), Fault> {
    writeln!(io::stdout(), "{}", text::printable_lines(&text.to_string())).map_err(Fault::output)
}

/// Prints a value as JSON.
fn say_json(value: &impl Serialize) -> Result<(), Fault> {
    let write = |out: &mut dyn Write| serde_json::to_writer_pretty(&mut *out, value).map_err(io::Error::from).and_then(|()| writeln!(out));
    files::buffered(io::stdout().lock(), write).map_err(Fault::output)
}

fn main() {
    stop::outlive_file_limits();
    if let Err(fault) = run(Cli::parse().command) {
        let text = fault.to_string();
        if !text.is_empty() {
            tell!("wilfnusk: {}", text);
        }
        exit(fault.status());
    }
}

#[cfg(test)]
mod tests {
    use super::*;
    use clap::ValueEnum;

    #[test]
    fn the_command_line_is_well_formed() {
        Cli::command().debug_assert();
    }
    #[test]
    fn each_shell_completes_each_command() {
        for &shell in clap_complete::Shell::value_variants() {
            let text = String::from_utf8(completions(shell)).unwrap();
            for command in Cli::command().get_subcommands() {
                assert!(text.contains(command.get_name()), "{}: {}", shell, command.get_name());
            }
        }
    }
}
