//! `wilfnusk rolls`: the optimal roll of each cell. It takes no lock and reads no journal.
use crate::{
    engine, explain,
    fault::{csv_error, Fault},
    files::{buffered, write_output},
    instant,
    outputs::can_be_written,
    plan::Plan,
    selection::{Selected, Selection},
    source::shown,
    text::number,
    Files,
};
use clap::Args;
use std::{
    io::{self, Write},
    path::{Path, PathBuf},
};

#[derive(Args)]
pub struct Rolls {
    /// The plan
    #[arg(value_name = "PLAN.toml")]
    plan: PathBuf,
    /// Write the columns target, target_number, time, roll_deg and free, true where no roll is better than another, into this file ("-" for standard output)
    #[arg(long, value_name = "FILE", default_value = "-")]
    csv: PathBuf,
    #[command(flatten)]
    selection: Selection,
}

impl Rolls {
    pub fn run(&self) -> Result<(), Fault> {
        let (plan, journal) = Files { plan: self.plan.clone(), journal: None }.read()?;
        let selected = self.selection.of(&plan)?;
        let on_stdout = self.csv == Path::new("-");
        if !on_stdout {
            can_be_written([("--csv", self.csv.as_path())].into_iter(), &plan, &journal)?;
        }
        let (rolls, free) = engine::rolls(&plan).map_err(|r| explain::plan(&plan, r))?;
        let write = |out: &mut dyn Write| print(&plan, &selected, &rolls, &free, out);
        if on_stdout {
            return buffered(io::stdout().lock(), write).map_err(Fault::output);
        }
        write_output(&self.csv, write)?;
        tell!("wrote {}", shown(&self.csv));
        Ok(())
    }
}

/// The cells of the selected targets and times, in the order of their numbers.
fn print(plan: &Plan, selected: &Selected, rolls: &[f64], free: &[bool], out: &mut dyn Write) -> io::Result<()> {
    let samples = selected.samples(&plan.times);
    // Each time is put into text once, not once per target.
    let times: Vec<_> = plan.times[samples.clone()].iter().map(|&time| instant::format(time, 9)).collect();
    let mut csv = csv::Writer::from_writer(out);
    csv.write_record(["target", "target_number", "time", "roll_deg", "free"]).map_err(csv_error)?;
    for &i in &selected.targets {
        let target_number = (i + 1).to_string();
        for (time, sample) in times.iter().zip(samples.clone()) {
            let cell = i * plan.times.len() + sample;
            let free = if free[cell] { "true" } else { "false" };
            csv.write_record([&plan.names[i], &target_number, time, &number(rolls[cell]), free]).map_err(csv_error)?;
        }
    }
    csv.flush()
}
