//! The commands that only look: windows, status, mask, regard. They take no lock and change no file.
use crate::{
    digest::{is_known, warn_missing},
    engine::{self, Regarded, Roll, HEADER_BYTES},
    explain,
    fault::{csv_error, Fault},
    files::buffered,
    instant,
    journal::{done, is_locked, look},
    listing::{Degrees, Listing},
    outputs::Outputs,
    plan::Plan,
    remarks::tell_remarks,
    say, say_json,
    selection::{Names, Selected, Selection},
    source::shown,
    text::{all_ranges, counted, grouped, number, printable, ranges},
    tolerance,
    tried::Rolls,
    verify::{Evidence, Trust},
    Files,
};
use clap::{Args, ValueEnum};
use serde::Serialize;
use std::{
    io::{self, Write},
    path::Path,
};

#[derive(Args)]
pub struct Windows {
    #[command(flatten)]
    files: Files,
    /// List the windows and severities at the configured roll; needs no journal
    #[arg(long)]
    evaluate: bool,
    #[command(flatten)]
    trust: Trust,
    #[command(flatten)]
    selection: Selection,
    #[command(flatten)]
    outputs: Outputs,
}

impl Windows {
    pub fn run(&self) -> Result<(), Fault> {
        let (plan, path) = self.files.read()?;
        let selected = self.selection.of(&plan)?;
        self.outputs.check(&plan, &path, &selected)?;
        tell_remarks(&plan);
        if self.evaluate {
            if plan.configured_roll.is_none() {
                return Err(Fault::Usage(format!("--evaluate: {} has no configured_roll", shown(plan.path()))));
            }
            let listing = Listing::of_configured_roll(&plan, selected).map_err(|(i, r)| explain::row(&plan, i, r))?;
            return self.outputs.write(&listing);
        }
        let (mask, probes, evidence) = swept(&plan, &path, &self.trust)?;
        let listing = Listing::of_mask(&plan, selected, &mask, probes, evidence).map_err(|(i, r)| explain::row(&plan, i, r))?;
        self.outputs.write(&listing)
    }
}

/// The mask and the probes of the plan's journal, once every chunk has a line and each line was worked out again or is trusted.
fn swept(plan: &Plan, path: &Path, trust: &Trust) -> Result<(Vec<u8>, u64, Evidence), Fault> {
    if !path.exists() {
        return Err(Fault::Unfinished(format!(
            "{}: there is no such journal; `{}` makes one",
            shown(path),
            explain::command("sweep", plan, path)
        )));
    }
    let bytes = look(path)?;
    let keep = engine::recover(plan, &bytes).map_err(|r| explain::journal(plan, path, &bytes, r))?;
    let origin_known = keep <= HEADER_BYTES as usize || is_known(plan, path)?;
    // An empty journal is one that lacks its lines, like any other unfinished one.
    let bytes = if keep == 0 { engine::header(plan).map_err(|r| explain::plan(plan, r))? } else { bytes[..keep].to_vec() };
    let (mask, probes) = engine::collect(plan, &bytes).map_err(|r| explain::journal(plan, path, &bytes, r))?;
    Ok((mask, probes, trust.evidence(plan, path, &bytes, origin_known)?))
}

#[derive(Args)]
pub struct Status {
    #[command(flatten)]
    files: Files,
    /// Print it as JSON
    #[arg(long)]
    json: bool,
}

/// How far a sweep is: the keys of the JSON output.
#[derive(Serialize)]
struct State {
    plan: String,
    targets: usize,
    times: usize,
    cells: usize,
    rolls: u64,
    /// None where they are even steps.
    rolls_deg: Option<Vec<f64>>,
    /// None where the targets have different ones, or there are none; the list then has them.
    tolerance_deg: Option<Degrees>,
    tolerances_deg: Option<Vec<Degrees>>,
    configured_roll_deg: Option<Degrees>,
    panel_normal: [f64; 3],
    journal: String,
    /// None where there is no such file.
    journal_bytes: Option<usize>,
    /// Of a write that did not end.
    tail_bytes: usize,
    /// Whether a sweep has the journal locked.
    running: bool,
    chunks: usize,
    chunks_with_line: usize,
    /// As --chunks takes them.
    missing: Vec<String>,
    finished: bool,
    /// The J.plan beside the journal is this plan's, or there is no line. It says nothing about the lines themselves.
    origin_known: bool,
}

impl Status {
    pub fn run(&self) -> Result<(), Fault> {
        let (plan, path) = self.files.read()?;
        let bytes = if path.exists() { Some(look(&path)?) } else { None };
        let running = bytes.is_some() && is_locked(&path);
        let read = bytes.as_deref().unwrap_or(&[]);
        let keep = engine::recover(&plan, read).map_err(|r| explain::journal(&plan, &path, read, r))?;
        let has_line = done(&read[..keep], plan.chunks());
        let one_tolerance = tolerance::common(&plan.tolerances);
        let mut state = State {
            plan: plan.path().display().to_string(),
            targets: plan.names.len(),
            times: plan.times.len(),
            cells: plan.cells(),
            rolls: plan.rolls.count(),
            rolls_deg: plan.rolls.table().map(<[f64]>::to_vec),
            tolerance_deg: one_tolerance.map(Degrees),
            tolerances_deg: one_tolerance.is_none().then(|| plan.tolerances.iter().copied().map(Degrees).collect()),
            configured_roll_deg: plan.configured_roll.map(Degrees),
            panel_normal: plan.panel,
            journal: path.display().to_string(),
            journal_bytes: bytes.as_ref().map(Vec::len),
            tail_bytes: read.len() - keep,
            running,
            chunks: plan.chunks(),
            chunks_with_line: has_line.iter().filter(|&&d| d).count(),
            missing: all_ranges(&has_line, false),
            finished: keep > 0 && !has_line.contains(&false),
            origin_known: true,
        };
        let has_lines = keep > HEADER_BYTES as usize;
        if self.json {
            // A program takes what it reads as true of these files.
            state.origin_known = !has_lines || is_known(&plan, &path)?;
            say_json(&state)?;
        } else {
            say(state.text(&about(&plan), &ranges(&has_line, false)))?;
            state.origin_known = !has_lines || is_known(&plan, &path)?;
        }
        if !state.origin_known {
            warn_missing(&plan, &path);
        }
        if !self.json {
            say(format_args!("next     {}", explain::command(if state.finished { "windows" } else { "sweep" }, &plan, &path)))?;
        }
        if state.finished {
            Ok(())
        } else {
            // It was printed already.
            Err(Fault::Unfinished(String::new()))
        }
    }
}

impl State {
    fn text(&self, about: &str, missing: &str) -> String {
        let bytes = match self.journal_bytes {
            None => return format!("{}\njournal  {}: not begun", about, printable(&self.journal)),
            Some(bytes) => counted(bytes, "byte"),
        };
        let running = if self.running { ", a sweep is writing it" } else { "" };
        let mut text = format!(
            "{}\njournal  {}: {}{}\nchunks   {} of {} have a line",
            about,
            printable(&self.journal),
            bytes,
            running,
            grouped(self.chunks_with_line),
            grouped(self.chunks)
        );
        if !missing.is_empty() {
            text += &format!("\nmissing  {}", missing);
        }
        if self.tail_bytes > 0 && !self.running {
            text += &format!("\ntail     {} of a write that did not end; the next sweep removes them", counted(self.tail_bytes, "byte"));
        }
        text
    }
}

pub fn about(plan: &Plan) -> String {
    format!(
        "plan     {}: {}, {}, {} in {}\nsettings {}, tolerance {}, panel {}, configured roll {}",
        shown(plan.path()),
        counted(plan.names.len(), "target"),
        counted(plan.times.len(), "time"),
        counted(plan.cells(), "cell"),
        counted(plan.chunks(), "chunk"),
        plan.rolls.in_words(""),
        tolerance::in_words(&plan.tolerances, ""),
        plan.panel_text(),
        plan.configured_roll.map_or("none".to_owned(), number),
    )
}

#[derive(Args)]
pub struct Mask {
    #[command(flatten)]
    files: Files,
    /// The mask at this roll, in degrees, in place of the sweep's; a configured roll overrides it, with a warning
    #[arg(long, value_name = "DEG", value_parser = degrees, allow_hyphen_values = true)]
    roll: Option<f64>,
    /// The mask at this roll, which nothing overrides
    #[arg(long, value_name = "DEG", value_parser = degrees, allow_hyphen_values = true, conflicts_with = "roll")]
    fixed_roll: Option<f64>,
    /// Rows: 0 or 1 for each time, then the target; csv: a line per cell; raw: a byte per cell
    #[arg(long, value_enum, default_value_t = Form::Rows)]
    form: Form,
    #[command(flatten)]
    trust: Trust,
    #[command(flatten)]
    selection: Selection,
}

#[derive(Clone, Copy, ValueEnum)]
enum Form {
    Rows,
    Csv,
    Raw,
}

impl Mask {
    pub fn run(&self) -> Result<(), Fault> {
        let (plan, path) = self.files.read()?;
        let selected = self.selection.of(&plan)?;
        let at = |roll| engine::mask_at(&plan, roll).map_err(|r| explain::plan(&plan, r));
        let mask = match (self.roll, self.fixed_roll) {
            (Some(roll), _) => {
                if let Some(configured) = overriding(&plan, roll) {
                    let (configured, roll) = (number(configured), number(roll));
                    tell!(
                        "warning: the plan's configured_roll {0} overrides --roll {1}: this is the mask at roll {0}; use --fixed-roll {1}",
                        configured,
                        roll
                    );
                }
                at(Roll::Sweep(roll))?
            }
            (None, Some(roll)) => at(Roll::Fixed(roll))?,
            (None, None) => swept(&plan, &path, &self.trust)?.0,
        };
        buffered(io::stdout().lock(), |out| self.form.print(&plan, &selected, &mask, out)).map_err(Fault::output)
    }
}

/// A roll of the command line. The library takes any number, and at one that is not finite no cell is violated.
fn degrees(text: &str) -> Result<f64, String> {
    text.parse().ok().filter(|roll: &f64| roll.is_finite()).ok_or_else(|| "allowed: a finite number of degrees".into())
}

/// The configured roll, where the plan has one that takes the place of the roll asked for and is not the same.
fn overriding(plan: &Plan, roll: f64) -> Option<f64> {
    plan.configured_roll.filter(|&configured| configured != roll)
}

impl Form {
    /// The cells of the selected targets and times.
    fn print(self, plan: &Plan, selected: &Selected, mask: &[u8], out: &mut dyn Write) -> io::Result<()> {
        let samples = selected.samples(&plan.times);
        let rows = selected.targets.iter().map(|&i| (i, &plan.names[i], &mask[i * plan.times.len()..][samples.clone()]));
        match self {
            Form::Raw => {
                for (_, _, row) in rows {
                    out.write_all(row)?;
                }
            }
            Form::Rows => {
                for (_, name, row) in rows {
                    let marks: String = row.iter().map(u8::to_string).collect();
                    writeln!(out, "{} {}", marks, printable(name))?;
                }
            }
            Form::Csv => {
                let times: Vec<_> = plan.times[samples.clone()].iter().map(|&time| instant::format(time, 9)).collect();
                let mut csv = csv::Writer::from_writer(out);
                csv.write_record(["target", "target_number", "time", "marked"]).map_err(csv_error)?;
                for (i, name, row) in rows {
                    let number = (i + 1).to_string();
                    for (time, mark) in times.iter().zip(row) {
                        csv.write_record([name, &number, time, &mark.to_string()]).map_err(csv_error)?;
                    }
                }
                csv.flush()?;
            }
        }
        Ok(())
    }
}

#[derive(Args)]
pub struct Regard {
    /// The plan
    #[arg(value_name = "PLAN.toml")]
    plan: std::path::PathBuf,
    /// A time of the ephemeris, as RFC 3339
    #[arg(long, value_name = "TIME", required_unless_present = "sample")]
    time: Option<String>,
    /// A sample number, from 0
    #[arg(long, value_name = "J", conflicts_with = "time")]
    sample: Option<usize>,
    /// The marks at this roll, in degrees; a configured roll overrides it, with a warning [default: at every roll of the plan, which must then be even steps]
    #[arg(long, value_name = "DEG", value_parser = degrees, allow_hyphen_values = true)]
    roll: Option<f64>,
    #[command(flatten)]
    names: Names,
}

impl Regard {
    pub fn run(&self) -> Result<(), Fault> {
        let (plan, journal) = Files { plan: self.plan.clone(), journal: None }.read()?;
        let targets = self.names.of(&plan)?;
        let sample = match (&self.time, self.sample) {
            (Some(text), _) => sample_at(&plan, text)?,
            (None, sample) => sample.unwrap_or(0),
        };
        let by = match (self.roll, &plan.rolls) {
            (Some(roll), _) => {
                if let Some(configured) = overriding(&plan, roll) {
                    let (configured, roll) = (number(configured), number(roll));
                    tell!(
                        "warning: the plan's configured_roll {0} overrides --roll {1}: these are the marks at roll {0}",
                        configured,
                        roll
                    );
                }
                Regarded::Roll(roll)
            }
            (None, Rolls::Even(n)) => Regarded::EvenSteps(*n),
            (None, Rolls::Table(_)) => return Err(explain::needs_even_steps(&plan, &journal)),
        };
        let marks = engine::regard(&plan, sample, by).map_err(|r| match r.number() {
            9 => Fault::Refused(9, format!("sample {}; allowed: below {}", sample, plan.times.len())),
            _ => explain::plan(&plan, r),
        })?;
        let write = |out: &mut dyn Write| {
            targets
                .iter()
                .try_for_each(|&i| writeln!(out, "{:8} {}", if marks[i] == 0 { "clear" } else { "violated" }, printable(&plan.names[i])))
        };
        buffered(io::stdout().lock(), write).map_err(Fault::output)
    }
}

/// The sample of a time, which must be one of the ephemeris'.
fn sample_at(plan: &Plan, text: &str) -> Result<usize, Fault> {
    let time = instant::parse(text)
        .map_err(|(at, allowed)| Fault::Usage(format!("--time {}: at character {}, allowed: {}", text, at + 1, allowed)))?;
    plan.times.binary_search(&time).map_err(|next| {
        let near = |i: usize| plan.times.get(i).map(|&t| instant::format(t, instant::digits([t])));
        let before = next.checked_sub(1).and_then(near);
        let around: Vec<_> = before.into_iter().chain(near(next)).collect();
        let around = if around.is_empty() { "it has none".into() } else { format!("nearest: {}", around.join(" and ")) };
        Fault::Usage(format!("--time {}: no time of {}; {}", text, printable(&plan.ephemeris_file), around))
    })
}

#[cfg(test)]
mod tests {
    use super::*;
    use crate::testing::{plan, small};

    fn state(journal_bytes: Option<usize>, tail_bytes: usize, running: bool) -> State {
        State {
            plan: "plan.toml".into(),
            targets: 3,
            times: 100,
            cells: 300,
            rolls: 8,
            rolls_deg: None,
            tolerance_deg: Some(Degrees(15.0)),
            tolerances_deg: None,
            configured_roll_deg: None,
            panel_normal: [0.0, 1.0, 0.0],
            journal: "j".into(),
            journal_bytes,
            tail_bytes,
            running,
            chunks: 5,
            chunks_with_line: 2,
            missing: vec!["1".into(), "3..5".into()],
            finished: false,
            origin_known: true,
        }
    }

    #[test]
    fn a_status_in_words_has_what_applies() {
        assert_eq!(state(None, 0, false).text("about", "0..5"), "about\njournal  j: not begun");
        let begun = "about\njournal  j: 174 bytes\nchunks   2 of 5 have a line\nmissing  1, 3..5";
        assert_eq!(state(Some(174), 0, false).text("about", "1, 3..5"), begun);
        let tail = state(Some(174), 1, false).text("about", "1, 3..5");
        assert_eq!(tail, format!("{}\ntail     1 byte of a write that did not end; the next sweep removes them", begun));
        // What a running sweep is writing is no tail.
        assert!(state(Some(174), 1, true).text("about", "").ends_with("174 bytes, a sweep is writing it\nchunks   2 of 5 have a line"));
    }
    #[test]
    fn a_time_must_be_one_of_the_ephemeris() {
        let plan_of_100 = small();
        assert_eq!(sample_at(&plan_of_100, "2026-03-20T01:02:00Z").unwrap(), 62);
        let said = |plan: &Plan, text: &str| sample_at(plan, text).unwrap_err().to_string();
        assert!(said(&plan_of_100, "2026-03-20T00:00:30Z")
            .ends_with("no time of e.csv; nearest: 2026-03-20T00:00:00Z and 2026-03-20T00:01:00Z"));
        assert!(said(&plan_of_100, "2026-03-19T00:00:00Z").ends_with("nearest: 2026-03-20T00:00:00Z"));
        assert!(said(&plan_of_100, "noon").starts_with("--time noon: at character 1, allowed: "));
        let settings = "targets = \"t.csv\"\nephemeris = \"e.csv\"\nrolls = 1\ntolerance = 1\n";
        let heads = ("name,x,y,z\n", "time,sun_x,sun_y,sun_z,observer_x,observer_y,observer_z\n");
        assert!(said(&plan(settings, heads.0, heads.1).unwrap(), "2026-03-20T00:00:00Z").ends_with("no time of e.csv; it has none"));
    }
    #[test]
    fn a_mask_in_each_form() {
        let plan = small();
        let selected = Selection::default().of(&plan).unwrap();
        let mask: Vec<u8> = (0..300).map(|i| (i % 7 == 0) as u8).collect();
        let printed = |form: Form| {
            let mut out = Vec::new();
            form.print(&plan, &selected, &mask, &mut out).unwrap();
            out
        };
        assert_eq!(printed(Form::Raw), mask);
        let rows = String::from_utf8(printed(Form::Rows)).unwrap();
        let marks: String = rows.lines().map(|line| line.split(' ').next().unwrap()).collect();
        assert_eq!(marks.bytes().map(|b| b - b'0').collect::<Vec<_>>(), mask);
        assert!(rows.lines().map(|line| line.rsplit(' ').next().unwrap()).eq(["A", "B", "C"]));
        let csv = String::from_utf8(printed(Form::Csv)).unwrap();
        assert!(csv.starts_with("target,target_number,time,marked\nA,1,2026-03-20T00:00:00.000000000Z,1\n"));
        assert_eq!(csv.lines().count(), 301);
    }
}
