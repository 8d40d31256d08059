//! The windows of every target and their totals: as a table for people, as CSV and JSON for programs.
use crate::{
    engine::{self, Refusal, Window},
    fault::csv_error,
    instant,
    plan::Plan,
    selection::Selected,
    text::{counted, grouped, number, printable},
    tolerance,
    verify::Evidence,
};
use serde::{Serialize, Serializer};
use std::{
    cell::OnceCell,
    io::{self, Write},
    ops::RangeInclusive,
};

#[derive(Clone, Copy, Debug, PartialEq, Eq)]
pub enum Kind {
    Visible,
    Violated,
}

impl Kind {
    pub fn word(self) -> &'static str {
        match self {
            Kind::Visible => "visible",
            Kind::Violated => "violated",
        }
    }
}

/// A window that is listed.
pub struct Listed {
    pub kind: Kind,
    pub window: Window,
    /// The library's: last time minus first time, in seconds, cut to whole ones.
    pub seconds: u64,
}

pub struct Row<'a> {
    pub name: &'a str,
    /// The target's place in its file, from 1: names need not differ.
    pub number: usize,
    pub tolerance: f64,
    /// Both kinds, by their first sample.
    pub windows: Vec<Listed>,
    /// Clear samples that rule V has in no window, as they stand alone and are not the last.
    pub single: Vec<usize>,
    pub totals: Totals,
}

/// What is counted of a target, or of all that are listed. Samples and shares are those of the selected times, in a window or not; seconds
/// are sums over the listed windows, which are whole.
#[derive(Clone, Debug, Default, PartialEq, Serialize)]
pub struct Totals {
    pub samples: usize,
    pub visible: Total,
    pub violated: Total,
    pub single_clear_samples: usize,
}

/// What is counted of one kind.
#[derive(Clone, Debug, Default, PartialEq, Serialize)]
pub struct Total {
    pub samples: usize,
    /// Of the samples; none where there are none.
    pub share: Option<f64>,
    pub windows: usize,
    pub seconds: u64,
    /// None where there is no window.
    pub longest_seconds: Option<u64>,
    /// The same sum with each window cut to the selected times.
    pub clipped_seconds: u64,
    /// The samples' share of the time, each weighted by its step; none where there are no samples.
    pub time_share: Option<f64>,
    /// The sum of the samples' steps, in nanoseconds.
    #[serde(skip)]
    time: u128,
}

impl Total {
    /// The summary's columns of one kind, but for those that came later and stand at the end of its lines.
    fn counts(&self) -> (usize, Option<f64>, usize, u64, Option<u64>) {
        (self.samples, self.share, self.windows, self.seconds, self.longest_seconds)
    }
}

const SUMMARY_COLUMNS: [&str; 21] = [
    "of",
    "target",
    "samples",
    "visible_samples",
    "visible_share",
    "visible_windows",
    "visible_seconds",
    "visible_longest_seconds",
    "violated_samples",
    "violated_share",
    "violated_windows",
    "violated_seconds",
    "violated_longest_seconds",
    "single_clear_samples",
    "visible_clipped_seconds",
    "visible_time_share",
    "violated_clipped_seconds",
    "violated_time_share",
    "from",
    "to",
    "target_number",
];

pub struct Listing<'a> {
    pub plan: &'a Plan,
    pub selected: Selected,
    pub rows: Vec<Row<'a>>,
    pub all: Totals,
    /// What the sweep tried; none if the windows are those of the configured roll alone.
    pub probes: Option<u64>,
    /// Whether each target is shown with its tolerance, as one does not hold for all.
    pub has_tolerances: bool,
    /// What is known of the journal's lines; none if no journal was read.
    pub evidence: Option<Evidence>,
}

/// The target whose windows were refused, and why.
pub type RowRefusal = (usize, Refusal);

impl<'a> Listing<'a> {
    /// The windows of a sweep's mask. Their severities are zero.
    pub fn of_mask(plan: &'a Plan, selected: Selected, mask: &[u8], probes: u64, evidence: Evidence) -> Result<Listing<'a>, RowRefusal> {
        let times = plan.times.len();
        let severities = vec![0.0; times];
        let row = |range: &Range, i: usize| Row::of(plan, range, i, &mask[i * times..(i + 1) * times], &severities);
        Ok(Listing { evidence: Some(evidence), ..Listing::of(plan, selected, Some(probes), row)? })
    }
    /// The windows and severities at the configured roll.
    pub fn of_configured_roll(plan: &'a Plan, selected: Selected) -> Result<Listing<'a>, RowRefusal> {
        Listing::of(plan, selected, None, |range, i| {
            let (mask, severities) = engine::evaluate(plan, i)?;
            Row::of(plan, range, i, &mask, &severities)
        })
    }
    fn of(
        plan: &'a Plan,
        selected: Selected,
        probes: Option<u64>,
        row: impl Fn(&Range, usize) -> Result<Row<'a>, Refusal>,
    ) -> Result<Listing<'a>, RowRefusal> {
        let range = Range::of(plan, &selected);
        let rows = selected.targets.iter().map(|&i| row(&range, i).map_err(|refusal| (i, refusal)));
        let rows = rows.collect::<Result<Vec<_>, _>>()?;
        let all = Totals::of_all(rows.iter().map(|row| &row.totals));
        let has_tolerances = tolerance::common(&plan.tolerances).is_none();
        Ok(Listing { plan, selected, rows, all, probes, has_tolerances, evidence: None })
    }
    /// That the journal's lines were not worked out again, if it is so here.
    pub fn unverified(&self) -> Option<&'static str> {
        self.evidence.filter(|evidence| !evidence.verified).map(|_| Evidence::UNVERIFIED)
    }
    pub fn has_severities(&self) -> bool {
        self.probes.is_none()
    }
    /// What is listed of the plan, if it is not all of it.
    pub fn part(&self) -> Option<String> {
        let mut parts = Vec::new();
        if !self.selected.all_targets {
            parts.push(format!("{} of {}", grouped(self.rows.len()), counted(self.plan.names.len(), "target")));
        }
        if !self.selected.has_all_times() {
            parts.push(format!("windows that meet the times {}", self.selected.when()));
        }
        if parts.is_empty() {
            None
        } else {
            Some(parts.join("; "))
        }
    }
    /// That not every clear sample is in a window, if it is so here.
    pub fn single_note(&self) -> Option<String> {
        match self.all.single_clear_samples {
            0 => None,
            1 => Some("1 clear sample stands alone and is in no window: a single one is listed only if it is the last".into()),
            n => Some(format!(
                "{} clear samples stand alone and are in no window: a single one is listed only if it is the last",
                grouped(n)
            )),
        }
    }

    /// A table for a terminal of 80 columns. Lines of windows begin with two spaces and their kind, and no other line does.
    pub fn table(&self, mut out: impl Write) -> io::Result<()> {
        if self.plan.names.is_empty() {
            return writeln!(out, "no targets");
        }
        if let Some(note) = self.unverified() {
            writeln!(out, "{}", note)?;
        }
        if let Some(part) = self.part() {
            wrapped(&mut out, &format!("part of the plan: {}", part))?;
        }
        let columns = Columns::of(self);
        let clipped = !self.selected.has_all_times();
        for row in &self.rows {
            writeln!(out, "{}", printable(row.name))?;
            if self.has_tolerances {
                writeln!(out, "  tolerance {}", number(row.tolerance))?;
            }
            row.totals.lines(&mut out, clipped)?;
            for listed in &row.windows {
                columns.line(&mut out, listed)?;
            }
        }
        let all = if self.selected.is_whole() { "all" } else { "this part" };
        writeln!(out, "in {}: {}, {}", all, counted(self.rows.len(), "target"), counted(self.all.samples, "sample"))?;
        self.all.lines(&mut out, clipped)?;
        if self.rows.iter().flat_map(|row| &row.windows).any(|listed| listed.window.is_last != 0) {
            writeln!(out, "> the data end here; the window may go on")?;
        }
        if let Some(note) = self.single_note() {
            wrapped(&mut out, &note)?;
        }
        writeln!(out, "% of the time: each sample weighted by the step to the next one")?;
        writeln!(out, "samples: times of the ephemeris, in a window or not")?;
        writeln!(out, "seconds: from a window's first sample to its last, cut to whole ones")?;
        if clipped {
            wrapped(&mut out, &format!("samples and % of the time: {}", self.selected.when()))?;
            writeln!(out, "seconds of windows: of whole windows, also where they leave these times")?;
            writeln!(out, "clipped: the seconds of each window within these times")?;
        }
        wrapped(&mut out, columns.legend())
    }

    pub fn csv(&self, mut out: impl Write) -> io::Result<()> {
        let times = Times::of(self.plan, 9);
        let mut line = Vec::new();
        writeln!(out, "target,kind,first_sample,last_sample,start,end,seconds,severity_deg,data_end,target_number")?;
        for row in &self.rows {
            // Only a name may need quotes; it is put into CSV once per target.
            let name = csv_field(row.name)?;
            for Listed { kind, window: w, seconds } in &row.windows {
                line.clear();
                line.extend_from_slice(&name);
                for text in [",", kind.word(), ","] {
                    line.extend_from_slice(text.as_bytes());
                }
                push_number(&mut line, w.first);
                line.push(b',');
                push_number(&mut line, w.last);
                for text in [",", times.at(w.first), ",", times.at(w.last), ","] {
                    line.extend_from_slice(text.as_bytes());
                }
                push_number(&mut line, *seconds);
                writeln!(line, ",{},{},{}", w.severity, w.is_last != 0, row.number)?;
                out.write_all(&line)?;
            }
        }
        out.flush()
    }

    /// The totals of each target, then of all that are listed.
    pub fn summary(&self, out: impl Write) -> io::Result<()> {
        let mut out = csv::WriterBuilder::new().has_headers(false).from_writer(out);
        out.write_record(SUMMARY_COLUMNS).map_err(csv_error)?;
        let [from, to] = [self.selected.from, self.selected.to].map(|time| time.map(|t| instant::format(t, 9)));
        let mut line = |of, name, totals: &Totals, number: Option<usize>| {
            let (visible, violated) = (&totals.visible, &totals.violated);
            let counts = (totals.samples, visible.counts(), violated.counts(), totals.single_clear_samples);
            let by_time = [visible, violated].map(|total| (total.clipped_seconds, total.time_share));
            out.serialize((of, name, counts, by_time, &from, &to, number)).map_err(csv_error)
        };
        for row in &self.rows {
            line("target", row.name, &row.totals, Some(row.number))?;
        }
        line("all", "", &self.all, None)?;
        out.flush()
    }

    pub fn json(&self, mut out: impl Write) -> io::Result<()> {
        let p = self.plan;
        let times = Times::of(p, 9);
        let time = |t| instant::format(t, 9);
        let json = Json {
            rolls: p.rolls.count(),
            rolls_deg: p.rolls.table(),
            tolerance_deg: tolerance::common(&p.tolerances).map(Degrees),
            configured_roll_deg: p.configured_roll.map(Degrees),
            panel_normal: p.panel,
            samples: p.times.len(),
            first_time: p.times.first().copied().map(time),
            last_time: p.times.last().copied().map(time),
            probes: self.probes,
            verified: self.evidence.map(|evidence| evidence.verified),
            origin_known: self.evidence.map(|evidence| evidence.origin_known),
            part: if self.selected.is_whole() {
                None
            } else {
                Some(JsonPart {
                    targets: self.rows.len(),
                    of_targets: p.names.len(),
                    from: self.selected.from.map(time),
                    to: self.selected.to.map(time),
                })
            },
            totals: &self.all,
            targets: self
                .rows
                .iter()
                .map(|row| JsonRow {
                    name: row.name,
                    number: row.number,
                    tolerance_deg: Degrees(row.tolerance),
                    totals: &row.totals,
                    visible: row.json(Kind::Visible, &times),
                    violated: row.json(Kind::Violated, &times),
                })
                .collect(),
        };
        serde_json::to_writer_pretty(&mut out, &json)?;
        writeln!(out)?;
        out.flush()
    }
}

/// What the rows are counted over: the selected times, their samples and how long each of these stands for.
struct Range {
    times: RangeInclusive<i64>,
    samples: std::ops::Range<usize>,
    steps: Vec<u64>,
}

impl Range {
    fn of(plan: &Plan, selected: &Selected) -> Range {
        let samples = selected.samples(&plan.times);
        Range { times: selected.times(), steps: samples.clone().map(|j| step(&plan.times, j)).collect(), samples }
    }
    fn meets(&self, w: &Window) -> bool {
        w.last_time >= *self.times.start() && w.first_time <= *self.times.end()
    }
    /// The seconds of a window that meets the range, as far as it lies inside.
    fn clipped_seconds(&self, w: &Window) -> Result<u64, Refusal> {
        engine::seconds(w.first_time.max(*self.times.start()), w.last_time.min(*self.times.end()))
    }
}

/// How long a sample stands for, in nanoseconds: up to the next one, also where that one is not selected, so that ranges add up. The last
/// one stands for as long as the one before it, and a single one for a second.
pub fn step(times: &[i64], j: usize) -> u64 {
    match (times.get(j + 1), j.checked_sub(1)) {
        (Some(next), _) => next.abs_diff(times[j]),
        (None, Some(before)) => times[j].abs_diff(times[before]),
        (None, None) => 1_000_000_000,
    }
}

impl<'a> Row<'a> {
    fn of(plan: &'a Plan, range: &Range, i: usize, mask: &[u8], severities: &[f64]) -> Result<Row<'a>, Refusal> {
        let met = |windows: Vec<Window>| windows.into_iter().filter(|w| range.meets(w)).collect::<Vec<_>>();
        let visible = met(engine::visibility(mask, &plan.times)?);
        let violated = met(engine::violations(mask, &plan.times, severities)?);

        let samples = range.samples.clone();
        let mut windows = visible.iter().peekable();
        let single = samples.clone().filter(|&j| mask[j] == 0).filter(|&j| {
            while windows.next_if(|w| w.last < j as u64).is_some() {}
            windows.peek().map_or(true, |w| j < w.first as usize)
        });
        let single: Vec<_> = single.collect();
        let mut listed = Vec::with_capacity(visible.len() + violated.len());
        let mut total = |kind, windows: &[Window]| {
            let begun = listed.len();
            let mut clipped_seconds = 0;
            for window in windows {
                listed.push(Listed { kind, window: *window, seconds: engine::seconds(window.first_time, window.last_time)? });
                clipped_seconds += range.clipped_seconds(window)?;
            }
            let seconds = || listed[begun..].iter().map(|l| l.seconds);
            let of_kind = || mask[samples.clone()].iter().zip(&range.steps).filter(|(&mark, _)| (mark != 0) == (kind == Kind::Violated));
            Ok(Total {
                samples: of_kind().count(),
                windows: windows.len(),
                seconds: seconds().sum(),
                longest_seconds: seconds().max(),
                clipped_seconds,
                time: of_kind().map(|(_, &step)| u128::from(step)).sum(),
                ..Total::default()
            })
        };
        let (visible, violated) = (total(Kind::Visible, &visible)?, total(Kind::Violated, &violated)?);
        let totals = Totals::of(visible, violated, single.len());
        listed.sort_by_key(|l| l.window.first);
        Ok(Row { name: &plan.names[i], number: i + 1, tolerance: plan.tolerances[i], windows: listed, single, totals })
    }
    fn json<'t>(&self, kind: Kind, times: &'t Times) -> Vec<JsonWindow<'t>> {
        self.windows.iter().filter(|l| l.kind == kind).map(|l| JsonWindow::of(l, times)).collect()
    }
}

/// The times of the samples as text, each put into text at most once.
struct Times<'a> {
    times: &'a [i64],
    texts: Vec<OnceCell<String>>,
    digits: usize,
}

impl Times<'_> {
    fn of(plan: &Plan, digits: usize) -> Times<'_> {
        Times { times: &plan.times, texts: vec![OnceCell::new(); plan.times.len()], digits }
    }
    fn at(&self, sample: u64) -> &str {
        let j = sample as usize;
        self.texts[j].get_or_init(|| instant::format(self.times[j], self.digits))
    }
}

/// Appends a whole number in decimal: `write!` takes several times as long, which shows in a listing of a million windows.
fn push_number(line: &mut Vec<u8>, n: u64) {
    let begun = line.len();
    let mut rest = n;
    loop {
        line.push(b'0' + (rest % 10) as u8);
        rest /= 10;
        if rest == 0 {
            break;
        }
    }
    line[begun..].reverse();
}

/// A text as a field of CSV, quoted where it must be.
fn csv_field(text: &str) -> io::Result<Vec<u8>> {
    let mut line = Vec::new();
    let mut out = csv::WriterBuilder::new().buffer_capacity(256).from_writer(&mut line);
    out.write_record([text, ""]).map_err(csv_error)?;
    out.flush()?;
    drop(out);
    line.truncate(line.len() - ",\n".len());
    Ok(line)
}

impl Totals {
    /// Both kinds, with the shares that they have of their sum.
    fn of(mut visible: Total, mut violated: Total, single_clear_samples: usize) -> Totals {
        let (samples, time) = (visible.samples + violated.samples, visible.time + violated.time);
        for total in [&mut visible, &mut violated] {
            total.share = (samples > 0).then(|| total.samples as f64 / samples as f64);
            total.time_share = (time > 0).then(|| total.time as f64 / time as f64);
        }
        Totals { samples, visible, violated, single_clear_samples }
    }
    fn of_all<'a>(rows: impl Iterator<Item = &'a Totals> + Clone) -> Totals {
        let total = |kind: fn(&Totals) -> &Total| {
            let rows = rows.clone().map(kind);
            Total {
                samples: rows.clone().map(|row| row.samples).sum(),
                windows: rows.clone().map(|row| row.windows).sum(),
                seconds: rows.clone().map(|row| row.seconds).sum(),
                longest_seconds: rows.clone().filter_map(|row| row.longest_seconds).max(),
                clipped_seconds: rows.clone().map(|row| row.clipped_seconds).sum(),
                time: rows.map(|row| row.time).sum(),
                ..Total::default()
            }
        };
        Totals::of(total(|row| &row.visible), total(|row| &row.violated), rows.clone().map(|row| row.single_clear_samples).sum())
    }
    /// Two lines per kind, and with clipped seconds three.
    fn lines(&self, out: &mut impl Write, clipped: bool) -> io::Result<()> {
        for (kind, total) in [(Kind::Visible, &self.visible), (Kind::Violated, &self.violated)] {
            let percent = |share: f64| format!("{:.1}%", 100.0 * share);
            let time = total.time_share.map_or(String::new(), |s| format!("{} of the time; ", percent(s)));
            let share = total.share.map_or(String::new(), |s| format!(" ({})", percent(s)));
            let longest = total.longest_seconds.map_or(String::new(), |s| format!(", longest {} s", grouped(s)));
            writeln!(out, "  total {}: {}{}{}", kind.word(), time, counted(total.samples, "sample"), share)?;
            writeln!(out, "    in {}: {} s{}", counted(total.windows, "window"), grouped(total.seconds), longest)?;
            if clipped {
                writeln!(out, "    clipped: {} s", grouped(total.clipped_seconds))?;
            }
        }
        Ok(())
    }
}

/// Writes a line, broken between words where it would pass 80 columns.
fn wrapped(out: &mut impl Write, text: &str) -> io::Result<()> {
    let mut line = String::new();
    for word in text.split(' ') {
        if !line.is_empty() && line.len() + 1 + word.len() > 80 {
            writeln!(out, "{}", line)?;
            line = "   ".into();
        }
        if !line.is_empty() {
            line.push(' ');
        }
        line += word;
    }
    writeln!(out, "{}", line)
}

/// The table's columns: each as wide as its widest entry, with a space before it at least.
struct Columns<'a> {
    times: Times<'a>,
    gap: &'static str,
    seconds: usize,
    /// Where there are severities; else the sample numbers, if they fit into 80 columns.
    severity: Option<usize>,
    samples: Option<usize>,
}

impl Columns<'_> {
    fn of<'a>(listing: &'a Listing) -> Columns<'a> {
        let windows = || listing.rows.iter().flat_map(|row| &row.windows);
        let digits = instant::digits(windows().flat_map(|l| [l.window.first_time, l.window.last_time]));
        let seconds = grouped(windows().map(|l| l.seconds).max().unwrap_or(0)).len();
        let severity = listing.has_severities().then(|| windows().map(|l| severity(l).len()).max().unwrap_or(0));
        let samples = windows().map(|l| width(l.window.first) + 1 + width(l.window.last)).max().unwrap_or(0);
        let time = instant::format(0, digits).len();
        let width = |gap: usize, columns: usize| 2 + 8 + gap + time + gap + time + 1 + columns;
        let needed = 1 + seconds + severity.map_or(0, |w| 1 + w);
        let samples = Some(samples).filter(|w| severity.is_none() && width(2, needed + 1 + w) <= 80);
        let gap = if width(2, needed) <= 80 { "  " } else { " " };
        Columns { times: Times::of(listing.plan, digits), gap, seconds, severity, samples }
    }
    fn line(&self, out: &mut impl Write, listed: &Listed) -> io::Result<()> {
        let w = &listed.window;
        let (start, end, mark) = (self.times.at(w.first), self.times.at(w.last), if w.is_last != 0 { '>' } else { ' ' });
        write!(out, "  {:8}{}{}{}{}{}", listed.kind.word(), self.gap, start, self.gap, end, mark)?;
        write!(out, " {:>1$}", grouped(listed.seconds), self.seconds)?;
        if let (Some(width), Kind::Violated) = (self.severity, listed.kind) {
            write!(out, " {:>1$}", severity(listed), width)?;
        }
        if let Some(samples) = self.samples {
            let blank = samples - (width(w.first) + 1 + width(w.last));
            write!(out, " {:blank$}{}-{}", "", w.first, w.last)?;
        }
        writeln!(out)
    }
    fn legend(&self) -> &'static str {
        if self.severity.is_some() {
            "right: seconds; severity, the most degrees beyond the tolerance at the configured roll"
        } else if self.samples.is_some() {
            "right: seconds; first and last sample number"
        } else {
            "right: seconds; sample numbers: --csv or --json"
        }
    }
}

fn severity(listed: &Listed) -> String {
    match listed.kind {
        Kind::Visible => String::new(),
        Kind::Violated => format!("{:.3}", listed.window.severity),
    }
}

/// How many digits a number has.
fn width(n: u64) -> usize {
    n.checked_ilog10().map_or(1, |log| log as usize + 1)
}

/// A setting, which may be any number: JSON has none for nan, inf and -inf, so these are texts, as TOML spells them.
pub struct Degrees(pub f64);

impl Serialize for Degrees {
    fn serialize<S: Serializer>(&self, serializer: S) -> Result<S::Ok, S::Error> {
        match self.0 {
            x if x.is_finite() => serializer.serialize_f64(x),
            x if x.is_nan() => serializer.serialize_str("nan"),
            x => serializer.serialize_str(if x > 0.0 { "inf" } else { "-inf" }),
        }
    }
}

#[derive(Serialize)]
struct Json<'a> {
    rolls: u64,
    /// None where they are even steps.
    rolls_deg: Option<&'a [f64]>,
    /// None where the targets have different ones.
    tolerance_deg: Option<Degrees>,
    configured_roll_deg: Option<Degrees>,
    panel_normal: [f64; 3],
    samples: usize,
    first_time: Option<String>,
    last_time: Option<String>,
    probes: Option<u64>,
    verified: Option<bool>,
    origin_known: Option<bool>,
    part: Option<JsonPart>,
    totals: &'a Totals,
    targets: Vec<JsonRow<'a>>,
}

#[derive(Serialize)]
struct JsonPart {
    targets: usize,
    of_targets: usize,
    from: Option<String>,
    to: Option<String>,
}

#[derive(Serialize)]
struct JsonRow<'a> {
    name: &'a str,
    number: usize,
    tolerance_deg: Degrees,
    totals: &'a Totals,
    visible: Vec<JsonWindow<'a>>,
    violated: Vec<JsonWindow<'a>>,
}

#[derive(Serialize)]
struct JsonWindow<'a> {
    first_sample: u64,
    last_sample: u64,
    start: &'a str,
    end: &'a str,
    seconds: u64,
    severity_deg: f64,
    data_end: bool,
}

impl JsonWindow<'_> {
    fn of<'a>(listed: &Listed, times: &'a Times) -> JsonWindow<'a> {
        let w = &listed.window;
        JsonWindow {
            first_sample: w.first,
            last_sample: w.last,
            start: times.at(w.first),
            end: times.at(w.last),
            seconds: listed.seconds,
            severity_deg: w.severity,
            data_end: w.is_last != 0,
        }
    }
}

#[cfg(test)]
mod tests {
    use super::*;
    use crate::testing::plan;
    use proptest::prelude::*;

    const VERIFIED: Evidence = Evidence { verified: true, origin_known: true };

    /// A plan of one target, and of a time every half second.
    fn half_seconds(samples: usize) -> Plan {
        let time = |j: usize| format!("2026-03-20T00:{:02}:{:02}.{}Z,0,1,0,0,0,0\n", j / 120, j / 2 % 60, j % 2 * 5);
        plan(
            "targets = \"t.csv\"\nephemeris = \"e.csv\"\nrolls = 1\ntolerance = 10\n",
            "name,x,y,z\nA,1,0,0\n",
            &format!("time,sun_x,sun_y,sun_z,observer_x,observer_y,observer_z\n{}", (0..samples).map(time).collect::<String>()),
        )
        .unwrap()
    }
    fn whole() -> Selected {
        Selected { targets: vec![0], all_targets: true, from: None, to: None }
    }
    /// Which sample is in a window of a kind.
    fn inside(row: &Row, kind: Kind, j: usize) -> usize {
        let windows = row.windows.iter().filter(|l| l.kind == kind);
        windows.filter(|l| (l.window.first..=l.window.last).contains(&(j as u64))).count()
    }

    #[test]
    fn a_table_fits_into_80_columns() {
        let p = half_seconds(300);
        let mask: Vec<u8> = (0..300).map(|j| u8::from(j % 7 < 3)).collect();
        let mut table = Vec::new();
        Listing::of_mask(&p, whole(), &mask, 1, VERIFIED).unwrap().table(&mut table).unwrap();
        for line in String::from_utf8(table).unwrap().lines() {
            assert!(line.len() <= 80, "{}", line);
        }
    }
    #[test]
    fn a_number_is_appended_in_decimal() {
        for n in (0..70).map(|k| 1u128 << k >> 1).flat_map(|n| [n, n.saturating_sub(1), 10 * n]).filter_map(|n| u64::try_from(n).ok()) {
            let mut line = b"x".to_vec();
            push_number(&mut line, n);
            assert_eq!(line, format!("x{}", n).into_bytes());
            assert_eq!(width(n), line.len() - 1);
        }
    }
    proptest! {
        #![proptest_config(ProptestConfig::with_cases(64))]
        /// Every sample is in one window of its kind, or clear and single; totals are sums; a part has the windows that meet it, whole.
        #[test]
        fn every_sample_is_accounted_for(mask in prop::collection::vec(0u8..2, 1..200), a in 0usize..200, b in 0usize..200) {
            let p = half_seconds(mask.len());
            let all = Listing::of_mask(&p, whole(), &mask, 7, VERIFIED).unwrap();
            let row = &all.rows[0];
            for (j, &mark) in mask.iter().enumerate() {
                prop_assert_eq!(inside(row, Kind::Violated, j), usize::from(mark));
                prop_assert_eq!(inside(row, Kind::Visible, j) + row.single.iter().filter(|&&s| s == j).count(), usize::from(1 - mark));
            }
            prop_assert_eq!(&all.all, &row.totals);
            for (kind, total) in [(Kind::Visible, &all.all.visible), (Kind::Violated, &all.all.violated)] {
                let windows = || row.windows.iter().filter(|l| l.kind == kind);
                prop_assert_eq!(total.windows, windows().count());
                prop_assert_eq!(total.seconds, windows().map(|l| (l.window.last - l.window.first) / 2).sum::<u64>());
                prop_assert_eq!(total.longest_seconds, windows().map(|l| l.seconds).max());
                let (first, last): (Vec<_>, Vec<_>) = windows().map(|l| (l.window.first_time, l.window.last_time)).unzip();
                prop_assert_eq!(wilfnusk::total_violation_duration(&first, &last), Ok(total.seconds as f64));
                prop_assert_eq!(total.clipped_seconds, total.seconds);
                prop_assert_eq!(total.samples, mask.iter().filter(|&&m| (m == 0) == (kind == Kind::Visible)).count());
            }

            let (from, to) = (a.min(b).min(mask.len() - 1), a.max(b).min(mask.len() - 1));
            let part = Selected { from: Some(p.times[from]), to: Some(p.times[to]), ..whole() };
            let part = Listing::of_mask(&p, part, &mask, 7, VERIFIED).unwrap();
            let met = |l: &&Listed| l.window.last >= from as u64 && l.window.first <= to as u64;
            let windows = |list: Vec<&Listed>| list.iter().map(|l| (l.kind, l.window)).collect::<Vec<_>>();
            prop_assert_eq!(windows(part.rows[0].windows.iter().collect()), windows(row.windows.iter().filter(met).collect()));
            let in_range = |&&j: &&usize| (from..=to).contains(&j);
            prop_assert_eq!(part.all.single_clear_samples, row.single.iter().filter(in_range).count());
            prop_assert_eq!(part.all.violated.samples, mask[from..=to].iter().filter(|&&m| m == 1).count());
            prop_assert_eq!(part.all.visible.samples + part.all.violated.samples, to - from + 1);
        }
        /// The samples and their time of two ranges, one after the other, are those of the whole; the clipped seconds are no more than its seconds.
        #[test]
        fn consecutive_ranges_add_up(mask in prop::collection::vec(0u8..2, 1..120), cut in 0i64..70_000_000_000, gap in 0i64..2) {
            let p = half_seconds(mask.len());
            let (from, to) = (p.times[0], p.times[0] + cut);
            let of = |from, to| Listing::of_mask(&p, Selected { from, to, ..whole() }, &mask, 7, VERIFIED).unwrap().all;
            let (all, parts) = (of(None, None), [of(Some(from), Some(to)), of(Some(to + gap), None)]);
            for kind in [|totals: &Totals| totals.visible.clone(), |totals: &Totals| totals.violated.clone()] {
                let (whole, [a, b]) = (kind(&all), [kind(&parts[0]), kind(&parts[1])]);
                prop_assert!(a.clipped_seconds + b.clipped_seconds <= whole.seconds);
                prop_assert!(a.clipped_seconds <= a.seconds && b.clipped_seconds <= b.seconds);
                // With a gap no sample is in both ranges.
                if gap == 1 {
                    prop_assert_eq!((a.samples + b.samples, a.time + b.time), (whole.samples, whole.time));
                }
            }
            for totals in [&all, &parts[0], &parts[1]] {
                let sum = totals.visible.time_share.zip(totals.violated.time_share).map(|(a, b)| a + b);
                prop_assert!(sum.map_or(totals.samples == 0, |sum| (sum - 1.0).abs() < 1e-15), "{:?}", sum);
            }
        }
    }
}
