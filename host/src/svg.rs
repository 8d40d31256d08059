//! A timeline as SVG: targets down, time across, an axis above and below. Each sample is drawn as wide as its step, to scale: the painted area
//! of a kind is its share of the time. Where windows are narrower than a pixel, a column has the shares of its kinds as heights.
use crate::{
    instant::{self, date_of, days_of, days_since_1970},
    listing::{step, Kind, Listed, Listing, Row},
    text::{counted, grouped, number, printable},
    tolerance::in_words,
};
use std::{
    collections::BTreeMap,
    fmt::Write as _,
    io::{self, Write},
};
use unicode_width::UnicodeWidthChar;

const WIDTH: f64 = 1000.0;
const EDGE: f64 = 24.0;
/// Half of the widest label stands right of the last line.
const RIGHT: f64 = 48.0;
const LINE: f64 = 18.0;
const ROW: f64 = 22.0;
const BAND: f64 = 14.0;
/// Names are cut to this width.
const NAME_MOST: f64 = 300.0;
/// A digit of a label, and the least space between two labels.
const DIGIT: f64 = 7.7;
const BETWEEN: f64 = 12.0;
/// Light and dark, so that they differ in grey print too. Severities go from the violated colour to a darker one.
const VISIBLE: &str = "#66c2a5";
const SINGLE: &str = "#d6efe7";
const VIOLATED: [u8; 3] = [0x9c, 0x32, 0x10];
const WORST: [u8; 3] = [0x32, 0x0c, 0x02];
const INK: &str = "#222222";
const GREY: &str = "#555555";

const SECOND: i64 = 1_000_000_000;
const DAY: i64 = 86_400 * SECOND;

/// More targets than this make a picture that nothing shows and nobody reads.
pub const MOST_TARGETS: usize = 400;

pub fn write(listing: &Listing, mut out: impl Write) -> io::Result<()> {
    out.write_all(picture(listing).as_bytes())
}

fn picture(listing: &Listing) -> String {
    let mut heading = String::new();
    let axis = Axis::of(listing);
    let top = heading_of(&mut heading, listing, &axis) + 3.0 * LINE;
    let bottom = top + ROW * listing.rows.len() as f64;
    let mut svg = format!(
        "<svg xmlns=\"http://www.w3.org/2000/svg\" width=\"{w}\" height=\"{h}\" viewBox=\"0 0 {w} {h}\" \
         font-family=\"DejaVu Sans, Helvetica, Arial, sans-serif\" font-size=\"12\">\n\
         <title>{title}</title>\n\
         <rect width=\"100%\" height=\"100%\" fill=\"#ffffff\"/>\n{heading}",
        title = title_of(listing),
        w = WIDTH,
        h = bottom + 2.0 * LINE + 12.0,
        heading = heading
    );
    axis.outside(&mut svg, listing, top, bottom);
    axis.draw(&mut svg, top, bottom);
    let worst = worst(listing);
    for (i, row) in listing.rows.iter().enumerate() {
        bands(&mut svg, listing, &axis, row, top + ROW * i as f64, worst);
    }
    svg + "</svg>\n"
}

fn worst(listing: &Listing) -> f64 {
    listing.rows.iter().flat_map(|r| &r.windows).map(|l| l.window.severity).fold(0.0, f64::max)
}

fn title_of(listing: &Listing) -> &'static str {
    if listing.has_severities() {
        "Windows at the configured roll"
    } else {
        "Windows of the roll sweep"
    }
}

/// Title, settings, times, what part it is, and the colours. Where they end.
fn heading_of(svg: &mut String, listing: &Listing, axis: &Axis) -> f64 {
    let plan = listing.plan;
    let title = title_of(listing);
    let mut y = EDGE;
    let _ = writeln!(svg, "<text x=\"{}\" y=\"{}\" font-size=\"16\" font-weight=\"bold\" fill=\"{}\">{}</text>", EDGE, y, INK, title);
    let mut about = format!("{}, {}", counted(plan.names.len(), "target"), counted(plan.times.len(), "time"));
    about += &match plan.configured_roll {
        Some(roll) => format!(", roll {}°", number(roll)),
        None => format!(", {}", plan.rolls.in_words("°")),
    };
    about += &format!(", tolerance {}", in_words(&plan.tolerances, "°"));
    if listing.has_severities() {
        about += &format!("; darkest: severity {:.3}°", worst(listing));
    }
    let mut lines = vec![(about, GREY)];
    if let (Some(&first), Some(&last)) = (plan.times.first(), plan.times.last()) {
        let digits = instant::digits([first, last]);
        let to = if last > first { format!(" to {}", instant::format(last, digits)) } else { String::new() };
        lines.push((format!("{}{}, UTC", instant::format(first, digits), to), GREY));
    }
    if let Some(part) = listing.part() {
        lines.push((format!("Part of the plan: {}", part), INK));
    }
    let is_narrow = |piece: &Piece| axis.is_narrow(&plan.times, piece);
    if listing.rows.iter().any(|row| pieces(row).iter().any(is_narrow)) {
        lines.push(("Where windows are narrower than a pixel, heights show their shares of the time.".into(), INK));
    }
    if let Some(note) = listing.unverified() {
        lines.push((note.replacen("not", "Not", 1), INK));
    }
    for (line, color) in lines {
        y += LINE;
        let _ = writeln!(svg, "<text x=\"{}\" y=\"{}\" fill=\"{}\">{}</text>", EDGE, y, color, escaped(&line));
    }
    let mut legend = vec![(VISIBLE.to_owned(), "visible"), (shade(0.0, 0.0), "violated")];
    if listing.all.single_clear_samples > 0 {
        legend.push((SINGLE.to_owned(), "single clear sample, in no window"));
    }
    let mut x = WIDTH - EDGE;
    for (color, word) in legend.into_iter().rev() {
        x -= width_of(word) + 40.0;
        let _ = writeln!(svg, "<rect x=\"{:.1}\" y=\"14\" width=\"14\" height=\"12\" fill=\"{}\"/>", x, color);
        let _ = writeln!(svg, "<text x=\"{:.1}\" y=\"24\" fill=\"{}\">{}</text>", x + 20.0, INK, word);
    }
    y
}

/// The colour of a violated window: the darker, the nearer its severity is to the worst, in 16 shades.
fn shade(severity: f64, worst: f64) -> String {
    let dark = if worst > 0.0 { (16.0 * severity / worst).round() / 16.0 } else { 0.0 };
    let mixed = |k: usize| (f64::from(VIOLATED[k]) * (1.0 - dark) + f64::from(WORST[k]) * dark).round() as u8;
    format!("#{:02x}{:02x}{:02x}", mixed(0), mixed(1), mixed(2))
}

/// What is drawn of a row: a window, or a clear sample that is in none.
enum Piece<'a> {
    Window(&'a Listed),
    Single(usize),
}

/// From above in a column that has several.
#[derive(Clone, Copy)]
enum Layer {
    Visible,
    Single,
    Violated,
}

impl Piece<'_> {
    /// Its first and last sample.
    fn samples(&self) -> (usize, usize) {
        match self {
            Piece::Window(listed) => (listed.window.first as usize, listed.window.last as usize),
            Piece::Single(j) => (*j, *j),
        }
    }
    fn layer(&self) -> Layer {
        match self {
            Piece::Window(listed) if listed.kind == Kind::Violated => Layer::Violated,
            Piece::Window(_) => Layer::Visible,
            Piece::Single(_) => Layer::Single,
        }
    }
    fn severity(&self) -> f64 {
        match self {
            Piece::Window(listed) => listed.window.severity,
            Piece::Single(_) => 0.0,
        }
    }
    /// What is shown where the pointer rests on it.
    fn words(&self, listing: &Listing) -> String {
        let time = |t| instant::format(t, instant::digits([t]));
        let listed = match self {
            Piece::Window(listed) => listed,
            Piece::Single(j) => return format!("clear at {} alone, in no window", time(listing.plan.times[*j])),
        };
        let (w, is_severe) = (&listed.window, listing.has_severities() && listed.kind == Kind::Violated);
        let severity = if is_severe { format!(", severity {}°", w.severity) } else { String::new() };
        format!("{} {} to {}, {} s{}", listed.kind.word(), time(w.first_time), time(w.last_time), grouped(listed.seconds), severity)
    }
}

impl Layer {
    fn colour(self, severity: f64, worst: f64) -> String {
        match self {
            Layer::Visible => VISIBLE.into(),
            Layer::Single => SINGLE.into(),
            Layer::Violated => shade(severity, worst),
        }
    }
    fn word(self) -> &'static str {
        match self {
            Layer::Visible => "visible",
            Layer::Single => "clear alone, in no window",
            Layer::Violated => "violated",
        }
    }
}

/// A row's pieces in the order of time; none overlaps another.
fn pieces<'a>(row: &'a Row) -> Vec<Piece<'a>> {
    let mut pieces: Vec<_> = row.windows.iter().map(Piece::Window).chain(row.single.iter().copied().map(Piece::Single)).collect();
    pieces.sort_by_key(|piece| piece.samples().0);
    pieces
}

/// A target's name and its windows.
fn bands(svg: &mut String, listing: &Listing, axis: &Axis, row: &Row, y: f64, worst: f64) {
    let times = &listing.plan.times;
    let name = printable(row.name);
    let tolerance = if listing.has_tolerances { format!(": tolerance {}°", number(row.tolerance)) } else { String::new() };
    let _ = writeln!(
        svg,
        "<text x=\"{:.1}\" y=\"{:.1}\" text-anchor=\"end\" fill=\"{}\">{}<title>{}{}</title></text>",
        axis.left - 10.0,
        y + ROW / 2.0 + 4.0,
        INK,
        escaped(&cut(&name)),
        escaped(&name),
        tolerance
    );
    let top = y + (ROW - BAND) / 2.0;
    let mut narrow = Narrow { top, worst, column: None, paths: BTreeMap::new() };
    for piece in pieces(row) {
        let (from, to) = axis.ends(times, &piece);
        if axis.is_narrow(times, &piece) {
            narrow.add(from, to, &piece);
            continue;
        }
        let (from, to) = (rounded(from), rounded(to));
        let _ = writeln!(
            svg,
            "<rect x=\"{}\" y=\"{}\" width=\"{}\" height=\"{}\" fill=\"{}\"><title>{}</title></rect>",
            from,
            top,
            rounded(to - from),
            BAND,
            piece.layer().colour(piece.severity(), worst),
            escaped(&format!("{}: {}", name, piece.words(listing)))
        );
    }
    for ((_, colour), (layer, path)) in narrow.paths() {
        let words = format!("{}: {}, in windows narrower than a pixel", name, layer.word());
        let _ = writeln!(svg, "<path fill=\"{}\" d=\"{}\"><title>{}</title></path>", colour, path, escaped(&words));
    }
}

/// Pieces of a row that are narrower than a pixel, gathered by columns of pixels. In each the layers' heights are their shares of the time.
struct Narrow {
    top: f64,
    worst: f64,
    column: Option<Column>,
    /// The boxes of each layer and colour.
    paths: BTreeMap<(usize, String), (Layer, String)>,
}

/// A column of pixels, or the part of it between two pieces that are wider.
struct Column {
    left: f64,
    right: f64,
    widths: [f64; 3],
    /// The sum of the violated widths, each times its severity.
    severity: f64,
}

impl Narrow {
    fn add(&mut self, from: f64, to: f64, piece: &Piece) {
        let edge = (from.floor() + 1.0).min(to);
        self.add_within(from, edge, piece);
        if edge < to {
            self.add_within(edge, to, piece);
        }
    }
    fn add_within(&mut self, from: f64, to: f64, piece: &Piece) {
        let follows = |column: &Column| column.right == from && from.floor() == column.left.floor();
        if !self.column.as_ref().map_or(false, follows) {
            self.end_column();
        }
        let column = self.column.get_or_insert(Column { left: from, right: from, widths: [0.0; 3], severity: 0.0 });
        column.right = to;
        column.widths[piece.layer() as usize] += to - from;
        column.severity += (to - from) * piece.severity();
    }
    fn end_column(&mut self) {
        let Some(Column { left, right, widths, severity }) = self.column.take() else { return };
        let (left, width) = (rounded(left), rounded(rounded(right) - rounded(left)));
        let all: f64 = widths.iter().sum();
        let mut above = 0.0;
        for layer in [Layer::Visible, Layer::Single, Layer::Violated] {
            let share = widths[layer as usize];
            let (from, to) = (rounded(BAND * above / all), rounded(BAND * (above + share) / all));
            above += share;
            if width > 0.0 && to > from {
                let colour = layer.colour(severity / share, self.worst);
                let (_, path) = self.paths.entry((layer as usize, colour)).or_insert((layer, String::new()));
                let _ = write!(path, "M{} {}h{}v{}h-{}z", left, rounded(self.top + from), width, rounded(to - from), width);
            }
        }
    }
    fn paths(mut self) -> BTreeMap<(usize, String), (Layer, String)> {
        self.end_column();
        self.paths
    }
}

/// A place to a thousandth of a pixel.
fn rounded(x: f64) -> f64 {
    (1000.0 * x).round() / 1000.0
}

/// No drawing ends later, so that no difference of two times overflows.
const LATEST: i64 = 4_600_000_000_000_000_000;

/// Where the drawing of a sample ends.
fn end_of(times: &[i64], j: usize) -> i64 {
    times[j].saturating_add_unsigned(step(times, j)).min(LATEST)
}

/// The time axis.
struct Axis {
    first: i64,
    end: i64,
    left: f64,
    /// A single sample has one label, and none has none.
    samples: usize,
}

/// Two lines of a label: the time of day and the date, the day and the year, or the like.
struct Tick {
    time: i64,
    near: String,
    far: String,
}

impl Axis {
    /// From the first sample to the end of the last; of a part, from the first window or selected time to the last.
    fn of(listing: &Listing) -> Axis {
        let times = &listing.plan.times;
        let longest = listing.rows.iter().map(|row| width_of(&printable(row.name))).fold(0.0, f64::max);
        let left = (EDGE + 10.0 + longest.clamp(30.0, NAME_MOST)).ceil();
        let (mut first, mut end) = match times.len() {
            0 => (0, SECOND),
            n => (times[0], end_of(times, n - 1)),
        };
        let samples = listing.selected.samples(times);
        let windows = || listing.rows.iter().flat_map(|row| &row.windows).map(|l| (l.window.first as usize, l.window.last as usize));
        let from = windows().map(|(from, _)| from).chain(samples.clone().next()).min();
        let to = windows().map(|(_, to)| to).chain(samples.last()).max();
        if let (Some(from), Some(to)) = (from, to) {
            (first, end) = (times[from], end_of(times, to));
        }
        Axis { first, end, left, samples: times.len() }
    }
    fn x(&self, time: i64) -> f64 {
        self.left + (time - self.first) as f64 / (self.end - self.first) as f64 * (WIDTH - RIGHT - self.left)
    }
    /// Where a piece begins and ends.
    fn ends(&self, times: &[i64], piece: &Piece) -> (f64, f64) {
        let (first, last) = piece.samples();
        (self.x(times[first]), self.x(end_of(times, last)))
    }
    fn is_narrow(&self, times: &[i64], piece: &Piece) -> bool {
        let (from, to) = self.ends(times, piece);
        to - from < 1.0
    }
    /// What lies outside the selected times is shaded.
    fn outside(&self, svg: &mut String, listing: &Listing, top: f64, bottom: f64) {
        let times = listing.selected.times();
        for (from, to) in [(self.first, (*times.start()).min(self.end)), ((*times.end()).max(self.first), self.end)] {
            if from < to {
                let (x, width) = (self.x(from), self.x(to) - self.x(from));
                let _ = writeln!(
                    svg,
                    "<rect x=\"{:.2}\" y=\"{}\" width=\"{:.2}\" height=\"{}\" fill=\"#eeeeee\"/>",
                    x,
                    top,
                    width,
                    bottom - top
                );
            }
        }
    }
    /// Lines at round times, with labels above and below.
    fn draw(&self, svg: &mut String, top: f64, bottom: f64) {
        let ticks = self.ticks();
        let mut label = |x: f64, y: f64, text: &str| {
            if !text.is_empty() {
                let _ = writeln!(svg, "<text x=\"{:.1}\" y=\"{:.1}\" text-anchor=\"middle\" fill=\"{}\">{}</text>", x, y, GREY, text);
            }
        };
        let (near, far) = ([top - 12.0, bottom + 20.0], [top - 12.0 - 15.0, bottom + 20.0 + 15.0]);
        for i in 0..2 {
            for tick in &ticks {
                label(self.x(tick.time), near[i], &tick.near);
                label(self.x(tick.time), far[i], &tick.far);
            }
        }
        for tick in &ticks {
            let _ = writeln!(
                svg,
                "<line x1=\"{0:.1}\" y1=\"{1}\" x2=\"{0:.1}\" y2=\"{2:.1}\" stroke=\"#dddddd\"/>",
                self.x(tick.time),
                top - 6.0,
                bottom + 6.0
            );
        }
    }
    /// The finest round times whose labels leave each other room.
    fn ticks(&self) -> Vec<Tick> {
        if self.samples == 0 {
            return vec![];
        }
        if self.samples == 1 {
            return vec![Step::Nanos(if self.first % SECOND == 0 { SECOND } else { 1 }).tick(self.first)];
        }
        let steps = steps();
        let fitting = steps.iter().filter(|step| (self.end - self.first) / step.length() <= 100).find_map(|step| {
            let ticks: Vec<_> = step.times(self.first, self.end).map(|time| step.tick(time)).collect();
            let apart = |pair: &[Tick]| self.apart(&pair[0], &pair[1], |tick| &tick.near);
            Some(ticks).filter(|ticks| ticks.windows(2).all(apart))
        });
        let mut ticks = fitting.unwrap_or_default();
        // The second line stands where it changes, and at the first if it has room there.
        let mut kept: Option<usize> = None;
        for i in (0..ticks.len()).rev() {
            let changes = i == 0 || ticks[i - 1].far != ticks[i].far;
            if changes && kept.map_or(true, |right| self.apart(&ticks[i], &ticks[right], |tick| &tick.far)) {
                kept = Some(i);
            } else {
                ticks[i].far.clear();
            }
        }
        // A label that would leave the picture is left out; its line stays.
        for tick in &mut ticks {
            let x = self.x(tick.time);
            for text in [&mut tick.near, &mut tick.far] {
                if x - half(text) < 0.0 || x + half(text) > WIDTH {
                    text.clear();
                }
            }
        }
        ticks
    }
    fn apart(&self, left: &Tick, right: &Tick, text: fn(&Tick) -> &String) -> bool {
        self.x(right.time) - self.x(left.time) >= half(text(left)) + half(text(right)) + BETWEEN
    }
}

/// Half of the width of a label.
fn half(label: &str) -> f64 {
    DIGIT * label.len() as f64 / 2.0
}

/// Round times: so many nanoseconds apart, at these days of each month, or so many months apart.
enum Step {
    Nanos(i64),
    Days(Vec<i64>),
    Months(i64),
}

/// From the finest to the coarsest.
fn steps() -> Vec<Step> {
    let mut steps = Vec::new();
    for k in 0..9 {
        steps.extend([1, 2, 5].map(|n| Step::Nanos(n * 10_i64.pow(k))));
    }
    steps.extend([1, 2, 5, 10, 15, 30].map(|n| Step::Nanos(n * SECOND)));
    steps.extend([1, 2, 5, 10, 15, 30].map(|n| Step::Nanos(n * 60 * SECOND)));
    steps.extend([1, 2, 3, 6, 12].map(|n| Step::Nanos(n * 3600 * SECOND)));
    steps.extend([(1..=31).collect(), vec![1, 6, 11, 16, 21, 26], vec![1, 11, 21], vec![1, 16]].map(Step::Days));
    steps.extend([1, 2, 3, 6, 12, 24, 60, 120, 240, 600, 1200].map(Step::Months));
    steps
}

const MONTHS: [&str; 12] = ["Jan", "Feb", "Mar", "Apr", "May", "Jun", "Jul", "Aug", "Sep", "Oct", "Nov", "Dec"];

impl Step {
    /// About how long it is.
    fn length(&self) -> i64 {
        match self {
            Step::Nanos(n) => *n,
            Step::Days(days) => 30 * DAY / days.len() as i64,
            Step::Months(n) => 30 * DAY * n,
        }
    }
    /// Its times from first to end.
    fn times(&self, first: i64, end: i64) -> impl Iterator<Item = i64> {
        let all: Vec<i64> = match self {
            Step::Nanos(step) => (first.div_euclid(*step)..=end.div_euclid(*step)).map(|k| k * step).collect(),
            Step::Days(days) => days_of_months(first, end, 1, days),
            Step::Months(every) => days_of_months(first, end, *every, &[1]),
        };
        all.into_iter().filter(move |time| (first..=end).contains(time))
    }
    fn tick(&self, time: i64) -> Tick {
        let digits = if let Step::Nanos(step) = self { instant::digits([*step]) } else { 0 };
        let text = instant::format(time, digits);
        let (day, clock) = (&text[..10], &text[11..text.len() - 1]);
        let minute = format!("{} {}", day, &clock[..5]);
        let month = MONTHS[date_of(time.div_euclid(DAY)).1 as usize - 1];
        let (near, far) = match self {
            Step::Nanos(step) if step % (60 * SECOND) == 0 => (&clock[..5], day),
            Step::Nanos(step) if step % SECOND == 0 => (clock, day),
            Step::Nanos(_) => (&clock[6..], &minute[..]),
            Step::Days(_) => (&day[5..], &day[..4]),
            Step::Months(n) if n % 12 == 0 => (&day[..4], ""),
            Step::Months(_) => (month, &day[..4]),
        };
        Tick { time, near: near.to_owned(), far: far.to_owned() }
    }
}

/// These days of every so many months, which are counted from January of the year 0.
fn days_of_months(first: i64, end: i64, every: i64, days: &[i64]) -> Vec<i64> {
    let month_of = |time: i64| {
        let (year, month, _) = date_of(time.div_euclid(DAY));
        12 * year + month - 1
    };
    let months = (month_of(first)..=month_of(end)).filter(|month| month % every == 0);
    let of_month = |month: i64| {
        let (year, month) = (month.div_euclid(12), month.rem_euclid(12) + 1);
        days.iter().filter(move |&&day| day <= days_of(year, month)).map(move |day| days_since_1970(year, month, *day) * DAY)
    };
    months.flat_map(of_month).collect()
}

/// About how wide a text is drawn.
fn width_of(text: &str) -> f64 {
    text.chars().map(char_width).sum()
}

fn char_width(c: char) -> f64 {
    match c.width() {
        Some(2) => 12.5,
        Some(0) => 0.0,
        _ if "mwMW@%".contains(c) => 12.0,
        _ if "fijlrtI.,:;'|!()[] ".contains(c) => 5.0,
        _ if c.is_uppercase() => 9.2,
        _ => 7.7,
    }
}

/// A name that is too long is cut.
fn cut(name: &str) -> String {
    if width_of(name) <= NAME_MOST {
        return name.to_owned();
    }
    let mut room = NAME_MOST - char_width('…');
    let fits = |c: &char| {
        room -= char_width(*c);
        room >= 0.0
    };
    name.chars().take_while(fits).chain(['…']).collect()
}

/// Text for XML. A character that XML 1.0 does not have is replaced.
fn escaped(text: &str) -> String {
    let mut safe = String::new();
    for c in text.chars() {
        match c {
            '&' => safe += "&amp;",
            '<' => safe += "&lt;",
            '>' => safe += "&gt;",
            '"' => safe += "&quot;",
            '\t' | '\n' | '\r' | ' '..='\u{d7ff}' | '\u{e000}'..='\u{fffd}' | '\u{10000}'.. => safe.push(c),
            _ => safe.push('\u{fffd}'),
        }
    }
    safe
}

#[cfg(test)]
mod tests {
    use super::*;
    use proptest::prelude::*;

    #[test]
    fn steps_of_days_and_months_follow_the_calendar() {
        let at = |text: &str| instant::parse(text).unwrap();
        let of = |step: Step, first, end| {
            let times = step.times(at(first), at(end));
            times.map(|t| instant::format(t, 0)[..10].to_owned()).collect::<Vec<_>>().join(" ")
        };
        assert_eq!(of(Step::Months(3), "2025-11-30T00:00:00Z", "2026-07-01T00:00:00Z"), "2026-01-01 2026-04-01 2026-07-01");
        assert_eq!(of(Step::Days(vec![1, 11, 21]), "2028-02-15T00:00:00Z", "2028-03-12T00:00:00Z"), "2028-02-21 2028-03-01 2028-03-11");
        assert_eq!(of(Step::Days((1..=31).collect()), "2026-02-27T12:00:00Z", "2026-03-02T00:00:00Z"), "2026-02-28 2026-03-01 2026-03-02");
        assert_eq!(
            of(Step::Months(240), "1843-03-31T16:53:20Z", "1961-01-01T00:00:00Z"),
            "1860-01-01 1880-01-01 1900-01-01 1920-01-01 1940-01-01 1960-01-01"
        );
    }
    #[test]
    fn the_last_sample_is_as_wide_as_the_one_before() {
        assert_eq!([0, 1, 2].map(|j| end_of(&[10, 20, 25], j)), [20, 25, 30]);
        assert_eq!(end_of(&[10], 0), 10 + SECOND);
        let most = 4_000_000_000_000_000_000;
        assert_eq!(end_of(&[-most, most], 1), LATEST);
    }
    #[test]
    fn characters_that_xml_lacks_are_replaced() {
        let text: String = ('\0'..='\u{10ffff}').collect();
        for c in escaped(&text).chars() {
            assert!(matches!(c, '\t' | '\n' | '\r' | ' '..='\u{d7ff}' | '\u{e000}'..='\u{fffd}' | '\u{10000}'..), "{:?}", c);
        }
        assert_eq!(escaped("<\u{0}\u{fffe}&\""), "&lt;\u{fffd}\u{fffd}&amp;&quot;");
    }
    #[test]
    fn names_are_cut_to_their_width() {
        assert_eq!(cut("Vega"), "Vega");
        for c in ["i", "m", "W", "星", "e\u{301}"] {
            let short = cut(&c.repeat(100));
            assert!(width_of(&short) <= NAME_MOST && (short.ends_with('…') || c == "i"), "{}", short);
        }
    }
    proptest! {
        /// Any span from nanoseconds to the longest: no label leaves the picture or meets its neighbour, and there are some.
        #[test]
        fn labels_leave_each_other_room(first in -4_000_000_000_000_000_000i64..3_000_000_000_000_000_000, size in 0.5..18.0f64, left in 64.0..340.0f64) {
            let axis = Axis { first, end: first + 10f64.powf(size) as i64, left, samples: 2 };
            let ticks = axis.ticks();
            prop_assert!((2..40).contains(&ticks.len()), "{} labels", ticks.len());
            for line in [|tick: &Tick| tick.near.clone(), |tick: &Tick| tick.far.clone()] {
                let labels: Vec<_> = ticks.iter().map(|tick| (axis.x(tick.time), line(tick))).filter(|(_, text)| !text.is_empty()).collect();
                for (x, text) in &labels {
                    prop_assert!(x - half(text) >= 0.0 && x + half(text) <= WIDTH && *x >= left && *x <= WIDTH - RIGHT);
                }
                for pair in labels.windows(2) {
                    prop_assert!(pair[1].0 - pair[0].0 >= half(&pair[0].1) + half(&pair[1].1), "{:?}", pair);
                }
            }
        }
    }
}
