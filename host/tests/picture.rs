//! The timeline: well-formed, with an axis that can be read over any span and samples as wide as their steps.
mod common;

use common::{json, Folder};
use roxmltree::{Document, Node};
use std::{collections::HashMap, fs};

/// A picture of one target with a sample at each of these times, marked where a time has an exclamation mark.
fn picture(name: &str, times: &[&str]) -> String {
    let f = Folder::new(&[name], "", "tolerance = 10\n");
    let sun = |time: &str| if time.ends_with('!') { "0,0,1" } else { "0,1,0" };
    let rows = times.iter().map(|time| format!("{},{},0,0,0\n", time.trim_end_matches('!'), sun(time)));
    f.write("e.csv", &format!("time,sun_x,sun_y,sun_z,observer_x,observer_y,observer_z\n{}", rows.collect::<String>()));
    f.run(&["sweep", "plan.toml", "--svg", "w.svg"]).says(0, &["wrote w.svg"]);
    f.read("w.svg")
}

/// Each row's painted area by colour, as shares of the row's band, and how many elements it is drawn with. The whole band is painted, once.
fn painted(svg: &Document) -> Vec<(HashMap<String, f64>, usize)> {
    let labels = svg.descendants().filter(|n| n.attribute("text-anchor") == Some("end"));
    let (rows, left): (Vec<_>, Vec<_>) = labels.map(|n| (number(n, "y"), number(n, "x") + 10.0)).unzip();
    let mut painted = vec![(HashMap::new(), 0); rows.len()];
    for n in svg.descendants().filter(|n| n.children().any(|c| c.has_tag_name("title"))) {
        let (y, area) = match n.tag_name().name() {
            "rect" => (number(n, "y"), number(n, "width") * number(n, "height")),
            "path" => outline(n.attribute("d").unwrap()),
            _ => continue,
        };
        // A row's band begins 11 above the line of its name and is 14 high.
        let row = rows.iter().position(|line| (line - 12.0..line + 4.0).contains(&y)).unwrap();
        *painted[row].0.entry(n.attribute("fill").unwrap().to_owned()).or_insert(0.0) += area;
        painted[row].1 += 1;
    }
    for ((areas, _), left) in painted.iter_mut().zip(left) {
        let band = 14.0 * (1000.0 - 48.0 - left);
        areas.values_mut().for_each(|area| *area /= band);
        let all: f64 = areas.values().sum();
        assert!((all - 1.0).abs() < 0.001, "{} of the band is painted: {:?}", all, areas);
    }
    painted
}

/// The least height and the area of boxes such as M1 2h3v4h-3z.
fn outline(d: &str) -> (f64, f64) {
    let boxes: Vec<Vec<f64>> = d
        .split('M')
        .skip(1)
        .map(|one| one.trim_end_matches('z').split([' ', 'h', 'v']).map(|number| number.parse().unwrap()).collect())
        .collect();
    assert!(boxes.iter().all(|b| b.len() == 5 && b[2] == -b[4] && b[2] > 0.0 && b[3] > 0.0), "{}", d);
    (boxes.iter().map(|b| b[1]).fold(f64::INFINITY, f64::min), boxes.iter().map(|b| b[2] * b[3]).sum())
}

/// The relative luminance of a colour such as #3a8f7b, and the contrast of two: as the guidelines for readable web pages (WCAG 2) define them.
fn luminance(colour: &str) -> f64 {
    let part = |i: usize| {
        let c = f64::from(u8::from_str_radix(&colour[i..i + 2], 16).unwrap()) / 255.0;
        if c <= 0.04045 {
            c / 12.92
        } else {
            ((c + 0.055) / 1.055).powf(2.4)
        }
    };
    0.2126 * part(1) + 0.7152 * part(3) + 0.0722 * part(5)
}
fn contrast(a: &str, b: &str) -> f64 {
    let (a, b) = (luminance(a), luminance(b));
    (a.max(b) + 0.05) / (a.min(b) + 0.05)
}

/// The colour beside a word of the legend.
fn colour_of(svg: &Document, word: &str) -> String {
    let text = svg.descendants().find(|n| n.has_tag_name("text") && n.text() == Some(word)).unwrap();
    let swatch = text.prev_siblings().find(|n| n.has_tag_name("rect")).unwrap();
    swatch.attribute("fill").unwrap().to_owned()
}

fn of_docs(name: &str) -> String {
    fs::read_to_string(format!("{}/../docs/{}", env!("CARGO_MANIFEST_DIR"), name)).unwrap()
}

fn number(node: Node, name: &str) -> f64 {
    node.attribute(name).unwrap().parse().unwrap()
}

/// The bands of the only target: colour, left end and width.
fn bands<'a>(svg: &'a Document) -> Vec<(&'a str, f64, f64)> {
    let rects = svg.descendants().filter(|n| n.has_tag_name("rect") && n.children().any(|c| c.has_tag_name("title")));
    rects.map(|n| (n.attribute("fill").unwrap(), number(n, "x"), number(n, "width"))).collect()
}

/// The lines of labels, from above: height, and each label's place and text.
fn labels<'a>(svg: &'a Document) -> Vec<(f64, Vec<(f64, &'a str)>)> {
    let mut lines: Vec<(f64, Vec<(f64, &str)>)> = Vec::new();
    for n in svg.descendants().filter(|n| n.attribute("text-anchor") == Some("middle")) {
        let (x, y, text) = (number(n, "x"), number(n, "y"), n.text().unwrap());
        match lines.iter_mut().find(|line| line.0 == y) {
            Some(line) => line.1.push((x, text)),
            None => lines.push((y, vec![(x, text)])),
        }
    }
    lines.sort_by(|a, b| a.0.total_cmp(&b.0));
    lines
}

const DIGIT: f64 = 7.64;

/// The example is the same on every machine, and so is its picture.
#[test]
fn the_picture_in_the_documents_is_the_demo_s() {
    let f = Folder::new(&[], "", "");
    f.run(&["example", "season"]).says(0, &[]);
    f.run(&["sweep", "season/plan.toml", "--svg", "w.svg"]).says(0, &["wrote w.svg"]);
    assert!(
        f.read("w.svg") == of_docs("windows.svg"),
        "docs/windows.svg is not what ./demo draws: put build/demo/windows.svg in its place"
    );
}

#[test]
fn an_axis_above_and_below_with_labels_that_leave_each_other_room() {
    for (first, second) in [
        ("2026-03-20T00:00:00Z", "2026-03-20T00:00:00.000000010Z"),
        ("2026-03-20T00:00:00.999999Z", "2026-03-20T00:00:01.000003Z"),
        ("2026-03-20T00:00:00Z", "2026-03-20T00:00:00.7Z"),
        ("2026-03-20T23:59:50Z", "2026-03-21T00:00:10Z"),
        ("2026-03-20T00:00:00Z", "2026-03-20T00:30:00Z"),
        ("2026-03-20T20:00:00Z", "2026-03-21T03:00:00Z"),
        ("2026-03-20T00:00:00Z", "2026-03-22T00:00:00Z"),
        ("2026-03-20T00:00:00Z", "2026-04-04T00:00:00Z"),
        ("2026-03-20T00:00:00Z", "2026-05-20T00:00:00Z"),
        ("2026-03-20T00:00:00Z", "2026-08-17T00:00:00Z"),
        ("2026-12-20T00:00:00Z", "2027-06-20T00:00:00Z"),
        ("2026-03-20T00:00:00Z", "2027-03-20T00:00:00Z"),
        ("2026-03-20T00:00:00Z", "2031-03-20T00:00:00Z"),
        ("1970-01-01T00:00:00Z", "2005-01-01T00:00:00Z"),
        ("1843-03-31T16:53:20Z", "2096-10-02T07:06:40Z"),
    ] {
        let text = picture("A", &[first, second]);
        let svg = Document::parse(&text).unwrap();
        let row = svg.descendants().find(|n| n.attribute("text-anchor") == Some("end")).map(|n| number(n, "y")).unwrap();
        let lines = labels(&svg);
        for line in [lines.iter().filter(|line| line.0 < row).last(), lines.iter().find(|line| line.0 > row)] {
            let (_, near) = line.unwrap_or_else(|| panic!("{}: an axis is missing", second));
            assert!((3..30).contains(&near.len()), "{}: {:?}", second, near);
        }
        for (y, line) in &lines {
            for pair in line.windows(2) {
                let ((a, left), (b, right)) = (pair[0], pair[1]);
                let needed = DIGIT * (left.len() + right.len()) as f64 / 2.0 + 4.0;
                assert!(b - a >= needed, "{}: {} and {} collide in the line at {}", second, left, right, y);
            }
            for (x, label) in line {
                let half = DIGIT * label.len() as f64 / 2.0;
                assert!(x - half >= 0.0 && x + half <= 1000.0, "{}: {} leaves the picture", second, label);
            }
        }
    }
}

#[test]
fn long_spans_have_months_and_years() {
    let text = picture("A", &["2026-03-20T00:00:00Z", "2026-08-17T00:00:00Z"]);
    let svg = Document::parse(&text).unwrap();
    let lines = labels(&svg);
    let texts: Vec<Vec<_>> = lines.iter().map(|(_, line)| line.iter().map(|(_, text)| *text).collect()).collect();
    let (months, years) = (vec!["Apr", "May", "Jun", "Jul", "Aug", "Sep", "Oct", "Nov", "Dec", "Jan"], vec!["2026", "2027"]);
    assert_eq!(texts, [years.clone(), months.clone(), months, years]);
    // From April's first line to May's are 30 days of the 300 that are drawn, to June's 31 more.
    let x: Vec<_> = lines[1].1.iter().map(|(x, _)| *x).collect();
    assert!(((x[2] - x[1]) / (x[1] - x[0]) - 31.0 / 30.0).abs() < 0.01, "{:?}", x);

    let text = picture("A", &["2026-03-20T00:00:00Z", "2041-03-20T00:00:00Z"]);
    let svg = Document::parse(&text).unwrap();
    assert!(labels(&svg).iter().all(|(_, line)| line.iter().all(|(_, text)| text.len() == 4 && text.starts_with("20"))));
}

/// Violated, clear alone, violated, clear at the end: four samples, equally wide.
#[test]
fn a_sample_is_as_wide_as_its_step() {
    let minute = |m: usize, mark: &str| format!("2026-03-20T00:0{}:00Z{}", m, mark);
    let times = [minute(0, "!"), minute(1, ""), minute(2, "!"), minute(3, "")];
    let text = picture("A", &times.iter().map(String::as_str).collect::<Vec<_>>());
    let svg = Document::parse(&text).unwrap();
    let mut bands = bands(&svg);
    bands.sort_by(|a, b| a.1.total_cmp(&b.1));
    assert_eq!(bands.len(), 4, "{:?}", bands);
    let (_, first, width) = bands[0];
    for (i, band) in bands.iter().enumerate() {
        assert!((band.1 - (first + i as f64 * width)).abs() < 0.05 && (band.2 - width).abs() < 0.05, "{:?}", bands);
    }
    assert!(width > 200.0);
    let colours: Vec<_> = bands.iter().map(|band| band.0).collect();
    assert!(colours[0] == colours[2] && colours[1] != colours[3] && colours[1] != colours[0], "{:?}", colours);
    assert!(text.contains("single clear sample, in no window"));
}

#[test]
fn a_single_sample_fills_the_picture_and_has_one_label() {
    let text = picture("A", &["2026-03-20T00:00:00Z!"]);
    let svg = Document::parse(&text).unwrap();
    assert!(bands(&svg).len() == 1 && bands(&svg)[0].2 > 500.0);
    let texts: Vec<_> =
        labels(&svg).iter().flat_map(|(_, line)| line.iter().map(|(_, text)| text.to_string()).collect::<Vec<_>>()).collect();
    assert_eq!(texts, ["2026-03-20", "00:00:00", "00:00:00", "2026-03-20"]);
}

#[test]
fn any_name_makes_well_formed_xml() {
    let minute = ["2026-03-20T00:00:00Z", "2026-03-20T00:01:00Z"];
    for name in ["\u{fffe}", "\u{ffff}x", "<a>&amp;]]>'", "\u{1b}[31m\u{7f}\u{85}", "a\n\tb", "\u{1f680}\u{1fffe}"] {
        let text = picture(name, &minute);
        let svg = Document::parse(&text).unwrap_or_else(|e| panic!("{:?}: {}", name, e));
        assert!(!text.contains(|c: char| matches!(c, '\u{fffe}' | '\u{ffff}') || (c.is_control() && c != '\n')), "{:?}", name);
        assert_eq!(bands(&svg).len(), 1);
    }
    let text = picture("<a>&amp;\u{fffe}", &minute);
    let svg = Document::parse(&text).unwrap();
    assert!(svg.descendants().any(|n| n.text() == Some("<a>&amp;\u{fffd}")));
}

#[test]
fn a_long_name_is_cut_and_shown_whole_under_the_pointer() {
    let name = "a name that is far too long for any picture of a thousand pixels ".repeat(4);
    let text = picture(name.trim(), &["2026-03-20T00:00:00Z"]);
    let svg = Document::parse(&text).unwrap();
    let label = svg.descendants().find(|n| n.attribute("text-anchor") == Some("end")).unwrap();
    let shown = label.text().unwrap();
    assert!(
        shown.ends_with('…') && shown.chars().count() < 60 && number(label, "x") >= DIGIT * 0.9 * shown.chars().count() as f64,
        "{}",
        shown
    );
    assert!(label.children().any(|n| n.has_tag_name("title") && n.text() == Some(name.trim())));
}

/// Its windows are days long, but for some.
#[test]
fn each_row_of_the_demo_is_painted_by_its_time_shares() {
    let f = Folder::new(&[], "", "");
    f.run(&["example", "season"]).says(0, &[]);
    f.run(&["sweep", "season/plan.toml", "-q", "--svg", "w.svg", "--json", "w.json"]).says(0, &[]);
    let (text, parsed) = (f.read("w.svg"), json(&f.read("w.json")));
    let svg = Document::parse(&text).unwrap();
    let rows = painted(&svg);
    assert_eq!(rows.len(), 16);
    let violated = colour_of(&svg, "violated");
    for (row, target) in rows.iter().zip(parsed["targets"].as_array().unwrap()) {
        let due = target["totals"]["violated"]["time_share"].as_f64().unwrap();
        assert!((row.0.get(&violated).copied().unwrap_or(0.0) - due).abs() < 1e-4, "{}: {:?} and {}", target["name"], row, due);
    }
}

/// As many samples as a plan may have, two clear and one violated over and over; and one of each, ten samples to a column of pixels. Each row is
/// painted by its shares of the time, with few elements.
#[test]
fn windows_narrower_than_a_pixel_are_painted_by_their_time_shares() {
    let sun = |mark: bool| if mark { "0,0,1" } else { "0,1,0" };
    for (pattern, visible, samples) in [("001", 2.0 / 3.0, 65_536), ("01", 0.0, 8192)] {
        let f = Folder::new(&["A", "B"], "", "tolerance = 10\n");
        let mut text = String::from("time,sun_x,sun_y,sun_z,observer_x,observer_y,observer_z\n");
        for j in 0..samples {
            let (hours, minute, second) = (j / 3600, j / 60 % 60, j % 60);
            let mark = pattern.as_bytes()[j % pattern.len()] == b'1';
            text += &format!("2026-03-20T{:02}:{:02}:{:02}Z,{},0,0,0\n", hours, minute, second, sun(mark));
        }
        f.write("e.csv", &text);
        f.run(&["sweep", "plan.toml", "-q", "--svg", "w.svg"]).says(0, &[]);
        let text = f.read("w.svg");
        assert!(text.len() < 300_000, "{} bytes", text.len());
        let svg = Document::parse(&text).unwrap();
        let share = |row: &HashMap<String, f64>, word: &str| row.get(&colour_of(&svg, word)).copied().unwrap_or(0.0);
        for (row, elements) in painted(&svg) {
            assert!((share(&row, "visible") - visible).abs() < 0.01, "{:?}", row);
            assert!((share(&row, "violated") - 1.0 / pattern.len() as f64).abs() < 0.01, "{:?}", row);
            assert!(elements < 1000, "{} elements", elements);
        }
        assert!(text.contains("heights show their shares of the time"));
    }
}

/// The elements of a row are no more than its columns of pixels and some.
#[test]
fn windows_of_mixed_widths_are_painted_by_their_time_shares() {
    // Runs of 1, 2, 3, .. samples of each kind, then single ones, then long ones.
    let runs = (1..60).chain([1; 400]).chain([300, 1, 500, 2, 1, 1, 4]);
    let marks: String = runs.enumerate().map(|(i, length)| ["0", "1"][i % 2].repeat(length)).collect();
    let f = Folder::new(&["A"], "", "tolerance = 10\n");
    let mut text = String::from("time,sun_x,sun_y,sun_z,observer_x,observer_y,observer_z\n");
    for (j, mark) in marks.chars().enumerate() {
        // Steps of 3 seconds and of 1.
        let at = 2 * j + j % 2;
        let sun = if mark == '1' { "0,0,1" } else { "0,1,0" };
        text += &format!("2026-03-20T{:02}:{:02}:{:02}Z,{},0,0,0\n", at / 3600, at / 60 % 60, at % 60, sun);
    }
    f.write("e.csv", &text);
    f.run(&["sweep", "plan.toml", "-q", "--svg", "w.svg", "--json", "w.json"]).says(0, &[]);
    let (text, parsed) = (f.read("w.svg"), json(&f.read("w.json")));
    let svg = Document::parse(&text).unwrap();
    let (row, elements) = &painted(&svg)[0];
    let due = parsed["totals"]["violated"]["time_share"].as_f64().unwrap();
    assert!((row[&colour_of(&svg, "violated")] - due).abs() < 0.001, "{:?} and {}", row, due);
    assert!(*elements < 1000, "{} elements", elements);
}

#[test]
fn the_two_kinds_differ_in_grey_print_and_every_text_is_dark_enough() {
    let text = of_docs("windows.svg");
    let svg = Document::parse(&text).unwrap();
    let (visible, violated) = (colour_of(&svg, "visible"), colour_of(&svg, "violated"));
    assert!(contrast(&visible, &violated) >= 3.0, "{} and {}: {:.2}", visible, violated, contrast(&visible, &violated));
    for name in ["windows.svg", "frame.svg"] {
        let text = of_docs(name);
        let svg = Document::parse(&text).unwrap();
        let title = svg.root_element().first_element_child().unwrap();
        assert!(title.has_tag_name("title") && title.text().map_or(false, |text| !text.is_empty()), "{} has no title", name);
        for n in svg.descendants().filter(|n| n.has_tag_name("text")) {
            let colour = n.attribute("fill").unwrap();
            assert!(contrast(colour, "#ffffff") >= 4.5, "{}: {:?} in {}: {:.2}", name, n.text(), colour, contrast(colour, "#ffffff"));
        }
    }
}

/// So they all differ from the visible colour in grey print.
#[test]
fn severities_are_darker_than_the_violated_colour() {
    let f = Folder::new(&["A"], "", "tolerance = 10\nconfigured_roll = 0\n");
    let turn =
        |j: usize, angle: f64| format!("2026-03-20T00:0{}:00Z,0,{},{},0,0,0\n", j, angle.to_radians().cos(), angle.to_radians().sin());
    let rows = [11.0, 0.0, 0.0, 90.0, 0.0, 0.0, 180.0].iter().enumerate().map(|(j, &angle)| turn(j, angle));
    f.write("e.csv", &format!("time,sun_x,sun_y,sun_z,observer_x,observer_y,observer_z\n{}", rows.collect::<String>()));
    let text = f.run(&["windows", "plan.toml", "--evaluate", "--svg", "-"]).stdout;
    let svg = Document::parse(&text).unwrap();
    let visible = colour_of(&svg, "visible");
    let shades: Vec<_> = bands(&svg).into_iter().map(|(colour, ..)| colour).filter(|colour| *colour != visible).collect();
    assert_eq!(shades.len(), 3);
    assert!(shades.iter().all(|colour| contrast(colour, &visible) >= 3.0), "{:?}", shades);
    assert!(shades.windows(2).all(|pair| luminance(pair[0]) > luminance(pair[1])), "{:?}", shades);
}

#[test]
fn a_picture_of_more_than_400_targets_is_refused_before_any_work() {
    let names: Vec<_> = (0..401).map(|i| format!("T{:03}", i)).collect();
    let f = Folder::new(&names.iter().map(String::as_str).collect::<Vec<_>>(), "01", "tolerance = 10\n");
    let before = f.all();
    let says = "--svg w.svg: a picture of 401 targets would be too tall to read; allowed: at most 400; select some with --target, \
        which takes names and patterns such as 'M *'";
    f.run(&["sweep", "plan.toml", "--svg", "w.svg"]).says(2, &[says]);
    assert!(f.all() == before, "the sweep was begun");
    let f = f.swept();
    f.run(&["windows", "plan.toml", "--svg", "w.svg"]).says(2, &[says]);
    f.run(&["windows", "plan.toml", "--svg", "-"]).says(2, &["--svg -: a picture of 401 targets"]);
    f.run(&["windows", "plan.toml", "-q", "--svg", "w.svg", "--target", "T[0123]*"]).says(0, &["wrote w.svg"]);
    let text = f.read("w.svg");
    assert_eq!(painted(&Document::parse(&text).unwrap()).len(), 400);
}
