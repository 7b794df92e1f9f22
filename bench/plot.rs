// Draws the counts: instructions a byte, by kind of piece and by size, on scales by powers of ten.
use crate::{each, kinds, Line, Three, WHO};

const WIDTH: f64 = 1000.0;
const LABELS: f64 = 185.0; // where the names of kinds end
const PANEL: f64 = 385.0; // the width of a panel of kinds
const GAP: f64 = 25.0; // between two panels
const ROW: f64 = 15.5; // the height of a row of kinds
const HEADING: f64 = 24.0; // of a group of kinds
const TOP: f64 = 138.0;
const SIZES: f64 = 300.0; // the height of the panel of sizes

// Colours, the dark ones where the reader's page is dark.
const STYLE: &str = "
    text { font: 12px system-ui, sans-serif; fill: #24292f }
    .title { font-size: 18px; font-weight: 600 }
    .group { font-weight: 600 }
    .tick, .note { fill: #57606a; font-size: 11px }
    .page { fill: #ffffff }
    .grid { stroke: #d8dee4; stroke-width: 1 }
    .row { stroke: #eaeef2; stroke-width: 1 }
    .less { stroke: #afb8c1; stroke-width: 2 }
    .more { stroke: #d1242f; stroke-width: 2 }
    .ours { fill: #0969da; stroke: #0969da }
    .tokenize { fill: #cf5b00; stroke: #cf5b00 }
    .re2c { fill: #1a7f5a; stroke: #1a7f5a }
    polyline.line { fill: none; stroke-width: 2 }
    polyline.refused { stroke-dasharray: 4 4; stroke-width: 1.5 }
    @media (prefers-color-scheme: dark) {
        text { fill: #e6edf3 }
        .tick, .note { fill: #9198a1 }
        .page { fill: #0d1117 }
        .grid { stroke: #30363d }
        .row { stroke: #21262d }
        .less { stroke: #57606a }
        .more { stroke: #f85149 }
        .ours { fill: #58a6ff; stroke: #58a6ff }
        .tokenize { fill: #f0883e; stroke: #f0883e }
        .re2c { fill: #3fb68b; stroke: #3fb68b }
    }
";

// From a range of values to a range of pixels, by powers of ten.
struct Scale {
    values: (f64, f64),
    pixels: (f64, f64),
}

impl Scale {
    fn at(&self, value: f64) -> f64 {
        let share = (value / self.values.0).ln() / (self.values.1 / self.values.0).ln();
        self.pixels.0 + share * (self.pixels.1 - self.pixels.0)
    }

    // These steps by each power of ten, as far as the values go.
    fn ticks(&self, steps: &[f64]) -> Vec<f64> {
        let all = (-2..7).flat_map(|power| steps.iter().map(move |step| step * 10f64.powi(power)));
        all.filter(|tick| (self.values.0..=self.values.1).contains(tick)).collect()
    }
}

fn text(x: f64, y: f64, class: &str, anchor: &str, content: &str) -> String {
    let content = content.replace('&', "&amp;").replace('<', "&lt;");
    format!("<text x=\"{x:.1}\" y=\"{y:.1}\" class=\"{class}\" text-anchor=\"{anchor}\">{content}</text>\n")
}

fn line(from: (f64, f64), to: (f64, f64), class: &str) -> String {
    format!("<line x1=\"{:.1}\" y1=\"{:.1}\" x2=\"{:.1}\" y2=\"{:.1}\" class=\"{class}\"/>\n", from.0, from.1, to.0, to.1)
}

// A circle for ours, a diamond for tokenize, a square for the peer: the forms tell them apart without colours.
fn mark(who: usize, x: f64, y: f64) -> String {
    let class = WHO[who];
    match who {
        0 => format!("<circle cx=\"{x:.1}\" cy=\"{y:.1}\" r=\"4.5\" class=\"{class}\"/>\n"),
        1 => format!("<path d=\"M{:.1} {y:.1}l5 -5 5 5 -5 5z\" class=\"{class}\"/>\n", x - 5.0),
        _ => format!("<rect x=\"{:.1}\" y=\"{:.1}\" width=\"7\" height=\"7\" class=\"{class}\"/>\n", x - 3.5, y - 3.5),
    }
}

fn legend(x: f64, y: f64) -> String {
    let names = ["ergo_tokenize", "the published tokenize", "a lexer by re2c"];
    let at = [0.0, 125.0, 295.0];
    let mut out: String = (0..3).map(|who| mark(who, x + at[who], y) + &text(x + at[who] + 11.0, y + 4.0, "", "start", names[who])).collect();
    for (class, at, name) in [("less", 430.0, "ergo_tokenize takes less than tokenize"), ("more", 720.0, "it takes more")] {
        out += &line((x + at, y), (x + at + 20.0, y), class);
        out += &text(x + at + 27.0, y + 4.0, "", "start", name);
    }
    out
}

// A number without zeros that say nothing.
fn short(x: f64) -> String {
    if x >= 1000.0 {
        format!("{:.0},000", x / 1000.0)
    } else {
        format!("{x}")
    }
}

fn bar(ours: f64, theirs: f64) -> &'static str {
    if ours > theirs {
        "more"
    } else {
        "less"
    }
}

// One row of one panel: the three marks, and a bar from ours to tokenize's.
fn marks(values: Three, scale: &Scale, y: f64) -> String {
    let mut out = String::new();
    if let (Some(ours), Some(theirs)) = (values[0], values[1]) {
        out += &line((scale.at(ours), y), (scale.at(theirs), y), bar(ours, theirs));
    }
    for who in [1, 2, 0] {
        out += &values[who].map_or(String::new(), |x| mark(who, scale.at(x), y));
    }
    out
}

// The range of all values, up to whole steps.
fn range(values: impl Iterator<Item = f64>) -> (f64, f64) {
    let (low, high) = values.fold((f64::MAX, 0.0), |(low, high): (f64, f64), x| (low.min(x), high.max(x)));
    (low * 0.8, high * 1.25)
}

fn scales(lines: &[Line]) -> [Scale; 2] {
    let values = range(lines.iter().filter(|line| line.group != "sizes").flat_map(|line| each(line, &line.accepted)).flatten());
    [LABELS + 10.0, LABELS + 10.0 + PANEL + GAP].map(|left| Scale { values, pixels: (left, left + PANEL) })
}

fn columns(scales: &[Scale; 2], top: f64, bottom: f64) -> String {
    let mut out = String::new();
    for (scale, name) in scales.iter().zip(["short form", "long form"]) {
        out += &text(scale.pixels.0, top - 26.0, "group", "start", name);
        for tick in scale.ticks(&[1.0, 2.0, 5.0]) {
            let x = scale.at(tick);
            out += &line((x, top - 4.0), (x, bottom), "grid");
            out += &text(x, top - 10.0, "tick", "middle", &short(tick));
            out += &text(x, bottom + 14.0, "tick", "middle", &short(tick));
        }
    }
    out
}

// The two panels of kinds, and where they end.
fn by_kind(lines: &[Line], top: f64) -> (String, f64) {
    let (kinds, scales) = (kinds(lines), scales(lines));
    let (mut rows, mut y, mut group) = (String::new(), top, "");
    for kind in &kinds {
        if kind.group != group {
            y += HEADING;
            rows += &text(10.0, y, "group", "start", kind.group);
            group = kind.group;
        }
        y += ROW;
        rows += &text(LABELS, y + 4.0, "", "end", kind.name);
        for (scale, form) in scales.iter().zip(kind.forms) {
            rows += &line((scale.pixels.0, y), (scale.pixels.1, y), "row");
            rows += &form.map_or(String::new(), |line| marks(each(line, &line.accepted), scale, y));
        }
    }
    let bottom = y + ROW;
    (columns(&scales, top, bottom) + &rows, bottom + 20.0)
}

fn curve(points: &[(f64, f64)], class: &str) -> String {
    let list: Vec<String> = points.iter().map(|(x, y)| format!("{x:.1},{y:.1}")).collect();
    format!("<polyline points=\"{}\" class=\"{class}\"/>\n", list.join(" "))
}

// The panel of sizes: each size at an equal distance, refused ones by broken lines.
fn by_size(lines: &[Line], top: f64) -> String {
    let sizes: Vec<&Line> = lines.iter().filter(|line| line.group == "sizes").collect();
    let values = range(sizes.iter().flat_map(|line| each(line, &line.accepted).into_iter().chain(each(line, &line.refused))).flatten());
    let scale = Scale { values, pixels: (top + SIZES, top) };
    let (left, right) = (LABELS + 10.0, LABELS + 10.0 + 2.0 * PANEL + GAP);
    let x = |at: usize| left + 30.0 + (right - left - 60.0) * at as f64 / (sizes.len().max(2) - 1) as f64;
    let mut out = String::new();
    for tick in scale.ticks(&[1.0, 2.0, 5.0]) {
        out += &line((left, scale.at(tick)), (right, scale.at(tick)), "grid");
        out += &text(left - 8.0, scale.at(tick) + 4.0, "tick", "end", &short(tick));
    }
    for (at, line) in sizes.iter().enumerate() {
        out += &text(x(at), top + SIZES + 18.0, "tick", "middle", &line.name);
    }
    for who in [1, 2, 0] {
        let points = |three: fn(&Line) -> &Three| -> Vec<(f64, f64)> {
            let values = sizes.iter().enumerate().filter_map(|(at, line)| Some((x(at), scale.at(each(line, three(line))[who]?))));
            values.collect()
        };
        let (accepted, refused) = (points(|line| &line.accepted), points(|line| &line.refused));
        out += &curve(&refused, &format!("{} line refused", WHO[who]));
        out += &curve(&accepted, &format!("{} line", WHO[who]));
        out += &accepted.iter().map(|&(x, y)| mark(who, x, y)).collect::<String>();
    }
    out
}

pub fn draw(lines: &[Line]) -> String {
    let (kinds, bottom) = by_kind(lines, TOP);
    let second = bottom + 60.0;
    let height = second + SIZES + 70.0;
    let left = LABELS + 10.0;
    let mut body = text(10.0, 30.0, "title", "start", "Instructions a byte of script");
    body += &text(
        10.0,
        50.0,
        "note",
        "start",
        "Of one call, by bench/count. Each kind of piece stands again and again in a script of 40 kB; further left is less work.",
    );
    body += &legend(15.0, 76.0);
    body += &kinds;
    body += &text(10.0, second - 22.0, "title", "start", "By size, contract text");
    body +=
        &text(left + 60.0, second - 22.0, "note", "start", "Lower is less work. Broken lines: a script of the same size with a refusal at its end.");
    body += &by_size(lines, second);
    format!(
        "<svg xmlns=\"http://www.w3.org/2000/svg\" viewBox=\"0 0 {WIDTH} {height:.0}\" width=\"{WIDTH}\" height=\"{height:.0}\" role=\"img\">\n\
         <title>Instructions a byte of script, by kind of piece and by size</title>\n<style>{STYLE}</style>\n\
         <rect width=\"100%\" height=\"100%\" class=\"page\"/>\n{body}</svg>\n"
    )
}
