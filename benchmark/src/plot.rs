//! A picture of lines over the number of routers, as an SVG file that needs no
//! other. Both scales are logarithmic, so that a cost that grows by a power is a
//! straight line.

use std::fmt::Write;

/// How a line is drawn, and its name in the legend. The class is one of [`STYLE`].
#[derive(Clone, Copy, Debug, PartialEq, Eq)]
pub struct Look {
    pub name: &'static str,
    pub class: &'static str,
}

/// A line, by its points: routers and cost.
pub struct Line {
    pub look: Look,
    pub points: Vec<(f64, f64)>,
}

/// Lines with one pair of axes.
pub struct Panel {
    pub title: &'static str,
    pub unit: &'static str,
    pub lines: Vec<Line>,
}

const WIDTH: f64 = 960.0;
const HEIGHT: f64 = 420.0;

/// Left of a panel's axes are the labels of its scale; above them are the titles and
/// the legend, below them the numbers of routers, and right of them is a gap.
const LEFT: f64 = 66.0;
const TOP: f64 = 128.0;
const BOTTOM: f64 = 362.0;
const GAP: f64 = 22.0;

/// Both colours can be told apart on white and on black, and by those who see no
/// red or green; the shapes of the marks tell the sides apart without them.
const STYLE: &str = "
  text { font: 13px system-ui, 'Segoe UI', Helvetica, Arial, sans-serif; fill: #1f2328; }
  .title { font-size: 17px; font-weight: 600; }
  .panel { font-size: 14px; font-weight: 600; }
  .small { font-size: 12px; fill: #57606a; }
  .paper { fill: #ffffff; }
  .grid { stroke: #d8dee4; stroke-width: 1; }
  .axis { stroke: #57606a; stroke-width: 1; }
  .line { fill: none; stroke-width: 2; }
  .random { stroke-dasharray: 6 4; }
  .line.planner { stroke: #0969da; }
  .line.baseline { stroke: #c4560a; }
  .mark.planner { fill: #0969da; }
  .mark.baseline { fill: #c4560a; }
  @media (prefers-color-scheme: dark) {
    text { fill: #e6edf3; }
    .small { fill: #9da7b3; }
    .paper { fill: #0d1117; }
    .grid { stroke: #2b323b; }
    .axis { stroke: #9da7b3; }
    .line.planner { stroke: #58a6ff; }
    .line.baseline { stroke: #f0883e; }
    .mark.planner { fill: #58a6ff; }
    .mark.baseline { fill: #f0883e; }
  }
";

/// Where a number lies on a logarithmic scale that goes over some pixels.
struct Scale {
    low: f64,
    high: f64,
    from: f64,
    to: f64,
}

impl Scale {
    fn at(&self, number: f64) -> f64 {
        let share = (number / self.low).ln() / (self.high / self.low).ln();
        self.from + share * (self.to - self.from)
    }
}

/// The numbers 1, 2 and 5 times a power of ten between two costs.
pub fn steps(low: f64, high: f64) -> Vec<f64> {
    let powers = (-9..9).flat_map(|power| [1.0, 2.0, 5.0].map(|step| step * 10f64.powi(power)));
    powers.filter(|step| (low..=high).contains(step)).collect()
}

/// The picture of some panels side by side. The lines of the first name the legend.
pub fn svg(title: &str, subtitle: &str, panels: &[Panel]) -> String {
    let mut text = format!(
        "<svg xmlns=\"http://www.w3.org/2000/svg\" viewBox=\"0 0 {WIDTH} {HEIGHT}\" \
         width=\"{WIDTH}\" height=\"{HEIGHT}\" role=\"img\">\n<title>{title}</title>\n\
         <style>{STYLE}</style>\n\
         <rect class=\"paper\" width=\"{WIDTH}\" height=\"{HEIGHT}\" rx=\"6\"/>\n"
    );
    put_text(&mut text, "title", "start", (20.0, 32.0), title);
    put_text(&mut text, "small", "start", (20.0, 52.0), subtitle);
    if let Some(first) = panels.first() {
        put_legend(&mut text, &first.lines);
    }
    let room = (WIDTH - GAP / 2.0) / panels.len().max(1) as f64;
    for (place, panel) in panels.iter().enumerate() {
        let left = place as f64 * room;
        put_panel(&mut text, panel, left + LEFT, left + room - GAP / 2.0);
    }
    text + "</svg>\n"
}

fn put(text: &mut String, element: std::fmt::Arguments) {
    writeln!(text, "{element}").expect("a string takes all text");
}

fn put_text(text: &mut String, class: &str, anchor: &str, (x, y): (f64, f64), words: &str) {
    let place = format!("x=\"{x:.1}\" y=\"{y:.1}\"");
    put(
        text,
        format_args!("<text class=\"{class}\" text-anchor=\"{anchor}\" {place}>{words}</text>"),
    );
}

fn put_legend(text: &mut String, lines: &[Line]) {
    for (place, line) in lines.iter().enumerate() {
        let left = 20.0 + 190.0 * place as f64;
        let points = [(left, 76.0), (left + 36.0, 76.0)];
        put_line(text, line.look, &points);
        put_mark(text, line.look, (left + 18.0, 76.0));
        put_text(text, "name", "start", (left + 44.0, 80.5), line.look.name);
    }
}

/// The scale of some numbers, with a margin so that no mark lies on an axis.
fn scale(numbers: &[f64], from: f64, to: f64) -> Scale {
    let low = numbers.iter().copied().fold(f64::INFINITY, f64::min);
    let high = numbers.iter().copied().fold(0.0, f64::max);
    Scale { low: low / 1.25, high: high * 1.25, from, to }
}

fn put_panel(text: &mut String, panel: &Panel, left: f64, right: f64) {
    let points = panel.lines.iter().flat_map(|line| &line.points);
    let (mut sizes, costs): (Vec<f64>, Vec<f64>) = points.copied().unzip();
    sizes.sort_by(f64::total_cmp);
    sizes.dedup();
    let (x, y) = (scale(&sizes, left, right), scale(&costs, BOTTOM, TOP));
    put_text(text, "panel", "start", (left, TOP - 16.0), panel.title);
    put_axes(text, &x, &y, &sizes);
    let (side, middle) = (left - 46.0, (TOP + BOTTOM) / 2.0);
    put(text, format_args!("<g transform=\"translate({side:.1} {middle:.1}) rotate(-90)\">"));
    put_text(text, "small", "middle", (0.0, 0.0), panel.unit);
    put(text, format_args!("</g>"));
    for line in &panel.lines {
        let places: Vec<_> = line.points.iter().map(|(a, b)| (x.at(*a), y.at(*b))).collect();
        put_line(text, line.look, &places);
        places.iter().for_each(|place| put_mark(text, line.look, *place));
    }
}

/// The axes, a line for each step of the scale, and the numbers of both.
fn put_axes(text: &mut String, x: &Scale, y: &Scale, sizes: &[f64]) {
    let (left, right) = (x.from, x.to);
    let rule = |class: &str, (a, b): (f64, f64), (c, d): (f64, f64)| {
        format!("<line class=\"{class}\" x1=\"{a:.1}\" y1=\"{b:.1}\" x2=\"{c:.1}\" y2=\"{d:.1}\"/>")
    };
    for step in steps(y.low, y.high) {
        let height = y.at(step);
        put(text, format_args!("{}", rule("grid", (left, height), (right, height))));
        put_text(text, "small", "end", (left - 7.0, height + 4.0), &format!("{}", shown(step)));
    }
    put(text, format_args!("{}", rule("axis", (left, TOP), (left, BOTTOM))));
    put(text, format_args!("{}", rule("axis", (left, BOTTOM), (right, BOTTOM))));
    for size in sizes {
        let place = x.at(*size);
        put(text, format_args!("{}", rule("axis", (place, BOTTOM), (place, BOTTOM + 5.0))));
        put_text(text, "small", "middle", (place, BOTTOM + 19.0), &format!("{size}"));
    }
    put_text(text, "small", "middle", ((left + right) / 2.0, BOTTOM + 38.0), "routers");
}

/// A step without the traces of its binary fraction.
fn shown(step: f64) -> f64 {
    (step * 1e6).round() / 1e6
}

fn put_line(text: &mut String, look: Look, points: &[(f64, f64)]) {
    let points: Vec<String> = points.iter().map(|(x, y)| format!("{x:.1},{y:.1}")).collect();
    let points = points.join(" ");
    put(text, format_args!("<polyline class=\"line {}\" points=\"{points}\"/>", look.class));
}

/// A disc for the planner, a square for the baseline.
fn put_mark(text: &mut String, look: Look, (x, y): (f64, f64)) {
    let class = look.class;
    if class.starts_with("planner") {
        put(
            text,
            format_args!("<circle class=\"mark {class}\" cx=\"{x:.1}\" cy=\"{y:.1}\" r=\"4\"/>"),
        );
        return;
    }
    let (x, y) = (x - 3.5, y - 3.5);
    let place = format!("x=\"{x:.1}\" y=\"{y:.1}\" width=\"7\" height=\"7\"");
    put(text, format_args!("<rect class=\"mark {class}\" {place}/>"));
}
