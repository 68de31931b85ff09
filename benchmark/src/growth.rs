//! How the cost grows with the network: the tables and the picture of the program
//! `growth`.

use crate::networks;
use crate::plot::{self, Line, Look, Panel};
use crate::questions::{lower, Call};

/// Numbers of routers. There are twice as many links, and twice as many prefixes.
pub const SIZES: [u8; 4] = [8, 16, 32, 64];

/// What is measured: a link question with table, the mean over those of a plan; the
/// fill; a whole plan.
pub const CALLS: [Call; 3] = [Call::Question, Call::Fill, Call::Plan];

/// Makes the file of a network with so many routers.
pub type Maker = fn(u8) -> Vec<u8>;

/// The networks that there are in every size, with how their lines are drawn.
pub const NETWORKS: [(&str, Maker, [Look; 2]); 2] = [
    (
        "ring with chords",
        networks::ring_with_chords_of,
        [
            Look { name: "planner, ring", class: "planner ring" },
            Look { name: "baseline, ring", class: "baseline ring" },
        ],
    ),
    (
        "random",
        networks::random_of,
        [
            Look { name: "planner, random", class: "planner random" },
            Look { name: "baseline, random", class: "baseline random" },
        ],
    ),
];

/// The nanoseconds of [`CALLS`], of the planner and of the baseline.
pub struct Measured {
    pub network: &'static str,
    pub routers: u8,
    pub times: [[f64; 3]; 2],
}

impl Measured {
    /// Keeps the lesser of both times each.
    pub fn lower(&mut self, again: &Measured) {
        lower(self.times.as_flattened_mut(), again.times.as_flattened());
    }
}

/// A line for each network and size.
pub fn table(measured: &[Measured]) -> String {
    let mut text = String::from("| network | routers ");
    for (call, unit) in [("question", "ns"), ("fill", "ns"), ("plan", "µs")] {
        text += &format!("| {call}: planner, {unit} | baseline, {unit} | ratio ");
    }
    text += "|\n|---|---:";
    text += &"|---:".repeat(9);
    text += "|\n";
    for Measured { network, routers, times: [planner, baseline] } in measured {
        text += &format!("| {network} | {routers} ");
        for (call, unit) in [1.0, 1.0, 1000.0].into_iter().enumerate() {
            let (one, other) = (planner[call] / unit, baseline[call] / unit);
            text += &format!("| {one:.0} | {other:.0} | {:.2} ", one / other);
        }
        text += "|\n";
    }
    text
}

/// By how much each cost is multiplied when the routers are doubled.
pub fn factors(measured: &[Measured]) -> String {
    let mut text = String::from("| network | side | routers ");
    text += "| question | fill | plan |\n|---|---|---|---:|---:|---:|\n";
    for (name, _, _) in NETWORKS {
        let rows: Vec<&Measured> = measured.iter().filter(|one| one.network == name).collect();
        for (side, word) in ["planner", "baseline"].into_iter().enumerate() {
            for pair in rows.windows(2) {
                let factor = |call| pair[1].times[side][call] / pair[0].times[side][call];
                let (from, to) = (pair[0].routers, pair[1].routers);
                text += &format!("| {name} | {word} | {from} to {to} ");
                text += &format!("| {:.2} | {:.2} | {:.2} |\n", factor(0), factor(1), factor(2));
            }
        }
    }
    text
}

/// The picture: a panel for each call.
pub fn picture(measured: &[Measured]) -> String {
    let kinds = [
        ("A link question with table", "microseconds per question", 1e3),
        ("The fill of the distances", "microseconds per fill", 1e3),
        ("A whole plan", "milliseconds per plan", 1e6),
    ];
    let panels: Vec<Panel> = kinds
        .into_iter()
        .enumerate()
        .map(|(call, (title, unit, scale))| Panel {
            title,
            unit,
            lines: lines(measured, |times| times[call] / scale),
        })
        .collect();
    let subtitle = "Networks with twice as many links, and twice as many prefixes, as routers. \
                    Both scales are logarithmic; lower is faster.";
    plot::svg("How the cost grows with the network", subtitle, &panels)
}

fn lines(measured: &[Measured], cost: impl Fn(&[f64; 3]) -> f64) -> Vec<Line> {
    let mut lines = Vec::new();
    for (name, _, looks) in NETWORKS {
        for (side, look) in looks.into_iter().enumerate() {
            let rows = measured.iter().filter(|one| one.network == name);
            let points = rows.map(|one| (f64::from(one.routers), cost(&one.times[side])));
            lines.push(Line { look, points: points.collect() });
        }
    }
    lines
}
