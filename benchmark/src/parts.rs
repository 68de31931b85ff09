//! Where a question's time goes, and a plan's: the tables of the program `parts`.

use crate::questions::{lower, Call};

/// The questions whose differences are the parts of a question.
pub const QUESTIONS: [Call; 3] = [Call::File, Call::FileAndTable, Call::Question];

/// The calls that are the parts of a plan, but for its questions, and the plan.
pub const CALLS: [Call; 3] = [Call::Load, Call::Fill, Call::Plan];

/// What each of them took, in nanoseconds or in instructions.
pub struct Figures {
    pub questions: [f64; 3],
    pub calls: [f64; 3],
}

/// The figures of calls that are measured one by one.
pub fn figures(measure: impl Fn(Call) -> f64) -> Figures {
    Figures { questions: QUESTIONS.map(&measure), calls: CALLS.map(&measure) }
}

/// The figures of both sides on one network.
pub struct Measured {
    pub network: &'static str,
    pub planner: Figures,
    pub baseline: Figures,
}

impl Measured {
    /// Keeps the lesser of both figures each.
    pub fn lower(&mut self, again: &Measured) {
        for (least, again) in
            [(&mut self.planner, &again.planner), (&mut self.baseline, &again.baseline)]
        {
            lower(&mut least.questions, &again.questions);
            lower(&mut least.calls, &again.calls);
        }
    }
}

/// File, table, search, and the whole question.
pub fn question(figures: &Figures) -> [f64; 4] {
    let [file, both, whole] = figures.questions;
    [file, both - file, whole - both, whole]
}

/// The load, the fill, the rest, and the whole plan.
pub fn plan(figures: &Figures) -> [f64; 4] {
    let [load, fill, whole] = figures.calls;
    [load, fill, whole - load - fill, whole]
}

/// A table of four columns, the last of which is the sum of the others. The third
/// line of each network has the planner's figures divided by the baseline's.
pub fn table(columns: [&str; 4], measured: &[Measured], split: fn(&Figures) -> [f64; 4]) -> String {
    let columns = columns.join(" | ");
    let mut text = format!("| network | side | {columns} |\n|---|---|---:|---:|---:|---:|\n");
    for Measured { network, planner, baseline } in measured {
        let (planner, baseline) = (split(planner), split(baseline));
        let ratios: [f64; 4] = std::array::from_fn(|column| planner[column] / baseline[column]);
        for (side, cells) in [("planner", planner), ("baseline", baseline)] {
            text += &line(network, side, cells.map(|cell| format!("{cell:.0}")));
        }
        text += &line(network, "ratio", ratios.map(|ratio| format!("{ratio:.2}")));
    }
    text
}

fn line(network: &str, side: &str, cells: [String; 4]) -> String {
    format!("| {network} | {side} | {} |\n", cells.join(" | "))
}

/// The number of instructions in what callgrind prints at its end.
pub fn collected(printed: &str) -> Option<u64> {
    let (_, number) = printed.split_once("Collected : ")?;
    number.split_whitespace().next()?.parse().ok()
}
