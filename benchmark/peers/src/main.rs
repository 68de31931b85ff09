//! The planner's and the baseline's part of `benchmark/compare-peers`, which
//! runs it:
//!
//!     peers FOLDER
//!
//! It writes each network of the benchmark into the folder, as NAME.net, and the
//! planner's plan of it, as NAME.plan, with the spaces of a name as hyphens. It
//! prints the times of both sides: a line for each network and side, with its
//! fields separated by tabs.

use benchmark::baseline::Baseline;
use benchmark::networks::{self, Named};
use benchmark::plan;
use benchmark::planner::Planner;
use benchmark::side::Side;
use benchmark::timing::measure_each;
use planner::ASCENDING_RANKS;
use std::hint::black_box;
use std::path::{Path, PathBuf};

/// Samples of each call, of which the median is printed.
const ROUNDS: usize = 31;

/// A call that is timed.
type Timed<'a> = Box<dyn FnMut() + 'a>;

/// Writes all files before anything is timed.
fn main() {
    let Some(folder) = std::env::args_os().nth(1).map(PathBuf::from) else {
        ended("usage: peers FOLDER".into());
    };
    for network in &networks::all() {
        put(&folder, network).unwrap_or_else(|message| ended(message));
    }
    for network in &networks::all() {
        print_times(network);
    }
}

/// Ends with a message.
fn ended(message: String) -> ! {
    eprintln!("peers: {message}");
    std::process::exit(1);
}

/// Writes a network and the planner's plan of it, which has to be the
/// baseline's too.
fn put(folder: &Path, Named { name, file }: &Named) -> Result<(), String> {
    let text = plan_text::<Planner>(file);
    if text != plan_text::<Baseline>(file) {
        return Err(format!("{name}: the plans of the planner and the baseline differ"));
    }
    for (ending, bytes) in [("net", file), ("plan", &text)] {
        let path = folder.join(name.replace(' ', "-")).with_extension(ending);
        std::fs::write(&path, bytes).map_err(|error| format!("{}: {error}", path.display()))?;
    }
    Ok(())
}

/// The text of a file's plan.
fn plan_text<S: Side>(file: &[u8]) -> Vec<u8> {
    let mut text = Vec::new();
    plan::write::<S>(file, &mut [0; 64 * 64], &mut text);
    text
}

/// Times both sides on a network, in turn, and prints a line for each, in
/// microseconds: the distances, all repairs, the plan.
fn print_times(Named { name, file }: &Named) {
    let mut both = calls::<Planner>(file);
    both.extend(calls::<Baseline>(file));
    let times = measure_each(ROUNDS, &mut both);
    for (side, times) in [Planner::NAME, Baseline::NAME].iter().zip(times.chunks_exact(3)) {
        let micros: Vec<String> = times.iter().map(|nanos| format!("{:.1}", nanos / 1e3)).collect();
        println!("{name}\t{side}\t{}", micros.join("\t"));
    }
}

/// What is timed of one side. Each call gets its buffers as the one before left
/// them.
fn calls<S: Side>(file: &[u8]) -> Vec<Timed<'_>> {
    let mut work = vec![0; 64 * 64];
    let distances = move || {
        black_box(S::distances(black_box(file), black_box(&mut work)));
    };
    let mut table = vec![0; 64 * 64];
    S::distances(file, &mut table);
    let links = S::load(file).links;
    let repairs = move || all_repairs::<S>(black_box(file), black_box(&table), links);
    let (mut work, mut text) = (vec![0; 64 * 64], Vec::with_capacity(1 << 14));
    let plan = move || {
        text.clear();
        plan::write::<S>(black_box(file), black_box(&mut work), &mut text);
        black_box(&text);
    };
    vec![Box::new(distances), Box::new(repairs), Box::new(plan)]
}

/// Asks for the repair of each link and end, with a table of distances.
fn all_repairs<S: Side>(file: &[u8], table: &[u32], links: usize) {
    for (link, end) in (0..links).flat_map(|link| [(link, 0), (link, 1)]) {
        black_box(S::link_repair_with(file, table, &ASCENDING_RANKS, link, end));
    }
}
