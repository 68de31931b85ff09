//! The benchmark: compares all outputs of the planner and the baseline, then
//! times both, and prints the times, their ratios and the worst of each call.

use benchmark::answer::PLAYED;
use benchmark::baseline::Baseline;
use benchmark::calls;
use benchmark::compare::compare;
use benchmark::networks::{self, Named};
use benchmark::planner::Planner;
use benchmark::side::Side;
use benchmark::tables::compare_tables;
use benchmark::timing::Times;
use benchmark::written::{compare_drills, compare_written};
use planner::ASCENDING_RANKS;

/// The calls in the order of the table, with the largest ratio that is wanted.
const CALLS: [(&str, Option<f64>); 12] = [
    ("load", Some(1.5)),
    ("load of one block", Some(1.5)),
    ("distances", Some(1.5)),
    ("link repair", Some(1.5)),
    ("prefix repair", Some(1.5)),
    ("route", Some(1.5)),
    ("link repair with table", Some(1.5)),
    ("prefix repair with table", Some(1.5)),
    ("route with table", Some(1.5)),
    ("plan", Some(1.0)),
    ("write", None),
    ("drill", None),
];

/// The times of one call on one network.
struct Line {
    call: usize,
    network: &'static str,
    times: Times,
}

fn main() {
    let networks = networks::all();
    for Named { name, file } in &networks {
        told(name, compare::<Planner, Baseline>(file, 1));
        told(name, compare_tables::<Planner, Baseline>(file, 1));
        told(name, compare_written::<Planner, Baseline>(file));
    }
    told("drills", compare_drills::<Planner, Baseline>());
    let mut lines = vec![one_block(), drill()];
    for network in &networks {
        lines.extend(time_network(network));
    }
    println!();
    print_lines(&lines);
    println!();
    print_worst(&lines);
    println!();
    println!("Each call gets its buffers as the call before left them: nothing is cleared.");
}

/// Tells how many questions were compared, or ends where an answer differs.
fn told(name: &str, compared: Result<usize, String>) {
    match compared {
        Ok(asked) => println!("{name}: {asked} questions, the same answers"),
        Err(question) => {
            eprintln!("{name}: the two sides differ: {question}");
            std::process::exit(1);
        }
    }
}

/// The check of one block alone is no call; the load of a file that has only
/// its head comes nearest.
fn one_block() -> Line {
    let file = networks::one_block();
    Line { call: 1, network: "one router", times: calls::load(&file) }
}

/// The largest drill.
fn drill() -> Line {
    Line { call: 11, network: "64 routers", times: calls::drill(1, 64) }
}

/// The question with the longest route, the first of them.
fn longest_route(file: &[u8]) -> (usize, usize, usize) {
    let network = Baseline::load(file);
    let mut work = vec![0; 64 * 64];
    let mut route = [0; 128];
    let mut longest = (0, (0, 0, 0));
    for link in 0..network.links {
        for (end, prefix) in (0..network.prefixes).flat_map(|prefix| [(0, prefix), (1, prefix)]) {
            let question = (link, end, prefix);
            let ranks = &ASCENDING_RANKS;
            let answer = Baseline::route(file, &mut work, ranks, question, &[], &mut route);
            if answer.kind == PLAYED && answer.value > longest.0 {
                longest = (answer.value, question);
            }
        }
    }
    longest.1
}

fn time_network(network: &Named) -> Vec<Line> {
    let file = &network.file[..];
    let question = longest_route(file);
    let (link, end, prefix) = question;
    println!("{}: timed with link {link}, end {end}, prefix {prefix}", network.name);
    let times = [
        (0, calls::load(file)),
        (2, calls::distances(file)),
        (3, calls::link_repair(file, link, end)),
        (4, calls::prefix_repair(file, question)),
        (5, calls::route(file, question)),
        (6, calls::link_repair_with(file, link, end)),
        (7, calls::prefix_repair_with(file, question)),
        (8, calls::route_with(file, question)),
        (9, calls::plan(file)),
        (10, calls::write(&Baseline::load(file))),
    ];
    times.map(|(call, times)| Line { call, network: network.name, times }).into()
}

fn print_lines(lines: &[Line]) {
    println!("| call | network | planner, ns | baseline, ns | ratio |");
    println!("|---|---|---:|---:|---:|");
    for (call, (name, _)) in CALLS.iter().enumerate() {
        for Line { network, times, .. } in lines.iter().filter(|line| line.call == call) {
            let Times { planner, baseline } = times;
            let ratio = times.ratio();
            println!("| {name} | {network} | {planner:.0} | {baseline:.0} | {ratio:.2} |");
        }
    }
}

fn print_worst(lines: &[Line]) {
    println!("| call | worst ratio | goal | |");
    println!("|---|---:|---:|---|");
    for (call, (name, goal)) in CALLS.iter().enumerate() {
        let ratios = lines.iter().filter(|line| line.call == call).map(|line| line.times.ratio());
        let worst = ratios.fold(0.0, f64::max);
        let verdict = |goal| if worst <= goal { "met" } else { "missed" };
        match goal {
            Some(goal) => println!("| {name} | {worst:.2} | {goal:.1} | {} |", verdict(*goal)),
            None => println!("| {name} | {worst:.2} | none | |"),
        }
    }
}
