//! Where the time of a link question with table goes, on both sides: the file, the
//! table, the search; and that of a whole plan: one load, one fill, the rest.
//!
//!     parts                  nanoseconds
//!     parts --instructions   instructions, which valgrind counts
//!
//! The figures of a question are the means over the questions of a plan.

use benchmark::baseline::Baseline;
use benchmark::compare::compare;
use benchmark::networks::{self, Named};
use benchmark::parts::{collected, figures, plan, question, table};
use benchmark::parts::{Figures, Measured, CALLS, QUESTIONS};
use benchmark::planner::Planner;
use benchmark::questions::{Asked, Call, Room};
use benchmark::side::Side;
use std::hint::black_box;
use std::process::{exit, Command};

/// Samples of each kind of call, and how often all are timed: what else the machine
/// does for a second falls on one time of each only, and the least is told.
const ROUNDS: usize = 101;
const TURNS: usize = 3;

/// How many prefixes lie between two that are asked about before anything is
/// measured: the main program asks about all.
const EVERY: usize = 16;

/// The C library clears and copies large buffers by one repeated instruction, of
/// which valgrind counts each step as an instruction. With these settings it does
/// so by vectors, which are counted as they run.
const NO_REPEATS: &str =
    "glibc.cpu.x86_rep_stosb_threshold=1000000000:glibc.cpu.x86_rep_movsb_threshold=1000000000";

/// A network of the benchmark.
struct Network {
    name: &'static str,
    asked: Asked,
}

fn main() {
    let words: Vec<String> = std::env::args().skip(1).collect();
    match words.iter().map(String::as_str).collect::<Vec<_>>()[..] {
        [] => print("ns", TURNS, timed),
        ["--instructions"] => print("instructions", 1, counted),
        ["--one", side, network, call] => one(side, network, call),
        _ => fail("parts [--instructions]"),
    }
}

fn fail(text: &str) -> ! {
    eprintln!("{text}");
    exit(1)
}

fn print(unit: &str, turns: usize, measure: fn(&Network) -> Measured) {
    let networks: Vec<Network> = networks::all()
        .into_iter()
        .map(|Named { name, file }| Network { name, asked: Asked::new(file) })
        .collect();
    networks.iter().for_each(compared);
    let mut measured: Vec<Measured> = networks.iter().map(measure).collect();
    for _ in 1..turns {
        for (least, network) in measured.iter_mut().zip(&networks) {
            least.lower(&measure(network));
        }
    }
    println!("\nA link question with table, in {unit}:\n");
    print!("{}", table(["file", "table", "search", "whole"], &measured, question));
    println!("\nA plan, in {unit}:\n");
    print!("{}", table(["load", "fill", "rest", "whole"], &measured, plan));
}

/// Tells how many questions were compared, or ends where an answer differs.
fn compared(Network { name, asked }: &Network) {
    let compared = compare::<Planner, Baseline>(asked.file(), EVERY)
        .and_then(|count| asked.refuses::<Planner>().map(|()| count))
        .and_then(|count| asked.refuses::<Baseline>().map(|()| count));
    match compared {
        Ok(count) => println!("{name}: {count} questions, the same answers"),
        Err(text) => fail(&format!("{name}: the two sides differ: {text}")),
    }
}

/// The samples of the three whose differences are the parts take turns.
fn timed(&Network { name, ref asked }: &Network) -> Measured {
    let questions = asked.times(ROUNDS, QUESTIONS);
    let calls = asked.separate_times(ROUNDS, CALLS);
    let [planner, baseline] =
        [0, 1].map(|side| Figures { questions: questions[side], calls: calls[side] });
    Measured { network: name, planner, baseline }
}

fn counted(&Network { name, ref asked }: &Network) -> Measured {
    let count = |side, call| instructions(side, name, call) / asked.calls(call) as f64;
    Measured {
        network: name,
        planner: figures(|call| count(Planner::NAME, call)),
        baseline: figures(|call| count(Baseline::NAME, call)),
    }
}

/// The instructions of one pass: this program runs it under valgrind.
fn instructions(side: &str, network: &str, call: Call) -> f64 {
    let program = std::env::current_exe().expect("this program has a path");
    let run = Command::new("valgrind")
        .args(["--tool=callgrind", "--callgrind-out-file=/dev/null"])
        .arg("--toggle-collect=parts_counted")
        .arg(program)
        .args(["--one", side, network, call.word()])
        .env("GLIBC_TUNABLES", NO_REPEATS)
        .output();
    let Ok(output) = run else { fail("valgrind is not there") };
    let printed = String::from_utf8_lossy(&output.stderr);
    match collected(&printed) {
        Some(count) if output.status.success() => count as f64,
        _ => fail(&printed),
    }
}

/// Makes one pass twice, and has it counted the second time.
fn one(side: &str, network: &str, call: &str) {
    let named = networks::all().into_iter().find(|named| named.name == network);
    let (Some(named), Some(call)) = (named, Call::of_word(call)) else { fail("no such call") };
    let (asked, mut room) = (Asked::new(named.file), Room::new());
    let mut pass = || match side {
        Planner::NAME => asked.pass::<Planner>(call, &mut room),
        Baseline::NAME => asked.pass::<Baseline>(call, &mut room),
        _ => fail("no such side"),
    };
    pass();
    parts_counted(&mut pass);
}

/// What runs in here is counted. Valgrind finds it by its name.
#[no_mangle]
#[inline(never)]
fn parts_counted(pass: &mut dyn FnMut()) {
    pass();
    // So that the call above is no jump, after which nothing would return here.
    black_box(());
}
