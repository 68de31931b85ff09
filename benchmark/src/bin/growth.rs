//! How the cost grows with the network, on both sides: a link question with table,
//! the fill, and a whole plan, of networks with 8, 16, 32 and 64 routers. It prints
//! the times, and draws them into docs/growth.svg.

use benchmark::baseline::Baseline;
use benchmark::compare::compare;
use benchmark::growth::{factors, picture, table, Measured, CALLS, NETWORKS, SIZES};
use benchmark::planner::Planner;
use benchmark::questions::Asked;
use std::process::exit;

/// Samples of each kind of call, and how often all are timed: what else the machine
/// does for a second falls on one time of each only, and the least is told.
const ROUNDS: usize = 101;
const TURNS: usize = 3;

/// How many prefixes lie between two that are asked about before anything is timed.
const EVERY: usize = 4;

const PICTURE: &str = concat!(env!("CARGO_MANIFEST_DIR"), "/../docs/growth.svg");

/// A network of one size.
struct Sized {
    network: &'static str,
    routers: u8,
    asked: Asked,
}

fn main() {
    let mut sized = Vec::new();
    for (network, made, _) in NETWORKS {
        for routers in SIZES {
            sized.push(Sized { network, routers, asked: Asked::new(made(routers)) });
        }
    }
    sized.iter().for_each(compared);
    let mut measured: Vec<Measured> = sized.iter().map(timed).collect();
    for _ in 1..TURNS {
        for (least, network) in measured.iter_mut().zip(&sized) {
            least.lower(&timed(network));
        }
    }
    println!("\n{}\n{}", table(&measured), factors(&measured));
    if let Err(error) = std::fs::write(PICTURE, picture(&measured)) {
        eprintln!("{PICTURE}: {error}");
        exit(1);
    }
    println!("docs/growth.svg is drawn");
}

/// Tells how many questions were compared, or ends where an answer differs.
fn compared(Sized { network, routers, asked }: &Sized) {
    match compare::<Planner, Baseline>(asked.file(), EVERY) {
        Ok(count) => println!("{network} of {routers}: {count} questions, the same answers"),
        Err(text) => {
            eprintln!("{network} of {routers}: the two sides differ: {text}");
            exit(1);
        }
    }
}

fn timed(Sized { network, routers, asked }: &Sized) -> Measured {
    let times = asked.separate_times(ROUNDS, CALLS);
    Measured { network, routers: *routers, times }
}
