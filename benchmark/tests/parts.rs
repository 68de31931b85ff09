//! The parts of a question: both sides refuse where the parts are taken, and the
//! figures are put together rightly.

use benchmark::baseline::Baseline;
use benchmark::networks;
use benchmark::parts::{collected, figures, plan, question, table, Measured};
use benchmark::planner::Planner;
use benchmark::questions::{Asked, Call, Room};

#[test]
fn both_sides_refuse_after_the_file_and_after_the_table() {
    for named in networks::all() {
        let asked = Asked::new(named.file);
        assert_eq!(asked.refuses::<Planner>(), Ok(()), "{}", named.name);
        assert_eq!(asked.refuses::<Baseline>(), Ok(()), "{}", named.name);
    }
}

/// A pass of each kind ends, on both sides, and is as many calls as a plan has.
#[test]
fn every_kind_of_call_has_a_pass() {
    let (asked, mut room) = (Asked::new(networks::random_of(8)), Room::new());
    for call in Call::ALL {
        asked.pass::<Planner>(call, &mut room);
        asked.pass::<Baseline>(call, &mut room);
        assert_eq!(Call::of_word(call.word()), Some(call));
    }
    assert_eq!(Call::ALL.map(|call| asked.calls(call)), [32, 32, 32, 1, 1, 1]);
}

/// What each call takes in the tests below.
fn taken(call: Call) -> f64 {
    match call {
        Call::File => 20.0,
        Call::FileAndTable => 50.0,
        Call::Question => 60.0,
        Call::Load => 15.0,
        Call::Fill => 100.0,
        Call::Plan => 2000.0,
    }
}

#[test]
fn the_parts_are_differences() {
    let figures = figures(taken);
    assert_eq!(question(&figures), [20.0, 30.0, 10.0, 60.0]);
    assert_eq!(plan(&figures), [15.0, 100.0, 1885.0, 2000.0]);
}

#[test]
fn a_table_has_both_sides_and_their_ratio() {
    let planner = figures(|call| 2.0 * taken(call));
    let measured = [Measured { network: "ring", planner, baseline: figures(taken) }];
    let text = table(["file", "table", "search", "whole"], &measured, question);
    let lines: Vec<&str> = text.lines().collect();
    assert_eq!(lines[0], "| network | side | file | table | search | whole |");
    assert_eq!(lines[2], "| ring | planner | 40 | 60 | 20 | 120 |");
    assert_eq!(lines[3], "| ring | baseline | 20 | 30 | 10 | 60 |");
    assert_eq!(lines[4], "| ring | ratio | 2.00 | 2.00 | 2.00 | 2.00 |");
    assert_eq!(lines.len(), 5);
}

#[test]
fn of_two_measures_the_lesser_figures_are_kept() {
    let mut least =
        Measured { network: "ring", planner: figures(taken), baseline: figures(|_| 70.0) };
    least.lower(&Measured {
        network: "ring",
        planner: figures(|_| 55.0),
        baseline: figures(taken),
    });
    assert_eq!(least.planner.questions, [20.0, 50.0, 55.0]);
    assert_eq!(least.baseline.calls, [15.0, 70.0, 70.0]);
}

#[test]
fn the_count_of_instructions_is_found() {
    let printed = "==7== Events    : Ir\n==7== Collected : 31552175\n==7== \n";
    assert_eq!(collected(printed), Some(31_552_175));
    assert_eq!(collected("==7== Events    : Ir\n"), None);
}
