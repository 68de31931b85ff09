//! The commands: what each prints, and with which exit status it ends.

mod input;
mod output;
mod words;

use input::Input;
use output::{same_file, Replaces};
use planner::{
    Pair, Played, Refusal, Repair, Set, DRILL_BYTES, LARGEST_FILE, LEAST_DRILL_ROUTERS,
    MOST_DRILL_ROUTERS, ROUTE_BYTES, WORK_CELLS,
};
use std::ffi::{OsStr, OsString};
use std::fmt::Display;
use std::io::{self, Write};
use std::process::ExitCode;
use words::{Asked, STDOUT};

/// Why a command has no answer.
pub enum Failure {
    /// The file, the text or the question is refused: exit status 1.
    Refused(String),
    /// The words are wrong, or a file cannot be read or written: exit status 2.
    Usage(String),
}

const UNREACHABLE: &str = "unreachable: the prefix cannot be reached from S\n";
const UNTOUCHED: &str = "untouched: no packet from S to the prefix crosses the link\n";

/// Runs the command that the words name and prints its answer, or what is wrong.
pub fn run(words: &[OsString]) -> ExitCode {
    let (message, status) = match answer(words).and_then(|answer| print(&answer)) {
        Ok(()) => return ExitCode::SUCCESS,
        Err(Failure::Refused(message)) => (message, 1),
        Err(Failure::Usage(message)) => (message, 2),
    };
    // Where even this cannot be written the exit status tells it.
    let _ = writeln!(io::stderr(), "planner: {}", message.trim_end());
    ExitCode::from(status)
}

/// What the command prints.
fn answer(words: &[OsString]) -> Result<Vec<u8>, Failure> {
    if words.iter().any(|word| word == "--help") {
        return Ok(words::HELP.into());
    }
    let asked = Asked::of(words)?;
    let answer = match asked.name() {
        "link" => link(&asked)?,
        "prefix" => prefix(&asked)?,
        "route" => route(&asked)?,
        "spaces" => spaces(&asked)?,
        "text" => text(&asked)?,
        "make" => make(&asked)?,
        _ => drill(&asked)?,
    };
    Ok(answer.into_bytes())
}

fn link(asked: &Asked) -> Result<String, Failure> {
    let (link, end) = (asked.number(1)?, asked.number(2)?);
    let ranks = asked.ranks()?;
    let file = file(asked)?;
    let pair = planner::link_repair(&file.bytes, &mut [0; WORK_CELLS], &ranks, link, end);
    or_no_pair(&file, (link, end), pair.map(line::<Pair>))
}

fn prefix(asked: &Asked) -> Result<String, Failure> {
    let (link, end, prefix) = (asked.number(1)?, asked.number(2)?, asked.number(3)?);
    let ranks = asked.ranks()?;
    let file = file(asked)?;
    let mut work = [0; WORK_CELLS];
    let repair = planner::prefix_repair(&file.bytes, &mut work, &ranks, link, end, prefix);
    let repair = repair.map(|repair| match repair {
        Repair::Unreachable => UNREACHABLE.to_string(),
        Repair::Untouched => UNTOUCHED.to_string(),
        Repair::Pair(pair) => format!("{pair}; {}\n", survived(&pair)),
    });
    or_no_pair(&file, (link, end), repair)
}

fn route(asked: &Asked) -> Result<String, Failure> {
    let (link, end, prefix) = (asked.number(1)?, asked.number(2)?, asked.number(3)?);
    let (choices, ranks) = (asked.choices()?, asked.ranks()?);
    let mut work = [0; WORK_CELLS];
    let mut route = [0; ROUTE_BYTES];
    let file = file(asked)?;
    let bytes = &file.bytes;
    let played = planner::route(bytes, &mut work, &ranks, link, end, prefix, &choices, &mut route);
    let played = played.map(|played| match played {
        Played::Unreachable => UNREACHABLE.to_string(),
        Played::Untouched => UNTOUCHED.to_string(),
        Played::Written(count) => format!("route {}\n", spaced(&route[..count])),
    });
    or_no_pair(&file, (link, end), played)
}

fn spaces(asked: &Asked) -> Result<String, Failure> {
    let (link, end) = (asked.number(1)?, asked.number(2)?);
    let file = file(asked)?;
    let mut work = [0; WORK_CELLS];
    let spaces = [
        ("P-space", planner::p_space(&file.bytes, &mut work, link, end)),
        ("extended P-space", planner::extended_p_space(&file.bytes, &mut work, link, end)),
        ("Q-space", planner::q_space(&file.bytes, &mut work, link, end)),
    ];
    let lines = spaces.into_iter().map(|(name, set)| Ok(set_line(name, set?)));
    lines.collect::<Result<String, Refusal>>().map_err(|refusal| file.refused_by(refusal))
}

fn text(asked: &Asked) -> Result<String, Failure> {
    let file = file(asked)?;
    let network = planner::load(&file.bytes).map_err(|refusal| file.refused_by(refusal))?;
    Ok(planner::text::print(&network))
}

/// Makes the network file of a text. It prints nothing unless the file is standard output.
fn make(asked: &Asked) -> Result<String, Failure> {
    let (from, to) = (asked.word(0), asked.word(1));
    let text = Input::read_text(from, to)?;
    let network = planner::text::parse(text.text()?).map_err(|wrong| text.refused(wrong))?;
    write(to, &network.to_bytes(), Replaces::NetworkFile)?;
    Ok(String::new())
}

/// Makes the network file of a drill, and prints as [`make`] does.
fn drill(asked: &Asked) -> Result<String, Failure> {
    let seed = asked.number_in(0, 0..=u32::MAX)?;
    let routers = asked.number_in(1, LEAST_DRILL_ROUTERS..=MOST_DRILL_ROUTERS)?;
    let mut file = [0; DRILL_BYTES];
    let written = planner::drill(seed, routers, &mut file);
    assert_eq!(written, DRILL_BYTES, "a drill of {routers} routers is written");
    write(asked.word(2), &file, Replaces::Same)?;
    Ok(String::new())
}

/// The network file that a command names with its first word. No more is read of it than shows that
/// it is too long.
fn file(asked: &Asked) -> Result<Input, Failure> {
    Input::read(asked.word(0), LARGEST_FILE + 1, "-".as_ref())
}

/// Writes bytes to standard output, also where a name such as `/dev/stdout` leads to it, or to a
/// file.
fn write(word: &OsStr, bytes: &[u8], replaces: Replaces) -> Result<(), Failure> {
    if word == "-" || same_file(STDOUT.path(word), STDOUT.path("-".as_ref())) {
        return print(bytes);
    }
    let written = output::save(word.as_ref(), bytes, replaces);
    written.map_err(|wrong| not_written(word, &wrong))
}

/// Writes bytes to standard output.
fn print(bytes: &[u8]) -> Result<(), Failure> {
    let written = io::stdout().write_all(bytes).and_then(|()| io::stdout().flush());
    written.map_err(|wrong| not_written("-".as_ref(), &wrong.to_string()))
}

fn not_written(word: &OsStr, wrong: &str) -> Failure {
    Failure::Usage(format!("{} cannot be written: {wrong}", STDOUT.name(word)))
}

/// That no pair serves is an answer too; any other refusal is none.
fn or_no_pair(
    file: &Input,
    asked: (usize, usize),
    answer: Result<String, Refusal>,
) -> Result<String, Failure> {
    match answer {
        Err(refusal) if refusal.number == Refusal::NO_PAIR => {
            Ok(format!("{refusal}{}\n", left_out(&file.bytes, asked)))
        }
        other => other.map_err(|refusal| file.refused_by(refusal)),
    }
}

/// The directions from S over which no repair starts, since they are under maintenance. Who reads
/// that there is no repair learns what may have left none.
fn left_out(file: &[u8], (link, end): (usize, usize)) -> String {
    let Ok(network) = planner::load(file) else {
        return String::new();
    };
    let directions = network.links().get(link).map(|link| {
        let (s, e) = if end == 0 { (link.a, link.b) } else { (link.b, link.a) };
        let others = network.under_maintenance(s).filter(|n| *n != e);
        others.map(|n| format!("{s} to {n}")).collect::<Vec<String>>()
    });
    match directions {
        Some(directions) if !directions.is_empty() => {
            format!("; under maintenance: {}", directions.join(", "))
        }
        _ => String::new(),
    }
}

/// Which failures the repair of a prefix survives.
fn survived(pair: &Pair) -> &'static str {
    match pair.survives_far_router() {
        true => "survives the failure of the far router too",
        false => "survives the failure of the link only",
    }
}

/// A set as a line: its size, and its routers where it has some.
fn set_line(name: &str, set: Set) -> String {
    let routers: Vec<u8> = set.routers().collect();
    match set.size() {
        0 => format!("{name}: size 0\n"),
        size => format!("{name}: size {size}, routers {}\n", spaced(&routers)),
    }
}

fn line<Thing: Display>(thing: Thing) -> String {
    format!("{thing}\n")
}

fn spaced(routers: &[u8]) -> String {
    let words: Vec<String> = routers.iter().map(u8::to_string).collect();
    words.join(" ")
}
