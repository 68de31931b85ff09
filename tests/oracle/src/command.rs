//! The command line. The program `oracle` only passes words and input on.

use crate::answer::{Answer, Buffers, Outcome, Question, ask, drill, load, plan_text};
use crate::batch::{self, Section};
use crate::fault::{Context, Fault};
use crate::file;
use crate::generate::{self, Family};
use crate::network::Network;
use crate::random::Random;
use crate::ranks::ASCENDING;
use crate::runs;
use crate::space::Space;
use crate::table;
use crate::text;
use crate::words;
use std::io::Read;
use std::str::FromStr;

/// How the program is used.
pub const USAGE: &str = "\
oracle [OPTION ...] COMMAND

  make < TEXT > FILE               the network file of a text
  show < FILE                      the text of a network file
  plan < FILE                      the plan of a network file
  batch [SECTION ...] < FILE       the answers to all questions; the sections are
                                   load entries distances spaces links prefixes
                                   routes, and all of them without one named
  ask load < FILE
  ask link-entry LINK < FILE
  ask prefix-entry PREFIX < FILE
  ask distances < FILE
  ask p LINK END < FILE
  ask extended-p LINK END < FILE
  ask q LINK END < FILE
  ask size SET
  ask link-repair LINK END < FILE
  ask prefix-repair LINK END PREFIX < FILE
  ask route LINK END PREFIX [CHOICE ...] < FILE
  random FAMILY ROUTERS SEED       the text of a random network of a family with
                                   at most ROUTERS routers
  sized ROUTERS LINKS PREFIXES SEED
                                   the text of a random network of this size
  drill SEED ROUTERS > FILE        the network file of a drill
  import < RUN > FILE              the network file of a run of Router-LSAs
  ask import < RUN                 the answer of the same call in one line
  run < RUN                        the LSAs of a run and its network with all names, or why
                                   it is turned away
  lsas SEED [ROUTERS LINKS PREFIXES] > RUN
                                   a random run, of this size if one is given
  lsas SEED CAUSE > RUN            a random run with one bad LSA
  causes                           the causes for which a run is turned away
  families                         the families of random networks
  faults                           the faults that can be turned on

  --work CELLS                     cells of the work area lent to `ask`
  --buffer BYTES                   bytes of the route buffer lent to `ask`, or of the buffer
                                   lent for a file to `import` and `ask import`
  --ranks RANK,RANK,...            the ranks of the classes 0 to 7 for the repairs
                                   and routes of `ask` and `batch`; 0,1,2,3,4,5,6,7
                                   if none are given
  --table right                    the repairs and routes of `ask` are second calls, with
                                   the file's distances as their table
  --table CELL,CELL,...            the same with these cells
  --left                           `ask` prints the lent buffers after the call
  --fault NAME                     turns on a fault
";

/// What the options say.
struct Options {
    ctx: Context,
    lent: Buffers,
    ranks: Vec<u8>,
    table: Option<Lent>,
    show_left: bool,
}

/// The table that is lent to second calls.
enum Lent {
    /// The distances of the file that is asked about.
    Right,
    Cells(Vec<u32>),
}

/// What the program prints for these words and this input, or what is wrong.
pub fn run(arguments: &[String], input: &mut dyn Read) -> Result<Vec<u8>, String> {
    let (options, words) = options(arguments)?;
    let words: Vec<&str> = words.iter().map(String::as_str).collect();
    let [command, rest @ ..] = words.as_slice() else {
        return Err(format!("no command is given\n\n{USAGE}"));
    };
    match (*command, rest) {
        ("make", []) => make(input),
        ("show", []) => show(&options.ctx, &bytes(input)?),
        ("plan", []) => Ok(plan_text(&options.ctx, &bytes(input)?).into_bytes()),
        ("batch", names) => {
            let sections = sections(names)?;
            let file = bytes(input)?;
            Ok(batch::lines(&options.ctx, &file, &options.ranks, &sections).into_bytes())
        }
        ("ask", ["import"]) => {
            runs::answer(&options.ctx, &options.lent.made, options.show_left, &bytes(input)?)
        }
        ("ask", words) => ask_words(&options, words, input),
        ("random", [family, routers, seed]) => {
            let family = named_family(family)?;
            let mut random = Random::new(number(seed)?);
            let most = usize::from(byte(routers)?);
            checked(most >= 1, "there has to be a router")?;
            text_of(&generate::network(family, most, &mut random))
        }
        ("sized", [routers, links, prefixes, seed]) => sized(routers, links, prefixes, seed),
        ("drill", [seed, routers]) => drill_file(&options.ctx, seed, routers),
        ("import" | "run" | "lsas" | "causes", _) => {
            runs::command(&options.ctx, &options.lent.made, &words, input)
        }
        ("families", []) => Ok(families().into_bytes()),
        ("faults", []) => Ok(faults().into_bytes()),
        ("help", []) => Ok(USAGE.as_bytes().to_vec()),
        _ => Err(no_command(&words)),
    }
}

/// A line for each family of random networks.
fn families() -> String {
    Family::ALL.iter().map(|family| format!("{family:?}: {}\n", family.words())).collect()
}

/// A line for each fault.
fn faults() -> String {
    let all = Fault::all().into_iter().chain(Fault::of_import());
    all.map(|fault| format!("{}: {}\n", fault.name(), fault.words())).collect()
}

/// What is said of words that are no command.
pub fn no_command(words: &[&str]) -> String {
    format!("`{}` is no command\n\n{USAGE}", words.join(" "))
}

/// Takes the options from the front of the words.
fn options(arguments: &[String]) -> Result<(Options, &[String]), String> {
    let mut faults = Vec::new();
    let lent = Buffers { made: vec![0; file::LARGEST], ..batch::enough() };
    let ranks = ASCENDING.to_vec();
    let mut options = Options { ctx: Context::sound(), lent, ranks, table: None, show_left: false };
    let mut words = arguments;
    while let [option, rest @ ..] = words {
        words = match (option.as_str(), rest) {
            ("--left", rest) => {
                options.show_left = true;
                rest
            }
            ("--fault", [name, rest @ ..]) => {
                faults.push(Fault::named(name).ok_or(format!("`{name}` is no fault"))?);
                rest
            }
            ("--work" | "--buffer" | "--ranks" | "--table", [value, rest @ ..]) => {
                options.lend(option, value)?;
                rest
            }
            (unknown, _) if unknown.starts_with("--") => {
                return Err(format!(
                    "`{unknown}` is no option, or its value is missing\n\n{USAGE}"
                ));
            }
            _ => break,
        };
    }
    options.ctx = Context::with(&faults);
    Ok((options, words))
}

impl Options {
    /// Takes the value of an option that lends something to a call.
    fn lend(&mut self, option: &str, value: &str) -> Result<(), String> {
        match option {
            "--work" => self.lent.work = vec![self.lent.work[0]; length(value)?],
            "--buffer" => {
                self.lent.route = vec![self.lent.route[0]; length(value)?];
                self.lent.made = vec![0; length(value)?];
            }
            "--ranks" => self.ranks = value.split(',').map(byte).collect::<Result<_, String>>()?,
            _ => self.table = Some(lent_table(value)?),
        }
        Ok(())
    }
}

fn lent_table(cells: &str) -> Result<Lent, String> {
    if cells == "right" {
        return Ok(Lent::Right);
    }
    cells.split(',').map(cell).collect::<Result<Vec<u32>, String>>().map(Lent::Cells)
}

fn make(input: &mut dyn Read) -> Result<Vec<u8>, String> {
    let text = String::from_utf8(bytes(input)?).map_err(|_| "the text is not UTF-8")?;
    text::parse(&text)?.file()
}

fn show(ctx: &Context, file: &[u8]) -> Result<Vec<u8>, String> {
    match load(ctx, file) {
        Ok(network) => text_of(&network),
        Err(refusal) => {
            let (number, value, cause) = (refusal.number, refusal.value, refusal.cause.words());
            Ok(format!("refused {number} {value}   # {cause}\n").into_bytes())
        }
    }
}

fn sized(routers: &str, links: &str, prefixes: &str, seed: &str) -> Result<Vec<u8>, String> {
    let (routers, links, prefixes) =
        (usize::from(byte(routers)?), length(links)?, length(prefixes)?);
    checked((1..=file::MOST_ROUTERS).contains(&routers), "there are 1 to 64 routers")?;
    checked(links <= routers * (routers - 1) / 2, "there are too few routers for the links")?;
    checked(links <= file::MOST_LINKS, "there are at most 128 links")?;
    checked(prefixes <= file::MOST_PREFIXES, "there are at most 128 prefixes")?;
    text_of(&generate::sized(routers, links, prefixes, &mut Random::new(number(seed)?)))
}

fn drill_file(ctx: &Context, seed: &str, routers: &str) -> Result<Vec<u8>, String> {
    let Outcome { answer, mut left } =
        drill(ctx, cell(seed)?, number(routers)?, &[0; file::LARGEST]);
    let written = if let Answer::Written(count) = answer { count } else { 0 };
    checked(written > 0, "a drill has 3 to 64 routers")?;
    left.made.truncate(written);
    Ok(left.made)
}

fn ask_words(options: &Options, words: &[&str], input: &mut dyn Read) -> Result<Vec<u8>, String> {
    let question = question(words)?.with_ranks(&options.ranks);
    let file = match question {
        Question::Size { .. } => Vec::new(),
        _ => bytes(input)?,
    };
    let question = match &options.table {
        Some(Lent::Right) => question.with_table(&table::right_of_file(&file)),
        Some(Lent::Cells(cells)) => question.with_table(cells),
        None => question,
    };
    let outcome = ask(&options.ctx, &file, &question, &options.lent);
    let mut lines = vec![words::long(&outcome)];
    lines.extend(words::rows(&outcome, file::Head::of(file::Bytes(&file)).routers));
    if options.show_left {
        lines.push(words::left(&outcome.left));
    }
    Ok((lines.join("\n") + "\n").into_bytes())
}

fn question(words: &[&str]) -> Result<Question, String> {
    let [call, rest @ ..] = words else {
        return Err(format!("no question is given\n\n{USAGE}"));
    };
    let numbers = rest.iter().map(|word| number(word)).collect::<Result<Vec<u64>, String>>()?;
    let question = match (*call, numbers.as_slice()) {
        ("load", []) => Question::Load,
        ("link-entry", [link]) => Question::LinkEntry { link: *link },
        ("prefix-entry", [prefix]) => Question::PrefixEntry { prefix: *prefix },
        ("distances", []) => Question::Distances,
        ("p", [link, end]) => space(Space::P, *link, *end),
        ("extended-p", [link, end]) => space(Space::ExtendedP, *link, *end),
        ("q", [link, end]) => space(Space::Q, *link, *end),
        ("size", [set]) => Question::Size { set: *set },
        ("link-repair", [link, end]) => Question::link_repair(*link, *end),
        ("prefix-repair", [link, end, prefix]) => Question::prefix_repair(*link, *end, *prefix),
        ("route", [link, end, prefix, choices @ ..]) => {
            let choices = choices.iter().map(|choice| byte(&choice.to_string()));
            let choices = choices.collect::<Result<Vec<u8>, String>>()?;
            Question::route(*link, *end, *prefix, &choices)
        }
        _ => return Err(format!("`{}` is no question\n\n{USAGE}", words.join(" "))),
    };
    Ok(question)
}

fn space(space: Space, link: u64, end: u64) -> Question {
    Question::Space { space, link, end }
}

fn sections(names: &[&str]) -> Result<Vec<Section>, String> {
    if names.is_empty() {
        return Ok(Section::ALL.to_vec());
    }
    let named = |name: &&str| Section::named(name).ok_or(format!("`{name}` is no section"));
    names.iter().map(named).collect()
}

fn named_family(name: &str) -> Result<Family, String> {
    let family = Family::ALL.iter().copied().find(|family| format!("{family:?}") == name);
    family.ok_or(format!("`{name}` is no family"))
}

fn text_of(network: &Network) -> Result<Vec<u8>, String> {
    Ok(text::of_network(network).into_bytes())
}

pub fn checked(condition: bool, otherwise: &str) -> Result<(), String> {
    if condition { Ok(()) } else { Err(otherwise.to_string()) }
}

pub fn number(word: &str) -> Result<u64, String> {
    u64::from_str(word).map_err(|_| format!("`{word}` is no number below 2 to the power 64"))
}

pub fn length(word: &str) -> Result<usize, String> {
    let length = number(word)?;
    checked(length <= 1 << 20, &format!("{length} is over 1048576"))?;
    Ok(length as usize)
}

fn cell(word: &str) -> Result<u32, String> {
    u32::from_str(word).map_err(|_| format!("`{word}` is no number of 32 bits"))
}

fn byte(word: &str) -> Result<u8, String> {
    u8::from_str(word).map_err(|_| format!("`{word}` is no number from 0 to 255"))
}

pub fn bytes(input: &mut dyn Read) -> Result<Vec<u8>, String> {
    let mut bytes = Vec::new();
    input.read_to_end(&mut bytes).map_err(|error| format!("the input cannot be read: {error}"))?;
    Ok(bytes)
}
