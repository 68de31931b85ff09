//! A readable text form of network files.
//!
//! ```text
//! # ring 4; a text after `#` is a comment
//! routers 4
//! link 0 1 1 1        # a, b, cost a to b, cost b to a
//! link 1 2 1 1
//! link 2 3 1 1
//! link 3 0 1 1
//! prefix 1:0 2:0      # attachments, each router:cost
//! ```
//!
//! Three more words make bad files for tests: `byte OFFSET VALUE` changes a
//! byte before the checks are put in, `late OFFSET VALUE` changes one
//! afterwards, and `length BYTES` cuts the file or fills it up with zeros.
//! Nothing else is judged here: a network that breaks a limit can be written.

use crate::file::Draft;
use crate::network::{Attachment, Link, MAINTENANCE, Network, Prefix};
use std::fmt::Write;
use std::str::FromStr;

const WORDS: &str = "routers, link, prefix, byte, late, length";

/// What a text says: a network, and changes to its file.
#[derive(Clone, Debug, Default, PartialEq, Eq)]
pub struct Recipe {
    pub network: Network,
    pub changes: Vec<Change>,
}

/// A change to the file of a recipe's network.
#[derive(Clone, Copy, Debug, PartialEq, Eq)]
pub enum Change {
    Byte { at: usize, value: u8 },
    Late { at: usize, value: u8 },
    Length(usize),
}

impl Recipe {
    /// The file, or what is wrong with a change.
    pub fn file(&self) -> Result<Vec<u8>, String> {
        let mut draft = Draft::of(&self.network);
        for change in &self.changes {
            match *change {
                Change::Byte { at, .. } | Change::Late { at, .. } if at >= draft.length() => {
                    let length = draft.length();
                    return Err(format!("offset {at} is not in the file of {length} bytes"));
                }
                Change::Byte { at, value } => draft.set(at, value),
                Change::Late { at, value } => draft.set_late(at, value),
                Change::Length(length) => draft.set_length(length),
            }
        }
        Ok(draft.finish())
    }
}

/// The recipe of a text, or a sentence that says which line is wrong and how.
pub fn parse(text: &str) -> Result<Recipe, String> {
    let mut recipe = Recipe::default();
    let mut routers = None;
    for (index, line) in text.lines().enumerate() {
        parse_line(line, &mut recipe, &mut routers)
            .map_err(|wrong| format!("line {}: {wrong}", index + 1))?;
    }
    recipe.network.routers = routers.ok_or("no line gives the number of routers")?;
    Ok(recipe)
}

fn parse_line(line: &str, recipe: &mut Recipe, routers: &mut Option<u8>) -> Result<(), String> {
    let said = line.split('#').next().unwrap_or_default();
    let mut words = said.split_whitespace();
    let Some(first) = words.next() else {
        return Ok(());
    };
    let rest: Vec<&str> = words.collect();
    match first {
        "routers" => {
            let [count] = numbers(&rest, "routers N")?;
            if routers.replace(fits(count)?).is_some() {
                return Err("routers is given a second time".to_string());
            }
        }
        "link" => {
            let [a, b, forth, back] = numbers(&rest, "link A B COST-A-TO-B COST-B-TO-A")?;
            let (a, b, forth, back) = (fits(a)?, fits(b)?, fits(forth)?, fits(back)?);
            recipe.network.links.push(Link { a, b, forth, back });
        }
        "prefix" => {
            let attachments = rest.iter().map(|word| attachment(word)).collect::<Result<_, _>>()?;
            recipe.network.prefixes.push(Prefix { attachments });
        }
        "byte" => {
            let [at, value] = numbers(&rest, "byte OFFSET VALUE")?;
            recipe.changes.push(Change::Byte { at, value: fits(value)? });
        }
        "late" => {
            let [at, value] = numbers(&rest, "late OFFSET VALUE")?;
            recipe.changes.push(Change::Late { at, value: fits(value)? });
        }
        "length" => {
            let [length] = numbers(&rest, "length BYTES")?;
            if length > 1 << 20 {
                return Err(format!("length {length} is over 1048576"));
            }
            recipe.changes.push(Change::Length(length));
        }
        _ => return Err(format!("unknown word `{first}`; the words are {WORDS}")),
    }
    Ok(())
}

/// Exactly so many numbers; `form` shows what is expected.
fn numbers<const COUNT: usize>(words: &[&str], form: &str) -> Result<[usize; COUNT], String> {
    let numbers = words.iter().map(|word| number(word)).collect::<Result<Vec<usize>, String>>()?;
    let found = numbers.len();
    numbers.try_into().map_err(|_| format!("found {found} numbers, expected: {form}"))
}

fn attachment(word: &str) -> Result<Attachment, String> {
    let (router, cost) =
        word.split_once(':').ok_or(format!("`{word}` is no attachment, expected: ROUTER:COST"))?;
    Ok(Attachment { router: fits(number(router)?)?, cost: fits(number(cost)?)? })
}

fn number(word: &str) -> Result<usize, String> {
    // Digits only: the library would accept a sign as well.
    let digits = word.bytes().all(|byte| byte.is_ascii_digit());
    let parsed = usize::from_str(word).ok().filter(|_| digits);
    parsed.ok_or(format!("`{word}` is no number"))
}

/// The number as a field of the file, if the field is wide enough.
fn fits<Field: TryFrom<usize>>(number: usize) -> Result<Field, String> {
    let bits = 8 * size_of::<Field>();
    Field::try_from(number).map_err(|_| format!("{number} does not fit into {bits} bits"))
}

/// The text of a network. A comment says which links are under maintenance.
pub fn of_network(network: &Network) -> String {
    let mut text = format!("routers {}\n", network.routers);
    for link in &network.links {
        let Link { a, b, forth, back } = link;
        let _ = writeln!(text, "link {a} {b} {forth} {back}{}", maintenance(link));
    }
    for prefix in &network.prefixes {
        text.push_str("prefix");
        for attachment in &prefix.attachments {
            let _ = write!(text, " {}:{}", attachment.router, attachment.cost);
        }
        text.push('\n');
    }
    text
}

/// The comment after a link, if one of its directions is under maintenance.
fn maintenance(Link { a, b, forth, back }: &Link) -> String {
    let words = match [forth, back].map(|cost| u32::from(*cost) == MAINTENANCE) {
        [true, true] => "both ways".to_string(),
        [true, false] => format!("from {a} to {b}"),
        [false, true] => format!("from {b} to {a}"),
        [false, false] => return String::new(),
    };
    format!("  # under maintenance {words}")
}
