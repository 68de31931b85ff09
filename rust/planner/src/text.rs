//! The readable text of a network. One line says one thing, and `#` starts a comment:
//!
//! ```text
//! routers 4
//! link 0 1 1 1        # router a, router b, cost a to b, cost b to a
//! prefix 1:0 2:0      # attachments, each ROUTER:COST
//! ```
//!
//! The line `routers` stands there once, anywhere. Links and prefixes count from 0 in the order of
//! their lines. A cost of 65535 says that the link is under maintenance in that direction; [`print()`]
//! says so in a comment.

use crate::network::{Attachment, LimitError, Link, Network, MAINTENANCE, MOST_ROUTERS};
use std::error::Error;
use std::fmt::{self, Display, Formatter, Write};

/// The words that a line may start with.
const WORDS: [&str; 3] = ["routers", "link", "prefix"];

/// The highest router of the largest network.
const MOST_ROUTER: u64 = MOST_ROUTERS as u64 - 1;

/// The highest cost of a link or an attachment.
const MOST_COST: u64 = u16::MAX as u64;

/// What is wrong with a text: the line, the word on it, and what was expected.
#[derive(Clone, Debug, PartialEq, Eq, Hash)]
pub struct TextError {
    /// The number of the line, counted from 1.
    pub line: usize,
    /// The word that is wrong, or all words of the line where no single one is. It is empty where
    /// the text ends too early.
    pub word: String,
    /// What was expected, or which limit the line breaks.
    pub expected: String,
}

impl Display for TextError {
    fn fmt(&self, out: &mut Formatter) -> fmt::Result {
        let TextError { line, word, expected } = self;
        if word.is_empty() {
            return write!(out, "line {line}: {expected}");
        }
        write!(out, "line {line}: `{word}`: {expected}")
    }
}

impl Error for TextError {}

/// A line that says something: its number and its words, the first of which says what it is about.
struct Line<'a> {
    number: usize,
    first: &'a str,
    rest: Vec<&'a str>,
}

impl<'a> Line<'a> {
    /// The line, or none where it is empty but for a comment.
    fn of(index: usize, text: &'a str) -> Option<Line<'a>> {
        let said = text.split('#').next().unwrap_or_default();
        let mut words = said.split_whitespace();
        let first = words.next()?;
        Some(Line { number: index + 1, first, rest: words.collect() })
    }

    /// An error about one word.
    fn word_error(&self, word: &str, expected: impl Into<String>) -> TextError {
        TextError { line: self.number, word: word.to_string(), expected: expected.into() }
    }

    /// An error about the line as a whole.
    fn line_error(&self, expected: impl Into<String>) -> TextError {
        let mut words = vec![self.first];
        words.extend(&self.rest);
        self.word_error(&words.join(" "), expected)
    }

    fn limit_error(&self, limit: LimitError) -> TextError {
        self.line_error(limit.to_string())
    }

    /// Exactly so many words after the first; `form` shows what is expected.
    fn words<const COUNT: usize>(&self, form: &str) -> Result<[&'a str; COUNT], TextError> {
        let words = <[&str; COUNT]>::try_from(self.rest.as_slice());
        words.map_err(|_| self.line_error(format!("expected the form {form}")))
    }

    /// A word as a number from `least` to `most`; `what` names it.
    fn number<Number: TryFrom<u64>>(
        &self,
        word: &str,
        what: &str,
        least: u64,
        most: u64,
    ) -> Result<Number, TextError> {
        number(word, least, most).ok_or_else(|| {
            self.word_error(word, format!("expected {what}, a number from {least} to {most}"))
        })
    }
}

/// A word as a number from `least` to `most`.
fn number<Number: TryFrom<u64>>(word: &str, least: u64, most: u64) -> Option<Number> {
    // Digits only: a sign is accepted by the standard library as well.
    let digits = word.bytes().all(|byte| byte.is_ascii_digit());
    let number = word.parse().ok().filter(|number| digits && (least..=most).contains(number));
    number.and_then(|number| Number::try_from(number).ok())
}

/// The network of a text, or what is wrong with it.
pub fn parse(text: &str) -> Result<Network, TextError> {
    let lines = text.lines().enumerate().filter_map(|(index, line)| Line::of(index, line));
    let lines: Vec<Line> = lines.collect();
    // A word that is none of the three is told first: it may be a misspelt `routers`.
    if let Some(line) = lines.iter().find(|line| !WORDS.contains(&line.first)) {
        return Err(line.word_error(line.first, "expected the word routers, link or prefix"));
    }
    let mut network = without_links(&lines, text.lines().count())?;
    for line in &lines {
        let added = match line.first {
            "link" => network.add_link(link(line)?),
            "prefix" => network.add_prefix(&attachments(line)?),
            _ => Ok(()),
        };
        added.map_err(|limit| line.limit_error(limit))?;
    }
    Ok(network)
}

/// The network of the one line `routers`, with no link and no prefix. The other lines need it,
/// since a router has to be below the number of routers.
fn without_links(lines: &[Line], count: usize) -> Result<Network, TextError> {
    let mut named = lines.iter().filter(|line| line.first == "routers");
    let Some(line) = named.next() else {
        let expected = "the text ends, expected a line `routers N`".to_string();
        return Err(TextError { line: count.max(1), word: String::new(), expected });
    };
    if let Some(second) = named.next() {
        let expected = format!("expected no second line for it, after line {}", line.number);
        return Err(second.word_error(second.first, expected));
    }
    let [routers] = line.words("routers N")?;
    let routers = line.number(routers, "the number of routers", 1, MOST_ROUTERS as u64)?;
    Network::new(routers).map_err(|limit| line.limit_error(limit))
}

fn link(line: &Line) -> Result<Link, TextError> {
    let [a, b, out, back] = line.words("link A B COST-A-TO-B COST-B-TO-A")?;
    Ok(Link {
        a: line.number(a, "router A", 0, MOST_ROUTER)?,
        b: line.number(b, "router B", 0, MOST_ROUTER)?,
        out: line.number(out, "the cost from A to B", 1, MOST_COST)?,
        back: line.number(back, "the cost from B to A", 1, MOST_COST)?,
    })
}

fn attachments(line: &Line) -> Result<Vec<Attachment>, TextError> {
    let attachment = |word: &&str| {
        attachment(word).ok_or_else(|| {
            let expected = format!(
                "expected an attachment ROUTER:COST, the router from 0 to {MOST_ROUTER} and the \
                 cost from 0 to {MOST_COST}"
            );
            line.word_error(word, expected)
        })
    };
    line.rest.iter().map(attachment).collect()
}

fn attachment(word: &str) -> Option<Attachment> {
    let (router, cost) = word.split_once(':')?;
    Some(Attachment { router: number(router, 0, MOST_ROUTER)?, cost: number(cost, 0, MOST_COST)? })
}

/// The text of a network. [`parse`] makes the same network of it.
pub fn print(network: &Network) -> String {
    let mut text = format!("routers {}\n", network.routers());
    for link in network.links() {
        let Link { a, b, out, back } = link;
        let _ = writeln!(text, "link {a} {b} {out} {back}{}", maintenance(link));
    }
    for prefix in network.prefixes() {
        text.push_str("prefix");
        for Attachment { router, cost } in prefix.attachments() {
            let _ = write!(text, " {router}:{cost}");
        }
        text.push('\n');
    }
    text
}

/// The comment of a link that is under maintenance, in one direction or both ways.
fn maintenance(link: &Link) -> String {
    let Link { a, b, out, back } = *link;
    let direction = match (out == MAINTENANCE, back == MAINTENANCE) {
        (true, true) => "both ways".to_string(),
        (true, false) => format!("from {a} to {b}"),
        (false, true) => format!("from {b} to {a}"),
        (false, false) => return String::new(),
    };
    format!("  # under maintenance {direction}")
}
