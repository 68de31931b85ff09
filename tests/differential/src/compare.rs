//! The comparison: one question, asked of both sides.

use crate::call::{Call, ENTRY, Planner, Told};
use crate::kinds::Kind;
use crate::lent::{Lent, filled};
use oracle::answer::{Answer, Buffers, Opened, Outcome, Question};

/// A question and the lengths of the three buffers lent for it.
#[derive(Clone, Debug, PartialEq, Eq)]
pub struct Asked {
    pub question: Question,
    /// Cells of the work area.
    pub cells: usize,
    /// Bytes of the route buffer.
    pub bytes: usize,
    /// Bytes of the buffer that a file is written into.
    pub made: usize,
    /// What the table of a second call is made as, if it has a name.
    pub kind: Option<Kind>,
}

impl Asked {
    /// A question about a file, with a work area and a route buffer.
    pub fn of_file(question: Question, cells: usize, bytes: usize) -> Asked {
        Asked { question, cells, bytes, made: 0, kind: None }
    }

    /// A second call by a table of a kind. It takes no work area; some cells are lent all
    /// the same, so that one that is written is noticed.
    pub fn by_table(question: Question, kind: Kind, cells: &[u32], bytes: usize) -> Asked {
        let question = question.with_table(cells);
        Asked { question, cells: 3, bytes, made: 0, kind: Some(kind) }
    }

    /// A question that writes a file, with a buffer for it.
    pub fn of_buffer(question: Question, made: usize) -> Asked {
        Asked { question, cells: 0, bytes: 0, made, kind: None }
    }

    /// What the oracle is lent: the same pattern without guards.
    pub fn buffers(&self) -> Buffers {
        Buffers { work: filled(self.cells), route: filled(self.bytes), made: filled(self.made) }
    }
}

/// What was heard from a planner: what it told, and every buffer afterwards.
#[derive(Clone, Debug)]
pub struct Heard {
    pub told: Told,
    pub file: Lent<u8>,
    pub choices: Lent<u8>,
    pub ranks: Lent<u8>,
    pub table: Lent<u32>,
    pub work: Lent<u32>,
    pub route: Lent<u8>,
    pub entry: Lent<u8>,
    pub made: Lent<u8>,
}

/// Asks a planner one question. Every buffer is new, with the pattern in it.
pub fn ask(planner: &dyn Planner, file: &[u8], asked: &Asked) -> Heard {
    let file = Lent::holding(file);
    let choices = Lent::holding(choices_of(&asked.question));
    let ranks = Lent::holding(ranks_of(&asked.question));
    let table = Lent::holding(table_of(&asked.question));
    let mut work = Lent::of_length(asked.cells);
    let mut route = Lent::of_length(asked.bytes);
    let mut entry = Lent::of_length(ENTRY);
    let mut made = Lent::of_length(asked.made);
    let told = planner.ask(Call {
        file: file.contents(),
        question: &asked.question,
        choices: choices.contents(),
        ranks: ranks.contents(),
        table: asked.question.table().map(|_| table.contents()),
        work: work.lend(),
        route: route.lend(),
        entry: entry.lend(),
        made: made.lend(),
    });
    Heard { told, file, choices, ranks, table, work, route, entry, made }
}

/// The first thing in which a planner differs from what is expected.
pub fn difference(file: &[u8], asked: &Asked, expected: &Outcome, heard: &Heard) -> Option<String> {
    let told = Told::from(&expected.answer);
    if heard.told != told {
        return Some(format!("it tells {:?}, expected {told:?}", heard.told));
    }
    let mut entry = filled(ENTRY);
    if let Answer::Part { bytes, .. } = &expected.answer {
        entry[..bytes.len()].copy_from_slice(bytes);
    }
    let in_work = heard.work.difference(&expected.left.work);
    let buffers = [
        ("the work area", in_work),
        ("the route buffer", heard.route.difference(&expected.left.route)),
        ("the entry buffer", heard.entry.difference(&entry)),
        ("the buffer for a file", heard.made.difference(&expected.left.made)),
        ("the file", heard.file.difference(file)),
        ("the choices", heard.choices.difference(choices_of(&asked.question))),
        ("the ranks", heard.ranks.difference(ranks_of(&asked.question))),
        ("the table", heard.table.difference(table_of(&asked.question))),
    ];
    let found = buffers.into_iter().find_map(|(name, found)| Some((name, found?)));
    found.map(|(name, found)| format!("in {name}, {found}"))
}

/// A question asked of both sides.
pub struct Compared {
    pub expected: Outcome,
    pub heard: Heard,
    /// The first difference, if there is one.
    pub difference: Option<String>,
}

/// Asks both sides one question about a file. `opened` is that file, opened by
/// the oracle.
pub fn compare(planner: &dyn Planner, opened: &Opened, file: &[u8], asked: &Asked) -> Compared {
    let expected = opened.ask(&asked.question, &asked.buffers());
    let heard = ask(planner, file, asked);
    let difference = difference(file, asked, &expected, &heard);
    Compared { expected, heard, difference }
}

/// The ranks of a question; those that take none have none.
fn ranks_of(question: &Question) -> &[u8] {
    question.ranks().unwrap_or_default()
}

/// The cells of a second call's table; single calls and other questions have none.
fn table_of(question: &Question) -> &[u32] {
    question.table().unwrap_or_default()
}

/// The choice bytes of a question; other questions than routes have none.
fn choices_of(question: &Question) -> &[u8] {
    match question {
        Question::Route { choices, .. } => choices,
        _ => &[],
    }
}
