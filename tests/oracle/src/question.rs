//! The questions: every public call with its inputs.
//!
//! A link repair, a prefix repair and a route can be asked in two ways. A single call
//! works the distances out and leaves them in the work area. A second call takes a
//! table in which they stand already, as the call distances writes them, and only
//! reads it. Where the distances come from is said once, by the question's table: a
//! single call has none.

use crate::columns::Columns;
use crate::ranks::ASCENDING;
use crate::space::Space;

/// A call with its inputs, but for the file and the buffers lent to be written.
#[derive(Clone, Debug, PartialEq, Eq)]
pub enum Question {
    Load,
    LinkEntry {
        link: u64,
    },
    PrefixEntry {
        prefix: u64,
    },
    Distances,
    Space {
        space: Space,
        link: u64,
        end: u64,
    },
    Size {
        set: u64,
    },
    LinkRepair {
        /// The cells of a second call's table.
        table: Option<Vec<u32>>,
        ranks: Vec<u8>,
        link: u64,
        end: u64,
    },
    PrefixRepair {
        table: Option<Vec<u32>>,
        ranks: Vec<u8>,
        link: u64,
        end: u64,
        prefix: u64,
    },
    Route {
        table: Option<Vec<u32>>,
        ranks: Vec<u8>,
        link: u64,
        end: u64,
        prefix: u64,
        choices: Vec<u8>,
    },
    /// What the program `plan` prints.
    Plan,
    /// The drill of a seed with so many routers. It looks at no file.
    Drill {
        seed: u32,
        routers: u64,
    },
    /// The file of a network. It looks at no file either.
    Write {
        network: Box<Columns>,
    },
}

impl Question {
    /// A link repair question with the ranks ascending.
    pub fn link_repair(link: u64, end: u64) -> Question {
        Question::LinkRepair { table: None, ranks: ASCENDING.to_vec(), link, end }
    }

    /// A prefix repair question with the ranks ascending.
    pub fn prefix_repair(link: u64, end: u64, prefix: u64) -> Question {
        Question::PrefixRepair { table: None, ranks: ASCENDING.to_vec(), link, end, prefix }
    }

    /// A route question with the ranks ascending.
    pub fn route(link: u64, end: u64, prefix: u64, choices: &[u8]) -> Question {
        let choices = choices.to_vec();
        Question::Route { table: None, ranks: ASCENDING.to_vec(), link, end, prefix, choices }
    }

    /// The ranks of a question that takes them.
    pub fn ranks(&self) -> Option<&[u8]> {
        match self {
            Question::LinkRepair { ranks, .. }
            | Question::PrefixRepair { ranks, .. }
            | Question::Route { ranks, .. } => Some(ranks),
            _ => None,
        }
    }

    /// The same question with other ranks, if it takes them.
    pub fn with_ranks(mut self, own: &[u8]) -> Question {
        if let Question::LinkRepair { ranks, .. }
        | Question::PrefixRepair { ranks, .. }
        | Question::Route { ranks, .. } = &mut self
        {
            *ranks = own.to_vec();
        }
        self
    }

    /// The cells of the table, if this is a second call.
    pub fn table(&self) -> Option<&[u32]> {
        match self {
            Question::LinkRepair { table, .. }
            | Question::PrefixRepair { table, .. }
            | Question::Route { table, .. } => table.as_deref(),
            _ => None,
        }
    }

    /// The same question put as a second call with this table, if it is one that is
    /// split in two.
    pub fn with_table(self, cells: &[u32]) -> Question {
        self.read_from(Some(cells.to_vec()))
    }

    /// The same question put as a single call.
    pub fn single(self) -> Question {
        self.read_from(None)
    }

    fn read_from(mut self, own: Option<Vec<u32>>) -> Question {
        if let Question::LinkRepair { table, .. }
        | Question::PrefixRepair { table, .. }
        | Question::Route { table, .. } = &mut self
        {
            *table = own;
        }
        self
    }
}
