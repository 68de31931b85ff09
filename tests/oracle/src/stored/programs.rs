//! The programs of the repository that have a stored input and a stored
//! output.
//!
//! A program that reads cases gets them one after the other: for each a 16-bit
//! length, least byte first, then that many bytes of the file. It prints for
//! each case, in the same order, the line `case K`, K counting from 0, and then
//! its sections. The lines of a section are described in the section's own
//! module. Every line ends with a newline.

use super::cases::{Case, Cases};
use super::{distances, drills, reading, repairs, routes, tables};
use crate::answer::plan_text;
use crate::fault::Context;

/// A program, named by its folder in `crates`.
pub struct Program {
    pub name: &'static str,
    reads: Reads,
    /// What it prints for one file, in this order.
    sections: &'static [Section],
}

/// What a program reads.
enum Reads {
    /// The networks, then the files for the reader.
    Cases,
    /// One example: its file and nothing else.
    Example(&'static str),
    /// The requests for drills and nothing else.
    Drills,
}

/// The lines about one file that belong together.
#[derive(Clone, Copy)]
pub struct Section {
    pub name: &'static str,
    /// The lines for a file.
    pub lines: fn(&Context, &[u8]) -> String,
}

const READING: Section = Section { name: "reading", lines: reading::lines };
const DISTANCES: Section = Section { name: "distances", lines: distances::lines };
const REPAIRS: Section = Section { name: "repairs", lines: repairs::lines };
const ROUTES: Section = Section { name: "routes", lines: routes::lines };
const TABLES: Section = Section { name: "tables", lines: tables::lines };
const PLAN: Section = Section { name: "plan", lines: plan_text };
const DRILLS: Section = Section { name: "drills", lines: drills::lines };

/// The sections about a stored case.
pub const SECTIONS: &[Section] = &[READING, DISTANCES, REPAIRS, ROUTES, TABLES];

/// All programs.
pub const PROGRAMS: &[Program] = &[
    Program { name: "stored_answers", reads: Reads::Cases, sections: &[READING, REPAIRS] },
    Program { name: "stored_buffers", reads: Reads::Cases, sections: &[DISTANCES, ROUTES] },
    Program { name: "stored_tables", reads: Reads::Cases, sections: &[TABLES] },
    Program { name: "stored_drills", reads: Reads::Drills, sections: &[DRILLS] },
    Program { name: "plan", reads: Reads::Example("ring4"), sections: &[PLAN] },
];

impl Section {
    /// The section of a name.
    pub fn named(name: &str) -> Option<&'static Section> {
        SECTIONS.iter().find(|section| section.name == name)
    }
}

impl Program {
    /// The program of a name.
    pub fn named(name: &str) -> Option<&'static Program> {
        PROGRAMS.iter().find(|program| program.name == name)
    }

    /// The cases that the program reads, in their order.
    pub fn chosen<'a>(&self, cases: &'a Cases) -> Result<Vec<&'a Case>, String> {
        match self.reads {
            Reads::Cases => Ok(cases.networks.iter().chain(&cases.reader).collect()),
            Reads::Example(name) => Ok(vec![named(&cases.examples, name)?]),
            Reads::Drills => Ok(vec![&cases.drills]),
        }
    }

    /// The stored input, unless a file is too long for it.
    pub fn input(&self, chosen: &[&Case]) -> Result<Vec<u8>, String> {
        let mut input = Vec::new();
        for case in chosen {
            if matches!(self.reads, Reads::Cases) {
                input.extend(length(case)?);
            }
            input.extend(&case.file);
        }
        Ok(input)
    }

    /// The stored output.
    pub fn output(&self, ctx: &Context, chosen: &[&Case]) -> String {
        let mut output = String::new();
        for (number, case) in chosen.iter().enumerate() {
            if matches!(self.reads, Reads::Cases) {
                output += &format!("case {number}\n");
            }
            for section in self.sections {
                output += &(section.lines)(ctx, &case.file);
            }
        }
        output
    }
}

/// The case of a name.
fn named<'a>(cases: &'a [Case], name: &str) -> Result<&'a Case, String> {
    let found = cases.iter().find(|case| case.name == name);
    found.ok_or(format!("there is no text {name}.txt"))
}

/// The length of a case's file as a 16-bit number, least byte first.
fn length(case: &Case) -> Result<[u8; 2], String> {
    let bytes = case.file.len();
    let too_long = |_| format!("{}.txt makes a file of {bytes} bytes, over 65535", case.name);
    u16::try_from(bytes).map(u16::to_le_bytes).map_err(too_long)
}
