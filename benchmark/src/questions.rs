//! The calls of a plan, and what a link question with table is made of.
//!
//! Both sides are compiled into few functions, so that a part of a question is no
//! function whose time could be taken. It is taken by refusals, which come at the
//! same places on both sides: the rows are tried in a fixed order.

use crate::answer::{Answer, Refusal, ACCEPTED};
use crate::baseline::Baseline;
use crate::plan;
use crate::planner::Planner;
use crate::side::Side;
use crate::timing::measure_each;
use planner::ASCENDING_RANKS;
use std::hint::black_box;

/// What is measured.
#[derive(Clone, Copy, Debug, PartialEq, Eq)]
pub enum Call {
    /// A question that row 10 refuses, since it is lent a table of no cells: the
    /// file is judged, and nothing more.
    File,
    /// A question that row 12 refuses, since its link is too large: the file is
    /// judged and the table checked.
    FileAndTable,
    /// A question that is answered.
    Question,
    Load,
    Fill,
    Plan,
}

impl Call {
    pub const ALL: [Call; 6] =
        [Call::File, Call::FileAndTable, Call::Question, Call::Load, Call::Fill, Call::Plan];

    /// The word for the command line.
    pub fn word(self) -> &'static str {
        match self {
            Call::File => "file",
            Call::FileAndTable => "file-and-table",
            Call::Question => "question",
            Call::Load => "load",
            Call::Fill => "fill",
            Call::Plan => "plan",
        }
    }

    pub fn of_word(word: &str) -> Option<Call> {
        Call::ALL.into_iter().find(|call| call.word() == word)
    }
}

/// A file, and the table of its distances.
pub struct Asked {
    file: Vec<u8>,
    table: Vec<u32>,
    pub links: usize,
}

/// The buffers that one side writes into.
pub struct Room {
    work: Vec<u32>,
    text: Vec<u8>,
}

impl Room {
    pub fn new() -> Room {
        Room { work: vec![0; 64 * 64], text: Vec::with_capacity(1 << 14) }
    }
}

impl Default for Room {
    fn default() -> Room {
        Room::new()
    }
}

/// Keeps the lesser of two figures each. What else the machine does only adds time.
pub fn lower(least: &mut [f64], again: &[f64]) {
    for (least, again) in least.iter_mut().zip(again) {
        *least = least.min(*again);
    }
}

/// One question. It is not inlined, so that the refused questions run the same
/// instructions as the answered ones, up to where they are refused.
#[inline(never)]
fn question<S: Side>(file: &[u8], table: &[u32], link: usize, end: usize) -> Answer {
    let (file, table, ranks) = black_box((file, table, &ASCENDING_RANKS));
    black_box(S::link_repair_with(file, table, ranks, link, end))
}

impl Asked {
    /// A file that is accepted.
    pub fn new(file: Vec<u8>) -> Asked {
        let network = Baseline::load(&file);
        assert_eq!(network.kind, ACCEPTED, "the file is refused");
        let mut table = vec![0; 64 * 64];
        Baseline::distances(&file, &mut table);
        Asked { file, table, links: network.links }
    }

    pub fn file(&self) -> &[u8] {
        &self.file
    }

    /// How many calls a pass is.
    pub fn calls(&self, call: Call) -> usize {
        match call {
            Call::File | Call::FileAndTable | Call::Question => 2 * self.links,
            Call::Load | Call::Fill | Call::Plan => 1,
        }
    }

    /// Asks one question for each link and end, those of a plan. A question whose
    /// answer depends on the link takes longer for some than for others.
    fn each<S: Side>(&self, table: &[u32], link_of: impl Fn(usize) -> usize) {
        for link in 0..self.links {
            for end in 0..2 {
                question::<S>(&self.file, table, link_of(link), end);
            }
        }
    }

    /// All calls of one kind that a plan has, or would have.
    pub fn pass<S: Side>(&self, call: Call, room: &mut Room) {
        let file = black_box(&self.file[..]);
        match call {
            Call::File => self.each::<S>(&[], |link| link),
            Call::FileAndTable => self.each::<S>(&self.table, |_| self.links),
            Call::Question => self.each::<S>(&self.table, |link| link),
            Call::Load => {
                black_box(&S::load(file));
            }
            Call::Fill => {
                black_box(S::distances(file, black_box(&mut room.work)));
            }
            Call::Plan => {
                room.text.clear();
                plan::write::<S>(file, black_box(&mut room.work), &mut room.text);
                black_box(&room.text);
            }
        }
    }

    /// Tells whether one side refuses the refused questions by the rows that the
    /// parts are taken by.
    pub fn refuses<S: Side>(&self) -> Result<(), String> {
        let cells = Baseline::load(&self.file).routers.pow(2);
        let links = self.links;
        for end in 0..2 {
            let file = question::<S>(&self.file, &[], 0, end);
            let table = question::<S>(&self.file, &self.table, links, end);
            if (file, table) != (Refusal::new(10, cells).into(), Refusal::new(12, links).into()) {
                return Err(format!("{}: {file:?} and {table:?}", S::NAME));
            }
        }
        Ok(())
    }

    /// Nanoseconds for one call of each kind, of the planner and of the baseline.
    /// The samples of all take turns, so that what else the machine does falls on
    /// all alike.
    pub fn times<const COUNT: usize>(
        &self,
        rounds: usize,
        kinds: [Call; COUNT],
    ) -> [[f64; COUNT]; 2] {
        let mut passes: Vec<Box<dyn FnMut() + '_>> = Vec::new();
        for kind in kinds {
            let (mut one, mut other) = (Room::new(), Room::new());
            passes.push(Box::new(move || self.pass::<Planner>(kind, &mut one)));
            passes.push(Box::new(move || self.pass::<Baseline>(kind, &mut other)));
        }
        let times = measure_each(rounds, &mut passes);
        [0, 1].map(|side| {
            std::array::from_fn(|kind| times[2 * kind + side] / self.calls(kinds[kind]) as f64)
        })
    }

    /// The same where only the samples of the two sides take turns, as in the main
    /// program. A call that comes after others of another kind takes longer: the
    /// processor has forgotten its branches, which tells with the baseline's fill.
    pub fn separate_times<const COUNT: usize>(
        &self,
        rounds: usize,
        kinds: [Call; COUNT],
    ) -> [[f64; COUNT]; 2] {
        let times = kinds.map(|kind| self.times(rounds, [kind]));
        [0, 1].map(|side| times.map(|sides| sides[side][0]))
    }
}
