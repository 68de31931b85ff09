//! Every public call of the planner as a pure function: the answer, and what
//! the call leaves in every buffer lent to it.

use crate::columns::Columns;
use crate::fault::{Context, Fault};
use crate::file::{self, Bytes, Head};
use crate::network::{LinkEnd, Network};
use crate::plan;
use crate::ranks::{self, ASCENDING};
use crate::repair::{self, Pair, Repair};
use crate::route;
use crate::row::{self, Cause, Inputs, Refusal};
use crate::space::{self, Space};
use crate::table;
use crate::workings::Workings;
use crate::writing;
use std::cell::OnceCell;

pub use crate::question::Question;

/// The answer of a call.
#[derive(Clone, Debug, PartialEq, Eq)]
pub enum Answer {
    /// The number and the value of the refusal's row.
    Refused {
        number: u8,
        value: u32,
    },
    /// The file is accepted and holds this network.
    Accepted(Network),
    /// The bytes of an entry and their offset in the file; or no bytes, and
    /// then offset 0.
    Part {
        offset: usize,
        bytes: Vec<u8>,
    },
    /// The work area holds the distances.
    Done,
    /// A space.
    Set(u64),
    /// The size of a set.
    Size(u32),
    Unreachable,
    Untouched,
    Pair(Pair),
    /// The number of routers written.
    Count(usize),
    /// The text of a plan.
    Text(String),
    /// The number of bytes written of a file.
    Written(usize),
}

/// The buffers that a caller lends: a work area of 32-bit cells, a route buffer
/// of bytes, and a buffer of bytes that a file is written into. A call leaves
/// those that it does not take. A second call's table is only read: it is part of
/// the question.
#[derive(Clone, Debug, Default, PartialEq, Eq)]
pub struct Buffers {
    pub work: Vec<u32>,
    pub route: Vec<u8>,
    pub made: Vec<u8>,
}

/// The answer of a call and the contents of the lent buffers after it.
#[derive(Clone, Debug, PartialEq, Eq)]
pub struct Outcome {
    pub answer: Answer,
    pub left: Buffers,
}

/// The call load: the network of an accepted file, or the refusal.
pub fn load(ctx: &Context, file: &[u8]) -> Result<Network, Refusal> {
    let opened = Opened::new(ctx, file);
    match opened.refusal(&Inputs::default()) {
        Some(refusal) => Err(refusal),
        None => Ok(opened.workings().network.clone()),
    }
}

/// The call link entry.
pub fn link_entry(ctx: &Context, file: &[u8], link: u64) -> Outcome {
    ask(ctx, file, &Question::LinkEntry { link }, &Buffers::default())
}

/// The call prefix entry.
pub fn prefix_entry(ctx: &Context, file: &[u8], prefix: u64) -> Outcome {
    ask(ctx, file, &Question::PrefixEntry { prefix }, &Buffers::default())
}

/// The call distances.
pub fn distances(ctx: &Context, file: &[u8], work: &[u32]) -> Outcome {
    ask(ctx, file, &Question::Distances, &work_only(work))
}

/// The calls P space, extended P space and Q space.
pub fn space(
    ctx: &Context,
    file: &[u8],
    work: &[u32],
    space: Space,
    link: u64,
    end: u64,
) -> Outcome {
    ask(ctx, file, &Question::Space { space, link, end }, &work_only(work))
}

/// The call size: the number of ones of any 64-bit number.
pub fn size(ctx: &Context, set: u64) -> u32 {
    if ctx.has(Fault::SizeOfComplement) {
        return set.count_zeros();
    }
    if ctx.has(Fault::SizeOf32Bits) {
        return (set & 0xffff_ffff).count_ones();
    }
    set.count_ones()
}

/// The call link repair.
pub fn link_repair(
    ctx: &Context,
    file: &[u8],
    work: &[u32],
    ranks: &[u8],
    link: u64,
    end: u64,
) -> Outcome {
    let question = Question::link_repair(link, end).with_ranks(ranks);
    ask(ctx, file, &question, &work_only(work))
}

/// The call prefix repair.
pub fn prefix_repair(
    ctx: &Context,
    file: &[u8],
    work: &[u32],
    ranks: &[u8],
    (link, end, prefix): (u64, u64, u64),
) -> Outcome {
    let question = Question::prefix_repair(link, end, prefix).with_ranks(ranks);
    ask(ctx, file, &question, &work_only(work))
}

/// The call route. `lent` holds the work area and the route buffer.
pub fn route(
    ctx: &Context,
    file: &[u8],
    lent: &Buffers,
    ranks: &[u8],
    (link, end, prefix): (u64, u64, u64),
    choices: &[u8],
) -> Outcome {
    let question = Question::route(link, end, prefix, choices).with_ranks(ranks);
    ask(ctx, file, &question, lent)
}

/// The second call of a link repair: it reads the distances in a table.
pub fn link_repair_by_table(
    ctx: &Context,
    file: &[u8],
    table: &[u32],
    ranks: &[u8],
    link: u64,
    end: u64,
) -> Outcome {
    let question = Question::link_repair(link, end).with_ranks(ranks).with_table(table);
    ask(ctx, file, &question, &Buffers::default())
}

/// The second call of a prefix repair.
pub fn prefix_repair_by_table(
    ctx: &Context,
    file: &[u8],
    table: &[u32],
    ranks: &[u8],
    (link, end, prefix): (u64, u64, u64),
) -> Outcome {
    let question = Question::prefix_repair(link, end, prefix).with_ranks(ranks).with_table(table);
    ask(ctx, file, &question, &Buffers::default())
}

/// The second call of a route. The route buffer is all that it may write.
pub fn route_by_table(
    ctx: &Context,
    file: &[u8],
    table: &[u32],
    route_buffer: &[u8],
    ranks: &[u8],
    (link, end, prefix): (u64, u64, u64),
    choices: &[u8],
) -> Outcome {
    let question = Question::route(link, end, prefix, choices).with_ranks(ranks).with_table(table);
    let lent = Buffers { route: route_buffer.to_vec(), ..Buffers::default() };
    ask(ctx, file, &question, &lent)
}

/// What the program `plan` prints.
pub fn plan_text(ctx: &Context, file: &[u8]) -> String {
    plan::text(&Opened::new(ctx, file))
}

/// Any call.
pub fn ask(ctx: &Context, file: &[u8], question: &Question, lent: &Buffers) -> Outcome {
    Opened::new(ctx, file).ask(question, lent)
}

/// The call that writes a drill.
pub fn drill(ctx: &Context, seed: u32, routers: u64, made: &[u8]) -> Outcome {
    ask(ctx, &[], &Question::Drill { seed, routers }, &made_only(made))
}

/// The call that writes a network.
pub fn write(ctx: &Context, network: &Columns, made: &[u8]) -> Outcome {
    let network = Box::new(network.clone());
    ask(ctx, &[], &Question::Write { network }, &made_only(made))
}

fn work_only(work: &[u32]) -> Buffers {
    Buffers { work: work.to_vec(), ..Buffers::default() }
}

fn made_only(made: &[u8]) -> Buffers {
    Buffers { made: made.to_vec(), ..Buffers::default() }
}

/// A file that questions are asked about. What several questions need is
/// worked out once; the answers are those of separate calls.
pub struct Opened<'a> {
    ctx: &'a Context,
    file: &'a [u8],
    /// The rows 1 to 9, each tried at most once.
    file_rows: [OnceCell<Option<Refusal>>; 9],
    workings: OnceCell<Workings>,
}

impl<'a> Opened<'a> {
    /// A file, sound or not.
    pub fn new(ctx: &'a Context, file: &'a [u8]) -> Opened<'a> {
        let file_rows = std::array::from_fn(|_| OnceCell::new());
        Opened { ctx, file, file_rows, workings: OnceCell::new() }
    }

    /// The first row that applies to a question with these inputs.
    pub fn refusal(&self, inputs: &Inputs) -> Option<Refusal> {
        let mut rows = row::order(self.ctx).into_iter();
        let found = rows.find_map(|row| self.row(row, inputs));
        if found.is_none() && self.ctx.has(Fault::SoundFileTurnedDown) {
            return Some(Refusal::new(Cause::LengthUneven, 0));
        }
        found
    }

    fn row(&self, row: u8, inputs: &Inputs) -> Option<Refusal> {
        match row {
            1..=9 => *self.file_rows[usize::from(row) - 1]
                .get_or_init(|| file::rows::row(self.ctx, row, self.file)),
            18 => {
                let refusal = |cells| table::row(self.workings(), cells, inputs.link_end);
                inputs.table.and_then(refusal)
            }
            _ => row::question_row(self.ctx, row, &Head::of(Bytes(self.file)), inputs),
        }
    }

    /// The network of the file and all that follows from it.
    pub fn workings(&self) -> &Workings {
        self.workings.get_or_init(|| {
            let network = file::network(self.ctx, self.file);
            Workings::of(self.ctx, network)
        })
    }

    /// The answer to a question and what it leaves in the lent buffers.
    pub fn ask(&self, question: &Question, lent: &Buffers) -> Outcome {
        let leave_all = |answer| Outcome { answer, left: lent.clone() };
        match question {
            Question::Load => leave_all(self.load()),
            Question::LinkEntry { link } => {
                leave_all(self.part(|| file::link_part(self.ctx, self.file, *link)))
            }
            Question::PrefixEntry { prefix } => {
                leave_all(self.part(|| file::prefix_part(self.ctx, self.file, *prefix)))
            }
            Question::Size { set } => leave_all(Answer::Size(size(self.ctx, *set))),
            Question::Plan => leave_all(Answer::Text(plan::text(self))),
            Question::Drill { seed, routers } => {
                written(lent, |made| writing::drill(self.ctx, *seed, *routers, made))
            }
            Question::Write { network } => {
                written(lent, |made| writing::write(self.ctx, network, made))
            }
            Question::Distances
            | Question::Space { .. }
            | Question::LinkRepair { .. }
            | Question::PrefixRepair { .. }
            | Question::Route { .. } => self.compute(question, lent),
        }
    }

    fn load(&self) -> Answer {
        match self.refusal(&Inputs::default()) {
            Some(refusal) => refused(self.ctx, &refusal),
            None => Answer::Accepted(self.workings().network.clone()),
        }
    }

    /// The part of an entry; it is empty for a refused file.
    fn part(&self, place: impl Fn() -> std::ops::Range<usize>) -> Answer {
        let refused = self.refusal(&Inputs::default()).is_some();
        if refused && !self.ctx.has(Fault::EntryOfRefusedFile) {
            return Answer::Part { offset: 0, bytes: Vec::new() };
        }
        let range = place();
        let bytes = self.file[range.clone()].to_vec();
        let offset = if bytes.is_empty() { 0 } else { range.start };
        Answer::Part { offset, bytes }
    }

    /// A call that computes: a row other than 14 leaves all that was lent,
    /// otherwise the work area holds the distances. A second call takes no work
    /// area, and its table is only read.
    fn compute(&self, question: &Question, lent: &Buffers) -> Outcome {
        let mut left = lent.clone();
        let fills = question.table().is_none();
        if let Some(refusal) = self.refusal(&inputs(question, lent)) {
            if fills && self.filled_all_the_same(&refusal) {
                self.fill(&mut left.work);
            }
            self.touched_all_the_same(&refusal, &mut left);
            return Outcome { answer: refused(self.ctx, &refusal), left };
        }
        let answer = self.answer(question, &mut left.route);
        if fills && !self.work_area_forgotten(&answer) {
            self.fill(&mut left.work);
        }
        Outcome { answer, left }
    }

    /// What a fault writes though a row turns the question away.
    fn touched_all_the_same(&self, refusal: &Refusal, left: &mut Buffers) {
        if self.ctx.has(Fault::RefusalTouchesBuffers) {
            left.work.iter_mut().take(1).for_each(|cell| *cell = 0);
            left.route.iter_mut().take(1).for_each(|byte| *byte = 0);
        }
        if refusal.number == 18 && self.ctx.has(Fault::EighteenWritesRoute) {
            let bytes = 2 * self.workings().hops.routers();
            left.route.iter_mut().take(bytes).for_each(|byte| *byte = 0);
        }
    }

    /// Whether the distances stand in the work area after a refusal that was
    /// known without a search. With the sound order that is never so.
    fn filled_all_the_same(&self, refusal: &Refusal) -> bool {
        let question_row = [11, 15, 12, 13].contains(&refusal.number);
        refusal.number == 14
            || question_row && self.ctx.has(Fault::FilledBeforeQuestion)
            || refusal.number == 15 && self.ctx.has(Fault::FifteenFills)
    }

    /// Whether a fault leaves the work area as it was.
    fn work_area_forgotten(&self, answer: &Answer) -> bool {
        let forgotten = match answer {
            Answer::Refused { .. } => self.ctx.has(Fault::FourteenLeavesWorkArea),
            Answer::Untouched | Answer::Unreachable => self.ctx.has(Fault::UntouchedLeavesWorkArea),
            _ => false,
        };
        forgotten || self.ctx.has(Fault::WorkAreaUntouched)
    }

    /// Writes the N x N distances; later cells stay as they were.
    fn fill(&self, work: &mut [u32]) {
        let mut cells = self.workings().distances.cells(self.ctx);
        if self.ctx.has(Fault::CellBeyondWritten) {
            cells.push(0);
        }
        for (place, cell) in work.iter_mut().zip(cells) {
            *place = cell;
        }
    }

    /// The answer to a question that all rows but 14 let pass. A second call goes by
    /// the numbers of its table; after the check they are the file's distances.
    fn answer(&self, question: &Question, route_buffer: &mut [u8]) -> Answer {
        let by_table = question.table().and_then(|cells| table::workings(self.workings(), cells));
        let workings = by_table.as_ref().unwrap_or(self.workings());
        let link_end = |link, end| workings.network.link_end(self.ctx, link, end);
        match question {
            Question::Space { space, link, end } => match link_end(*link, *end) {
                Some(link_end) => {
                    let members = space::members(workings, *space, &link_end);
                    Answer::Set(space::set_of(workings, &members))
                }
                None => Answer::Set(0),
            },
            Question::LinkRepair { ranks, link, end, .. } => {
                let ranks = self.ranks(ranks, Fault::LinkRepairAscending);
                let repaired = |link_end| repair::link_repair(workings, &link_end, ranks);
                self.repair(ranks, link_end(*link, *end).map_or(Repair::None, repaired))
            }
            Question::PrefixRepair { ranks, link, end, prefix, .. } => {
                let ranks = self.ranks(ranks, Fault::PrefixRepairAscending);
                let repaired =
                    |link_end| repair::prefix_repair(workings, &link_end, *prefix, ranks);
                self.repair(ranks, link_end(*link, *end).map_or(Repair::None, repaired))
            }
            Question::Route { ranks, link, end, prefix, choices, .. } => {
                let ranks = &self.route_ranks(ranks);
                match link_end(*link, *end) {
                    Some(link_end) => {
                        let asked = (&link_end, *prefix, choices.as_slice());
                        self.played(workings, ranks, asked, route_buffer)
                    }
                    None => self.repair(ranks, Repair::None),
                }
            }
            _ => Answer::Done,
        }
    }

    /// The ranks that a call goes by: those lent to it, unless a fault drops them.
    fn ranks<'r>(&self, lent: &'r [u8], dropped: Fault) -> &'r [u8] {
        if self.ctx.has(dropped) { &ASCENDING } else { lent }
    }

    /// The ranks that a route goes by. With a fault the classes from 4 on have those
    /// of the others.
    fn route_ranks(&self, lent: &[u8]) -> Vec<u8> {
        let ranks = self.ranks(lent, Fault::RouteAscending);
        let half = &ranks[..ranks.len() / 2];
        let halved = self.ctx.has(Fault::RouteRankOfClassModulo4);
        if halved { half.repeat(2) } else { ranks.to_vec() }
    }

    fn repair(&self, ranks: &[u8], repair: Repair) -> Answer {
        match repair {
            Repair::Unreachable => Answer::Unreachable,
            Repair::Untouched => Answer::Untouched,
            Repair::None => refused(self.ctx, &Refusal::new(Cause::NoPair, 0)),
            Repair::Pair(pair) => self.late_refusal(ranks).unwrap_or(Answer::Pair(pair)),
        }
    }

    /// What a fault makes row 15 say where there is a pair already.
    fn late_refusal(&self, ranks: &[u8]) -> Option<Answer> {
        let late = self.ctx.has(Fault::RanksTriedForPair);
        let refusal = ranks::row(self.ctx, ranks).filter(|_| late)?;
        Some(refused(self.ctx, &refusal))
    }

    /// Plays the route of a prefix's repair and writes it. Any answer but a
    /// pair is passed on and writes nothing.
    fn played(
        &self,
        workings: &Workings,
        ranks: &[u8],
        (link_end, prefix, choices): (&LinkEnd, u64, &[u8]),
        route_buffer: &mut [u8],
    ) -> Answer {
        let repair = repair::prefix_repair(workings, link_end, prefix, ranks);
        let answer = self.repair(ranks, repair);
        let (Repair::Pair(pair), Answer::Pair(_)) = (repair, &answer) else {
            if self.ctx.has(Fault::NothingPlayedWrites) {
                write_route(route_buffer, &[link_end.s]);
            }
            return answer;
        };
        let routers = route::play(workings, link_end, prefix, &pair, choices);
        write_route(route_buffer, &routers);
        if self.ctx.has(Fault::LaterBytesTouched) {
            route_buffer.iter_mut().skip(routers.len()).take(1).for_each(|byte| *byte = 0);
        }
        let one_more = usize::from(self.ctx.has(Fault::RouteCountWrong));
        Answer::Count(routers.len() + one_more)
    }
}

/// Writes each router as one byte; later bytes stay as they were.
fn write_route(route_buffer: &mut [u8], routers: &[usize]) {
    for (byte, router) in route_buffer.iter_mut().zip(routers) {
        *byte = u8::try_from(*router).unwrap_or(u8::MAX);
    }
}

/// The outcome of a call that writes a file.
fn written(lent: &Buffers, write: impl Fn(&mut [u8]) -> usize) -> Outcome {
    let mut left = lent.clone();
    let count = write(&mut left.made);
    Outcome { answer: Answer::Written(count), left }
}

/// The answer of a refusal.
fn refused(ctx: &Context, refusal: &Refusal) -> Answer {
    let Refusal { number, value, .. } = *refusal;
    if ctx.has(Fault::NumberAndValueSwapped) {
        let number_from_value = u8::try_from(value).unwrap_or(u8::MAX);
        return Answer::Refused { number: number_from_value, value: u32::from(number) };
    }
    Answer::Refused { number, value }
}

/// What a question has inputs for. With it `Opened::refusal` tells the cause of
/// a refusal, which is no part of an answer; tests count the causes they met.
pub fn inputs<'q>(question: &'q Question, lent: &Buffers) -> Inputs<'q> {
    let (ranks, table) = (question.ranks(), question.table());
    // A second call takes a table in the place of the work area.
    let work = if table.is_none() { Some(lent.work.len()) } else { None };
    let computing = Inputs { work, table, ..Inputs::default() };
    match question {
        Question::Distances => computing,
        Question::Space { link, end, .. } | Question::LinkRepair { link, end, .. } => {
            Inputs { ranks, link_end: Some((*link, *end)), ..computing }
        }
        Question::PrefixRepair { link, end, prefix, .. } => {
            Inputs { ranks, link_end: Some((*link, *end)), prefix: Some(*prefix), ..computing }
        }
        Question::Route { link, end, prefix, .. } => Inputs {
            ranks,
            route: Some(lent.route.len()),
            link_end: Some((*link, *end)),
            prefix: Some(*prefix),
            ..computing
        },
        _ => Inputs::default(),
    }
}
