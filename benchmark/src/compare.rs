//! Compares all outputs of the two sides, before anything is timed.

use crate::answer::{Answer, Space, PAIR};
use crate::plan;
use crate::side::Side;
use planner::ASCENDING_RANKS;

/// Cells and bytes after those that a call may write: they have to stay.
const GUARD: usize = 3;

/// The ranks that repairs are asked for with: those of links with both tables,
/// those of prefixes with the first where the prefix number is even.
const RANKS: [[u8; 8]; 2] = [ASCENDING_RANKS, [2, 6, 4, 7, 3, 5, 1, 0]];

/// The choices that each route is played with.
fn choice_strings() -> Vec<Vec<u8>> {
    let long = |factor: usize| (0..128).map(|place| (place * factor % 251) as u8).collect();
    vec![vec![], vec![1], long(7), vec![255; 128]]
}

/// The buffers that are lent to one side.
struct Lent {
    work: Vec<u32>,
    route: Vec<u8>,
}

impl Lent {
    fn new(routers: usize) -> Lent {
        let work = (0..routers * routers + GUARD).map(|place| 0xc0de_0000 + place as u32);
        let route = (0..2 * routers + GUARD).map(|place| 0x80 | place as u8);
        Lent { work: work.collect(), route: route.collect() }
    }
}

/// An answer, and what the call left in the buffers.
struct Outcome {
    answer: Answer,
    left: Lent,
}

/// The questions about one file, asked of two sides.
struct Comparison<'a> {
    file: &'a [u8],
    /// The distances, and cells after them, for the calls that are lent a table.
    table: &'a [u32],
    routers: usize,
    asked: usize,
}

/// Asks both sides every question about a file: every link and end, and every
/// so manieth prefix; a repair and a route also with the table of the distances,
/// and then the answer has to be the same again. The answer is how many questions
/// there were, or which one is answered differently.
pub fn compare<A: Side, B: Side>(file: &[u8], every: usize) -> Result<usize, String> {
    let network = A::load(file);
    if network != B::load(file) {
        return Err("load".into());
    }
    let routers = network.routers;
    let mut table = Lent::new(routers).work;
    A::distances(file, &mut table);
    let before = table.clone();
    let mut comparison = Comparison { file, table: &table, routers, asked: 1 };
    comparison.distances::<A, B>()?;
    comparison.plan::<A, B>()?;
    for (link, end) in (0..network.links).flat_map(|link| [(link, 0), (link, 1)]) {
        comparison.link::<A, B>(link, end)?;
        for prefix in (0..network.prefixes).step_by(every) {
            comparison.prefix::<A, B>(link, end, prefix)?;
        }
    }
    let asked = comparison.asked;
    if table != before {
        return Err("the table is written".into());
    }
    Ok(asked)
}

impl Comparison<'_> {
    /// Asks both sides one question, with buffers that show what is written.
    fn ask(
        &mut self,
        name: impl FnOnce() -> String,
        a: impl FnOnce(&mut Lent) -> Answer,
        b: impl FnOnce(&mut Lent) -> Answer,
    ) -> Result<Outcome, String> {
        let (mut one, mut other) = (Lent::new(self.routers), Lent::new(self.routers));
        let (answer, second) = (a(&mut one), b(&mut other));
        self.asked += 1;
        if answer != second {
            return Err(format!("{}: {answer:?} and {second:?}", name()));
        }
        if let Some(cell) = (0..one.work.len()).find(|cell| one.work[*cell] != other.work[*cell]) {
            return Err(format!("{}: cell {cell} of the work area", name()));
        }
        if one.route != other.route {
            return Err(format!("{}: the route buffer", name()));
        }
        Ok(Outcome { answer, left: one })
    }

    /// Asks both sides the question that was just asked with the table in place of
    /// the work area. They have to answer, and to leave the route, as before.
    fn ask_again(
        &mut self,
        name: impl Fn() -> String,
        first: &Outcome,
        a: impl FnOnce(&mut Lent) -> Answer,
        b: impl FnOnce(&mut Lent) -> Answer,
    ) -> Result<(), String> {
        let name = || format!("{}, with the table", name());
        let second = self.ask(name, a, b)?;
        if second.answer != first.answer || second.left.route != first.left.route {
            return Err(format!("{}: not as without it", name()));
        }
        Ok(())
    }

    fn distances<A: Side, B: Side>(&mut self) -> Result<(), String> {
        let file = self.file;
        self.ask(
            || "distances".into(),
            |lent| A::distances(file, &mut lent.work),
            |lent| B::distances(file, &mut lent.work),
        )?;
        Ok(())
    }

    fn plan<A: Side, B: Side>(&mut self) -> Result<(), String> {
        let mut texts = [Vec::new(), Vec::new()];
        let mut work = vec![0; self.routers * self.routers];
        plan::write::<A>(self.file, &mut work, &mut texts[0]);
        plan::write::<B>(self.file, &mut work, &mut texts[1]);
        self.asked += 1;
        if texts[0] != texts[1] {
            return Err("the text of the plan".into());
        }
        Ok(())
    }

    fn link<A: Side, B: Side>(&mut self, link: usize, end: usize) -> Result<(), String> {
        let file = self.file;
        for space in Space::ALL {
            self.ask(
                || format!("space {space:?} of link {link}, end {end}"),
                |lent| A::space(space, file, &mut lent.work, link, end),
                |lent| B::space(space, file, &mut lent.work, link, end),
            )?;
        }
        for ranks in RANKS {
            self.link_repair::<A, B>(&ranks, link, end)?;
        }
        Ok(())
    }

    fn link_repair<A: Side, B: Side>(
        &mut self,
        ranks: &[u8],
        link: usize,
        end: usize,
    ) -> Result<(), String> {
        let (file, table) = (self.file, self.table);
        let name = || format!("repair of link {link}, end {end}, ranks {ranks:?}");
        let first = self.ask(
            name,
            |lent| A::link_repair(file, &mut lent.work, ranks, link, end),
            |lent| B::link_repair(file, &mut lent.work, ranks, link, end),
        )?;
        self.ask_again(
            name,
            &first,
            |_| A::link_repair_with(file, table, ranks, link, end),
            |_| B::link_repair_with(file, table, ranks, link, end),
        )
    }

    /// The repair of a prefix, and its routes. Where there is no pair, nothing
    /// is played, so that one string of choices shows as much as all.
    fn prefix<A: Side, B: Side>(
        &mut self,
        link: usize,
        end: usize,
        prefix: usize,
    ) -> Result<(), String> {
        let (file, table) = (self.file, self.table);
        let ranks = &RANKS[prefix % RANKS.len()];
        let name =
            || format!("repair of prefix {prefix} at link {link}, end {end}, ranks {ranks:?}");
        let first = self.ask(
            name,
            |lent| A::prefix_repair(file, &mut lent.work, ranks, link, end, prefix),
            |lent| B::prefix_repair(file, &mut lent.work, ranks, link, end, prefix),
        )?;
        self.ask_again(
            name,
            &first,
            |_| A::prefix_repair_with(file, table, ranks, link, end, prefix),
            |_| B::prefix_repair_with(file, table, ranks, link, end, prefix),
        )?;
        let strings = choice_strings();
        let played = if first.answer.kind == PAIR { strings.len() } else { 1 };
        for choices in &strings[..played] {
            self.route::<A, B>(ranks, (link, end, prefix), choices)?;
        }
        Ok(())
    }

    fn route<A: Side, B: Side>(
        &mut self,
        ranks: &[u8],
        question: (usize, usize, usize),
        choices: &[u8],
    ) -> Result<(), String> {
        let (file, table) = (self.file, self.table);
        let name = || format!("route of {question:?}, ranks {ranks:?}, choices {choices:?}");
        let first = self.ask(
            name,
            |lent| A::route(file, &mut lent.work, ranks, question, choices, &mut lent.route),
            |lent| B::route(file, &mut lent.work, ranks, question, choices, &mut lent.route),
        )?;
        self.ask_again(
            name,
            &first,
            |lent| A::route_with(file, table, ranks, question, choices, &mut lent.route),
            |lent| B::route_with(file, table, ranks, question, choices, &mut lent.route),
        )
    }
}
