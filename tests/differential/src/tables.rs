//! What a run met of second calls and their tables. A table is taken exactly when its
//! first cells are the distances, and then the answer is that of the single call; both
//! are asserted of every second call.

use crate::call::Planner;
use crate::compare::{Asked, ask};
use crate::coverage::{Coverage, ends};
use crate::kinds::Kind;
use crate::lent::filled;
use crate::ranks::by_call;
use oracle::answer::{Answer, Buffers, Opened, Outcome, Question};
use oracle::distance::UNREACHABLE;

/// The calls that are split in two, with the rows after 18 that each tries and with the
/// answers that each has.
const CALLS: [(&str, &[u8], &[&str]); 3] = [
    ("link repair", &[15, 12, 14], &["a pair", "14"]),
    ("prefix repair", &[15, 12, 13, 14], &["a pair", "14", "untouched", "unreachable"]),
    ("route", &[11, 15, 12, 13, 14], &["played", "14", "untouched", "unreachable"]),
];

/// How a table that is not the file's comes near to it: only this much of it differs.
const NEAR: [&str; 7] = [
    "right on the diagonal",
    "right but on the diagonal",
    "right in the first row",
    "right in the row of S",
    "right in all rows but the last",
    "right but for one cell",
    "right but for one unreachable cell",
];

/// Everything that a run meets of tables.
pub fn things() -> Vec<String> {
    let mut things = Vec::new();
    for (call, later_rows, answers) in CALLS {
        let mut met = |what: String| things.push(of_call(call, &what));
        Kind::RIGHT.iter().for_each(|kind| met(taken(*kind)));
        Kind::OTHER.iter().for_each(|kind| met(eighteen(*kind)));
        Kind::SHORT.iter().for_each(|kind| met(ten(*kind)));
        later_rows.iter().for_each(|row| met(next(Some(*row))));
        later_rows.iter().for_each(|row| met(by_right_table(*row)));
        answers.iter().for_each(|answer| met(answer.to_string()));
        NEAR.iter().for_each(|near| met(format!("18, {near}")));
        (1..=9).for_each(|row| met(file_first(row)));
        let others = [next(None), TEN_FIRST.to_string(), ALL_THE_SAME.to_string()];
        others.into_iter().for_each(&mut met);
    }
    things
}

const TEN_FIRST: &str = "10, and the cells that there are, are not the file's";
const ALL_THE_SAME: &str = "taken, since the numbers are the file's all the same";

fn of_call(call: &str, what: &str) -> String {
    format!("tables: {call}: {what}")
}

fn taken(kind: Kind) -> String {
    format!("taken, {}", kind.words())
}

fn eighteen(kind: Kind) -> String {
    format!("18, {}", kind.words())
}

fn ten(kind: Kind) -> String {
    format!("10, {}", kind.words())
}

/// A row of the file comes first, whatever the table.
fn file_first(row: u8) -> String {
    format!("{row}, and the table is of no file")
}

/// What would come next, were the table the file's.
fn next(row: Option<u8>) -> String {
    match row {
        Some(row) => format!("18 where {row} would come next"),
        None => "18 where there would be an answer".to_string(),
    }
}

fn by_right_table(row: u8) -> String {
    format!("{row} by a table of the file")
}

/// The number of a refusal.
fn number(answer: &Answer) -> Option<u8> {
    match answer {
        Answer::Refused { number, .. } => Some(*number),
        _ => None,
    }
}

impl Coverage {
    /// Counts one second call, as the oracle answers it.
    pub fn tables(&mut self, opened: &Opened, asked: &Asked, outcome: &Outcome) {
        let Some(cells) = asked.question.table() else {
            return;
        };
        let number = number(&outcome.answer);
        if let Some(row @ 1..=9) = number {
            self.of_table(asked, &file_first(row));
            return;
        }
        let right = distances(opened);
        let whole = cells.get(..right.len());
        assert_eq!(number == Some(10), whole.is_none(), "{asked:?}");
        assert_eq!(number == Some(18), whole.is_some_and(|cells| cells != right), "{asked:?}");
        match number {
            Some(10) => self.short(asked, cells, &right),
            Some(18) => self.other(opened, asked, cells, &right),
            _ => self.taken(opened, asked, outcome),
        }
    }

    fn of_table(&mut self, asked: &Asked, what: &str) {
        let [link, prefix, route] = CALLS.map(|(call, _, _)| call);
        self.met(&of_call(by_call(&asked.question, [link, prefix, route]), what), 1);
    }

    fn short(&mut self, asked: &Asked, cells: &[u32], right: &[u32]) {
        if let Some(kind) = asked.kind {
            self.of_table(asked, &ten(kind));
        }
        if !right.starts_with(cells) {
            self.of_table(asked, TEN_FIRST);
        }
    }

    fn other(&mut self, opened: &Opened, asked: &Asked, cells: &[u32], right: &[u32]) {
        if let Some(kind) = asked.kind {
            self.of_table(asked, &eighteen(kind));
        }
        let by_right = asked.question.clone().with_table(right);
        let passed = opened.ask(&by_right, &asked.buffers());
        self.of_table(asked, &next(number(&passed.answer)));
        let s = ends(opened, &asked.question).map(|ends| ends.s);
        for near in near(cells, right, opened.workings().routers().len(), s) {
            self.of_table(asked, &format!("18, {near}"));
        }
    }

    /// The table is the file's: the single call answers the same.
    fn taken(&mut self, opened: &Opened, asked: &Asked, outcome: &Outcome) {
        if let Some(kind) = asked.kind {
            let right = Kind::RIGHT.contains(&kind);
            let all_the_same = || ALL_THE_SAME.to_string();
            self.of_table(asked, &if right { taken(kind) } else { all_the_same() });
        }
        let lent = Buffers { work: filled(4096), ..asked.buffers() };
        let single = opened.ask(&asked.question.clone().single(), &lent);
        assert_eq!(single.answer, outcome.answer, "{asked:?}");
        assert_eq!(single.left.route, outcome.left.route, "{asked:?}");
        assert_eq!(asked.buffers().work, outcome.left.work, "{asked:?}");
        let what = match &outcome.answer {
            Answer::Pair(_) => "a pair",
            Answer::Count(_) => "played",
            Answer::Untouched => "untouched",
            Answer::Unreachable => "unreachable",
            answer => return self.turned_away(asked, number(answer)),
        };
        self.of_table(asked, what);
    }

    /// A row after 18. Row 14 is an answer as well.
    fn turned_away(&mut self, asked: &Asked, row: Option<u8>) {
        if let Some(row) = row {
            self.of_table(asked, &by_right_table(row));
        }
        if row == Some(14) {
            self.of_table(asked, "14");
        }
    }
}

/// The N x N distances of an accepted file.
fn distances(opened: &Opened) -> Vec<u32> {
    let workings = opened.workings();
    workings.distances.cells(&workings.ctx)
}

/// In what a table that is not the file's comes near to it.
fn near(cells: &[u32], right: &[u32], routers: usize, s: Option<usize>) -> Vec<&'static str> {
    let differing: Vec<usize> =
        (0..right.len()).filter(|place| cells[*place] != right[*place]).collect();
    let diagonal = |place: &usize| *place % (routers + 1) == 0;
    let row_of = |place: &usize| *place / routers;
    let one = differing.len() == 1;
    let holds = [
        !differing.iter().any(diagonal),
        differing.iter().all(diagonal),
        !differing.iter().any(|place| row_of(place) == 0),
        s.is_some_and(|s| !differing.iter().any(|place| row_of(place) == s)),
        differing.iter().all(|place| row_of(place) == routers - 1) && routers > 1,
        one,
        one && right[differing[0]] == UNREACHABLE,
    ];
    NEAR.into_iter().zip(holds).filter(|(_, holds)| *holds).map(|(near, _)| near).collect()
}

/// Puts a question to a planner as a single call and as a second one by these cells, and
/// hands over what differs in words, if something does: the answer or the route buffer.
/// The oracle is not asked.
pub fn unlike(
    planner: &dyn Planner,
    file: &[u8],
    question: &Question,
    cells: &[u32],
    bytes: usize,
) -> Option<String> {
    let single = Asked::of_file(question.clone().single(), cells.len(), bytes);
    let second = Asked::by_table(question.clone(), Kind::Distances, cells, bytes);
    let [single, second] = [single, second].map(|asked| ask(planner, file, &asked));
    let told = [&single, &second].map(|heard| (&heard.told, heard.route.contents()));
    (told[0] != told[1]).then(|| format!("{question:?}: {:?}, but {:?}", told[0], told[1]))
}

#[cfg(test)]
mod tests {
    use super::*;

    const FAR: u32 = UNREACHABLE;

    /// Two routers that a link joins, at 1 and at 2, and one alone.
    const RIGHT: [u32; 9] = [0, 1, FAR, 2, 0, FAR, FAR, FAR, 0];

    /// What the table is near in, with these cells replaced and with router 1 for S.
    fn near_with(others: &[(usize, u32)]) -> Vec<&'static str> {
        let mut cells = RIGHT;
        others.iter().for_each(|(place, other)| cells[*place] = *other);
        near(&cells, &RIGHT, 3, Some(1))
    }

    #[test]
    fn how_a_table_comes_near() {
        let [diagonal, but_diagonal, first_row, row_of_s, but_last, one, unreachable] = NEAR;
        assert_eq!(near_with(&[(1, 2)]), [diagonal, row_of_s, one]);
        assert_eq!(near_with(&[(3, 0), (5, 7)]), [diagonal, first_row]);
        assert_eq!(near_with(&[(5, 7)]), [diagonal, first_row, one, unreachable]);
        let last_row = [diagonal, first_row, row_of_s, but_last];
        assert_eq!(near_with(&[(6, 1), (7, 2)]), last_row);
        assert_eq!(near_with(&[(0, 1), (8, 1)]), [but_diagonal, row_of_s]);
        let last_cell = [but_diagonal, first_row, row_of_s, but_last, one];
        assert_eq!(near_with(&[(8, 1)]), last_cell);
        assert_eq!(near_with(&[(0, 1), (3, 1)]), Vec::<&str>::new());
    }
}
