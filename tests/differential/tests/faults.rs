//! The comparison notices every wrong planner: each fault of the oracle is
//! turned on in turn, and some call then differs from the library's. Some faults no call
//! can show.

use differential::campaign::{Breadth, Case};
use differential::compare::{Asked, Heard, ask, difference};
use differential::each;
use differential::files::{self, NamedFile};
use differential::library::Library;
use differential::networks::{self, MIDDLE, SMALL, of_family};
use oracle::answer::Opened;
use oracle::corpus;
use oracle::fault::{Context, Fault};
use oracle::generate::Family;

/// A case with all that was heard from the library.
struct Recorded {
    case: Case,
    heard: Vec<(Asked, Heard)>,
}

impl Recorded {
    fn of(case: Case) -> Recorded {
        let listen = |asked: Asked| {
            let heard = ask(&Library, &case.file, &asked);
            (asked, heard)
        };
        let heard = case.asked().into_iter().map(listen).collect();
        Recorded { case, heard }
    }

    /// The first question whose answer by an oracle with a fault differs from
    /// what was heard.
    fn notices(&self, ctx: &Context) -> Option<String> {
        let opened = Opened::new(ctx, &self.case.file);
        let differs = |(asked, heard): &&(Asked, Heard)| {
            let expected = opened.ask(&asked.question, &asked.buffers());
            difference(&self.case.file, asked, &expected, heard).is_some()
        };
        let (asked, _) = self.heard.iter().find(differs)?;
        Some(format!("{} ({:?})", self.case.name, asked.question))
    }
}

/// Files of every kind; those that take the least time first.
fn cases() -> Vec<Case> {
    let file = |file| Case::of_file(file, Breadth::Limits);
    let mut cases: Vec<Case> = (1..=ENOUGH as u8).map(Case::of_writing).collect();
    for breadth in [Breadth::Whole(5), Breadth::Limits, Breadth::DecidingRanks, Breadth::Tables] {
        cases.extend(files::worked().into_iter().map(|file| Case::of_file(file, breadth)));
    }
    let in_parts = (2014..2020).map(|seed| of_family(Family::Disconnected, SMALL, seed));
    cases.extend(in_parts.map(|named| Case::of_network(named, Breadth::Tables)));
    cases.extend(files::repeated_bytes().into_iter().map(file));
    cases.extend(files::single_causes(4, 2001).into_iter().map(file));
    cases.extend(files::pairs_of_causes(2002).into_iter().map(file));
    let small = networks::of_families(SMALL, 2003..2013).into_iter();
    cases.extend(small.map(|named| Case::of_network(named, Breadth::Whole(3))));
    let middle = networks::of_families(MIDDLE, 2020..2021).into_iter();
    cases.extend(middle.map(|named| Case::of_network(named, Breadth::Whole(1))));
    let edges = corpus::edges().into_iter().map(|(name, bytes)| NamedFile { name, bytes });
    cases.extend(edges.map(|file| Case::of_file(file, Breadth::Reading)));
    cases
}

/// How many cases that notice a fault are looked for.
const ENOUGH: usize = 3;

#[test]
fn every_fault_is_noticed() {
    let faults = Fault::all();
    let mut by: Vec<Vec<String>> = vec![Vec::new(); faults.len()];
    for case in cases() {
        let recorded = Recorded::of(case);
        assert_eq!(recorded.notices(&Context::sound()), None, "noticed without a fault");
        let open: Vec<usize> =
            (0..faults.len()).filter(|fault| by[*fault].len() < ENOUGH).collect();
        let noticed = each(&open, |fault| recorded.notices(&Context::with(&[faults[*fault]])));
        for (fault, noticed) in open.into_iter().zip(noticed) {
            by[fault].extend(noticed);
        }
    }
    for (fault, by) in faults.iter().zip(&by) {
        println!("{} is noticed by: {}", fault.name(), by.join("; "));
        assert_eq!(by.is_empty(), fault.is_in_no_call(), "{}", fault.name());
    }
}
