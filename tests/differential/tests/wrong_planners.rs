//! The comparison itself, tried on planners that are wrong in ways that the
//! oracle has no fault for.

use differential::call::{Call, Planner, Told};
use differential::campaign::{Breadth, Case, run};
use differential::files::NamedFile;
use differential::library::Library;
use differential::stand_in::StandIn;
use oracle::answer::Question;
use oracle::fault::{Context, Fault};
use oracle::file::write;
use oracle::worked::{ring_4_with_prefix, two_routers};

/// What a call tells, and the buffers that it leaves.
struct Left<'a> {
    told: &'a mut Told,
    work: &'a mut [u32],
    route: &'a mut [u8],
    entry: &'a mut [u8],
    made: &'a mut [u8],
}

/// The library, with one change to what it leaves or tells.
struct Changed<Change>(Change);

impl<Change: Fn(&Question, Left) + Sync> Planner for Changed<Change> {
    fn ask(&self, call: Call) -> Told {
        let Call { file, question, choices, ranks, table, work, route, entry, made } = call;
        let lent = Call { file, question, choices, ranks, table, work, route, entry, made };
        let mut told = Library.ask(lent);
        (self.0)(question, Left { told: &mut told, work, route, entry, made });
        told
    }
}

/// How many cases of ring 4 with its prefix, and of files that are written, differ
/// for a planner.
fn differing(planner: &dyn Planner) -> usize {
    let case = |breadth| {
        let bytes = write(&ring_4_with_prefix());
        Case::of_file(NamedFile { name: "ring 4".to_string(), bytes }, breadth)
    };
    let breadths = [Breadth::Whole(3), Breadth::Limits, Breadth::Tables, Breadth::Writing];
    run(planner, &breadths.map(case)).differences.len()
}

type Change = fn(&Question, Left);

#[test]
fn a_change_of_any_buffer_is_noticed() {
    let changes: [Change; 9] = [
        |_, left| left.work.iter_mut().take(1).for_each(|cell| *cell += 1),
        |_, left| left.work.iter_mut().skip(16).take(1).for_each(|cell| *cell = 0),
        |_, left| left.route.iter_mut().take(1).for_each(|byte| *byte ^= 1),
        |_, left| left.route.iter_mut().rev().take(1).for_each(|byte| *byte ^= 1),
        |_, left| left.entry[0] ^= 1,
        |_, left| left.entry[33] ^= u8::from(*left.told == Told::Copied(6)),
        |question, left| {
            if let (Question::Load, Told::Accepted(network)) = (question, left.told) {
                network.prefixes[0].attachments[1].cost = 1;
            }
        },
        |_, left| left.made.iter_mut().take(1).for_each(|byte| *byte ^= 1),
        |_, left| left.made.iter_mut().rev().take(1).for_each(|byte| *byte ^= 1),
    ];
    for change in changes {
        assert!(differing(&Changed(change)) > 0);
    }
    let none: Change = |_, _| {};
    assert_eq!(differing(&Changed(none)), 0);
}

/// Changes to what a second call leaves or tells, each of which leaves single calls alone.
#[test]
fn a_change_of_a_second_call_is_noticed() {
    let changes: [Change; 7] = [
        // It writes into the work area that is lent to single calls.
        |_, left| left.work.iter_mut().take(1).for_each(|cell| *cell = 0),
        |_, left| left.route.iter_mut().rev().take(1).for_each(|byte| *byte ^= 1),
        // Row 18 is told as row 10, and row 10 as row 18; the row is right and its value not.
        |_, left| replace(left.told, (18, 0), (10, 16)),
        |_, left| replace(left.told, (10, 16), (18, 0)),
        |_, left| replace(left.told, (18, 0), (18, 16)),
        |_, left| replace(left.told, (14, 0), (18, 0)),
        |_, left| {
            if let Told::Pair { endpoint, .. } = left.told {
                *endpoint ^= 1;
            }
        },
    ];
    let bridge = NamedFile {
        name: "two routers".to_string(),
        bytes: write(&two_routers().prefix(&[(1, 0)])),
    };
    let cases = [Case::of_file(bridge, Breadth::Tables)];
    for (number, change) in changes.into_iter().enumerate() {
        let planner = Changed(move |question: &Question, left: Left| {
            if question.table().is_some() {
                change(question, left);
            }
        });
        // Only of two routers some questions are refused by row 14.
        let noticed = differing(&planner) + run(&planner, &cases).differences.len();
        assert!(noticed > 0, "change {number}");
    }
}

/// Tells another refusal, by number and value, in the place of one.
fn replace(told: &mut Told, one: (u64, u64), other: (u64, u64)) {
    let refused = |(number, value)| Told::Refused { number, value };
    if *told == refused(one) {
        *told = refused(other);
    }
}

#[test]
fn a_stand_in_is_judged_as_the_library_is() {
    let stand_in = |faults: &[Fault]| StandIn { ctx: Context::with(faults) };
    assert_eq!(differing(&stand_in(&[])), 0);
    assert!(differing(&stand_in(&[Fault::OptionsDescending, Fault::SetOffByOne])) > 0);
    assert!(differing(&stand_in(&[Fault::LaterBytesTouched])) > 0);
    assert!(differing(&stand_in(&[Fault::EntryShort])) > 0);
    assert!(differing(&stand_in(&[Fault::FileByteBeyond])) > 0);
    assert!(differing(&stand_in(&[Fault::TableOnlyRowOfS])) > 0);
    assert!(differing(&stand_in(&[Fault::EighteenWritesRoute])) > 0);
}
