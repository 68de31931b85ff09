//! Networks that are written: which are, what the call returns and leaves, and
//! that the reader agrees.

use crate::common::{load, random_networks};
use oracle::answer::{Answer, Question, ask, write};
use oracle::columns::Columns;
use oracle::corpus::cases;
use oracle::fault::{Context, Fault};
use oracle::file;
use oracle::generate::largest;
use oracle::network::Network;
use oracle::random::Random;
use oracle::row::Cause;
use oracle::spoil::{self, VALUES};
use oracle::worked::ring_4_with_prefix;
use oracle::writing::outside;

#[test]
fn columns_and_networks() {
    let mut networks = random_networks(4, 64, 91);
    networks.push(largest(&mut Random::new(92)));
    for network in networks {
        let mut columns = Columns::of(&network);
        assert_eq!(columns.network(), network);
        spoil::unused_cells(&mut columns, &mut Random::new(93));
        assert_eq!(columns.network(), network);
        assert_eq!(outside(&columns), []);
    }
}

#[test]
fn a_network_is_written_as_its_file() {
    let mut random = Random::new(94);
    let ctx = Context::sound();
    let mut networks = random_networks(2, 64, 95);
    networks.extend([ring_4_with_prefix(), Network::of_routers(1), largest(&mut random)]);
    for network in networks {
        let file = file::write(&network);
        assert_eq!(load(&file), Answer::Accepted(network.clone()));
        let mut columns = Columns::of(&network);
        spoil::unused_cells(&mut columns, &mut random);
        for length in [file.len(), file.len() + 1, file.len() + 700] {
            let lent = random.bytes(length);
            let expected = [&file, &lent[file.len()..]].concat();
            let outcome = write(&ctx, &columns, &lent);
            assert_eq!(
                (outcome.answer, outcome.left.made),
                (Answer::Written(file.len()), expected)
            );
        }
        for length in [0, 1, file.len() - 512, file.len() - 1] {
            let lent = random.bytes(length);
            let outcome = write(&ctx, &columns, &lent);
            assert_eq!((outcome.answer, outcome.left.made), (Answer::Written(0), lent));
        }
    }
}

#[test]
fn a_network_outside_the_limits_is_not_written() {
    let mut random = Random::new(96);
    for cause in Cause::OF_NETWORKS {
        for value in 0..5 * VALUES {
            let columns = spoil::network(cause, value, &mut random);
            assert_eq!(outside(&columns), [cause]);
            let lent = random.bytes(7000);
            let outcome = write(&Context::sound(), &columns, &lent);
            assert_eq!((outcome.answer, outcome.left.made), (Answer::Written(0), lent));
        }
    }
}

/// Counts that a file's head has no room for, and more attachments than an entry
/// has slots: the reader is not asked about them here.
const NOT_IN_A_FILE: [Cause; 4] =
    [Cause::RoutersOver, Cause::LinksOver, Cause::PrefixesOver, Cause::AttachmentsOver];

/// The reader refuses the file of such a network by the row of the cause.
#[test]
fn the_reader_agrees_on_the_limits() {
    let mut random = Random::new(97);
    for cause in Cause::OF_NETWORKS.into_iter().filter(|cause| !NOT_IN_A_FILE.contains(cause)) {
        for value in 0..2 * VALUES {
            let columns = spoil::network(cause, value, &mut random);
            match load(&file::write(&columns.network())) {
                Answer::Refused { number, .. } => assert_eq!(number, cause.row()),
                other => panic!("{cause:?}: {other:?}"),
            }
        }
    }
    // A list of the causes of a network holds those of the rows 3 and 6 to 9 that
    // are not about bytes that have to be zero, nor about the head's block.
    let of_bytes = [
        Cause::HeadKind,
        Cause::HeadEntries,
        Cause::HeadNumber,
        Cause::HeadZeroByte,
        Cause::HeadTail,
        Cause::PrefixZeroByte,
        Cause::SlotZeroByte,
        Cause::UnusedSlot,
    ];
    let of_networks =
        |cause: &&Cause| [3, 6, 7, 8, 9].contains(&cause.row()) && !of_bytes.contains(cause);
    assert!(Cause::ALL.iter().filter(of_networks).eq(&Cause::OF_NETWORKS));
}

/// Every two causes at once: one of them is enough.
#[test]
fn several_causes_at_once() {
    let mut random = Random::new(98);
    let mut columns = spoil::network(Cause::LinkCostBack, 0, &mut random);
    columns.routers = 65;
    columns.attached[0] = 0;
    let causes = outside(&columns);
    assert_eq!(causes, [Cause::RoutersOver, Cause::LinkCostBack, Cause::AttachmentsZero]);
    let written = |faults: &[Fault]| {
        write(&Context::with(faults), &columns, &[0; 7000]).answer != Answer::Written(0)
    };
    let faults: Vec<Fault> = causes.into_iter().map(Fault::WrittenThough).collect();
    assert!(written(&faults));
    assert!(!written(&faults[1..]));
    assert!(!written(&faults[..2]));
}

/// Each way to write wrongly shows in the questions that write a file.
#[test]
fn wrong_writers() {
    let case = cases(99).into_iter().next().expect("a case");
    let differs = |fault: Fault, of_drill: bool| {
        let ctx = Context::with(&[fault]);
        let mut asked = case.questions.iter();
        asked.any(|(question, lent)| {
            matches!(question, Question::Drill { .. }) == of_drill
                && ask(&ctx, &[], question, lent) != ask(&Context::sound(), &[], question, lent)
        })
    };
    for fault in Fault::of_writing() {
        assert_eq!((differs(fault, false), differs(fault, true)), (true, false), "{fault:?}");
    }
    for fault in Fault::OF_DRILLS {
        assert_eq!((differs(fault, false), differs(fault, true)), (false, true), "{fault:?}");
    }
    for fault in Fault::OF_FILES {
        assert_eq!((differs(fault, false), differs(fault, true)), (true, true), "{fault:?}");
    }
}
