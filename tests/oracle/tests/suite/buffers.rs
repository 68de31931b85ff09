//! The rows 10 to 15, their order, and what every call leaves in every buffer. Second
//! calls are in `tables`.

use crate::common::{random_networks, refused};
use oracle::answer::{Answer, Buffers, Opened, Question, ask};
use oracle::corpus::{cases, marked, questions};
use oracle::fault::Context;
use oracle::file::write;
use oracle::network::Network;
use oracle::random::Random;
use oracle::ranks::{ASCENDING, WRONG};
use oracle::space::Space;
use oracle::worked::*;

fn route_question(link: u64, end: u64, prefix: u64) -> Question {
    Question::route(link, end, prefix, &[])
}

fn ask_ring_4(question: &Question, lent: &Buffers) -> Answer {
    ask(&Context::sound(), &write(&ring_4_with_prefix()), question, lent).answer
}

#[test]
fn rows_10_to_13_and_15_in_their_order() {
    // The lent buffers, the ranks and the numbers are mended one after the other.
    let ranked = |cells, bytes, ranks: &[u8], link, end, prefix| {
        let question = route_question(link, end, prefix).with_ranks(ranks);
        ask_ring_4(&question, &marked(cells, bytes))
    };
    for wrong in WRONG {
        assert_eq!(ranked(15, 7, wrong, 4, 2, 1), refused(10, 16));
        assert_eq!(ranked(16, 7, wrong, 4, 2, 1), refused(11, 8));
        assert_eq!(ranked(16, 8, wrong, 4, 2, 1), refused(15, 0));
        assert_eq!(ranked(16, 8, wrong, 0, 0, 0), refused(15, 0));
    }
    let asked =
        |cells, bytes, link, end, prefix| ranked(cells, bytes, &ASCENDING, link, end, prefix);
    assert_eq!(asked(15, 7, 4, 2, 1), refused(10, 16));
    assert_eq!(asked(16, 7, 4, 2, 1), refused(11, 8));
    assert_eq!(asked(16, 8, 4, 2, 1), refused(12, 4));
    assert_eq!(asked(16, 8, 0, 2, 1), refused(12, 4));
    assert_eq!(asked(16, 8, 4, 0, 1), refused(12, 4));
    assert_eq!(asked(16, 8, 0, 0, 1), refused(13, 1));
    assert_eq!(asked(16, 8, 0, 0, 0), Answer::Count(3));
    assert_eq!(asked(16, 8, u64::MAX, u64::MAX, u64::MAX), refused(12, 4));
    assert_eq!(asked(16, 8, 0, 0, u64::MAX), refused(13, 1));
}

#[test]
fn a_call_tries_only_the_rows_it_has_inputs_for() {
    // No route buffer is lent to any of these, and no prefix is named.
    let lent = marked(16, 0);
    assert_eq!(ask_ring_4(&Question::Distances, &lent), Answer::Done);
    for space in Space::ALL {
        let question = Question::Space { space: *space, link: 0, end: 0 };
        assert!(matches!(ask_ring_4(&question, &lent), Answer::Set(_)));
    }
    let question = Question::link_repair(0, 0);
    assert!(matches!(ask_ring_4(&question, &lent), Answer::Pair(_)));
    let question = Question::prefix_repair(0, 0, 0);
    assert!(matches!(ask_ring_4(&question, &lent), Answer::Pair(_)));
    // Without any buffer the file's own calls answer.
    let none = marked(0, 0);
    assert!(matches!(ask_ring_4(&Question::Load, &none), Answer::Accepted(_)));
    assert!(matches!(ask_ring_4(&Question::LinkEntry { link: 3 }, &none), Answer::Part { .. }));
}

#[test]
fn file_rows_come_before_question_rows() {
    let mut file = write(&ring_4_with_prefix());
    file[0] = 9;
    let outcome = ask(&Context::sound(), &file, &route_question(9, 9, 9), &marked(0, 0));
    assert_eq!(outcome.answer, refused(2, 0));
}

#[test]
fn fourteen_leaves_the_distances_and_the_route_buffer() {
    let network = two_routers().prefix(&[(1, 0)]);
    let lent = marked(6, 6);
    let outcome = ask(&Context::sound(), &write(&network), &route_question(0, 0, 0), &lent);
    assert_eq!(outcome.answer, refused(14, 0));
    assert_eq!(outcome.left.work, [&[0, 1, 1, 0], &lent.work[4..]].concat());
    assert_eq!(outcome.left.route, lent.route);
}

#[test]
fn untouched_and_unreachable_leave_the_distances_and_the_route_buffer() {
    // Router 2 stands alone: prefix 1 is there. Prefix 0 is at S itself.
    let network = Network::of_routers(3).link(0, 1, 1, 1).prefix(&[(0, 5)]).prefix(&[(2, 0)]);
    let far = u32::MAX;
    let lent = marked(9, 6);
    for (prefix, answer) in [(0, Answer::Untouched), (1, Answer::Unreachable)] {
        let question = route_question(0, 0, prefix);
        let outcome = ask(&Context::sound(), &write(&network), &question, &lent);
        assert_eq!(outcome.answer, answer);
        assert_eq!(outcome.left.work, [0, 1, far, 1, 0, far, far, far, 0]);
        assert_eq!(outcome.left.route, lent.route);
    }
}

/// Whether a call that is not turned away leaves the distances in the work area.
fn fills(question: &Question) -> bool {
    let looks_only = matches!(
        question,
        Question::Load
            | Question::Plan
            | Question::Size { .. }
            | Question::LinkEntry { .. }
            | Question::PrefixEntry { .. }
    );
    !looks_only && question.table().is_none()
}

/// What the table says of any outcome, without looking at how it came about.
#[test]
fn what_every_call_leaves() {
    let mut random = Random::new(51);
    let ctx = Context::sound();
    let mut asked = 0;
    let files = random_networks(3, 10, 52).into_iter().map(|network| write(&network));
    let damaged = cases(53).into_iter().take(150).map(|case| case.file);
    for file in files.chain(damaged) {
        let opened = Opened::new(&ctx, &file);
        let Ok(network) = oracle::answer::load(&ctx, &file) else {
            // A refused file leaves all, whatever is asked.
            for question in [Question::Distances, route_question(0, 0, 0)] {
                let lent = marked(4096, 128);
                assert_eq!(opened.ask(&question, &lent).left, lent);
            }
            continue;
        };
        let distances = &opened.workings().distances;
        let cells = distances.cells(&ctx);
        for (question, lent) in questions(&network, &mut random) {
            let outcome = opened.ask(&question, &lent);
            let turned_away =
                matches!(outcome.answer, Answer::Refused { number, .. } if number != 14);
            let mut work = lent.work.clone();
            if fills(&question) && !turned_away {
                work[..cells.len()].copy_from_slice(&cells);
            }
            assert_eq!(outcome.left.work, work);
            let written = match outcome.answer {
                Answer::Count(count) => count,
                _ => 0,
            };
            assert_eq!(outcome.left.route[written..], lent.route[written..]);
            asked += 1;
        }
    }
    assert!(asked > 5000, "only {asked} questions were asked");
}
