//! The hand-worked networks of document 01, row by row.

use crate::common::{
    ask_network, link_repair, load, pair, prefix_repair, refused, route, set, spaces,
};
use oracle::answer::{Answer, Question, ask};
use oracle::corpus::marked;
use oracle::fault::Context;
use oracle::file::write;
use oracle::space::Space;
use oracle::worked::*;

#[test]
fn ring_4() {
    let network = ring(4);
    assert_eq!(spaces(&network, 0, 0), [set(&[0, 3]), set(&[0, 2, 3]), set(&[1, 2])]);
    assert_eq!(link_repair(&network, 0, 0), pair(3, 2, 7, 2));
}

#[test]
fn ring_4_with_prefix_at_1_and_2() {
    let network = ring_4_with_prefix();
    assert_eq!(prefix_repair(&network, 0, 0, 0), pair(3, 3, 1, 1));
    assert_eq!(route(&network, 0, 0, 0, &[]), [0, 3, 2]);
    assert_eq!(prefix_repair(&network, 1, 1, 0), Answer::Untouched);
}

#[test]
fn ring_5_repairs() {
    assert_eq!(link_repair(&ring(5), 0, 0), pair(4, 2, 7, 3));
    assert_eq!(route(&ring_5_with_prefix(), 0, 0, 0, &[]), [0, 4, 3, 2, 1]);
}

#[test]
fn ring_3_repairs() {
    assert_eq!(link_repair(&ring(3), 0, 0), pair(2, 2, 5, 1));
    assert_eq!(link_repair(&ring_3_dear_back(), 0, 0), refused(14, 0));
}

#[test]
fn networks_without_repair() {
    assert_eq!(link_repair(&ring_4_dear_link(), 0, 0), refused(14, 0));
    assert_eq!(link_repair(&two_routers(), 0, 0), refused(14, 0));
}

#[test]
fn one_router_alone() {
    let network = lone_router();
    assert!(matches!(load(&write(&network)), Answer::Accepted(_)));
    for link in [0, 1, 127, 128, u64::MAX] {
        for end in [0, 1, 2, u64::MAX] {
            for space in Space::ALL {
                let question = Question::Space { space: *space, link, end };
                assert_eq!(ask_network(&network, &question).answer, refused(12, 0));
            }
            assert_eq!(link_repair(&network, link, end), refused(12, 0));
            assert_eq!(prefix_repair(&network, link, end, 0), refused(12, 0));
            let question = Question::route(link, end, 0, &[]);
            assert_eq!(ask_network(&network, &question).answer, refused(12, 0));
        }
    }
}

#[test]
fn one_router_alone_has_a_work_area_and_a_buffer_first() {
    let file = write(&lone_router());
    let ctx = Context::sound();
    let question = Question::route(0, 0, 0, &[]);
    assert_eq!(ask(&ctx, &file, &question, &marked(0, 0)).answer, refused(10, 1));
    assert_eq!(ask(&ctx, &file, &question, &marked(1, 1)).answer, refused(11, 2));
    assert_eq!(ask(&ctx, &file, &question, &marked(1, 2)).answer, refused(12, 0));
}

#[test]
fn distances_of_ring_4() {
    let outcome = ask_network(&ring(4), &Question::Distances);
    assert_eq!(outcome.answer, Answer::Done);
    assert_eq!(outcome.left.work, [0, 1, 2, 1, 1, 0, 1, 2, 2, 1, 0, 1, 1, 2, 1, 0]);
}

#[test]
fn sizes() {
    let ctx = Context::sound();
    for (number, ones) in [(0, 0), (1, 1), (13, 3), (1 << 63, 1), (u64::MAX, 64)] {
        assert_eq!(oracle::answer::size(&ctx, number), ones);
    }
}
