//! The limits that a network keeps, and sets of routers.

use crate::common::ring;
use planner::{Attachment, LimitError, Link, Network, Set};

#[test]
fn routers() {
    assert_eq!(Network::new(0), Err(LimitError::Routers(0)));
    assert_eq!(Network::new(65), Err(LimitError::Routers(65)));
    let words = LimitError::Routers(65).to_string();
    assert_eq!(words, "the number of routers is 65, expected 1 to 64");
    assert_eq!(Network::new(64).unwrap().routers(), 64);
}

#[test]
fn a_link_that_breaks_a_limit_is_not_added() {
    let mut network = ring(4);
    let link = |a, b, out, back| Link { a, b, out, back };
    for (link, limit) in [
        (link(4, 0, 1, 1), LimitError::NoRouter { router: 4, routers: 4 }),
        (link(0, 255, 1, 1), LimitError::NoRouter { router: 255, routers: 4 }),
        (link(2, 2, 1, 1), LimitError::Loop(2)),
        (link(0, 2, 0, 1), LimitError::LinkCost),
        (link(0, 2, 1, 0), LimitError::LinkCost),
        (link(0, 3, 1, 1), LimitError::Joined { a: 0, b: 3, earlier: 3 }),
    ] {
        assert_eq!(network.add_link(link), Err(limit));
    }
    assert_eq!(network, ring(4));
    assert_eq!(network.add_link(link(0, 2, 65_535, 1)), Ok(()));
    assert_eq!(network.links().len(), 5);
    assert_eq!(LimitError::LinkCost.to_string(), "the link has cost 0, expected 1 to 65535");
}

#[test]
fn a_prefix_that_breaks_a_limit_is_not_added() {
    let mut network = ring(9);
    let prefix = |routers: &[u8]| -> Vec<Attachment> {
        routers.iter().map(|&router| Attachment { router, cost: 0 }).collect()
    };
    for (attachments, limit) in [
        (prefix(&[]), LimitError::Attachments(0)),
        (prefix(&[0, 1, 2, 3, 4, 5, 6, 7, 8]), LimitError::Attachments(9)),
        (prefix(&[0, 9]), LimitError::NoRouter { router: 9, routers: 9 }),
        (prefix(&[0, 1, 0]), LimitError::NamedTwice(0)),
    ] {
        assert_eq!(network.add_prefix(&attachments), Err(limit));
    }
    assert_eq!(network, ring(9));
    let eight = prefix(&[0, 1, 2, 3, 4, 5, 6, 7]);
    assert_eq!(network.add_prefix(&eight), Ok(()));
    assert_eq!(network.prefixes()[0].attachments(), eight);
}

#[test]
fn sets() {
    let routers = |set: Set| set.routers().collect::<Vec<u8>>();
    assert_eq!((routers(Set(0)), Set(0).size()), (vec![], 0));
    let ends = Set(1 | 1 << 63);
    assert_eq!((routers(ends), ends.size()), (vec![0, 63], 2));
    assert_eq!((routers(Set(u64::MAX)).len(), Set(u64::MAX).size()), (64, 64));
    assert!(ends.contains(63) && !ends.contains(62) && !ends.contains(64) && !ends.contains(255));
}
