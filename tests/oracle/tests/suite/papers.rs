//! Networks of the source documents, as far as their text determines them.
//!
//! The papers print P and Q without S and E themselves. Document 01 follows
//! the paths, and "a router reaches itself", so S is in P and in extended P,
//! and E is in Q.

use crate::common::{link_repair, pair, prefix_repair, refused, route, set, spaces};
use oracle::answer::Answer;
use oracle::worked::{figure_1, topology_1, topology_2};

// Routers of figure 1.
const S: u32 = 0;
const A: u32 = 1;
const B: u32 = 2;
const C: u32 = 3;
const D: u32 = 4;
const E: u32 = 5;

#[test]
fn figure_1_of_remote_lfa() {
    let network = figure_1(1);
    let p = set(&[S, A, B]);
    let extended_p = set(&[S, A, B, C]);
    let q = set(&[C, D, E]);
    assert_eq!(spaces(&network, 0, 0), [p, extended_p, q]);
    // The single router in both is C, reached through A.
    assert_eq!(link_repair(&network, 0, 0), pair(A as usize, C as usize, 7, 3));
}

#[test]
fn figure_1_with_b_to_c_at_4_has_no_repair() {
    assert_eq!(link_repair(&figure_1(4), 0, 0), refused(14, 0));
}

#[test]
fn figure_1_to_destinations() {
    // "C is an ECMP from S, and so can be protected": A is a loop-free
    // alternate for C. D and E need the tunnel to C; C is nearer to D than S
    // is, and farther from E. Only what goes to E itself needs E.
    let network = figure_1(1).prefix(&[(3, 0)]).prefix(&[(4, 0)]).prefix(&[(5, 0)]);
    assert_eq!(prefix_repair(&network, 0, 0, 0), pair(1, 1, 0, 1));
    assert_eq!(prefix_repair(&network, 0, 0, 1), pair(1, 3, 2, 3));
    assert_eq!(prefix_repair(&network, 0, 0, 2), pair(1, 3, 7, 3));
}

// Routers of the topologies of node protection.
const N: usize = 1;
const R2: usize = 3;
const PREFIX_R3: u64 = 0;
const PREFIX_E: u64 = 1;
const PREFIX_D1: u64 = 2;
const PREFIX_D2: u64 = 3;

#[test]
fn topology_1_of_node_protection() {
    let network = topology_1();
    // R2 is the only PQ router of link S-E.
    let [_, extended_p, q] = spaces(&network, 0, 0);
    assert_eq!(extended_p, set(&[0, 1, 2, 3]));
    assert_eq!(q, set(&[3, 4, 5, 6, 7]));
    assert_eq!(link_repair(&network, 0, 0), pair(N, R2, 7, 3));
    // Table 1: the remote repair paths through R2. R2 is nearer than S to R3
    // and D2, and farther from E and D1, to which every path visits E.
    let table = [
        (PREFIX_R3, 2, vec![0, 1, 2, 3, 4]),
        (PREFIX_E, 7, vec![0, 1, 2, 3, 4, 5]),
        (PREFIX_D1, 7, vec![0, 1, 2, 3, 4, 5, 6]),
        (PREFIX_D2, 2, vec![0, 1, 2, 3, 4, 7]),
    ];
    for (prefix, class, path) in table {
        assert_eq!(prefix_repair(&network, 0, 0, prefix), pair(N, R2, class, 3));
        assert_eq!(route(&network, 0, 0, prefix, &[]), path);
    }
}

#[test]
fn topology_2_of_node_protection() {
    let network = topology_2();
    // The link N-E brings R3 into extended P and into the PQ routers.
    let [_, extended_p, q] = spaces(&network, 0, 0);
    let (Answer::Set(extended_p), Answer::Set(q)) = (extended_p, q) else {
        panic!("no sets");
    };
    assert_eq!(extended_p & q & (1 << 4), 1 << 4);
    // N itself is now as near to E as S, so it is the repair.
    assert_eq!(link_repair(&network, 0, 0), pair(N, N, 5, 1));
    // From N the paths to R3 and D2 visit E; those through R2 do not, and R2 is nearer
    // than S. To E and D1 no path does without E.
    for (prefix, repair) in [
        (PREFIX_R3, pair(N, R2, 2, 3)),
        (PREFIX_E, pair(N, N, 5, 1)),
        (PREFIX_D1, pair(N, N, 5, 1)),
        (PREFIX_D2, pair(N, R2, 2, 3)),
    ] {
        assert_eq!(prefix_repair(&network, 0, 0, prefix), repair);
    }
}
