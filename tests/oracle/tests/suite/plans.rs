//! The text of the program `plan`.

use oracle::answer::plan_text;
use oracle::fault::Context;
use oracle::file::{LARGEST, write};
use oracle::worked::*;

fn plan(file: &[u8]) -> String {
    plan_text(&Context::sound(), file)
}

#[test]
fn ring_4_with_its_prefix_whole() {
    let expected = "\
plan 4 4 1
0 0 0 1 3 2 7 2
0 1 1 0 2 3 7 2
1 0 1 2 0 3 7 2
1 1 2 1 3 0 7 2
2 0 2 3 1 0 7 2
2 1 3 2 0 1 7 2
3 0 3 0 2 1 7 2
3 1 0 3 1 2 7 2
";
    assert_eq!(plan(&write(&ring_4_with_prefix())), expected);
}

#[test]
fn fourteen_is_none_four_times() {
    let expected = "\
plan 2 1 0
0 0 0 1 none none none none
0 1 1 0 none none none none
";
    assert_eq!(plan(&write(&two_routers())), expected);
}

#[test]
fn one_router_alone_has_a_head_line_only() {
    assert_eq!(plan(&write(&lone_router())), "plan 1 0 0\n");
}

#[test]
fn refused_files_have_one_line() {
    assert_eq!(plan(&[]), "refused 1 0\n");
    assert_eq!(plan(&vec![0; LARGEST + 1]), "refused 1 0\n");
    assert_eq!(plan(&vec![0; LARGEST]), "refused 3 0\n");
    let mut file = write(&ring(4));
    file[600] ^= 1;
    assert_eq!(plan(&file), "refused 2 1\n");
    let file = write(&ring(4));
    assert_eq!(plan(&file[..512]), "refused 4 2\n");
}
