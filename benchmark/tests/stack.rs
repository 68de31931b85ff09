//! The measure of the stack.

use benchmark::networks;
use benchmark::stack::depth;
use benchmark::stack_calls::{all, bytes, Case};
use std::hint::black_box;

/// A function with an array of so many bytes.
#[inline(never)]
fn with_array<const SIZE: usize>() {
    black_box(&mut [0u8; SIZE]);
}

/// An array takes its bytes, and not many more.
#[test]
fn an_array_is_found() {
    let empty = depth(&mut || {});
    for (size, used) in [
        (1000, depth(&mut || with_array::<1000>())),
        (20_000, depth(&mut || with_array::<20_000>())),
        (100_000, depth(&mut || with_array::<100_000>())),
    ] {
        let used = used - empty;
        assert!((size..size + 500).contains(&used), "{used} bytes for an array of {size}");
    }
}

/// The deepest call counts, whatever comes after it.
#[test]
fn the_deepest_of_several_calls_counts() {
    let deep = depth(&mut || with_array::<30_000>());
    let both = depth(&mut || {
        with_array::<30_000>();
        with_array::<10>();
    });
    assert!(both.abs_diff(deep) < 500, "{both} and {deep}");
}

/// The names before a parenthesis that the header declares.
fn declared() -> Vec<String> {
    let header = include_str!("../../include/planner.h");
    let code = header.split("/*").map(|part| part.split_once("*/").map_or(part, |cut| cut.1));
    let code: String = code.collect();
    let before = code.split('(').map(|part| part.rsplit([' ', '*', '\n']).next().unwrap_or(""));
    before.filter(|name| name.starts_with("planner_")).map(String::from).collect()
}

#[test]
fn every_call_of_the_header_is_measured() {
    let names: Vec<&str> = all().iter().map(|call| call.name).collect();
    assert_eq!(names, declared());
    assert_eq!(names.len(), 16);
}

/// A call that looks at a file takes some stack, and none takes what no program has.
#[test]
fn every_call_takes_some_stack() {
    let files = [networks::ring_with_chords_of(8), networks::one_block(), vec![0; 512]];
    let cases = files.map(Case::new);
    for call in all() {
        let taken = bytes(&call, &cases, 5);
        let least = if call.name == "planner_size" { 0 } else { 64 };
        assert!((least..1 << 18).contains(&taken), "{}: {taken}", call.name);
    }
}
