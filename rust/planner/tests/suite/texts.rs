//! The readable text: round trips, and what is said of a wrong text.

use crate::common::{ring_4_with_prefix, sound_texts};
use planner::text::{parse, print, TextError};

#[test]
fn every_text_round_trip() {
    for case in sound_texts() {
        let network = parse(&case.text).unwrap();
        assert_eq!(parse(&print(&network)).as_ref(), Ok(&network), "{}", case.path.display());
        let oracle = oracle::text::parse(&case.text).unwrap().network;
        assert_eq!(print(&network), oracle::text::of_network(&oracle), "{}", case.path.display());
    }
}

#[test]
fn maintenance_is_a_comment() {
    let text = "routers 4\nlink 0 1 65535 1  # under maintenance from 0 to 1\n\
                link 2 1 65534 65535  # under maintenance from 1 to 2\n\
                link 3 2 65535 65535  # under maintenance both ways\nlink 0 3 65534 65534\n\
                prefix 0:65535\n";
    let network = parse(text).unwrap();
    assert_eq!(print(&network), text);
    let neighbours = |router| network.under_maintenance(router).collect::<Vec<u8>>();
    assert_eq!([0, 1, 2, 3, 9].map(neighbours), [vec![1], vec![2], vec![3], vec![2], vec![]]);
}

#[test]
fn layout_of_a_text_is_free() {
    let text = "# a comment\n\n  prefix 1:0\t2:0 # another\nlink 0 1 1 1\r\nlink 1 2 1 1\n\
                link 2 3 1 1\nlink 3 0 1 1\nrouters 4";
    assert_eq!(parse(text), Ok(ring_4_with_prefix()));
    assert_eq!(parse("routers 0001"), planner::Network::new(1).map_err(|_| unreachable!()));
}

/// The error of a text, as a sentence.
fn wrong(text: &str) -> String {
    parse(text).unwrap_err().to_string()
}

#[test]
fn an_error_has_its_parts() {
    let error = parse("routers 4\nlink 0 x 1 1").unwrap_err();
    let expected = "expected router B, a number from 0 to 63".to_string();
    assert_eq!(error, TextError { line: 2, word: "x".to_string(), expected });
}

#[test]
fn words_that_are_wrong() {
    for (text, expected) in [
        ("", "line 1: the text ends, expected a line `routers N`"),
        ("\n# 4\nlink 0 1 1 1\n", "line 3: the text ends, expected a line `routers N`"),
        ("router 4", "line 1: `router`: expected the word routers, link or prefix"),
        ("routers 4\nlinks 0 1", "line 2: `links`: expected the word routers, link or prefix"),
        (
            "routers 4\n\nrouters 4",
            "line 3: `routers`: expected no second line for it, after line 1",
        ),
        ("routers", "line 1: `routers`: expected the form routers N"),
        ("routers 4 5 # x", "line 1: `routers 4 5`: expected the form routers N"),
        (
            "routers 4\nlink 0 1 1",
            "line 2: `link 0 1 1`: expected the form link A B COST-A-TO-B COST-B-TO-A",
        ),
        (
            "routers 4\nlink 0 1 1 1 1",
            "line 2: `link 0 1 1 1 1`: expected the form link A B COST-A-TO-B COST-B-TO-A",
        ),
    ] {
        assert_eq!(wrong(text), expected);
    }
}

#[test]
fn numbers_that_are_wrong() {
    for word in ["0", "65", "256", "-1", "+4", "4.0", "four", "0x4", "99999999999999999999"] {
        let expected = "expected the number of routers, a number from 1 to 64";
        assert_eq!(wrong(&format!("routers {word}")), format!("line 1: `{word}`: {expected}"));
    }
    for (line, expected) in [
        ("link 64 1 1 1", "`64`: expected router A, a number from 0 to 63"),
        ("link 0 300 1 1", "`300`: expected router B, a number from 0 to 63"),
        ("link 0 1 0 1", "`0`: expected the cost from A to B, a number from 1 to 65535"),
        ("link 0 1 1 65536", "`65536`: expected the cost from B to A, a number from 1 to 65535"),
    ] {
        let line = wrong(&format!("routers 4\n# {line}\n{line}"));
        assert_eq!(line, format!("line 3: {expected}"));
    }
}

#[test]
fn attachments_that_are_wrong() {
    for word in ["1", "x:0", "64:0", "0:65536", "0:", ":0", ":", "0:0:0", "0:-1", "1;0"] {
        let expected = "expected an attachment ROUTER:COST, the router from 0 to 63 and the cost \
                        from 0 to 65535";
        let line = wrong(&format!("routers 4\nprefix 1:0 {word} 2:x"));
        assert_eq!(line, format!("line 2: `{word}`: {expected}"));
    }
}

#[test]
fn limits_that_are_broken() {
    for (lines, expected) in [
        ("link 0 4 1 1", "line 2: `link 0 4 1 1`: there is no router 4: the routers are 0 to 3"),
        ("link 63 0 1 1", "line 2: `link 63 0 1 1`: there is no router 63: the routers are 0 to 3"),
        ("link 2 2 1 1", "line 2: `link 2 2 1 1`: the link joins router 2 to itself"),
        (
            "link 0 1 1 1\nlink 1 0 5 5",
            "line 3: `link 1 0 5 5`: routers 1 and 0 are joined by link 0 already",
        ),
        ("prefix", "line 2: `prefix`: the prefix has 0 attachments, expected 1 to 8"),
        ("prefix 4:0", "line 2: `prefix 4:0`: there is no router 4: the routers are 0 to 3"),
        ("prefix 1:0 1:1", "line 2: `prefix 1:0 1:1`: the prefix names router 1 twice"),
    ] {
        assert_eq!(wrong(&format!("routers 4\n{lines}")), expected);
    }
    let nine: String = (0..9).map(|router| format!(" {router}:0")).collect();
    let error = wrong(&format!("routers 9\nprefix{nine}"));
    assert!(error.ends_with("the prefix has 9 attachments, expected 1 to 8"), "{error}");
}

#[test]
fn links_and_prefixes_that_are_too_many() {
    let pairs = (0..17).flat_map(|a| (a + 1..17).map(move |b| (a, b)));
    let links: Vec<String> = pairs.map(|(a, b)| format!("link {a} {b} 1 1\n")).collect();
    let text = |count: usize, prefixes: usize| {
        let prefixes = "prefix 0:0\n".repeat(prefixes);
        format!("routers 17\n{}{prefixes}", links[..count].concat())
    };
    assert!(parse(&text(128, 128)).is_ok());
    assert_eq!(
        wrong(&text(129, 0)),
        format!("line 130: `{}`: a network has at most 128 links", links[128].trim())
    );
    assert_eq!(wrong(&text(0, 129)), "line 130: `prefix 0:0`: a network has at most 128 prefixes");
}
