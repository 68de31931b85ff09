//! The command as a child process: what it prints, and its exit status.

use crate::common::{
    answers, fails, ring, ring_4_with_prefix, run, scratch, sound_texts, stored, text_of, texts,
    with_prefix_at, RING_4,
};
use planner::{text, Link, Network};
use std::fs;
use std::process::{Command, Stdio};

#[test]
fn link() {
    let file = ring_4_with_prefix().to_bytes();
    let path = scratch("link.net", Some(&file));
    let pair = "first hop 3, endpoint 2, class 7, tunnel cost 2\n";
    assert_eq!(answers(&["link", path.to_str().unwrap(), "0", "0"], &[]), pair);
    assert_eq!(answers(&["link", "-", "0", "0"], &file), pair);
    let other = "first hop 2, endpoint 3, class 7, tunnel cost 2\n";
    assert_eq!(answers(&["link", "-", "00", "1"], &file), other);
}

#[test]
fn no_repair_is_an_answer() {
    let mut network = Network::new(2).unwrap();
    network.add_link(Link { a: 0, b: 1, out: 1, back: 1 }).unwrap();
    let file = with_prefix_at(network, &[1]).to_bytes();
    assert_eq!(answers(&["link", "-", "0", "0"], &file), no_repair(""));
    assert_eq!(answers(&["prefix", "-", "0", "0", "0"], &file), no_repair(""));
    assert_eq!(answers(&["route", "-", "0", "0", "0"], &file), no_repair(""));
}

/// The line of refusal 14, with what it says after it.
fn no_repair(after: &str) -> String {
    format!("refused 14 0: there is no repair: no pair of first hop and endpoint serves{after}\n")
}

#[test]
fn no_repair_names_what_is_under_maintenance() {
    // Router 2 leads nowhere else, so there is no repair for link 0 whatever it costs.
    let with_cost = |cost: u16| {
        let text = format!("routers 3\nlink 0 1 1 1\nlink 2 0 65535 {cost}\nprefix 1:0\n");
        text::parse(&text).unwrap().to_bytes()
    };
    let (below, maintained) = (with_cost(65_534), with_cost(65_535));
    for words in [&["link", "-", "0", "0"][..], &["prefix", "-", "0", "0", "0"]] {
        assert_eq!(answers(words, &below), no_repair(""));
        assert_eq!(answers(words, &maintained), no_repair("; under maintenance: 0 to 2"));
    }
    // S is 1, and no other link leaves it. S is 2, and E is left out in any case.
    assert_eq!(answers(&["link", "-", "0", "1"], &maintained), no_repair(""));
    assert_eq!(answers(&["link", "-", "1", "0"], &maintained), no_repair(""));
}

#[test]
fn a_repair_that_maintenance_leaves_out() {
    let left_out = no_repair("; under maintenance: 0 to 2, 0 to 3");
    let first_hops = stored("maintenance_first_hops");
    for words in [
        &["link", "-", "0", "0"][..],
        &["prefix", "-", "0", "0", "0"],
        &["route", "-", "0", "0", "0"],
    ] {
        assert_eq!(answers(words, &first_hops), left_out);
    }
    let other = "first hop 4, endpoint 2, class 7, tunnel cost 2\n";
    assert_eq!(answers(&["link", "-", "0", "1"], &first_hops), other);
    let tunnel = stored("maintenance_tunnel");
    assert_eq!(answers(&["route", "-", "0", "0", "0"], &tunnel), "route 0 5 4 3 2 1\n");
    let extended_p = "P-space: size 2, routers 0 2\n\
                      extended P-space: size 3, routers 0 2 5\n\
                      Q-space: size 3, routers 1 4 5\n";
    assert_eq!(answers(&["spaces", "-", "0", "0"], &stored("maintenance_extended_p")), extended_p);
}

#[test]
fn prefix_and_route() {
    let file = ring_4_with_prefix().to_bytes();
    let pair = "first hop 3, endpoint 3, class 1, tunnel cost 1; survives the failure of the far \
                router too\n";
    assert_eq!(answers(&["prefix", "-", "0", "0", "0"], &file), pair);
    assert_eq!(answers(&["route", "-", "0", "0", "0"], &file), "route 0 3 2\n");
    assert_eq!(answers(&["route", "-", "0", "0", "0", "7", "255"], &file), "route 0 3 2\n");
    let untouched = "untouched: no packet from S to the prefix crosses the link\n";
    assert_eq!(answers(&["prefix", "-", "1", "1", "0"], &file), untouched);
    assert_eq!(answers(&["route", "-", "1", "1", "0"], &file), untouched);
    let mut network = Network::new(3).unwrap();
    network.add_link(Link { a: 0, b: 1, out: 1, back: 1 }).unwrap();
    let apart = with_prefix_at(network, &[2]).to_bytes();
    let unreachable = "unreachable: the prefix cannot be reached from S\n";
    assert_eq!(answers(&["prefix", "-", "0", "0", "0"], &apart), unreachable);
    assert_eq!(answers(&["route", "-", "0", "0", "0"], &apart), unreachable);
}

#[test]
fn prefix_tells_which_failures_a_repair_survives() {
    let file = stored("node_ring_4");
    let [both, link] = ["far router too", "link only"];
    for (prefix, pair, survived) in [
        ("0", "first hop 3, endpoint 2, class 7, tunnel cost 2", link),
        ("1", "first hop 3, endpoint 3, class 1, tunnel cost 1", both),
        ("2", "first hop 3, endpoint 2, class 3, tunnel cost 2", both),
        ("3", "first hop 3, endpoint 3, class 1, tunnel cost 1", both),
    ] {
        let words = ["prefix", "-", "0", "0", prefix];
        assert_eq!(
            answers(&words, &file),
            format!("{pair}; survives the failure of the {survived}\n")
        );
    }
    // Who prefers the nearer neighbour is told what it does not survive.
    let file = stored("node_farther_neighbour");
    for (ranks, pair, survived) in [
        ("0,1,2,3,4,5,6,7", "first hop 3, endpoint 3, class 1, tunnel cost 2", both),
        ("0,2,3,4,1,5,6,7", "first hop 2, endpoint 2, class 4, tunnel cost 2", link),
    ] {
        let words = ["prefix", "-", "0", "0", "0", "--ranks", ranks];
        assert_eq!(
            answers(&words, &file),
            format!("{pair}; survives the failure of the {survived}\n")
        );
    }
}

#[test]
fn choices() {
    let text = "routers 5\nlink 0 4 3 3\nlink 0 1 1 1\nlink 1 2 1 1\nlink 1 3 1 1\nlink 2 4 1 1\n\
                link 3 4 1 1\nprefix 4:0\n";
    let file = text::parse(text).unwrap().to_bytes();
    assert_eq!(answers(&["route", "-", "0", "0", "0"], &file), "route 0 1 2 4\n");
    assert_eq!(answers(&["route", "-", "0", "0", "0", "1"], &file), "route 0 1 3 4\n");
}

#[test]
fn spaces() {
    let file = ring(4).to_bytes();
    let spaces = "P-space: size 2, routers 0 3\n\
                  extended P-space: size 3, routers 0 2 3\n\
                  Q-space: size 2, routers 1 2\n";
    assert_eq!(answers(&["spaces", "-", "0", "0"], &file), spaces);
    let two = text::parse("routers 2\nlink 0 1 1 1").unwrap().to_bytes();
    let spaces =
        "P-space: size 1, routers 0\nextended P-space: size 0\nQ-space: size 1, routers 1\n";
    assert_eq!(answers(&["spaces", "-", "0", "0"], &two), spaces);
}

#[test]
fn make_and_text() {
    let from = scratch("make.txt", Some(RING_4.as_bytes()));
    let to = scratch("make.net", None);
    let (from, to) = (from.to_str().unwrap(), to.to_str().unwrap());
    assert_eq!(answers(&["make", from, to], &[]), "");
    assert_eq!(fs::read(to).unwrap(), ring_4_with_prefix().to_bytes());
    assert_eq!(answers(&["text", to], &[]), RING_4);
    // What is there is overwritten, also where it is longer.
    assert_eq!(answers(&["make", "-", to], b"routers 1\n"), "");
    assert_eq!(answers(&["text", to], &[]), "routers 1\n");
    // The mark that some editors put first is no part of the text.
    assert_eq!(answers(&["make", "-", to], "\u{feff}routers 2\n".as_bytes()), "");
    assert_eq!(answers(&["text", to], &[]), "routers 2\n");
    let made = run(&["make", "-", "-"], RING_4.as_bytes());
    assert_eq!(made.stdout, ring_4_with_prefix().to_bytes());
    assert_eq!(answers(&["text", "-"], &made.stdout), RING_4);
}

#[test]
fn text_says_what_is_under_maintenance() {
    let text = "\
routers 3
link 1 0 65535 65534  # under maintenance from 1 to 0
link 1 2 1 65535  # under maintenance from 2 to 1
link 2 0 65535 65535  # under maintenance both ways
prefix 1:65535
";
    let file = run(&["make", "-", "-"], text.as_bytes()).stdout;
    let without = text.lines().map(|line| line.split("  #").next().unwrap().to_string() + "\n");
    assert_eq!(run(&["make", "-", "-"], without.collect::<String>().as_bytes()).stdout, file);
    assert_eq!(answers(&["text", "-"], &file), text);
}

#[test]
fn make_then_text_of_every_sound_text() {
    for case in sound_texts() {
        let made = run(&["make", case.path.to_str().unwrap(), "-"], &[]);
        assert_eq!(made.status.code(), Some(0), "{}", case.path.display());
        let again = answers(&["text", "-"], &made.stdout);
        assert_eq!(text::parse(&again), text::parse(&case.text), "{}", case.path.display());
    }
    for case in texts("examples") {
        let stored = case.path.with_extension("net");
        let again = answers(&["text", stored.to_str().unwrap()], &[]);
        assert_eq!(text::parse(&again), text::parse(&case.text), "{}", case.path.display());
    }
}

#[test]
fn refused_files() {
    let length = "planner: standard input: refused 1 0: the file is empty, its length is no \
                  multiple of 512, or it is over 6656 bytes";
    let again = "; copy the file again, or make it again with `planner make`\n";
    let check = "planner: standard input: refused 2 1: the check of block 1 is wrong";
    let mut spoiled = ring(4).to_bytes();
    spoiled[600] ^= 1;
    for words in [
        &["link", "-", "0", "0"][..],
        &["prefix", "-", "0", "0", "0"],
        &["route", "-", "0", "0", "0"],
        &["spaces", "-", "0", "0"],
        &["text", "-"],
    ] {
        assert_eq!(fails(words, &[], 1), format!("{length}{again}"));
        assert_eq!(fails(words, &vec![0; 200_000], 1), format!("{length}{again}"));
        assert_eq!(fails(words, &spoiled, 1), format!("{check}{again}"));
        // A text in place of the file that is made of it.
        let text = "; it looks like a text, of which `planner make` makes the network file\n";
        assert_eq!(fails(words, RING_4.as_bytes(), 1), format!("{length}{text}"));
    }
    let path = scratch("refused_file.net", Some(&spoiled));
    let named = format!("planner: `{}`: refused 2 1: ", path.display());
    assert!(fails(&["text", path.to_str().unwrap()], &[], 1).starts_with(&named));
}

#[test]
fn refused_questions() {
    let file = ring_4_with_prefix().to_bytes();
    let no_link = "planner: refused 12 4: there is no such link or end: the number of links is 4, \
                   they count from 0, and an end is 0 or 1\n";
    assert_eq!(fails(&["link", "-", "4", "0"], &file, 1), no_link);
    assert_eq!(fails(&["link", "-", "18446744073709551615", "0"], &file, 1), no_link);
    assert_eq!(fails(&["spaces", "-", "0", "2"], &file, 1), no_link);
    let no_prefix = "planner: refused 13 1: there is no such prefix: the number of prefixes is 1, \
                     and they count from 0\n";
    assert_eq!(fails(&["prefix", "-", "0", "0", "1"], &file, 1), no_prefix);
    assert_eq!(fails(&["route", "-", "0", "0", "1", "3"], &file, 1), no_prefix);
}

#[test]
fn refused_texts() {
    let to = scratch("refused.net", None);
    let words = ["make", "-", to.to_str().unwrap()];
    let cost =
        "planner: standard input: line 2: `x`: expected the cost from A to B, a number from \
                1 to 65535\n";
    assert_eq!(fails(&words, b"routers 2\nlink 0 1 x 1\n", 1), cost);
    let encoding = "planner: standard input: line 2: it is not written in UTF-8; save the text as \
                    UTF-8\n";
    assert_eq!(fails(&words, b"routers 2\n# \xff\n", 1), encoding);
    let zero =
        "planner: standard input: it holds a zero byte, so it is no text; name the text first \
                and the network file second\n";
    assert_eq!(fails(&words, &ring(4).to_bytes(), 1), zero);
    let long = "planner: standard input: it has more bytes than the text of a network may have, \
                1048576\n";
    assert_eq!(fails(&words, &vec![b'#'; (1 << 20) + 1], 1), long);
    assert!(!to.exists(), "a refused text makes no file");
    let from = scratch("refused.txt", Some(b"routers 65\n"));
    let from = from.to_str().unwrap();
    let routers = format!(
        "planner: `{from}`: line 1: `65`: expected the number of routers, a number from 1 to 64\n"
    );
    assert_eq!(fails(&["make", from, "-"], &[], 1), routers);
}

#[test]
fn help() {
    let help = answers(&["--help"], &[]);
    for name in ["link", "prefix", "route", "spaces", "text", "make", "drill"] {
        assert!(help.contains(&format!("planner {name} ")), "{name}");
    }
    assert!(help.contains("--ranks RANKS "));
    assert!(help.lines().all(|line| line.len() <= 80));
    assert_eq!(answers(&["link", "--help"], &[]), help);
    assert_eq!(fails(&[], &[], 2), format!("planner: no command is given\n\n{help}"));
}

#[test]
fn wrong_words() {
    let no_command = "planner: `lnk` is no command; the commands are link, prefix, route, spaces, \
                      text, make, drill, and --help says more\n";
    assert_eq!(fails(&["lnk", "-", "0", "0"], &[], 2), no_command);
    let link = "usage: planner link FILE LINK END [--ranks RANKS]\n";
    let route = "usage: planner route FILE LINK END PREFIX [CHOICE ...] [--ranks RANKS]\n";
    let drill = "usage: planner drill SEED N FILE\n";
    for (words, wrong, usage) in [
        (&["link"][..], "FILE is missing", link),
        (&["link", "-"], "LINK is missing", link),
        (&["link", "-", "0"], "END is missing", link),
        (&["link", "-", "0", "0", "0"], "`0` is one word too many", link),
        (&["spaces", "-", "0"], "END is missing", "usage: planner spaces FILE LINK END\n"),
        (
            &["prefix", "-", "0", "0"],
            "PREFIX is missing",
            "usage: planner prefix FILE LINK END PREFIX [--ranks RANKS]\n",
        ),
        (&["route", "-", "0", "0"], "PREFIX is missing", route),
        (&["text"], "FILE is missing", "usage: planner text FILE\n"),
        (&["text", "-", "-"], "`-` is one word too many", "usage: planner text FILE\n"),
        (&["make"], "TEXT is missing", "usage: planner make TEXT FILE\n"),
        (&["make", "-"], "FILE is missing", "usage: planner make TEXT FILE\n"),
        (&["make", "-", ""], "FILE is empty", "usage: planner make TEXT FILE\n"),
        (&["drill"], "SEED is missing", drill),
        (&["drill", "8"], "N is missing", drill),
        (&["drill", "8", "5"], "FILE is missing", drill),
        (&["drill", "", "5", "-"], "SEED is empty", drill),
        (&["drill", "8", "5", ""], "FILE is empty", drill),
        (&["drill", "8", "5", "-", "-"], "`-` is one word too many", drill),
        (
            &["drill", "8", "5", "-", "--ranks", "0,1,2,3,4,5,6,7"],
            "--ranks is for link, prefix and route; leave it out",
            drill,
        ),
        (&["link", "", "0", "0"], "FILE is empty", link),
        (&["link", "-", "", "0"], "LINK is empty", link),
    ] {
        assert_eq!(fails(words, &[], 2), format!("planner: {wrong}\n{usage}"));
    }
}

#[test]
fn numbers_that_are_none() {
    let most = u64::MAX;
    for (words, wrong) in [
        (["x", "0", "0", "0"], format!("LINK is `x`, expected a number from 0 to {most}")),
        (["0", "+1", "0", "0"], format!("END is `+1`, expected a number from 0 to {most}")),
        (["0", "0", "-1", "0"], format!("PREFIX is `-1`, expected a number from 0 to {most}")),
        (["0", "0", "0", ""], "CHOICE is ``, expected a number from 0 to 255".to_string()),
        (["0", "0", "0", "256"], "CHOICE is `256`, expected a number from 0 to 255".to_string()),
        (["0", "0", "0", "one"], "CHOICE is `one`, expected a number from 0 to 255".to_string()),
    ] {
        let usage = "usage: planner route FILE LINK END PREFIX [CHOICE ...] [--ranks RANKS]\n";
        let words = [&["route", "-"], &words[..]].concat();
        assert_eq!(fails(&words, &[], 2), format!("planner: {wrong}\n{usage}"));
    }
    let over = "18446744073709551616";
    let wrong = fails(&["link", "-", over, "0"], &[], 2);
    assert!(wrong.starts_with(&format!("planner: LINK is `{over}`, expected a number")), "{wrong}");
}

#[test]
fn files_that_cannot_be_read() {
    let missing = scratch("missing/file.net", None);
    let missing = missing.to_str().unwrap();
    for words in [&["link", missing, "0", "0"][..], &["text", missing], &["make", missing, "-"]] {
        let wrong = fails(words, &[], 2);
        assert!(wrong.starts_with(&format!("planner: `{missing}` cannot be read: ")), "{wrong}");
    }
    let folder = env!("CARGO_TARGET_TMPDIR");
    let wrong = fails(&["text", folder], &[], 2);
    assert!(wrong.starts_with(&format!("planner: `{folder}` cannot be read: ")), "{wrong}");
}

#[cfg(target_os = "linux")]
#[test]
fn an_answer_that_cannot_be_written() {
    let full = fs::File::options().write(true).open("/dev/full").expect("a device that is full");
    let child = Command::new(env!("CARGO_BIN_EXE_planner"))
        .arg("--help")
        .stdout(full)
        .stderr(Stdio::piped())
        .spawn()
        .expect("the command starts");
    let output = child.wait_with_output().expect("the command ends");
    assert_eq!(output.status.code(), Some(2));
    assert!(text_of(output.stderr).starts_with("planner: standard output cannot be written: "));
}
