//! Drills: the call, which takes any numbers and any buffer, and the command.

use crate::common::{answers, drill, fails, oracle_file, run, scratch};
use planner::{text, DRILL_BYTES, LEAST_DRILL_ROUTERS, MOST_DRILL_ROUTERS};
use std::fs;

/// The text of a drill, drawn by numbers that are wide enough for every product.
fn drawn(seed: u32, routers: usize) -> String {
    let mut seed = u64::from(seed);
    let mut cost = || {
        seed = (1_664_525 * seed + 1_013_904_223) % 4_294_967_296;
        1 + seed / 65_536 % 100
    };
    let link = |k| format!("link {k} {} {} {}\n", (k + 1) % routers, cost(), cost());
    let links: String = (0..routers).map(link).collect();
    format!("routers {routers}\n{links}")
}

#[test]
fn a_drill_worked_by_hand() {
    // From 0 the seed becomes 1013904223, 1196435762, 3519870697, 2868466484, 1649599747 and
    // 2670642822, whose upper 16 bits are 15470, 18256, 53708, 43769, 25170 and 40750.
    let text = "routers 3\nlink 0 1 71 57\nlink 1 2 9 70\nlink 2 0 71 51\n";
    assert_eq!(text::print(&planner::load(&drill(0, 3)).unwrap()), text);
    assert_eq!(drawn(0, 3), text);
}

#[test]
fn drills_of_all_sizes() {
    for seed in [0, 1, 8, 0x7FFF_FFFF, 0x8000_0000, u32::MAX] {
        for routers in LEAST_DRILL_ROUTERS..=MOST_DRILL_ROUTERS {
            let (file, text) = (drill(seed, routers), drawn(seed, routers));
            assert_eq!(Ok(&file), oracle_file(&text).as_ref(), "{seed} {routers}");
            assert_eq!(planner::load(&file), Ok(text::parse(&text).unwrap()), "{seed} {routers}");
        }
    }
}

#[test]
fn routers_that_no_drill_has() {
    for routers in [0, 1, 2, 65, 66, 255, (1 << 8) + 5, (1 << 32) + 5, usize::MAX] {
        let mut buffer = [7; DRILL_BYTES];
        assert_eq!(planner::drill(8, routers, &mut buffer), 0, "{routers}");
        assert_eq!(buffer, [7; DRILL_BYTES], "{routers}");
    }
}

#[test]
fn a_drill_is_written_whole_or_not_at_all() {
    let file = drill(8, 64);
    for length in 0..=DRILL_BYTES + 3 {
        let mut buffer = vec![7; length];
        let (written, count) = if length < DRILL_BYTES { (&[][..], 0) } else { (&file[..], 1024) };
        assert_eq!(planner::drill(8, 64, &mut buffer), count, "{length}");
        assert_eq!(buffer, [written, &vec![7; length - count]].concat(), "{length}");
    }
}

#[test]
fn the_command_makes_the_file_of_a_drill() {
    let path = scratch("drill.net", None);
    let name = path.to_str().unwrap();
    for (seed, n) in [("0", "3"), ("4294967295", "64"), ("08", "005")] {
        // The same drill may be written again.
        for _ in 0..2 {
            assert_eq!(answers(&["drill", seed, n, name], &[]), "");
            assert_eq!(fs::read(&path).unwrap(), drill(seed.parse().unwrap(), n.parse().unwrap()));
        }
        fs::remove_file(&path).unwrap();
    }
    assert_eq!(answers(&["drill", "8", "5", name], &[]), "");
    assert_eq!(answers(&["text", name], &[]), drawn(8, 5));
    let made = run(&["drill", "8", "5", "-"], &[]);
    assert_eq!((made.stdout, made.stderr, made.status.code()), (drill(8, 5), vec![], Some(0)));
    let pair = "first hop 4, endpoint 2, class 7, tunnel cost 86\n";
    assert_eq!(answers(&["link", "-", "0", "0"], &drill(8, 5)), pair);
}

#[test]
fn numbers_that_name_no_drill() {
    let path = scratch("no_drill.net", None);
    let name = path.to_str().unwrap();
    let wrong = |seed: &str, n: &str, wrong: &str| {
        let wrong = format!("planner: {wrong}\nusage: planner drill SEED N FILE\n");
        assert_eq!(fails(&["drill", seed, n, name], &[], 2), wrong);
    };
    for seed in ["4294967296", "18446744073709551616", "-1", "+8", "0x8", "eight", " 8"] {
        wrong(seed, "5", &format!("SEED is `{seed}`, expected a number from 0 to 4294967295"));
    }
    for n in ["0", "2", "65", "259", "18446744073709551616", "-5", "+5", "5.0", "five", "5 "] {
        wrong("8", n, &format!("N is `{n}`, expected a number from 3 to 64"));
    }
    assert!(!path.exists());
}
