//! Ranks: in the calls, which take them from any place, and on the command line.

use crate::common::{answers, fails, ring_4_with_prefix, stored};
use planner::{Pair, Played, Refusal, Repair, ASCENDING_RANKS, ROUTE_BYTES, WORK_CELLS};

const WRONG: Refusal = Refusal { number: 15, value: 0 };

/// The first pair of each class for link 0, end 0 and the prefix of the stored network in which each
/// class has one, and the route by it.
const BEST: [(Pair, &[u8]); 8] = [
    (Pair { first: 2, endpoint: 2, class: 0, cost: 3 }, &[0, 2, 6]),
    (Pair { first: 3, endpoint: 3, class: 1, cost: 3 }, &[0, 3, 6]),
    (Pair { first: 3, endpoint: 2, class: 2, cost: 9 }, &[0, 3, 0, 2, 6]),
    (Pair { first: 2, endpoint: 3, class: 3, cost: 9 }, &[0, 2, 0, 3, 6]),
    (Pair { first: 4, endpoint: 4, class: 4, cost: 3 }, &[0, 4, 1, 6]),
    (Pair { first: 5, endpoint: 5, class: 5, cost: 3 }, &[0, 5, 1, 6]),
    (Pair { first: 2, endpoint: 4, class: 6, cost: 9 }, &[0, 2, 0, 4, 1, 6]),
    (Pair { first: 2, endpoint: 5, class: 7, cost: 9 }, &[0, 2, 0, 5, 1, 6]),
];

/// The first pair of each class for link 0, end 0 of the stored network of four classes.
const BEST_OF_LINK: [Pair; 4] = [
    Pair { first: 2, endpoint: 2, class: 4, cost: 3 },
    Pair { first: 3, endpoint: 3, class: 5, cost: 3 },
    Pair { first: 3, endpoint: 2, class: 6, cost: 9 },
    Pair { first: 2, endpoint: 3, class: 7, cost: 9 },
];

/// The three calls about link 0, end 0 and prefix 0.
fn asked(file: &[u8], ranks: &[u8], choices: &[u8]) -> Result<(Pair, Repair, Vec<u8>), Refusal> {
    let (mut work, mut route) = ([0; WORK_CELLS], [255; ROUTE_BYTES]);
    let link = planner::link_repair(file, &mut work, ranks, 0, 0);
    let prefix = planner::prefix_repair(file, &mut work, ranks, 0, 0, 0);
    let played = planner::route(file, &mut work, ranks, 0, 0, 0, choices, &mut route);
    // One call refuses the ranks where the others do.
    assert_eq!(link.map(|_| ()), prefix.map(|_| ()));
    assert_eq!(link.map(|_| ()), played.map(|_| ()));
    let Played::Written(count) = played? else { panic!("{played:?}") };
    Ok((link?, prefix?, route[..count].to_vec()))
}

/// Ascending ranks, each class in turn preferred, and 1,000 at random.
fn some_ranks() -> Vec<[u8; 8]> {
    let turned = |turn: u8| ASCENDING_RANKS.map(|class| (class + 8 - turn) % 8);
    (0..8).map(turned).chain(oracle::ranks::random_tables(1000, 1)).collect()
}

#[test]
fn the_lowest_rank_decides() {
    let file = stored("node_eight_classes");
    for ranks in some_ranks() {
        let class = ranks.iter().position(|rank| *rank == 0).unwrap();
        let (pair, route) = BEST[class];
        let (_, repair, played) = asked(&file, &ranks, &[]).unwrap();
        assert_eq!((repair, played), (Repair::Pair(pair), route.to_vec()), "{ranks:?}");
        assert_eq!(pair.survives_far_router(), class < 4);
    }
    let file = stored("four_classes");
    for ranks in some_ranks() {
        let class = (4..8).min_by_key(|class| ranks[*class]).unwrap();
        let pair = BEST_OF_LINK[class - 4];
        let (link, repair, _) = asked(&file, &ranks, &[]).unwrap();
        assert_eq!((link, repair), (pair, Repair::Pair(pair)), "{ranks:?}");
        assert!(!link.survives_far_router());
    }
}

#[test]
fn wrong_tables() {
    let file = stored("four_classes");
    for ranks in oracle::ranks::wrong_tables() {
        assert_eq!(asked(&file, &ranks, &[]), Err(WRONG), "{ranks:?}");
    }
}

#[test]
fn ranks_that_are_a_part_of_another_buffer() {
    // Link 0 joins 5 and 4 at the costs 7 and 1,538, so that its entry and the two routers of link 1
    // are an arrangement, by which class 7 comes before class 5.
    let text = "routers 8\nlink 5 4 7 1538\nlink 1 3 1 1\nlink 5 1 9 9\nlink 3 4 9 9\nprefix 4:0\n";
    let file = planner::text::parse(text).unwrap().to_bytes();
    let ranks = [5, 4, 7, 0, 2, 6, 1, 3];
    let at = file.windows(8).position(|bytes| bytes == ranks).expect("links 0 and 1");
    let (link, repair, route) = asked(&file, &file[at..at + 8], &file).unwrap();
    let tunnel = Pair { first: 1, endpoint: 3, class: 7, cost: 10 };
    assert_eq!((link, repair), (tunnel, Repair::Pair(tunnel)));
    assert_eq!(route, [5, 1, 3, 4]);
    assert_eq!(asked(&file, &ASCENDING_RANKS, &[]).unwrap().0.class, 5);
    assert_eq!(asked(&file, &file[at..], &[]), Err(WRONG));
    assert_eq!(asked(&file, &file, &file), Err(WRONG));
    // The same bytes as ranks and as choices, and as a file that is none.
    assert_eq!(asked(&file, &ranks, &ranks), asked(&file, &ranks, &[5, 4, 7, 0, 2, 6, 1, 3]));
    assert_eq!(asked(&ranks, &ranks, &ranks), Err(Refusal { number: 1, value: 0 }));
}

#[test]
fn the_command_takes_ranks_anywhere_after_its_name() {
    let file = ring_4_with_prefix().to_bytes();
    let survives = "survives the failure of the far router too\n";
    let neighbour = format!("first hop 3, endpoint 3, class 1, tunnel cost 1; {survives}");
    let tunnel = format!("first hop 3, endpoint 2, class 2, tunnel cost 2; {survives}");
    for (words, expected) in [
        (&["prefix", "-", "0", "0", "0"][..], &neighbour),
        (&["prefix", "-", "0", "0", "0", "--ranks", "0,1,2,3,4,5,6,7"], &neighbour),
        (&["prefix", "-", "0", "0", "0", "--ranks", "4,5,0,1,6,7,2,3"], &tunnel),
        (&["prefix", "--ranks", "4,5,0,1,6,7,2,3", "-", "0", "0", "0"], &tunnel),
        (&["prefix", "-", "0", "--ranks", "04,5,0,001,6,7,2,3", "0", "0"], &tunnel),
    ] {
        assert_eq!(&answers(words, &file), expected);
    }
    let file = stored("node_eight_classes");
    for (ranks, class) in [
        ("0,1,2,3,4,5,6,7", 0),
        ("3,0,2,1,4,5,6,7", 1),
        ("4,1,2,3,0,5,6,7", 4),
        ("7,6,5,4,3,2,1,0", 7),
    ] {
        let route = BEST[class].1.iter().map(u8::to_string).collect::<Vec<String>>().join(" ");
        let played = answers(&["route", "-", "0", "0", "0", "--ranks", ranks, "7", "9"], &file);
        assert_eq!(played, format!("route {route}\n"));
    }
    let link = ["link", "-", "0", "0", "--ranks", "7,6,5,4,3,2,1,0"];
    assert_eq!(answers(&link, &stored("four_classes")), format!("{}\n", BEST_OF_LINK[3]));
}

#[test]
fn ranks_that_are_no_arrangement_are_refused_in_words() {
    let file = ring_4_with_prefix().to_bytes();
    let wrong = "planner: refused 15 0: the ranks are no arrangement: the eight classes have the \
                 ranks 0 to 7, each once, in any order\n";
    for ranks in [
        "0,1,2,3",
        "0,1,2,3,4,5,6",
        "0,1,2,3,4,5,6,7,7",
        "0,1,2,3,4,5,6,6",
        "1,2,3,4,5,6,7,8",
        "0,1,2,3,4,5,6,255",
        "7",
    ] {
        for words in [&["link", "-", "4", "0"][..], &["prefix", "-", "0", "0", "9"]] {
            assert_eq!(fails(&[words, &["--ranks", ranks]].concat(), &file, 1), wrong);
        }
        assert_eq!(fails(&["route", "--ranks", ranks, "-", "0", "0", "0"], &file, 1), wrong);
    }
    // The file is judged first.
    let refused = fails(&["link", "-", "0", "0", "--ranks", "7"], &[], 1);
    assert!(refused.starts_with("planner: standard input: refused 1 0: "), "{refused}");
}

#[test]
fn ranks_that_are_no_numbers_are_wrong_words() {
    let usage = "usage: planner link FILE LINK END [--ranks RANKS]\n";
    let ascending = "0,1,2,3,4,5,6,7";
    let spaced = [ascending.replace(',', " "), ascending.replace(',', ", ")];
    let others = ["", "x", "0,1,2,3,4,5,6,", "0,1,,3,4,5,6,7", "0,1,2,3,4,5,6,256", "+0,1"];
    for ranks in others.into_iter().chain(spaced.iter().map(String::as_str)) {
        let wrong = format!(
            "planner: RANKS is `{ranks}`, expected numbers from 0 to 255 with commas and no spaces \
             between, as in 4,5,0,1,6,7,2,3\n{usage}"
        );
        assert_eq!(fails(&["link", "-", "0", "0", "--ranks", ranks], &[], 2), wrong);
    }
    for (words, wrong) in [
        (&["link", "-", "0", "0", "--ranks"][..], "RANKS is missing after --ranks"),
        (&["link", "--ranks", ascending, "-", "0"], "END is missing"),
        (
            &["link", "--ranks", ascending, "-", "0", "0", "--ranks", ascending],
            "--ranks is given twice; give it once",
        ),
        (&["link", "--ranks", "--ranks", "-", "0", "0"], "--ranks is given twice; give it once"),
        (&["link", "-", "0", "0", "--ranks=7"], "`--ranks=7` is one word too many"),
    ] {
        assert_eq!(fails(words, &[], 2), format!("planner: {wrong}\n{usage}"));
    }
    let wrong = "planner: --ranks is for link, prefix and route; leave it out\n\
                 usage: planner spaces FILE LINK END\n";
    assert_eq!(fails(&["spaces", "-", "0", "0", "--ranks", ascending], &[], 2), wrong);
}
