//! The stored inputs and outputs: their form, the lines of each section, lines
//! known by hand, and that the sections notice wrong planners.

use crate::common::{stored_cases, stored_file};
use oracle::answer::{load, plan_text};
use oracle::fault::{Context, Fault};
use oracle::file::write;
use oracle::network::Network;
use oracle::stored::cases::Case;
use oracle::stored::programs::{Program, SECTIONS, Section};
use oracle::worked::*;

fn program(name: &str) -> &'static Program {
    Program::named(name).expect("a program")
}

/// The lines of a section for a file.
fn prints(name: &str, file: &[u8]) -> String {
    let section = Section::named(name).expect("a section");
    (section.lines)(&Context::sound(), file)
}

/// The programs that read the stored cases, with their sections in order.
const OVER_CASES: [(&str, &[&str]); 3] = [
    ("stored_answers", &["reading", "repairs"]),
    ("stored_buffers", &["distances", "routes"]),
    ("stored_tables", &["tables"]),
];

#[test]
fn an_input_holds_each_file_after_its_length() {
    let cases = stored_cases();
    for (name, _) in OVER_CASES {
        let program = program(name);
        let chosen = program.chosen(&cases).expect("cases");
        let input = program.input(&chosen).expect("an input");
        let mut rest = input.as_slice();
        for case in &chosen {
            let length = usize::from(rest[0]) + 256 * usize::from(rest[1]);
            assert_eq!(rest[2..2 + length], case.file, "{}", case.name);
            rest = &rest[2 + length..];
        }
        assert!(rest.is_empty());
    }
}

#[test]
fn every_text_is_a_case_and_the_networks_come_first() {
    let cases = stored_cases();
    let texts: Vec<&Case> = cases.networks.iter().chain(&cases.reader).collect();
    for (name, _) in OVER_CASES {
        assert_eq!(program(name).chosen(&cases), Ok(texts.clone()));
    }
}

#[test]
fn an_output_numbers_its_cases_and_has_the_sections_in_their_order() {
    let case = |file: Vec<u8>| Case { name: String::new(), file };
    let (one, two) = (case(write(&ring(3))), case(Vec::new()));
    for (name, sections) in OVER_CASES {
        let output = program(name).output(&Context::sound(), &[&one, &two]);
        let all = |file: &[u8]| sections.iter().map(|name| prints(name, file)).collect::<String>();
        assert_eq!(output, format!("case 0\n{}case 1\n{}", all(&one.file), all(&two.file)));
    }
}

#[test]
fn every_section_is_printed_by_one_program() {
    let mut printed = OVER_CASES.map(|(_, sections)| sections.to_vec()).concat();
    let mut named: Vec<&str> = SECTIONS.iter().map(|section| section.name).collect();
    printed.sort();
    named.sort();
    assert_eq!(printed, named);
}

#[test]
fn the_section_of_the_reader() {
    let network = ring_4_with_prefix().prefix(&[(3, 258)]);
    let expected = "\
accepted 4 4 2
link 0 0 1 1 1
link 1 1 2 1 1
link 2 2 3 1 1
link 3 3 0 1 1
prefix 0 1 0 2 0
prefix 1 3 258
link-entry 0 0 1 1 0 1 0
link-entry 3 3 0 1 0 1 0
link-entry 4
link-entry 4000000000
prefix-entry 0 2 0 1 0 0 0 2 0 0 0 0 0 0 0 0 0 0 0 0 0 0 0 0 0 0 0 0 0 0 0 0 0 0 0
prefix-entry 1 1 0 3 0 2 1 0 0 0 0 0 0 0 0 0 0 0 0 0 0 0 0 0 0 0 0 0 0 0 0 0 0 0 0
prefix-entry 2
prefix-entry 4000000000
";
    assert_eq!(prints("reading", &write(&network)), expected);
}

#[test]
fn the_section_of_the_reader_for_one_link_and_for_a_refused_file() {
    let expected = "\
accepted 2 1 0
link 0 0 1 1 1
link-entry 0 0 1 1 0 1 0
link-entry 1
link-entry 4000000000
prefix-entry 0
prefix-entry 0
prefix-entry 4000000000
";
    assert_eq!(prints("reading", &write(&two_routers())), expected);
    let expected = "\
refused 1 0
link-entry 0
link-entry 1
link-entry 4000000000
prefix-entry 0
prefix-entry 1
prefix-entry 4000000000
";
    assert_eq!(prints("reading", &[]), expected);
}

#[test]
fn the_section_of_distances() {
    let expected = "\
done
row 0 0 1 4294967295
row 1 2 0 4294967295
row 2 4294967295 4294967295 0
later 7 7
refused 10 9
kept
";
    let network = Network::of_routers(3).link(0, 1, 1, 2);
    assert_eq!(prints("distances", &write(&network)), expected);
    let expected = "refused 3 0\nlater 7 7\nrefused 3 0\nkept\n";
    assert_eq!(prints("distances", &write(&Network::of_routers(0))), expected);
}

#[test]
fn the_section_of_repairs() {
    let network = two_routers().prefix(&[(1, 0)]);
    let expected = "\
p 0 0 set 1
extended-p 0 0 set 0
q 0 0 set 2
link-repair 0 0 refused 14 0
prefix-repair 0 0 0 refused 14 0
ranked-link-repair 0 0 refused 14 0
ranked-prefix-repairs 0 0 0
p 0 1 set 2
extended-p 0 1 set 0
q 0 1 set 1
link-repair 0 1 refused 14 0
prefix-repair 0 1 0 untouched
ranked-link-repair 0 1 refused 14 0
ranked-prefix-repairs 0 1 2
p 1 0 refused 12 1
extended-p 1 0 refused 12 1
q 1 0 refused 12 1
link-repair 1 0 refused 12 1
prefix-repair 1 0 0 refused 12 1
p 0 2 refused 12 1
extended-p 0 2 refused 12 1
q 0 2 refused 12 1
link-repair 0 2 refused 12 1
prefix-repair 0 2 0 refused 12 1
prefix-repair 0 0 1 refused 13 1
wrong-link-ranks 0 refused 15 0
wrong-link-ranks 1 refused 15 0
wrong-link-ranks 2 refused 15 0
wrong-link-ranks 3 refused 15 0
wrong-link-ranks 4 refused 15 0
wrong-link-ranks 5 refused 15 0
wrong-link-ranks 6 refused 15 0
wrong-link-ranks 7 refused 15 0
wrong-link-ranks 8 refused 15 0
wrong-link-ranks 9 refused 15 0
wrong-link-ranks 10 refused 15 0
wrong-link-ranks 11 refused 15 0
wrong-prefix-ranks 1 refused 15 0
";
    assert_eq!(prints("repairs", &write(&network)), expected);
}

#[test]
fn the_section_of_repairs_for_one_router_and_for_a_refused_file() {
    for (file, answer, ranked, of_ranks) in [
        (write(&lone_router()), " refused 12 0", 13, " refused 15 0"),
        (vec![], " refused 1 0", 1, " refused 1 0"),
    ] {
        let text = prints("repairs", &file);
        let lines: Vec<&str> = text.lines().collect();
        assert_eq!(lines.len(), 11 + ranked);
        assert!(lines[..11].iter().all(|line| line.ends_with(answer)), "{text}");
        assert!(lines[11..].iter().all(|line| line.ends_with(of_ranks)), "{text}");
    }
}

#[test]
fn the_section_of_routes() {
    let network = ring(3).prefix(&[(1, 0)]);
    let text = prints("routes", &write(&network));
    let mut expected = String::new();
    for (link_end, answer) in [
        ("0 0", "count 3 route 0 2 1"),
        ("0 1", "untouched"),
        ("1 0", "untouched"),
        ("1 1", "count 3 route 2 0 1"),
        ("2 0", "untouched"),
        ("2 1", "untouched"),
    ] {
        for string in 0..5 {
            expected += &format!("route {link_end} 0 {string} {answer} kept\n");
        }
        expected += &format!("ranked-route {link_end} 0 3 {answer} kept\n");
    }
    expected += "\
short-route 0 0 0 0 refused 11 6 kept
short-route-and-ranks 0 0 0 0 refused 11 6 kept
wrong-ranks 3 0 0 0 refused 15 0 kept
kept
";
    assert_eq!(text, expected);
    let expected = "\
short-route 0 0 0 0 refused 1 0 kept
short-route-and-ranks 0 0 0 0 refused 1 0 kept
wrong-ranks 0 0 0 0 refused 1 0 kept
kept
";
    assert_eq!(prints("routes", &[]), expected);
}

#[test]
fn the_section_of_routes_shows_bytes_that_are_not_kept() {
    let file = write(&two_routers().prefix(&[(1, 0)]));
    let changed = |fault, file: &[u8]| {
        let section = Section::named("routes").expect("a section");
        let text = (section.lines)(&Context::with(&[fault]), file);
        text.lines().filter(|line| line.ends_with("changed")).count()
    };
    // Six times refusal 14, and six times untouched.
    assert_eq!(changed(Fault::NothingPlayedWrites, &file), 12);
    // Twice refusal 11, and refusal 15, which tells of the work area too.
    assert_eq!(changed(Fault::RefusalTouchesBuffers, &file), 4);
    assert_eq!(changed(Fault::FifteenFills, &file), 1);
    assert_eq!(changed(Fault::LaterBytesTouched, &file), 0);
    let file = write(&ring(3).prefix(&[(1, 0)]));
    assert_eq!(changed(Fault::LaterBytesTouched, &file), 12);
}

/// Two routers, of which no link has a repair. The sums are those of 14 three times and
/// of untouched, and of four times 10, value 4, and 18: 3588 * 33 * (33^2 + 33 + 1) + 2,
/// 264708 and 4612 times 33^3 + 33^2 + 33 + 1.
#[test]
fn the_section_of_tables() {
    let network = two_routers().prefix(&[(1, 0)]);
    let expected = "\
link-repair 0 0 refused 14 0
link-repair 0 1 refused 14 0
prefix-repair 0 0 0 refused 14 0
route 0 0 0 refused 14 0 kept
prefix-repair 0 1 0 untouched
route 0 1 0 untouched kept
table 1 132967694
table-route 1 refused 14 0 kept
table 2 9810078480
table-route 2 refused 10 4 kept
table 3 170920720
table-route 3 refused 18 0 kept
table 4 170920720
table-route 4 refused 18 0 kept
table 5 170920720
table-route 5 refused 18 0 kept
table 6 170920720
table-route 6 refused 18 0 kept
table 7 132967694
table-route 7 refused 14 0 kept
table 8 170920720
table-route 8 refused 18 0 kept
table 9 170920720
table-route 9 refused 18 0 kept
";
    assert_eq!(of_tables(&network).0, expected);
}

/// The lines of the section of tables for a network: those before its last lines, and
/// the last, which are about the order of the rows.
fn of_tables(network: &Network) -> (String, String) {
    let text = prints("tables", &write(network));
    let (tables, rows) = text.split_at(text.find("link-rows 0 ").expect("a step 0"));
    (tables.to_string(), rows.to_string())
}

/// Each step mends one thing more.
#[test]
fn the_section_of_tables_about_the_order_of_the_rows() {
    let network = two_routers().prefix(&[(1, 0)]);
    let expected = "\
link-rows 0 refused 10 4
prefix-rows 0 refused 10 4
route-rows 0 refused 10 4 kept
single-rows 0 refused 10 4 kept kept
link-rows 1 refused 18 0
prefix-rows 1 refused 18 0
route-rows 1 refused 18 0 kept
single-rows 1 refused 11 4 kept kept
link-rows 2 refused 15 0
prefix-rows 2 refused 15 0
route-rows 2 refused 11 4 kept
single-rows 2 refused 11 4 kept kept
link-rows 3 refused 15 0
prefix-rows 3 refused 15 0
route-rows 3 refused 15 0 kept
single-rows 3 refused 15 0 kept kept
link-rows 4 refused 12 1
prefix-rows 4 refused 12 1
route-rows 4 refused 12 1 kept
single-rows 4 refused 12 1 kept kept
link-rows 5 refused 14 0
prefix-rows 5 refused 13 1
route-rows 5 refused 13 1 kept
single-rows 5 refused 13 1 kept kept
";
    assert_eq!(of_tables(&network).1, expected);
}

/// One router alone has no cell 1, and a refused file no table.
#[test]
fn the_section_of_tables_for_one_router_and_for_a_refused_file() {
    let (tables, rows) = of_tables(&lone_router());
    let expected = [
        "table 1 0",
        "table-route 1 refused 12 0 kept",
        "table 2 0",
        "table-route 2 refused 10 1 kept",
        "table 3 0",
        "table-route 3 refused 18 0 kept",
        "table 4 0",
        "table-route 4 refused 18 0 kept",
        "table 7 0",
        "table-route 7 refused 12 0 kept",
        "table 8 0",
        "table-route 8 refused 12 0 kept",
        "table 9 0",
        "table-route 9 refused 12 0 kept",
    ];
    assert_eq!(tables.lines().collect::<Vec<_>>(), expected);
    assert_eq!(rows.lines().count(), 6 * 4);
    assert!(rows.ends_with("single-rows 5 refused 12 0 kept kept\n"));
    let expected = "\
link-rows 0 refused 1 0
prefix-rows 0 refused 1 0
route-rows 0 refused 1 0 kept
single-rows 0 refused 1 0 kept kept
";
    assert_eq!(prints("tables", &[]), expected);
}

#[test]
fn the_section_of_tables_shows_bytes_and_cells_that_are_not_kept() {
    let file = write(&two_routers().prefix(&[(1, 0)]));
    let changed = |fault| {
        let section = Section::named("tables").expect("a section");
        let text = (section.lines)(&Context::with(&[fault]), &file);
        text.lines().filter(|line| line.contains("changed")).count()
    };
    // The routes by the tables 3 to 6, 8 and 9, and at step 1.
    assert_eq!(changed(Fault::EighteenWritesRoute), 7);
    // The single calls from step 1 on.
    assert_eq!(changed(Fault::FilledBeforeQuestion), 5);
    assert_eq!(changed(Fault::FifteenFills), 1);
}

#[test]
fn the_number_of_lines_of_each_network() {
    let cases = stored_cases();
    for case in &cases.networks {
        let network = load(&Context::sound(), &case.file).expect("accepted");
        let (links, prefixes) = (network.links.len(), network.prefixes.len());
        // The routes asked about, by link, end and prefix.
        let asked = match case.name.as_str() {
            "largest" => 4 * 2 * 8,
            "ring_64" | "line_64_costs_65535" => 4 * 2 * 2,
            _ => links * 2 * prefixes,
        };
        let repairs = match case.name.as_str() {
            "largest" | "ring_64" | "line_64_costs_65535" => links * 2 * 7 + 24,
            _ => links * 2 * (5 + prefixes + usize::from(prefixes > 0)) + 24,
        };
        let tables = if network.routers > 1 { 9 } else { 7 };
        for (section, lines) in [
            ("repairs", repairs),
            ("routes", asked * 6 + 4),
            ("tables", links * 2 + asked * 2 + tables * 2 + 24),
        ] {
            let printed = prints(section, &case.file).lines().count();
            assert_eq!(printed, lines, "{section} of {}", case.name);
        }
    }
    let routes = prints("routes", stored_file(&cases, "largest"));
    let prefixes = routes.lines().filter(|line| line.starts_with("route 64 1 "));
    let prefixes: Vec<&str> = prefixes.filter_map(|line| line.split(' ').nth(3)).collect();
    let numbers = ["0", "16", "32", "48", "64", "80", "96", "112"];
    assert_eq!(prefixes, numbers.map(|number| [number; 5]).concat());
}

/// Lines that document 01 and the source documents give, or that follow from a
/// few sums by hand.
#[test]
fn lines_known_by_hand() {
    let known = [
        ("ring_4", "repairs", "p 0 0 set 9"),
        ("ring_4", "repairs", "extended-p 0 0 set 13"),
        ("ring_4", "repairs", "q 0 0 set 6"),
        ("ring_4", "repairs", "link-repair 0 0 pair 3 2 7 2"),
        ("ring_4_prefix", "repairs", "prefix-repair 0 0 0 pair 3 3 1 1"),
        ("ring_4_prefix", "repairs", "prefix-repair 1 1 0 untouched"),
        ("ring_4_prefix", "routes", "route 0 0 0 0 count 3 route 0 3 2 kept"),
        ("ring_5", "repairs", "link-repair 0 0 pair 4 2 7 3"),
        ("ring_5_prefix", "routes", "route 0 0 0 0 count 5 route 0 4 3 2 1 kept"),
        ("ring_3", "repairs", "link-repair 0 0 pair 2 2 5 1"),
        ("ring_3_dear_back", "repairs", "link-repair 0 0 refused 14 0"),
        ("ring_4_dear_link", "repairs", "link-repair 0 0 refused 14 0"),
        ("two_routers", "repairs", "link-repair 0 0 refused 14 0"),
        // P {A,B} and S, extended P {A,B,C} and S, Q {C,D} and E, endpoint C.
        ("source_000_figure_1", "repairs", "p 0 0 set 7"),
        ("source_000_figure_1", "repairs", "extended-p 0 0 set 15"),
        ("source_000_figure_1", "repairs", "q 0 0 set 56"),
        ("source_000_figure_1", "repairs", "link-repair 0 0 pair 1 3 7 3"),
        ("source_000_figure_1_dear", "repairs", "link-repair 0 0 refused 14 0"),
        // PE1 chooses P1 through PE2, and PE2 chooses P2 through PE1.
        ("source_000_figure_3", "repairs", "link-repair 0 0 pair 1 2 6 1005"),
        ("source_000_figure_3", "repairs", "link-repair 1 0 pair 0 3 6 1005"),
        // R2 is the only endpoint; with the link N-E the neighbour N repairs.
        ("source_001_figure_1", "repairs", "link-repair 0 0 pair 1 3 7 3"),
        ("source_001_figure_1", "routes", "route 0 0 2 0 count 7 route 0 1 2 3 4 5 6 kept"),
        ("source_001_figure_1", "routes", "route 0 0 3 0 count 6 route 0 1 2 3 4 7 kept"),
        ("source_001_figure_2", "repairs", "link-repair 0 0 pair 1 1 5 1"),
        // C protects the link S-E, and A is the better one for the prefix.
        ("source_002_figure_3", "repairs", "link-repair 0 0 pair 4 4 5 5"),
        ("source_002_figure_3", "repairs", "prefix-repair 0 0 0 pair 3 3 0 8"),
        // N1 protects S-E and N2 protects S-F; for the prefix F and E do better.
        ("source_002_figure_4", "repairs", "link-repair 0 0 pair 3 3 5 10"),
        ("source_002_figure_4", "repairs", "link-repair 1 0 pair 4 4 5 10"),
        ("source_002_figure_4", "repairs", "prefix-repair 0 0 0 pair 2 2 0 10"),
        ("source_002_figure_4", "repairs", "prefix-repair 1 0 0 pair 1 1 0 10"),
        // N2 is loop-free for D1.
        ("source_002_figure_8", "repairs", "prefix-repair 0 0 0 pair 2 2 1 10"),
        // A line has no other way, and its prefixes are all beyond link 0: 32
        // times refusal 14, and 32 times untouched, 2 * (1 + 33 + .. + 33^31).
        ("line_64_costs_65535", "repairs", "link-repair 0 0 refused 14 0"),
        ("line_64_costs_65535", "repairs", "prefix-repairs 0 0 0"),
        ("line_64_costs_65535", "repairs", "prefix-repairs 0 1 15085114137083345984"),
        ("line_64_costs_65535", "repairs", "prefix-repair 63 0 0 refused 12 63"),
        // Q holds the routers from 1 to 32, extended P those from 32 on and 0.
        ("ring_64", "repairs", "link-repair 0 0 pair 63 32 7 32"),
        ("there_and_back", "repairs", "prefix-repair 0 0 0 pair 2 4 3 15"),
        ("there_and_back", "routes", "route 0 0 0 4 count 5 route 0 2 3 4 3 kept"),
        // Three hops away from S along the ring, two from E.
        ("ring_6_costs_65534", "repairs", "link-repair 0 0 pair 5 3 7 196602"),
        // Every link is under maintenance: no first hop. P and Q are the same.
        ("ring_6_costs_65535", "repairs", "p 0 0 set 49"),
        ("ring_6_costs_65535", "repairs", "extended-p 0 0 set 0"),
        ("ring_6_costs_65535", "repairs", "q 0 0 set 14"),
        ("ring_6_costs_65535", "repairs", "link-repair 0 0 refused 14 0"),
        ("ring_6_costs_65535", "repairs", "prefix-repair 0 0 0 refused 14 0"),
        ("ring_6_costs_65535", "repairs", "prefix-repair 0 1 0 untouched"),
        ("ring_6_costs_65535", "routes", "route 0 0 0 0 refused 14 0 kept"),
        // Both first hops of 0 are left out, none of 1.
        ("maintenance_first_hops", "repairs", "extended-p 0 0 set 0"),
        ("maintenance_first_hops", "repairs", "link-repair 0 0 refused 14 0"),
        ("maintenance_first_hops", "repairs", "prefix-repair 0 0 0 refused 14 0"),
        ("maintenance_first_hops", "repairs", "link-repair 0 1 pair 4 2 7 2"),
        // The tunnel goes over link 3.
        ("maintenance_tunnel", "repairs", "link-repair 0 0 pair 5 3 6 65537"),
        ("maintenance_tunnel", "repairs", "link-repair 4 0 refused 14 0"),
        ("maintenance_tunnel", "routes", "route 0 0 0 0 count 6 route 0 5 4 3 2 1 kept"),
        // Link 0 is repaired, but starts no repair.
        ("maintenance_protected_link", "repairs", "link-repair 0 0 pair 3 3 4 30000"),
        ("maintenance_protected_link", "repairs", "prefix-repair 0 0 0 pair 3 3 4 30000"),
        ("maintenance_protected_link", "repairs", "link-repair 3 0 pair 2 1 7 60000"),
        ("maintenance_protected_link", "repairs", "link-repair 3 1 refused 14 0"),
        // P {0, 2}, extended P {0, 2, 5}, Q {1, 4, 5}.
        ("maintenance_extended_p", "repairs", "p 0 0 set 5"),
        ("maintenance_extended_p", "repairs", "extended-p 0 0 set 37"),
        ("maintenance_extended_p", "repairs", "q 0 0 set 50"),
        ("maintenance_extended_p", "repairs", "link-repair 0 0 pair 2 5 7 3"),
        ("maintenance_extended_p", "repairs", "prefix-repair 0 0 0 pair 2 5 7 3"),
        // Class 4 first, then with other ranks class 7, and for the prefix, which is at
        // E, too: 3 + 2^8 * 2 + 2^16 * 3 + 2^24 * 7 + 2^32 * 9.
        ("four_classes", "repairs", "link-repair 0 0 pair 2 2 4 3"),
        ("four_classes", "repairs", "ranked-link-repair 0 0 pair 2 3 7 9"),
        ("four_classes", "repairs", "prefix-repair 0 0 0 pair 2 2 4 3"),
        ("four_classes", "repairs", "ranked-prefix-repairs 0 0 38772343299"),
        ("four_classes", "routes", "route 0 0 0 3 count 3 route 0 2 1 kept"),
        ("four_classes", "routes", "ranked-route 0 0 0 3 count 5 route 0 2 0 3 1 kept"),
        // The ranks prefer class 7, but there is none: then 6, and then 4.
        ("neighbours_only", "repairs", "ranked-link-repair 0 0 pair 2 2 4 1"),
        ("ring_3_dear_link", "repairs", "ranked-link-repair 0 0 pair 2 2 4 1"),
        // Each of the eight classes has a pair. Ascending, then class 1 first:
        // 3 + 2^8 * 3 + 2^16 * 3 + 2^24 + 2^32 * 3. The route has class 7 first.
        ("node_eight_classes", "repairs", "prefix-repair 0 0 0 pair 2 2 0 3"),
        ("node_eight_classes", "repairs", "ranked-prefix-repairs 0 0 12901876483"),
        ("node_eight_classes", "routes", "route 0 0 0 0 count 3 route 0 2 6 kept"),
        ("node_eight_classes", "routes", "ranked-route 0 0 0 3 count 6 route 0 2 0 5 1 6 kept"),
        // The farther neighbour does without E.
        ("node_farther_neighbour", "repairs", "prefix-repair 0 0 0 pair 3 3 1 2"),
        ("node_farther_neighbour", "routes", "route 0 0 0 0 count 3 route 0 3 4 kept"),
        // Delivered at E, at 2, at 2 though it is dear, and at 3.
        ("node_ring_4", "repairs", "prefix-repair 0 0 0 pair 3 2 7 2"),
        ("node_ring_4", "repairs", "prefix-repair 0 0 1 pair 3 3 1 1"),
        ("node_ring_4", "repairs", "prefix-repair 0 0 2 pair 3 2 3 2"),
        ("node_ring_4", "repairs", "prefix-repair 0 0 3 pair 3 3 1 1"),
        // One of two equal ways passes E: of the tunnel, of the second leg.
        ("node_tunnel", "repairs", "prefix-repair 0 0 0 pair 1 2 3 3"),
        ("node_second_leg", "repairs", "prefix-repair 0 0 0 pair 1 2 2 2"),
        ("node_second_leg", "repairs", "prefix-repair 0 0 1 pair 1 1 5 1"),
        // Router 3 delivers before E.
        ("node_attached", "repairs", "prefix-repair 0 0 0 pair 2 2 0 5"),
        ("node_attached", "routes", "route 0 0 0 0 count 3 route 0 2 3 kept"),
        ("node_ring_6_cost_5", "repairs", "prefix-repair 0 0 0 pair 5 5 4 1"),
        ("node_ring_6_cost_5", "repairs", "prefix-repair 0 0 1 pair 5 5 0 1"),
        ("node_ring_6_cost_3", "repairs", "prefix-repair 0 0 0 pair 5 3 6 3"),
        ("node_ring_6_cost_3", "repairs", "prefix-repair 0 0 1 pair 5 4 3 2"),
        // A neighbour that delivers itself, and a tunnel to a router that does.
        ("node_neighbours", "repairs", "prefix-repair 0 0 1 pair 3 3 1 1"),
        ("node_neighbours_far", "repairs", "prefix-repair 0 0 0 pair 2 2 1 1"),
        ("node_tunnel_or_neighbour", "repairs", "prefix-repair 0 0 0 pair 2 3 3 7"),
        // The packet visits E over another link.
        ("node_not_touched", "repairs", "prefix-repair 0 0 0 untouched"),
        // By a table: a tunnel first, then class 1 first, and what is no table of the file.
        ("ring_4_prefix", "tables", "link-repair 0 0 pair 3 2 7 2"),
        ("ring_4_prefix", "tables", "prefix-repair 0 0 0 pair 3 3 1 1"),
        ("ring_4_prefix", "tables", "route 0 0 0 count 3 route 0 3 2 kept"),
        ("ring_4_prefix", "tables", "table-route 1 count 3 route 0 3 2 kept"),
        ("ring_4_prefix", "tables", "table-route 7 count 3 route 0 3 2 kept"),
        ("four_classes", "tables", "link-repair 0 0 pair 2 3 7 9"),
        ("four_classes", "tables", "route 0 0 0 count 5 route 0 2 0 3 1 kept"),
        ("node_eight_classes", "tables", "prefix-repair 0 0 0 pair 3 3 1 3"),
        ("asymmetric", "tables", "table-route 7 refused 18 0 kept"),
        ("disconnected", "tables", "table-route 6 refused 18 0 kept"),
        ("ring_64", "tables", "table-route 2 refused 10 4096 kept"),
        ("ring_64", "tables", "route-rows 2 refused 11 128 kept"),
        // From 4 on every step leads right or down, the lower number first.
        ("grid", "routes", "route 0 0 0 0 count 7 route 0 4 5 6 7 11 15 kept"),
        ("grid", "routes", "route 0 0 0 1 count 7 route 0 4 8 9 10 11 15 kept"),
        ("grid", "routes", "route 0 0 0 2 count 7 route 0 4 8 12 13 14 15 kept"),
        // Prefix 1 is as far over 10 as over 15. At 10 delivery stands first.
        ("grid", "routes", "route 0 0 1 1 count 5 route 0 4 8 9 10 kept"),
        ("grid", "routes", "route 0 0 1 3 count 5 route 0 4 5 9 10 kept"),
        ("grid", "routes", "route 0 0 1 4 count 7 route 0 4 8 9 13 14 15 kept"),
    ];
    let cases = stored_cases();
    for (name, section, line) in known {
        let text = prints(section, stored_file(&cases, name));
        let found = text.lines().any(|printed| printed == line);
        assert!(found, "the {section} of {name} have no line `{line}`");
    }
    let rows = prints("distances", stored_file(&cases, "line_64_costs_65535"));
    let row = rows.lines().nth(1).expect("row 0");
    assert!(row.starts_with("row 0 0 65535 131070 ") && row.ends_with(" 4128705"));
}

#[test]
fn what_plan_prints() {
    let cases = stored_cases();
    let plan = program("plan");
    let chosen = plan.chosen(&cases).expect("an example");
    assert_eq!(plan.input(&chosen), Ok(write(&ring_4_with_prefix())));
    assert!(plan.output(&Context::sound(), &chosen).starts_with("plan 4 4 1\n0 0 0 1 3 2 7 2\n"));
}

/// Two lines of the drills by hand, and the requests as they are read.
#[test]
fn what_stored_drills_prints() {
    let cases = stored_cases();
    let drills = program("stored_drills");
    let chosen = drills.chosen(&cases).expect("the requests");
    let input = drills.input(&chosen).expect("an input");
    assert_eq!(input[..16], [66, 29, 0, 0, 0, 0, 76, 4, 66, 29, 0, 0, 1, 0, 76, 4]);
    let output = drills.output(&Context::sound(), &chosen);
    assert!(output.starts_with("drill 7490 0 1100 written 0 left 1100*7\n"));
    let seed_1 = "drill 1 3 1025 written 1024 left 1 3*0 3 0 3 503*0 7 0 2 3 1 2*0 1 97 0 1 0 1 2 47 0 96 0 \
                  2 0 13 0 17 489*0 21 77*7";
    assert!(output.lines().any(|line| line == seed_1), "{seed_1}");
    assert_eq!(output.lines().count(), input.len() / 8);
    for line in output.lines() {
        let words: Vec<&str> = line.split(' ').collect();
        let (routers, length): (usize, usize) =
            (words[2].parse().expect("a number"), words[3].parse().expect("a number"));
        let written = if (3..=64).contains(&routers) && length >= 1024 { "1024" } else { "0" };
        assert_eq!(words[5], written, "{line}");
        let times = |run: &str| {
            run.split_once('*').map_or(1, |(times, _)| times.parse().expect("a number"))
        };
        assert_eq!(words[7..].iter().map(|run| times(run)).sum::<usize>(), 1100);
    }
}

/// Faults that no section and no stored plan shows, though calls do: none asks for
/// what they change.
const NOT_SHOWN: [Fault; 6] = [
    // No section prints the work area after a repair call that is not refused.
    Fault::UntouchedLeavesWorkArea,
    Fault::FourteenLeavesWorkArea,
    // None asks for the size of a set.
    Fault::SizeOfComplement,
    Fault::SizeOf32Bits,
    // The plan of ring 4 has a pair in every line, and one class.
    Fault::PlanNoneOnce,
    Fault::PlanDescending,
];

#[test]
fn the_sections_notice_every_fault_that_they_can_show() {
    let cases = stored_cases();
    let mut asked = Vec::new();
    for section in SECTIONS {
        for case in cases.networks.iter().chain(&cases.reader) {
            // The smaller files are enough for all but the reader.
            if section.name == "reading" || case.name != "largest" {
                asked.push((section.lines, case));
            }
        }
    }
    for example in program("plan").chosen(&cases).expect("an example") {
        asked.push((plan_text, example));
    }
    let sound = asked.into_iter().map(|(lines, case)| {
        let text = lines(&Context::sound(), &case.file);
        (lines, case, text)
    });
    let mut sound: Vec<_> = sound.collect();
    // Short texts are soon compared, and most faults show in one of them.
    sound.sort_by_key(|(_, _, text)| text.len());
    let of_files =
        |fault: &Fault| of_drills().contains(fault) || Fault::of_writing().contains(fault);
    for fault in Fault::all().into_iter().filter(|fault| !of_files(fault)) {
        let ctx = Context::with(&[fault]);
        let noticed = sound.iter().any(|(lines, case, text)| lines(&ctx, &case.file) != *text);
        let shown = !NOT_SHOWN.contains(&fault) && !fault.is_in_no_call();
        assert_eq!(noticed, shown, "{}", fault.name());
    }
}

/// The faults that a drill shows.
fn of_drills() -> Vec<Fault> {
    Fault::OF_DRILLS.into_iter().chain(Fault::OF_FILES).collect()
}

/// The stored drills notice every fault of drills. No stored program writes any
/// other network.
#[test]
fn the_stored_drills_notice_every_fault_that_they_can_show() {
    let cases = stored_cases();
    let drills = program("stored_drills");
    let chosen = drills.chosen(&cases).expect("the requests");
    let sound = drills.output(&Context::sound(), &chosen);
    for fault in Fault::all() {
        let noticed = drills.output(&Context::with(&[fault]), &chosen) != sound;
        assert_eq!(noticed, of_drills().contains(&fault), "{}", fault.name());
    }
}
