//! The networks of every size, and the tables and the picture of their times.

use benchmark::answer::ACCEPTED;
use benchmark::baseline::Baseline;
use benchmark::compare::compare;
use benchmark::growth::{factors, picture, table, Measured, NETWORKS, SIZES};
use benchmark::planner::Planner;
use benchmark::plot::steps;
use benchmark::side::Side;

#[test]
fn the_networks_have_their_sizes() {
    for (name, made, _) in NETWORKS {
        for routers in SIZES {
            let (file, count) = (made(routers), usize::from(routers));
            let network = Planner::load(&file);
            assert_eq!(network.kind, ACCEPTED, "{name} of {routers}");
            let counts = (network.routers, network.links, network.prefixes);
            assert_eq!(counts, (count, 2 * count, 2 * count), "{name} of {routers}");
        }
    }
}

#[test]
fn both_sides_answer_alike_about_small_networks() {
    for (name, made, _) in NETWORKS {
        for routers in [8, 16] {
            let compared = compare::<Planner, Baseline>(&made(routers), 5);
            assert!(compared.is_ok(), "{name} of {routers}: {compared:?}");
        }
    }
}

/// Times that no program took: each doubling multiplies them by 2, 4 and 8, and the
/// planner takes twice the baseline's.
fn measured() -> Vec<Measured> {
    let mut measured = Vec::new();
    for (network, _, _) in NETWORKS {
        for routers in SIZES {
            let size = f64::from(routers);
            let baseline = [100.0 * size, 10.0 * size.powi(2), 1000.0 * size.powi(3)];
            let times = [baseline.map(|time| 2.0 * time), baseline];
            measured.push(Measured { network, routers, times });
        }
    }
    measured
}

#[test]
fn the_tables_have_a_line_for_each_size() {
    let text = table(&measured());
    let lines: Vec<&str> = text.lines().collect();
    assert_eq!(lines.len(), 2 + NETWORKS.len() * SIZES.len());
    let first =
        "| ring with chords | 8 | 1600 | 800 | 2.00 | 1280 | 640 | 2.00 | 1024 | 512 | 2.00 |";
    assert_eq!(lines[2], first);
    let text = factors(&measured());
    let lines: Vec<&str> = text.lines().collect();
    assert_eq!(lines.len(), 2 + 2 * NETWORKS.len() * (SIZES.len() - 1));
    assert_eq!(lines[2], "| ring with chords | planner | 8 to 16 | 2.00 | 4.00 | 8.00 |");
}

#[test]
fn a_scale_has_steps_within_it() {
    assert_eq!(steps(0.9, 12.0), [1.0, 2.0, 5.0, 10.0]);
    assert_eq!(steps(15.0, 60.0), [20.0, 50.0]);
}

/// Every element is closed, in the order in which they were opened.
fn well_formed(text: &str) -> bool {
    let mut open = Vec::new();
    for part in text.split('<').skip(1) {
        let Some((tag, _)) = part.split_once('>') else { return false };
        let name = tag.split_whitespace().next().unwrap_or("");
        match name.strip_prefix('/') {
            Some(name) if open.pop() != Some(name) => return false,
            Some(_) => {}
            None if tag.ends_with('/') => {}
            None => open.push(name),
        }
    }
    open.is_empty() && text.matches('"').count() % 2 == 0
}

#[test]
fn the_picture_is_well_formed() {
    assert!(well_formed("<a><b c=\"1\"/></a>"));
    assert!(!well_formed("<a><b></a></b>") && !well_formed("<a><b>"));
    let text = picture(&measured());
    assert!(text.starts_with("<svg ") && text.ends_with("</svg>\n") && well_formed(&text));
    for (_, _, looks) in NETWORKS {
        for look in looks {
            assert!(text.contains(look.name) && text.contains(look.class), "{look:?}");
        }
    }
}

/// The numbers that an attribute has in all elements of one name.
fn numbers<'a>(text: &'a str, element: &'a str, attribute: &str) -> Vec<f64> {
    let start = format!(" {attribute}=\"");
    let elements = text.split('<').filter(|part| part.starts_with(element));
    let values = elements.filter_map(|part| part.split_once(&start)?.1.split('"').next());
    let numbers = values.flat_map(|value| value.split([' ', ',']));
    numbers.map(|number| number.parse().expect("a number")).collect()
}

#[test]
fn every_point_lies_in_the_picture() {
    let text = picture(&measured());
    let points = numbers(&text, "polyline", "points");
    assert_eq!(points.len(), 2 * (3 * 4 * SIZES.len() + 4 * 2), "lines and legend");
    assert!(points.chunks(2).all(|point| (0.0..=960.0).contains(&point[0])));
    assert!(points.chunks(2).all(|point| (0.0..=420.0).contains(&point[1])));
    let texts = [numbers(&text, "text", "x"), numbers(&text, "text", "y")];
    assert!(texts[0].iter().all(|x| (0.0..=960.0).contains(x)));
    assert!(texts[1].iter().all(|y| (0.0..=420.0).contains(y)));
}
