//! The file that a network is written as, its entries, and files that are damaged.

use crate::common::{oracle_file, ring, ring_4_with_prefix, sound_texts, texts, with_prefix_at};
use oracle::fault::Context;
use planner::{raw, text, Network, LARGEST_FILE};

#[test]
fn every_sound_text_makes_the_oracles_file() {
    for case in sound_texts() {
        let network = text::parse(&case.text).unwrap();
        let file = network.to_bytes();
        assert_eq!(file, oracle_file(&case.text).unwrap(), "{}", case.path.display());
        assert_eq!(planner::load(&file), Ok(network), "{}", case.path.display());
    }
}

#[test]
fn a_text_for_the_reader_is_refused_where_its_file_is() {
    let spoils = |line: &str| ["byte", "late", "length"].iter().any(|word| line.starts_with(word));
    let mut refused = 0;
    for case in texts("tests/cases/reader") {
        // What these words do to a file no network does.
        if case.text.lines().any(spoils) {
            assert!(text::parse(&case.text).unwrap_err().expected.contains("expected the word"));
            continue;
        }
        let file = oracle_file(&case.text).unwrap();
        let path = case.path.display();
        match oracle::answer::load(&Context::sound(), &file) {
            Ok(_) => assert_eq!(text::parse(&case.text).unwrap().to_bytes(), file, "{path}"),
            Err(_) => {
                text::parse(&case.text).unwrap_err();
                refused += 1;
            }
        }
    }
    assert!(refused > 0);
}

#[test]
fn the_examples_are_stored_as_files_too() {
    for case in texts("examples") {
        let stored = std::fs::read(case.path.with_extension("net")).unwrap();
        assert_eq!(text::parse(&case.text).unwrap().to_bytes(), stored, "{}", case.path.display());
    }
}

#[test]
fn entries() {
    let file = ring_4_with_prefix().to_bytes();
    assert_eq!(planner::link_entry(&file, 3), Some([3, 0, 1, 0, 1, 0]));
    assert_eq!(planner::link_entry(&file, 4), None);
    assert_eq!(planner::link_entry(&file, usize::MAX), None);
    let mut entry = [0; 34];
    entry[..7].copy_from_slice(&[2, 0, 1, 0, 0, 0, 2]);
    assert_eq!(planner::prefix_entry(&file, 0), Some(entry));
    assert_eq!(planner::prefix_entry(&file, 1), None);
    assert_eq!(planner::link_entry(&file[..512], 0), None);
    assert_eq!(planner::prefix_entry(&[], 0), None);
}

#[test]
fn the_largest_file() {
    let largest = texts("tests/cases").into_iter().find(|case| case.path.ends_with("largest.txt"));
    let network = text::parse(&largest.unwrap().text).unwrap();
    assert_eq!(network.to_bytes().len(), LARGEST_FILE);
    assert_eq!(planner::load(&network.to_bytes()), Ok(network));
    assert_eq!(Network::new(64).unwrap().to_bytes().len(), 512);
}

#[test]
fn a_file_is_written_whole_or_not_at_all() {
    for case in sound_texts() {
        let network = text::parse(&case.text).unwrap();
        let file = oracle_file(&case.text).unwrap();
        let size = file.len();
        for length in [0, 1, 511, 512, size - 1, size, size + 1, LARGEST_FILE, LARGEST_FILE + 1] {
            let mut buffer = vec![7; length];
            let (written, count) = if length < size { (&[][..], 0) } else { (&file[..], size) };
            assert_eq!(planner::write(&network, &mut buffer), count, "{length}");
            assert_eq!(buffer, [written, &vec![7; length - count]].concat(), "{length}");
        }
    }
}

/// The columns that the C interface loads a file into.
fn loaded(file: &[u8]) -> raw::Network {
    // SAFETY: the pointer and length are those of one slice.
    unsafe { raw::planner_load(file.as_ptr(), file.len()) }
}

/// The file that the C interface writes of columns, which is empty where they are refused.
fn written(columns: raw::Network) -> Vec<u8> {
    let mut buffer = [7; LARGEST_FILE + 1];
    // SAFETY: the pointer and length are those of one array.
    let count = unsafe { raw::planner_write(columns, buffer.as_mut_ptr(), buffer.len()) };
    assert!(buffer[count..].iter().all(|byte| *byte == 7));
    buffer[..count].to_vec()
}

#[test]
fn cells_that_no_entry_has_are_not_looked_at() {
    for case in sound_texts() {
        let file = oracle_file(&case.text).unwrap();
        let mut columns = loaded(&file);
        assert_eq!(written(columns.clone()), file, "{}", case.path.display());
        (columns.kind, columns.number, columns.value) = (9, 9, 9);
        columns.from[columns.links..].fill(255);
        columns.to[columns.links..].fill(255);
        columns.out[columns.links..].fill(0);
        columns.back[columns.links..].fill(0);
        columns.attached[columns.prefixes..].fill(255);
        for (p, attached) in columns.attached.iter().enumerate() {
            let used = if p < columns.prefixes { usize::from(*attached) } else { 0 };
            columns.at[8 * p + used..8 * p + 8].fill(255);
            columns.own[8 * p + used..8 * p + 8].fill(65_535);
        }
        assert_eq!(written(columns), file, "{}", case.path.display());
    }
}

#[test]
fn columns_outside_the_limits_are_not_written() {
    let sound = loaded(&ring_4_with_prefix().to_bytes());
    let changes: [fn(&mut raw::Network); 21] = [
        |columns| columns.routers = 0,
        |columns| columns.routers = 3,
        |columns| columns.routers = 65,
        |columns| columns.routers = (1 << 8) + 4,
        |columns| columns.routers = usize::MAX,
        |columns| columns.links = 5,
        |columns| columns.links = 129,
        |columns| columns.links = usize::MAX,
        |columns| columns.prefixes = 2,
        |columns| columns.prefixes = 129,
        |columns| columns.prefixes = usize::MAX,
        |columns| columns.from[0] = 4,
        |columns| columns.to[0] = 255,
        |columns| columns.to[0] = 0,
        |columns| columns.to[1] = 0,
        |columns| columns.out[3] = 0,
        |columns| columns.back[3] = 0,
        |columns| columns.attached[0] = 0,
        |columns| columns.attached[0] = 9,
        |columns| columns.at[0] = 4,
        |columns| columns.at[0] = 2,
    ];
    for (number, change) in changes.iter().enumerate() {
        let mut columns = sound.clone();
        change(&mut columns);
        assert_eq!(written(columns), [], "change {number}");
    }
    assert_eq!(written(raw::Network::EMPTY), []);
    // Nine attachments, each at a router of its own.
    let mut nine = loaded(&with_prefix_at(ring(9), &[0, 1, 2, 3, 4, 5, 6, 7]).to_bytes());
    (nine.attached[0], nine.at[8]) = (9, 8);
    assert_eq!(written(nine), []);
}
