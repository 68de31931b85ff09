//! The built program `plan` as a child process: all that it prints, compared
//! with the text that the oracle makes of the same bytes, and with what
//! `README.md` and `docs/SPECIFICATION.md` say that it prints.

use oracle::answer::plan_text;
use oracle::fault::{Context, Fault};
use oracle::file::{LARGEST, write};
use oracle::generate::{self, Family};
use oracle::page;
use oracle::random::Random;
use oracle::stored;
use oracle::stored::cases::{Case, Cases};
use oracle::worked::{four_classes, ring_4_with_prefix};
use std::collections::BTreeSet;
use std::io::{ErrorKind, Write};
use std::process::{Child, Command, Stdio};
use std::thread::sleep;
use std::time::Duration;

/// Starts the program, with pipes to it and from it.
fn started() -> Child {
    let program = stored::root().join("target/bin/plan");
    assert!(program.is_file(), "target/bin/plan is not there: run `tools/build` first");
    Command::new(program)
        .stdin(Stdio::piped())
        .stdout(Stdio::piped())
        .stderr(Stdio::piped())
        .spawn()
        .expect("target/bin/plan starts")
}

/// What the program prints for the bytes, given to it in pieces of that many,
/// with a pause after each so that it reads them one by one.
fn printed_in_pieces(bytes: &[u8], piece: usize, pause: Duration) -> String {
    let mut child = started();
    let mut input = child.stdin.take().expect("a pipe");
    for part in bytes.chunks(piece) {
        match input.write_all(part).and_then(|()| input.flush()) {
            // The program reads no more than it needs to see that a file is too long.
            Err(error) if error.kind() == ErrorKind::BrokenPipe => break,
            written => written.expect("the pipe takes the bytes"),
        }
        sleep(pause);
    }
    drop(input);
    let ended = child.wait_with_output().expect("the program ends");
    assert!(ended.status.success(), "the program ended with {}", ended.status);
    assert_eq!(String::from_utf8_lossy(&ended.stderr), "");
    String::from_utf8(ended.stdout).expect("the program prints text")
}

/// What the program prints for the bytes, given to it at once.
fn printed(bytes: &[u8]) -> String {
    printed_in_pieces(bytes, bytes.len().max(1), Duration::ZERO)
}

fn expected(bytes: &[u8]) -> String {
    plan_text(&Context::sound(), bytes)
}

fn cases() -> Cases {
    Cases::read(&stored::root()).expect("the texts of the repository")
}

/// Compares the program with the oracle on every case, and hands over what was
/// printed.
fn compared(cases: &[Case]) -> Vec<String> {
    let compare = |case: &Case| {
        let text = printed(&case.file);
        assert_eq!(text, expected(&case.file), "{}", case.name);
        text
    };
    cases.iter().map(compare).collect()
}

#[test]
fn every_network_of_the_cases() {
    let texts = compared(&cases().networks);
    assert!(!texts.is_empty());
    assert!(texts.iter().all(|text| text.starts_with("plan ")));
    assert!(texts.iter().any(|text| text.contains(" none none none none\n")));
}

/// The class is 4 to 7 in every line that has one: a link's own repair leads to its far
/// router.
#[test]
fn every_class_is_from_4_to_7() {
    let texts = compared(&cases().networks);
    let class = |line: &str| line.split(' ').nth(6).map(str::to_string);
    let fields = texts.iter().flat_map(|text| text.lines().skip(1)).filter_map(class);
    let classes: BTreeSet<String> = fields.collect();
    assert_eq!(classes, ["4", "5", "6", "7", "none"].map(str::to_string).into());
}

/// The ranks ascend: a plan by descending ones has another text where a link has
/// pairs of several classes.
#[test]
fn the_ranks_ascend() {
    let descending = Context::with(&[Fault::PlanDescending]);
    let other = |case: &&Case| plan_text(&descending, &case.file) != expected(&case.file);
    let networks = cases().networks;
    let ranked: Vec<&Case> = networks.iter().filter(other).collect();
    assert!(ranked.iter().any(|case| case.name == "four_classes"));
    for case in ranked {
        assert_eq!(printed(&case.file), expected(&case.file), "{}", case.name);
    }
    assert!(printed(&write(&four_classes())).contains("\n0 0 0 1 2 2 4 3\n"));
}

#[test]
fn the_stored_texts() {
    let Cases { networks, reader, .. } = cases();
    let printed = |case: &Case| format!("case {}\n{}", case.name, printed(&case.file));
    let texts: String = networks.iter().chain(&reader).map(printed).collect();
    let stored = std::fs::read_to_string(stored::root().join("tests/plan/stored.txt"));
    assert_eq!(texts, stored.expect("the plans that the oracle stored"));
}

#[test]
fn every_example() {
    let texts = compared(&cases().examples);
    assert!(texts.iter().any(|text| text.starts_with("plan 4 4 1\n0 0 0 1 3 2 7 2\n")));
}

#[test]
fn every_refusal() {
    let texts = compared(&cases().reader);
    let number = |text: &String| text.strip_prefix("refused ")?.split(' ').next()?.parse().ok();
    let numbers: BTreeSet<u8> = texts.iter().filter_map(number).collect();
    assert_eq!(numbers, (1..=9).collect());
}

#[test]
fn the_specification_says_what_every_refused_example_prints() {
    let page = page::read("docs/SPECIFICATION.md");
    let folder = std::fs::read_dir(stored::root().join("examples/refused")).expect("a folder");
    let paths = folder.map(|entry| entry.expect("a file").path());
    let files: Vec<_> = paths.filter(|path| path.extension() == Some("net".as_ref())).collect();
    assert_eq!(files.len(), 9);
    for file in files {
        let name = file.file_name().expect("a name").to_string_lossy();
        let text = printed(&std::fs::read(&file).expect("its bytes"));
        let mut lines = page.lines();
        let row = lines.find(|line| line.starts_with(&format!("| `examples/refused/{name}` | ")));
        let row = row.unwrap_or_else(|| panic!("no row for {name}"));
        assert!(row.ends_with(&format!(" | `{}` |", text.trim_end())), "{row}\n{text}");
    }
}

#[test]
fn the_plans_of_the_specification() {
    let mut count = 0;
    for shown in page::commands(&page::read("docs/SPECIFICATION.md")) {
        if let Some(file) = shown.command.strip_prefix("target/bin/plan < ") {
            let bytes = std::fs::read(stored::root().join(file)).expect(file);
            assert_eq!(printed(&bytes), shown.prints, "{file}");
            count += 1;
        }
    }
    assert!(count > 0);
}

/// A line of the plan in the README has words after it that say what it means.
#[test]
fn the_lines_of_ring_4_in_the_readme() {
    let plan = printed(&write(&ring_4_with_prefix()));
    let readme = page::read("README.md");
    let explained = readme.lines().filter_map(|line| line.strip_prefix("    ")?.split_once("   "));
    let lines: Vec<&str> = explained.map(|(line, _)| line).collect();
    assert!(!lines.is_empty());
    for line in lines {
        assert!(plan.lines().any(|planned| planned == line), "{line}");
    }
}

#[test]
fn the_largest_networks() {
    for seed in 1..=3 {
        let file = write(&generate::sized(64, 128, 128, &mut Random::new(seed)));
        assert_eq!(file.len(), LARGEST);
        let text = printed(&file);
        assert_eq!(text, expected(&file), "seed {seed}");
        assert_eq!(text.lines().count(), 1 + 2 * 128);
    }
}

#[test]
fn random_networks_of_every_family() {
    for &family in Family::ALL {
        for seed in 1..=3 {
            let file = write(&generate::network(family, 24, &mut Random::new(seed)));
            assert_eq!(printed(&file), expected(&file), "{family:?}, seed {seed}");
        }
    }
}

#[test]
fn input_that_is_empty_or_too_long() {
    // A file that is sound as far as the length goes, with more bytes after it.
    let mut long = write(&generate::sized(64, 128, 128, &mut Random::new(1)));
    long.resize(LARGEST + 1, 0);
    let mut very_long = long.clone();
    very_long.resize(200_000, 0);
    for bytes in [Vec::new(), long, very_long, vec![0; 14 * 512]] {
        assert_eq!(printed(&bytes), "refused 1 0\n", "{} bytes", bytes.len());
        assert_eq!(expected(&bytes), "refused 1 0\n", "{} bytes", bytes.len());
    }
}

#[test]
fn input_in_pieces() {
    let pause = Duration::from_millis(2);
    let small = write(&ring_4_with_prefix());
    assert_eq!(printed_in_pieces(&small, 7, pause), expected(&small));
    let large = write(&generate::sized(64, 128, 128, &mut Random::new(2)));
    assert_eq!(printed_in_pieces(&large, 511, pause), expected(&large));
}
