//! The program `remake`, on small repositories made for the test.

use oracle::file::write;
use oracle::stored::{Report, drills, run};
use oracle::worked::{lone_router, ring_4_with_prefix};
use std::fs;
use std::path::{Path, PathBuf};
use std::process::Command;

/// A repository with one network, three refused files, the example ring 4, an
/// example that is refused, and folders for some programs.
fn repository(name: &str, programs: &[&str]) -> PathBuf {
    let root = Path::new(env!("CARGO_TARGET_TMPDIR")).join(name);
    let _ = fs::remove_dir_all(&root);
    for folder in ["tests/cases/reader", "examples/refused", "crates"] {
        fs::create_dir_all(root.join(folder)).expect("a folder");
    }
    for program in programs {
        fs::create_dir(root.join("crates").join(program)).expect("a folder");
    }
    let ring_4 = oracle::text::of_network(&ring_4_with_prefix());
    store(&root, "tests/cases/one.txt", "# one router\nrouters 1\n");
    store(&root, "tests/cases/notes.md", "not a text of a network");
    store(&root, "tests/cases/reader/length_0.txt", "routers 1\nlength 0\n");
    store(&root, "tests/cases/reader/row_4_more.txt", "routers 1\nlength 1024\n");
    store(&root, "tests/cases/reader/row_9_next.txt", "routers 1\nprefix 0:0 0:1\n");
    store(&root, "examples/ring4.txt", &ring_4);
    store(&root, "examples/refused/01-length.txt", "routers 1\nlength 511\n");
    root
}

fn store(root: &Path, place: &str, text: &str) {
    fs::write(root.join(place), text).expect("a file is written");
}

fn stored(root: &Path, place: &str) -> Vec<u8> {
    fs::read(root.join(place)).unwrap_or_else(|_| panic!("{place} is not there"))
}

fn text(root: &Path, place: &str) -> String {
    String::from_utf8(stored(root, place)).expect("text")
}

fn report(text: &str, success: bool) -> Result<Report, String> {
    Ok(Report { text: text.to_string(), success })
}

#[test]
fn all_files_are_written_once() {
    let programs = ["stored_answers", "stored_buffers", "stored_tables", "stored_drills", "plan"];
    let root = repository("written", &programs);
    let written = "\
examples/ring4.net is written
examples/refused/01-length.net is written
crates/stored_answers/stdin is written
crates/stored_answers/stdout is written
crates/stored_buffers/stdin is written
crates/stored_buffers/stdout is written
crates/stored_tables/stdin is written
crates/stored_tables/stdout is written
crates/stored_drills/stdin is written
crates/stored_drills/stdout is written
crates/plan/stdin is written
crates/plan/stdout is written
";
    assert_eq!(run(&root, &[]), report(written, true));
    assert_eq!(run(&root, &[]), report("", true));
    assert_eq!(run(&root, &["--check"]), report("", true));

    assert_eq!(stored(&root, "examples/ring4.net"), write(&ring_4_with_prefix()));
    assert_eq!(stored(&root, "examples/refused/01-length.net"), write(&lone_router())[..511]);
    assert_eq!(stored(&root, "crates/plan/stdin"), write(&ring_4_with_prefix()));
    assert!(stored(&root, "crates/plan/stdout").starts_with(b"plan 4 4 1\n"));
    let input = stored(&root, "crates/stored_answers/stdin");
    assert_eq!(input[..514], [&[0, 2], write(&lone_router()).as_slice()].concat());
    assert_eq!(input[514..518], [0, 0, 0, 4]);
    assert_eq!(stored(&root, "crates/stored_buffers/stdin"), input);
    assert_eq!(stored(&root, "crates/stored_tables/stdin"), input);
    assert_eq!(stored(&root, "crates/stored_drills/stdin"), drills::case().file);
    assert!(stored(&root, "crates/stored_drills/stdout").starts_with(b"drill "));
    outputs_are_those_of_the_cases(&root);
}

fn outputs_are_those_of_the_cases(root: &Path) {
    let output = text(root, "crates/stored_answers/stdout");
    assert!(output.starts_with("case 0\naccepted 1 0 0\nlink-entry 0\n"));
    assert!(output.contains("\nprefix-entry 4000000000\np 0 0 refused 12 0\n"));
    assert!(output.contains("\ncase 2\nrefused 4 1\nlink-entry 0\n"));
    assert!(output.contains("\nprefix-entry 4000000000\np 0 0 refused 4 1\n"));
    let output = text(root, "crates/stored_buffers/stdout");
    assert!(output.starts_with("case 0\ndone\nrow 0 0\nlater 7 7\nrefused 10 1\nkept\n"));
    assert!(output.contains("\ncase 2\nrefused 4 1\nlater 7 7\nrefused 4 1\nkept\nshort-route "));
    let output = text(root, "crates/stored_tables/stdout");
    assert!(output.starts_with("case 0\ntable 1 0\ntable-route 1 refused 12 0 kept\ntable 2 0\n"));
    assert!(output.contains("\ncase 2\nlink-rows 0 refused 4 1\nprefix-rows 0 refused 4 1\n"));
}

#[test]
fn a_program_without_a_folder_is_left_out() {
    let root = repository("left_out", &["stored_answers"]);
    assert!(run(&root, &[]).is_ok());
    assert!(root.join("crates/stored_answers/stdout").exists());
    assert!(!root.join("crates/plan").exists());
    assert_eq!(run(&root, &["--check"]), report("", true));
}

#[test]
fn check_notices_a_changed_byte_and_a_missing_file() {
    let root = repository("changed", &["stored_answers", "plan"]);
    assert!(run(&root, &[]).is_ok());
    let mut output = stored(&root, "crates/stored_answers/stdout");
    let middle = output.len() / 2;
    output[middle] ^= 1;
    fs::write(root.join("crates/stored_answers/stdout"), &output).expect("a file is written");
    fs::remove_file(root.join("examples/ring4.net")).expect("a file is removed");
    let differing = "examples/ring4.net differs\ncrates/stored_answers/stdout differs\n";
    assert_eq!(run(&root, &["--check"]), report(differing, false));
    // The check has written nothing; writing mends both files.
    assert_eq!(stored(&root, "crates/stored_answers/stdout"), output);
    assert!(!root.join("examples/ring4.net").exists());
    assert!(run(&root, &[]).is_ok());
    assert_eq!(run(&root, &["--check"]), report("", true));
}

#[test]
fn check_notices_a_changed_text() {
    let root = repository("changed_text", &["stored_answers"]);
    assert!(run(&root, &[]).is_ok());
    store(&root, "tests/cases/one.txt", "routers 2\n");
    let differing = "crates/stored_answers/stdin differs\ncrates/stored_answers/stdout differs\n";
    assert_eq!(run(&root, &["--check"]), report(differing, false));
}

#[test]
fn the_list_names_the_cases() {
    let root = repository("listed", &[]);
    let listed = "\
stored_answers 0 one
stored_answers 1 reader/length_0
stored_answers 2 reader/row_4_more
stored_answers 3 reader/row_9_next
stored_buffers 0 one
stored_buffers 1 reader/length_0
stored_buffers 2 reader/row_4_more
stored_buffers 3 reader/row_9_next
stored_tables 0 one
stored_tables 1 reader/length_0
stored_tables 2 reader/row_4_more
stored_tables 3 reader/row_9_next
stored_drills 0 drills
plan 0 ring4
";
    assert_eq!(run(&root, &["--list"]), report(listed, true));
}

#[test]
fn what_is_wrong_is_said() {
    let root = repository("wrong", &["plan"]);
    store(&root, "tests/cases/two.txt", "routers 2\nlink 0 1\n");
    let wrong = run(&root, &[]).expect_err("a bad text");
    assert!(wrong.contains("two.txt: line 2: found 2 numbers"), "{wrong}");
    fs::remove_file(root.join("tests/cases/two.txt")).expect("a file is removed");
    store(&root, "tests/cases/long.txt", "routers 1\nlength 65536\n");
    fs::create_dir(root.join("crates/stored_answers")).expect("a folder");
    let wrong = run(&root, &[]).expect_err("a long file");
    assert_eq!(wrong, "long.txt makes a file of 65536 bytes, over 65535");
    fs::remove_file(root.join("tests/cases/long.txt")).expect("a file is removed");
    fs::remove_file(root.join("examples/ring4.txt")).expect("a file is removed");
    let wrong = run(&root, &["--check"]).expect_err("no example");
    assert_eq!(wrong, "there is no text ring4.txt");
    assert!(run(&root.join("nowhere"), &[]).is_err());
    assert!(run(&root, &["--chek"]).expect_err("a bad word").starts_with("`--chek` is unknown"));
}

#[test]
fn the_program_itself() {
    let program = |word| Command::new(env!("CARGO_BIN_EXE_remake")).arg(word).output();
    let listed = program("--list").expect("the program ends");
    assert!(listed.status.success());
    assert!(listed.stdout.ends_with(b"\nplan 0 ring4\n"));
    let wrong = program("--chek").expect("the program ends");
    assert_eq!(wrong.status.code(), Some(2));
    assert!(wrong.stderr.starts_with(b"remake: `--chek` is unknown\n"));
}
