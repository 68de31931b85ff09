//! The command line, through the program itself.

use oracle::file::write;
use oracle::worked::*;
use std::io::Write;
use std::process::{Command, Output, Stdio};

fn run(arguments: &[&str], input: &[u8]) -> Output {
    let mut child = Command::new(env!("CARGO_BIN_EXE_oracle"))
        .args(arguments)
        .stdin(Stdio::piped())
        .stdout(Stdio::piped())
        .stderr(Stdio::piped())
        .spawn()
        .expect("the program starts");
    // A command that needs no input may end before it is written.
    let _ = child.stdin.take().expect("an input").write_all(input);
    child.wait_with_output().expect("the program ends")
}

fn prints(arguments: &[&str], input: &[u8]) -> String {
    let output = run(arguments, input);
    assert!(output.status.success(), "{arguments:?}: {}", String::from_utf8_lossy(&output.stderr));
    String::from_utf8(output.stdout).expect("text")
}

fn fails(arguments: &[&str], input: &[u8]) -> String {
    let output = run(arguments, input);
    assert_eq!(output.status.code(), Some(2), "{arguments:?}");
    assert!(output.stdout.is_empty());
    String::from_utf8(output.stderr).expect("text")
}

const RING_4: &str = "\
routers 4
link 0 1 1 1
link 1 2 1 1
link 2 3 1 1
link 3 0 1 1
prefix 1:0 2:0
";

#[test]
fn make_and_show() {
    let output = run(&["make"], RING_4.as_bytes());
    assert_eq!(output.stdout, write(&ring_4_with_prefix()));
    assert_eq!(prints(&["show"], &output.stdout), RING_4);
    assert_eq!(prints(&["show"], &[]), "refused 1 0   # the file is empty\n");
    assert_eq!(fails(&["make"], b"routers x\n"), "oracle: line 1: `x` is no number\n");
}

#[test]
fn plan() {
    let text = prints(&["plan"], &write(&two_routers()));
    assert_eq!(text, "plan 2 1 0\n0 0 0 1 none none none none\n0 1 1 0 none none none none\n");
    assert_eq!(prints(&["plan"], &[0; 6657]), "refused 1 0\n");
}

#[test]
fn questions() {
    let file = write(&ring_4_with_prefix());
    let asks = |words: &[&str]| prints(&[&["ask"], words].concat(), &file);
    assert_eq!(asks(&["load"]), "accepted 4 4 1\n");
    assert_eq!(asks(&["link-entry", "3"]), "at 534 bytes 3 0 1 0 1 0\n");
    assert_eq!(asks(&["link-entry", "4"]), "empty\n");
    assert_eq!(asks(&["prefix-entry", "1"]), "empty\n");
    assert_eq!(
        asks(&["distances"]),
        "done\nrow 0 0 1 2 1\nrow 1 1 0 1 2\nrow 2 2 1 0 1\nrow 3 1 2 1 0\n"
    );
    assert_eq!(asks(&["p", "0", "0"]), "set 9 size 2 routers 0 3\n");
    assert_eq!(asks(&["extended-p", "0", "0"]), "set 13 size 3 routers 0 2 3\n");
    assert_eq!(asks(&["q", "0", "0"]), "set 6 size 2 routers 1 2\n");
    assert_eq!(asks(&["size", "13"]), "size 3\n");
    assert_eq!(asks(&["link-repair", "0", "0"]), "hop 3 endpoint 2 class 7 cost 2\n");
    assert_eq!(asks(&["prefix-repair", "0", "0", "0"]), "hop 3 endpoint 3 class 1 cost 1\n");
    assert_eq!(asks(&["prefix-repair", "1", "1", "0"]), "untouched\n");
    assert_eq!(asks(&["route", "0", "0", "0", "7", "255"]), "count 3 route 0 3 2\n");
    assert_eq!(asks(&["route", "4", "0", "0"]), "refused 12 4\n");
}

#[test]
fn ranks() {
    let file = write(&ring_4_with_prefix());
    let asks = |ranks, words: &[&str]| prints(&[&["--ranks", ranks, "ask"], words].concat(), &file);
    let prefix = ["prefix-repair", "0", "0", "0"];
    assert_eq!(asks("0,1,2,3,4,5,6,7", &prefix), "hop 3 endpoint 3 class 1 cost 1\n");
    assert_eq!(asks("2,3,0,1,4,5,6,7", &prefix), "hop 3 endpoint 2 class 2 cost 2\n");
    assert_eq!(asks("0,1,2,3,4,5,6,6", &prefix), "refused 15 0\n");
    // Four ranks were enough before there was node protection.
    assert_eq!(asks("0,1,2,3", &prefix), "refused 15 0\n");
    assert_eq!(asks("0,1,2,3,4,5,6,7,255", &["link-repair", "9", "9"]), "refused 15 0\n");
    assert_eq!(asks("0", &["route", "0", "0", "0"]), "refused 15 0\n");
    // Spaces take no ranks.
    assert_eq!(asks("0", &["p", "0", "0"]), "set 9 size 2 routers 0 3\n");
    let batch = prints(&["--ranks", "2,3,0,1,4,5,6,7", "batch", "prefixes"], &file);
    assert!(batch.starts_with("prefix-repair 0 0 0 pair 3 2 2 2\n"));
    for wrong in ["0,1,2,3,4,5,6,256", "0,1,2,3,4,5,,7", "0 1 2 3 4 5 6 7", ""] {
        let said = fails(&["--ranks", wrong, "ask", "load"], &file);
        assert!(said.contains("is no number from 0 to 255"), "{said}");
    }
}

#[test]
fn tables() {
    let file = write(&ring_4_with_prefix());
    let asks = |table, words: &[&str]| prints(&[&["--table", table, "ask"], words].concat(), &file);
    let prefix = ["prefix-repair", "0", "0", "0"];
    let right = "0,1,2,1,1,0,1,2,2,1,0,1,1,2,1,0";
    let longer = format!("{right},4294967295");
    for table in ["right", right, &longer] {
        assert_eq!(asks(table, &prefix), "hop 3 endpoint 3 class 1 cost 1\n");
        assert_eq!(asks(table, &["link-repair", "0", "0"]), "hop 3 endpoint 2 class 7 cost 2\n");
        assert_eq!(asks(table, &["route", "0", "0", "0"]), "count 3 route 0 3 2\n");
    }
    assert_eq!(asks("0,1,2,1,1,0,1,2,2,1,0,1,1,2,1,1", &prefix), "refused 18 0\n");
    assert_eq!(asks("0,1", &prefix), "refused 10 16\n");
    // The distances, spaces and so on take no table.
    assert_eq!(asks("0", &["q", "0", "0"]), "set 6 size 2 routers 1 2\n");
    let words = ["--table", "right", "--work", "2", "--buffer", "2", "--left", "ask"];
    let lone = write(&lone_router());
    assert_eq!(
        prints(&[&words[..], &["route", "0", "0", "0"]].concat(), &lone),
        "refused 12 0\nwork area 4294967294 4294967294\nroute buffer 255 255\n"
    );
    assert_eq!(prints(&["--table", "right", "ask", "link-repair", "0", "0"], &[]), "refused 1 0\n");
    for wrong in ["0,x", "", "0,,0", "4294967296", "Right"] {
        let said = fails(&["--table", wrong, "ask", "load"], &file);
        assert!(said.contains("is no number of 32 bits"), "{said}");
    }
}

#[test]
fn lent_buffers() {
    let file = write(&two_routers().prefix(&[(0, 3)]));
    let words = ["--work", "5", "--buffer", "4", "--left", "ask", "route", "0", "0", "0"];
    assert_eq!(
        prints(&words, &file),
        "untouched\nwork area 0 1 1 0 4294967294\nroute buffer 255 255 255 255\n"
    );
    assert_eq!(prints(&["--work", "3", "ask", "distances"], &file), "refused 10 4\n");
    let words = ["--buffer", "3", "ask", "route", "0", "0", "0"];
    assert_eq!(prints(&words, &file), "refused 11 4\n");
}

#[test]
fn batches() {
    let file = write(&ring_4_with_prefix());
    let whole = prints(&["batch"], &file);
    for line in [
        "load accepted 4 4 1",
        "link-entry 4 empty",
        "row 3 1 2 1 0",
        "extended-p 0 0 set 13",
        "link-repair 0 0 pair 3 2 7 2",
        "link-repair 0 2 refused 12 4",
        "prefix-repair 0 0 0 pair 3 3 1 1",
        "prefix-repair 0 0 1 refused 13 1",
        "route 0 0 0 0 count 3 route 0 3 2",
        "route 1 1 0 4 untouched",
    ] {
        assert!(whole.lines().any(|printed| printed == line), "no line: {line}");
    }
    let part = prints(&["batch", "load", "links"], &file);
    assert_eq!(part.lines().count(), 1 + 8 + 2);
    assert_eq!(
        prints(&["batch", "load", "entries", "links"], &[]),
        "load refused 1 0\nlink-entry 0 empty\nprefix-entry 0 empty\nlink-repair 0 0 refused 1 0\n"
    );
    assert!(fails(&["batch", "everything"], &file).contains("`everything` is no section"));
}

#[test]
fn random_networks_are_repeatable() {
    let once = prints(&["random", "Grid", "20", "5"], &[]);
    assert_eq!(once, prints(&["random", "Grid", "20", "5"], &[]));
    let file = run(&["make"], once.as_bytes()).stdout;
    assert_eq!(prints(&["show"], &file), once);
    let largest = prints(&["sized", "64", "128", "128", "9"], &[]);
    assert_eq!(largest.lines().count(), 1 + 128 + 128);
    assert!(prints(&["families"], &[]).starts_with("Sparse: "));
    assert!(fails(&["sized", "3", "4", "0", "1"], &[]).contains("too few routers"));
}

#[test]
fn drills() {
    let file = run(&["drill", "1", "3"], &[]).stdout;
    assert_eq!(file.len(), 1024);
    let text = "routers 3\nlink 0 1 97 1\nlink 1 2 47 96\nlink 2 0 13 17\n";
    assert_eq!(prints(&["show"], &file), text);
    let turned = run(&["--fault", "DrillBackFirst", "drill", "1", "3"], &[]).stdout;
    assert!(prints(&["show"], &turned).starts_with("routers 3\nlink 0 1 1 97\n"));
    assert_eq!(run(&["drill", "4294967295", "64"], &[]).stdout.len(), 1024);
    for routers in ["2", "65", "18446744073709551615"] {
        assert!(fails(&["drill", "1", routers], &[]).contains("a drill has 3 to 64 routers"));
    }
    assert!(fails(&["drill", "4294967296", "3"], &[]).contains("is no number of 32 bits"));
    assert!(fails(&["drill", "1"], &[]).contains("`drill 1` is no command"));
}

#[test]
fn runs_of_lsas() {
    let made = run(&["lsas", "7", "4", "3", "2"], &[]).stdout;
    assert_eq!(made, run(&["lsas", "7", "4", "3", "2"], &[]).stdout);
    assert_eq!(prints(&["ask", "import"], &made), "written 1536\n");
    let file = run(&["import"], &made).stdout;
    let text = prints(&["show"], &file);
    assert!(text.starts_with("routers 4\nlink "));
    // What a run shows at its end is the network, with names.
    let shown = prints(&["run"], &made);
    assert!(shown.starts_with("lsa 0 at 0 bytes "));
    let links = |text: &str| text.lines().filter(|line| line.starts_with("link ")).count();
    assert_eq!((links(&shown), links(&text)), (3, 3));
    assert_eq!(prints(&["--buffer", "1535", "ask", "import"], &made), "refused 17 0\n");
    assert_eq!(
        fails(&["--buffer", "1535", "import"], &made),
        "oracle: refused 17 0: the buffer is shorter than the file\n"
    );
    assert_eq!(
        prints(&["--buffer", "2", "--left", "ask", "import"], &[]),
        "refused 17 0\nbuffer 0 0\n"
    );
    let bad = run(&["lsas", "7", "ToItself"], &[]).stdout;
    assert!(prints(&["ask", "import"], &bad).starts_with("refused 16 "));
    let ignored = ["--fault", "ImportCauseIgnored(ToItself)", "ask", "import"];
    assert!(prints(&ignored, &bad).starts_with("written "));
    assert!(prints(&["causes"], &[]).starts_with("CutShort: 16, an LSA is cut short\n"));
    assert!(prints(&["faults"], &[]).contains("Import(NetworkMasked): the network of a stub"));
    assert!(fails(&["lsas", "7", "Nothing"], &[]).contains("`Nothing` is no cause"));
    assert!(fails(&["lsas", "7", "2", "2", "0"], &[]).contains("too few routers"));
    assert!(fails(&["lsas"], &[]).contains("`lsas` is no command"));
}

#[test]
fn faults_by_name() {
    let file = write(&ring(4));
    let sound = prints(&["ask", "link-repair", "0", "0"], &file);
    let faulty = prints(&["--fault", "KeysSwapped(1)", "ask", "link-repair", "0", "0"], &file);
    assert_eq!(sound, faulty);
    let faulty = prints(&["--fault", "FourteenAlways", "ask", "link-repair", "0", "0"], &file);
    assert_eq!(faulty, "refused 14 0\n");
    assert!(prints(&["faults"], &[]).contains("RowDropped(5): row 5 is not tried\n"));
    assert!(fails(&["--fault", "Nothing", "plan"], &file).contains("`Nothing` is no fault"));
}

#[test]
fn bad_words() {
    assert!(fails(&[], &[]).contains("no command is given"));
    assert!(fails(&["pla"], &[]).contains("`pla` is no command"));
    assert!(fails(&["ask"], &[]).contains("no question is given"));
    assert!(fails(&["ask", "p", "0"], &[]).contains("`p 0` is no question"));
    assert!(fails(&["ask", "p", "0", "x"], &[]).contains("`x` is no number"));
    assert!(fails(&["ask", "route", "0", "0", "0", "256"], &[]).contains("`256` is no number"));
    assert!(fails(&["--work"], &[]).contains("`--work` is no option, or its value is missing"));
}
