//! The examples in C: they compile without a warning, and print what the library answers.

use crate::common::root;
use std::path::PathBuf;
use std::process::{Command, Output};

/// Compiles an example as its comment says, and gives the program.
fn compiled(name: &str) -> PathBuf {
    let source = format!("examples/{name}.c");
    let program = PathBuf::from(env!("CARGO_TARGET_TMPDIR")).join(format!("example-{name}"));
    let compiler = Command::new("cc")
        .args(["-std=c99", "-Wall", "-Wextra", "-pedantic", "-Werror"])
        .args(["-Iinclude", &source, "target/staticlib/libplanner.a", "-o"])
        .arg(&program)
        .current_dir(root())
        .output()
        .expect("the C compiler starts");
    assert!(compiler.status.success(), "{}", String::from_utf8_lossy(&compiler.stderr));
    program
}

fn text(bytes: &[u8]) -> String {
    String::from_utf8(bytes.to_vec()).expect("text")
}

#[test]
fn ask_compiles_and_answers() {
    let program = compiled("ask");
    let run = |words: &[&str]| -> Output {
        Command::new(&program).args(words).current_dir(root()).output().expect("it starts")
    };
    let answered = run(&["examples/ring4.net"]);
    assert_eq!(text(&answered.stdout), "first hop 3, endpoint 2, class 7, tunnel cost 2\n");
    assert_eq!(answered.status.code(), Some(0));
    let refused = run(&["examples/ring4.txt"]);
    assert_eq!(text(&refused.stdout), "refused 1 0\n");
    assert_eq!(refused.status.code(), Some(1));
    for words in [&[][..], &["no such file"][..]] {
        let failed = run(words);
        assert_eq!((text(&failed.stdout), failed.status.code()), (String::new(), Some(2)));
        assert!(!failed.stderr.is_empty());
    }
}

#[test]
fn drill_compiles_and_answers() {
    let output = Command::new(compiled("drill")).output().expect("it starts");
    let lines = "first hop 4, endpoint 2, class 7, tunnel cost 86\nrefused 14 0\n";
    assert_eq!((text(&output.stdout), output.status.code()), (lines.to_string(), Some(0)));
}
