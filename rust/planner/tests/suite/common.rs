//! What several modules of the suite share.

use planner::{text, Attachment, Link, Network, DRILL_BYTES};
use std::fs;
use std::io::Write;
use std::path::{Path, PathBuf};
use std::process::{Command, Output, Stdio};

/// The root of the repository: this package lies in its `rust/planner`.
pub fn root() -> PathBuf {
    Path::new(env!("CARGO_MANIFEST_DIR")).join("../..")
}

/// Ring k: link i joins i and i + 1, the last joins k - 1 and 0, all costs 1.
pub fn ring(k: u8) -> Network {
    let mut network = Network::new(k).unwrap();
    for i in 0..k {
        network.add_link(Link { a: i, b: (i + 1) % k, out: 1, back: 1 }).unwrap();
    }
    network
}

/// The network with a prefix added, whose attachments cost 0.
pub fn with_prefix_at(mut network: Network, routers: &[u8]) -> Network {
    let attachments: Vec<Attachment> =
        routers.iter().map(|&router| Attachment { router, cost: 0 }).collect();
    network.add_prefix(&attachments).unwrap();
    network
}

/// Ring 4 with a prefix at 1 and 2, cost 0 each.
pub fn ring_4_with_prefix() -> Network {
    with_prefix_at(ring(4), &[1, 2])
}

/// The network file of a drill.
pub fn drill(seed: u32, routers: usize) -> Vec<u8> {
    let mut file = vec![0; DRILL_BYTES];
    assert_eq!(planner::drill(seed, routers, &mut file), DRILL_BYTES);
    file
}

/// The network file of a stored case, which holds a sound network.
pub fn stored(name: &str) -> Vec<u8> {
    let path = root().join(format!("tests/cases/{name}.txt"));
    text::parse(&fs::read_to_string(path).unwrap()).unwrap().to_bytes()
}

/// The network file that the oracle makes of a text.
pub fn oracle_file(text: &str) -> Result<Vec<u8>, String> {
    oracle::text::parse(text)?.file()
}

/// A text of the repository: its path, and what it says.
pub struct Text {
    pub path: PathBuf,
    pub text: String,
}

/// The texts of a folder of the repository.
pub fn texts(folder: &str) -> Vec<Text> {
    let paths = fs::read_dir(root().join(folder)).unwrap().map(|entry| entry.unwrap().path());
    let texts = paths.filter(|path| path.extension().is_some_and(|ending| ending == "txt"));
    let texts: Vec<Text> =
        texts.map(|path| Text { text: fs::read_to_string(&path).unwrap(), path }).collect();
    assert!(!texts.is_empty(), "{folder} holds texts");
    texts
}

/// The texts of sound networks: the stored cases and the examples.
pub fn sound_texts() -> Vec<Text> {
    [texts("tests/cases"), texts("examples")].into_iter().flatten().collect()
}

/// The text of ring 4 with its prefix.
pub const RING_4: &str = "\
routers 4
link 0 1 1 1
link 1 2 1 1
link 2 3 1 1
link 3 0 1 1
prefix 1:0 2:0
";

/// Runs the command with these words and this standard input.
pub fn run(words: &[&str], input: &[u8]) -> Output {
    let mut child = Command::new(env!("CARGO_BIN_EXE_planner"))
        .args(words)
        .stdin(Stdio::piped())
        .stdout(Stdio::piped())
        .stderr(Stdio::piped())
        .spawn()
        .expect("the command starts");
    // A command may end before it has read its input.
    let _ = child.stdin.take().expect("a pipe").write_all(input);
    child.wait_with_output().expect("the command ends")
}

pub fn text_of(bytes: Vec<u8>) -> String {
    String::from_utf8(bytes).expect("text")
}

/// What the command answers, with exit status 0 and nothing on standard error.
pub fn answers(words: &[&str], input: &[u8]) -> String {
    let output = run(words, input);
    assert_eq!(text_of(output.stderr), "", "{words:?}");
    assert_eq!(output.status.code(), Some(0), "{words:?}");
    text_of(output.stdout)
}

/// What the command says on standard error, with this exit status and no answer.
pub fn fails(words: &[&str], input: &[u8], status: i32) -> String {
    let output = run(words, input);
    assert_eq!(text_of(output.stdout), "", "{words:?}");
    assert_eq!(output.status.code(), Some(status), "{words:?}");
    text_of(output.stderr)
}

/// A file of the suite's own, with these bytes where they are given.
pub fn scratch(name: &str, bytes: Option<&[u8]>) -> PathBuf {
    let path = PathBuf::from(env!("CARGO_TARGET_TMPDIR")).join(name);
    match bytes {
        Some(bytes) => fs::write(&path, bytes).expect("it is written"),
        None => drop(fs::remove_file(&path)),
    }
    path
}
