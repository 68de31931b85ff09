//! What `make` and `drill` write: nothing that was there is lost, and what is wrong is said.

use crate::common::{drill, ring, ring_4_with_prefix, text_of, RING_4};
use std::fs::{self, File, Permissions};
use std::io::Read;
use std::os::unix::fs::{chown, MetadataExt, PermissionsExt};
use std::os::unix::process::CommandExt;
use std::path::PathBuf;
use std::process::{Command, Output};

/// A user who owns nothing here, for what root is not refused.
const OTHER: u32 = 65_534;

/// A folder of a test's own, in which a shell runs the command: `planner` in a script.
struct Folder(PathBuf);

impl Folder {
    /// A folder with the text of ring 4 in `a.txt` and with ring 3 in `a.net`.
    fn new(name: &str) -> Folder {
        Folder::at(PathBuf::from(env!("CARGO_TARGET_TMPDIR")).join(name))
    }

    fn at(path: PathBuf) -> Folder {
        let _ = fs::remove_dir_all(&path);
        fs::create_dir(&path).expect("it is made");
        let folder = Folder(path);
        folder.put("a.txt", RING_4.as_bytes());
        folder.put("a.net", &ring(3).to_bytes());
        folder
    }

    fn put(&self, name: &str, bytes: &[u8]) {
        fs::write(self.0.join(name), bytes).expect("it is written");
    }

    fn get(&self, name: &str) -> Vec<u8> {
        fs::read(self.0.join(name)).expect("it is read")
    }

    fn mode(&self, name: &str) -> u32 {
        fs::metadata(self.0.join(name)).expect("it is there").mode() & 0o7777
    }

    fn set_mode(&self, name: &str, mode: u32) {
        fs::set_permissions(self.0.join(name), Permissions::from_mode(mode)).expect("it is set");
    }

    /// The names in the folder and in those below.
    fn names(&self) -> String {
        text_of(self.prints("find . | sort"))
    }

    /// A shell that runs the script in the folder.
    fn shell(&self, script: &str) -> Command {
        let mut shell = Command::new("sh");
        let script = format!("planner() {{ \"$PLANNER\" \"$@\"; }}\n{script}");
        shell.args(["-c", &script]).current_dir(&self.0);
        shell.env("PLANNER", env!("CARGO_BIN_EXE_planner"));
        shell
    }

    /// What a script prints, which succeeds.
    fn prints(&self, script: &str) -> Vec<u8> {
        let output = ended(self.shell(script));
        assert_eq!(text_of(output.stderr), "", "{script}");
        assert_eq!(output.status.code(), Some(0), "{script}");
        output.stdout
    }

    /// What a script says on standard error: it ends with status 2, and neither the two files nor
    /// the names in the folder have changed.
    fn fails(&self, script: &str) -> String {
        self.still(script, self.shell(script))
    }

    fn still(&self, script: &str, shell: Command) -> String {
        let before = (self.get("a.txt"), self.get("a.net"), self.names());
        let output = ended(shell);
        let wrong = text_of(output.stderr);
        assert_eq!(text_of(output.stdout), "", "{script}");
        assert_eq!(output.status.code(), Some(2), "{script}: {wrong}");
        assert!(before == (self.get("a.txt"), self.get("a.net"), self.names()), "{script}");
        wrong
    }
}

fn ended(mut command: Command) -> Output {
    command.output().expect("the shell starts")
}

#[test]
fn the_source_is_not_overwritten() {
    let folder = Folder::new("source");
    folder.prints("ln -s a.txt soft; ln a.txt hard; mkdir sub; ln -s ../a.txt sub/soft");
    for words in [
        "a.txt a.txt",
        "a.txt ./a.txt",
        "./a.txt a.txt",
        "a.txt sub/../a.txt",
        "\"$PWD/a.txt\" a.txt",
        "a.txt soft",
        "soft a.txt",
        "sub/soft soft",
        "a.txt hard",
        "hard soft",
        "- a.txt <a.txt",
        "/dev/stdin hard <a.txt",
        "a.txt - >>a.txt",
        "a.txt /dev/stdout >>hard",
        "- - <soft >>hard",
    ] {
        let wrong = folder.fails(&format!("planner make {words}"));
        assert!(wrong.contains(" are one file, and it is not overwritten; "), "{words}: {wrong}");
    }
    let wrong = "planner: `a.txt` and `./soft` are one file, and it is not overwritten; name \
                 another file to write\n";
    assert_eq!(folder.fails("planner make a.txt ./soft"), wrong);
    // An empty text is no network, and it is its own target all the same.
    let wrong = folder.fails(": >empty; planner make empty empty; s=$?; rm empty; exit $s");
    assert!(wrong.starts_with("planner: `empty` and `empty` are one file"), "{wrong}");
}

#[test]
fn an_answer_is_not_added_to_the_file_that_is_read() {
    let folder = Folder::new("answer");
    for words in ["link a.net 0 0", "spaces a.net 0 0", "text a.net", "text - <a.net"] {
        let wrong = folder.fails(&format!("planner {words} >>a.net"));
        assert!(wrong.contains(" and standard output are one file"), "{words}: {wrong}");
    }
    assert_eq!(folder.prints("planner link a.net 0 0 >>a.txt"), b"");
    assert!(text_of(folder.get("a.txt"))
        .ends_with("\nfirst hop 2, endpoint 2, class 5, tunnel cost 1\n"));
}

#[test]
fn a_network_file_is_replaced_whole() {
    let folder = Folder::new("replaced");
    let made = ring_4_with_prefix().to_bytes();
    folder.set_mode("a.net", 0o640);
    folder.prints("ln a.net other; ln -s a.net soft; mkdir sub; ln -s ../a.net sub/soft");
    let names = folder.names();
    assert_eq!(folder.prints("planner make a.txt sub/soft"), b"");
    assert_eq!((folder.get("a.net"), folder.mode("a.net")), (made.clone(), 0o640));
    assert!(folder.0.join("soft").is_symlink() && folder.0.join("sub/soft").is_symlink());
    assert_eq!(folder.names(), names);
    // The other name of the old file keeps it.
    assert_eq!(folder.get("other"), ring(3).to_bytes());
    // A file with nothing in it may be replaced, and a new one is made as the shell makes one.
    assert_eq!(folder.prints("umask 027; : >empty; planner make a.txt empty"), b"");
    assert_eq!(folder.prints("umask 027; planner make a.txt new"), b"");
    for name in ["empty", "new"] {
        assert_eq!((folder.get(name), folder.mode(name)), (made.clone(), 0o640));
    }
}

#[test]
fn another_file_is_not_replaced() {
    let folder = Folder::new("another");
    folder.put("b.txt", b"routers 1\n");
    folder.put("long", &[ring(3).to_bytes(), vec![0; 10_000]].concat());
    for name in ["b.txt", "long"] {
        let there = folder.get(name);
        let wrong = format!(
            "planner: `{name}` cannot be written: it is there and is no network file; remove it \
             first, or give another name\n"
        );
        assert_eq!(folder.fails(&format!("planner make a.txt {name}")), wrong);
        assert_eq!(folder.get(name), there);
    }
}

#[test]
fn a_drill_is_written_by_the_rules_of_make_and_replaces_no_network() {
    let folder = Folder::new("drill");
    folder.prints("ln -s empty soft; : >empty");
    folder.set_mode("empty", 0o640);
    // An empty file is replaced, and then the same drill.
    for _ in 0..2 {
        assert_eq!(folder.prints("planner drill 8 5 soft"), b"");
        assert_eq!((folder.get("empty"), folder.mode("empty")), (drill(8, 5), 0o640));
        assert!(folder.0.join("soft").is_symlink());
    }
    let network = folder.get("a.net");
    assert!(planner::load(&network).is_ok());
    assert_eq!(folder.prints("planner drill 0 3 new.net; planner drill 0 3 /dev/null"), b"");
    assert_eq!(folder.get("new.net"), drill(0, 3));
    for word in ["-", "/dev/stdout"] {
        assert_eq!(folder.prints(&format!("planner drill 0 3 {word} | cat")), drill(0, 3));
    }
    let another =
        "it is there and is another file than this drill; remove it first, or give another name";
    for (name, wrong) in [
        ("a.net", another),
        ("a.txt", another),
        (".", "it is a directory; give the name of a file in it"),
        ("none/new.net", "there is no directory `none`; make it, or give another name"),
    ] {
        let expected = format!("planner: `{name}` cannot be written: {wrong}\n");
        assert_eq!(folder.fails(&format!("planner drill 8 5 {name}")), expected);
    }
    assert_eq!(folder.get("a.net"), network);
    // A word that is wrong is told before a file is looked at.
    let wrong = folder.fails("planner drill 8 2 a.net");
    assert!(wrong.starts_with("planner: N is `2`, expected a number from 3 to 64\n"), "{wrong}");
}

#[test]
fn nothing_is_lost_where_the_disk_is_full() {
    let folder = Folder::new("full");
    for words in ["make a.txt a.net", "make a.txt new.net", "drill 8 5 new.net"] {
        // The shell ignores the signal, so that writing fails as on a disk that is full.
        let wrong = folder.fails(&format!("trap '' XFSZ; ulimit -f 0; planner {words}"));
        let name = words.split(' ').next_back().unwrap();
        assert!(wrong.starts_with(&format!("planner: `{name}` cannot be written: ")), "{wrong}");
        let advice = "; nothing is changed: make room, or give a name on another disk\n";
        assert!(wrong.ends_with(advice), "{wrong}");
    }
}

#[test]
fn names_that_no_file_can_have() {
    let folder = Folder::new("names");
    folder.prints("mkdir sub; ln -s nothing dangling; ln -s loop loop");
    for (name, wrong) in [
        ("sub", "it is a directory; give the name of a file in it"),
        ("sub/", "it is a directory; give the name of a file in it"),
        ("..", "it is a directory; give the name of a file in it"),
        ("new/", "its name ends as that of a directory; give the name of a file"),
        ("a.net/", "its name ends as that of a directory; give the name of a file"),
        ("none/new.net", "there is no directory `none`; make it, or give another name"),
        ("a.txt/new.net", "there is no directory `a.txt`; make it, or give another name"),
        (
            "dangling",
            "it is a symbolic link to a file that is not there; remove the link, or give the name \
             of the file",
        ),
    ] {
        let expected = format!("planner: `{name}` cannot be written: {wrong}\n");
        assert_eq!(folder.fails(&format!("planner make a.txt {name}")), expected);
    }
    let long = "n".repeat(300);
    for name in ["loop", &long] {
        let wrong = folder.fails(&format!("planner make a.txt {name}"));
        assert!(wrong.starts_with(&format!("planner: `{name}` cannot be written: ")), "{wrong}");
        assert!(wrong.ends_with("; give another name\n"), "{wrong}");
    }
}

#[test]
fn permissions_are_respected() {
    // Root is not refused, so that another user runs the command then, and has to reach it.
    let folder = std::env::temp_dir().join(format!("planner-suite-{}", std::process::id()));
    let folder = Folder::at(folder);
    folder.prints(
        "cp \"$PLANNER\" planner; mkdir shut open; cp a.net shut; cp a.net open
         chmod 666 shut/a.net; chmod 444 open/a.net; chmod 555 shut; chmod 777 open; chmod 755 .",
    );
    let is_root = fs::metadata(&folder.0).unwrap().uid() == 0;
    let fails = |name: &str| {
        let script = format!("./planner make a.txt {name}");
        let mut shell = folder.shell(&script);
        if is_root {
            shell.uid(OTHER).gid(OTHER);
        }
        folder.still(&script, shell)
    };
    for name in ["shut/a.net", "shut/new.net"] {
        let wrong = fails(name);
        let wanted = format!("planner: `{name}` cannot be written: no file can be made in `");
        assert!(wrong.starts_with(&wanted), "{wrong}");
        let advice = "; give a name in a directory that you may write to\n";
        assert!(wrong.contains("shut`: ") && wrong.ends_with(advice), "{wrong}");
    }
    let wrong = fails("open/a.net");
    assert!(wrong.starts_with("planner: `open/a.net` cannot be written: "), "{wrong}");
    assert!(wrong.ends_with("; change its permissions, or give another name\n"), "{wrong}");
    assert_eq!(folder.get("open/a.net"), ring(3).to_bytes());
    folder.prints("chmod 755 shut");
    fs::remove_dir_all(&folder.0).expect("it is removed");
}

#[test]
fn the_owner_stays() {
    let folder = Folder::new("owner");
    let path = folder.0.join("a.net");
    // Only root may give a file away.
    if chown(&path, Some(OTHER), Some(OTHER)).is_err() {
        return;
    }
    assert_eq!(folder.prints("planner make a.txt a.net"), b"");
    let made = fs::metadata(path).unwrap();
    assert_eq!((made.uid(), made.gid()), (OTHER, OTHER));
    assert_eq!(folder.get("a.net"), ring_4_with_prefix().to_bytes());
}

#[test]
fn pipes_and_devices() {
    let folder = Folder::new("pipes");
    let made = ring_4_with_prefix().to_bytes();
    assert_eq!(folder.prints("planner make a.txt /dev/null"), b"");
    assert_eq!(folder.prints("planner make a.txt /dev/stdout"), made);
    assert_eq!(folder.prints("planner make a.txt /dev/stdout | cat"), made);
    // Where standard output is a file it is written on, as by the word -.
    for word in ["/dev/stdout", "-"] {
        let script = format!("{{ echo before; planner make a.txt {word}; echo after; }} >log");
        assert_eq!(folder.prints(&script), b"");
        assert_eq!(folder.get("log"), [b"before\n", &made[..], b"after\n"].concat());
    }
    folder.prints("mkfifo pipe");
    // A pipe that is open for both is written without a reader that waits.
    let mut pipe = File::options().read(true).write(true).open(folder.0.join("pipe")).unwrap();
    assert_eq!(folder.prints("planner make a.txt pipe"), b"");
    let mut read = vec![0; made.len()];
    pipe.read_exact(&mut read).expect("it holds the file");
    assert_eq!(read, made);
}

#[cfg(target_os = "linux")]
#[test]
fn a_device_that_is_full() {
    let folder = Folder::new("device");
    let full = "cannot be written: No space left on device";
    for words in ["make a.txt", "drill 8 5"] {
        for to in ["/dev/full", "- >/dev/full"] {
            let wrong = folder.fails(&format!("planner {words} {to}"));
            assert!(wrong.contains(full), "{wrong}");
        }
    }
}
