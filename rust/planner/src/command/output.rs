//! Writes a network file so that nothing is lost: into a new file beside the target, which is
//! synced, read back and then renamed onto the target. Where any of this fails the target is as it
//! was, and the new file is removed.
//!
//! What the name of the target leads to decides:
//! - nothing: a new file is made, where its directory is there;
//! - a file: it is replaced, where it may be written and is empty or what the command may replace
//!   ([`Replaces`]). The owner and the permissions stay where the system allows it. Other names of
//!   the file, hard links, keep the old one;
//! - a symbolic link: it stays, and what it leads to is the target; a link to nothing is refused;
//! - a pipe or a character device, as `/dev/null`: it takes the bytes as they come;
//! - a directory, a block device or a socket: it is refused.

use planner::LARGEST_FILE;
use std::fs::{self, File, Metadata, OpenOptions};
use std::io::{self, ErrorKind, Read, Seek, Write};
use std::os::unix::fs::{fchown, FileTypeExt, MetadataExt};
use std::path::{Path, PathBuf};
use std::process;

/// Which file a command may replace, beside an empty one.
#[derive(Clone, Copy)]
pub enum Replaces {
    /// Any network file: it is made anew from its text.
    NetworkFile,
    /// Only one with the same bytes: what is there may be a network that no text has.
    Same,
}

/// Writes a network file, or says what is wrong and what to do.
pub fn save(target: &Path, bytes: &[u8], replaces: Replaces) -> Result<(), String> {
    let found = match fs::metadata(target) {
        Err(wrong) if is_absent(&wrong) => return make(target, bytes),
        found => found.map_err(|wrong| format!("{wrong}; give another name"))?,
    };
    let kind = found.file_type();
    if kind.is_file() {
        let path = fs::canonicalize(target).map_err(|wrong| wrong.to_string())?;
        may_replace(&path, bytes, replaces)?;
        put(&path, Some(&found), bytes)
    } else if kind.is_fifo() || kind.is_char_device() {
        let opened = OpenOptions::new().write(true).open(target);
        let written = opened.and_then(|mut stream| stream.write_all(bytes));
        written.map_err(|wrong| format!("{wrong}; give another name"))
    } else if kind.is_dir() {
        Err("it is a directory; give the name of a file in it".to_string())
    } else {
        Err("it is a block device or a socket; give the name of a file".to_string())
    }
}

/// Whether two names lead to one file: by their paths, once links are followed, or by device and
/// inode, which tell hard links too.
pub fn same_file(one: &Path, other: &Path) -> bool {
    let path = |name| fs::canonicalize(name).ok();
    let inode = |name| fs::metadata(name).ok().map(|found| (found.dev(), found.ino()));
    path(one).is_some_and(|one| path(other) == Some(one))
        || inode(one).is_some_and(|one| inode(other) == Some(one))
}

/// Makes a file that is not there yet.
fn make(target: &Path, bytes: &[u8]) -> Result<(), String> {
    if target.as_os_str().as_encoded_bytes().ends_with(b"/") {
        return Err("its name ends as that of a directory; give the name of a file".to_string());
    }
    if target.is_symlink() {
        let wrong = "it is a symbolic link to a file that is not there";
        return Err(format!("{wrong}; remove the link, or give the name of the file"));
    }
    put(target, None, bytes)
}

/// A file that is there is replaced only where it may be written, and where it is empty or what the
/// command may replace.
fn may_replace(path: &Path, bytes: &[u8], replaces: Replaces) -> Result<(), String> {
    let mut there = Vec::new();
    let opened = OpenOptions::new().read(true).write(true).open(path);
    opened
        .and_then(|file| file.take(LARGEST_FILE as u64 + 1).read_to_end(&mut there))
        .map_err(|wrong| format!("{wrong}; change its permissions, or give another name"))?;
    let (allowed, wrong) = match replaces {
        Replaces::NetworkFile => (planner::load(&there).is_ok(), "is no network file"),
        Replaces::Same => (there == bytes, "is another file than this drill"),
    };
    if there.is_empty() || allowed {
        return Ok(());
    }
    Err(format!("it is there and {wrong}; remove it first, or give another name"))
}

/// Puts a new file with these bytes at the path, in place of the old one where there is one.
fn put(path: &Path, old: Option<&Metadata>, bytes: &[u8]) -> Result<(), String> {
    let mut fresh = Fresh::beside(path)?;
    if let Some(old) = old {
        fresh.keep(old);
    }
    let back = fresh.fill(bytes).map_err(|wrong| {
        format!("{wrong}; nothing is changed: make room, or give a name on another disk")
    })?;
    if back != bytes || planner::load(&back).is_err() {
        let wrong = "it does not read back as the network file that was written";
        return Err(format!("{wrong}; nothing is changed: give a name on another disk"));
    }
    fresh
        .rename(path)
        .map_err(|wrong| format!("{wrong}; nothing is changed: give a name in another directory"))
}

/// A new file, which is removed unless it is renamed.
struct Fresh {
    path: PathBuf,
    file: File,
    renamed: bool,
}

impl Fresh {
    /// Makes a file in the directory of the target, under a name that nothing has there.
    fn beside(target: &Path) -> Result<Fresh, String> {
        let directory = match target.parent() {
            Some(parent) if !parent.as_os_str().is_empty() => parent,
            _ => Path::new("."),
        };
        let mut number = 0;
        loop {
            let path = directory.join(format!(".planner-{}-{number}.new", process::id()));
            match OpenOptions::new().read(true).write(true).create_new(true).open(&path) {
                Ok(file) => return Ok(Fresh { path, file, renamed: false }),
                // A command that was killed may have left one.
                Err(wrong) if wrong.kind() == ErrorKind::AlreadyExists && number < 99 => {
                    number += 1
                }
                Err(wrong) => return Err(no_new_file(directory, &wrong)),
            }
        }
    }

    /// Gives it the owner, the group and the permissions of the old file, as far as the system
    /// allows.
    fn keep(&self, old: &Metadata) {
        let (owner, group) = (Some(old.uid()), Some(old.gid()));
        let _ = fchown(&self.file, owner, group).or_else(|_| fchown(&self.file, None, group));
        let _ = self.file.set_permissions(old.permissions());
    }

    /// Writes the bytes to the disk, and gives what is read back.
    fn fill(&mut self, bytes: &[u8]) -> io::Result<Vec<u8>> {
        self.file.write_all(bytes)?;
        self.file.sync_all()?;
        self.file.rewind()?;
        let mut back = Vec::new();
        self.file.read_to_end(&mut back)?;
        Ok(back)
    }

    fn rename(mut self, path: &Path) -> io::Result<()> {
        fs::rename(&self.path, path)?;
        self.renamed = true;
        Ok(())
    }
}

impl Drop for Fresh {
    fn drop(&mut self) {
        if !self.renamed {
            let _ = fs::remove_file(&self.path);
        }
    }
}

fn no_new_file(directory: &Path, wrong: &io::Error) -> String {
    let directory = directory.display();
    if is_absent(wrong) {
        return format!("there is no directory `{directory}`; make it, or give another name");
    }
    let advice = "give a name in a directory that you may write to";
    format!("no file can be made in `{directory}`: {wrong}; {advice}")
}

/// Whether nothing has the name that was looked for.
fn is_absent(wrong: &io::Error) -> bool {
    matches!(wrong.kind(), ErrorKind::NotFound | ErrorKind::NotADirectory)
}

#[cfg(test)]
mod tests {
    use super::{save, Replaces};
    use std::fs;
    use std::path::PathBuf;

    /// An empty folder of the test's own.
    fn folder(name: &str) -> PathBuf {
        let folder = std::env::temp_dir().join(format!("planner-{}-{name}", std::process::id()));
        let _ = fs::remove_dir_all(&folder);
        fs::create_dir(&folder).expect("it is made");
        folder
    }

    #[test]
    fn bytes_that_are_no_network_file_are_not_put_in_place() {
        let folder = folder("bytes");
        let target = folder.join("a.net");
        let wrong = save(&target, b"rubbish", Replaces::NetworkFile).unwrap_err();
        assert!(wrong.starts_with("it does not read back as the network file"), "{wrong}");
        assert_eq!(fs::read_dir(&folder).unwrap().count(), 0);
        fs::remove_dir(folder).unwrap();
    }

    #[test]
    fn a_file_that_a_killed_command_left_stays() {
        let folder = folder("left");
        let left = folder.join(format!(".planner-{}-0.new", std::process::id()));
        fs::write(&left, "left").unwrap();
        let target = folder.join("a.net");
        let bytes = planner::text::parse("routers 1").unwrap().to_bytes();
        save(&target, &bytes, Replaces::NetworkFile).unwrap();
        assert_eq!(fs::read(&target).unwrap(), bytes);
        assert_eq!(fs::read(&left).unwrap(), b"left");
        assert_eq!(fs::read_dir(&folder).unwrap().count(), 2);
        fs::remove_dir_all(folder).unwrap();
    }
}
