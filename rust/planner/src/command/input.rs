//! What a command reads, and how it is named where it is refused.

use super::output::same_file;
use super::words::{STDIN, STDOUT};
use super::Failure;
use planner::Refusal;
use std::ffi::OsStr;
use std::fmt::Display;
use std::fs::File;
use std::io::{self, Read};

/// The most bytes of a text. Without comments that of the largest network has some 12,000.
const MOST_TEXT: usize = 1 << 20;

/// The bytes of a file or of standard input.
pub struct Input {
    name: String,
    pub bytes: Vec<u8>,
}

impl Input {
    /// Reads so many bytes, or as many as there are. A file that the answer would be written to as
    /// well is not read.
    pub fn read(word: &OsStr, most: usize, to: &OsStr) -> Result<Input, Failure> {
        let (name, path) = (STDIN.name(word), STDIN.path(word));
        if path.is_file() && same_file(path, STDOUT.path(to)) {
            return Err(Failure::Usage(format!(
                "{name} and {} are one file, and it is not overwritten; name another file to write",
                STDOUT.name(to)
            )));
        }
        let mut bytes = Vec::new();
        let read = match word.to_str() {
            Some("-") => io::stdin().take(most as u64).read_to_end(&mut bytes),
            _ => File::open(word).and_then(|file| file.take(most as u64).read_to_end(&mut bytes)),
        };
        let unreadable = |wrong| Failure::Usage(format!("{name} cannot be read: {wrong}"));
        read.map_err(unreadable)?;
        Ok(Input { name, bytes })
    }

    /// Reads a text.
    pub fn read_text(word: &OsStr, to: &OsStr) -> Result<Input, Failure> {
        let input = Input::read(word, MOST_TEXT + 1, to)?;
        if input.bytes.len() > MOST_TEXT {
            let wrong =
                format!("it has more bytes than the text of a network may have, {MOST_TEXT}");
            return Err(input.refused(wrong));
        }
        Ok(input)
    }

    /// The bytes as a text.
    pub fn text(&self) -> Result<&str, Failure> {
        if self.bytes.contains(&0) {
            return Err(self.refused(
                "it holds a zero byte, so it is no text; name the text first and the network file \
                 second",
            ));
        }
        let text = std::str::from_utf8(&self.bytes).map_err(|wrong| {
            let before = &self.bytes[..wrong.valid_up_to()];
            let line = 1 + before.iter().filter(|byte| **byte == b'\n').count();
            self.refused(format!("line {line}: it is not written in UTF-8; save the text as UTF-8"))
        })?;
        // Some editors put a mark of the byte order first.
        Ok(text.strip_prefix('\u{feff}').unwrap_or(text))
    }

    /// What is wrong with it.
    pub fn refused(&self, wrong: impl Display) -> Failure {
        Failure::Refused(format!("{}: {wrong}", self.name))
    }

    /// Why it is refused as a network file, with what to do, or why a question about it is. A
    /// network file has zero bytes and a text has none.
    pub fn refused_by(&self, refusal: Refusal) -> Failure {
        let looks_like_text = !self.bytes.is_empty() && !self.bytes.contains(&0);
        let advice = match refusal.number {
            10.. => return Failure::Refused(refusal.to_string()),
            _ if looks_like_text => {
                "it looks like a text, of which `planner make` makes the network file"
            }
            _ => "copy the file again, or make it again with `planner make`",
        };
        self.refused(format!("{refusal}; {advice}"))
    }
}
