//! The writer: network files, sound ones and, on purpose, bad ones.

use super::check::check;
use super::layout::*;
use crate::fault::Context;
use crate::network::Network;

/// The file of a network. Nothing is judged: a network that breaks a limit
/// gives a file that breaks it, with right checks. A count that does not fit
/// its field is written as the largest that fits.
pub fn write(network: &Network) -> Vec<u8> {
    Draft::of(network).finish()
}

/// A file in the making: its bytes before the checks are put in, and the
/// changes to make afterwards.
#[derive(Clone, Debug)]
pub struct Draft {
    bytes: Vec<u8>,
    late: Vec<(usize, u8)>,
    length: Option<usize>,
}

impl Draft {
    /// The draft of a network's file.
    pub fn of(network: &Network) -> Draft {
        let mut draft = Draft { bytes: vec![0; BLOCK], late: Vec::new(), length: None };
        draft.set(0, KIND_HEAD);
        draft.set(HEAD_ROUTERS, network.routers);
        draft.set_word(HEAD_LINKS, u16::try_from(network.links.len()).unwrap_or(u16::MAX));
        draft.set_word(HEAD_PREFIXES, u16::try_from(network.prefixes.len()).unwrap_or(u16::MAX));
        for links in network.links.chunks(LINKS_IN_BLOCK) {
            let entries: Vec<_> = links.iter().map(link_entry).collect();
            draft.add_block(KIND_LINKS, &entries);
        }
        for prefixes in network.prefixes.chunks(PREFIXES_IN_BLOCK) {
            let entries: Vec<_> = prefixes.iter().map(prefix_entry).collect();
            draft.add_block(KIND_PREFIXES, &entries);
        }
        draft
    }

    fn add_block<const SIZE: usize>(&mut self, kind: u8, entries: &[[u8; SIZE]]) {
        let start = self.bytes.len();
        let number = u16::try_from(start / BLOCK).unwrap_or(u16::MAX);
        self.bytes.push(kind);
        self.bytes.push(u8::try_from(entries.len()).unwrap_or(u8::MAX));
        self.bytes.extend(number.to_le_bytes());
        self.bytes.extend(entries.as_flattened());
        self.bytes.resize(start + BLOCK, 0);
    }

    /// Bytes of the draft.
    pub fn length(&self) -> usize {
        self.bytes.len()
    }

    /// The byte at an offset.
    pub fn byte(&self, at: usize) -> u8 {
        Bytes(&self.bytes).byte(at)
    }

    /// The head's fields as they stand now.
    pub fn head(&self) -> Head {
        Head::of(Bytes(&self.bytes))
    }

    /// Changes a byte before the checks are put in.
    pub fn set(&mut self, at: usize, value: u8) {
        self.bytes[at] = value;
    }

    /// Changes a 16-bit field before the checks are put in.
    pub fn set_word(&mut self, at: usize, value: u16) {
        self.bytes[at..at + 2].copy_from_slice(&value.to_le_bytes());
    }

    /// Changes a byte after the checks are put in, so that its block's check
    /// becomes wrong.
    pub fn set_late(&mut self, at: usize, value: u8) {
        self.late.push((at, value));
    }

    /// Cuts the finished file to this length, or fills it up with zeros.
    pub fn set_length(&mut self, length: usize) {
        self.length = Some(length);
    }

    /// Puts in the checks, then makes the late changes and sets the length.
    pub fn finish(mut self) -> Vec<u8> {
        for block in 0..self.bytes.len() / BLOCK {
            let check = check(&Context::sound(), Bytes(&self.bytes), block);
            self.set_word(block * BLOCK + CHECK, check);
        }
        for (at, value) in self.late {
            if let Some(byte) = self.bytes.get_mut(at) {
                *byte = value;
            }
        }
        if let Some(length) = self.length {
            self.bytes.resize(length, 0);
        }
        self.bytes
    }
}
