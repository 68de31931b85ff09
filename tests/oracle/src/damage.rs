//! Files damaged on purpose: one cause of refusal at one place, or several.

use crate::file::{BLOCK, Draft, Head, LARGEST};
use crate::network::Network;
use crate::random::Random;
use crate::row::Cause;

/// The causes that a file can have, those of the rows 1 to 9.
pub fn causes() -> Vec<Cause> {
    Cause::ALL.iter().copied().filter(|cause| cause.row() <= 9).collect()
}

/// A file in the making that damage is done to.
#[derive(Clone, Debug)]
pub struct Damage {
    /// The counts of the undamaged network: they tell where entries stand.
    head: Head,
    draft: Draft,
    /// Offsets at which a bit is turned over after the checks are put in.
    spoiled: Vec<usize>,
    length: Option<usize>,
}

impl Damage {
    /// The sound file of a network. For every cause to be possible it needs
    /// two links and two prefixes, and 65 routers are as bad as 255.
    pub fn to(network: &Network) -> Damage {
        let draft = Draft::of(network);
        Damage { head: draft.head(), draft, spoiled: Vec::new(), length: None }
    }

    /// Gives the file a cause of refusal. `place` tells where, for a cause
    /// that can stand at several places: it picks the block, the link or the
    /// prefix, counted round from the first that is possible. The answer is
    /// the number of that block, link or prefix.
    pub fn cause(&mut self, cause: Cause, place: usize) -> usize {
        match cause.row() {
            1 => self.length_cause(cause, place),
            2 => return self.wrong_check(place),
            3 => self.head_cause(cause, place),
            4 => self.blocks_cause(cause),
            5 => return self.block_cause(cause, place),
            6 | 7 => return self.link_cause(cause, place),
            _ => return self.prefix_cause(cause, place),
        }
        0
    }

    fn length_cause(&mut self, cause: Cause, place: usize) {
        let length = self.draft.length();
        self.length = Some(match cause {
            Cause::LengthZero => 0,
            Cause::LengthOver => LARGEST + BLOCK * (1 + place),
            _ => [length - 1, length + 1, 1, 511, 513][place % 5],
        });
    }

    fn wrong_check(&mut self, place: usize) -> usize {
        let blocks = self.draft.length() / BLOCK;
        let block = place % blocks;
        let offset = [511, 510, 509, 4][place / blocks % 4];
        self.spoiled.push(block * BLOCK + offset);
        block
    }

    fn head_cause(&mut self, cause: Cause, place: usize) {
        match cause {
            Cause::HeadKind => self.draft.set(0, [2, 0, 3, 255][place % 4]),
            Cause::HeadEntries => self.draft.set(1, 1),
            Cause::HeadNumber => self.draft.set(2 + place % 2, 1),
            Cause::RoutersZero => self.draft.set(4, 0),
            Cause::RoutersOver => self.draft.set(4, [65, 255][place % 2]),
            Cause::LinksOver => self.draft.set_word(6, [129, 256, 65_535][place % 3]),
            Cause::PrefixesOver => self.draft.set_word(8, [129, 256, 65_535][place % 3]),
            Cause::HeadZeroByte => self.draft.set(5, 1),
            _ => self.draft.set([10, 509, 255][place % 3], 1),
        }
    }

    fn blocks_cause(&mut self, cause: Cause) {
        let length = self.draft.length();
        // A block of zeros has a right check.
        self.length = Some(match cause {
            Cause::BlocksTooFew => length - BLOCK,
            _ => length + BLOCK,
        });
    }

    fn block_cause(&mut self, cause: Cause, place: usize) -> usize {
        let block = 1 + place % (self.draft.length() / BLOCK - 1);
        let start = block * BLOCK;
        let kind = self.draft.byte(start);
        let entries = self.draft.byte(start + 1);
        match cause {
            Cause::BlockNumber => self.draft.set(start + 3, 1),
            Cause::BlockKind => self.draft.set(start, [5 - kind, 1, 0][place % 3]),
            Cause::BlockEntries => self.draft.set(start + 1, [entries + 1, entries - 1][place % 2]),
            _ => {
                let size = if kind == 2 { 6 } else { 34 };
                let tail = 4 + usize::from(entries) * size;
                self.draft.set(start + [509, tail][place % 2], 1);
            }
        }
        block
    }

    fn link_cause(&mut self, cause: Cause, place: usize) -> usize {
        let repeats = cause.row() == 7;
        let first = usize::from(repeats);
        let link = first + place % (self.head.links - first);
        let at = self.head.link_at(link);
        let not_below_n = self.head.routers as u8;
        let a = self.draft.byte(at);
        match cause {
            Cause::LinkRouterA => self.draft.set(at, not_below_n),
            Cause::LinkRouterB => self.draft.set(at + 1, not_below_n),
            Cause::LinkLoop => self.draft.set(at + 1, a),
            Cause::LinkCostForth => self.draft.set_word(at + 2, 0),
            Cause::LinkCostBack => self.draft.set_word(at + 4, 0),
            _ => {
                let earlier = self.head.link_at(place % link);
                let ends = [self.draft.byte(earlier), self.draft.byte(earlier + 1)];
                let reversed = usize::from(cause == Cause::LinkRepeatedReversed);
                self.draft.set(at, ends[reversed]);
                self.draft.set(at + 1, ends[1 - reversed]);
            }
        }
        link
    }

    fn prefix_cause(&mut self, cause: Cause, place: usize) -> usize {
        let prefix = place % self.head.prefixes;
        let at = self.head.prefix_at(prefix);
        let attachments = self.draft.byte(at);
        let last_slot = at + 2 + 4 * 7;
        match cause {
            Cause::AttachmentsZero => self.draft.set(at, 0),
            Cause::AttachmentsOver => self.draft.set(at, [9, 255][place % 2]),
            Cause::AttachedRouter => self.draft.set(at + 2, self.head.routers as u8),
            Cause::PrefixZeroByte => self.draft.set(at + 1, 1),
            Cause::SlotZeroByte => self.draft.set(at + 3, 1),
            Cause::UnusedSlot => {
                self.draft.set(at, attachments.min(7));
                self.draft.set(last_slot + place % 4, 1);
            }
            _ => {
                let named = self.draft.byte(at + 2);
                self.draft.set(at, attachments.max(2));
                self.draft.set(at + 6, named);
            }
        }
        prefix
    }

    /// The damaged file.
    pub fn finish(self) -> Vec<u8> {
        let mut file = self.draft.finish();
        for at in self.spoiled {
            file[at] ^= 1;
        }
        if let Some(length) = self.length {
            file.resize(length, 0);
        }
        file
    }
}

/// A file with one to four causes at random places. The network needs two
/// links and two prefixes.
pub fn random_file(network: &Network, random: &mut Random) -> Vec<u8> {
    let causes = causes();
    let mut damage = Damage::to(network);
    for _ in 0..random.between(1, 4) {
        let cause = random.pick(&causes);
        let place = random.below(1000);
        damage.cause(cause, place);
    }
    damage.finish()
}

/// Random bytes that look like a file at first: whole blocks, each with its
/// right check, the first of the head's kind.
pub fn random_blocks(random: &mut Random) -> Vec<u8> {
    let mut draft = Draft::of(&Network::of_routers(1));
    for at in 4..510 {
        if random.one_in(100) {
            draft.set(at, random.byte());
        }
    }
    if random.one_in(2) {
        draft.set_length(BLOCK * random.between(1, 14));
    }
    draft.finish()
}
