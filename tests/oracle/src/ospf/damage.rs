//! LSAs damaged on purpose: one cause of number 16 in one LSA of a run. All that the
//! cause does not speak of stays right, the checksum too.

use super::cause::Cause;
use super::fletcher;
use super::layout::*;
use super::lsa::{Lsa, RouterLink};
use super::make::link_metric;
use crate::random::Random;

/// The run of some good LSAs, but that the one at a place has a cause. A router can be
/// named before only from place 1 on, and an LSA that is cut short is the last.
pub fn run(lsas: &[Lsa], cause: Cause, place: usize, random: &mut Random) -> Vec<u8> {
    let mut pieces: Vec<Vec<u8>> = lsas.iter().map(Lsa::bytes).collect();
    if cause == Cause::CutShort {
        pieces.truncate(place + 1);
    }
    pieces[place] = damaged(lsas, cause, place, random);
    pieces.concat()
}

fn damaged(lsas: &[Lsa], cause: Cause, place: usize, random: &mut Random) -> Vec<u8> {
    let mut lsa = lsas[place].clone();
    let bytes = lsa.bytes();
    match cause {
        Cause::CutShort => return cut_short(bytes, random),
        Cause::LengthNotFilled => return not_filled(bytes, random),
        Cause::ChecksumZero => return checksum_zero(bytes),
        Cause::FletcherSums => return wrong_sums(bytes, random),
        Cause::OtherType => lsa.ls_type = random.pick(&[0, 2, 3, 4, 5, 7, 255]),
        Cause::RouterNamedBefore => {
            lsa.link_state_id = lsas[random.below(place)].link_state_id;
            // A link to itself would be another cause.
            lsa.links.retain(|link| link.link_type == STUB);
        }
        _ => link_cause(&mut lsa, cause, random),
    }
    lsa.bytes()
}

/// A cause of one link; a link that it needs is added.
fn link_cause(lsa: &mut Lsa, cause: Cause, random: &mut Random) {
    let (own, data) = (lsa.link_state_id, random.any() as u32);
    let mut added = RouterLink::point_to_point(own ^ 0x5555, data, link_metric(random));
    let of_any_type = matches!(cause, Cause::TosMetric | Cause::LinkOfAnotherType);
    let fits = |link: &RouterLink| of_any_type || link.link_type == POINT_TO_POINT;
    let mut places: Vec<usize> =
        (0..lsa.links.len()).filter(|place| fits(&lsa.links[*place])).collect();
    if places.is_empty() && cause != Cause::ToItself {
        places.push(lsa.links.len());
        lsa.links.push(added.clone());
    }
    match cause {
        Cause::TosMetric => {
            let count = random.pick(&[1, 2, 3]);
            lsa.links[random.pick(&places)].tos = vec![[8, 0, 0, 1]; count];
        }
        Cause::LinkOfAnotherType => {
            lsa.links[random.pick(&places)].link_type = random.pick(&[0, TRANSIT, VIRTUAL, 5, 255]);
        }
        Cause::MetricZero => lsa.links[random.pick(&places)].metric = 0,
        _ => {
            added.id =
                if cause == Cause::ToItself { own } else { lsa.links[random.pick(&places)].id };
            lsa.links.insert(random.below(lsa.links.len() + 1), added);
        }
    }
}

/// Fewer bytes than the length says: the end is missing, or the length is more.
fn cut_short(mut bytes: Vec<u8>, random: &mut Random) -> Vec<u8> {
    let length = bytes.len();
    if random.one_in(3) {
        let more = random.pick(&[1, 4, 12, 60_000]);
        bytes[LENGTH..LENGTH + 2].copy_from_slice(&((length + more) as u16).to_be_bytes());
        fletcher::set_checksum(&mut bytes);
        return bytes;
    }
    let kept = random.pick(&[1, 2, HEADER - 1, HEADER, BEFORE_LINKS - 1, length - 1]);
    bytes.truncate(kept.min(length - 1));
    bytes
}

/// Another length or another count of links than belong together.
fn not_filled(mut bytes: Vec<u8>, random: &mut Random) -> Vec<u8> {
    let count = word(&bytes, COUNT);
    match random.below(4) {
        0 => set_word(&mut bytes, COUNT, count + random.pick(&[1, 256])),
        1 if count > 0 => set_word(&mut bytes, COUNT, count - 1),
        2 => bytes.truncate(random.between(HEADER, BEFORE_LINKS - 1)),
        _ => {
            let more = random.pick(&[1, 4, 12]);
            bytes.resize(bytes.len() + more, 0);
        }
    }
    let length = bytes.len() as u16;
    set_word(&mut bytes, LENGTH, length);
    fletcher::set_checksum(&mut bytes);
    bytes
}

/// A checksum of zero, with sums that are 0 all the same: bytes of the sequence number
/// are what they have to be.
fn checksum_zero(mut bytes: Vec<u8>) -> Vec<u8> {
    set_word(&mut bytes, CHECKSUM, 0);
    fletcher::settle(&mut bytes, SEQUENCE);
    bytes
}

/// Sums that are not both 0: one of them is, or neither. The sequence number and the
/// options say nothing else.
fn wrong_sums(mut bytes: Vec<u8>, random: &mut Random) -> Vec<u8> {
    let weight = |at: usize| bytes.len() - at;
    let raised = |byte: u8, by: usize| ((usize::from(byte) + by) % 255) as u8;
    let (at, next) = (SEQUENCE, SEQUENCE + 1);
    let pairs = (0..255).flat_map(|x| (0..255).map(move |y| (x, y)));
    let second = |x: usize, y: usize| (x * weight(at) + y * weight(next)) % 255;
    let fitting: Vec<(usize, usize)> = match random.below(3) {
        0 => pairs.filter(|(x, y)| (x + y) % 255 == 0 && second(*x, *y) != 0).collect(),
        1 => pairs.filter(|(x, y)| (x + y) % 255 != 0 && second(*x, *y) == 0).collect(),
        _ => pairs.filter(|(x, y)| (x + y) % 255 != 0 && second(*x, *y) != 0).collect(),
    };
    let (x, y) = random.pick(&fitting);
    (bytes[at], bytes[next]) = (raised(bytes[at], x), raised(bytes[next], y));
    bytes
}

fn set_word(bytes: &mut [u8], at: usize, value: u16) {
    bytes[at..at + 2].copy_from_slice(&value.to_be_bytes());
}
