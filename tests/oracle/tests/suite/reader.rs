//! The reader: each row with each of its causes, the order of the rows, the
//! first such place, the edges, and the parts of entries.

use crate::common::{load, refused};
use oracle::answer::{Answer, link_entry, prefix_entry};
use oracle::corpus::network_to_damage;
use oracle::damage::{Damage, causes};
use oracle::fault::{Context, Fault};
use oracle::file::{Bytes, Draft, check, write};
use oracle::generate;
use oracle::network::Network;
use oracle::random::Random;
use oracle::row::Cause;
use oracle::worked::*;

fn accepted(file: &[u8]) -> bool {
    matches!(load(file), Answer::Accepted(_))
}

/// The blocks of a network of so many links and prefixes, counted by hand.
fn blocks(network: &Network) -> u32 {
    let full = |count: usize, entries: usize| count.div_ceil(entries);
    (1 + full(network.links.len(), 84) + full(network.prefixes.len(), 14)) as u32
}

/// What a cause at a place of a network's file is refused with.
fn expected(network: &Network, cause: Cause, place: usize) -> Answer {
    match cause.row() {
        1 | 3 => refused(cause.row(), 0),
        4 => refused(4, blocks(network)),
        row => refused(row, place as u32),
    }
}

#[test]
fn every_cause_at_many_places() {
    let mut random = Random::new(31);
    for cause in causes() {
        for place in (0..40).chain([1000, 12345]) {
            let network = network_to_damage(&mut random);
            let mut damage = Damage::to(&network);
            let place = damage.cause(cause, place);
            let file = damage.finish();
            assert_eq!(load(&file), expected(&network, cause, place), "{cause:?} at {place}");
            let refusal = oracle::answer::load(&Context::sound(), &file).expect_err("refused");
            assert_eq!(refusal.cause, cause);
        }
    }
}

#[test]
fn the_lower_row_decides() {
    let mut random = Random::new(32);
    for lower in causes() {
        for higher in causes().into_iter().filter(|higher| higher.row() > lower.row()) {
            let network = network_to_damage(&mut random);
            let mut damage = Damage::to(&network);
            damage.cause(higher, random.below(1000));
            // A wrong check stands in the head, which no damage cuts off.
            let place = if lower == Cause::Check { 0 } else { random.below(1000) };
            let place = damage.cause(lower, place);
            let answer = load(&damage.finish());
            assert_eq!(answer, expected(&network, lower, place), "{lower:?} and {higher:?}");
        }
    }
}

#[test]
fn the_first_such_place_is_returned() {
    let mut random = Random::new(33);
    for cause in causes().into_iter().filter(|cause| ![1, 3, 4].contains(&cause.row())) {
        for _ in 0..20 {
            let network = network_to_damage(&mut random);
            let mut damage = Damage::to(&network);
            let some = damage.cause(cause, random.below(1000));
            let other = damage.cause(cause, random.below(1000));
            // The same check spoiled twice may be right again.
            if some != other {
                assert_eq!(load(&damage.finish()), expected(&network, cause, some.min(other)));
            }
        }
    }
}

#[test]
fn several_causes_of_one_row_return_the_first_place() {
    let mut draft = Draft::of(&ring(6));
    let head = draft.head();
    draft.set_word(head.link_at(4) + 2, 0);
    draft.set(head.link_at(3), 6);
    draft.set(head.link_at(5) + 1, 5);
    assert_eq!(load(&draft.finish()), refused(6, 3));
}

#[test]
fn a_repeated_link_is_found_whatever_the_order_of_its_routers() {
    let same = ring(3).link(1, 2, 5, 5).link(0, 1, 1, 1);
    assert_eq!(load(&write(&same)), refused(7, 3));
    let reversed = ring(3).link(2, 1, 5, 5);
    assert_eq!(load(&write(&reversed)), refused(7, 3));
}

#[test]
fn lengths_about_the_limits() {
    let largest = write(&generate::largest(&mut Random::new(34)));
    assert_eq!(largest.len(), 6656);
    assert!(accepted(&largest));
    let longer = |bytes: usize| [largest.as_slice(), &vec![0; bytes]].concat();
    assert_eq!(load(&[]), refused(1, 0));
    assert_eq!(load(&largest[..511]), refused(1, 0));
    assert_eq!(load(&largest[..512]), refused(4, 13));
    assert_eq!(load(&largest[..513]), refused(1, 0));
    assert_eq!(load(&largest[..6655]), refused(1, 0));
    assert_eq!(load(&longer(1)), refused(1, 0));
    assert_eq!(load(&longer(512)), refused(1, 0));
    assert!(accepted(&write(&lone_router())));
    assert_eq!(write(&lone_router()).len(), 512);
}

#[test]
fn routers_about_the_limits() {
    assert_eq!(load(&write(&Network::of_routers(0))), refused(3, 0));
    assert!(accepted(&write(&Network::of_routers(1))));
    assert!(accepted(&write(&ring(64))));
    assert_eq!(load(&write(&ring(65))), refused(3, 0));
    assert_eq!(load(&write(&Network::of_routers(255))), refused(3, 0));
}

#[test]
fn links_about_the_limits() {
    let mut random = Random::new(35);
    for (links, file_blocks) in [(0, 1), (1, 2), (84, 2), (85, 3), (128, 3)] {
        let file = write(&generate::sized(64, links, 0, &mut random));
        assert_eq!(file.len(), file_blocks * 512);
        assert!(accepted(&file));
    }
    assert_eq!(load(&write(&generate::sized(64, 129, 0, &mut random))), refused(3, 0));
}

#[test]
fn prefixes_about_the_limits() {
    let mut random = Random::new(36);
    for (prefixes, file_blocks) in [(0, 1), (1, 2), (14, 2), (15, 3), (126, 10), (128, 11)] {
        let file = write(&generate::sized(64, 0, prefixes, &mut random));
        assert_eq!(file.len(), file_blocks * 512);
        assert!(accepted(&file));
    }
    assert_eq!(load(&write(&generate::sized(64, 0, 129, &mut random))), refused(3, 0));
}

#[test]
fn attachments_about_the_limits() {
    let attached = |count: u8| {
        let slots: Vec<(u8, u16)> = (0..count).map(|router| (router, 1)).collect();
        load(&write(&ring(9).prefix(&[(0, 0)]).prefix(&slots)))
    };
    assert_eq!(attached(0), refused(8, 1));
    assert!(matches!(attached(1), Answer::Accepted(_)));
    assert!(matches!(attached(8), Answer::Accepted(_)));
    assert_eq!(attached(9), refused(8, 1));
}

#[test]
fn costs_about_the_limits() {
    let costs = |forth, back| load(&write(&ring(3).link(0, 3, forth, back)));
    assert_eq!(costs(1, 1), refused(6, 3));
    let costs = |forth, back| {
        let mut network = ring(3);
        (network.links[2].forth, network.links[2].back) = (forth, back);
        load(&write(&network))
    };
    assert!(matches!(costs(65_535, 65_535), Answer::Accepted(_)));
    assert_eq!(costs(0, 65_535), refused(6, 2));
    assert_eq!(costs(65_535, 0), refused(6, 2));
    for cost in [0, 65_535] {
        assert!(accepted(&write(&ring(3).prefix(&[(0, cost)]))));
    }
}

#[test]
fn unused_slots_name_no_router() {
    assert!(accepted(&write(&ring(3).prefix(&[(0, 0)]))));
    assert!(accepted(&write(&ring(3).prefix(&[(1, 0), (0, 7)]))));
    assert_eq!(load(&write(&ring(3).prefix(&[(1, 0), (0, 7), (1, 2)]))), refused(9, 0));
}

#[test]
fn an_accepted_file_holds_the_network_it_was_made_from() {
    let mut random = Random::new(37);
    for _ in 0..20 {
        let network = generate::sized(40, 100, 50, &mut random);
        assert_eq!(load(&write(&network)), Answer::Accepted(network));
    }
}

#[test]
fn parts_of_entries() {
    let ctx = Context::sound();
    let network = generate::sized(64, 128, 128, &mut Random::new(38));
    let file = write(&network);
    for (link, expected) in network.links.iter().enumerate() {
        let Answer::Part { offset, bytes } = link_entry(&ctx, &file, link as u64).answer else {
            panic!("no part");
        };
        let block = if link < 84 { 1 } else { 2 };
        assert_eq!(offset, 512 * block + 4 + 6 * (link % 84));
        assert_eq!(bytes, file[offset..offset + 6]);
        assert_eq!(bytes[..2], [expected.a, expected.b]);
        assert_eq!(bytes[2..4], expected.forth.to_le_bytes());
        assert_eq!(bytes[4..], expected.back.to_le_bytes());
    }
    for (prefix, expected) in network.prefixes.iter().enumerate() {
        let Answer::Part { offset, bytes } = prefix_entry(&ctx, &file, prefix as u64).answer else {
            panic!("no part");
        };
        assert_eq!(offset, 512 * (3 + prefix / 14) + 4 + 34 * (prefix % 14));
        assert_eq!(bytes, file[offset..offset + 34]);
        assert_eq!(usize::from(bytes[0]), expected.attachments.len());
        for (slot, attachment) in expected.attachments.iter().enumerate() {
            let [low, high] = attachment.cost.to_le_bytes();
            assert_eq!(bytes[2 + 4 * slot..6 + 4 * slot], [attachment.router, 0, low, high]);
        }
    }
}

#[test]
fn empty_parts() {
    let ctx = Context::sound();
    let empty = Answer::Part { offset: 0, bytes: Vec::new() };
    let sound = write(&ring_4_with_prefix());
    let mut refused = sound.clone();
    refused[1000] ^= 1;
    for number in [4, 5, u64::MAX] {
        assert_eq!(link_entry(&ctx, &sound, number).answer, empty);
    }
    for number in [1, 2, u64::MAX] {
        assert_eq!(prefix_entry(&ctx, &sound, number).answer, empty);
    }
    for file in [&refused[..], &[], &sound[..512]] {
        assert_eq!(link_entry(&ctx, file, 0).answer, empty);
        assert_eq!(prefix_entry(&ctx, file, 0).answer, empty);
    }
}

#[test]
fn the_check_is_the_sum_of_255_words() {
    let file = write(&ring_4_with_prefix());
    for block in file.chunks(512) {
        let words = block.chunks(2).map(|word| u32::from(word[0]) + 256 * u32::from(word[1]));
        let words: Vec<u32> = words.collect();
        assert_eq!(words[..255].iter().sum::<u32>() % 65_536, words[255]);
    }
}

/// What each wrong sum makes of a block whose words are all 65,535, and of one
/// whose words are all 1.
#[test]
fn checks_as_wrong_sums_have_them() {
    let sums: [(&[Fault], [u32; 2]); 8] = [
        (&[], [65_536 - 255, 255]),
        (&[Fault::CheckOver254Words], [65_536 - 254, 254]),
        (&[Fault::CheckOver62Numbers], [65_536 - 251, 251]),
        (&[Fault::CheckWithoutLeftOver], [65_536 - 252, 252]),
        (&[Fault::CheckOfTwoLanes], [65_536 - 129, 129]),
        (&[Fault::CheckMostByteFirst], [65_536 - 255, 255 * 256]),
        // 63 times 65,535 carries 62, and so does each of the next two with that.
        (&[Fault::CheckCarriesOver], [65_536 - 255 + 3 * 62, 255]),
        (&[Fault::CheckCarryAddedBack], [65_535, 255]),
    ];
    for (faults, expected) in sums {
        let ctx = Context::with(faults);
        let of = |word: [u8; 2]| u32::from(check(&ctx, Bytes(&word.repeat(256)), 0));
        assert_eq!([of([255, 255]), of([1, 0])], expected, "{faults:?}");
    }
    assert_eq!(sums.len(), 1 + Fault::OF_CHECK.len());
}
