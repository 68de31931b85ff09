//! Row 2, the check of a block: every single bit of some blocks, and blocks of
//! many looks, each with its right check and with those that wrong sums have.

use differential::c_interface::CInterface;
use differential::call::Planner;
use differential::compare::{Asked, compare};
use differential::each;
use differential::library::Library;
use oracle::answer::{Answer, Opened, Question};
use oracle::fault::{Context, Fault};
use oracle::file::{BLOCK, Bytes, check};
use oracle::random::Random;
use oracle::stored;
use oracle::stored::cases::Cases;

/// The answer of the oracle to the load of a file. Both interfaces of the
/// planner have to tell the same.
fn loaded(file: &[u8]) -> Answer {
    let sound = Context::sound();
    let opened = Opened::new(&sound, file);
    let asked = Asked::of_file(Question::Load, 0, 0);
    let planners: [&dyn Planner; 2] = [&Library, &CInterface];
    let [library, c_interface] = planners.map(|planner| compare(planner, &opened, file, &asked));
    assert_eq!(library.difference, None);
    assert_eq!(c_interface.difference, None);
    library.expected.answer
}

fn refused(number: u8, block: usize) -> Answer {
    Answer::Refused { number, value: block as u32 }
}

/// A sum changes with every bit of its words, and so does a check that is read.
#[test]
fn every_bit_of_a_block_counts() {
    let stored = Cases::read(&stored::root()).expect("the texts of the repository");
    let largest = stored.networks.into_iter().find(|case| case.name == "largest");
    let largest = largest.expect("a stored network").file;
    assert!(matches!(loaded(&largest), Answer::Accepted(_)));
    let bits: Vec<usize> = (0..8 * BLOCK).collect();
    // The head, a full link block, a full prefix block, and the last block.
    for (block, kind, entries) in [(0, 1, 0), (1, 2, 84), (3, 3, 14), (12, 3, 2)] {
        let start = block * BLOCK;
        assert_eq!(largest[start..start + 2], [kind, entries]);
        let answers = each(&bits, |bit| {
            let mut file = largest.clone();
            file[start + bit / 8] ^= 1 << (bit % 8);
            loaded(&file)
        });
        let row_2 = answers.iter().filter(|answer| **answer == refused(2, block));
        assert_eq!(row_2.count(), 4096, "block {block}");
    }
}

/// So many blocks of random bytes, and as many of mostly zeros.
const RANDOM: usize = 2000;

/// Blocks without their checks: patterns, one place of every four words full,
/// random bytes, and few bytes, whose words hardly ever carry.
fn contents() -> Vec<Vec<u8>> {
    let patterns: [[u8; 2]; 7] =
        [[0, 0], [255, 255], [255, 0], [0, 255], [0x55, 0xaa], [0xaa, 0x55], [0x80, 0x80]];
    let mut contents: Vec<Vec<u8>> = patterns.map(|pattern| pattern.repeat(255)).into();
    for place in 0..4 {
        let full = |at: usize| if at / 2 % 4 == place { 255 } else { 0 };
        contents.push((0..510).map(full).collect());
    }
    let random = &mut Random::new(61);
    contents.extend((0..RANDOM).map(|_| random.bytes(510)));
    let mut few = |_| if random.one_in(100) { random.byte() } else { 0 };
    contents.extend((0..RANDOM).map(|_| (0..510).map(&mut few).collect()));
    contents
}

/// A way to come by a check: from a content and its right check.
type Way = Box<dyn Fn(&[u8], u16) -> u16 + Sync>;

/// The checks that are tried: the right one, some that are near it, and those of
/// all wrong sums.
fn tried() -> Vec<(String, Way)> {
    let mut tried: Vec<(String, Way)> = vec![
        ("right".to_string(), Box::new(|_, right| right)),
        ("one more".to_string(), Box::new(|_, right| right.wrapping_add(1))),
        ("one less".to_string(), Box::new(|_, right| right.wrapping_sub(1))),
        ("bytes swapped".to_string(), Box::new(|_, right| right.swap_bytes())),
    ];
    for fault in Fault::OF_CHECK {
        let ctx = Context::with(&[fault]);
        tried.push((fault.name(), Box::new(move |content, _| check(&ctx, Bytes(content), 0))));
    }
    tried
}

/// The check of a content as document 01 says it.
fn right(content: &[u8]) -> u16 {
    let words = content.chunks(2).map(|word| u32::from(word[0]) + 256 * u32::from(word[1]));
    (words.sum::<u32>() % 65_536) as u16
}

/// A file of 13 blocks of zeros, whose checks are right, but for one block.
fn file_of(content: &[u8], check: u16, block: usize) -> Vec<u8> {
    let mut file = vec![0; 13 * BLOCK];
    let start = block * BLOCK;
    file[start..start + 510].copy_from_slice(content);
    file[start + 510..start + 512].copy_from_slice(&check.to_le_bytes());
    file
}

/// How many of the tried checks are not the right one: of the patterns, of the
/// random contents and of those with few bytes.
const WRONG: [(&str, [usize; 3]); 11] = [
    ("right", [0, 0, 0]),
    ("one more", [11, 2000, 2000]),
    ("one less", [11, 2000, 2000]),
    ("bytes swapped", [10, 1993, 1977]),
    ("CheckOver254Words", [7, 2000, 33]),
    ("CheckOver62Numbers", [10, 2000, 149]),
    ("CheckWithoutLeftOver", [9, 2000, 122]),
    ("CheckOfTwoLanes", [8, 2000, 1822]),
    ("CheckMostByteFirst", [4, 2000, 1984]),
    ("CheckCarriesOver", [8, 2000, 424]),
    ("CheckCarryAddedBack", [9, 2000, 1127]),
];

/// Row 2 refuses a file exactly where the check is another than the right one;
/// otherwise its head is refused.
#[test]
fn blocks_of_many_looks() {
    let contents: Vec<(usize, Vec<u8>)> = contents().into_iter().enumerate().collect();
    let tried = tried();
    assert_eq!((contents.len(), tried.len()), (11 + 2 * RANDOM, WRONG.len()));
    for ((name, way), (expected_name, expected)) in tried.into_iter().zip(WRONG) {
        let wrong = each(&contents, |(number, content)| {
            let right = right(content);
            let check = way(content, right);
            let block = number % 13;
            let answer = loaded(&file_of(content, check, block));
            assert_eq!(answer, if check == right { refused(3, 0) } else { refused(2, block) });
            usize::from(check != right)
        });
        let (patterns, others) = wrong.split_at(11);
        let (random, few) = others.split_at(RANDOM);
        let counts = [patterns, random, few].map(|wrong| wrong.iter().sum::<usize>());
        assert_eq!((name.as_str(), counts), (expected_name, expected));
    }
}
