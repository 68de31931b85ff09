//! The files that the baseline writes against those of the oracle: the same
//! number of bytes, and the same contents of the lent buffer.

use benchmark::answer::{self, Network};
use benchmark::baseline::Baseline;
use benchmark::side::Side;
use oracle::answer::Question;
use oracle::columns::Columns;
use oracle::fault::Context;
use oracle::generate::{self, Family};
use oracle::random::Random;
use oracle::write_questions::{self, Asked};
use oracle::writing;

/// A number of a question: one that does not fit counts as the largest.
fn number(number: u64) -> usize {
    usize::try_from(number).unwrap_or(usize::MAX)
}

/// The network by value of the oracle's columns.
fn by_value(columns: &Columns) -> Network {
    let Columns { from, to, out, back, attached, at, own, .. } = columns.clone();
    let counts = [columns.routers, columns.links, columns.prefixes];
    let [routers, links, prefixes] = counts.map(number);
    let counts = Network { routers, links, prefixes, ..answer::BLANK };
    Network { from, to, out, back, attached, at, own, ..counts }
}

/// Asks both. The answer is how many bytes are written.
fn ask((question, length): &Asked) -> usize {
    let sound = Context::sound();
    let lent: Vec<u8> = (0..*length).map(|place| 0x80 | place as u8).collect();
    let (mut made, mut expected) = (lent.clone(), lent);
    let (count, wanted) = match question {
        Question::Write { network } => (
            Baseline::write(&by_value(network), &mut made),
            writing::write(&sound, network, &mut expected),
        ),
        Question::Drill { seed, routers } => (
            Baseline::drill(*seed, number(*routers), &mut made),
            writing::drill(&sound, *seed, *routers, &mut expected),
        ),
        _ => panic!("{question:?} writes no file"),
    };
    assert_eq!(count, wanted, "{question:?}");
    assert!(made == expected, "{question:?}");
    count
}

/// The questions of the oracle's own corpus, from some seeds.
#[test]
fn the_corpus_has_the_same_files() {
    for seed in 0..4 {
        let asked = write_questions::questions(&mut Random::new(seed));
        let written = asked.iter().filter(|asked| ask(asked) > 0).count();
        assert!(written > 0 && written < asked.len());
    }
}

/// Every cause that puts a network outside the limits, at many places.
#[test]
fn networks_outside_the_limits_are_not_written() {
    for asked in write_questions::outside(50, &mut Random::new(5)) {
        assert_eq!(ask(&asked), 0, "{:?}", asked.0);
    }
}

/// Random networks of every family, and of every number of links and prefixes.
#[test]
fn random_networks_have_the_same_files() {
    let random = &mut Random::new(6);
    let families = Family::ALL.iter().flat_map(|family| [(family, 10), (family, 64)]);
    let mut networks: Vec<_> =
        families.map(|(family, most)| generate::network(*family, most, random)).collect();
    networks.extend((0..=128).map(|count| generate::sized(64, count, 128 - count, random)));
    for network in networks {
        let asked = write_questions::of_network(&network, random);
        assert!(asked.iter().any(|asked| ask(asked) > 0), "{network:?}");
    }
}

/// Drills of every size, from seeds of all kinds.
#[test]
fn all_drills_have_the_same_files() {
    let random = &mut Random::new(8);
    for routers in 3..=64 {
        for seed in [0, 1, u32::MAX, random.any() as u32, random.any() as u32] {
            let asked = (Question::Drill { seed, routers }, write_questions::DRILL + 1);
            assert_eq!(ask(&asked), write_questions::DRILL);
        }
    }
}
