//! Files of networks worked by hand, and files that most often are refused: damaged
//! on purpose, or random.

use oracle::corpus::network_to_damage;
use oracle::damage::{self, Damage};
use oracle::file::{BLOCK, Draft, LARGEST, write};
use oracle::random::Random;
use oracle::row::Cause;
use oracle::worked;

/// A file with the name by which it can be made again.
pub struct NamedFile {
    pub name: String,
    pub bytes: Vec<u8>,
}

/// The networks worked by hand.
pub fn worked() -> Vec<NamedFile> {
    let named =
        |(name, network): (&str, _)| NamedFile { name: name.to_string(), bytes: write(&network) };
    worked::all().into_iter().map(named).collect()
}

/// Each cause alone, at its first place and at some random ones.
pub fn single_causes(places: usize, seed: u64) -> Vec<NamedFile> {
    let random = &mut Random::new(seed);
    let mut files = Vec::new();
    for cause in damage::causes() {
        for round in 0..places {
            let place = if round == 0 { 0 } else { random.below(1000) };
            files.push(damaged(&[(cause, place)], random));
        }
    }
    files
}

/// Every two causes at once, each with itself too.
pub fn pairs_of_causes(seed: u64) -> Vec<NamedFile> {
    let random = &mut Random::new(seed);
    let causes = damage::causes();
    let mut files = Vec::new();
    for (place, first) in causes.iter().enumerate() {
        for second in &causes[place..] {
            let both = [(*first, random.below(1000)), (*second, random.below(1000))];
            files.push(damaged(&both, random));
        }
    }
    files
}

/// Three to six random causes at once.
pub fn several_causes(count: usize, seed: u64) -> Vec<NamedFile> {
    let random = &mut Random::new(seed);
    let causes = damage::causes();
    let several = |random: &mut Random| {
        let some = random.between(3, 6);
        let picked: Vec<(Cause, usize)> =
            (0..some).map(|_| (random.pick(&causes), random.below(1000))).collect();
        damaged(&picked, random)
    };
    (0..count).map(|_| several(random)).collect()
}

/// A random network's file with these causes, each at its place.
fn damaged(causes: &[(Cause, usize)], random: &mut Random) -> NamedFile {
    let mut damage = Damage::to(&network_to_damage(random));
    for (cause, place) in causes {
        damage.cause(*cause, *place);
    }
    NamedFile { name: format!("damage {causes:?}"), bytes: damage.finish() }
}

/// Sound files with one to three bytes replaced by random ones, most of them
/// with right checks: no list of causes says where they are hit.
pub fn changed_bytes(count: usize, seed: u64) -> Vec<NamedFile> {
    let random = &mut Random::new(seed);
    let changed = |random: &mut Random, round| {
        let mut draft = Draft::of(&network_to_damage(random));
        for _ in 0..random.between(1, 3) {
            let at = random.below(draft.length());
            let value = if random.one_in(2) { random.byte() } else { random.below(4) as u8 };
            match random.one_in(8) {
                true => draft.set_late(at, value),
                false => draft.set(at, value),
            }
        }
        NamedFile { name: format!("changed bytes {round}, seed {seed}"), bytes: draft.finish() }
    };
    (0..count).map(|round| changed(random, round)).collect()
}

/// Random bytes of any length up to a little more than the most, random whole
/// blocks, and random content in blocks with right checks.
pub fn random_bytes(count: usize, seed: u64) -> Vec<NamedFile> {
    let random = &mut Random::new(seed);
    let mut files = Vec::new();
    for round in 0..count {
        let length = random.below(LARGEST + 2 * BLOCK);
        let blocks = BLOCK * random.between(1, 14);
        let kinds = [
            ("bytes", random.bytes(length)),
            ("blocks", random.bytes(blocks)),
            ("checked blocks", damage::random_blocks(random)),
            ("checked content", checked_content(random)),
        ];
        for (kind, bytes) in kinds {
            files.push(NamedFile { name: format!("random {kind} {round}, seed {seed}"), bytes });
        }
    }
    files
}

/// Files of one byte repeated, of the lengths about the limits of row 1.
pub fn repeated_bytes() -> Vec<NamedFile> {
    let lengths = [0, 1, 511, 512, 513, 1024, 6655, 6656, 6657, 7168, 8192, 65_536];
    let files = lengths.into_iter().flat_map(|length| {
        [0, 1, 255].map(|byte| NamedFile {
            name: format!("{length} times the byte {byte}"),
            bytes: vec![byte; length],
        })
    });
    files.collect()
}

/// A sound file whose later blocks are filled with random bytes below 64, with
/// right checks.
fn checked_content(random: &mut Random) -> Vec<u8> {
    let mut draft = Draft::of(&network_to_damage(random));
    for at in BLOCK..draft.length() {
        if at % BLOCK >= 4 && at % BLOCK < 510 {
            draft.set(at, random.below(64) as u8);
        }
    }
    draft.finish()
}
