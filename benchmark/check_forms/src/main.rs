//! Both forms of the check of a block on the largest file, with the compiler's
//! vectors and without them, and the load of that file. `benchmark/check-forms`
//! builds what is linked here, and runs it.
//!
//! Without a word it times all calls. The name of a call makes that call once,
//! so that its instructions can be counted.

use benchmark::answer::ACCEPTED;
use benchmark::networks;
use benchmark::timing::measure_each;
use planner::raw::{planner_load, Network};
use std::hint::black_box;

/// Samples of each call.
const ROUNDS: usize = 301;

// SAFETY: the first is the C function of the crate `check_forms`; the other two
// are it and the planner's, from libraries that were built without vectors. A
// slice is passed as pointer and length.
unsafe extern "C" {
    fn check_forms_first_bad(file: *const u8, file_len: usize, words: bool) -> usize;
    fn plain_check_forms_first_bad(file: *const u8, file_len: usize, words: bool) -> usize;
    fn plain_planner_load(file: *const u8, file_len: usize) -> Network;
}

type FirstBad = unsafe extern "C" fn(*const u8, usize, bool) -> usize;
type Load = unsafe extern "C" fn(*const u8, usize) -> Network;

/// A call on a file.
#[derive(Clone, Copy)]
enum Call {
    /// The first block whose check is wrong, by one of the forms.
    Check {
        first_bad: FirstBad,
        words: bool,
    },
    Load(Load),
}

/// The calls with their names: the old form, the new one and the load, with
/// vectors and then without.
const CALLS: [(&str, Call); 6] = [
    ("words", Call::Check { first_bad: check_forms_first_bad, words: true }),
    ("numbers", Call::Check { first_bad: check_forms_first_bad, words: false }),
    ("load", Call::Load(planner_load)),
    ("plain-words", Call::Check { first_bad: plain_check_forms_first_bad, words: true }),
    ("plain-numbers", Call::Check { first_bad: plain_check_forms_first_bad, words: false }),
    ("plain-load", Call::Load(plain_planner_load)),
];

impl Call {
    /// Makes the call on a file that only its checks may spoil, and tells the
    /// first block whose check is wrong, or the number of blocks.
    fn first_bad(self, file: &[u8]) -> usize {
        let (pointer, length) = (file.as_ptr(), file.len());
        match self {
            // SAFETY: pointer and length are those of a slice, which is only read.
            Call::Check { first_bad, words } => unsafe { first_bad(pointer, length, words) },
            Call::Load(load) => {
                // SAFETY: as above.
                let network = unsafe { load(pointer, length) };
                match black_box(&network) {
                    Network { kind: ACCEPTED, .. } => length / 512,
                    Network { value, .. } => *value as usize,
                }
            }
        }
    }
}

fn main() {
    let file = networks::ring_with_chords();
    let Some(name) = std::env::args().nth(1) else {
        compare(file.clone());
        print_times(&file);
        return;
    };
    let call = CALLS.iter().find(|(other, _)| *other == name);
    let (_, call) = call.expect("the name of a call");
    black_box(call.first_bad(black_box(&file)));
}

/// All calls find the file sound, and find the block of every bit that is
/// turned over.
fn compare(mut file: Vec<u8>) {
    for (name, call) in CALLS {
        assert_eq!(call.first_bad(&file), 13, "{name}");
        for bit in 0..8 * file.len() {
            file[bit / 8] ^= 1 << (bit % 8);
            assert_eq!(call.first_bad(&file), bit / 8 / 512, "{name}, bit {bit}");
            file[bit / 8] ^= 1 << (bit % 8);
        }
    }
    println!("{} bits of the largest file turned over: found by each call", 8 * file.len());
}

/// The table of times.
fn print_times(file: &[u8]) {
    let mut calls = CALLS.map(|(_, call)| {
        let call = move || _ = black_box(call.first_bad(black_box(file)));
        Box::new(call) as Box<dyn FnMut()>
    });
    let times = measure_each(ROUNDS, &mut calls);
    let blocks = (file.len() / 512) as f64;
    let line = |name: &str, of: &dyn Fn(&[f64]) -> f64| {
        println!("| {name} | {:.1} | {:.1} |", of(&times[..3]), of(&times[3..]));
    };
    println!();
    println!("| ns | with vectors | without |");
    println!("|---|---:|---:|");
    line("a block, a word at a time", &|times| times[0] / blocks);
    line("a block, numbers of eight bytes", &|times| times[1] / blocks);
    line("13 blocks, a word at a time", &|times| times[0]);
    line("13 blocks, numbers of eight bytes", &|times| times[1]);
    line("the difference of these", &|times| times[0] - times[1]);
    line("load of the largest file, numbers of eight bytes", &|times| times[2]);
}
