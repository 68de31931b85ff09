//! The whole plan, put together from the calls of one side in the way of the
//! program `plan`: one load, one fill of the distances, and a link repair with
//! them for each link and end, each of which reads the file and checks the
//! distances anew. The ranks ascend.

use crate::answer::{Answer, PAIR, REFUSED};
use crate::side::Side;
use planner::ASCENDING_RANKS;

/// Adds the text of a file's plan. The work area has cells enough for the file.
pub fn write<S: Side>(file: &[u8], work: &mut [u32], text: &mut Vec<u8>) {
    let network = S::load(file);
    if network.kind == REFUSED {
        text.extend(b"refused");
        fields(text, &[u64::from(network.number), network.value]);
        return;
    }
    text.extend(b"plan");
    fields(text, &[network.routers as u64, network.links as u64, network.prefixes as u64]);
    S::distances(file, work);
    for link in 0..network.links {
        let (a, b) = (u64::from(network.from[link]), u64::from(network.to[link]));
        for (end, near, far) in [(0, a, b), (1, b, a)] {
            digits(text, link as u64);
            for field in [end, near, far] {
                text.push(b' ');
                digits(text, field);
            }
            repair(text, &S::link_repair_with(file, work, &ASCENDING_RANKS, link, end as usize));
        }
    }
}

/// The last four fields of a line.
fn repair(text: &mut Vec<u8>, answer: &Answer) {
    if answer.kind != PAIR {
        text.extend(b" none none none none\n");
        return;
    }
    let (class, cost) = (u64::from(answer.pair_class), u64::from(answer.cost));
    fields(text, &[answer.first as u64, answer.endpoint as u64, class, cost]);
}

/// Numbers with a space before each, and the end of the line.
fn fields(text: &mut Vec<u8>, numbers: &[u64]) {
    for number in numbers {
        text.push(b' ');
        digits(text, *number);
    }
    text.push(b'\n');
}

fn digits(text: &mut Vec<u8>, number: u64) {
    if number > 9 {
        digits(text, number / 10);
    }
    text.push(b'0' + (number % 10) as u8);
}
