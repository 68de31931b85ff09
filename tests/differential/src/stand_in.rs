//! The oracle in the library's place. The tests of the comparison itself use
//! it: with a fault turned on it is a planner that is wrong in a known way.

use crate::call::{Call, Planner, Told};
use crate::campaign::{Case, run};
use oracle::answer::{Answer, Buffers, ask};
use oracle::fault::{Context, Fault};

/// A planner that answers as the oracle does with these faults.
pub struct StandIn {
    pub ctx: Context,
}

impl Planner for StandIn {
    fn ask(&self, call: Call) -> Told {
        let (work, route, made) = (call.work.to_vec(), call.route.to_vec(), call.made.to_vec());
        let lent = Buffers { work, route, made };
        let outcome = ask(&self.ctx, call.file, call.question, &lent);
        call.work.copy_from_slice(&outcome.left.work);
        call.route.copy_from_slice(&outcome.left.route);
        call.made.copy_from_slice(&outcome.left.made);
        if let Answer::Part { bytes, .. } = &outcome.answer {
            call.entry[..bytes.len()].copy_from_slice(bytes);
        }
        Told::from(&outcome.answer)
    }
}

/// Fails unless a planner with each of these faults differs in at least so many cases, and
/// the one without a fault in none.
pub fn assert_noticed(faults: &[Fault], cases: &[Case], least: usize) {
    let differing = |faults: &[Fault]| {
        let planner = StandIn { ctx: Context::with(faults) };
        run(&planner, cases).differences.len()
    };
    assert_eq!(differing(&[]), 0);
    for fault in faults {
        let count = differing(&[*fault]);
        println!("{} differs in {count} of {} cases", fault.name(), cases.len());
        assert!(count >= least, "{} differs in {count} cases only", fault.name());
    }
}
