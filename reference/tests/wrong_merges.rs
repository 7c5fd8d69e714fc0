//! Gates whose answers tell other merges than there are. Their sums (02, A7) meet; the check of
//! what answers say of merged counts (13.95, 13.96) must find them.

mod common;

use common::{differ, fault};
use reference::demand3::Gate;
use reference::events::{step, Answer, Event};
use reference::ipi::Ipi;
use reference::state::Module;
use reference::sums::Rules;

/// Against 4.37: what merged is not told.
fn tells_no_merging(m: &mut Module, event: &mut Event) -> Answer {
    match step(m, event) {
        Answer::Notice(Ok(mut admission)) => {
            admission.merged = 0;
            Answer::Notice(Ok(admission))
        }
        answer => answer,
    }
}

/// Against 7.20: an IPI names the caller where it is not among the new ones.
fn names_the_caller(m: &mut Module, event: &mut Event) -> Answer {
    match (Ipi::of(event), event.vcpu(), step(m, event)) {
        (Some(ipi), Some(vcpu), Answer::Call(Ok(named))) if ipi.targets(vcpu) => {
            Answer::Call(Ok(named | 2u64.pow(vcpu)))
        }
        (_, _, answer) => answer,
    }
}

/// The sums do not read these numbers, so they meet; what merged is not what the answers say.
#[test]
fn wrong_answers_are_found() {
    for (gate, expected) in [
        (tells_no_merging as Gate, "a notice's second number"),
        (names_the_caller, "an IPI merges elsewhere"),
    ] {
        assert!(!differ(gate, Rules::RIGHT));
        let found = fault(gate, Rules::RIGHT).unwrap();
        assert!(found.contains(expected), "{found}");
    }
}
