//! Wrong ways to count the sums of request A7 (02): found by the sums themselves, or, where these meet
//! all the same, by the answers of IPIs and by a case counted by hand.

mod common;

use common::{differ, fault, rows_by};
use reference::events::step;
use reference::sums::{Counts, Rules};

/// The slip that no sum shows: of an IPI's targets only those that its answer names.
const BY_THE_ANSWER: Rules = Rules {
    reaches: |_, _, named, id| named / 2u64.pow(id) % 2 == 1,
    ..Rules::RIGHT
};

/// A request that merges is left out on both sides, so these meet in every list. A case counted by
/// hand has other numbers, and merged does not rise where the answer says that it does.
#[test]
fn requests_by_the_answer() {
    assert!(!differ(step, BY_THE_ANSWER));
    let twice = "start 2 1
        call 0 3 0x830 0x0000000100004041
        call 0 3 0x830 0x0000000100004041";
    assert_eq!(
        rows_by(BY_THE_ANSWER, twice),
        [(1, 0x41, [1, 0, 0, 0, 0, 1])]
    );
    assert_eq!(
        rows_by(Rules::RIGHT, twice),
        [(1, 0x41, [2, 0, 1, 0, 0, 1])]
    );
    let found = fault(step, BY_THE_ANSWER).unwrap();
    assert!(found.contains("an IPI merges elsewhere"), "{found}");
}

fn unmerged_return(counts: &mut Counts) {
    counts.returns += 1;
    counts.waits = true;
}

fn unmerged_request(counts: &mut Counts) {
    counts.requests += 1;
    counts.waits = true;
}

fn uncounted_hand_back(counts: &mut Counts) {
    counts.waits = false;
}

/// Counted, and it waits on.
fn hand_back_ends_nothing(counts: &mut Counts) {
    counts.handed_back += u64::from(counts.waits);
}

/// Counted, waiting or not.
fn every_hand_back(counts: &mut Counts) {
    counts.handed_back += 1;
    counts.waits = false;
}

fn waits_after_presentation(counts: &mut Counts) {
    counts.presented += 1;
}

/// A return that is no request of its own: it takes back the presentation.
fn return_undoes(counts: &mut Counts) {
    counts.presented -= 1;
    counts.waits = true;
}

#[test]
fn wrong_counters_are_found() {
    let right = Rules::RIGHT;
    for (name, rules) in [
        (
            "unmerged_return",
            Rules {
                give_back: unmerged_return,
                ..right
            },
        ),
        (
            "unmerged_request",
            Rules {
                request: unmerged_request,
                ..right
            },
        ),
        (
            "uncounted_hand_back",
            Rules {
                hand_back: uncounted_hand_back,
                ..right
            },
        ),
        (
            "hand_back_ends_nothing",
            Rules {
                hand_back: hand_back_ends_nothing,
                ..right
            },
        ),
        (
            "every_hand_back",
            Rules {
                hand_back: every_hand_back,
                ..right
            },
        ),
        (
            "waits_after_presentation",
            Rules {
                present: waits_after_presentation,
                ..right
            },
        ),
        (
            "return_undoes",
            Rules {
                give_back: return_undoes,
                ..right
            },
        ),
        (
            "every target",
            Rules {
                reaches: |_, ipi, _, id| ipi.targets(id),
                ..right
            },
        ),
    ] {
        assert!(differ(step, rules), "{name}");
    }
}
