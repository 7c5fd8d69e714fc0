//! How returned items, hand-backs and leaving vCPUs meet what is pending: where the sums (13.88)
//! are easily got wrong. And which check refuses a hand-back (11.17).

use crate::codes::{Code, HAS_LEFT, SHORT_PAGE, STILL_ACTIVE, UNKNOWN_VCPU};
use crate::events::{Answer, Event};
use crate::state::{items, Module};

/// An event has each of these kinds that it is of.
pub const KINDS: [&str; 14] = [
    "non-delivery, was not pending",
    "non-delivery, was pending",
    "hand-back, nothing pending",
    "hand-back, something pending",
    "hand-back, level-sensitive below the highest",
    "hand-back, accepted",
    "hand-back, code 1",
    "hand-back, code 3",
    "hand-back, code 3, short page",
    "hand-back, code 3, count 0",
    "hand-back, code 7",
    "hand-back, code 7, short page",
    "hand-back, code 2",
    "leaving, something in flight",
];

type Found = Vec<(&'static str, bool)>;

pub fn kinds(before: &Module, event: &Event, answer: &Answer) -> Vec<String> {
    let found = match (event, answer) {
        (Event::NonDelivery { vcpu }, Answer::NonDelivery(Ok(_))) => {
            let r = before.record(*vcpu);
            let met = r.flight.is_some_and(|item| r.has_pending(item));
            vec![
                ("non-delivery, was not pending", !met),
                ("non-delivery, was pending", met),
            ]
        }
        (Event::HandBack { vcpu, .. }, Answer::HandBack(Ok(_))) => accepted(before, *vcpu),
        (Event::HandBack { page, .. }, Answer::HandBack(Err(code))) => {
            refused(*code, page.len() < 256, before.count == 0)
        }
        (
            Event::Call {
                vcpu, call: 1, ecx, ..
            },
            Answer::Call(Ok(_)),
        ) => {
            let in_flight = before.record(*vcpu).flight.is_some();
            let left_behind = in_flight && leaves(before.count, *ecx);
            vec![("leaving, something in flight", left_behind)]
        }
        _ => vec![],
    };
    let held = found.iter().filter(|(_, holds)| *holds);
    held.map(|(kind, _)| kind.to_string()).collect()
}

fn accepted(before: &Module, vcpu: u32) -> Found {
    let r = before.record(vcpu);
    let any = items().any(|item| r.has_pending(item));
    let below = r.pending_level.members().len() > 1;
    vec![
        ("hand-back, accepted", true),
        ("hand-back, nothing pending", !any),
        ("hand-back, something pending", any),
        ("hand-back, level-sensitive below the highest", below),
    ]
}

/// Of 3 and 7 also how often a later check would refuse too, for the page.
fn refused(code: Code, short: bool, none_registered: bool) -> Found {
    let (active, left) = (code == STILL_ACTIVE, code == HAS_LEFT);
    vec![
        ("hand-back, code 1", code == UNKNOWN_VCPU),
        ("hand-back, code 3", active),
        ("hand-back, code 3, short page", active && short),
        ("hand-back, code 3, count 0", active && none_registered),
        ("hand-back, code 7", left),
        ("hand-back, code 7, short page", left && short),
        ("hand-back, code 2", code == SHORT_PAGE),
    ]
}

/// 5.8 to 5.10
fn leaves(count: u8, ecx: u32) -> bool {
    ecx == 0 && count == 0 || ecx == 1 && count <= 1
}
